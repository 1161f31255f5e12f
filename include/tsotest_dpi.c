/* SPDX-License-Identifier: MIT OR Apache-2.0 */
/* The bodies of tsotest_dpi.sv. Values have two states here: an X or a Z of the design arrives as 0, so test for them where they
 * may come. */
#define _POSIX_C_SOURCE 199309L
#include "tsotest.h"
#include "tsotest_record.h"

#include <stdio.h>
#include <stdlib.h>
#include <time.h>

enum { BROKEN = 3, MISUSED = 4 };

/* A text with a 0 byte at its end. */
struct text {
    char *bytes;
    size_t room, len;
};

static struct tsotest_record record;
/* What tsotest_dpi_hold asked for, no events where it was not called; and memory for it. */
static struct {
    int events, addresses, label_bytes;
    void *memory;
    size_t size;
} held;
static struct text recording, values, program, labels, verdict, explanation, drawing, reduction;
/* Of the last call of judge, of all runs before this one, and of all runs. */
static struct tsotest_counts counts, sums_before, sums;
static double seconds;

/* Makes room for a text, and says whether there is. */
static int has_room(struct text *text, size_t len)
{
    if (text->room <= len) {
        char *grown = (char *)realloc(text->bytes, len + 1);
        if (!grown)
            return 0;
        text->bytes = grown;
        text->room = len + 1;
    }
    return 1;
}

static const char *shown(struct text *text)
{
    if (!text->bytes)
        return "";
    text->bytes[text->len] = '\0';
    return text->bytes;
}

static const char *nothing(struct text *text)
{
    text->len = 0;
    return shown(text);
}

typedef enum tsotest_fault recorded_text(struct tsotest_record *, char *, size_t, size_t *);

/* Fills a text from the record, and says whether that could be. */
static int is_recorded(struct text *text, recorded_text *of)
{
    /* No text of a short run is longer than its labels may be, and few of a long one have more than 40 bytes an event. */
    size_t len = TSOTEST_MAX_LABELS_BYTES + 40 * (size_t)record.events;
    text->len = 0;
    for (int tries = 0; tries < 2 && has_room(text, len); tries++)
        if (!of(&record, text->bytes, text->room - 1, &len)) {
            text->len = len;
            return 1;
        }
    return 0;
}

static int are_recorded(void)
{
    return is_recorded(&recording, tsotest_recording_text) && is_recorded(&program, tsotest_program_text);
}

/* Whether the record has more than the calls that take a program do, so that those of long recordings are asked. */
static int is_long(void)
{
    return record.cores > TSOTEST_MAX_CORES || record.events > TSOTEST_MAX_EVENTS || record.names > TSOTEST_MAX_ADDRESSES;
}

typedef uint8_t text_of(const char *, size_t, const char *, size_t, char *, size_t, size_t *);

/* Fills a text from the recording and its program. */
static const char *answered(struct text *text, text_of *of)
{
    size_t len = 65535;
    int has_texts = is_recorded(&recording, tsotest_recording_text) && (is_long() || is_recorded(&program, tsotest_program_text));
    for (int tries = 0; has_texts && tries < 2; tries++) {
        uint8_t status;
        if (!has_room(text, len))
            break;
        status = of(recording.bytes, recording.len, shown(&program), program.len, text->bytes, text->room - 1, &len);
        if (status != TSOTEST_ALLOWED && status != TSOTEST_VIOLATION)
            break;
        if (len < text->room) {
            text->len = len;
            return shown(text);
        }
    }
    return nothing(text);
}

static uint8_t draw_needed(const char *text, size_t len, const char *names, size_t names_len, char *out, size_t room,
                           size_t *size)
{
    return tsotest_draw(text, len, names, names_len, false, out, room, size);
}

static uint8_t draw_all(const char *text, size_t len, const char *names, size_t names_len, char *out, size_t room,
                        size_t *size)
{
    return tsotest_draw(text, len, names, names_len, true, out, room, size);
}

static uint8_t explain(const char *text, size_t len, const char *names, size_t names_len, char *out, size_t room, size_t *size)
{
    return is_long() ? tsotest_explain_long(text, len, out, room, size) : tsotest_explain(text, len, names, names_len, out, room, size);
}

static uint8_t reduce(const char *text, size_t len, const char *names, size_t names_len, char *out, size_t room, size_t *size)
{
    return is_long() ? tsotest_reduce_long(text, len, out, room, size) : tsotest_reduce(text, len, names, names_len, out, room, size);
}

/* Takes the run out of what was counted. */
static void uncount_run(void)
{
    memset(&counts, 0, sizeof counts);
    sums = sums_before;
}

/* Counts the run. */
static void count_run(void)
{
    tsotest_record_count(&record, &counts);
    tsotest_record_count(&record, &sums);
}

/* Forgets the last run, which stays in the sums. */
static void begin_run(void)
{
    nothing(&verdict);
    sums_before = sums;
    uncount_run();
}

static int judged(void)
{
    int has_text = is_recorded(&recording, tsotest_recording_text);
    size_t len = is_long() ? TSOTEST_LONG_VERDICT_BYTES(record.events) : 65535;
    nothing(&verdict);
    uncount_run();
    if (record.error)
        return tsotest_is_of_design(record.error) ? BROKEN : MISUSED;
    for (int tries = 0; has_text && tries < 2 && has_room(&verdict, len); tries++) {
        uint8_t status = (is_long() ? tsotest_judge_long : tsotest_judge)(recording.bytes, recording.len, verdict.bytes,
                                                                          verdict.room - 1, &len);
        if (status == TSOTEST_REFUSED) {
            tsotest_record_fail(&record, TSOTEST_FULL, "the judge refuses the recording");
            return MISUSED;
        }
        if (status == TSOTEST_OUT_OF_MEMORY)
            break;
        if (len < verdict.room) {
            verdict.len = len;
            count_run();
            return (int)tsotest_kind_of(verdict.bytes, len);
        }
    }
    tsotest_record_fail(&record, TSOTEST_FULL, "out of memory");
    return MISUSED;
}

/* Begins a recording in memory that is held for it, of as many cores as there may be. */
static void begin_held(int cores)
{
    const size_t most = TSOTEST_RECORD_BYTES(TSOTEST_MAX_LONG_CORES, TSOTEST_MAX_LONG_EVENTS, TSOTEST_MAX_LONG_ADDRESSES,
                                             TSOTEST_MAX_LABEL_BYTES);
    size_t size = TSOTEST_RECORD_BYTES(TSOTEST_MAX_LONG_CORES, held.events, held.addresses, held.label_bytes);
    if (held.size < size && size <= most) {
        free(held.memory);
        held.memory = malloc(size);
        held.size = held.memory ? size : 0;
    }
    tsotest_record_begin_in(&record, cores, held.events, held.addresses, held.label_bytes, held.memory, held.size);
}

static double now(void)
{
    struct timespec t;
    clock_gettime(CLOCK_MONOTONIC, &t);
    return (double)t.tv_sec + 1e-9 * (double)t.tv_nsec;
}

static FILE *opened(const char *prefix, const char *suffix)
{
    char path[1024];
    int len = snprintf(path, sizeof path, "%s%s", prefix, suffix);
    return len > 0 && (size_t)len < sizeof path ? fopen(path, "w") : NULL;
}

static int is_written(const char *prefix, const char *suffix, struct text *text)
{
    FILE *file = opened(prefix, suffix);
    int is_whole = file && fwrite(shown(text), 1, text->len, file) == text->len;
    return file && fclose(file) == 0 && is_whole;
}

#ifdef __cplusplus
extern "C" {
#endif

void tsotest_dpi_hold(int events, int addresses, int label_bytes)
{
    held.events = events;
    held.addresses = addresses;
    held.label_bytes = label_bytes;
}

void tsotest_dpi_begin(int cores)
{
    if (held.events)
        begin_held(cores);
    else
        tsotest_record_begin(&record, cores);
    begin_run();
}

void tsotest_dpi_continue(void)
{
    tsotest_record_continue(&record);
    begin_run();
}

void tsotest_dpi_allow_empty(void)
{
    tsotest_record_allow_empty(&record);
}

void tsotest_dpi_initial(uint64_t address, uint64_t value)
{
    tsotest_record_initial(&record, address, value);
}

void tsotest_dpi_load(int core, uint64_t address, uint64_t value)
{
    tsotest_record_load(&record, core, address, value);
}

void tsotest_dpi_store(int core, uint64_t address, uint64_t value)
{
    tsotest_record_store(&record, core, address, value);
}

void tsotest_dpi_rmw(int core, uint64_t address, uint64_t read, uint64_t value)
{
    tsotest_record_rmw(&record, core, address, read, value);
}

void tsotest_dpi_failed_cas(int core, uint64_t address, uint64_t read)
{
    tsotest_record_failed_cas(&record, core, address, read);
}

void tsotest_dpi_fence(int core)
{
    tsotest_record_fence(&record, core);
}

void tsotest_dpi_commit(int core, uint64_t address, uint64_t value)
{
    tsotest_record_commit(&record, core, address, value);
}

void tsotest_dpi_commit_merged(int core, uint64_t address, uint64_t value)
{
    tsotest_record_commit_merged(&record, core, address, value);
}

int tsotest_dpi_last_event(void)
{
    return record.error ? -1 : record.events - 1;
}

void tsotest_dpi_value(int event, uint64_t value)
{
    tsotest_record_value(&record, event, value);
}

void tsotest_dpi_source(int event, int write)
{
    tsotest_record_source(&record, event, write);
}

void tsotest_dpi_commit_event(int event)
{
    tsotest_record_commit_event(&record, event);
}

void tsotest_dpi_label(int event, const char *label)
{
    tsotest_record_label(&record, event, label);
}

int tsotest_dpi_judge(void)
{
    double start = now();
    int answer = judged();
    seconds += now() - start;
    return answer;
}

const char *tsotest_dpi_message(void)
{
    return record.message;
}

const char *tsotest_dpi_recording(void)
{
    is_recorded(&recording, tsotest_recording_text);
    return shown(&recording);
}

const char *tsotest_dpi_values_alone(void)
{
    is_recorded(&values, tsotest_values_text);
    return shown(&values);
}

const char *tsotest_dpi_program(void)
{
    is_recorded(&program, tsotest_program_text);
    return shown(&program);
}

const char *tsotest_dpi_labels(void)
{
    is_recorded(&labels, tsotest_labels_text);
    return shown(&labels);
}

const char *tsotest_dpi_verdict(void)
{
    return shown(&verdict);
}

const char *tsotest_dpi_explanation(void)
{
    return answered(&explanation, explain);
}

const char *tsotest_dpi_drawing(unsigned char all)
{
    return answered(&drawing, all ? draw_all : draw_needed);
}

const char *tsotest_dpi_reduction(void)
{
    return answered(&reduction, reduce);
}

int tsotest_dpi_save(const char *prefix)
{
    FILE *file = opened(prefix, ".log");
    enum tsotest_fault fault = file ? tsotest_write_log(&record, file) : TSOTEST_WRITE_FAILED;
    if ((file && fclose(file)) || fault)
        return 1;
    if (record.error)
        return 0;
    return !(are_recorded() && is_recorded(&labels, tsotest_labels_text) && is_written(prefix, ".json", &recording)
             && is_written(prefix, ".litmus", &program) && is_written(prefix, ".labels", &labels)
             && is_written(prefix, ".verdict", &verdict));
}

uint64_t tsotest_dpi_events(void)
{
    return counts.events;
}

uint64_t tsotest_dpi_foreign_reads(void)
{
    return counts.foreign_reads;
}

uint64_t tsotest_dpi_commits(void)
{
    return counts.commits;
}

const char *tsotest_dpi_sums(void)
{
    static char line[TSOTEST_MAX_COUNTS_BYTES + 1];
    size_t len;
    tsotest_counts_text(&sums, line, TSOTEST_MAX_COUNTS_BYTES, &len);
    line[len] = '\0';
    return line;
}

double tsotest_dpi_seconds(void)
{
    return seconds;
}

void tsotest_dpi_exit(int status)
{
    exit(status);
}

#ifdef __cplusplus
}
#endif
