/* What the recorder gives, what it refuses, and how it says so. */
#include "tsotest.h"
#include "tsotest_record.h"

#include <assert.h>
#include <stdlib.h>

static struct tsotest_record r;
static char out[TSOTEST_MAX_RECORDING_BYTES];
static size_t len;

static void fails(enum tsotest_fault fault, bool is_of_design, const char *words)
{
    enum tsotest_fault got = tsotest_recording_text(&r, out, sizeof out, &len);
    if (got != fault || tsotest_is_of_design(got) != is_of_design || len != 0 || !strstr(r.message, words)) {
        printf("want %d (%s), got %d (%s)\n", fault, words, got, r.message);
        abort();
    }
    assert(tsotest_program_text(&r, out, sizeof out, &len) == fault && len == 0);
    assert(tsotest_labels_text(&r, out, sizeof out, &len) == fault && len == 0);
}

typedef enum tsotest_fault text_of(struct tsotest_record *, char *, size_t, size_t *);

static void gives(text_of *of, const char *text)
{
    char room[TSOTEST_MAX_RECORDING_BYTES];
    size_t again;
    enum tsotest_fault got = of(&r, out, sizeof out, &len);
    if (got || len != strlen(text) || memcmp(out, text, len)) {
        printf("fault %d (%s)\nwant %sgot  %.*s", got, r.message, text, (int)len, out);
        abort();
    }
    memset(room, 'X', sizeof room);
    if (len) {
        assert(of(&r, room, len - 1, &again) == TSOTEST_SHORT_BUFFER && again == len && room[len - 1] == 'X');
        assert(r.error == TSOTEST_NO_FAULT);
    }
    assert(of(&r, room, len, &again) == TSOTEST_NO_FAULT && again == len && room[len] == 'X' && memcmp(room, text, len) == 0);
}

static void texts(void)
{
    tsotest_record_begin(&r, 0);
    tsotest_record_allow_empty(&r);
    gives(tsotest_recording_text, "{\"cores\":[],\"version\":1,\"writes\":[]}\n");
    gives(tsotest_program_text, "");
    /* Addresses are numbered by first use core by core, whatever the order of the calls. */
    tsotest_record_begin(&r, 3);
    tsotest_record_commit(&r, 0, 0x10, 7);
    assert(tsotest_record_load(&r, 1, 0x20, 0) == 0);
    assert(tsotest_record_store(&r, 0, 0x10, 7) == 1);
    gives(tsotest_recording_text, "{\"cores\":[[{\"a\":0,\"k\":\"S\",\"w\":7}],[{\"a\":1,\"k\":\"L\",\"r\":0,\"s\":null}],[]],"
                                  "\"version\":1,\"writes\":[[0],[]]}\n");
    gives(tsotest_program_text, "core\nst x10 7\ncore\nld x20\ncore\n");
    /* Events that come after a text. */
    tsotest_record_load(&r, 2, 0x10, 7);
    gives(tsotest_recording_text, "{\"cores\":[[{\"a\":0,\"k\":\"S\",\"w\":7}],[{\"a\":1,\"k\":\"L\",\"r\":0,\"s\":null}],"
                                  "[{\"a\":0,\"k\":\"L\",\"r\":7,\"s\":0}]],\"version\":1,\"writes\":[[0],[]]}\n");
    /* Version 2. */
    tsotest_record_begin(&r, 1);
    tsotest_record_initial(&r, 0x30, 9);
    tsotest_record_initial(&r, 0x34, 9); /* not used, and so not in the text */
    tsotest_record_failed_cas(&r, 0, 0x30, 9);
    tsotest_record_fence(&r, 0);
    tsotest_record_rmw(&r, 0, 0x30, 9, 4294967295u);
    tsotest_record_commit(&r, 0, 0x30, 4294967295u);
    gives(tsotest_recording_text,
          "{\"cores\":[[{\"a\":0,\"k\":\"C\",\"r\":9,\"s\":null},{\"k\":\"F\"},{\"a\":0,\"k\":\"R\",\"r\":9,\"s\":null,\"w\":4294967295}]],"
          "\"init\":[9],\"version\":2,\"writes\":[[2]]}\n");
    gives(tsotest_program_text, "core\ncas x30 10 0\nfence\nswap x30 4294967295\ninit x30 9\n");
    /* The next run begins with what this one left. */
    tsotest_record_continue(&r);
    tsotest_record_load(&r, 0, 0x30, 4294967295u);
    gives(tsotest_recording_text,
          "{\"cores\":[[{\"a\":0,\"k\":\"L\",\"r\":4294967295,\"s\":null}]],\"init\":[4294967295],\"version\":2,\"writes\":[[]]}\n");
    /* Values that repeat, with sources and commits by events; a value that comes later; names of high addresses. */
    tsotest_record_begin(&r, 2);
    int a = tsotest_record_store(&r, 0, 0x10000000, 5), b = tsotest_record_store(&r, 1, 0x10000000, 5);
    int l = tsotest_record_load(&r, 0, 0x10000000, 0);
    tsotest_record_commit_event(&r, b);
    tsotest_record_commit_event(&r, a);
    assert(tsotest_record_value(&r, l, 5) == l && tsotest_record_source(&r, l, b) == l);
    gives(tsotest_recording_text, "{\"cores\":[[{\"a\":0,\"k\":\"S\",\"w\":5},{\"a\":0,\"k\":\"L\",\"r\":5,\"s\":2}],"
                                  "[{\"a\":0,\"k\":\"S\",\"w\":5}]],\"version\":1,\"writes\":[[2,0]]}\n");
    gives(tsotest_program_text, "core\nst a0 5\nld a0\ncore\nst a0 5\n");
}

static void values_alone(void)
{
    tsotest_record_begin(&r, 2);
    tsotest_record_store(&r, 0, 0x40, 1);
    tsotest_record_load(&r, 0, 0x44, 0);
    tsotest_record_store(&r, 1, 0x44, 1);
    tsotest_record_load(&r, 1, 0x40, 0);
    gives(tsotest_values_text, "{\"cores\":[[{\"a\":0,\"k\":\"S\",\"w\":1},{\"a\":1,\"k\":\"L\",\"r\":0}],"
                               "[{\"a\":1,\"k\":\"S\",\"w\":1},{\"a\":0,\"k\":\"L\",\"r\":0}]],\"init\":[0,0],\"version\":3}\n");
    /* Commits change nothing of it, and the recording has all sources. */
    tsotest_record_commit(&r, 0, 0x40, 1);
    gives(tsotest_values_text, "{\"cores\":[[{\"a\":0,\"k\":\"S\",\"w\":1},{\"a\":1,\"k\":\"L\",\"r\":0}],"
                               "[{\"a\":1,\"k\":\"S\",\"w\":1},{\"a\":0,\"k\":\"L\",\"r\":0}]],\"init\":[0,0],\"version\":3}\n");
    tsotest_record_commit(&r, 1, 0x44, 1);
    gives(tsotest_recording_text, "{\"cores\":[[{\"a\":0,\"k\":\"S\",\"w\":1},{\"a\":1,\"k\":\"L\",\"r\":0,\"s\":null}],"
                                  "[{\"a\":1,\"k\":\"S\",\"w\":1},{\"a\":0,\"k\":\"L\",\"r\":0,\"s\":null}]],\"version\":1,"
                                  "\"writes\":[[0],[2]]}\n");
    /* Values that repeat; sources where they were given; initial values; a value above 2^32 - 1. */
    tsotest_record_begin(&r, 2);
    tsotest_record_initial(&r, 0x40, 5);
    int first = tsotest_record_store(&r, 0, 0x40, 5), late = tsotest_record_failed_cas(&r, 1, 0x40, 5);
    tsotest_record_fence(&r, 0);
    int swap = tsotest_record_rmw(&r, 0, 0x40, 5, 1ull << 32);
    tsotest_record_load(&r, 1, 0x40, 1ull << 32);
    tsotest_record_source(&r, late, first);
    tsotest_record_source(&r, swap, TSOTEST_INITIAL);
    gives(tsotest_values_text, "{\"cores\":[[{\"a\":0,\"k\":\"S\",\"w\":5},{\"k\":\"F\"},{\"a\":0,\"k\":\"R\",\"r\":5,\"s\":null,\"w\":1}],"
                               "[{\"a\":0,\"k\":\"C\",\"r\":5,\"s\":0},{\"a\":0,\"k\":\"L\",\"r\":1}]],\"init\":[5],\"version\":3}\n");
    assert(tsotest_recording_text(&r, out, sizeof out, &len) == TSOTEST_LOST_STORE);
    assert(tsotest_values_text(&r, out, sizeof out, &len) == TSOTEST_LOST_STORE && len == 0);
    /* What nobody wrote, and a source that wrote another value. */
    tsotest_record_begin(&r, 1);
    tsotest_record_load(&r, 0, 0x40, 7);
    assert(tsotest_values_text(&r, out, sizeof out, &len) == TSOTEST_STRAY_VALUE && len == 0);
    assert(strstr(r.message, "operation 0 of core 0 read 7 from 0x40, which nobody wrote there"));
    tsotest_record_begin(&r, 1);
    first = tsotest_record_store(&r, 0, 0x40, 1);
    tsotest_record_source(&r, tsotest_record_load(&r, 0, 0x40, 0), first);
    assert(tsotest_values_text(&r, out, sizeof out, &len) == TSOTEST_STRAY_VALUE);
    assert(strstr(r.message, "and its source wrote 1"));
    /* No event. */
    tsotest_record_begin(&r, 1);
    assert(tsotest_values_text(&r, out, sizeof out, &len) == TSOTEST_EMPTY);
    tsotest_record_begin(&r, 1);
    tsotest_record_allow_empty(&r);
    gives(tsotest_values_text, "{\"cores\":[[]],\"init\":[],\"version\":3}\n");
    FILE *file = tmpfile();
    assert(file && tsotest_write_values(&r, file) == TSOTEST_NO_FAULT);
    rewind(file);
    assert(fread(out, 1, sizeof out, file) == len && !memcmp(out, "{\"cores\":[[]],\"init\":[],\"version\":3}\n", len));
    fclose(file);
}

/* A failed compare-and-swap expects one more than it read, modulo 2^32. */
static void expected_value(void)
{
    tsotest_record_begin(&r, 1);
    tsotest_record_initial(&r, 0x40, 4294967295u);
    tsotest_record_failed_cas(&r, 0, 0x40, 4294967295u);
    gives(tsotest_program_text, "core\ncas x40 0 0\ninit x40 4294967295\n");
}

/* A name has at most 8 characters: an x and 7 digits. */
static void names(void)
{
    tsotest_record_begin(&r, 1);
    tsotest_record_load(&r, 0, 0x10000000, 0);
    tsotest_record_load(&r, 0, 0xFFFFFFF, 0);
    tsotest_record_load(&r, 0, 0x10000001, 0);
    gives(tsotest_program_text, "core\nld a0\nld xfffffff\nld a2\n");
}

/* The source of a read stays where its value comes later, though two writes wrote that value. */
static void late_value(void)
{
    tsotest_record_begin(&r, 2);
    int a = tsotest_record_store(&r, 0, 0x40, 5), b = tsotest_record_store(&r, 1, 0x40, 5), l = tsotest_record_load(&r, 1, 0x40, 0);
    tsotest_record_commit_event(&r, a);
    tsotest_record_commit_event(&r, b);
    assert(tsotest_record_source(&r, l, b) == l && tsotest_record_value(&r, l, 5) == l);
    gives(tsotest_recording_text, "{\"cores\":[[{\"a\":0,\"k\":\"S\",\"w\":5}],[{\"a\":0,\"k\":\"S\",\"w\":5},"
                                  "{\"a\":0,\"k\":\"L\",\"r\":5,\"s\":1}]],\"version\":1,\"writes\":[[0,1]]}\n");
}

/* The next run begins with the last write of each address, and with the initial value of one that nobody wrote. After a fault it does
 * not begin. */
static void next_runs(void)
{
    tsotest_record_begin(&r, 2);
    tsotest_record_initial(&r, 0x44, 8);
    for (uint32_t value = 1; value <= 3; value++) {
        tsotest_record_store(&r, 0, 0x40, value);
        tsotest_record_commit(&r, 0, 0x40, value);
    }
    tsotest_record_load(&r, 1, 0x44, 8);
    assert(tsotest_recording_text(&r, out, sizeof out, &len) == TSOTEST_NO_FAULT);
    for (int run = 0; run < 2; run++) {
        tsotest_record_continue(&r);
        tsotest_record_load(&r, 1, 0x40, 3);
        tsotest_record_load(&r, 1, 0x44, 8);
        gives(tsotest_recording_text, "{\"cores\":[[],[{\"a\":0,\"k\":\"L\",\"r\":3,\"s\":null},{\"a\":1,\"k\":\"L\",\"r\":8,\"s\":null}]],"
                                      "\"init\":[3,8],\"version\":2,\"writes\":[[],[]]}\n");
    }
    /* The write that does not fit is not committed either. */
    tsotest_record_begin(&r, 1);
    for (uint32_t i = 1; i <= TSOTEST_RECORD_EVENTS + 1; i++) {
        tsotest_record_store(&r, 0, 0x40, i);
        tsotest_record_commit(&r, 0, 0x40, i);
    }
    fails(TSOTEST_FULL, false, "512 events");
    tsotest_record_continue(&r);
    assert(tsotest_record_load(&r, 0, 0x40, TSOTEST_RECORD_EVENTS + 1) == -1);
    fails(TSOTEST_FULL, false, "512 events");
    tsotest_record_begin(&r, 1);
    tsotest_record_load(&r, 0, 0x40, 0);
    gives(tsotest_recording_text, "{\"cores\":[[{\"a\":0,\"k\":\"L\",\"r\":0,\"s\":null}]],\"version\":1,\"writes\":[[]]}\n");
}

/* The text that tsotest_write_log writes. */
static void logs(const char *text)
{
    FILE *file = tmpfile();
    assert(file && tsotest_write_log(&r, file) == TSOTEST_NO_FAULT);
    rewind(file);
    len = fread(out, 1, sizeof out, file);
    fclose(file);
    if (len != strlen(text) || memcmp(out, text, len)) {
        printf("want\n%sgot\n%.*s", text, (int)len, out);
        abort();
    }
}

/* The log has all that was recorded, in the words that examples/log/from_log.c reads, also where a fault gives no recording. */
static void written_logs(void)
{
    tsotest_record_begin(&r, 2);
    tsotest_record_initial(&r, 0x40, 7);
    tsotest_record_initial(&r, 0x44, 9);
    tsotest_record_load(&r, 0, 0x48, 0);
    int a = tsotest_record_store(&r, 0, 0x44, 9), b = tsotest_record_rmw(&r, 1, 0x44, 9, 9), c = tsotest_record_failed_cas(&r, 1, 0x44, 9);
    tsotest_record_fence(&r, 1);
    tsotest_record_source(&r, b, TSOTEST_INITIAL);
    tsotest_record_source(&r, c, a);
    tsotest_record_commit_event(&r, b);
    tsotest_record_commit(&r, 0, 0x44, 9);
    tsotest_record_label(&r, a, "pc 80000004: sw a0, (a1)");
    const char *log = "cores 2\ninit 0x40 7\ninit 0x44 9\nld 0 0x48 0\nst 0 0x44 9\nrmw 1 0x44 9 9\ncas 1 0x44 9\nfence 1\n"
                      "source 2 init\nsource 3 1\nlabel 1 pc 80000004: sw a0, (a1)\ncommit 2\ncommit 0 0x44 9\n";
    logs(log);
    tsotest_record_load(&r, 2, 0x40, 7);
    strcat(strcpy(out, log), "# core 2: the recording has 2\n");
    char with_fault[512];
    strcpy(with_fault, out);
    logs(with_fault);
    FILE *full = fopen("/dev/full", "w");
    if (full) {
        assert(tsotest_write_log(&r, full) == TSOTEST_WRITE_FAILED);
        fclose(full);
    }
}

/* What the judge says of the recording: its verdict is in out. */
static uint8_t judged(void)
{
    static char text[TSOTEST_MAX_RECORDING_BYTES];
    size_t size;
    assert(tsotest_recording_text(&r, text, sizeof text, &size) == TSOTEST_NO_FAULT);
    return tsotest_judge(text, size, out, sizeof out, &len);
}

/* A recording without an event is a fault of the testbench, unless it says that there may be none: so a monitor that is bound to nothing
 * is never allowed. */
static void empty(void)
{
    memset(&r, 0, sizeof r); /* no begin */
    fails(TSOTEST_EMPTY, false, "no event was recorded");
    tsotest_record_begin(&r, 2);
    fails(TSOTEST_EMPTY, false, "no event was recorded");
    tsotest_record_begin(&r, 2);
    tsotest_record_commit(&r, 0, 0x40, 1);
    fails(TSOTEST_EMPTY, false, "no event was recorded");
    tsotest_record_begin(&r, 2);
    tsotest_record_allow_empty(&r);
    tsotest_record_commit(&r, 0, 0x40, 1);
    fails(TSOTEST_STRAY_COMMIT, true, "core 0: the value 1 reached 0x40, and this core executed no such write");
    tsotest_record_begin(&r, 2);
    tsotest_record_allow_empty(&r);
    gives(tsotest_recording_text, "{\"cores\":[[],[]],\"version\":1,\"writes\":[]}\n");
    assert(judged() == TSOTEST_ALLOWED);
    logs("cores 2\nempty\n");
    tsotest_record_continue(&r);
    gives(tsotest_recording_text, "{\"cores\":[[],[]],\"version\":1,\"writes\":[]}\n");
    tsotest_record_begin(&r, 2);
    fails(TSOTEST_EMPTY, false, "no event was recorded");
    tsotest_record_begin(&r, 1);
    tsotest_record_fence(&r, 0);
    tsotest_record_continue(&r);
    fails(TSOTEST_EMPTY, false, "no event was recorded");
}

/* Labels stand in the order in which the recording numbers events; one has at most 64 bytes, and no newline. */
static void labels(void)
{
    const char *longest = "0123456789abcdef0123456789abcdef0123456789abcdef0123456789abcdef";
    char longer[66];
    tsotest_record_begin(&r, 2);
    int late = tsotest_record_load(&r, 1, 0x40, 1), early = tsotest_record_store(&r, 0, 0x40, 1);
    tsotest_record_fence(&r, 0);
    tsotest_record_commit(&r, 0, 0x40, 1);
    gives(tsotest_labels_text, "\n\n\n");
    assert(tsotest_record_label(&r, late, "cycle 9") == late && tsotest_record_label(&r, early, "cycle 3") == early);
    gives(tsotest_labels_text, "cycle 3\n\ncycle 9\n");
    assert(tsotest_record_label(&r, late, longest) == late && tsotest_record_label(&r, early, "") == early);
    strcat(strcat(strcpy(out, "\n\n"), longest), "\n");
    char text[128];
    strcpy(text, out);
    gives(tsotest_labels_text, text);
    logs("cores 2\nld 1 0x40 1\nst 0 0x40 1\nfence 0\nlabel 0 0123456789abcdef0123456789abcdef0123456789abcdef0123456789abcdef\n"
         "commit 0 0x40 1\n");
    tsotest_record_begin(&r, 1);
    tsotest_record_fence(&r, 0);
    gives(tsotest_labels_text, "\n");
    assert(tsotest_record_label(&r, 1, "no event") == -1);
    fails(TSOTEST_NO_SUCH, false, "event 1: there is none to label");
    tsotest_record_begin(&r, 1);
    assert(tsotest_record_label(&r, tsotest_record_fence(&r, 0), "two\nlines") == -1);
    fails(TSOTEST_BAD_LABEL, false, "the label of event 0 has a newline");
    tsotest_record_begin(&r, 1);
    strcat(strcpy(longer, longest), "x");
    assert(tsotest_record_label(&r, tsotest_record_fence(&r, 0), longer) == -1);
    fails(TSOTEST_BAD_LABEL, false, "the label of event 0 has more than 64 bytes");
    tsotest_record_label(&r, -1, "after a fault");
    fails(TSOTEST_BAD_LABEL, false, "the label of event 0 has more than 64 bytes");
}

/* The text that counts have. */
static void counts_are(const struct tsotest_counts *counts, const char *text)
{
    char room[TSOTEST_MAX_COUNTS_BYTES + 1];
    size_t want = strlen(text), again;
    memset(room, 'X', sizeof room);
    assert(tsotest_counts_text(counts, room, want, &len) == TSOTEST_NO_FAULT);
    if (len != want || memcmp(room, text, len)) {
        printf("want %sgot  %.*s", text, (int)len, room);
        abort();
    }
    assert(room[len] == 'X' && tsotest_counts_text(counts, room, len - 1, &again) == TSOTEST_SHORT_BUFFER && again == len);
    FILE *file = tmpfile();
    assert(file && tsotest_write_counts(counts, file) == TSOTEST_NO_FAULT);
    rewind(file);
    assert(fread(room, 1, sizeof room, file) == want && memcmp(room, text, want) == 0);
    fclose(file);
}

/* Counts are those of all recordings without a fault; a read of another core's write is one whose source is there. */
static void counts(void)
{
    struct tsotest_counts sums = {0, 0, 0, 0};
    for (uint64_t run = 1; run <= 3; run++) {
        tsotest_record_begin(&r, 2);
        tsotest_record_store(&r, 0, 0x40, run);
        tsotest_record_rmw(&r, 0, 0x44, 0, 7);
        tsotest_record_load(&r, 0, 0x40, run);      /* its own */
        tsotest_record_load(&r, 1, 0x48, 0);        /* the initial value */
        tsotest_record_load(&r, 1, 0x40, run);      /* another core's, as the next two */
        tsotest_record_failed_cas(&r, 1, 0x44, 7);
        tsotest_record_rmw(&r, 1, 0x44, 7, 8);
        tsotest_record_fence(&r, 1);
        tsotest_record_commit(&r, 0, 0x40, run);
        tsotest_record_commit(&r, 0, 0x44, 7);
        tsotest_record_commit(&r, 1, 0x44, 8);
        assert(tsotest_record_count(&r, &sums) == TSOTEST_NO_FAULT);
        assert(sums.runs == run && sums.events == 8 * run && sums.foreign_reads == 3 * run && sums.commits == 3 * run);
    }
    tsotest_record_begin(&r, 1);
    tsotest_record_store(&r, 0, 0x40, 1);
    assert(tsotest_record_count(&r, &sums) == TSOTEST_LOST_STORE && sums.runs == 3 && sums.events == 24);
    counts_are(&sums, "3 runs: 24 events, 9 reads of another core's write, 9 committed writes\n");
    tsotest_record_begin(&r, 1);
    tsotest_record_load(&r, 0, 0x40, 0);
    struct tsotest_counts alone = {0, 0, 0, 0};
    assert(tsotest_record_count(&r, &alone) == TSOTEST_NO_FAULT);
    counts_are(&alone, "1 runs: 1 events, 0 reads of another core's write, 0 committed writes\n"
                       "no read got a value that another core wrote: these runs have tested nothing\n");
    struct tsotest_counts most = {UINT64_MAX, UINT64_MAX, 0, UINT64_MAX};
    counts_are(&most, "18446744073709551615 runs: 18446744073709551615 events, 0 reads of another core's write, "
                      "18446744073709551615 committed writes\n"
                      "no read got a value that another core wrote: these runs have tested nothing\n");
    FILE *full = fopen("/dev/full", "w");
    if (full) {
        assert(tsotest_write_counts(&most, full) == TSOTEST_WRITE_FAILED);
        fclose(full);
    }
}

/* A value above 2^32 - 1 has in the text the least number that is free, by its first use there; messages and the log have the value. */
static void wide_values(void)
{
    const uint64_t wide = 0x100000001, other = (uint64_t)1 << 40;
    tsotest_record_begin(&r, 2);
    tsotest_record_initial(&r, 0x44, other);
    tsotest_record_load(&r, 1, 0x48, UINT64_MAX);
    tsotest_record_store(&r, 1, 0x44, 1);
    int late = tsotest_record_load(&r, 1, 0x40, 0);
    tsotest_record_store(&r, 0, 0x40, wide);
    tsotest_record_value(&r, late, wide);
    tsotest_record_failed_cas(&r, 0, 0x44, other);
    tsotest_record_rmw(&r, 0, 0x48, 0, UINT64_MAX);
    tsotest_record_rmw(&r, 0, 0x48, UINT64_MAX, UINT32_MAX);
    tsotest_record_commit(&r, 0, 0x40, wide);
    tsotest_record_commit(&r, 1, 0x44, 1);
    tsotest_record_commit(&r, 0, 0x48, UINT64_MAX);
    tsotest_record_commit(&r, 0, 0x48, UINT32_MAX);
    gives(tsotest_recording_text,
          "{\"cores\":[[{\"a\":0,\"k\":\"S\",\"w\":2},{\"a\":1,\"k\":\"C\",\"r\":3,\"s\":null},{\"a\":2,\"k\":\"R\",\"r\":0,\"s\":null,\"w\":4},"
          "{\"a\":2,\"k\":\"R\",\"r\":4,\"s\":2,\"w\":4294967295}],[{\"a\":2,\"k\":\"L\",\"r\":4,\"s\":2},{\"a\":1,\"k\":\"S\",\"w\":1},"
          "{\"a\":0,\"k\":\"L\",\"r\":2,\"s\":0}]],\"init\":[0,3,0],\"version\":2,\"writes\":[[0],[5],[2,3]]}\n");
    gives(tsotest_program_text, "core\nst x40 2\ncas x44 4 0\nswap x48 4\nswap x48 4294967295\ncore\nld x48\nst x44 1\nld x40\ninit x44 3\n");
    logs("cores 2\ninit 0x44 1099511627776\nld 1 0x48 18446744073709551615\nst 1 0x44 1\nld 1 0x40 4294967297\nst 0 0x40 4294967297\ncas 0 0x44 1099511627776\n"
         "rmw 0 0x48 0 18446744073709551615\nrmw 0 0x48 18446744073709551615 4294967295\n"
         "commit 0 0x40 4294967297\ncommit 1 0x44 1\ncommit 0 0x48 18446744073709551615\ncommit 0 0x48 4294967295\n");
    /* The next run begins with the whole value; an initial value that is not read is numbered last. */
    tsotest_record_continue(&r);
    tsotest_record_store(&r, 0, 0x40, 3 * wide);
    tsotest_record_commit(&r, 0, 0x40, 3 * wide);
    gives(tsotest_recording_text, "{\"cores\":[[{\"a\":0,\"k\":\"S\",\"w\":1}],[]],\"init\":[2],\"version\":2,\"writes\":[[0]]}\n");
    /* A wide initial value where no write is wide, and a small one whose number is in use. */
    tsotest_record_begin(&r, 1);
    tsotest_record_initial(&r, 0x40, other);
    tsotest_record_load(&r, 0, 0x40, other);
    gives(tsotest_recording_text, "{\"cores\":[[{\"a\":0,\"k\":\"L\",\"r\":1,\"s\":null}]],\"init\":[1],\"version\":2,\"writes\":[[]]}\n");
    tsotest_record_begin(&r, 1);
    tsotest_record_initial(&r, 0x40, 1);
    tsotest_record_load(&r, 0, 0x40, 1);
    tsotest_record_store(&r, 0, 0x44, wide);
    tsotest_record_commit(&r, 0, 0x44, wide);
    gives(tsotest_recording_text, "{\"cores\":[[{\"a\":0,\"k\":\"L\",\"r\":1,\"s\":null},{\"a\":1,\"k\":\"S\",\"w\":2}]],"
                                  "\"init\":[1,0],\"version\":2,\"writes\":[[],[1]]}\n");
    /* The low half of a value is another value. */
    tsotest_record_begin(&r, 1);
    tsotest_record_store(&r, 0, 64, wide);
    tsotest_record_load(&r, 0, 64, 1);
    tsotest_record_commit(&r, 0, 64, wide);
    fails(TSOTEST_STRAY_VALUE, true, "read 1 from 0x40, which nobody wrote there");
    tsotest_record_begin(&r, 1);
    tsotest_record_store(&r, 0, 64, 1);
    tsotest_record_load(&r, 0, 64, wide);
    tsotest_record_commit(&r, 0, 64, 1);
    fails(TSOTEST_STRAY_VALUE, true, "read 4294967297 from 0x40, which nobody wrote there");
    tsotest_record_begin(&r, 1);
    tsotest_record_store(&r, 0, 64, wide);
    tsotest_record_commit(&r, 0, 64, 1);
    fails(TSOTEST_STRAY_COMMIT, true, "the value 1 reached 0x40, and this core executed no such write");
    tsotest_record_begin(&r, 1);
    tsotest_record_store(&r, 0, 64, wide);
    fails(TSOTEST_LOST_STORE, true, "wrote 4294967297 to 0x40, which never reached memory");
}

/* As many values as there may be: the numbers of the wide ones are those that the others leave. */
static void many_wide_values(void)
{
    tsotest_record_begin(&r, 16);
    for (uint64_t a = 0; a < 16; a++)
        tsotest_record_initial(&r, a, UINT64_MAX - a);
    for (uint64_t i = 0; i < 512; i++) {
        uint64_t value = i % 2 ? i : UINT64_MAX / 2 + i;
        tsotest_record_rmw(&r, (int)(i / 32), i % 16, i < 16 ? UINT64_MAX - i : (i - 16) % 2 ? i - 16 : UINT64_MAX / 2 + i - 16, value);
        tsotest_record_commit(&r, (int)(i / 32), i % 16, value);
    }
    assert(judged() == TSOTEST_ALLOWED);
    /* The odd numbers are values; the first even ones are those of the first values of the text. */
    static const char *front = "{\"cores\":[[{\"a\":0,\"k\":\"R\",\"r\":2,\"s\":null,\"w\":4},{\"a\":1,\"k\":\"R\",\"r\":6,\"s\":null,\"w\":1},"
                               "{\"a\":2,\"k\":\"R\",\"r\":8,\"s\":null,\"w\":10},";
    assert(tsotest_recording_text(&r, out, sizeof out, &len) == TSOTEST_NO_FAULT && !memcmp(out, front, strlen(front)));
    /* Numbers up to 17 are free, and odd ones above: the last of 272 wide values has 527, since values up to 528 are in use. */
    tsotest_record_begin(&r, 1);
    for (uint64_t i = 0; i < 512; i++) {
        if (i < 16)
            tsotest_record_initial(&r, i, UINT64_MAX - i);
        tsotest_record_store(&r, 0, i % 16, i % 2 ? i + 17 : UINT64_MAX / 2 + i);
        tsotest_record_commit(&r, 0, i % 16, i % 2 ? i + 17 : UINT64_MAX / 2 + i);
    }
    assert(tsotest_recording_text(&r, out, sizeof out - 1, &len) == TSOTEST_NO_FAULT);
    out[len] = '\0';
    assert(strstr(out, ",\"w\":495},{\"a\":15,\"k\":\"S\",\"w\":528}]],") && strstr(out, ",525,527],\"version\":2"));
}

/* A store buffer that merges: core 0 stores 1 and 2 to x, of which memory sees 2 alone, and then 1 to y. Its bug: the store of 2 comes
 * after that to y, and yet joins the entry of the first. */
static void merged_stores(void)
{
    const uint64_t x = 0x40, y = 0x44;
    tsotest_record_begin(&r, 2);
    tsotest_record_store(&r, 0, x, 1);
    tsotest_record_store(&r, 0, x, 2);
    tsotest_record_store(&r, 0, y, 1);
    tsotest_record_commit_merged(&r, 0, x, 2);
    tsotest_record_commit_merged(&r, 0, y, 1);
    tsotest_record_load(&r, 1, y, 1);
    tsotest_record_load(&r, 1, x, 2);
    assert(judged() == TSOTEST_ALLOWED);
    gives(tsotest_recording_text, "{\"cores\":[[{\"a\":0,\"k\":\"S\",\"w\":1},{\"a\":0,\"k\":\"S\",\"w\":2},{\"a\":1,\"k\":\"S\",\"w\":1}],"
                                  "[{\"a\":1,\"k\":\"L\",\"r\":1,\"s\":2},{\"a\":0,\"k\":\"L\",\"r\":2,\"s\":1}]],\"version\":1,\"writes\":[[0,1],[2]]}\n");
    logs("cores 2\nst 0 0x40 1\nst 0 0x40 2\nst 0 0x44 1\nld 1 0x44 1\nld 1 0x40 2\nmerged 0 0x40 2\nmerged 0 0x44 1\n");

    tsotest_record_begin(&r, 2);
    tsotest_record_store(&r, 0, x, 1);
    tsotest_record_store(&r, 0, y, 1);
    tsotest_record_store(&r, 0, x, 2);
    tsotest_record_commit_merged(&r, 0, x, 2);
    tsotest_record_load(&r, 1, x, 2);
    tsotest_record_load(&r, 1, y, 0);
    tsotest_record_commit_merged(&r, 0, y, 1);
    assert(judged() == TSOTEST_VIOLATION && tsotest_kind_of(out, len) == TSOTEST_CYCLE);
    /* An entry of two words, which memory takes at once, may hold all three. */
    tsotest_record_begin(&r, 2);
    tsotest_record_store(&r, 0, x, 1);
    tsotest_record_store(&r, 0, y, 1);
    tsotest_record_store(&r, 0, x, 2);
    tsotest_record_commit_merged(&r, 0, x, 2);
    tsotest_record_commit_merged(&r, 0, y, 1);
    tsotest_record_load(&r, 1, x, 2);
    tsotest_record_load(&r, 1, y, 1);
    assert(judged() == TSOTEST_ALLOWED);
}

/* A merged commit takes the plain stores of its core and address that wait, and nothing else. */
static void merged_commits(void)
{
    tsotest_record_begin(&r, 2);
    tsotest_record_store(&r, 1, 0x40, 9);
    tsotest_record_store(&r, 0, 0x40, 1);
    tsotest_record_commit(&r, 0, 0x40, 1);
    tsotest_record_store(&r, 0, 0x40, 2);
    tsotest_record_commit_merged(&r, 0, 0x40, 3); /* before its store */
    tsotest_record_store(&r, 0, 0x40, 3);
    tsotest_record_store(&r, 0, 0x40, 4);
    tsotest_record_commit(&r, 1, 0x40, 9);
    tsotest_record_commit(&r, 0, 0x40, 4);
    gives(tsotest_recording_text, "{\"cores\":[[{\"a\":0,\"k\":\"S\",\"w\":1},{\"a\":0,\"k\":\"S\",\"w\":2},{\"a\":0,\"k\":\"S\",\"w\":3},"
                                  "{\"a\":0,\"k\":\"S\",\"w\":4}],[{\"a\":0,\"k\":\"S\",\"w\":9}]],\"version\":1,\"writes\":[[0,1,2,4,3]]}\n");
    tsotest_record_continue(&r);
    tsotest_record_load(&r, 0, 0x40, 4);
    assert(judged() == TSOTEST_ALLOWED);
    /* A store that was merged can't come once more. */
    tsotest_record_begin(&r, 1);
    tsotest_record_store(&r, 0, 0x40, 1);
    tsotest_record_store(&r, 0, 0x40, 2);
    tsotest_record_commit_merged(&r, 0, 0x40, 2);
    tsotest_record_commit_merged(&r, 0, 0x40, 1);
    fails(TSOTEST_STRAY_COMMIT, true, "core 0: the value 1 reached 0x40 twice");
    /* Without the call a merged store is lost, and so is one that an atomic overtook. */
    tsotest_record_begin(&r, 1);
    tsotest_record_store(&r, 0, 0x40, 1);
    tsotest_record_store(&r, 0, 0x40, 2);
    tsotest_record_commit(&r, 0, 0x40, 2);
    fails(TSOTEST_LOST_STORE, true, "operation 0 of core 0 wrote 1 to 0x40");
    tsotest_record_begin(&r, 1);
    tsotest_record_store(&r, 0, 0x40, 1);
    tsotest_record_rmw(&r, 0, 0x40, 0, 2);
    tsotest_record_commit_merged(&r, 0, 0x40, 2);
    fails(TSOTEST_LOST_STORE, true, "operation 0 of core 0 wrote 1 to 0x40");
    tsotest_record_begin(&r, 1);
    tsotest_record_rmw(&r, 0, 0x40, 0, 1);
    tsotest_record_store(&r, 0, 0x40, 2);
    tsotest_record_commit_merged(&r, 0, 0x40, 2);
    fails(TSOTEST_LOST_STORE, true, "operation 0 of core 0 wrote 1 to 0x40");
}

/* Invalidations that wait in a queue: core 1 holds a line of x, and core 0 writes it. Within a run a load of the old value is allowed.
 * After a cut it is not, so the message names what has to be quiet. Its bug: a fence that does not wait until the queue is empty. */
static void queued_invalidations(void)
{
    const uint64_t x = 0x40, y = 0x44;
    tsotest_record_begin(&r, 2);
    tsotest_record_load(&r, 1, x, 0);
    tsotest_record_store(&r, 0, x, 1);
    tsotest_record_commit(&r, 0, x, 1);
    tsotest_record_load(&r, 1, x, 0); /* the invalidation waits */
    assert(judged() == TSOTEST_ALLOWED);
    tsotest_record_continue(&r);
    tsotest_record_load(&r, 1, x, 0);
    fails(TSOTEST_STRAY_VALUE, true,
          "operation 0 of core 1 read 0 from 0x40, which nobody wrote there; this run continues another: had each core taken every "
          "invalidation before the cut?");
    /* Where the queue is empty at the cut, the next run is allowed. */
    tsotest_record_begin(&r, 2);
    tsotest_record_store(&r, 0, x, 1);
    tsotest_record_commit(&r, 0, x, 1);
    tsotest_record_continue(&r);
    tsotest_record_load(&r, 1, x, 1);
    assert(judged() == TSOTEST_ALLOWED);
    tsotest_record_begin(&r, 2);
    tsotest_record_load(&r, 1, x, 5);
    fails(TSOTEST_STRAY_VALUE, true, "which nobody wrote there");
    assert(!strstr(r.message, "invalidation"));

    tsotest_record_begin(&r, 2);
    tsotest_record_store(&r, 0, x, 1);
    tsotest_record_commit(&r, 0, x, 1);
    tsotest_record_fence(&r, 0);
    tsotest_record_load(&r, 0, y, 0);
    tsotest_record_store(&r, 1, y, 1);
    tsotest_record_commit(&r, 1, y, 1);
    tsotest_record_fence(&r, 1);      /* must wait for the invalidation of x */
    tsotest_record_load(&r, 1, x, 0);
    assert(judged() == TSOTEST_VIOLATION && tsotest_kind_of(out, len) == TSOTEST_CYCLE);
}

/* The longest texts. */
static void longest(void)
{
    tsotest_record_begin(&r, 16);
    for (int i = 0; i < 16; i++)
        tsotest_record_initial(&r, 0xFFFFFF0 + (uint64_t)i, 4294967295u);
    for (int i = 0; i < 512; i++) {
        tsotest_record_rmw(&r, i / 32, 0xFFFFFF0 + (uint64_t)i % 16, 4294967295u, 4294960000u + (uint32_t)i);
        tsotest_record_commit(&r, i / 32, 0xFFFFFF0 + (uint64_t)i % 16, 4294960000u + (uint32_t)i);
    }
    for (int i = 1; i < 512; i++) { /* the numbers of sources are as long as may be */
        tsotest_record_source(&r, i, i < 16 ? 496 + i : i % 16 + 480);
        tsotest_record_value(&r, i, r.event[i < 16 ? 496 + i : i % 16 + 480].written);
    }
    assert(tsotest_recording_text(&r, out, sizeof out, &len) == TSOTEST_NO_FAULT && len > 28000);
    assert(tsotest_program_text(&r, out, sizeof out, &len) == TSOTEST_NO_FAULT);
}

static void refusals(void)
{
    tsotest_record_begin(&r, 17);
    fails(TSOTEST_FULL, false, "17 cores");
    tsotest_record_begin(&r, -1);
    fails(TSOTEST_FULL, false, "-1 cores");
    tsotest_record_begin(&r, 2);
    assert(tsotest_record_load(&r, 2, 0, 0) == -1 && tsotest_record_fence(&r, 0) == -1);
    fails(TSOTEST_NO_SUCH, false, "core 2");
    tsotest_record_begin(&r, 2);
    tsotest_record_load(&r, -1, 0, 0);
    fails(TSOTEST_NO_SUCH, false, "core -1");
    tsotest_record_begin(&r, 1);
    for (int i = 0; i < 513; i++)
        tsotest_record_fence(&r, 0);
    fails(TSOTEST_FULL, false, "512 events");
    tsotest_record_begin(&r, 1);
    for (int i = 0; i < 17; i++)
        tsotest_record_load(&r, 0, 0xF000000000000000u + (uint64_t)i, 0);
    fails(TSOTEST_FULL, false, "more than 16 addresses: 0xf000000000000010 is one more");
    tsotest_record_begin(&r, 1);
    for (int i = 0; i < 513; i++)
        tsotest_record_commit(&r, 0, 0, 0);
    fails(TSOTEST_FULL, false, "512 commits");
    tsotest_record_begin(&r, 1);
    tsotest_record_load(&r, 0, 0x40, 3);
    fails(TSOTEST_STRAY_VALUE, true, "operation 0 of core 0 read 3 from 0x40, which nobody wrote");
    tsotest_record_begin(&r, 2);
    tsotest_record_store(&r, 0, 0x40, 3);
    tsotest_record_store(&r, 1, 0x40, 3);
    tsotest_record_load(&r, 0, 0x40, 3);
    tsotest_record_commit(&r, 0, 0x40, 3);
    tsotest_record_commit(&r, 1, 0x40, 3);
    fails(TSOTEST_AMBIGUOUS, false, "operation 1 of core 0 read 3 from 0x40, of which there are 2 sources");
    tsotest_record_begin(&r, 1);
    tsotest_record_store(&r, 0, 0x40, 0);
    tsotest_record_load(&r, 0, 0x40, 0);
    tsotest_record_commit(&r, 0, 0x40, 0);
    fails(TSOTEST_AMBIGUOUS, false, "2 sources");
    tsotest_record_begin(&r, 1);
    tsotest_record_store(&r, 0, 0x40, 1);
    tsotest_record_store(&r, 0, 0x40, 1);
    tsotest_record_commit(&r, 0, 0x40, 1);
    fails(TSOTEST_AMBIGUOUS, false, "core 0 wrote 1 to 0x40 twice");
    tsotest_record_begin(&r, 2);
    tsotest_record_fence(&r, 1);
    tsotest_record_store(&r, 0, 0x44, 1);
    tsotest_record_store(&r, 1, 0x40, 1);
    tsotest_record_commit(&r, 0, 0x44, 1);
    fails(TSOTEST_LOST_STORE, true, "operation 1 of core 1 wrote 1 to 0x40, which never reached memory");
    tsotest_record_begin(&r, 1);
    tsotest_record_rmw(&r, 0, 0x40, 0, 6);
    fails(TSOTEST_LOST_STORE, true, "operation 0 of core 0 wrote 6 to 0x40, which never reached memory");
    tsotest_record_begin(&r, 2);
    tsotest_record_store(&r, 0, 0x40, 1);
    tsotest_record_commit(&r, 1, 0x40, 1);
    fails(TSOTEST_STRAY_COMMIT, true, "core 1: the value 1 reached 0x40, and this core executed no such write");
    tsotest_record_begin(&r, 1);
    tsotest_record_store(&r, 0, 0x40, 1);
    tsotest_record_commit(&r, 0, 0x40, 1);
    tsotest_record_commit(&r, 0, 0x40, 1);
    fails(TSOTEST_STRAY_COMMIT, true, "core 0: the value 1 reached 0x40 twice");
    tsotest_record_begin(&r, 1);
    assert(tsotest_record_source(&r, 0, TSOTEST_INITIAL) == -1);
    fails(TSOTEST_NO_SUCH, false, "event 0 is no read");
    tsotest_record_begin(&r, 1);
    tsotest_record_store(&r, 0, 0x44, 1);
    tsotest_record_load(&r, 0, 0x40, 0);
    tsotest_record_source(&r, 1, 0);
    fails(TSOTEST_NO_SUCH, false, "event 0 is no write of the address that event 1 read");
    tsotest_record_begin(&r, 1);
    tsotest_record_commit_event(&r, tsotest_record_load(&r, 0, 0x40, 0));
    fails(TSOTEST_NO_SUCH, false, "event 0 is no write");
    tsotest_record_begin(&r, 1);
    tsotest_record_source(&r, tsotest_record_load(&r, 0, 0x40, 8), TSOTEST_INITIAL);
    fails(TSOTEST_STRAY_VALUE, true, "read 8 from 0x40, and its source wrote 0");
}

/* A call after a text that leaves the next text as it was. */
static void after_texts(void)
{
    struct tsotest_counts sums = {0, 0, 0, 0};
    tsotest_record_begin(&r, 2);
    int a = tsotest_record_store(&r, 0, 0x40, 5), b = tsotest_record_store(&r, 1, 0x40, 5), c = tsotest_record_store(&r, 1, 0x44, 6);
    int l = tsotest_record_load(&r, 0, 0x44, 0), m = tsotest_record_load(&r, 1, 0x40, 5);
    tsotest_record_source(&r, m, a);
    tsotest_record_commit_event(&r, a);
    tsotest_record_commit_event(&r, b);
    tsotest_record_commit_event(&r, c);
#define TEXT(read, source, other, init)                                                                                        \
    "{\"cores\":[[{\"a\":0,\"k\":\"S\",\"w\":5},{\"a\":1,\"k\":\"L\",\"r\":" read ",\"s\":" source "}],[{\"a\":0,\"k\":\"S\",\"w\":5},"    \
    "{\"a\":1,\"k\":\"S\",\"w\":6},{\"a\":0,\"k\":\"L\",\"r\":5,\"s\":" other "}]]," init ",\"writes\":[[0,2],[3]]}\n"
    gives(tsotest_recording_text, TEXT("0", "null", "0", "\"version\":1"));
    assert(tsotest_record_count(&r, &sums) == TSOTEST_NO_FAULT && sums.foreign_reads == 1);
    tsotest_record_value(&r, l, 6);
    gives(tsotest_recording_text, TEXT("6", "3", "0", "\"version\":1"));
    assert(tsotest_record_count(&r, &sums) == TSOTEST_NO_FAULT && sums.foreign_reads == 3);
    tsotest_record_source(&r, m, b);
    gives(tsotest_recording_text, TEXT("6", "3", "2", "\"version\":1"));
    assert(tsotest_record_count(&r, &sums) == TSOTEST_NO_FAULT && sums.foreign_reads == 4);
    tsotest_record_initial(&r, 0x44, 9);
    gives(tsotest_recording_text, TEXT("6", "3", "2", "\"init\":[0,9],\"version\":2"));
    gives(tsotest_values_text, "{\"cores\":[[{\"a\":0,\"k\":\"S\",\"w\":5},{\"a\":1,\"k\":\"L\",\"r\":6}],[{\"a\":0,\"k\":\"S\",\"w\":5},"
                               "{\"a\":1,\"k\":\"S\",\"w\":6},{\"a\":0,\"k\":\"L\",\"r\":5,\"s\":2}]],\"init\":[0,9],\"version\":3}\n");
    gives(tsotest_recording_text, TEXT("6", "3", "2", "\"init\":[0,9],\"version\":2"));
#undef TEXT
    tsotest_record_commit_event(&r, c);
    fails(TSOTEST_STRAY_COMMIT, true, "core 1: the value 6 reached 0x44 twice");
}

/* A begin that looks at what the record holds, which may be anything. */
static void any_memory(void)
{
    memset(&r, 0xA5, sizeof r);
    tsotest_record_begin(&r, 1);
    tsotest_record_store(&r, 0, 0x40, 1);
    tsotest_record_commit(&r, 0, 0x40, 1);
    gives(tsotest_recording_text, "{\"cores\":[[{\"a\":0,\"k\":\"S\",\"w\":1}]],\"version\":1,\"writes\":[[0]]}\n");
    gives(tsotest_labels_text, "\n");
    tsotest_record_continue(&r);
    tsotest_record_load(&r, 0, 0x40, 1);
    gives(tsotest_recording_text, "{\"cores\":[[{\"a\":0,\"k\":\"L\",\"r\":1,\"s\":null}]],\"init\":[1],\"version\":2,\"writes\":[[]]}\n");
}

int main(void)
{
    any_memory();
    after_texts();
    texts();
    values_alone();
    expected_value();
    names();
    late_value();
    next_runs();
    written_logs();
    empty();
    counts();
    wide_values();
    many_wide_values();
    labels();
    merged_stores();
    merged_commits();
    queued_invalidations();
    longest();
    refusals();
    assert(sizeof r <= 77 * 1024);
    return 0;
}
