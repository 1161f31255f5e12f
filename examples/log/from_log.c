/* SPDX-License-Identifier: MIT OR Apache-2.0 */
/* Makes a recording of a log, for benches that print and don't call: a line for each event.
 *
 *   cores N                         first
 *   empty                           the recording may have no event
 *   init ADDRESS VALUE              an initial value other than 0
 *   ld CORE ADDRESS VALUE           a load, and what it read
 *   st CORE ADDRESS VALUE           a store, and what it wrote
 *   rmw CORE ADDRESS READ WRITTEN   an atomic
 *   cas CORE ADDRESS READ           a compare-and-swap that wrote nothing
 *   fence CORE
 *   source EVENT WRITE              the write that an event read, or `init`; events count from 0 in the order of the log
 *   label EVENT TEXT                a label of the event: all after the space
 *   commit CORE ADDRESS VALUE       a write reached memory
 *   commit EVENT                    a write reached memory, given by its event
 *   merged CORE ADDRESS VALUE       a store reached memory, and with it the stores that its entry of the buffer merged
 *
 * Numbers are decimal, or hexadecimal after 0x; values are below 2^64. A line that begins with # is left out.
 *
 * Usage: from_log [--values | --labels] [--events N] [FILE..]; the lines of the files, one after another, are one log. Without a file,
 * and for `-`, it reads standard input. The recording goes to standard output; with --values the values alone, for which the log needs
 * no commit; with --labels the labels of its events, for `tsotest explain --labels`. A log has at most 512 events of 16 cores over 16
 * addresses; with --events at most N, 1 to 16,777,216, of 1,024 cores over 65,536 addresses, for `tsotest judge --long`, in 150 bytes of
 * memory for each of N. The status is 0, or 1 where there is no recording: standard error says why.
 *
 *   cc -O2 -I include examples/log/from_log.c -o from_log && ./from_log examples/log/mp.log | tsotest explain - */
#include "tsotest_record.h"

#include <ctype.h>
#include <errno.h>
#include <stdlib.h>

enum { MOST = 4 };

/* Memory for as many events as --events says, 0 where it is not given. */
static struct {
    int events;
    void *memory;
    size_t size;
} room;

static void begin(struct tsotest_record *r, int cores)
{
    if (room.events)
        tsotest_record_begin_in(r, cores, room.events, TSOTEST_RECORD_LONG_ADDRESSES, TSOTEST_MAX_LABEL_BYTES, room.memory, room.size);
    else
        tsotest_record_begin(r, cores);
}

/* Takes memory for as many events as a word says; 0, or -1. */
static int make_room(const char *word)
{
    long events = strtol(word, NULL, 10);
    if (events < 1 || events > TSOTEST_RECORD_LONG_EVENTS)
        return -1;
    room.events = (int)events;
    room.size = TSOTEST_RECORD_BYTES(TSOTEST_RECORD_LONG_CORES, room.events, TSOTEST_RECORD_LONG_ADDRESSES, TSOTEST_MAX_LABEL_BYTES);
    room.memory = malloc(room.size);
    return room.memory ? 0 : -1;
}

/* The numbers of a line after its word, or -1. */
static int numbers(char *at, uint64_t *found)
{
    int count = 0;
    for (;;) {
        while (isspace((unsigned char)*at))
            at++;
        if (!*at)
            return count;
        if (count == MOST || !isdigit((unsigned char)*at))
            return -1;
        errno = 0;
        found[count++] = strtoull(at, &at, at[0] == '0' && at[1] == 'x' ? 16 : 10);
        if (errno || (*at && !isspace((unsigned char)*at)))
            return -1;
    }
}

/* A core or an event, as the recorder takes it; it has none of so great a number. */
static int place(uint64_t number)
{
    return number > INT32_MAX ? INT32_MAX : (int)number;
}

/* Records what a line with this many numbers says; 0, or -1. */
static int record(struct tsotest_record *r, const char *word, int count, const uint64_t *n)
{
    if (!strcmp(word, "cores") && count == 1)
        begin(r, place(n[0]));
    else if (!strcmp(word, "empty") && count == 0)
        tsotest_record_allow_empty(r);
    else if (!strcmp(word, "init") && count == 2)
        tsotest_record_initial(r, n[0], n[1]);
    else if (!strcmp(word, "ld") && count == 3)
        tsotest_record_load(r, place(n[0]), n[1], n[2]);
    else if (!strcmp(word, "st") && count == 3)
        tsotest_record_store(r, place(n[0]), n[1], n[2]);
    else if (!strcmp(word, "rmw") && count == 4)
        tsotest_record_rmw(r, place(n[0]), n[1], n[2], n[3]);
    else if (!strcmp(word, "cas") && count == 3)
        tsotest_record_failed_cas(r, place(n[0]), n[1], n[2]);
    else if (!strcmp(word, "fence") && count == 1)
        tsotest_record_fence(r, place(n[0]));
    else if (!strcmp(word, "commit") && count == 3)
        tsotest_record_commit(r, place(n[0]), n[1], n[2]);
    else if (!strcmp(word, "commit") && count == 1)
        tsotest_record_commit_event(r, place(n[0]));
    else if (!strcmp(word, "merged") && count == 3)
        tsotest_record_commit_merged(r, place(n[0]), n[1], n[2]);
    else if (!strcmp(word, "source") && count == 2)
        tsotest_record_source(r, place(n[0]), place(n[1]));
    else
        return -1;
    return r->error ? -1 : 0;
}

/* Records the label of an event; 0, or -1. */
static int read_label(struct tsotest_record *r, char *rest)
{
    char *label;
    unsigned long event = strtoul(rest, &label, 10);
    if (label == rest || *label != ' ')
        return -1;
    label[strcspn(label, "\n")] = '\0';
    return tsotest_record_label(r, place(event), label + 1) >= 0 ? 0 : -1;
}

/* Records what a line says after its word; 0, or -1. */
static int read_line(struct tsotest_record *r, const char *word, char *rest)
{
    uint64_t n[MOST] = {0};
    char *init = strcmp(word, "source") ? NULL : strstr(rest, " init");
    int count;
    if (!strcmp(word, "label"))
        return read_label(r, rest);
    if (init)
        *init = '\0';
    count = numbers(rest, n);
    if (count < 0)
        return -1;
    if (init)
        return count == 1 && tsotest_record_source(r, place(n[0]), TSOTEST_INITIAL) >= 0 ? 0 : -1;
    return record(r, word, count, n);
}

/* Records the lines of a file; 0, or -1 where standard error says why. */
static int read_file(struct tsotest_record *r, const char *name)
{
    bool is_input = !strcmp(name, "-");
    FILE *file = is_input ? stdin : fopen(name, "r");
    char line[256];
    int answer = 0;
    if (!file) {
        fprintf(stderr, "cannot open %s: %s\n", name, strerror(errno));
        return -1;
    }
    for (int number = 1; !answer && fgets(line, sizeof line, file); number++) {
        char word[8];
        int taken = 0;
        if (line[0] == '#' || sscanf(line, " %7s%n", word, &taken) != 1)
            continue;
        answer = read_line(r, word, line + taken);
        if (answer)
            fprintf(stderr, "%s, line %d: %s\n", is_input ? "standard input" : name, number, r->error ? r->message : "not a line of a log");
    }
    if (!answer && ferror(file)) {
        fprintf(stderr, "cannot read %s: %s\n", name, strerror(errno));
        answer = -1;
    }
    if (!is_input)
        fclose(file);
    return answer;
}

int main(int argc, char **argv)
{
    static struct tsotest_record r;
    bool prints_values = false, prints_labels = false;
    const char *input = "-", *const *names = &input;
    int first = 1, count;
    for (; first < argc && !strncmp(argv[first], "--", 2); first++)
        if (!strcmp(argv[first], "--values"))
            prints_values = true;
        else if (!strcmp(argv[first], "--labels"))
            prints_labels = true;
        else if (strcmp(argv[first], "--events") || first + 1 == argc) {
            fprintf(stderr, "not an option: %s\n", argv[first]);
            return 1;
        } else if (make_room(argv[++first])) {
            fprintf(stderr, "no room for %s events\n", argv[first]);
            return 1;
        }
    if (argc > first)
        names = (const char *const *)argv + first;
    count = argc > first ? argc - first : 1;
    begin(&r, 0);
    for (int i = 0; i < count; i++)
        if (read_file(&r, names[i]))
            return 1;
    if ((prints_values ? tsotest_write_values : prints_labels ? tsotest_write_labels : tsotest_write_recording)(&r, stdout)) {
        fprintf(stderr, "%s\n", r.error ? r.message : "cannot write");
        return 1;
    }
    free(room.memory);
    return 0;
}
