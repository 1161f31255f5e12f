/* The bodies of tsotest_dpi.sv, called as a simulator calls them. Usage: dpi_test PREFIX */
#define _DEFAULT_SOURCE
#include "tsotest_dpi.c"

#include <assert.h>
#include <signal.h>
#include <sys/resource.h>
#include <unistd.h>

/* The recorder has the limits of the library. */
_Static_assert(TSOTEST_RECORD_CORES == TSOTEST_MAX_CORES && TSOTEST_RECORD_EVENTS == TSOTEST_MAX_EVENTS
                   && TSOTEST_RECORD_ADDRESSES == TSOTEST_MAX_ADDRESSES, "limits");
_Static_assert(TSOTEST_RECORD_LONG_CORES == TSOTEST_MAX_LONG_CORES && TSOTEST_RECORD_LONG_EVENTS == TSOTEST_MAX_LONG_EVENTS
                   && TSOTEST_RECORD_LONG_ADDRESSES == TSOTEST_MAX_LONG_ADDRESSES, "limits of long recordings");

enum { ALLOWED = 0, OVERLOOK = 1, CYCLE = 2 };

static void message_passing(uint64_t read)
{
    tsotest_dpi_begin(2);
    tsotest_dpi_store(0, 0x40, 1);
    tsotest_dpi_store(0, 0x44, 2);
    tsotest_dpi_load(1, 0x44, 2);
    tsotest_dpi_load(1, 0x40, read);
    tsotest_dpi_commit(0, 0x40, 1);
    tsotest_dpi_commit(0, 0x44, 2);
}

/* How many lines a text has. */
static int lines_of(const char *text)
{
    int lines = 0;
    for (; *text; text++)
        lines += *text == '\n';
    return lines;
}

/* A value that two writes wrote is a fault of the testbench, and so is a core that is not there; values and writes that are not what
 * memory does are faults of the design. */
static void faults(void)
{
    tsotest_dpi_begin(2);
    tsotest_dpi_store(0, 0x40, 3);
    tsotest_dpi_store(1, 0x40, 3);
    tsotest_dpi_load(0, 0x40, 3);
    tsotest_dpi_commit(0, 0x40, 3);
    tsotest_dpi_commit(1, 0x40, 3);
    assert(tsotest_dpi_judge() == MISUSED && strstr(tsotest_dpi_message(), "read 3 from 0x40, of which there are 2 sources"));
    tsotest_dpi_begin(1);
    tsotest_dpi_fence(1);
    assert(tsotest_dpi_judge() == MISUSED && strstr(tsotest_dpi_message(), "core 1: the recording has 1"));
    tsotest_dpi_begin(1);
    tsotest_dpi_rmw(0, 0x40, 0, 1);
    assert(tsotest_dpi_judge() == BROKEN && strstr(tsotest_dpi_message(), "wrote 1 to 0x40, which never reached memory"));
    tsotest_dpi_begin(1);
    tsotest_dpi_commit(0, 0x40, 1);
    tsotest_dpi_fence(0);
    assert(tsotest_dpi_judge() == BROKEN && strstr(tsotest_dpi_message(), "the value 1 reached 0x40"));
}

/* After `continue` there is no verdict until the next judging; after a fault the fault stays until `begin`. */
static void continued(void)
{
    message_passing(1);
    assert(tsotest_dpi_judge() == ALLOWED && *tsotest_dpi_verdict());
    tsotest_dpi_continue();
    assert(!*tsotest_dpi_verdict());
    tsotest_dpi_load(0, 0x44, 2);
    for (int i = 0; i < TSOTEST_RECORD_EVENTS; i++)
        tsotest_dpi_fence(0);
    assert(tsotest_dpi_judge() == MISUSED && strstr(tsotest_dpi_message(), "more than 512 events"));
    tsotest_dpi_continue();
    tsotest_dpi_load(0, 0x44, 2);
    assert(tsotest_dpi_judge() == MISUSED && strstr(tsotest_dpi_message(), "more than 512 events"));
    message_passing(1);
    assert(tsotest_dpi_judge() == ALLOWED && !*tsotest_dpi_message());
}

/* 512 stores to one address that memory takes backwards: a cycle of two, whose verdict has a row of 512 labels of at least a space and
 * a digit for each event. */
static void backwards(void)
{
    tsotest_dpi_begin(1);
    for (uint32_t i = 1; i <= 512; i++) {
        tsotest_dpi_store(0, 0x40, i);
        tsotest_dpi_commit(0, 0x40, 513 - i);
    }
    assert(tsotest_dpi_judge() == CYCLE);
}

/* 512 atomics, each of which reads what the one before it wrote. */
static void chained(void)
{
    tsotest_dpi_begin(16);
    for (uint32_t i = 0; i < 512; i++) {
        tsotest_dpi_rmw((int)i / 32, 0xFFFFFFF, i ? 4294960000u + i : 0, 4294960001u + i);
        tsotest_dpi_commit((int)i / 32, 0xFFFFFFF, 4294960001u + i);
    }
    assert(tsotest_dpi_judge() == ALLOWED);
}

/* A bench that never begins, or whose monitor is bound to nothing, is misused, unless it says that a run may be empty. */
static void empty(void)
{
    assert(tsotest_dpi_judge() == MISUSED && strstr(tsotest_dpi_message(), "no event was recorded")); /* before any begin */
    assert(tsotest_dpi_last_event() == -1 && tsotest_dpi_events() == 0);
    assert(!strncmp(tsotest_dpi_sums(), "0 runs: 0 events, 0 reads of another core's write, 0 committed writes\nno read", 77));
    tsotest_dpi_begin(2);
    assert(tsotest_dpi_judge() == MISUSED && strstr(tsotest_dpi_message(), "no event was recorded"));
    tsotest_dpi_begin(2);
    tsotest_dpi_allow_empty();
    assert(tsotest_dpi_judge() == ALLOWED && !strcmp(tsotest_dpi_verdict(), "ordered:\n"));
    tsotest_dpi_continue();
    assert(tsotest_dpi_judge() == ALLOWED);
    tsotest_dpi_begin(2);
    assert(tsotest_dpi_judge() == MISUSED);
}

/* Labels are those of the run, in the order in which the recording numbers events. */
static void labelled(void)
{
    tsotest_dpi_begin(2);
    tsotest_dpi_fence(1);
    tsotest_dpi_label(tsotest_dpi_last_event(), "cycle 9");
    tsotest_dpi_fence(0);
    assert(!strcmp(tsotest_dpi_labels(), "\ncycle 9\n"));
    tsotest_dpi_label(1, "cycle 3");
    assert(tsotest_dpi_judge() == ALLOWED && !strcmp(tsotest_dpi_labels(), "cycle 3\ncycle 9\n"));
    tsotest_dpi_continue();
    tsotest_dpi_fence(0);
    assert(!strcmp(tsotest_dpi_labels(), "\n"));
    tsotest_dpi_label(1, "no event");
    assert(tsotest_dpi_judge() == MISUSED && strstr(tsotest_dpi_message(), "none to label") && !strcmp(tsotest_dpi_labels(), ""));
}

/* Counts are those of the run that was judged last, and sums those of all runs, each once. */
static void counted(void)
{
    unsigned long long runs, more, events, foreign, commits;
    assert(sscanf(tsotest_dpi_sums(), "%llu runs: %llu events, %llu reads of another core's write, %llu committed", &runs, &events, &foreign,
                  &commits) == 4);
    message_passing(1);
    assert(tsotest_dpi_judge() == ALLOWED && tsotest_dpi_judge() == ALLOWED);
    assert(tsotest_dpi_events() == 4 && tsotest_dpi_foreign_reads() == 2 && tsotest_dpi_commits() == 2);
    tsotest_dpi_continue();
    assert(tsotest_dpi_events() == 0 && tsotest_dpi_foreign_reads() == 0 && tsotest_dpi_commits() == 0);
    tsotest_dpi_load(0, 0x44, 2);
    assert(tsotest_dpi_judge() == ALLOWED && tsotest_dpi_events() == 1 && tsotest_dpi_foreign_reads() == 0 && tsotest_dpi_commits() == 0);
    message_passing(1);
    assert(tsotest_dpi_judge() == ALLOWED && tsotest_dpi_events() == 4);
    tsotest_dpi_load(1, 0x40, 7);
    assert(tsotest_dpi_judge() == BROKEN && tsotest_dpi_events() == 0);
    char want[256];
    snprintf(want, sizeof want, "%llu runs: %llu events, %llu reads of another core's write, %llu committed writes\n", runs + 2, events + 5,
             foreign + 2, commits + 2);
    assert(sscanf(tsotest_dpi_sums(), "%llu", &more) == 1 && more == runs + 2 && !strcmp(tsotest_dpi_sums(), want));
}

/* What the recorder has besides: a value that comes late, sources and commits by events, merged stores, values of 64 bits. */
static void whole_recorder(void)
{
    int a, b, load;
    tsotest_dpi_begin(2);
    tsotest_dpi_store(0, 0x40, 1);
    a = tsotest_dpi_last_event();
    tsotest_dpi_store(1, 0x40, 1);
    b = tsotest_dpi_last_event();
    tsotest_dpi_load(1, 0x40, 0);
    load = tsotest_dpi_last_event();
    tsotest_dpi_load(0, 0x44, 0);
    tsotest_dpi_source(tsotest_dpi_last_event(), TSOTEST_INITIAL);
    tsotest_dpi_value(load, 1);
    tsotest_dpi_source(load, a);
    tsotest_dpi_commit_event(b);
    tsotest_dpi_commit_event(a);
    assert(a == 0 && b == 1 && load == 2 && tsotest_dpi_last_event() == 3 && tsotest_dpi_judge() == ALLOWED);
    assert(!strcmp(tsotest_dpi_recording(), "{\"cores\":[[{\"a\":0,\"k\":\"S\",\"w\":1},{\"a\":1,\"k\":\"L\",\"r\":0,\"s\":null}],"
                                            "[{\"a\":0,\"k\":\"S\",\"w\":1},{\"a\":0,\"k\":\"L\",\"r\":1,\"s\":0}]],\"version\":1,\"writes\":[[2,0],[]]}\n"));
    tsotest_dpi_begin(1);
    tsotest_dpi_store(0, 0x40, 0x100000001);
    tsotest_dpi_store(0, 0x40, 0x100000002);
    tsotest_dpi_load(0, 0x40, 0x100000002);
    tsotest_dpi_commit_merged(0, 0x40, 0x100000002);
    assert(tsotest_dpi_judge() == ALLOWED && !strcmp(tsotest_dpi_program(), "core\nst x40 1\nst x40 2\nld x40\n"));
    tsotest_dpi_load(0, 0x40, 2);
    assert(tsotest_dpi_last_event() == 3 && tsotest_dpi_judge() == BROKEN && strstr(tsotest_dpi_message(), "read 2 from 0x40"));
    assert(tsotest_dpi_last_event() == -1);
    tsotest_dpi_begin(1);
    tsotest_dpi_source(0, TSOTEST_INITIAL);
    assert(tsotest_dpi_judge() == MISUSED && strstr(tsotest_dpi_message(), "event 0 is no read"));
}

/* A drawing is that of the library, with all events or those that a violation needs. */
static void drawn(void)
{
    char *direct = malloc(65536);
    size_t len;
    message_passing(0);
    tsotest_dpi_fence(0);
    assert(tsotest_dpi_judge() == CYCLE);
    for (int all = 0; all < 2; all++) {
        const char *text = tsotest_dpi_recording(), *names = tsotest_dpi_program();
        assert(tsotest_draw(text, strlen(text), names, strlen(names), all, direct, 65535, &len) == TSOTEST_VIOLATION && len < 65535);
        direct[len] = '\0';
        assert(!strcmp(tsotest_dpi_drawing((unsigned char)all), direct) && !strncmp(direct, "digraph recording", 17));
        assert(!strstr(direct, "fence") == !all && strstr(direct, "st x44 2"));
    }
    free(direct);
}

/* Texts of more than 64 KB are whole: a verdict, and an explanation, which has a line for an order and then three for each atomic. */
static void long_texts(void)
{
    size_t len;
    backwards();
    assert(lines_of(tsotest_dpi_verdict()) == 1 + 2 + 512 && strlen(tsotest_dpi_verdict()) > 512 * 512 * 2);
    chained();
    const char *words = tsotest_dpi_explanation(), *text = tsotest_dpi_recording(), *names = tsotest_dpi_program();
    char *direct = malloc(TSOTEST_MAX_VERDICT_BYTES);
    assert(tsotest_explain(text, strlen(text), names, strlen(names), direct, TSOTEST_MAX_VERDICT_BYTES, &len) == TSOTEST_ALLOWED);
    assert(lines_of(words) == 1 + 3 * 512 && strlen(words) > 65536 && strlen(words) == len && !memcmp(words, direct, len));
    free(direct);
}

/* Seconds are those of all calls: they don't go back after a short one. */
static void seconds_of_all(void)
{
    backwards();
    double before = tsotest_dpi_seconds();
    message_passing(1);
    assert(before > 0 && tsotest_dpi_judge() == ALLOWED && tsotest_dpi_seconds() > before);
}

/* `save` answers 1 where one of its files can't be opened, or has no room. */
static void unsaved(const char *prefix)
{
    const char *suffixes[] = {".log", ".json", ".litmus", ".labels", ".verdict"};
    char path[1024], own[1000];
    snprintf(own, sizeof own, "%s-full", prefix);
    message_passing(0);
    assert(tsotest_dpi_judge() == CYCLE && tsotest_dpi_save("/nowhere/at/all") == 1);
    for (int i = 0; i < 4; i++) {
        const char *places[] = {"/dev/full", "/nowhere/at/all"};
        for (int k = access("/dev/full", W_OK) == 0 ? 0 : 1; k < 2; k++) {
            assert(tsotest_dpi_save(own) == 0);
            snprintf(path, sizeof path, "%s%s", own, suffixes[i]);
            assert(unlink(path) == 0 && symlink(places[k], path) == 0);
            assert(tsotest_dpi_save(own) == 1);
            assert(unlink(path) == 0);
        }
    }
    /* A file that may not grow past the first bytes of a long verdict. */
    struct rlimit was, least;
    backwards();
    assert(getrlimit(RLIMIT_FSIZE, &was) == 0);
    least = was;
    least.rlim_cur = 100000;
    signal(SIGXFSZ, SIG_IGN);
    assert(setrlimit(RLIMIT_FSIZE, &least) == 0);
    int answer = tsotest_dpi_save(own);
    assert(setrlimit(RLIMIT_FSIZE, &was) == 0);
    assert(answer == 1 && tsotest_dpi_save(own) == 0);
}

/* Message passing of the last of some cores to the first, after fences of the others, over more addresses. */
static void long_passing(int cores, int fences, int addresses, uint64_t read)
{
    tsotest_dpi_begin(cores);
    for (int i = 0; i < fences; i++)
        tsotest_dpi_fence(i % (cores - 2) + 1);
    for (int i = 0; i < addresses; i++)
        tsotest_dpi_load(5, 0x1000 + 8 * (uint64_t)i, 0);
    tsotest_dpi_store(cores - 1, 0x40, 1);
    tsotest_dpi_store(cores - 1, 0x44, 2);
    tsotest_dpi_load(0, 0x44, 2);
    tsotest_dpi_load(0, 0x40, read);
    tsotest_dpi_commit(cores - 1, 0x40, 1);
    tsotest_dpi_commit(cores - 1, 0x44, 2);
}

/* What is judged by tsotest_judge_long though it need not be has no labels in its cycles, and what is judged by tsotest_judge though it is
 * too long is refused. Room that is forgotten at the next begin or `continue`, or that stays after hold(0). */
static void held_runs(const char *prefix)
{
    char *direct = malloc(65536), path[1000];
    size_t len;
    snprintf(path, sizeof path, "%s-long", prefix);
    tsotest_dpi_hold(3000, 20, 16);
    for (int round = 0; round < 3; round++) {
        int fences = round == 0 ? 2000 : 0, addresses = round == 1 ? 15 : 0, cores = round == 2 ? 1024 : 16;
        long_passing(cores, fences, addresses, 1);
        assert(tsotest_dpi_judge() == ALLOWED && !strncmp(tsotest_dpi_verdict(), "ordered: ", 9));
        assert(tsotest_dpi_events() == (uint64_t)(fences + addresses + 4) && tsotest_dpi_foreign_reads() == 2);
        long_passing(cores, fences, addresses, 0);
        tsotest_dpi_label(tsotest_dpi_last_event(), "cycle 1234567890");
        assert(tsotest_dpi_judge() == CYCLE && !strncmp(tsotest_dpi_verdict(), "cycle of ", 9) && !strstr(tsotest_dpi_verdict(), "labels"));
        const char *text = tsotest_dpi_recording();
        assert(tsotest_judge(text, strlen(text), direct, 65536, &len) == TSOTEST_REFUSED);
        assert(tsotest_explain_long(text, strlen(text), direct, 65535, &len) == TSOTEST_VIOLATION && len < 65536);
        direct[len] = '\0';
        assert(*direct && !strcmp(tsotest_dpi_explanation(), direct));
        assert(tsotest_reduce_long(text, strlen(text), direct, 65535, &len) == TSOTEST_VIOLATION && len < 65536);
        direct[len] = '\0';
        assert(*direct && !strcmp(tsotest_dpi_reduction(), direct) && !*tsotest_dpi_drawing(0) && !*tsotest_dpi_drawing(1));
        assert(strstr(tsotest_dpi_labels(), "\ncycle 1234567890\n") && lines_of(tsotest_dpi_program()) == cores + fences + addresses + 4);
        assert(tsotest_dpi_save(path) == 0);
        tsotest_dpi_continue();
        assert(!*tsotest_dpi_verdict());
        for (int i = 0; i < 3001; i++)
            tsotest_dpi_fence(cores - 1);
        assert(tsotest_dpi_judge() == MISUSED && strstr(tsotest_dpi_message(), "more than 3000 events"));
    }
    /* A text of more than 40 bytes an event. */
    tsotest_dpi_begin(16);
    for (uint64_t i = 0; i < 3000; i++) {
        tsotest_dpi_rmw((int)(i / 188), 0x40, i ? 4294960000u + i : 0, 4294960001u + i);
        tsotest_dpi_commit((int)(i / 188), 0x40, 4294960001u + i);
    }
    assert(tsotest_dpi_judge() == ALLOWED && strlen(tsotest_dpi_recording()) > TSOTEST_MAX_LABELS_BYTES + 40 * 3000);
    assert(!strncmp(tsotest_dpi_verdict(), "ordered: 0 1 2 ", 15) && lines_of(tsotest_dpi_program()) == 16 + 3000);
    /* A short run in this room is one as ever. */
    message_passing(0);
    assert(tsotest_dpi_judge() == CYCLE && strstr(tsotest_dpi_verdict(), "labels 0:") && strstr(tsotest_dpi_explanation(), "(MP)"));
    assert(*tsotest_dpi_drawing(0));
    tsotest_dpi_label(0, "cycle 12345678901");
    assert(tsotest_dpi_judge() == MISUSED && strstr(tsotest_dpi_message(), "more than 16 bytes"));
    tsotest_dpi_begin(1025);
    assert(tsotest_dpi_judge() == MISUSED && strstr(tsotest_dpi_message(), "1025 cores"));
    tsotest_dpi_hold(-1, 20, 16);
    tsotest_dpi_begin(2);
    assert(tsotest_dpi_judge() == MISUSED && strstr(tsotest_dpi_message(), "room for -1 events"));
    tsotest_dpi_hold(100, 2, 0);
    message_passing(1);
    assert(tsotest_dpi_judge() == ALLOWED);
    tsotest_dpi_load(0, 0x48, 0);
    assert(tsotest_dpi_judge() == MISUSED && strstr(tsotest_dpi_message(), "more than 2 addresses"));
    tsotest_dpi_hold(0, 0, 0);
    tsotest_dpi_begin(2);
    for (int i = 0; i < 513; i++)
        tsotest_dpi_fence(0);
    assert(tsotest_dpi_judge() == MISUSED && strstr(tsotest_dpi_message(), "more than 512 events"));
    free(direct);
}

/* Values alone, without a commit. */
static void alone(void)
{
    tsotest_dpi_begin(2);
    tsotest_dpi_store(0, 0x40, 1);
    tsotest_dpi_store(0, 0x40, 1);
    tsotest_dpi_load(1, 0x40, 1);
    tsotest_dpi_load(1, 0x40, 1);
    tsotest_dpi_source(3, 0);
    assert(!strcmp(tsotest_dpi_values_alone(), "{\"cores\":[[{\"a\":0,\"k\":\"S\",\"w\":1},{\"a\":0,\"k\":\"S\",\"w\":1}],"
                                               "[{\"a\":0,\"k\":\"L\",\"r\":1},{\"a\":0,\"k\":\"L\",\"r\":1,\"s\":0}]],"
                                               "\"init\":[0],\"version\":3}\n"));
    tsotest_dpi_begin(1);
    tsotest_dpi_load(0, 0x40, 9);
    assert(!*tsotest_dpi_values_alone() && strstr(tsotest_dpi_message(), "which nobody wrote there"));
}

int main(int argc, char **argv)
{
    assert(argc == 2);
    empty();
    alone();
    message_passing(1);
    assert(tsotest_dpi_judge() == ALLOWED && !strcmp(tsotest_dpi_verdict(), "ordered: 0 1 2 3\n"));
    assert(!strncmp(tsotest_dpi_explanation(), "TSO allows this recording.", 26));
    tsotest_dpi_continue();
    tsotest_dpi_load(0, 0x44, 2);
    tsotest_dpi_fence(0);
    tsotest_dpi_failed_cas(1, 0x40, 1);
    tsotest_dpi_rmw(1, 0x40, 1, 3);
    tsotest_dpi_commit(1, 0x40, 3);
    assert(tsotest_dpi_judge() == ALLOWED);
    assert(strstr(tsotest_dpi_recording(), "\"init\":[2,1],\"version\":2"));

    message_passing(0);
    assert(tsotest_dpi_judge() == CYCLE && !strcmp(tsotest_dpi_message(), ""));
    assert(!strcmp(tsotest_dpi_program(), "core\nst x40 1\nst x44 2\ncore\nld x44\nld x40\n"));
    assert(strstr(tsotest_dpi_explanation(), "(MP)") && !strncmp(tsotest_dpi_reduction(), "events 0 1 2 3\n\ncore\nst x40 1\n", 30));
    assert(tsotest_dpi_save(argv[1]) == 0);

    tsotest_dpi_begin(1);
    tsotest_dpi_initial(0x40, 5);
    tsotest_dpi_store(0, 0x40, 1);
    tsotest_dpi_load(0, 0x40, 5);
    tsotest_dpi_commit(0, 0x40, 1);
    assert(tsotest_dpi_judge() == OVERLOOK);

    message_passing(7);
    assert(tsotest_dpi_judge() == BROKEN && strstr(tsotest_dpi_message(), "which nobody wrote there"));
    assert(!*tsotest_dpi_recording() && !*tsotest_dpi_program() && !*tsotest_dpi_verdict());
    assert(!*tsotest_dpi_explanation() && !*tsotest_dpi_drawing(0) && !*tsotest_dpi_reduction());
    tsotest_dpi_begin(17);
    assert(tsotest_dpi_judge() == MISUSED && strstr(tsotest_dpi_message(), "17 cores"));
    faults();
    labelled();
    counted();
    whole_recorder();
    drawn();
    continued();
    long_texts();
    seconds_of_all();
    unsaved(argv[1]);
    held_runs(argv[1]);
    struct text *texts[] = {&recording, &values, &program, &verdict, &explanation, &drawing, &reduction};
    for (int i = 0; i < 7; i++)
        free(texts[i]->bytes);
    free(held.memory);
    tsotest_dpi_exit(0);
}
