/* Long recordings in memory that is given: the texts of a run of many events beside those of a plain writer, which knows each source;
 * each fault at the limits that hold; labels; and more events, of which no square may be taken. Prints how long recording and writing
 * these takes. All runs on a stack of 256 KB: so no text stands there. Usage: record_long_test EVENTS MORE */
#define _DEFAULT_SOURCE
#include "tsotest.h"
#include "tsotest_record.h"

#include <assert.h>
#include <pthread.h>
#include <stdlib.h>
#include <time.h>

enum { CORES = 8, ADDRESSES = 300, ENTRIES = 4, STORES = 3 };

/* What happened: the machine below knows the source of each read, -1 for the initial value, and gives that of some. */
struct happened {
    char kind;
    bool is_given;
    int core, address, source, number;
    uint64_t read, written, text;
};

/* An entry of a store buffer, with the stores that merged in it. */
struct entry {
    int address, stores, event[STORES];
};

static struct tsotest_record r;
static struct happened *event;
static int events, most, more, *taken, takens;
static uint64_t initial[ADDRESSES], initial_text[ADDRESSES], counter;
static int last[ADDRESSES]; /* the write that memory took last, or -1 */
static struct entry buffer[CORES][ENTRIES];
static int entries[CORES];
static int favourite[CORES]; /* the address that a core used last: a third of its operations use it again */
static uint64_t state;

static unsigned below(unsigned n)
{
    state ^= state << 13;
    state ^= state >> 7;
    state ^= state << 17;
    return (unsigned)((state >> 32) * n >> 32);
}

static uint64_t address_of(int address)
{
    return 0x80000000u + 8 * (uint64_t)address;
}

/* A value of its own for each write; a third of them are above 2^32 - 1. */
static uint64_t next_value(void)
{
    counter++;
    return counter % 3 ? counter : counter << 40 | counter;
}

static uint64_t in_memory(int address)
{
    return last[address] < 0 ? initial[address] : event[last[address]].written;
}

static void take(int e)
{
    taken[takens++] = e;
    last[event[e].address] = e;
}

/* The oldest entry leaves the buffer. */
static void drain(int core)
{
    struct entry *oldest = &buffer[core][0];
    int youngest = oldest->event[oldest->stores - 1];
    for (int i = 0; i < oldest->stores; i++)
        take(oldest->event[i]);
    if (oldest->stores > 1)
        assert(tsotest_record_commit_merged(&r, core, address_of(oldest->address), event[youngest].written) == 0);
    else
        assert(tsotest_record_commit(&r, core, address_of(oldest->address), event[youngest].written) == 0);
    memmove(oldest, oldest + 1, sizeof *oldest * (size_t)--entries[core]);
}

/* The store enters the youngest entry, where that has its address, or another one. */
static void buffer_store(int core, int e)
{
    struct entry *youngest = entries[core] ? &buffer[core][entries[core] - 1] : NULL;
    if (youngest && youngest->address == event[e].address && youngest->stores < STORES) {
        youngest->event[youngest->stores++] = e;
        return;
    }
    if (entries[core] == ENTRIES)
        drain(core);
    buffer[core][entries[core]++] = (struct entry){event[e].address, 1, {e}};
}

/* A core executes something. */
static void execute(int core, bool has_failed_cas)
{
    static const char kinds[] = "LLLLLSSSSSRF", *some = kinds;
    struct happened *it = &event[events];
    int source;
    if (below(3))
        favourite[core] = (int)below(ADDRESSES);
    *it = (struct happened){some[below(12)], false, core, favourite[core], -1, 0, 0, 0, 0};
    if (it->kind == 'F' && has_failed_cas && below(2))
        it->kind = 'C';
    if (it->kind != 'L' && it->kind != 'S')
        while (entries[core])
            drain(core);
    source = last[it->address];
    for (int i = 0; i < entries[core]; i++)
        if (buffer[core][i].address == it->address)
            source = buffer[core][i].event[buffer[core][i].stores - 1];
    it->source = source;
    it->read = source < 0 ? initial[it->address] : event[source].written;
    if (it->kind == 'S' || it->kind == 'R')
        it->written = next_value();
    switch (it->kind) {
    case 'L': assert(tsotest_record_load(&r, core, address_of(it->address), it->read) == events); break;
    case 'S': assert(tsotest_record_store(&r, core, address_of(it->address), it->written) == events); break;
    case 'R': assert(tsotest_record_rmw(&r, core, address_of(it->address), it->read, it->written) == events); break;
    case 'C': assert(tsotest_record_failed_cas(&r, core, address_of(it->address), it->read) == events); break;
    default: assert(tsotest_record_fence(&r, core) == events);
    }
    if (it->kind != 'S' && it->kind != 'F' && below(4) == 0) {
        it->is_given = true;
        assert(tsotest_record_source(&r, events, source) == events);
    }
    events++;
    if (it->kind == 'S')
        buffer_store(core, events - 1);
    if (it->kind == 'R') {
        take(events - 1);
        assert(tsotest_record_commit_event(&r, events - 1) == 0);
    }
}

/* Runs cores over one memory, from what it holds. */
static void run(int count, bool has_failed_cas)
{
    events = takens = 0;
    memset(last, 0xFF, sizeof last);
    while (events < count) {
        int core = (int)below(CORES);
        execute(core, has_failed_cas);
        while (entries[core] && below(2))
            drain(core);
    }
    for (int core = 0; core < CORES; core++)
        while (entries[core])
            drain(core);
}

/* -------------------------------------------------------------------------------------------------------- a plain writer */

static char *want;
static size_t want_len;

#define put(...) (want_len += (size_t)sprintf(want + want_len, __VA_ARGS__))

/* The numbers of events, core by core; the addresses by first use; and numbers for values above 2^32 - 1. */
static int order(int *by_number, int *names, int *named)
{
    size_t values = (size_t)events + ADDRESSES;
    bool *is_value = (bool *)calloc(values + 1, 1);
    uint64_t next = 1;
    int number = 0, used = 0;
    for (int a = 0; a < ADDRESSES; a++)
        names[a] = -1;
    for (int core = 0; core < CORES; core++)
        for (int e = 0; e < events; e++)
            if (event[e].core == core) {
                by_number[number] = e;
                event[e].number = number++;
                if (event[e].kind != 'F' && names[event[e].address] < 0) {
                    named[used] = event[e].address;
                    names[event[e].address] = used++;
                }
                if (event[e].written <= values)
                    is_value[event[e].written] = true;
                event[e].text = event[e].written <= UINT32_MAX ? event[e].written : 0;
            }
    for (int a = 0; a < ADDRESSES; a++) {
        if (names[a] >= 0 && initial[a] <= values)
            is_value[initial[a]] = true;
        initial_text[a] = initial[a] <= UINT32_MAX ? initial[a] : 0;
    }
    for (int n = 0; n < events + used; n++) {
        struct happened *it = n < events ? &event[by_number[n]] : NULL;
        uint64_t *of_read = !it ? &initial_text[named[n - events]] : it->source < 0 ? &initial_text[it->address] : &event[it->source].text;
        uint64_t read = !it ? initial[named[n - events]] : it->kind == 'L' || it->kind == 'R' || it->kind == 'C' ? it->read : 0;
        for (int k = 0; k < 2; k++) {
            uint64_t value = k == 0 ? read : it ? it->written : 0, *text = k == 0 ? of_read : it ? &it->text : NULL;
            if (value > UINT32_MAX && !*text) {
                while (is_value[next])
                    next++;
                *text = next++;
            }
        }
    }
    free(is_value);
    return used;
}

/* Writes the recording, or its values alone. */
static void write_plainly(bool is_alone, bool is_version_2)
{
    static int names[ADDRESSES], named[ADDRESSES], firsts[ADDRESSES], lasts[ADDRESSES];
    int *by_number = (int *)malloc(sizeof(int) * (size_t)events), *next = (int *)malloc(sizeof(int) * (size_t)events), n = 0;
    int used = order(by_number, names, named);
    want_len = 0;
    put("{\"cores\":[");
    for (int core = 0; core < CORES; core++) {
        put(core ? ",[" : "[");
        for (bool is_first = true; n < events && event[by_number[n]].core == core; n++, is_first = false) {
            const struct happened *it = &event[by_number[n]];
            put(is_first ? "{" : ",{");
            if (it->kind != 'F')
                put("\"a\":%d,", names[it->address]);
            put("\"k\":\"%c\"", it->kind);
            if (it->kind == 'L' || it->kind == 'R' || it->kind == 'C') {
                put(",\"r\":%" PRIu64, it->source < 0 ? initial_text[it->address] : event[it->source].text);
                if ((!is_alone || it->is_given) && it->source < 0)
                    put(",\"s\":null");
                else if (!is_alone || it->is_given)
                    put(",\"s\":%d", event[it->source].number);
            }
            if (it->kind == 'S' || it->kind == 'R')
                put(",\"w\":%" PRIu64, it->text);
            put("}");
        }
        put("]");
    }
    put("]");
    if (is_alone || is_version_2) {
        put(",\"init\":[");
        for (int a = 0; a < used; a++)
            put(a ? ",%" PRIu64 : "%" PRIu64, initial_text[named[a]]);
        put("]");
    }
    put(",\"version\":%d", is_alone ? 3 : is_version_2 ? 2 : 1);
    if (!is_alone) {
        memset(firsts, 0xFF, sizeof firsts);
        for (int i = 0; i < takens; i++) {
            int a = event[taken[i]].address;
            next[taken[i]] = -1;
            if (firsts[a] < 0)
                firsts[a] = taken[i];
            else
                next[lasts[a]] = taken[i];
            lasts[a] = taken[i];
        }
        put(",\"writes\":[");
        for (int a = 0; a < used; a++) {
            put(a ? ",[" : "[");
            for (int e = firsts[named[a]]; e >= 0; e = next[e])
                put(e == firsts[named[a]] ? "%d" : ",%d", event[e].number);
            put("]");
        }
        put("]");
    }
    put("}\n");
    free(by_number);
    free(next);
}

typedef enum tsotest_fault text_of(struct tsotest_record *, char *, size_t, size_t *);
typedef enum tsotest_fault write_of(struct tsotest_record *, FILE *);

/* Whether a text is the plain writer's, in memory of its size and in a file. */
static void gives(text_of *of, write_of *writes)
{
    size_t len, again;
    enum tsotest_fault fault = of(&r, NULL, 0, &len);
    char *text = (char *)malloc(want_len);
    FILE *file = tmpfile();
    if (fault != TSOTEST_SHORT_BUFFER || len != want_len) {
        printf("fault %d (%s), %zu bytes in place of %zu\n", fault, r.message, len, want_len);
        abort();
    }
    assert(of(&r, text, len, &again) == TSOTEST_NO_FAULT && again == len);
    for (size_t i = 0; i < len; i++)
        if (text[i] != want[i]) {
            printf("byte %zu: want %.40s\ngot %.40s\n", i, want + i, text + i);
            abort();
        }
    assert(of(&r, text, len - 1, &again) == TSOTEST_SHORT_BUFFER && again == len);
    assert(file && writes(&r, file) == TSOTEST_NO_FAULT && ftell(file) == (long)len);
    memset(text, 0, len);
    rewind(file);
    assert(fread(text, 1, len, file) == len && !memcmp(text, want, len));
    fclose(file);
    free(text);
    if ((file = fopen("/dev/full", "w"))) {
        assert(writes(&r, file) == TSOTEST_WRITE_FAILED && !r.error);
        fclose(file);
    }
}

/* ------------------------------------------------------------------------------------------------------------- long runs */

/* Memory of just this size, which begins at an odd place: what lies outside of it, the sanitizer shows. */
static void *memory, *odd;

static size_t make_room(int cores, int room, int addresses, int label_bytes)
{
    size_t size = TSOTEST_RECORD_BYTES(cores, room, addresses, label_bytes);
    free(memory);
    memory = malloc(size + 1);
    assert(memory);
    memset(memory, 0xA5, size + 1);
    odd = (char *)memory + 1;
    return size;
}

static void begin_in(int cores, int room, int addresses, int label_bytes)
{
    size_t size = make_room(cores, room, addresses, label_bytes);
    tsotest_record_begin_in(&r, cores, room, addresses, label_bytes, odd, size);
}

/* Numbers of 16 bits anywhere, a table that is too small, a number of a value that is in use, a merge that leaves out a store or takes
 * one twice, and a next run with other initial values are each another text here. A search through all events for a merge, or through
 * all values for a number, takes minutes. */
static void whole_runs(void)
{
    struct tsotest_counts counts = {0, 0, 0, 0};
    uint64_t foreign = 0;
    state = 1;
    memset(initial, 0, sizeof initial);
    begin_in(CORES, most, ADDRESSES, 0);
    run(most, false);
    write_plainly(false, false);
    gives(tsotest_recording_text, tsotest_write_recording);
    for (int e = 0; e < events; e++)
        foreign += event[e].kind != 'S' && event[e].kind != 'F' && event[e].source >= 0 && event[event[e].source].core != event[e].core;
    assert(tsotest_record_count(&r, &counts) == TSOTEST_NO_FAULT && counts.runs == 1 && counts.events == (uint64_t)most);
    assert(counts.foreign_reads == foreign && counts.commits == (uint64_t)takens);
    for (int round = 0; round < 2; round++) {
        tsotest_record_continue(&r);
        for (int a = 0; a < ADDRESSES; a++)
            initial[a] = in_memory(a);
        run(most - round, true);
        write_plainly(true, true);
        gives(tsotest_values_text, tsotest_write_values);
        write_plainly(false, true);
        gives(tsotest_recording_text, tsotest_write_recording);
    }
    /* What was recorded after a text is in the next one, and in the counts. */
    assert(tsotest_record_fence(&r, 0) == most - 1);
    event[events++] = (struct happened){'F', false, 0, 0, -1, 0, 0, 0, 0};
    write_plainly(false, true);
    gives(tsotest_recording_text, tsotest_write_recording);
    assert(tsotest_record_count(&r, &counts) == TSOTEST_NO_FAULT && counts.events == 2 * (uint64_t)most);
    /* TSO allows what such cores do. */
    char *verdict = (char *)malloc(TSOTEST_LONG_VERDICT_BYTES(events));
    size_t len;
    assert(tsotest_judge_long(want, want_len, verdict, TSOTEST_LONG_VERDICT_BYTES(events), &len) == TSOTEST_ALLOWED);
    assert(len <= TSOTEST_LONG_VERDICT_BYTES(events) && tsotest_kind_of(verdict, len) == TSOTEST_ORDERED);
    free(verdict);
}

/* A fault that a text answers, and its words. */
static void fails(enum tsotest_fault fault, const char *words)
{
    char out[16];
    size_t len;
    enum tsotest_fault got = tsotest_recording_text(&r, out, sizeof out, &len);
    if (got != fault || len != 0 || !strstr(r.message, words)) {
        printf("want %d (%s), got %d (%s)\n", fault, words, got, r.message);
        abort();
    }
    assert(tsotest_record_fence(&r, 0) == -1);
    tsotest_record_continue(&r);
    assert(r.error == fault);
}

/* A write of the same value to another address that is taken for the source, where both fall on one slot: of so many pairs some do. */
static void same_values(void)
{
    char out[400];
    size_t len;
    begin_in(1, 4, ADDRESSES, 0);
    for (int a = 0; a < ADDRESSES; a++)
        tsotest_record_initial(&r, address_of(a), 0);
    for (int run = 1; run < 10 * ADDRESSES; run++) {
        uint64_t one = address_of(0), other = address_of(1 + run % (ADDRESSES - 1)), value = (uint64_t)run;
        tsotest_record_store(&r, 0, one, value);
        tsotest_record_store(&r, 0, other, value);
        tsotest_record_load(&r, 0, one, value);
        tsotest_record_load(&r, 0, other, value);
        tsotest_record_commit(&r, 0, other, value);
        tsotest_record_commit(&r, 0, one, value);
        if (tsotest_recording_text(&r, out, sizeof out - 1, &len)) {
            printf("%s\n", r.message);
            abort();
        }
        out[len] = '\0';
        assert(strstr(out, "\"s\":0},") && strstr(out, "\"s\":1}]") && strstr(out, "\"writes\":[[0],[1]]"));
        tsotest_record_continue(&r);
    }
}

/* Memory that is a few bytes short: full runs in all small rooms. */
static void small_rooms(void)
{
    for (int shape = 0; shape < 4 * 4 * 9 * 3; shape++) {
        int cores = shape % 4, room = 1 + shape / 4 % 4, addresses = 1 + shape / 16 % 9, label_bytes = shape / 144;
        size_t len;
        char out[1000];
        begin_in(cores, room, addresses, label_bytes);
        tsotest_record_allow_empty(&r);
        for (int a = 0; a < addresses; a++)
            assert(tsotest_record_initial(&r, (uint64_t)a, 1 + ((uint64_t)a << 32)) == 0);
        for (int i = 0; cores && i < room; i++) {
            assert(tsotest_record_store(&r, cores - 1, (uint64_t)(i % addresses), ((uint64_t)i + 20) << 32) == i);
            assert(tsotest_record_commit_merged(&r, cores - 1, (uint64_t)(i % addresses), ((uint64_t)i + 20) << 32) == 0);
            assert(!label_bytes || tsotest_record_label(&r, i, label_bytes == 2 ? "12" : "1") == i);
        }
        assert(tsotest_recording_text(&r, out, sizeof out, &len) == TSOTEST_NO_FAULT);
        assert(tsotest_labels_text(&r, out, sizeof out, &len) == TSOTEST_NO_FAULT);
        assert(len == (cores ? (size_t)room * ((size_t)label_bytes + 1) : 0));
    }
}

/* A limit that is off by one, or that of a record's own room. */
static void limits(void)
{
    size_t size;
    char words[256];
    begin_in(2, 1000, 300, 0);
    for (int i = 0; i < 1000; i++) {
        assert(tsotest_record_store(&r, 1, 8 * (uint64_t)(i % 300), (uint64_t)i + 1) == i);
        assert(tsotest_record_commit(&r, 1, 8 * (uint64_t)(i % 300), (uint64_t)i + 1) == 0);
    }
    struct tsotest_counts counts = {0, 0, 0, 0};
    assert(tsotest_record_count(&r, &counts) == TSOTEST_NO_FAULT && counts.commits == 1000);
    assert(tsotest_record_fence(&r, 0) == -1);
    fails(TSOTEST_FULL, "more than 1000 events");
    begin_in(2, 1000, 300, 0);
    for (int i = 0; i < 1001; i++)
        assert(tsotest_record_commit(&r, 0, 0, 0) == (i < 1000 ? 0 : -1));
    fails(TSOTEST_FULL, "more than 1000 commits");
    begin_in(2, 1000, 300, 0);
    for (uint64_t a = 0; a < 301; a++)
        assert(tsotest_record_initial(&r, 1 << 20 | 8 * a, a) == (a < 300 ? 0 : -1));
    fails(TSOTEST_FULL, "more than 300 addresses: 0x100960 is one more");
    begin_in(2, 1000, 300, 0);
    assert(tsotest_record_load(&r, 2, 0, 0) == -1);
    fails(TSOTEST_NO_SUCH, "core 2: the recording has 2");
    begin_in(2, 1000, 300, 0);
    assert(tsotest_record_source(&r, tsotest_record_load(&r, 0, 0, 0), 999) == -1);
    fails(TSOTEST_NO_SUCH, "event 999 is no write of the address that event 0 read");
    /* The greatest numbers: of a core, an address and an event beyond 16 bits. */
    begin_in(1024, 70000, 65536, 0);
    for (int i = 0; i < 65536; i++)
        assert(tsotest_record_load(&r, 1023, 1 + (uint64_t)i, 0) == i);
    assert(tsotest_record_load(&r, 1023, 7, 9) == 65536);
    fails(TSOTEST_STRAY_VALUE, "operation 65536 of core 1023 read 9 from 0x7, which nobody wrote there");
    begin_in(1024, 70000, 65536, 0);
    for (int i = 0; i < 65536; i++)
        assert(tsotest_record_store(&r, 1023, 1 + (uint64_t)i, 5) == i);
    fails(TSOTEST_LOST_STORE, "operation 0 of core 1023 wrote 5 to 0x1, which never reached memory");
    begin_in(1024, 70000, 65536, 0);
    for (int i = 0; i <= 65536; i++)
        tsotest_record_load(&r, 0, 1 + (uint64_t)i, 0);
    fails(TSOTEST_FULL, "more than 65536 addresses: 0x10001 is one more");
    for (int twice = 0; twice < 2; twice++) {
        begin_in(1024, 70000, 65536, 0);
        for (int i = 0; i < 65536; i++)
            tsotest_record_fence(&r, 0);
        int a = tsotest_record_store(&r, 1023, 4, 5), b = tsotest_record_store(&r, 1022, 4, 5);
        if (!twice) {
            tsotest_record_commit(&r, 1023, 4, 5);
            tsotest_record_commit_event(&r, b);
            tsotest_record_load(&r, 0, 4, 5);
            fails(TSOTEST_AMBIGUOUS, "operation 65536 of core 0 read 5 from 0x4, of which there are 2 sources");
        } else {
            tsotest_record_commit_event(&r, a);
            tsotest_record_commit(&r, 1023, 4, 5);
            fails(TSOTEST_STRAY_COMMIT, "core 1023: the value 5 reached 0x4 twice");
        }
    }
    /* No such room, and too little memory. */
    tsotest_record_begin_in(&r, 1025, 1, 1, 0, odd, 1000);
    fails(TSOTEST_FULL, "1025 cores: a recording has 1024 at most");
    tsotest_record_begin_in(&r, -1, 1, 1, 0, odd, 1000);
    fails(TSOTEST_FULL, "-1 cores");
    tsotest_record_begin_in(&r, 1, 0, 1, 0, odd, 1000);
    fails(TSOTEST_FULL, "room for 0 events: it is 1 to 16777216");
    tsotest_record_begin_in(&r, 1, 16777217, 1, 0, odd, SIZE_MAX);
    fails(TSOTEST_FULL, "room for 16777217 events");
    tsotest_record_begin_in(&r, 1, 1, 0, 0, odd, 1000);
    fails(TSOTEST_FULL, "room for 0 addresses: it is 1 to 65536");
    tsotest_record_begin_in(&r, 1, 1, 65537, 0, odd, SIZE_MAX);
    fails(TSOTEST_FULL, "room for 65537 addresses");
    tsotest_record_begin_in(&r, 1, 1, 1, -1, odd, 1000);
    fails(TSOTEST_BAD_LABEL, "labels of -1 bytes: they have 0 to 64");
    tsotest_record_begin_in(&r, 1, 1, 1, 65, odd, 1000);
    fails(TSOTEST_BAD_LABEL, "labels of 65 bytes");
    tsotest_record_begin_in(&r, 1, 1000, 1, 0, NULL, 0);
    fails(TSOTEST_FULL, "0 bytes of memory");
    size = make_room(3, 1000, 10, 5);
    snprintf(words, sizeof words, "%zu bytes of memory: the recording takes %zu", size - 1, size);
    tsotest_record_begin_in(&r, 3, 1000, 10, 5, odd, size - 1);
    fails(TSOTEST_FULL, words);
    tsotest_record_begin_in(&r, 3, 1000, 10, 5, odd, size);
    assert(tsotest_record_fence(&r, 2) == 0);
    /* A record that had memory has its own room again. */
    tsotest_record_begin(&r, 16);
    for (int i = 0; i < 513; i++)
        tsotest_record_fence(&r, 15);
    fails(TSOTEST_FULL, "more than 512 events");
}

/* A label that is laid over its neighbour's, one that stays where the next recording begins, and one in the order of the calls. */
static void labels(void)
{
    char *text = (char *)malloc(20000), *wanted = (char *)malloc(20000);
    size_t len, size = 0;
    begin_in(2, 1000, 1, 0);
    assert(tsotest_record_label(&r, tsotest_record_fence(&r, 0), "x") == -1);
    fails(TSOTEST_BAD_LABEL, "the label of event 0: the recording has no room for labels");
    begin_in(2, 1000, 1, 8);
    assert(tsotest_record_label(&r, tsotest_record_fence(&r, 0), "123456789") == -1);
    fails(TSOTEST_BAD_LABEL, "the label of event 0 has more than 8 bytes");
    for (int round = 0; round < 2; round++) {
        if (round == 0)
            begin_in(2, 1000, 1, 8);
        else
            tsotest_record_continue(&r);
        for (int i = 0; i < 1000; i++) {
            char label[24];
            snprintf(label, sizeof label, "12345%03d", i);
            assert(tsotest_record_fence(&r, 1 - i % 2) == i);
            if (round == 0)
                assert(tsotest_record_label(&r, i, label) == i);
        }
        size = 0;
        for (int core = 0; core < 2; core++)
            for (int i = 1 - core; i < 1000; i += 2)
                size += (size_t)(round == 0 ? sprintf(wanted + size, "12345%03d\n", i) : sprintf(wanted + size, "\n"));
        assert(tsotest_labels_text(&r, text, 20000, &len) == TSOTEST_NO_FAULT && len == size && !memcmp(text, wanted, len));
    }
    free(text);
    free(wanted);
}

/* A copy that writes into the lists of the first record. */
static void copies(void)
{
    static struct tsotest_record copy;
    size_t len;
    char out[64];
    tsotest_record_begin(&r, 1);
    tsotest_record_fence(&r, 0);
    memcpy(&copy, &r, sizeof r);
    assert(tsotest_record_store(&copy, 0, 0x40, 1) == -1 && copy.error == TSOTEST_NO_SUCH && strstr(copy.message, "is a copy"));
    memcpy(&copy, &r, sizeof r);
    assert(tsotest_labels_text(&copy, out, sizeof out, &len) == TSOTEST_NO_SUCH && len == 0);
    assert(tsotest_write_log(&copy, stdout) == TSOTEST_NO_SUCH);
    assert(tsotest_record_fence(&r, 0) == 1 && tsotest_labels_text(&r, out, sizeof out, &len) == TSOTEST_NO_FAULT && len == 2);
    tsotest_record_begin(&copy, 1);
    assert(tsotest_record_fence(&copy, 0) == 0 && r.events == 2);
}

/* A merge that passes all events of its core for each store, a commit that passes all of its address, and a count that settles the run
 * again: each takes minutes. */
static void no_squares(void)
{
    struct tsotest_counts counts = {0, 0, 0, 0};
    begin_in(2, more, 2, 0);
    for (int i = 0; i < more / 2; i++) {
        assert(tsotest_record_store(&r, 0, 0x40, (uint64_t)i + 1) == 2 * i && tsotest_record_store(&r, 1, 0x40, (uint64_t)i + 1) == 2 * i + 1);
        assert(tsotest_record_commit_merged(&r, 0, 0x40, (uint64_t)i + 1) == 0);
    }
    assert(tsotest_record_commit_merged(&r, 1, 0x40, (uint64_t)(more / 2)) == 0);
    for (int i = 0; i < more; i++)
        assert(tsotest_record_count(&r, &counts) == TSOTEST_NO_FAULT);
    assert(counts.commits == (uint64_t)more * (uint64_t)(more / 2 * 2));
}

static double seconds(void)
{
    struct timespec t;
    clock_gettime(CLOCK_MONOTONIC, &t);
    return (double)t.tv_sec + 1e-9 * (double)t.tv_nsec;
}

/* Lets more happen, records it once again, and writes it. */
static void timed(void)
{
    size_t size = make_room(CORES, more, ADDRESSES, 0);
    double start, recorded;
    int next = 0;
    FILE *file = fopen("/dev/null", "w");
    tsotest_record_begin_in(&r, CORES, more, ADDRESSES, 0, odd, size);
    run(more, true);
    start = seconds();
    tsotest_record_begin_in(&r, CORES, more, ADDRESSES, 0, odd, size);
    for (int a = 0; a < ADDRESSES; a++)
        tsotest_record_initial(&r, address_of(a), initial[a]);
    for (int e = 0; e < events; e++) {
        const struct happened *it = &event[e];
        uint64_t address = address_of(it->address);
        switch (it->kind) {
        case 'L': tsotest_record_load(&r, it->core, address, it->read); break;
        case 'S': tsotest_record_store(&r, it->core, address, it->written); break;
        case 'R': tsotest_record_rmw(&r, it->core, address, it->read, it->written); break;
        case 'C': tsotest_record_failed_cas(&r, it->core, address, it->read); break;
        default: tsotest_record_fence(&r, it->core);
        }
        for (; next < takens && taken[next] <= e; next++)
            tsotest_record_commit(&r, event[taken[next]].core, address_of(event[taken[next]].address), event[taken[next]].written);
    }
    recorded = seconds();
    assert(file && tsotest_write_recording(&r, file) == TSOTEST_NO_FAULT);
    fclose(file);
    printf("%d events in %zu bytes an event: recorded in %.3f s, written in %.3f s\n", events, size / (size_t)more, recorded - start,
           seconds() - recorded);
}

static void *all(void *argument)
{
    (void)argument;
    whole_runs();
    timed();
    same_values();
    small_rooms();
    limits();
    labels();
    copies();
    no_squares();
    return NULL;
}

int main(int argc, char **argv)
{
    pthread_t thread;
    pthread_attr_t small;
    assert(argc == 3);
    most = (int)strtol(argv[1], NULL, 10);
    more = (int)strtol(argv[2], NULL, 10);
    assert(0 < most && most <= more);
    event = (struct happened *)malloc(sizeof *event * (size_t)more);
    taken = (int *)malloc(sizeof *taken * (size_t)more);
    want = (char *)malloc(100 * (size_t)most + 10000);
    assert(event && taken && want);
    assert(pthread_attr_init(&small) == 0 && pthread_attr_setstacksize(&small, 256 * 1024) == 0);
    assert(pthread_create(&thread, &small, all, NULL) == 0 && pthread_join(thread, NULL) == 0);
    pthread_attr_destroy(&small);
    free(event);
    free(taken);
    free(want);
    free(memory);
    return 0;
}
