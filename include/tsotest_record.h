/* SPDX-License-Identifier: MIT OR Apache-2.0 */
/* tsotest_record.h: makes the text of a recording from what a testbench sees.
 *
 * A testbench records two things as they happen:
 *
 *   what each core executed, in that core's program order: tsotest_record_load, _store, _rmw, _failed_cas, _fence. The usual
 *     place for these calls is where an instruction retires. The calls of different cores may come in any order;
 *   in which order the writes of each address reached memory: tsotest_record_commit, called where a store or an atomic becomes
 *     visible to the other cores: when it is written to a line that the core owns, or to the one memory. The calls of different
 *     addresses may come in any order, and a commit may come before its store.
 *
 * Then tsotest_recording_text gives the recording, for the calls of tsotest.h or the commands of `tsotest`. It finds the write
 * that each read got its value from by the value: so let no two writes of an address write the same value, nor the initial one;
 * a counter does it. Where values repeat, name sources by tsotest_record_source and commits by tsotest_record_commit_event.
 *
 *   static struct tsotest_record r;
 *   tsotest_record_begin(&r, 2);
 *   tsotest_record_store(&r, 0, 0x40, 1);
 *   tsotest_record_load(&r, 0, 0x44, 0);
 *   tsotest_record_store(&r, 1, 0x44, 2);
 *   tsotest_record_load(&r, 1, 0x40, 0);
 *   tsotest_record_commit(&r, 0, 0x40, 1);
 *   tsotest_record_commit(&r, 1, 0x44, 2);
 *   if (tsotest_write_recording(&r, stdout))
 *       fprintf(stderr, "%s\n", r.message);
 *
 * A bench that sees no commits records none, and asks tsotest_values_text for the values alone, which `tsotest complete` takes.
 *
 * Each call that records an event answers its number, from 0 in the order of the calls, or -1. The first fault is kept: r.error
 * says which, r.message says it in words, and no text is given until the next tsotest_record_begin. So a testbench may ignore
 * what the calls answer, and look at the end. A recording without an event is a fault too, since a monitor that is connected to
 * nothing makes one; tsotest_record_allow_empty says that it may be. tsotest_record_count says how much was recorded.
 *
 * An address names a word: docs/TESTBENCH.md says what that is. A value is a whole number below 2^64. A recording has numbers
 * below 2^32, so its text has a number in place of each greater value: the least from 1 on that is neither a value of the
 * recording nor in use, in the order in which the text first uses these values. A judge asks only which values are equal.
 * r.message and tsotest_write_log have the values as they were recorded. C turns a negative number or a fraction into a value in
 * silence: compile with -Wconversion -Wsign-conversion.
 *
 * tsotest_record_label gives an event a label, such as a cycle, a pc or an instruction: tsotest_labels_text gives the labels of all
 * events, for `tsotest explain FILE --labels LABELS`, which shows each beside its event.
 *
 * A record takes 77 KB, asks for no memory, and needs no freeing. It holds a recording of up to 16 cores, 512 events and 16
 * addresses. It points into itself, so it may not be copied or moved: a call on a copy is a fault. Each thread may have its own.
 * Where several threads write one record, each holds a lock over a step of the design and the call that records it, so that
 * calls come in the order in which memory took the writes.
 *
 * A longer recording, of up to 1,024 cores, 16,777,216 events and 65,536 addresses, lies in memory that the testbench gives. For
 * 4 cores, a million events, 64 addresses, and no labels:
 *
 *   size_t size = TSOTEST_RECORD_BYTES(4, 1000000, 64, 0);
 *   void *memory = malloc(size);
 *   tsotest_record_begin_in(&r, 4, 1000000, 64, 0, memory, size);
 *
 * All other calls are as before. `tsotest judge --long` and tsotest_judge_long take its text.
 *
 * C11 and later, C++11 and later. */
#ifndef TSOTEST_RECORD_H
#define TSOTEST_RECORD_H

#include <inttypes.h>
#include <stdarg.h>
#include <stdbool.h>
#include <stddef.h>
#include <stdint.h>
#include <stdio.h>
#include <string.h>

#ifdef __cplusplus
extern "C" {
#endif

/* What a record holds by itself: as many commits as events. */
#define TSOTEST_RECORD_CORES 16
#define TSOTEST_RECORD_EVENTS 512
#define TSOTEST_RECORD_ADDRESSES 16

/* What it holds at most in memory that is given. */
#define TSOTEST_RECORD_LONG_CORES 1024
#define TSOTEST_RECORD_LONG_EVENTS 16777216
#define TSOTEST_RECORD_LONG_ADDRESSES 65536

/* No text of a recording that a record holds by itself, or of its program, is longer, in bytes. Of a longer one each call of a text
 * says how long it is. */
#define TSOTEST_MAX_RECORDING_BYTES 32768

/* No label is longer, in bytes, and no text of labels of a recording that a record holds by itself. */
#define TSOTEST_MAX_LABEL_BYTES 64
#define TSOTEST_MAX_LABELS_BYTES (TSOTEST_RECORD_EVENTS * (TSOTEST_MAX_LABEL_BYTES + 1))

/* No text of counts is longer, in bytes. */
#define TSOTEST_MAX_COUNTS_BYTES 256

/* The source of a read, for tsotest_record_source: the initial value. */
#define TSOTEST_INITIAL (-1)

enum tsotest_fault {
    TSOTEST_NO_FAULT = 0,
    /* Of the testbench: */
    TSOTEST_FULL,         /* more cores, events, addresses or commits than there is room for, or too little memory */
    TSOTEST_NO_SUCH,      /* no such core or event, or the event is no read or no write; or the record is a copy */
    TSOTEST_AMBIGUOUS,    /* several writes of the address wrote that value */
    TSOTEST_SHORT_BUFFER, /* the text has no room */
    TSOTEST_WRITE_FAILED, /* the file can't be written */
    TSOTEST_EMPTY,        /* no event was recorded */
    TSOTEST_BAD_LABEL,    /* a label is too long, or has a newline, or there is no room for labels */
    /* Of the design, as a rule. None of these is a recording: each is a violation that needs no judge. */
    TSOTEST_STRAY_VALUE, /* a read got a value that nobody wrote there */
    TSOTEST_LOST_STORE,  /* a write never reached memory */
    TSOTEST_STRAY_COMMIT /* what reached memory is no write of that core, or was there already */
};

struct tsotest_event {
    char kind; /* L, S, R, C, F, as in the text */
    bool is_committed;
    uint16_t core;
    uint32_t address;
    int32_t number;       /* in the text */
    int32_t same;         /* the next write of the same value to the same address, or -1 */
    int32_t given_source; /* by tsotest_record_source; -2 without it */
    union {
        int32_t source; /* of a read */
        int32_t older;  /* of a store: the last store before it of its core to its address, or -1 where none waits */
    };
    int32_t next;  /* of a write: the one that memory took next at its address, or -1 */
    uint32_t text; /* what the text has in place of the value that was written */
    uint64_t read, written;
};

struct tsotest_commit {
    uint16_t core;
    bool is_merged;
    uint32_t address;
    int32_t event; /* by tsotest_record_commit_event; -1 without it */
    uint64_t written;
};

struct tsotest_address {
    uint64_t address, initial;
    uint32_t text;       /* what the text has in place of the initial value */
    int32_t name;        /* the number in the text; -1 where no event uses the address */
    int32_t first, last; /* the writes that memory took first and last, or -1 */
    int32_t store;       /* the last store of the core that is looked at, or -1 */
};

/* How many bytes of memory a recording of up to so many cores, events and addresses takes, with labels of up to label_bytes, 0 to 64:
 * 85 for each event, and where there are labels one more and label_bytes; 61 for each address; 4 for each core. Of these 13 and 21 are
 * for the numbers that tsotest_lay_ lays beside an event and an address, and 96 for what its lists lose by their alignment. */
#define TSOTEST_RECORD_BYTES(cores, events, addresses, label_bytes)                                     \
    ((size_t)(events) * (sizeof(struct tsotest_event) + sizeof(struct tsotest_commit) + 13)             \
     + (size_t)(events) * ((size_t)(label_bytes) + (size_t)((label_bytes) != 0))                        \
     + (size_t)(addresses) * (sizeof(struct tsotest_address) + 21) + (size_t)(cores) * 4 + 96)

struct tsotest_record {
    enum tsotest_fault error;
    char message[256];
    const struct tsotest_record *self; /* where the recording began: a copy stands elsewhere */
    bool may_be_empty, is_continued;
    bool is_settled; /* whether the texts are those of all that was recorded */
    bool is_alone;   /* whether they are those of values alone, which name the sources that were given */
    int most_events, most_addresses, label_bytes;
    int cores, events, addresses, commits;
    int names, taken;            /* the addresses that events use, and the writes that memory took */
    uint64_t foreign_reads;      /* reads of a value that another core wrote */
    struct tsotest_event *event; /* in the order of the calls, as the next two */
    struct tsotest_commit *commit;
    struct tsotest_address *address;
    uint32_t *found;   /* a table of the addresses by their hash: one more than the place of an address, or 0 */
    int32_t *named;    /* the address of each number in the text */
    int32_t *first;    /* the number of each core's first event, and after the last core's how many events there are */
    int32_t *ordered;  /* the event of each number */
    int32_t *slot;     /* a table of writes by the hash of address and value, and then of writers by that of the value; -1 is none */
    uint8_t *is_value; /* a bit for each small number: whether it is a value of the recording */
    char *label;       /* of each event, with a 0 byte at its end */
    unsigned char own[TSOTEST_RECORD_BYTES(TSOTEST_RECORD_CORES, TSOTEST_RECORD_EVENTS, TSOTEST_RECORD_ADDRESSES,
                                           TSOTEST_MAX_LABEL_BYTES)];
};

/* How much was recorded. */
struct tsotest_counts {
    uint64_t runs;          /* recordings */
    uint64_t events;        /* what cores executed */
    uint64_t foreign_reads; /* reads of a value that another core wrote */
    uint64_t commits;       /* writes that memory took */
};

/* Whether a fault is one of the design, as a rule, and not of the testbench. */
static inline bool tsotest_is_of_design(enum tsotest_fault fault)
{
    return fault >= TSOTEST_STRAY_VALUE;
}

/* ---------------------------------------------------------------------------------------------------- what happened */

static inline bool tsotest_reads_(char kind)
{
    return kind == 'L' || kind == 'R' || kind == 'C';
}

static inline bool tsotest_writes_(char kind)
{
    return kind == 'S' || kind == 'R';
}

/* Keeps a fault, unless there is one, and answers -1. */
static inline int tsotest_record_fail(struct tsotest_record *r, enum tsotest_fault error, const char *format, ...)
{
    if (!r->error) {
        va_list words;
        va_start(words, format);
        vsnprintf(r->message, sizeof r->message, format, words);
        va_end(words);
        r->error = error;
    }
    return -1;
}

static inline bool tsotest_is_copy_(const struct tsotest_record *r)
{
    return r->self && r->self != r;
}

/* Whether the record takes a call: its recording has begun, it is no copy, and there is no fault. */
static inline bool tsotest_is_open_(struct tsotest_record *r)
{
    if (!r->self)
        tsotest_record_fail(r, TSOTEST_EMPTY, "no event was recorded: has the recording begun, and is a monitor connected?");
    if (tsotest_is_copy_(r))
        tsotest_record_fail(r, TSOTEST_NO_SUCH, "this record is a copy, and has no recording of its own");
    return !r->error;
}

/* A place of a table of this size for a value and a number that goes with it. */
static inline uint32_t tsotest_hash_(uint64_t value, uint32_t with, uint32_t size)
{
    value = value * 0x9E3779B97F4A7C15u + with * 0xD6E8FEB86659FD93u;
    return (uint32_t)((value >> 32) * size >> 32);
}

/* Cuts bytes off the front of memory, from the next multiple of 8 on. */
static inline void *tsotest_cut_(unsigned char **memory, size_t bytes)
{
    unsigned char *front = *memory + (8 - (uintptr_t)*memory % 8) % 8;
    *memory = front + bytes;
    return front;
}

/* Lays the lists of a recording into memory that is as large as TSOTEST_RECORD_BYTES says. */
static inline void tsotest_lay_(struct tsotest_record *r, int cores, int events, int addresses, int label_bytes, void *memory)
{
    unsigned char *at = (unsigned char *)memory;
    size_t e = (size_t)events, a = (size_t)addresses;
    r->most_events = events;
    r->most_addresses = addresses;
    r->label_bytes = label_bytes;
    r->event = (struct tsotest_event *)tsotest_cut_(&at, e * sizeof *r->event);
    r->commit = (struct tsotest_commit *)tsotest_cut_(&at, e * sizeof *r->commit);
    r->address = (struct tsotest_address *)tsotest_cut_(&at, a * sizeof *r->address);
    r->found = (uint32_t *)tsotest_cut_(&at, 2 * a * sizeof *r->found);
    r->named = (int32_t *)tsotest_cut_(&at, a * sizeof *r->named);
    r->first = (int32_t *)tsotest_cut_(&at, ((size_t)cores + 1) * sizeof *r->first);
    r->ordered = (int32_t *)tsotest_cut_(&at, e * sizeof *r->ordered);
    r->slot = (int32_t *)tsotest_cut_(&at, 2 * (e + a) * sizeof *r->slot);
    r->is_value = (uint8_t *)tsotest_cut_(&at, (e + a) / 8 + 1);
    r->label = (char *)tsotest_cut_(&at, label_bytes ? e * ((size_t)label_bytes + 1) : 0);
    memset(r->found, 0, 2 * a * sizeof *r->found);
}

/* Begins a recording, which is empty. */
static inline void tsotest_begin_(struct tsotest_record *r, int cores)
{
    r->error = TSOTEST_NO_FAULT;
    r->message[0] = '\0';
    r->self = r;
    r->is_settled = r->is_alone = false;
    r->cores = cores;
    r->events = r->commits = r->names = r->taken = 0;
    r->foreign_reads = 0;
}

/* Begins a recording without addresses. */
static inline void tsotest_begin_new_(struct tsotest_record *r, int cores, int most_cores)
{
    r->may_be_empty = r->is_continued = false;
    r->addresses = 0;
    tsotest_begin_(r, cores);
    if (cores < 0 || cores > most_cores)
        tsotest_record_fail(r, TSOTEST_FULL, "%d cores: a recording has %d at most", cores, most_cores);
}

/* Begins a recording of this many cores, 0 to 16, and forgets what was there. The record may hold anything before. */
static inline void tsotest_record_begin(struct tsotest_record *r, int cores)
{
    tsotest_begin_new_(r, cores, TSOTEST_RECORD_CORES);
    if (!r->error)
        tsotest_lay_(r, cores, TSOTEST_RECORD_EVENTS, TSOTEST_RECORD_ADDRESSES, TSOTEST_MAX_LABEL_BYTES, r->own);
}

/* Begins a recording of this many cores, 0 to 1,024, with room for so many events, 1 to 16,777,216, as many commits, so many
 * addresses, 1 to 65,536, and labels of at most label_bytes, 0 to 64: with 0 a label is a fault. It lies in memory of this size in
 * bytes, of which it takes TSOTEST_RECORD_BYTES; too little is a fault, TSOTEST_FULL. The memory may begin anywhere and hold
 * anything. It stays the caller's, who leaves it alone until the next begin, and frees it. Each such recording begins by this call:
 * tsotest_record_begin begins one that the record holds by itself, and tsotest_record_continue goes on in the memory of the last. */
static inline void tsotest_record_begin_in(struct tsotest_record *r, int cores, int events, int addresses, int label_bytes, void *memory,
                                           size_t size)
{
    tsotest_begin_new_(r, cores, TSOTEST_RECORD_LONG_CORES);
    if (events < 1 || events > TSOTEST_RECORD_LONG_EVENTS)
        tsotest_record_fail(r, TSOTEST_FULL, "room for %d events: it is 1 to %d", events, TSOTEST_RECORD_LONG_EVENTS);
    else if (addresses < 1 || addresses > TSOTEST_RECORD_LONG_ADDRESSES)
        tsotest_record_fail(r, TSOTEST_FULL, "room for %d addresses: it is 1 to %d", addresses, TSOTEST_RECORD_LONG_ADDRESSES);
    else if (label_bytes < 0 || label_bytes > TSOTEST_MAX_LABEL_BYTES)
        tsotest_record_fail(r, TSOTEST_BAD_LABEL, "labels of %d bytes: they have 0 to %d", label_bytes, TSOTEST_MAX_LABEL_BYTES);
    else if (!r->error && size < TSOTEST_RECORD_BYTES(cores, events, addresses, label_bytes))
        tsotest_record_fail(r, TSOTEST_FULL, "%zu bytes of memory: the recording takes %zu", size,
                            TSOTEST_RECORD_BYTES(cores, events, addresses, label_bytes));
    if (!r->error)
        tsotest_lay_(r, cores, events, addresses, label_bytes, memory);
}

/* Says that this recording, and those that continue it, may have no event. */
static inline void tsotest_record_allow_empty(struct tsotest_record *r)
{
    r->may_be_empty = true;
}

/* The place of an address, or -1 and r->error. */
static inline int tsotest_address_(struct tsotest_record *r, uint64_t address)
{
    uint32_t size = 2 * (uint32_t)r->most_addresses, at = tsotest_hash_(address, 0, size);
    struct tsotest_address *a;
    for (; r->found[at]; at = at + 1 == size ? 0 : at + 1)
        if (r->address[r->found[at] - 1].address == address)
            return (int)r->found[at] - 1;
    if (r->addresses == r->most_addresses)
        return tsotest_record_fail(r, TSOTEST_FULL, "more than %d addresses: 0x%" PRIx64 " is one more", r->most_addresses, address);
    a = &r->address[r->addresses];
    a->address = address;
    a->initial = 0;
    r->found[at] = (uint32_t)++r->addresses;
    return r->addresses - 1;
}

static inline int tsotest_core_(struct tsotest_record *r, int core)
{
    if (!tsotest_is_open_(r))
        return -1;
    if (core < 0 || core >= r->cores)
        return tsotest_record_fail(r, TSOTEST_NO_SUCH, "core %d: the recording has %d", core, r->cores);
    return core;
}

/* The place of an event's label. */
static inline char *tsotest_label_(const struct tsotest_record *r, int event)
{
    return r->label + (size_t)event * ((size_t)r->label_bytes + 1);
}

static inline int tsotest_event_(struct tsotest_record *r, char kind, int core, uint64_t address, uint64_t read,
                                 uint64_t written)
{
    struct tsotest_event *e;
    int a = 0;
    if (tsotest_core_(r, core) < 0)
        return -1;
    if (r->events == r->most_events)
        return tsotest_record_fail(r, TSOTEST_FULL, "more than %d events", r->most_events);
    if (kind != 'F' && (a = tsotest_address_(r, address)) < 0)
        return -1;
    e = &r->event[r->events];
    e->kind = kind;
    e->core = (uint16_t)core;
    e->address = (uint32_t)a;
    e->given_source = -2;
    e->read = read;
    e->written = written;
    if (r->label_bytes)
        *tsotest_label_(r, r->events) = '\0';
    r->is_settled = false;
    return r->events++;
}

/* The value of an address before every write; 0 without this call. Answers 0, or -1. */
static inline int tsotest_record_initial(struct tsotest_record *r, uint64_t address, uint64_t value)
{
    int a = tsotest_is_open_(r) ? tsotest_address_(r, address) : -1;
    if (a < 0)
        return -1;
    r->address[a].initial = value;
    r->is_settled = false;
    return 0;
}

/* A load, and the value that it read. */
static inline int tsotest_record_load(struct tsotest_record *r, int core, uint64_t address, uint64_t value)
{
    return tsotest_event_(r, 'L', core, address, value, 0);
}

/* A store, and the value that it wrote. */
static inline int tsotest_record_store(struct tsotest_record *r, int core, uint64_t address, uint64_t value)
{
    return tsotest_event_(r, 'S', core, address, 0, value);
}

/* An atomic that read and wrote: a swap, an add, a compare-and-swap that succeeded. */
static inline int tsotest_record_rmw(struct tsotest_record *r, int core, uint64_t address, uint64_t read, uint64_t written)
{
    return tsotest_event_(r, 'R', core, address, read, written);
}

/* A compare-and-swap that wrote nothing. It is ordered as an atomic; where it is a mere load in your architecture, record a
 * load. */
static inline int tsotest_record_failed_cas(struct tsotest_record *r, int core, uint64_t address, uint64_t read)
{
    return tsotest_event_(r, 'C', core, address, read, 0);
}

/* A full fence. */
static inline int tsotest_record_fence(struct tsotest_record *r, int core)
{
    return tsotest_event_(r, 'F', core, 0, 0, 0);
}

/* The label of an event, a text of at most 64 bytes without a newline, or as long as tsotest_record_begin_in said; the last one that is
 * given. Answers the event, or -1. */
static inline int tsotest_record_label(struct tsotest_record *r, int event, const char *label)
{
    size_t len;
    if (!tsotest_is_open_(r))
        return -1;
    if (event < 0 || event >= r->events)
        return tsotest_record_fail(r, TSOTEST_NO_SUCH, "event %d: there is none to label", event);
    if (!r->label_bytes)
        return tsotest_record_fail(r, TSOTEST_BAD_LABEL, "the label of event %d: the recording has no room for labels", event);
    len = strlen(label);
    if (len > (size_t)r->label_bytes)
        return tsotest_record_fail(r, TSOTEST_BAD_LABEL, "the label of event %d has more than %d bytes", event, r->label_bytes);
    if (memchr(label, '\n', len))
        return tsotest_record_fail(r, TSOTEST_BAD_LABEL, "the label of event %d has a newline", event);
    memcpy(tsotest_label_(r, event), label, len + 1);
    return event;
}

static inline struct tsotest_event *tsotest_read_(struct tsotest_record *r, int event)
{
    if (!tsotest_is_open_(r))
        return NULL;
    if (event < 0 || event >= r->events || !tsotest_reads_(r->event[event].kind)) {
        tsotest_record_fail(r, TSOTEST_NO_SUCH, "event %d is no read", event);
        return NULL;
    }
    r->is_settled = false;
    return &r->event[event];
}

/* The value that a read got, where it is known only after later events of its core: record the read at its place in program
 * order with any value, and make this call when the data come. */
static inline int tsotest_record_value(struct tsotest_record *r, int event, uint64_t value)
{
    struct tsotest_event *e = tsotest_read_(r, event);
    if (e)
        e->read = value;
    return e ? event : -1;
}

/* The write that a read got its value from: an event, or TSOTEST_INITIAL. */
static inline int tsotest_record_source(struct tsotest_record *r, int event, int source)
{
    struct tsotest_event *e = tsotest_read_(r, event);
    if (e && source != TSOTEST_INITIAL
        && (source < 0 || source >= r->events || !tsotest_writes_(r->event[source].kind)
            || r->event[source].address != e->address))
        return tsotest_record_fail(r, TSOTEST_NO_SUCH, "event %d is no write of the address that event %d read", source, event);
    if (e)
        e->given_source = source;
    return e ? event : -1;
}

static inline struct tsotest_commit *tsotest_commit_(struct tsotest_record *r, int core, uint32_t address, uint64_t value)
{
    struct tsotest_commit *c;
    if (r->commits == r->most_events) {
        tsotest_record_fail(r, TSOTEST_FULL, "more than %d commits", r->most_events);
        return NULL;
    }
    c = &r->commit[r->commits++];
    c->core = (uint16_t)core;
    c->address = address;
    c->is_merged = false;
    c->event = -1;
    c->written = value;
    r->is_settled = false;
    return c;
}

/* A write of this core reached memory, after all writes of the address that did so before. Answers 0, or -1. */
static inline int tsotest_record_commit(struct tsotest_record *r, int core, uint64_t address, uint64_t value)
{
    int a;
    if (tsotest_core_(r, core) < 0 || (a = tsotest_address_(r, address)) < 0)
        return -1;
    return tsotest_commit_(r, core, (uint32_t)a, value) ? 0 : -1;
}

/* A store of this core reached memory from an entry of a store buffer that merges: memory took the stores of this core to this
 * address that waited, in program order, and this one last. It stands for a tsotest_record_commit of each of them. Where an
 * entry has several words, make one call for each. Answers 0, or -1. */
static inline int tsotest_record_commit_merged(struct tsotest_record *r, int core, uint64_t address, uint64_t value)
{
    int answer = tsotest_record_commit(r, core, address, value);
    if (answer == 0)
        r->commit[r->commits - 1].is_merged = true;
    return answer;
}

/* A write that was recorded already, given by its event, reached memory. Answers 0, or -1. */
static inline int tsotest_record_commit_event(struct tsotest_record *r, int event)
{
    const struct tsotest_event *e;
    struct tsotest_commit *c;
    if (!tsotest_is_open_(r))
        return -1;
    if (event < 0 || event >= r->events || !tsotest_writes_(r->event[event].kind))
        return tsotest_record_fail(r, TSOTEST_NO_SUCH, "event %d is no write", event);
    e = &r->event[event];
    c = tsotest_commit_(r, e->core, e->address, e->written);
    if (c)
        c->event = event;
    return c ? 0 : -1;
}

/* Begins the next recording where memory keeps what the last one left there: as many cores, and of each address the value that
 * reached memory last is the initial one. It has the room of the last one, whose addresses keep theirs. After a fault it does
 * nothing: only tsotest_record_begin and tsotest_record_begin_in go on.
 *
 * Cut a run only where the design is quiet: all has retired, no store waits in a buffer, and each core has taken every
 * invalidation that was sent to it. Else a load of the next recording may still lawfully read a value of the last one, which is
 * then reported as one that nobody wrote. */
static inline void tsotest_record_continue(struct tsotest_record *r)
{
    if (!tsotest_is_open_(r))
        return;
    for (int i = 0; i < r->commits; i++)
        r->address[r->commit[i].address].initial = r->commit[i].written;
    r->is_continued = true;
    tsotest_begin_(r, r->cores);
}

/* ------------------------------------------------------------------------------------------------ what follows of it */

/* Numbers the events core by core. */
static inline void tsotest_number_(struct tsotest_record *r)
{
    memset(r->first, 0, ((size_t)r->cores + 1) * sizeof *r->first);
    for (int e = 0; e < r->events; e++)
        r->first[r->event[e].core + 1]++;
    for (int core = 0; core < r->cores; core++)
        r->first[core + 1] += r->first[core];
    /* Each core's entry goes up to the first of the next core, and is then put back. */
    for (int e = 0; e < r->events; e++) {
        r->event[e].number = r->first[r->event[e].core]++;
        r->ordered[r->event[e].number] = e;
    }
    for (int core = r->cores; core > 0; core--)
        r->first[core] = r->first[core - 1];
    r->first[0] = 0;
}

/* Numbers the addresses by their first use in the order of the events' numbers. */
static inline void tsotest_name_(struct tsotest_record *r)
{
    r->names = 0;
    for (int a = 0; a < r->addresses; a++)
        r->address[a].name = -1;
    for (int number = 0; number < r->events; number++) {
        const struct tsotest_event *e = &r->event[r->ordered[number]];
        if (e->kind != 'F' && r->address[e->address].name < 0) {
            r->named[r->names] = (int32_t)e->address;
            r->address[e->address].name = r->names++;
        }
    }
}

/* The place of an event on its core, from 0. */
static inline int tsotest_place_(const struct tsotest_record *r, int event)
{
    return r->event[event].number - r->first[r->event[event].core];
}

/* How many slots the run has: two for each write and each initial value. */
static inline uint32_t tsotest_slots_(const struct tsotest_record *r)
{
    return 2 * (uint32_t)(r->events + r->addresses);
}

static inline void tsotest_clear_slots_(struct tsotest_record *r)
{
    memset(r->slot, 0xFF, tsotest_slots_(r) * sizeof *r->slot);
}

/* Where the first write of a value to an address stands, or would. */
static inline int32_t *tsotest_slot_(struct tsotest_record *r, uint32_t address, uint64_t written)
{
    uint32_t size = tsotest_slots_(r);
    for (uint32_t at = tsotest_hash_(written, address + 1, size);; at = at + 1 == size ? 0 : at + 1) {
        int32_t e = r->slot[at];
        if (e < 0 || (r->event[e].address == address && r->event[e].written == written))
            return &r->slot[at];
    }
}

static inline void tsotest_index_(struct tsotest_record *r)
{
    tsotest_clear_slots_(r);
    for (int e = r->events - 1; e >= 0; e--) {
        r->event[e].is_committed = false;
        r->event[e].same = -1;
        if (tsotest_writes_(r->event[e].kind)) {
            int32_t *slot = tsotest_slot_(r, r->event[e].address, r->event[e].written);
            r->event[e].same = *slot;
            *slot = e;
        }
    }
}

/* Finds for each store the last one before it of its core to its address. */
static inline void tsotest_link_stores_(struct tsotest_record *r)
{
    for (int core = 0; core < r->cores; core++) {
        for (int n = r->first[core]; n < r->first[core + 1]; n++)
            if (r->event[r->ordered[n]].kind == 'S')
                r->address[r->event[r->ordered[n]].address].store = -1;
        for (int n = r->first[core]; n < r->first[core + 1]; n++) {
            struct tsotest_event *e = &r->event[r->ordered[n]];
            if (e->kind == 'S') {
                e->older = r->address[e->address].store;
                r->address[e->address].store = r->ordered[n];
            }
        }
    }
}

/* The write of a core that a commit is of, by its value, or -1 and r->error. */
static inline int tsotest_committed_(struct tsotest_record *r, const struct tsotest_commit *c)
{
    int found = -1;
    for (int e = *tsotest_slot_(r, c->address, c->written); e >= 0; e = r->event[e].same) {
        if (r->event[e].core != c->core)
            continue;
        if (found >= 0)
            return tsotest_record_fail(r, TSOTEST_AMBIGUOUS, "core %d wrote %" PRIu64 " to 0x%" PRIx64 " twice", c->core,
                                       c->written, r->address[c->address].address);
        found = e;
    }
    if (found < 0)
        tsotest_record_fail(r, TSOTEST_STRAY_COMMIT,
                            "core %d: the value %" PRIu64 " reached 0x%" PRIx64 ", and this core executed no such write",
                            c->core, c->written, r->address[c->address].address);
    return found;
}

/* Memory takes a write. */
static inline int tsotest_take_(struct tsotest_record *r, int event)
{
    struct tsotest_event *e = &r->event[event];
    struct tsotest_address *a = &r->address[e->address];
    if (e->is_committed)
        return tsotest_record_fail(r, TSOTEST_STRAY_COMMIT, "core %d: the value %" PRIu64 " reached 0x%" PRIx64 " twice", e->core,
                                   e->written, a->address);
    e->is_committed = true;
    e->next = -1;
    if (a->last < 0)
        a->first = event;
    else
        r->event[a->last].next = event;
    a->last = event;
    r->taken++;
    return 0;
}

/* Memory takes the stores before a store that wait for the same address in the buffer of its core. */
static inline void tsotest_take_merged_(struct tsotest_record *r, int event)
{
    struct tsotest_event *last = &r->event[event];
    int oldest = -1;
    if (last->kind != 'S' || last->is_committed)
        return;
    /* From the last back to the first; `next` leads on again. */
    for (int e = last->older; e >= 0; e = r->event[e].older)
        if (!r->event[e].is_committed) {
            r->event[e].next = oldest;
            oldest = e;
        }
    last->older = -1; /* so no store is passed twice */
    while (oldest >= 0) {
        int e = oldest;
        oldest = r->event[e].next;
        tsotest_take_(r, e);
    }
}

static inline int tsotest_settle_commits_(struct tsotest_record *r)
{
    bool are_linked = false;
    r->taken = 0;
    for (int a = 0; a < r->addresses; a++)
        r->address[a].first = r->address[a].last = -1;
    for (int i = 0; i < r->commits; i++) {
        const struct tsotest_commit *c = &r->commit[i];
        int found = c->event >= 0 ? c->event : tsotest_committed_(r, c);
        if (found < 0)
            return -1;
        if (c->is_merged && !are_linked)
            tsotest_link_stores_(r);
        are_linked |= c->is_merged;
        if (c->is_merged)
            tsotest_take_merged_(r, found);
        if (tsotest_take_(r, found))
            return -1;
    }
    for (int e = 0; e < r->events; e++)
        if (tsotest_writes_(r->event[e].kind) && !r->event[e].is_committed)
            return tsotest_record_fail(r, TSOTEST_LOST_STORE,
                                       "operation %d of core %d wrote %" PRIu64 " to 0x%" PRIx64 ", which never reached memory",
                                       tsotest_place_(r, e), r->event[e].core, r->event[e].written,
                                       r->address[r->event[e].address].address);
    return 0;
}

/* A source of a read by its value, and how many there are; -1 may be r->error, or TSOTEST_INITIAL. */
static inline int tsotest_some_source_(struct tsotest_record *r, int event, int *sources)
{
    const struct tsotest_event *e = &r->event[event];
    int found = TSOTEST_INITIAL, count = e->read == r->address[e->address].initial;
    for (int w = *tsotest_slot_(r, e->address, e->read); w >= 0; w = r->event[w].same) {
        found = w;
        count++;
    }
    if (count == 0)
        return tsotest_record_fail(r, TSOTEST_STRAY_VALUE,
                                   "operation %d of core %d read %" PRIu64 " from 0x%" PRIx64 ", which nobody wrote there%s",
                                   tsotest_place_(r, event), e->core, e->read, r->address[e->address].address,
                                   r->is_continued ? "; this run continues another: had each core taken every invalidation before "
                                                     "the cut?"
                                                   : "");
    *sources = count;
    return found;
}

/* The source of a read by its value, of which there may be one alone; values alone may have several. */
static inline int tsotest_found_source_(struct tsotest_record *r, int event)
{
    const struct tsotest_event *e = &r->event[event];
    int sources = 0, found = tsotest_some_source_(r, event, &sources);
    if (sources > 1 && !r->is_alone)
        return tsotest_record_fail(r, TSOTEST_AMBIGUOUS,
                                   "operation %d of core %d read %" PRIu64 " from 0x%" PRIx64 ", of which there are %d sources",
                                   tsotest_place_(r, event), e->core, e->read, r->address[e->address].address, sources);
    return found;
}

static inline int tsotest_settle_sources_(struct tsotest_record *r)
{
    r->foreign_reads = 0;
    for (int i = 0; i < r->events; i++) {
        struct tsotest_event *e = &r->event[i];
        uint64_t there;
        if (!tsotest_reads_(e->kind))
            continue;
        e->source = e->given_source == -2 ? tsotest_found_source_(r, i) : e->given_source;
        if (r->error)
            return -1;
        there = e->source < 0 ? r->address[e->address].initial : r->event[e->source].written;
        if (e->read != there)
            return tsotest_record_fail(r, TSOTEST_STRAY_VALUE,
                                       "operation %d of core %d read %" PRIu64 " from 0x%" PRIx64 ", and its source wrote %" PRIu64,
                                       tsotest_place_(r, i), e->core, e->read, r->address[e->address].address, there);
        r->foreign_reads += e->source >= 0 && r->event[e->source].core != e->core;
    }
    return 0;
}

/* A writer of a value is an event, or -2 minus an address, whose initial value it is. Here is its value, and what the text has in
 * place of it. */
static inline uint64_t tsotest_value_(const struct tsotest_record *r, int writer)
{
    return writer >= 0 ? r->event[writer].written : r->address[-2 - writer].initial;
}

static inline uint32_t *tsotest_text_(const struct tsotest_record *r, int writer)
{
    return writer >= 0 ? &r->event[writer].text : &r->address[-2 - writer].text;
}

/* How many values the recording has at most, one for each write and each initial value: no greater number stands for one. */
static inline uint32_t tsotest_most_values_(const struct tsotest_record *r)
{
    return (uint32_t)(r->events + r->addresses);
}

static inline void tsotest_mark_value_(struct tsotest_record *r, uint64_t value)
{
    if (value <= tsotest_most_values_(r))
        r->is_value[value / 8] = (uint8_t)(r->is_value[value / 8] | 1 << value % 8);
}

/* Gives a writer of a value above 2^32 - 1 what the text has for it. The last number that stands for one is *last. */
static inline void tsotest_number_value_(struct tsotest_record *r, int writer, uint32_t *last)
{
    uint64_t value = tsotest_value_(r, writer);
    uint32_t size = tsotest_slots_(r), at = tsotest_hash_(value, 0, size);
    while (r->slot[at] != -1 && tsotest_value_(r, r->slot[at]) != value)
        at = at + 1 == size ? 0 : at + 1;
    if (r->slot[at] == -1) {
        do
            ++*last;
        while (r->is_value[*last / 8] >> *last % 8 & 1);
        r->slot[at] = writer;
        *tsotest_text_(r, writer) = *last;
    } else
        *tsotest_text_(r, writer) = *tsotest_text_(r, r->slot[at]);
}

/* Numbers the values above 2^32 - 1 by their first use in the text. Each read has the value of its source. */
static inline void tsotest_number_wide_(struct tsotest_record *r)
{
    uint32_t last = 0;
    memset(r->is_value, 0, tsotest_most_values_(r) / 8 + 1);
    tsotest_clear_slots_(r);
    for (int e = 0; e < r->events; e++)
        if (tsotest_writes_(r->event[e].kind))
            tsotest_mark_value_(r, r->event[e].written);
    for (int n = 0; n < r->names; n++)
        tsotest_mark_value_(r, r->address[r->named[n]].initial);
    for (int n = 0; n < r->events; n++) {
        const struct tsotest_event *e = &r->event[r->ordered[n]];
        if (tsotest_reads_(e->kind) && e->read > UINT32_MAX)
            tsotest_number_value_(r, e->source >= 0 ? e->source : -2 - (int)e->address, &last);
        if (tsotest_writes_(e->kind) && e->written > UINT32_MAX)
            tsotest_number_value_(r, r->ordered[n], &last);
    }
    for (int n = 0; n < r->names; n++)
        if (r->address[r->named[n]].initial > UINT32_MAX)
            tsotest_number_value_(r, -2 - r->named[n], &last);
}

/* Finds what the text has in place of each value that was written, and of the initial ones. */
static inline void tsotest_number_values_(struct tsotest_record *r)
{
    bool is_wide = false;
    for (int e = 0; e < r->events; e++) {
        r->event[e].text = (uint32_t)r->event[e].written;
        is_wide |= r->event[e].written > UINT32_MAX;
    }
    for (int n = 0; n < r->names; n++) {
        r->address[r->named[n]].text = (uint32_t)r->address[r->named[n]].initial;
        is_wide |= r->address[r->named[n]].initial > UINT32_MAX;
    }
    if (is_wide)
        tsotest_number_wide_(r);
}

/* Finds what the testbench did not say, unless that is found; of values alone no commit, and of each read some source. Answers 0, or
 * -1 and r->error. */
static inline int tsotest_settle_(struct tsotest_record *r, bool is_alone)
{
    if (!tsotest_is_open_(r))
        return -1;
    if (r->is_settled && r->is_alone == is_alone)
        return 0;
    if (!r->events && !r->may_be_empty)
        return tsotest_record_fail(r, TSOTEST_EMPTY, "no event was recorded: has the recording begun, and is a monitor connected?");
    r->is_alone = is_alone;
    r->is_settled = false;
    tsotest_number_(r);
    tsotest_name_(r);
    tsotest_index_(r);
    if ((!is_alone && tsotest_settle_commits_(r)) || tsotest_settle_sources_(r))
        return -1;
    tsotest_number_values_(r);
    r->is_settled = true;
    return 0;
}

/* Counts the recording, and adds it to counts, which a testbench sets to zeros before the first one. Answers r->error; after a
 * fault nothing is added. The first of this call and those of texts goes through all that was recorded; the next ones find that
 * done. */
static inline enum tsotest_fault tsotest_record_count(struct tsotest_record *r, struct tsotest_counts *counts)
{
    if (tsotest_settle_(r, false))
        return r->error;
    counts->runs++;
    counts->events += (uint64_t)r->events;
    counts->commits += (uint64_t)r->taken;
    counts->foreign_reads += r->foreign_reads;
    return TSOTEST_NO_FAULT;
}

/* ------------------------------------------------------------------------------------------------------------- texts */

/* What is written, and how long it is, also where the room ends. With a file the bytes go there when the room is used up. */
struct tsotest_out_ {
    char *bytes;
    size_t room, len;
    FILE *file;
    bool has_failed;
};

/* No piece that is written at once, an event or a number, is longer. */
enum { TSOTEST_PIECE_ = 80 };

/* Hands the bytes to the file. */
static inline void tsotest_hand_on_(struct tsotest_out_ *out)
{
    if (fwrite(out->bytes, 1, out->len, out->file) != out->len)
        out->has_failed = true;
    out->len = 0;
}

/* Where the next piece is written: at its place, or aside where there may be no room for it. */
static inline char *tsotest_place_of_piece_(const struct tsotest_out_ *out, char *aside)
{
    return out->len + TSOTEST_PIECE_ <= out->room ? out->bytes + out->len : aside;
}

/* Puts what was written up to an end. */
static inline void tsotest_put_(struct tsotest_out_ *out, const char *piece, const char *end)
{
    size_t len = (size_t)(end - piece);
    if (out->file && len > out->room - out->len)
        tsotest_hand_on_(out);
    if (out->len < out->room && piece != out->bytes + out->len)
        memcpy(out->bytes + out->len, piece, len < out->room - out->len ? len : out->room - out->len);
    out->len += len;
}

static inline void tsotest_put_text_(struct tsotest_out_ *out, const char *text)
{
    tsotest_put_(out, text, text + strlen(text));
}

/* Adds a text to a piece, and answers its end. */
static inline char *tsotest_add_text_(char *piece, const char *text)
{
    size_t len = strlen(text);
    memcpy(piece, text, len);
    return piece + len;
}

static inline char *tsotest_add_number_(char *piece, uint32_t number)
{
    if (number >= 1000) {
        piece = tsotest_add_number_(piece, number / 1000);
        number %= 1000;
        *piece++ = (char)('0' + number / 100);
        *piece++ = (char)('0' + number / 10 % 10);
    } else if (number >= 10) {
        *piece = (char)('0' + number / 100);
        piece += number >= 100;
        *piece++ = (char)('0' + number / 10 % 10);
    }
    *piece++ = (char)('0' + number % 10);
    return piece;
}

/* What the text has for the value of a read. */
static inline uint32_t tsotest_read_text_(const struct tsotest_record *r, const struct tsotest_event *e)
{
    return e->source < 0 ? r->address[e->address].text : r->event[e->source].text;
}

/* An event, after a comma unless it is the first. */
static inline void tsotest_put_event_(const struct tsotest_record *r, struct tsotest_out_ *out, const struct tsotest_event *e,
                                      bool is_first)
{
    char aside[TSOTEST_PIECE_], *piece = tsotest_place_of_piece_(out, aside), *end = piece;
    *end = ',';
    end += !is_first;
    if (e->kind == 'F') {
        tsotest_put_(out, piece, tsotest_add_text_(end, "{\"k\":\"F\"}"));
        return;
    }
    end = tsotest_add_number_(tsotest_add_text_(end, "{\"a\":"), (uint32_t)r->address[e->address].name);
    end = tsotest_add_text_(end, ",\"k\":\"");
    *end++ = e->kind;
    *end++ = '"';
    if (tsotest_reads_(e->kind))
        end = tsotest_add_number_(tsotest_add_text_(end, ",\"r\":"), tsotest_read_text_(r, e));
    if (tsotest_reads_(e->kind) && !(r->is_alone && e->given_source == -2)) {
        end = tsotest_add_text_(end, ",\"s\":");
        end = e->source < 0 ? tsotest_add_text_(end, "null") : tsotest_add_number_(end, (uint32_t)r->event[e->source].number);
    }
    if (tsotest_writes_(e->kind))
        end = tsotest_add_number_(tsotest_add_text_(end, ",\"w\":"), e->text);
    *end++ = '}';
    tsotest_put_(out, piece, end);
}

static inline bool tsotest_is_version_2_(const struct tsotest_record *r)
{
    for (int n = 0; n < r->names; n++)
        if (r->address[r->named[n]].initial)
            return true;
    for (int e = 0; e < r->events; e++)
        if (r->event[e].kind == 'C')
            return true;
    return false;
}

static inline void tsotest_put_cores_(const struct tsotest_record *r, struct tsotest_out_ *out)
{
    for (int core = 0; core < r->cores; core++) {
        tsotest_put_text_(out, core ? ",[" : "[");
        for (int n = r->first[core]; n < r->first[core + 1]; n++)
            tsotest_put_event_(r, out, &r->event[r->ordered[n]], n == r->first[core]);
        tsotest_put_text_(out, "]");
    }
}

/* A number of a list, after what stands before it. */
static inline void tsotest_put_number_(struct tsotest_out_ *out, const char *before, uint32_t number)
{
    char aside[TSOTEST_PIECE_], *piece = tsotest_place_of_piece_(out, aside);
    tsotest_put_(out, piece, tsotest_add_number_(tsotest_add_text_(piece, before), number));
}

static inline void tsotest_put_initials_(const struct tsotest_record *r, struct tsotest_out_ *out)
{
    for (int n = 0; n < r->names; n++)
        tsotest_put_number_(out, n ? "," : "", r->address[r->named[n]].text);
}

static inline void tsotest_put_writes_(const struct tsotest_record *r, struct tsotest_out_ *out)
{
    for (int n = 0; n < r->names; n++) {
        const char *before = n ? ",[" : "[";
        int e = r->address[r->named[n]].first;
        tsotest_put_text_(out, e < 0 ? before : "");
        for (; e >= 0; e = r->event[e].next, before = ",")
            tsotest_put_number_(out, before, (uint32_t)r->event[e].number);
        tsotest_put_text_(out, "]");
    }
}

static inline void tsotest_put_recording_(const struct tsotest_record *r, struct tsotest_out_ *out)
{
    tsotest_put_text_(out, "{\"cores\":[");
    tsotest_put_cores_(r, out);
    if (tsotest_is_version_2_(r)) {
        tsotest_put_text_(out, "],\"init\":[");
        tsotest_put_initials_(r, out);
        tsotest_put_text_(out, "],\"version\":2,\"writes\":[");
    } else
        tsotest_put_text_(out, "],\"version\":1,\"writes\":[");
    tsotest_put_writes_(r, out);
    tsotest_put_text_(out, "]}\n");
}

static inline void tsotest_put_values_(const struct tsotest_record *r, struct tsotest_out_ *out)
{
    tsotest_put_text_(out, "{\"cores\":[");
    tsotest_put_cores_(r, out);
    tsotest_put_text_(out, "],\"init\":[");
    tsotest_put_initials_(r, out);
    tsotest_put_text_(out, "],\"version\":3}\n");
}

static inline void tsotest_put_name_(const struct tsotest_record *r, struct tsotest_out_ *out, int address)
{
    char name[24];
    if (r->address[address].address < 0x10000000)
        snprintf(name, sizeof name, "x%" PRIx64, r->address[address].address);
    else
        snprintf(name, sizeof name, "a%d", r->address[address].name);
    tsotest_put_text_(out, name);
}

static inline void tsotest_put_operation_(const struct tsotest_record *r, struct tsotest_out_ *out, const struct tsotest_event *e)
{
    const char *word = e->kind == 'L' ? "ld " : e->kind == 'S' ? "st " : e->kind == 'R' ? "swap " : "cas ";
    if (e->kind == 'F') {
        tsotest_put_text_(out, "fence\n");
        return;
    }
    tsotest_put_text_(out, word);
    tsotest_put_name_(r, out, (int)e->address);
    if (e->kind == 'C')
        tsotest_put_number_(out, " ", tsotest_read_text_(r, e) + 1);
    if (e->kind != 'L')
        tsotest_put_number_(out, " ", e->kind == 'C' ? 0 : e->text);
    tsotest_put_text_(out, "\n");
}

static inline void tsotest_put_program_(const struct tsotest_record *r, struct tsotest_out_ *out)
{
    for (int core = 0; core < r->cores; core++) {
        tsotest_put_text_(out, "core\n");
        for (int n = r->first[core]; n < r->first[core + 1]; n++)
            tsotest_put_operation_(r, out, &r->event[r->ordered[n]]);
    }
    for (int n = 0; n < r->names; n++)
        if (r->address[r->named[n]].initial) {
            tsotest_put_text_(out, "init ");
            tsotest_put_name_(r, out, r->named[n]);
            tsotest_put_number_(out, " ", r->address[r->named[n]].text);
            tsotest_put_text_(out, "\n");
        }
}

static inline void tsotest_put_labels_(const struct tsotest_record *r, struct tsotest_out_ *out)
{
    for (int n = 0; n < r->events; n++) {
        tsotest_put_text_(out, r->label_bytes ? tsotest_label_(r, r->ordered[n]) : "");
        tsotest_put_text_(out, "\n");
    }
}

typedef void tsotest_put_all_(const struct tsotest_record *r, struct tsotest_out_ *out);

/* Writes a text to memory. */
static inline enum tsotest_fault tsotest_to_memory_(struct tsotest_record *r, bool is_alone, tsotest_put_all_ *put, char *out, size_t size,
                                                    size_t *len)
{
    struct tsotest_out_ o = {out, size, 0, NULL, false};
    *len = 0;
    if (tsotest_settle_(r, is_alone))
        return r->error;
    put(r, &o);
    *len = o.len;
    return o.len <= size ? TSOTEST_NO_FAULT : TSOTEST_SHORT_BUFFER;
}

/* Writes a text to a file. */
static inline enum tsotest_fault tsotest_to_file_(struct tsotest_record *r, bool is_alone, tsotest_put_all_ *put, FILE *file)
{
    char bytes[4096];
    struct tsotest_out_ o = {bytes, sizeof bytes, 0, file, false};
    if (tsotest_settle_(r, is_alone))
        return r->error;
    put(r, &o);
    tsotest_hand_on_(&o);
    return o.has_failed || fflush(file) ? TSOTEST_WRITE_FAILED : TSOTEST_NO_FAULT;
}

/* Writes the recording to out, which has room for size bytes, and its length to len: the text that `tsotest` itself prints, of
 * version 1 where that can be, with a newline at its end and no 0 byte. Answers r->error. At TSOTEST_SHORT_BUFFER, which is not
 * kept, len is what it takes, and what stands in out is of no use; with size 0 out may be null. */
static inline enum tsotest_fault tsotest_recording_text(struct tsotest_record *r, char *out, size_t size, size_t *len)
{
    return tsotest_to_memory_(r, false, tsotest_put_recording_, out, size, len);
}

/* Writes the values alone, for a bench that sees no commits: the text of version 3, which `tsotest complete` takes. It names the
 * sources that tsotest_record_source gave and no others, so values may repeat; but the more values are written once, the more is
 * found. Commits are not looked at, and tsotest_record_continue needs them: each run without them begins by
 * tsotest_record_begin. A read of a value that nobody wrote is TSOTEST_STRAY_VALUE here, too. Otherwise as
 * tsotest_recording_text. */
static inline enum tsotest_fault tsotest_values_text(struct tsotest_record *r, char *out, size_t size, size_t *len)
{
    return tsotest_to_memory_(r, true, tsotest_put_values_, out, size, len);
}

/* Writes the program that was recorded, as a litmus text, for tsotest_explain or `tsotest explain FILE --program PROGRAM`: its
 * names are the addresses in hexadecimal after an x, or a0, a1 and so on where they are of 2^28 and more. Atomics are swaps;
 * one that failed expects one more than it read. Otherwise as tsotest_recording_text. */
static inline enum tsotest_fault tsotest_program_text(struct tsotest_record *r, char *out, size_t size, size_t *len)
{
    return tsotest_to_memory_(r, false, tsotest_put_program_, out, size, len);
}

/* Writes the labels of the events, for `tsotest explain FILE --labels LABELS`: a line for each event, in the order in which the
 * recording numbers them, which is empty where the event has no label. Otherwise as tsotest_recording_text. */
static inline enum tsotest_fault tsotest_labels_text(struct tsotest_record *r, char *out, size_t size, size_t *len)
{
    return tsotest_to_memory_(r, false, tsotest_put_labels_, out, size, len);
}

/* The recording to a file, in pieces of at most 4 KB. TSOTEST_WRITE_FAILED is not kept. */
static inline enum tsotest_fault tsotest_write_recording(struct tsotest_record *r, FILE *file)
{
    return tsotest_to_file_(r, false, tsotest_put_recording_, file);
}

/* Its values alone. */
static inline enum tsotest_fault tsotest_write_values(struct tsotest_record *r, FILE *file)
{
    return tsotest_to_file_(r, true, tsotest_put_values_, file);
}

/* Its program. */
static inline enum tsotest_fault tsotest_write_program(struct tsotest_record *r, FILE *file)
{
    return tsotest_to_file_(r, false, tsotest_put_program_, file);
}

/* The labels of its events. */
static inline enum tsotest_fault tsotest_write_labels(struct tsotest_record *r, FILE *file)
{
    return tsotest_to_file_(r, false, tsotest_put_labels_, file);
}

/* Writes counts to out, which has room for size bytes, as a line, with a newline at its end and no 0 byte. Where no read got a
 * value that another core wrote, a second line says that nothing was tested. len and the answer are as those of
 * tsotest_recording_text. */
static inline enum tsotest_fault tsotest_counts_text(const struct tsotest_counts *counts, char *out, size_t size, size_t *len)
{
    struct tsotest_out_ o = {out, size, 0, NULL, false};
    char line[TSOTEST_MAX_COUNTS_BYTES];
    snprintf(line, sizeof line,
             "%" PRIu64 " runs: %" PRIu64 " events, %" PRIu64 " reads of another core's write, %" PRIu64 " committed writes\n%s",
             counts->runs, counts->events, counts->foreign_reads, counts->commits,
             counts->foreign_reads ? "" : "no read got a value that another core wrote: these runs have tested nothing\n");
    tsotest_put_text_(&o, line);
    *len = o.len;
    return o.len <= size ? TSOTEST_NO_FAULT : TSOTEST_SHORT_BUFFER;
}

/* The text of counts to a file; TSOTEST_WRITE_FAILED where that fails. */
static inline enum tsotest_fault tsotest_write_counts(const struct tsotest_counts *counts, FILE *file)
{
    char out[TSOTEST_MAX_COUNTS_BYTES];
    size_t len;
    enum tsotest_fault fault = tsotest_counts_text(counts, out, sizeof out, &len);
    if (!fault && (fwrite(out, 1, len, file) != len || fflush(file)))
        return TSOTEST_WRITE_FAILED;
    return fault;
}

static inline void tsotest_write_event_(const struct tsotest_record *r, const struct tsotest_event *e, FILE *file)
{
    const char *word = e->kind == 'L' ? "ld" : e->kind == 'S' ? "st" : e->kind == 'R' ? "rmw" : "cas";
    if (e->kind == 'F') {
        fprintf(file, "fence %d\n", e->core);
        return;
    }
    fprintf(file, "%s %d 0x%" PRIx64, word, e->core, r->address[e->address].address);
    if (tsotest_reads_(e->kind))
        fprintf(file, " %" PRIu64, e->read);
    if (tsotest_writes_(e->kind))
        fprintf(file, " %" PRIu64, e->written);
    fprintf(file, "\n");
}

static inline void tsotest_write_commit_(const struct tsotest_record *r, const struct tsotest_commit *c, FILE *file)
{
    if (c->event >= 0)
        fprintf(file, "commit %d\n", c->event);
    else
        fprintf(file, "%s %d 0x%" PRIx64 " %" PRIu64 "\n", c->is_merged ? "merged" : "commit", c->core,
                r->address[c->address].address, c->written);
}

/* What was recorded, a line each: initial values, events in the order of the calls, the sources and the labels that were given,
 * commits, and as a remark the fault. That is what is left to look at where a fault gives no recording. examples/log/from_log.c reads it. */
static inline enum tsotest_fault tsotest_write_log(const struct tsotest_record *r, FILE *file)
{
    if (tsotest_is_copy_(r))
        return TSOTEST_NO_SUCH;
    fprintf(file, "cores %d\n", r->cores);
    if (r->may_be_empty)
        fprintf(file, "empty\n");
    for (int a = 0; a < r->addresses; a++)
        if (r->address[a].initial)
            fprintf(file, "init 0x%" PRIx64 " %" PRIu64 "\n", r->address[a].address, r->address[a].initial);
    for (int i = 0; i < r->events; i++)
        tsotest_write_event_(r, &r->event[i], file);
    for (int i = 0; i < r->events; i++)
        if (tsotest_reads_(r->event[i].kind) && r->event[i].given_source == TSOTEST_INITIAL)
            fprintf(file, "source %d init\n", i);
        else if (tsotest_reads_(r->event[i].kind) && r->event[i].given_source >= 0)
            fprintf(file, "source %d %d\n", i, r->event[i].given_source);
    for (int i = 0; i < r->events && r->label_bytes; i++)
        if (*tsotest_label_(r, i))
            fprintf(file, "label %d %s\n", i, tsotest_label_(r, i));
    for (int i = 0; i < r->commits; i++)
        tsotest_write_commit_(r, &r->commit[i], file);
    if (r->error)
        fprintf(file, "# %s\n", r->message);
    return fflush(file) || ferror(file) ? TSOTEST_WRITE_FAILED : TSOTEST_NO_FAULT;
}

#ifdef __cplusplus
}
#endif
#endif
