/* SPDX-License-Identifier: MIT OR Apache-2.0 */
/* tsotest.h: the commands of tsotest as calls: recordings of multiprocessors judged under Total Store Order (TSO).
 *
 * The text of a recording goes in. What the command of the same name prints comes out, with its exit status: texts, statuses
 * and refusals are those of docs/FORMATS.md. tsotest_record.h makes the text of a recording from what a testbench sees.
 *
 *   cc bench.c $(pkg-config --cflags --libs tsotest)
 *
 * C11 and later, C++11 and later. The processor is at least an x86-64-v2. */
#ifndef TSOTEST_H
#define TSOTEST_H

#include <stdbool.h>
#include <stddef.h>
#include <stdint.h>
#include <string.h>

#ifdef __cplusplus
extern "C" {
#endif

/* What a recording has at most; of the calls whose names end in _long what a long one has. */
#define TSOTEST_MAX_CORES 16
#define TSOTEST_MAX_EVENTS 512
#define TSOTEST_MAX_ADDRESSES 16
#define TSOTEST_MAX_LONG_CORES 1024
#define TSOTEST_MAX_LONG_EVENTS 16777216
#define TSOTEST_MAX_LONG_ADDRESSES 65536

/* No verdict on a recording of this many events is longer, in bytes. It grows with the square of the events, since a cycle comes
 * with a row of labels for each event: 18 KB for 64 events, 1.06 MB for 512. An order or an overlook takes 4 bytes an event. */
#define TSOTEST_VERDICT_BYTES(events) ((size_t)13 + (size_t)(events) * (26 + 4 * (size_t)(events)))
#define TSOTEST_MAX_VERDICT_BYTES TSOTEST_VERDICT_BYTES(TSOTEST_MAX_EVENTS)

/* No answer of tsotest_judge_long to a recording of this many events is longer, in bytes: 9 an event of an order, 24 of a cycle. */
#define TSOTEST_LONG_VERDICT_BYTES(events) ((size_t)32 + (size_t)(events) * 24)

/* The exit status of a command, which each call answers. */
enum tsotest_status {
    TSOTEST_ALLOWED = 0,       /* TSO allows the recording; of tsotest_verify, the verdict holds; of tsotest_survey, TSO allows each; of
                                * tsotest_complete, TSO allows the values */
    TSOTEST_OUT_OF_MEMORY = 1, /* malloc gave none: nothing is written, the length is 0, and all memory is given back */
    TSOTEST_VIOLATION = 2,     /* TSO doesn't allow the recording; of tsotest_verify, the verdict doesn't hold; of tsotest_survey, of one; of
                                * tsotest_complete, TSO doesn't allow the values */
    TSOTEST_REFUSED = 3,       /* a text is refused, and the line says why; of tsotest_survey, a recording is, and none is a violation */
    TSOTEST_UNFINISHED = 4     /* of tsotest_outcomes and tsotest_complete, there are more states than may be looked at */
};

/* Texts.     A text is a pointer and a length in bytes. No 0 byte stands at its end; one that is counted is a byte of the text.
 *
 * Answers.   A text that is answered is written to the front of out where out_len has room for all of it, and no 0 byte after
 *            it. Where it has not, out stays as it is. *len is the whole length of the text in either case, so a caller whose
 *            room is too small sees *len > out_len, and calls again with more; with out_len 0 nothing is written.
 *
 * Memory.    All memory stays the caller's. No pointer is null, also where a length is 0: "" will do for no program. out, codes,
 *            len and count overlap nothing else, and nobody else writes to any memory of a call while it runs. A call takes
 *            memory by malloc and realloc, and gives all of it back by free. It keeps nothing.
 *
 * Threads.   Any number of threads may call at once, each with its own out and len; they may share texts. A call takes no lock
 *            and starts no thread. Not to be called from a signal handler, nor from the forked child of a process with threads.
 *
 * Stack.     256 KB are enough.
 *
 * Time.      It grows with the square of the events: 30 to 70 microseconds for 64, half a millisecond to 2 for 512. That of
 *            tsotest_outcomes and tsotest_complete grows with the states, as their memory does. */

/* What `tsotest judge` prints of a recording: the verdict. */
uint8_t tsotest_judge(const char *recording, size_t recording_len, char *out, size_t out_len, size_t *len);

/* What `tsotest explain` prints: the verdict in words. program is the litmus text of the program that was recorded, whose names
 * the addresses then have; where its length is 0 no program is given, and they are a0, a1 and so on. TSOTEST_REFUSED also where
 * that text is refused, by L1 to L8, or where the recording is none of that program, N9. */
uint8_t tsotest_explain(const char *recording, size_t recording_len, const char *program, size_t program_len, char *out,
                        size_t out_len, size_t *len);

/* What `tsotest draw` prints: the verdict as a graph in the DOT language. With all, all events of a violation are drawn, else
 * those that it needs. */
uint8_t tsotest_draw(const char *recording, size_t recording_len, const char *program, size_t program_len, bool all, char *out,
                     size_t out_len, size_t *len);

/* What `tsotest reduce` prints: the program, the recording and the verdict of the events alone that a violation needs. */
uint8_t tsotest_reduce(const char *recording, size_t recording_len, const char *program, size_t program_len, char *out,
                       size_t out_len, size_t *len);

/* What `tsotest judge --long`, `explain --long` and `reduce --long` print of a recording of up to TSOTEST_MAX_LONG_EVENTS events of
 * TSOTEST_MAX_LONG_CORES cores over TSOTEST_MAX_LONG_ADDRESSES addresses. Their time grows little faster than the events. */
uint8_t tsotest_judge_long(const char *recording, size_t recording_len, char *out, size_t out_len, size_t *len);
uint8_t tsotest_explain_long(const char *recording, size_t recording_len, char *out, size_t out_len, size_t *len);
uint8_t tsotest_reduce_long(const char *recording, size_t recording_len, char *out, size_t out_len, size_t *len);

/* What `tsotest verify` prints: whether the text of a verdict, whoever gave it, holds of a recording. */
uint8_t tsotest_verify(const char *recording, size_t recording_len, const char *verdict, size_t verdict_len, char *out,
                       size_t out_len, size_t *len);

/* Judges recordings, one a line, as `tsotest survey`; an empty line is none. A code for each, in their order, is written to the
 * front of codes where codes_len has room for all; *count is how many there are in either case. tsotest_finding_of says what a
 * code means. */
uint8_t tsotest_survey(const char *lines, size_t lines_len, uint64_t *codes, size_t codes_len, size_t *count);

/* What `tsotest outcomes` prints of the litmus text of a program: every outcome that TSO allows, where it has at most this many
 * states, 1 to 2^32 - 1; else `unfinished`. */
uint8_t tsotest_outcomes(const char *program, size_t program_len, size_t states, char *out, size_t out_len, size_t *len);

/* What `tsotest complete` prints of values alone, the text of version 3 that tsotest_values_text gives: a recording that completes them,
 * and which TSO allows; else `impossible`; or `unfinished`, where more than this many states, 1 to 2^32 - 1, would have to be looked at.
 * TSOTEST_REFUSED by N1 to N6. */
uint8_t tsotest_complete(const char *values, size_t values_len, size_t states, char *out, size_t out_len, size_t *len);

/* What `tsotest --version` prints. */
uint8_t tsotest_version(char *out, size_t out_len, size_t *len);

/* What a code of tsotest_survey says. */
enum tsotest_kind {
    TSOTEST_ORDERED,  /* TSO allows the recording */
    TSOTEST_OVERLOOK, /* a load overlooks a store of its own core */
    TSOTEST_CYCLE,    /* events would each have to come before the next */
    TSOTEST_UNREAD    /* the line is refused */
};

struct tsotest_finding {
    enum tsotest_kind kind;
    unsigned load, store; /* of an overlook: the numbers of the two events */
    unsigned cycle;       /* of a cycle: how many events it has */
    unsigned refusal, at; /* of a refusal: 1 to 7 for N1 to N7, and the event of N5 and N6 or the address of N7 */
};

static inline struct tsotest_finding tsotest_finding_of(uint64_t code)
{
    struct tsotest_finding found = {TSOTEST_ORDERED, 0, 0, 0, 0, 0};
    if (code >= 1048576) {
        found.kind = TSOTEST_OVERLOOK;
        found.load = (unsigned)((code - 1048576) / 1024);
        found.store = (unsigned)((code - 1048576) % 1024);
    } else if (code >= 65536) {
        found.kind = TSOTEST_UNREAD;
        found.refusal = (unsigned)(code / 65536);
        found.at = (unsigned)(code % 65536);
    } else if (code >= 16) {
        found.kind = TSOTEST_CYCLE;
        found.cycle = (unsigned)(code - 16);
    }
    return found;
}

/* What the text of a verdict says, by its first word; of the line of a refusal TSOTEST_UNREAD. */
static inline enum tsotest_kind tsotest_kind_of(const char *verdict, size_t len)
{
    if (len >= 8 && memcmp(verdict, "ordered:", 8) == 0)
        return TSOTEST_ORDERED;
    if (len >= 8 && memcmp(verdict, "overlook", 8) == 0)
        return TSOTEST_OVERLOOK;
    return len >= 5 && memcmp(verdict, "cycle", 5) == 0 ? TSOTEST_CYCLE : TSOTEST_UNREAD;
}

#ifdef __cplusplus
}
#endif
#endif
