/* What each call of the library answers, and what it leaves alone. */
#include "tsotest.h"

#include <assert.h>
#include <stdarg.h>
#include <stdio.h>
#include <stdlib.h>

#define ORDERED                                                                                                            \
    "{\"cores\":[[{\"a\":0,\"k\":\"S\",\"w\":1},{\"a\":1,\"k\":\"L\",\"r\":0,\"s\":null}],"                                   \
    "[{\"a\":1,\"k\":\"S\",\"w\":1},{\"a\":0,\"k\":\"L\",\"r\":0,\"s\":null}]],\"version\":1,\"writes\":[[0],[2]]}"
#define OVERLOOK "{\"version\":1,\"cores\":[[{\"k\":\"S\",\"a\":0,\"w\":1},{\"k\":\"L\",\"a\":0,\"r\":0,\"s\":null}]],\"writes\":[[0]]}"
#define CYCLE "{\"version\":1,\"cores\":[[{\"k\":\"R\",\"a\":0,\"r\":1,\"s\":0,\"w\":1}]],\"writes\":[[0]]}"

static char out[4096];
static size_t len;

typedef uint8_t called(const char *first, const char *second, char *to, size_t room, size_t *size);

static uint8_t judge(const char *a, const char *b, char *to, size_t room, size_t *size)
{
    (void)b;
    return tsotest_judge(a, strlen(a), to, room, size);
}

static uint8_t explain(const char *a, const char *b, char *to, size_t room, size_t *size)
{
    return tsotest_explain(a, strlen(a), b, strlen(b), to, room, size);
}

static uint8_t draw(const char *a, const char *b, char *to, size_t room, size_t *size)
{
    return tsotest_draw(a, strlen(a), b, strlen(b), false, to, room, size);
}

static uint8_t draw_all(const char *a, const char *b, char *to, size_t room, size_t *size)
{
    return tsotest_draw(a, strlen(a), b, strlen(b), true, to, room, size);
}

static uint8_t reduce(const char *a, const char *b, char *to, size_t room, size_t *size)
{
    return tsotest_reduce(a, strlen(a), b, strlen(b), to, room, size);
}

static uint8_t judge_long(const char *a, const char *b, char *to, size_t room, size_t *size)
{
    (void)b;
    return tsotest_judge_long(a, strlen(a), to, room, size);
}

static uint8_t explain_long(const char *a, const char *b, char *to, size_t room, size_t *size)
{
    (void)b;
    return tsotest_explain_long(a, strlen(a), to, room, size);
}

static uint8_t reduce_long(const char *a, const char *b, char *to, size_t room, size_t *size)
{
    (void)b;
    return tsotest_reduce_long(a, strlen(a), to, room, size);
}

static uint8_t verify(const char *a, const char *b, char *to, size_t room, size_t *size)
{
    return tsotest_verify(a, strlen(a), b, strlen(b), to, room, size);
}

static uint8_t outcomes(const char *a, const char *b, char *to, size_t room, size_t *size)
{
    return tsotest_outcomes(a, strlen(a), strtoull(b, NULL, 10), to, room, size);
}

static uint8_t complete(const char *a, const char *b, char *to, size_t room, size_t *size)
{
    return tsotest_complete(a, strlen(a), strtoull(b, NULL, 10), to, room, size);
}

static uint8_t version(const char *a, const char *b, char *to, size_t room, size_t *size)
{
    (void)a;
    (void)b;
    return tsotest_version(to, room, size);
}

/* With this room the text is written, or nothing is. */
static void wants_in(called *call, const char *a, const char *b, size_t room, uint8_t status, const char *text)
{
    size_t want = strlen(text), kept = room < want ? 0 : want;
    memset(out, 'X', sizeof out);
    len = 77;
    uint8_t got = call(a, b, out, room, &len);
    if (got != status || len != want || memcmp(out, text, kept)) {
        printf("status %d, %zu bytes: %.*s\n", got, len, (int)(len < sizeof out ? len : 0), out);
        abort();
    }
    for (size_t i = kept; i < sizeof out; i++)
        assert(out[i] == 'X');
}

static void wants(called *call, const char *a, const char *b, uint8_t status, const char *text)
{
    wants_in(call, a, b, sizeof out, status, text);
    wants_in(call, a, b, strlen(text), status, text);
    wants_in(call, a, b, strlen(text) - 1, status, text);
    wants_in(call, a, b, 0, status, text);
}

static void answers(void)
{
    wants(judge, ORDERED, NULL, TSOTEST_ALLOWED, "ordered: 1 2 3 0\n");
    wants(judge, OVERLOOK, NULL, TSOTEST_VIOLATION, "overlook: load 1 store 0\n");
    wants(judge, CYCLE, NULL, TSOTEST_VIOLATION, "cycle of 1\n0 -> 0 Rf\nlabels 0: 0\n");
    wants(judge, "{\"version\":1,\"cores\":[],\"writes\":[]}", NULL, TSOTEST_ALLOWED, "ordered:\n");
    wants(judge, "", NULL, TSOTEST_REFUSED, "refused: N1\n");
    wants(judge, "{}", NULL, TSOTEST_REFUSED, "refused: N2\n");
    wants(judge, "{\"version\":3,\"cores\":[],\"writes\":[]}", NULL, TSOTEST_REFUSED, "refused: N3\n");
    wants(judge, "{\"version\":1,\"cores\":[[{\"k\":\"S\",\"a\":0,\"w\":1}]],\"writes\":[]}", NULL, TSOTEST_REFUSED, "refused: N4\n");
    wants(judge, "{\"version\":1,\"cores\":[[{\"k\":\"L\",\"a\":0,\"r\":1,\"s\":0}]],\"writes\":[[]]}", NULL, TSOTEST_REFUSED,
          "refused: N5 event 0\n");
    wants(judge, "{\"version\":1,\"cores\":[[{\"k\":\"L\",\"a\":0,\"r\":1,\"s\":null}]],\"writes\":[[]]}", NULL, TSOTEST_REFUSED,
          "refused: N6 event 0\n");
    wants(judge, "{\"version\":1,\"cores\":[[{\"k\":\"S\",\"a\":0,\"w\":1}]],\"writes\":[[]]}", NULL, TSOTEST_REFUSED,
          "refused: N7 address 0\n");
    /* A 0 byte is a byte of the text. */
    assert(tsotest_judge(ORDERED, sizeof ORDERED, out, sizeof out, &len) == TSOTEST_REFUSED && len == 12);

    const char *words = "No memory order explains this recording: event 1 overlooks event 0, a newer write of its own core.\n"
                       "  0  core 0  st flag 1\n"
                       "     before 1 in program order\n"
                       "  1  core 0  ld flag = 0, the initial value\n"
                       "     the initial value is older than each write of flag\n"
                       "In diy's words: PosWR Fri (CoWR)\n";
    wants(explain, OVERLOOK, "core\nst flag 1\nld flag\n", TSOTEST_VIOLATION, words);
    const char *programs[][2] = {
        {"core\nst flag 1\nld  flag\n", "refused: L1 line 3\n"},
        {"core\nst flag 4294967296\nld flag\n", "refused: L5 line 2\n"},
        {"core\nst flag 1\nld flag\ninit other 1\n", "refused: L6 line 4\n"},
        {"core\nst flag 1\n", "refused: N9\n"},
        {"core\nst flag 2\nld flag\n", "refused: N9\n"},
    };
    called *telling[] = {explain, draw, draw_all, reduce};
    for (size_t i = 0; i < sizeof telling / sizeof *telling; i++) {
        for (size_t k = 0; k < sizeof programs / sizeof *programs; k++)
            wants(telling[i], OVERLOOK, programs[k][0], TSOTEST_REFUSED, programs[k][1]);
        /* The recording is refused first. */
        wants(telling[i], "{}", "no program", TSOTEST_REFUSED, "refused: N2\n");
        assert(telling[i](ORDERED, "", out, sizeof out, &len) == TSOTEST_ALLOWED);
        assert(telling[i](CYCLE, "", out, sizeof out, &len) == TSOTEST_VIOLATION);
    }
    wants(reduce, ORDERED, "", TSOTEST_ALLOWED, "ordered: 1 2 3 0\n");
    wants(reduce, OVERLOOK, "", TSOTEST_VIOLATION,
          "events 0 1\n\ncore\nst a0 1\nld a0\n\n"
          "{\"cores\":[[{\"a\":0,\"k\":\"S\",\"w\":1},{\"a\":0,\"k\":\"L\",\"r\":0,\"s\":null}]],\"version\":1,\"writes\":[[0]]}\n"
          "overlook: load 1 store 0\n");

    /* A seventeenth address, of which the other calls say N4. */
    const char *wide = "{\"version\":1,\"cores\":[[{\"k\":\"S\",\"a\":16,\"w\":1}]],\"writes\":[[],[],[],[],[],[],[],[],[],[],[],[],[],[],[],[],[0]]}";
    wants(judge, wide, NULL, TSOTEST_REFUSED, "refused: N4\n");
    wants(judge_long, wide, NULL, TSOTEST_ALLOWED, "ordered: 0\n");
    wants(judge_long, OVERLOOK, NULL, TSOTEST_VIOLATION, "overlook: load 1 store 0\n");
    wants(judge_long, CYCLE, NULL, TSOTEST_VIOLATION, "cycle of 1\n0 -> 0 Rf\n");
    wants(judge_long, "{}", NULL, TSOTEST_REFUSED, "refused: N2\n");
    wants(explain_long, wide, NULL, TSOTEST_ALLOWED,
          "TSO allows this recording. Its events in memory order:\n  0  core 0  st a16 1\n     the first write of a16\n");
    wants(explain_long, CYCLE, NULL, TSOTEST_VIOLATION,
          "No memory order explains this recording: these 1 events would each come before the next.\n"
          "  0  core 0  rmw a0 = 1, from 0, wrote 1\n     before 0, which read it\nIn diy's words: Rfi\n");
    wants(explain_long, "", NULL, TSOTEST_REFUSED, "refused: N1\n");
    wants(reduce_long, wide, NULL, TSOTEST_ALLOWED, "ordered: 0\n");
    wants(reduce_long, CYCLE, NULL, TSOTEST_VIOLATION,
          "events 0\n\ncore\nswap a0 1\n\n"
          "{\"cores\":[[{\"a\":0,\"k\":\"R\",\"r\":1,\"s\":0,\"w\":1}]],\"version\":1,\"writes\":[[0]]}\n"
          "cycle of 1\n0 -> 0 Rf\nlabels 0: 0\n");
    wants(reduce_long, "{}", NULL, TSOTEST_REFUSED, "refused: N2\n");

    wants(verify, ORDERED, "ordered: 3 1 2 0\n", TSOTEST_ALLOWED, "holds\n");
    wants(verify, ORDERED, "ordered: 0 1 2 3\n", TSOTEST_VIOLATION, "does not hold: line 1\n");
    wants(verify, CYCLE, "cycle of 1\n0 -> 0 Rf\nlabels 0: 0\n", TSOTEST_ALLOWED, "holds\n");
    wants(verify, CYCLE, "cycle of 1\n0 -> 0 Rf\n", TSOTEST_VIOLATION, "does not hold\n");
    wants(verify, "{}", "", TSOTEST_REFUSED, "refused: N2\n");
}

static void surveys(void)
{
    const char *lines = ORDERED "\n\n" OVERLOOK "\n" CYCLE "\n{}";
    const uint64_t want[] = {3, 1048576 + 1024, 17, 2 * 65536};
    uint64_t codes[6];
    size_t count = 77;
    for (size_t room = 0; room <= 6; room++) {
        memset(codes, 'X', sizeof codes);
        assert(tsotest_survey(lines, strlen(lines), codes, room, &count) == TSOTEST_VIOLATION && count == 4);
        for (size_t i = 0; i < 6; i++)
            assert(codes[i] == (room >= 4 && i < 4 ? want[i] : 0x5858585858585858u));
    }
    assert(tsotest_survey(ORDERED "\n{}\n", strlen(ORDERED "\n{}\n"), codes, 6, &count) == TSOTEST_REFUSED && count == 2);
    assert(tsotest_survey(ORDERED, strlen(ORDERED), codes, 6, &count) == TSOTEST_ALLOWED && count == 1 && codes[0] == 3);
    assert(tsotest_survey("\n\n", 2, codes, 6, &count) == TSOTEST_ALLOWED && count == 0);

    struct tsotest_finding found = tsotest_finding_of(want[1]);
    assert(tsotest_finding_of(3).kind == TSOTEST_ORDERED);
    assert(found.kind == TSOTEST_OVERLOOK && found.load == 1 && found.store == 0);
    found = tsotest_finding_of(1048576 + 1024 * 511 + 510);
    assert(found.kind == TSOTEST_OVERLOOK && found.load == 511 && found.store == 510);
    found = tsotest_finding_of(16 + 512);
    assert(found.kind == TSOTEST_CYCLE && found.cycle == 512);
    found = tsotest_finding_of(65536 * 7 + 3);
    assert(found.kind == TSOTEST_UNREAD && found.refusal == 7 && found.at == 3);
    /* The least and the greatest code of each kind that a survey may give, and those beside them. */
    assert(tsotest_finding_of(15).kind == TSOTEST_ORDERED && tsotest_finding_of(16).kind == TSOTEST_CYCLE);
    assert(tsotest_finding_of(18).cycle == 2 && tsotest_finding_of(65535).kind == TSOTEST_CYCLE);
    assert(tsotest_finding_of(65536).kind == TSOTEST_UNREAD && tsotest_finding_of(65536).refusal == 1);
    assert(tsotest_finding_of(1048575).kind == TSOTEST_UNREAD && tsotest_finding_of(1048576).kind == TSOTEST_OVERLOOK);
    assert(tsotest_finding_of(1048576 + 1024).load == 1);
}

static void kinds(void)
{
    assert(tsotest_kind_of("ordered:\n", 9) == TSOTEST_ORDERED);
    assert(tsotest_kind_of("overlook: load 1 store 0\n", 25) == TSOTEST_OVERLOOK);
    assert(tsotest_kind_of("cycle of 1\n", 11) == TSOTEST_CYCLE);
    assert(tsotest_kind_of("refused: N1\n", 12) == TSOTEST_UNREAD && tsotest_kind_of("", 0) == TSOTEST_UNREAD);
}

/* Adds to a text of this length, of which 65,536 bytes are there. */
static int added(char *text, int at, const char *format, ...)
{
    va_list words;
    va_start(words, format);
    at += vsnprintf(text + at, (size_t)(65536 - at), format, words);
    va_end(words);
    assert(at < 65536);
    return at;
}

/* A recording of one core: fences, these events, and these write lists. */
static char *after_fences(char *text, int fences, const char *events, const char *writes)
{
    int at = added(text, 0, "{\"version\":1,\"cores\":[[");
    for (int i = 0; i < fences; i++)
        at = added(text, at, "{\"k\":\"F\"},");
    added(text, at, "%s]],\"writes\":%s}", events, writes);
    return text;
}

/* A ring round 16 cores: each reads what the one before it wrote, and then writes. */
static char *ring(char *text)
{
    int at = added(text, 0, "{\"version\":1,\"cores\":[");
    for (int c = 0; c < 16; c++)
        at = added(text, at, "%s[{\"k\":\"L\",\"a\":%d,\"r\":1,\"s\":%d},{\"k\":\"S\",\"a\":%d,\"w\":1}]", c ? "," : "", (c + 15) % 16,
                   2 * ((c + 15) % 16) + 1, c);
    at = added(text, at, "],\"writes\":[");
    for (int c = 0; c < 16; c++)
        at = added(text, at, "%s[%d]", c ? "," : "", 2 * c + 1);
    added(text, at, "]}");
    return text;
}

/* A recording of empty cores. */
static char *empty_cores(char *text, int cores)
{
    int at = added(text, 0, "{\"version\":1,\"cores\":[");
    for (int c = 0; c < cores; c++)
        at = added(text, at, "%s[]", c ? "," : "");
    added(text, at, "],\"writes\":[]}");
    return text;
}

/* A recording of one core that stores once to each address, with a write list for all of them but the last few. */
static char *stores(char *text, int addresses, int without)
{
    int at = added(text, 0, "{\"version\":1,\"cores\":[[");
    for (int a = 0; a < addresses; a++)
        at = added(text, at, "%s{\"k\":\"S\",\"a\":%d,\"w\":1}", a ? "," : "", a);
    at = added(text, at, "]],\"writes\":[");
    for (int a = 0; a < addresses; a++)
        at = added(text, at, a < addresses - without ? "%s[%d]" : "%s[]", a ? "," : "", a);
    added(text, at, "]}");
    return text;
}

/* The code that the library gives a recording says this. */
static void finds(const char *recording, struct tsotest_finding want)
{
    uint64_t code;
    size_t count;
    tsotest_survey(recording, strlen(recording), &code, 1, &count);
    assert(count == 1);
    struct tsotest_finding got = tsotest_finding_of(code);
    if (got.kind != want.kind || got.load != want.load || got.store != want.store || got.cycle != want.cycle
        || got.refusal != want.refusal || got.at != want.at) {
        printf("code %llu: kind %d, load %u, store %u, cycle %u, refusal %u, at %u: %.99s\n", (unsigned long long)code, got.kind, got.load,
               got.store, got.cycle, got.refusal, got.at, recording);
        abort();
    }
}

/* The codes of the library are those that tsotest.h takes apart, each at its least and its greatest. */
static void codes(void)
{
    char *text = malloc(65536);
    const char *load = "{\"k\":\"L\",\"a\":0,\"r\":1,\"s\":0}", *initial = "{\"k\":\"L\",\"a\":0,\"r\":1,\"s\":null}";
    const char *pair = "{\"k\":\"S\",\"a\":0,\"w\":1},{\"k\":\"L\",\"a\":0,\"r\":0,\"s\":null}";
    finds(ORDERED, (struct tsotest_finding){TSOTEST_ORDERED, 0, 0, 0, 0, 0});
    finds(OVERLOOK, (struct tsotest_finding){TSOTEST_OVERLOOK, 1, 0, 0, 0, 0});
    finds(after_fences(text, 510, pair, "[[510]]"), (struct tsotest_finding){TSOTEST_OVERLOOK, 511, 510, 0, 0, 0});
    finds(CYCLE, (struct tsotest_finding){TSOTEST_CYCLE, 0, 0, 1, 0, 0});
    finds(ring(text), (struct tsotest_finding){TSOTEST_CYCLE, 0, 0, 32, 0, 0});
    finds("no JSON", (struct tsotest_finding){TSOTEST_UNREAD, 0, 0, 0, 1, 0});
    finds("{}", (struct tsotest_finding){TSOTEST_UNREAD, 0, 0, 0, 2, 0});
    finds("{\"version\":3,\"cores\":[],\"writes\":[]}", (struct tsotest_finding){TSOTEST_UNREAD, 0, 0, 0, 3, 0});
    finds("{\"version\":1,\"cores\":[[{\"k\":\"S\",\"a\":0,\"w\":1}]],\"writes\":[]}", (struct tsotest_finding){TSOTEST_UNREAD, 0, 0, 0, 4, 0});
    finds(after_fences(text, 0, load, "[[]]"), (struct tsotest_finding){TSOTEST_UNREAD, 0, 0, 0, 5, 0});
    finds(after_fences(text, 511, load, "[[]]"), (struct tsotest_finding){TSOTEST_UNREAD, 0, 0, 0, 5, 511});
    finds(after_fences(text, 0, initial, "[[]]"), (struct tsotest_finding){TSOTEST_UNREAD, 0, 0, 0, 6, 0});
    finds(after_fences(text, 511, initial, "[[]]"), (struct tsotest_finding){TSOTEST_UNREAD, 0, 0, 0, 6, 511});
    finds(stores(text, 16, 16), (struct tsotest_finding){TSOTEST_UNREAD, 0, 0, 0, 7, 0});
    finds(stores(text, 16, 1), (struct tsotest_finding){TSOTEST_UNREAD, 0, 0, 0, 7, 15});
    free(text);
}

/* A recording has this much, and no more. */
static void limits(void)
{
    char *text = malloc(65536);
    const struct tsotest_finding ordered = {TSOTEST_ORDERED, 0, 0, 0, 0, 0}, too_much = {TSOTEST_UNREAD, 0, 0, 0, 4, 0};
    const char *fence = "{\"k\":\"F\"}";
    finds(empty_cores(text, TSOTEST_MAX_CORES), ordered);
    finds(empty_cores(text, TSOTEST_MAX_CORES + 1), too_much);
    finds(after_fences(text, TSOTEST_MAX_EVENTS - 1, fence, "[]"), ordered);
    finds(after_fences(text, TSOTEST_MAX_EVENTS, fence, "[]"), too_much);
    finds(stores(text, TSOTEST_MAX_ADDRESSES, 0), ordered);
    finds(stores(text, TSOTEST_MAX_ADDRESSES + 1, 0), too_much);
    free(text);
}

/* The bound for verdicts is the length of the longest text that the format has: a cycle of all 512 events, numbers of three digits each. */
static void bound(void)
{
    char line[32];
    int pair = sprintf(line, "%d -> %d Po\n", 511, 510), label = sprintf(line, " %d", 511), row = sprintf(line, "labels %d:\n", 511);
    size_t longest = (size_t)sprintf(line, "cycle of %d\n", 512) + 512 * (size_t)(pair + row + 512 * label);
    assert(TSOTEST_MAX_VERDICT_BYTES == longest && TSOTEST_VERDICT_BYTES(0) == 13);
}

/* The longest verdicts stay below the bound. */
static void longest(void)
{
    char *text = malloc(65536), *big = malloc(TSOTEST_MAX_VERDICT_BYTES);
    int at = added(text, 0, "{\"version\":1,\"cores\":[[");
    /* 512 stores of one address whose write list is backwards. */
    for (int i = 0; i < 512; i++)
        at = added(text, at, "%s{\"k\":\"S\",\"a\":0,\"w\":1}", i ? "," : "");
    at = added(text, at, "]],\"writes\":[[");
    for (int i = 511; i >= 0; i--)
        at = added(text, at, "%d%s", i, i ? "," : "]]}");
    assert(tsotest_judge(text, (size_t)at, big, TSOTEST_MAX_VERDICT_BYTES, &len) == TSOTEST_VIOLATION);
    assert(len <= TSOTEST_MAX_VERDICT_BYTES && tsotest_kind_of(big, len) == TSOTEST_CYCLE);
    ring(text);
    assert(tsotest_judge(text, strlen(text), big, TSOTEST_MAX_VERDICT_BYTES, &len) == TSOTEST_VIOLATION);
    assert(len <= TSOTEST_VERDICT_BYTES(32) && memcmp(big, "cycle of 32\n", 12) == 0);
    memset(text, '[', 65536);
    assert(tsotest_judge(text, 65536, out, sizeof out, &len) == TSOTEST_REFUSED);
    free(text);
    free(big);
}

/* The outcomes of a program: two stores, of which one is last. */
static void lists(void)
{
    const char *two = "core\nst x 1\ncore\nst x 2\n";
    wants(outcomes, two, "1000", TSOTEST_ALLOWED, "outcomes: 2\n[x]=1;\n[x]=2;\n");
    wants(outcomes, two, "1", TSOTEST_UNFINISHED, "unfinished\n");
    wants(outcomes, two, "0", TSOTEST_REFUSED, "refused: K12\n");
    wants(outcomes, two, "4294967296", TSOTEST_REFUSED, "refused: K12\n");
    wants(outcomes, "core\nst x\n", "1000", TSOTEST_REFUSED, "refused: L1 line 2\n");
    wants(outcomes, "", "1", TSOTEST_ALLOWED, "outcomes: 1\n\n");
}

/* Values alone: those of ORDERED, and a load that reads 0 after another one read 1, which nobody writes again. */
static void completions(void)
{
    const char *values = "{\"cores\":[[{\"a\":0,\"k\":\"S\",\"w\":1},{\"a\":1,\"k\":\"L\",\"r\":0}],"
                         "[{\"a\":1,\"k\":\"S\",\"w\":1},{\"a\":0,\"k\":\"L\",\"r\":0}]],\"init\":[0,0],\"version\":3}";
    const char *backwards = "{\"cores\":[[{\"a\":0,\"k\":\"S\",\"w\":1}],"
                            "[{\"a\":0,\"k\":\"L\",\"r\":1},{\"a\":0,\"k\":\"L\",\"r\":0}]],\"init\":[0],\"version\":3}";
    wants(complete, values, "1000", TSOTEST_ALLOWED, ORDERED "\n");
    wants(complete, values, "1", TSOTEST_UNFINISHED, "unfinished\n");
    wants(complete, values, "0", TSOTEST_REFUSED, "refused: K12\n");
    wants(complete, values, "4294967296", TSOTEST_REFUSED, "refused: K12\n");
    wants(complete, "no values", "0", TSOTEST_REFUSED, "refused: K12\n");
    assert(complete(backwards, "1000", out, sizeof out, &len) == TSOTEST_VIOLATION && len >= 11 && memcmp(out, "impossible\n", 11) == 0);
    wants(complete, "{\"cores\":[],\"init\":[],\"version\":3}", "1", TSOTEST_ALLOWED, "{\"cores\":[],\"version\":1,\"writes\":[]}\n");
    wants(complete, "no values", "1", TSOTEST_REFUSED, "refused: N1\n");
    wants(complete, "{}", "1", TSOTEST_REFUSED, "refused: N2\n");
    wants(complete, ORDERED, "1", TSOTEST_REFUSED, "refused: N2\n");
    wants(complete, "{\"cores\":[],\"init\":[],\"version\":2}", "1", TSOTEST_REFUSED, "refused: N3\n");
    wants(complete, "{\"cores\":[],\"final\":[],\"init\":[0],\"version\":3}", "1", TSOTEST_REFUSED, "refused: N4\n");
    wants(complete, "{\"cores\":[[{\"a\":0,\"k\":\"L\",\"r\":0,\"s\":1}]],\"init\":[0],\"version\":3}", "1", TSOTEST_REFUSED,
          "refused: N5 event 0\n");
    wants(complete, "{\"cores\":[[{\"a\":0,\"k\":\"L\",\"r\":1,\"s\":null}]],\"init\":[0],\"version\":3}", "1", TSOTEST_REFUSED,
          "refused: N6 event 0\n");
}

int main(void)
{
    answers();
    surveys();
    kinds();
    codes();
    limits();
    bound();
    longest();
    lists();
    completions();
    wants(version, NULL, NULL, TSOTEST_ALLOWED, "tsotest 0.9.0\n");
    return 0;
}
