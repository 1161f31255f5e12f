/* Each malloc and realloc below the calls of DPI refused in turn. The verdict is right or MISUSED with a message, each text is whole or empty, `save`
 * answers 0 only where its files are whole, and all is given back. Link with -Wl,--wrap=malloc,--wrap=realloc,--wrap=free.
 * Usage: dpi_memory_test PREFIX */
#include "tsotest_dpi.c"

#include <assert.h>

enum { CYCLE = 2, TEXTS = 9 };

void *__real_malloc(size_t);
void *__real_realloc(void *, size_t);
void __real_free(void *);
void *__wrap_malloc(size_t);
void *__wrap_realloc(void *, size_t);
void __wrap_free(void *);

/* The growths, the one that is refused, and how many blocks are held. */
static long growths, refused, blocks;

void *__wrap_malloc(size_t n)
{
    if (++growths == refused)
        return NULL;
    blocks++;
    return __real_malloc(n);
}

void *__wrap_realloc(void *p, size_t n)
{
    if (++growths == refused)
        return NULL;
    blocks += !p;
    return __real_realloc(p, n);
}

void __wrap_free(void *p)
{
    blocks -= p != NULL;
    __real_free(p);
}

static const char *text_of_run(int which)
{
    switch (which) {
    case 0: return tsotest_dpi_recording();
    case 1: return tsotest_dpi_program();
    case 2: return tsotest_dpi_verdict();
    case 3: return tsotest_dpi_explanation();
    case 4: return tsotest_dpi_drawing(0);
    case 5: return tsotest_dpi_drawing(1);
    case 6: return tsotest_dpi_labels();
    case 7: return tsotest_dpi_values_alone();
    default: return tsotest_dpi_reduction();
    }
}

/* Message passing whose second load overtakes the first; a long one is of 600 events. */
static void record_run(bool is_long)
{
    if (is_long)
        tsotest_dpi_hold(600, 2, 8);
    tsotest_dpi_begin(2);
    for (int i = 0; is_long && i < 596; i++)
        tsotest_dpi_fence(0);
    tsotest_dpi_store(0, 0x40, 1);
    tsotest_dpi_store(0, 0x44, 2);
    tsotest_dpi_load(1, 0x44, 2);
    tsotest_dpi_load(1, 0x40, 0);
    tsotest_dpi_commit(0, 0x40, 1);
    tsotest_dpi_commit(0, 0x44, 2);
}

static void free_texts(void)
{
    struct text *texts[] = {&recording, &values, &program, &labels, &verdict, &explanation, &drawing, &reduction};
    for (size_t i = 0; i < sizeof texts / sizeof *texts; i++) {
        free(texts[i]->bytes);
        memset(texts[i], 0, sizeof *texts[i]);
    }
    free(held.memory);
    memset(&held, 0, sizeof held);
    assert(blocks == 0);
}

/* Whether a file is there with this text. */
static bool is_file(const char *prefix, const char *suffix, const char *text)
{
    static char path[1024], found[65536];
    snprintf(path, sizeof path, "%s%s", prefix, suffix);
    FILE *file = fopen(path, "r");
    size_t len = file ? fread(found, 1, sizeof found, file) : 0;
    if (file)
        fclose(file);
    return len == strlen(text) && memcmp(found, text, len) == 0;
}

static void refuse_each(bool is_long, const char *prefix)
{
    static char whole[TEXTS][65536];
    int always_empty = 0;
    refused = 0;
    record_run(is_long);
    assert(tsotest_dpi_judge() == CYCLE);
    for (int i = 0; i < TEXTS; i++) {
        assert(strlen(text_of_run(i)) < sizeof whole[i]);
        strcpy(whole[i], text_of_run(i));
        always_empty += !*whole[i];
    }
    assert(always_empty == (is_long ? 2 : 0)); /* a long run has no drawings */
    free_texts();
    do {
        refused++;
        growths = 0;
        record_run(is_long);
        int answer = tsotest_dpi_judge();
        bool is_judged = answer == CYCLE;
        assert(is_judged || (answer == MISUSED && strstr(tsotest_dpi_message(), "memory")));
        assert(tsotest_dpi_events() == (is_judged ? is_long ? 600 : 4 : 0));
        int saved = tsotest_dpi_save(prefix);
        if (is_judged && saved == 0)
            assert(is_file(prefix, ".json", whole[0]) && is_file(prefix, ".litmus", whole[1]) && is_file(prefix, ".labels", whole[6])
                   && is_file(prefix, ".verdict", whole[2]));
        int empty = 0;
        for (int i = 0; i < TEXTS; i++) {
            const char *text = text_of_run(i);
            assert(!strcmp(text, whole[i]) || !*text);
            empty += !*text;
        }
        /* One refusal spoils one thing: the verdict and so all, the files, or a text. */
        assert(is_judged ? (saved != 0) + empty - always_empty <= 1 : empty == TEXTS && saved == 0);
        free_texts();
    } while (growths >= refused);
    printf("%ld growths below DPI, of a %s run, each refused in turn\n", refused - 1, is_long ? "long" : "short");
    refused = 0;
}

int main(int argc, char **argv)
{
    assert(argc == 2);
    refuse_each(false, argv[1]);
    refuse_each(true, argv[1]);
    return 0;
}
