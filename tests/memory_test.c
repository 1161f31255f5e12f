/* Each malloc and realloc of each call refused in turn: the answer is TSOTEST_OUT_OF_MEMORY, nothing is written, and all is given
 * back. Link with -Wl,--wrap=malloc,--wrap=realloc,--wrap=free. Usage: memory_test FILE.. */
#include "each_call.h"

#include <assert.h>

void *__real_malloc(size_t);
void *__real_realloc(void *, size_t);
void __real_free(void *);
void *__wrap_malloc(size_t);
void *__wrap_realloc(void *, size_t);
void __wrap_free(void *);

/* The growths of a call, the one that is refused, and how many blocks it holds. */
static long growths, refused, held;
static bool counts;

void *__wrap_malloc(size_t n)
{
    if (!counts)
        return __real_malloc(n);
    if (++growths == refused)
        return NULL;
    held++;
    return __real_malloc(n);
}

void *__wrap_realloc(void *p, size_t n)
{
    if (counts && ++growths == refused)
        return NULL;
    held += counts && !p;
    return __real_realloc(p, n);
}

void __wrap_free(void *p)
{
    held -= counts && p;
    __real_free(p);
}

int main(int argc, char **argv)
{
    size_t room = 4 * TSOTEST_MAX_VERDICT_BYTES;
    char *out = malloc(room);
    long all = 0;
    for (int f = 1; f < argc; f++) {
        struct file it = read_file(argv[f]);
        for (int call = 0; call < CALLS; call++) {
            uint8_t status;
            refused = 0;
            do {
                size_t len = 77;
                refused++;
                growths = held = 0;
                memset(out, 'X', 64);
                counts = true;
                status = each_call(call, it, out, room, &len);
                counts = false;
                assert(held == 0);
                assert(status != TSOTEST_OUT_OF_MEMORY || (len == 0 && memcmp(out, "XXXXXXXX", 8) == 0));
                assert(status == TSOTEST_OUT_OF_MEMORY || growths < refused);
            } while (status == TSOTEST_OUT_OF_MEMORY);
            assert(growths > 0);
            all += growths;
        }
        free(it.text);
    }
    free(out);
    printf("%ld growths, each refused in turn\n", all);
    return 0;
}
