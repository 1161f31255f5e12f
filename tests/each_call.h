/* Each call of the library on files, for tests. */
#ifndef EACH_CALL_H
#define EACH_CALL_H

#include "tsotest.h"

#include <stdio.h>
#include <stdlib.h>

struct file {
    char *text;
    size_t len;
};

/* A whole file. */
static inline struct file read_file(const char *path)
{
    struct file read = {(char *)malloc(1 << 17), 0};
    FILE *file = fopen(path, "rb");
    if (!file || !read.text) {
        fprintf(stderr, "cannot read %s\n", path);
        exit(1);
    }
    read.len = fread(read.text, 1, 1 << 17, file);
    fclose(file);
    return read;
}

enum { CALLS = 12 };

/* Call number `call` on a recording; a survey's codes are written to out as they stand in memory. */
static inline uint8_t each_call(int call, struct file it, char *out, size_t room, size_t *len)
{
    uint8_t status;
    switch (call) {
    case 0: return tsotest_judge(it.text, it.len, out, room, len);
    case 1: return tsotest_explain(it.text, it.len, "", 0, out, room, len);
    case 2: return tsotest_draw(it.text, it.len, "", 0, false, out, room, len);
    case 3: return tsotest_draw(it.text, it.len, "", 0, true, out, room, len);
    case 4: return tsotest_reduce(it.text, it.len, "", 0, out, room, len);
    case 5: return tsotest_verify(it.text, it.len, "cycle of 4\n", 11, out, room, len);
    case 6: return tsotest_outcomes(it.text, it.len, 1000, out, room, len);
    case 7: return tsotest_complete(it.text, it.len, 1000, out, room, len);
    case 8: return tsotest_judge_long(it.text, it.len, out, room, len);
    case 9: return tsotest_explain_long(it.text, it.len, out, room, len);
    case 10: return tsotest_reduce_long(it.text, it.len, out, room, len);
    default:
        status = tsotest_survey(it.text, it.len, (uint64_t *)(void *)out, room / 8, len);
        *len *= 8;
        return status;
    }
}

#endif
