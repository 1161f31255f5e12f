/* Records events and judges them, over and over for a second, by this many threads. Prints recordings a second, and of each the microseconds of the
 * recorder and of the judge by one thread. bench/testbench makes the file. Usage: recording FILE THREADS */
#define _POSIX_C_SOURCE 199309L
#include "tsotest.h"
#include "tsotest_record.h"

#include <pthread.h>
#include <stdlib.h>
#include <time.h>

enum { MOST = 64 };

struct event {
    int kind, core;
    uint64_t address;
    uint32_t read, written;
};

struct commit {
    int core;
    uint64_t address;
    uint32_t written;
};

struct run {
    int cores, events, commits;
    struct event event[512];
    struct commit commit[512];
};

static struct run runs[MOST];
static int count;

struct worker {
    pthread_t id;
    struct tsotest_record record;
    char text[TSOTEST_MAX_RECORDING_BYTES], verdict[TSOTEST_MAX_VERDICT_BYTES];
    long judged;
    double recorder, judge;
};

static double now(void)
{
    struct timespec t;
    clock_gettime(CLOCK_MONOTONIC, &t);
    return (double)t.tv_sec + 1e-9 * (double)t.tv_nsec;
}

static size_t recorded(struct worker *w, const struct run *run)
{
    struct tsotest_record *r = &w->record;
    size_t len;
    tsotest_record_begin(r, run->cores);
    for (int i = 0; i < run->events; i++) {
        const struct event *e = &run->event[i];
        switch (e->kind) {
        case 'L': tsotest_record_load(r, e->core, e->address, e->read); break;
        case 'S': tsotest_record_store(r, e->core, e->address, e->written); break;
        case 'R': tsotest_record_rmw(r, e->core, e->address, e->read, e->written); break;
        case 'C': tsotest_record_failed_cas(r, e->core, e->address, e->read); break;
        default: tsotest_record_fence(r, e->core);
        }
    }
    for (int i = 0; i < run->commits; i++)
        tsotest_record_commit(r, run->commit[i].core, run->commit[i].address, run->commit[i].written);
    if (tsotest_recording_text(r, w->text, sizeof w->text, &len)) {
        fprintf(stderr, "%s\n", r->message);
        exit(1);
    }
    return len;
}

static void *work(void *arg)
{
    struct worker *w = (struct worker *)arg;
    double start = now();
    for (double end = start; end - start < 1; w->judged++) {
        const struct run *run = &runs[w->judged % count];
        double begun = now();
        size_t len = recorded(w, run), verdict_len;
        double middle = now();
        if (tsotest_judge(w->text, len, w->verdict, sizeof w->verdict, &verdict_len) != TSOTEST_ALLOWED)
            exit(1);
        end = now();
        w->recorder += middle - begun;
        w->judge += end - middle;
    }
    return NULL;
}

static int is_read(FILE *file, struct run *run)
{
    if (fscanf(file, "%d %d %d", &run->cores, &run->events, &run->commits) != 3 || run->events > 512 || run->commits > 512)
        return 0;
    for (int i = 0; i < run->events; i++) {
        struct event *e = &run->event[i];
        if (fscanf(file, "%d %d %" SCNu64 " %" SCNu32 " %" SCNu32, &e->kind, &e->core, &e->address, &e->read, &e->written) != 5)
            return 0;
    }
    for (int i = 0; i < run->commits; i++) {
        struct commit *c = &run->commit[i];
        if (fscanf(file, "%d %" SCNu64 " %" SCNu32, &c->core, &c->address, &c->written) != 3)
            return 0;
    }
    return 1;
}

int main(int argc, char **argv)
{
    int threads = argc == 3 ? atoi(argv[2]) : 0;
    struct worker *workers = (struct worker *)calloc((size_t)threads, sizeof *workers);
    FILE *file = argc == 3 ? fopen(argv[1], "r") : NULL;
    double start;
    long judged = 0;
    if (!file || !workers)
        return 1;
    while (count < MOST && is_read(file, &runs[count]))
        count++;
    fclose(file);
    if (!count)
        return 1;
    start = now();
    for (int t = 0; t < threads; t++)
        if (pthread_create(&workers[t].id, NULL, work, &workers[t]))
            return 1;
    for (int t = 0; t < threads; t++) {
        pthread_join(workers[t].id, NULL);
        judged += workers[t].judged;
    }
    printf("%.0f %.3f %.3f\n", (double)judged / (now() - start), 1e6 * workers->recorder / (double)workers->judged,
           1e6 * workers->judge / (double)workers->judged);
    free(workers);
    return 0;
}
