/* One record that several threads write, as cores with store buffers over one memory: each holds a lock over a step and the call that
 * records it, so that commits come in the order in which memory took the writes. Every run is one that TSO allows. */
#define _DEFAULT_SOURCE
#include "tsotest.h"
#include "tsotest_record.h"

#include <assert.h>
#include <pthread.h>
#include <sched.h>

enum { CORES = 4, OPERATIONS = 32, ADDRESSES = 2, RUNS = 50 };

static pthread_mutex_t lock = PTHREAD_MUTEX_INITIALIZER;
static pthread_barrier_t all_started;
static struct tsotest_record r;
static uint64_t memory[ADDRESSES], counter;

struct core {
    pthread_t thread;
    int number, oldest, youngest;
    struct {
        int address;
        uint64_t value;
    } buffer[OPERATIONS];
};

/* Memory takes the oldest store. */
static void drain(struct core *core)
{
    int a = core->buffer[core->oldest].address;
    pthread_mutex_lock(&lock);
    memory[a] = core->buffer[core->oldest].value;
    tsotest_record_commit(&r, core->number, (uint64_t)a, memory[a]);
    pthread_mutex_unlock(&lock);
    core->oldest++;
}

static void load(struct core *core, int a)
{
    pthread_mutex_lock(&lock);
    uint64_t value = memory[a];
    for (int i = core->oldest; i < core->youngest; i++)
        if (core->buffer[i].address == a)
            value = core->buffer[i].value;
    tsotest_record_load(&r, core->number, (uint64_t)a, value);
    pthread_mutex_unlock(&lock);
}

static void store(struct core *core, int a)
{
    pthread_mutex_lock(&lock);
    core->buffer[core->youngest].address = a;
    core->buffer[core->youngest].value = ++counter;
    tsotest_record_store(&r, core->number, (uint64_t)a, counter);
    pthread_mutex_unlock(&lock);
    core->youngest++;
}

static void *run(void *arg)
{
    struct core *core = arg;
    unsigned random = (unsigned)core->number * 2654435761u + 1;
    pthread_barrier_wait(&all_started);
    for (int i = 0; i < OPERATIONS; i++) {
        sched_yield();
        random = random * 1664525u + 1013904223u;
        if (random >> 31)
            load(core, (int)(random >> 30) & 1);
        else
            store(core, (int)(random >> 30) & 1);
        while (core->oldest < core->youngest && (random = random * 1664525u + 1013904223u) >> 30)
            drain(core);
    }
    while (core->oldest < core->youngest)
        drain(core);
    return NULL;
}

int main(void)
{
    static char text[TSOTEST_MAX_RECORDING_BYTES], verdict[TSOTEST_MAX_VERDICT_BYTES];
    struct tsotest_counts counts = {0, 0, 0, 0};
    size_t len, size;
    pthread_barrier_init(&all_started, NULL, CORES);
    for (int k = 0; k < RUNS; k++) {
        struct core cores[CORES];
        memset(cores, 0, sizeof cores);
        memset(memory, 0, sizeof memory);
        tsotest_record_begin(&r, CORES);
        for (int c = 0; c < CORES; c++) {
            cores[c].number = c;
            assert(pthread_create(&cores[c].thread, NULL, run, &cores[c]) == 0);
        }
        for (int c = 0; c < CORES; c++)
            pthread_join(cores[c].thread, NULL);
        if (tsotest_recording_text(&r, text, sizeof text, &len)) {
            printf("%s\n", r.message);
            return 1;
        }
        if (tsotest_judge(text, len, verdict, sizeof verdict, &size) != TSOTEST_ALLOWED)
            return 1;
        tsotest_record_count(&r, &counts);
    }
    assert(counts.runs == RUNS && counts.events == RUNS * CORES * OPERATIONS);
    return tsotest_write_counts(&counts, stdout);
}
