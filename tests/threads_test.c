/* Several threads make each call on the same recordings at once, each into its own room and with 256 KB of stack: all answers are
 * those of one thread. Usage: threads_test THREADS ROUNDS FILE.. */
#include "each_call.h"

#include <pthread.h>

enum { MOST = 64, ROOM = 1 << 18 };
static struct file files[MOST], answers[MOST][CALLS];
static uint8_t statuses[MOST][CALLS];
static int count, rounds;

static void *caller(void *arg)
{
    char *out = malloc(ROOM);
    long other = 0;
    (void)arg;
    for (int k = 0; k < rounds; k++)
        for (int i = 0; i < count; i++)
            for (int call = 0; call < CALLS; call++) {
                size_t len;
                uint8_t status = each_call(call, files[i], out, ROOM, &len);
                other += status != statuses[i][call] || len != answers[i][call].len || memcmp(out, answers[i][call].text, len) != 0;
            }
    free(out);
    return (void *)other;
}

int main(int argc, char **argv)
{
    int threads = atoi(argv[1]);
    pthread_t id[64];
    pthread_attr_t how;
    long other = 0;
    rounds = atoi(argv[2]);
    for (; count < MOST && count + 3 < argc; count++) {
        files[count] = read_file(argv[count + 3]);
        for (int call = 0; call < CALLS; call++) {
            struct file *answer = &answers[count][call];
            answer->text = malloc(ROOM);
            statuses[count][call] = each_call(call, files[count], answer->text, ROOM, &answer->len);
            if (answer->len > ROOM)
                return 1;
        }
    }
    pthread_attr_init(&how);
    pthread_attr_setstacksize(&how, 256 * 1024);
    for (int t = 0; t < threads; t++)
        if (pthread_create(&id[t], &how, caller, NULL))
            return 1;
    for (int t = 0; t < threads; t++) {
        void *answer;
        pthread_join(id[t], &answer);
        other += (long)answer;
    }
    printf("%d threads, %d files, %ld answers differ\n", threads, count, other);
    return other != 0;
}
