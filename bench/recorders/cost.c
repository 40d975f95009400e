/* Prints the nanoseconds that recording one call, its begin and its end, takes with this many threads: the quartiles of some
 * rounds. usage: cost THREADS */
#include "../../ffi/record/c/snaprecord.h"
#include <pthread.h>
#include <time.h>

enum { MOST = 64, ROUNDS = 21 };

static uint32_t threads, calls;
static pthread_barrier_t start;
static double took[MOST], rounds[ROUNDS];

static double now(void) {
    struct timespec time;
    clock_gettime(CLOCK_MONOTONIC, &time);
    return (double)time.tv_sec * 1e9 + (double)time.tv_nsec;
}

static void *work(void *argument) {
    snaprecord_log *log = argument;
    pthread_barrier_wait(&start);
    double begun = now();
    for (uint32_t i = 1; i <= calls; i++) {
        if (!snaprecord_begin_update(log, log->process, i)) break;
        snaprecord_end_update(log);
    }
    took[log->process] = (now() - begun) / calls;
    return NULL;
}

static int compare(const void *left, const void *right) {
    const double *a = left, *b = right;
    return (*a > *b) - (*a < *b);
}

int main(int count, char **words) {
    threads = count > 1 ? (uint32_t)atoi(words[1]) : 1;
    if (threads < 1 || threads > MOST) return 2;
    calls = 32768 / threads;
    for (int round = 0; round < ROUNDS; round++) {
        static snaprecord recorder;
        pthread_t all[MOST];
        double sum = 0;
        if (!snaprecord_open(&recorder, threads, threads, calls)) return 2;
        pthread_barrier_init(&start, NULL, threads);
        for (uint32_t t = 0; t < threads; t++) pthread_create(&all[t], NULL, work, snaprecord_log_of(&recorder, t));
        for (uint32_t t = 0; t < threads; t++) pthread_join(all[t], NULL);
        for (uint32_t t = 0; t < threads; t++) sum += took[t] / threads;
        rounds[round] = sum;
        pthread_barrier_destroy(&start);
        snaprecord_close(&recorder);
    }
    qsort(rounds, ROUNDS, sizeof *rounds, compare);
    printf("%.0f to %.0f\n", rounds[ROUNDS / 4], rounds[ROUNDS * 3 / 4]);
    return 0;
}
