/* Runs a board that three processes share, once: each writes a log, and merge_logs.py makes one history of 0.log, 1.log and 2.log.
 *
 *     cc -std=gnu11 -O2 -Wall -o processes processes.c -pthread
 *     ./processes OBJECT && python3 ../python/merge_logs.py 0.log 1.log 2.log > history.csv
 *
 * OBJECT is `lock`, a board under a lock, which is atomic, or `naive`, one collect, which is not.
 *
 * SPDX-License-Identifier: 0BSD */
#include <inttypes.h>
#include <pthread.h>
#include <sched.h>
#include <stdatomic.h>
#include <stdbool.h>
#include <stdio.h>
#include <string.h>
#include <sys/mman.h>
#include <sys/wait.h>
#include <time.h>
#include <unistd.h>

enum { PROCESSES = 3, CALLS = 200 };

/* ---- the object: put yours in its place */

static struct {
    pthread_mutex_t lock;
    pthread_barrier_t start;
    _Atomic uint32_t words[PROCESSES];
} *board;
static bool has_lock;

static void board_update(uint32_t component, uint32_t value) {
    if (has_lock) pthread_mutex_lock(&board->lock);
    atomic_store(&board->words[component], value);
    if (has_lock) pthread_mutex_unlock(&board->lock);
}

static void board_view(uint32_t *values) {
    if (has_lock) pthread_mutex_lock(&board->lock);
    for (uint32_t k = 0; k < PROCESSES; k++) {
        values[k] = atomic_load(&board->words[k]);
        sched_yield(); /* lets the other processes run in the middle of a view */
    }
    if (has_lock) pthread_mutex_unlock(&board->lock);
}

/* ---- the processes: each updates a component of its own and takes views, in turn */

static void note(FILE *log, const char *event, uint32_t process, const char *op, const char *data) {
    struct timespec now;
    clock_gettime(CLOCK_MONOTONIC, &now);
    uint64_t ns = (uint64_t)now.tv_sec * 1000000000 + (uint64_t)now.tv_nsec;
    fprintf(log, "%" PRIu64 ",%s,%" PRIu32 ",%s,%s\n", ns, event, process, op, data);
    fflush(log);
}

static int work(uint32_t me) {
    char name[32], data[64];
    uint32_t values[PROCESSES];
    snprintf(name, sizeof name, "%" PRIu32 ".log", me);
    FILE *log = fopen(name, "w");
    pthread_barrier_wait(&board->start);
    if (!log) return 4;
    fprintf(log, "ns,event,process,op,data\n");
    for (uint32_t i = 0; i < CALLS / 2; i++) {
        uint32_t value = (me + 1) * 1000000 + i; /* each value once */
        snprintf(data, sizeof data, "%" PRIu32 ":%" PRIu32, me, value);
        note(log, "begin", me, "update", data);
        board_update(me, value);
        note(log, "end", me, "update", "");
        note(log, "begin", me, "view", "");
        board_view(values);
        snprintf(data, sizeof data, "0:%" PRIu32 " 1:%" PRIu32 " 2:%" PRIu32, values[0], values[1], values[2]);
        note(log, "end", me, "view", data);
    }
    return fclose(log) ? 4 : 0;
}

int main(int count, char **words) {
    pthread_mutexattr_t shared_lock;
    pthread_barrierattr_t shared_start;
    if (count != 2 || (strcmp(words[1], "lock") && strcmp(words[1], "naive"))) {
        fprintf(stderr, "usage: processes OBJECT, which is lock or naive\n");
        return 4;
    }
    has_lock = !strcmp(words[1], "lock");
    board = mmap(NULL, sizeof *board, PROT_READ | PROT_WRITE, MAP_SHARED | MAP_ANONYMOUS, -1, 0);
    if (board == MAP_FAILED) return 4;
    pthread_mutexattr_init(&shared_lock);
    pthread_mutexattr_setpshared(&shared_lock, PTHREAD_PROCESS_SHARED);
    pthread_mutex_init(&board->lock, &shared_lock);
    pthread_barrierattr_init(&shared_start);
    pthread_barrierattr_setpshared(&shared_start, PTHREAD_PROCESS_SHARED);
    pthread_barrier_init(&board->start, &shared_start, PROCESSES);
    for (uint32_t process = 0; process < PROCESSES; process++)
        if (fork() == 0) _exit(work(process));
    int status, failed = 0;
    for (int process = 0; process < PROCESSES; process++) failed |= wait(&status) < 0 || status != 0;
    return failed ? 4 : 0;
}
