/* Whether the driver leaves its caller alone: two threads run two objects at once, and the caller's alarm and its handlers stay. Meanwhile
 * it gets SIGTERM and SIGSEGV, and its handlers are called and go on.
 *
 * SPDX-License-Identifier: 0BSD */
#include "snapdrive.h"
#include <signal.h>

static pthread_mutex_t locks[2] = {PTHREAD_MUTEX_INITIALIZER, PTHREAD_MUTEX_INITIALIZER};
static uint32_t boards[2][SNAPDRIVE_COMPONENTS], components;

static void update(uint32_t board, uint32_t component, uint32_t value) {
    static _Atomic bool is_signalled;
    if (!atomic_exchange(&is_signalled, true)) raise(SIGTERM), raise(SIGSEGV);
    pthread_mutex_lock(&locks[board]);
    boards[board][component] = value;
    snapdrive_pause();
    pthread_mutex_unlock(&locks[board]);
}

static bool view(uint32_t board, uint32_t *values) {
    pthread_mutex_lock(&locks[board]);
    memcpy(values, boards[board], components * sizeof *values);
    pthread_mutex_unlock(&locks[board]);
    return true;
}

static void begin_one(uint32_t count) { memset(boards[0], 0, count * sizeof **boards); }
static void begin_other(uint32_t count) { memset(boards[1], 0, count * sizeof **boards); }
static void update_one(uint32_t thread, uint32_t component, uint32_t value) { (void)thread, update(0, component, value); }
static void update_other(uint32_t thread, uint32_t component, uint32_t value) { (void)thread, update(1, component, value); }
static bool view_one(uint32_t thread, uint32_t *values) { return (void)thread, view(0, values); }
static bool view_other(uint32_t thread, uint32_t *values) { return (void)thread, view(1, values); }

static void *run(void *object) {
    snapdrive_options options = SNAPDRIVE_OPTIONS;
    snapdrive_outcome outcome;
    bool is_atomic = snapdrive_run(object, &options, &outcome) && outcome.found[0] == options.runs && !outcome.first;
    if (!is_atomic) fprintf(stderr, "%s\n", outcome.fault ? outcome.message : "some run was not atomic");
    return is_atomic ? object : NULL;
}

static const int signals[] = {SIGALRM, SIGTERM, SIGSEGV, SIGBUS, SIGFPE, SIGILL, SIGABRT};
enum { SIGNALS = sizeof signals / sizeof *signals, HEARD = 3 };

static _Atomic int heard;

static void hear(int signal) { heard += signal; }

/* Whether the first signals are heard by the caller, and the others by nobody. */
static bool are_handlers_left(void) {
    struct sigaction found;
    for (int i = 0; i < SIGNALS; i++)
        if (sigaction(signals[i], NULL, &found) || found.sa_handler != (i < HEARD ? hear : SIG_DFL)) return false;
    return true;
}

int main(void) {
    static snapdrive_object one = {"one", begin_one, update_one, view_one}, other = {"other", begin_other, update_other, view_other};
    struct sigaction mine = {.sa_handler = hear};
    pthread_t beside;
    void *is_other_atomic;
    components = (uint32_t)SNAPDRIVE_OPTIONS.components;
    for (int i = 0; i < HEARD; i++) sigaction(signals[i], &mine, NULL);
    alarm(100000);
    pthread_create(&beside, NULL, run, &other);
    bool is_one_atomic = run(&one);
    pthread_join(beside, &is_other_atomic);
    bool is_left_alone = alarm(0) > 90000 && heard == SIGTERM + SIGSEGV && are_handlers_left();
    if (!is_left_alone) fprintf(stderr, "the alarm or a handler is gone\n");
    return !(is_one_atomic && is_other_atomic && is_left_alone);
}
