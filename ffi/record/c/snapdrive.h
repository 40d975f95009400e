/* Drives a snapshot object of one's own: threads update and view it by a seeded schedule, and the judge judges each run.
 * It needs snaprecord.h, snapsofar.h and snapverdict.h beside it, gnu11 and POSIX threads: copy all four. docs/OWN-OBJECT.md of
 * snapjudge shows how.
 *
 *     static void begin(uint32_t components) { .. }                                      // a fresh object, 0 in each component
 *     static void update(uint32_t thread, uint32_t component, uint32_t value) { .. }
 *     static bool view(uint32_t thread, uint32_t *values) { .. }                         // false if it gave up
 *
 *     static const snapdrive_object objects[] = {{"board", begin, update, view}, {0}};
 *     int main(int count, char **words) { return snapdrive_main(count, words, objects); }
 *
 * If an object calls snapdrive_pause() between its steps, the other threads run in the middle of its calls. snapdrive_point() marks
 * such a place for the schedule pct alone. An update that failed calls snapdrive_no_effect() or snapdrive_unknown() before it returns.
 * In a test of one's own, snapdrive_run does the same without a command line.
 *
 * SPDX-License-Identifier: 0BSD
 * Copyright (C) 2026 by the authors of snapjudge
 * Permission to use, copy, modify, and/or distribute this software for any purpose with or without fee is hereby granted.
 * THE SOFTWARE IS PROVIDED "AS IS" AND THE AUTHOR DISCLAIMS ALL WARRANTIES WITH REGARD TO THIS SOFTWARE INCLUDING ALL IMPLIED
 * WARRANTIES OF MERCHANTABILITY AND FITNESS. IN NO EVENT SHALL THE AUTHOR BE LIABLE FOR ANY SPECIAL, DIRECT, INDIRECT, OR
 * CONSEQUENTIAL DAMAGES OR ANY DAMAGES WHATSOEVER RESULTING FROM LOSS OF USE, DATA OR PROFITS, WHETHER IN AN ACTION OF
 * CONTRACT, NEGLIGENCE OR OTHER TORTIOUS ACTION, ARISING OUT OF OR IN CONNECTION WITH THE USE OR PERFORMANCE OF THIS SOFTWARE. */
#ifndef SNAPDRIVE_H
#define SNAPDRIVE_H
#include "snaprecord.h"
#include "snapsofar.h"
#include "snapverdict.h"
#include <pthread.h>
#include <sched.h>
#include <semaphore.h>
#include <stddef.h>
#include <time.h>

#define SNAPDRIVE_THREADS 64
#define SNAPDRIVE_COMPONENTS 64

typedef struct {
    const char *name;
    void (*begin)(uint32_t components); /* makes a fresh object, with 0 in each component */
    void (*update)(uint32_t thread, uint32_t component, uint32_t value);
    bool (*view)(uint32_t thread, uint32_t *values); /* one value for each component; false if it gave up */
} snapdrive_object;

typedef struct {
    uint64_t threads, components, calls, runs, seed, nap, stop, limit, views, events, depth;
    const char *order, *schedule, *out, *program;
} snapdrive_options;

#define SNAPDRIVE_OPTIONS                                                                                                  \
    ((snapdrive_options){.threads = 4, .components = 4, .calls = 200, .runs = 20, .seed = 1, .limit = 60, .views = 1,      \
                         .events = 65536, .depth = 3, .order = "choice", .schedule = "free", .out = "."})

#define SNAPDRIVE_USAGE                                                                                         \
    "usage: [OBJECT] [OPTION VALUE ..]\n"                                                                       \
    "  --threads 4      how many threads, at most 64\n"                                                         \
    "  --components 4   how many components, at most 64; thread t updates t, t + threads and so on\n"           \
    "  --calls 200      how many calls each thread makes; all threads together make at most half of --events\n" \
    "  --events 65536   how many events a run may have, at most 1048576; a call has two\n"                      \
    "  --runs 20        how many runs, each of a fresh object\n"                                                \
    "  --seed 1         the seed of the random choice of calls\n"                                               \
    "  --order choice   the seed chooses each call; or turn: updates and a view in turn\n"                      \
    "  --schedule free  threads run freely; or pct: in turns that the seed chooses, the same in each try\n"     \
    "  --depth 3        by pct the turns change at this many moments, less one; at most 64\n"                   \
    "  --nap 0          if not 0, pauses and the gaps between calls last up to that many microseconds\n"        \
    "  --stop 0         if not 0, ends after that many runs that were not atomic\n"                             \
    "  --limit 60       how many seconds a run may take\n"                                                      \
    "  --views 1        how many views must end in all runs together; 0 asks for none\n"                        \
    "  --out .          the folder for the first run that was not atomic\n"                                     \
    "  --program FILE   the program snapjudge; else SNAPJUDGE_PROGRAM names it, else it is on the PATH\n"       \
    "  --choices        writes the calls that the seed chooses, and runs nothing\n"                             \
    "  --help           writes the options and the objects, with status 0"

/* How many runs were atomic, only regular, or not regular; and which was the first that was not atomic, from 1, or 0. How many views
 * ended in all runs, how many of these overlapped an update, and how many runs have such a view. If there is no verdict, `fault` is
 * usage, limits, memory, few views, no overlap, no judge, no verdict, files, or a misuse of the recorder. A call that hangs ends the
 * process, with status 4. */
typedef struct {
    uint64_t found[3], first, views, overlapping, overlapped;
    const char *fault;
    char message[1600];
} snapdrive_outcome;

__attribute__((format(printf, 3, 4))) static inline bool snapdrive_failed(snapdrive_outcome *outcome, const char *fault,
                                                                          const char *message, ...) {
    va_list rest;
    va_start(rest, message);
    outcome->fault = fault;
    vsnprintf(outcome->message, sizeof outcome->message, message, rest);
    va_end(rest);
    return false;
}

/* ---- the schedule */

#define SNAPDRIVE_GAMMA UINT64_C(0x9E3779B97F4A7C15)
#define SNAPDRIVE_VIEW UINT32_MAX

/* The output of splitmix64 in this state. */
static inline uint64_t snapdrive_mix(uint64_t state) {
    state = (state ^ state >> 30) * UINT64_C(0xBF58476D1CE4E5B9);
    state = (state ^ state >> 27) * UINT64_C(0x94D049BB133111EB);
    return state ^ state >> 31;
}

static inline uint64_t snapdrive_next(uint64_t *state) { return snapdrive_mix(*state += SNAPDRIVE_GAMMA); }

/* The component that call i of a thread updates, or SNAPDRIVE_VIEW. */
static inline uint32_t snapdrive_choose(const snapdrive_options *options, uint32_t thread, uint64_t i, uint64_t *random) {
    uint64_t own = thread < options->components ? (options->components - 1 - thread) / options->threads + 1 : 0;
    uint64_t place = i % (own + 1);
    if (strcmp(options->order, "turn")) {
        uint64_t choice = snapdrive_next(random);
        place = choice & 1 || !own ? own : (choice >> 1) % own;
    }
    return place < own ? (uint32_t)(thread + place * options->threads) : SNAPDRIVE_VIEW;
}

/* One for all files of a program. */
__attribute__((weak)) _Atomic uint64_t snapdrive_naps;
__attribute__((weak)) uint64_t snapdrive_longest_nap;

/* ---- turns: probabilistic concurrency testing, by Burckhardt, Kothari, Musuvathi and Nagarakatte (2010)
 *
 * One thread runs at a time: of those that have not ended the one with the highest priority. The seed chooses these, and the points at
 * which the running thread gets a priority below all of them. Only the running thread reads and writes the turns. */

enum { SNAPDRIVE_DEPTH = 64, SNAPDRIVE_SPIN = 10000 };

/* What all runs share: the source of choices, and how many points the last run had. */
typedef struct {
    uint64_t random, points;
} snapdrive_pace;

typedef struct {
    uint32_t threads, changes_left;
    uint64_t points, spins, changes[SNAPDRIVE_DEPTH];
    int64_t priorities[SNAPDRIVE_THREADS], lowest;
    bool has_ended[SNAPDRIVE_THREADS];
    sem_t turn[SNAPDRIVE_THREADS];
} snapdrive_turns;

/* The turns of a thread, and its number; none if it runs freely. One for all files of a program. */
__attribute__((weak)) _Thread_local snapdrive_turns *snapdrive_turns_of_thread;
__attribute__((weak)) _Thread_local uint32_t snapdrive_thread;

static inline void snapdrive_turns_open(snapdrive_turns *turns, const snapdrive_options *options, snapdrive_pace *pace) {
    uint32_t order[SNAPDRIVE_THREADS], count = (uint32_t)options->threads;
    memset(turns, 0, sizeof *turns);
    turns->threads = count;
    turns->changes_left = (uint32_t)options->depth - 1;
    for (uint32_t t = 0; t < count; t++) order[t] = t;
    for (uint32_t i = count; i-- > 0;) {
        uint32_t j = (uint32_t)(snapdrive_next(&pace->random) % (i + 1)), kept = order[i];
        order[i] = order[j];
        order[j] = kept;
        turns->priorities[order[i]] = (int64_t)(options->depth + i);
        sem_init(&turns->turn[i], 0, 0);
    }
    for (uint32_t i = 0; i < turns->changes_left; i++) turns->changes[i] = 1 + snapdrive_next(&pace->random) % pace->points;
}

/* The turn goes to the thread that has it now. */
static inline void snapdrive_turns_pass(snapdrive_turns *turns, uint32_t from) {
    uint32_t next = turns->threads;
    for (uint32_t t = 0; t < turns->threads; t++)
        if (!turns->has_ended[t] && (next == turns->threads || turns->priorities[t] > turns->priorities[next])) next = t;
    if (next == from || next == turns->threads) return;
    bool waits = from < turns->threads && !turns->has_ended[from];
    sem_post(&turns->turn[next]);
    while (waits && sem_wait(&turns->turn[from])) {}
}

/* A place between two steps. By the schedule pct the turn may change here; else nothing is done. A thread that comes to many points
 * without the end of a call may wait for another thread, and gets a priority below all others. */
static inline void snapdrive_point(void) {
    snapdrive_turns *turns = snapdrive_turns_of_thread;
    if (!turns) return;
    turns->points++;
    for (uint32_t i = 0; i < turns->changes_left; i++)
        if (turns->changes[i] == turns->points) turns->priorities[snapdrive_thread] = i;
    if (++turns->spins > SNAPDRIVE_SPIN) {
        turns->spins = 0;
        turns->priorities[snapdrive_thread] = --turns->lowest;
    }
    snapdrive_turns_pass(turns, snapdrive_thread);
}

/* A call has ended. */
static inline void snapdrive_goes_on(void) {
    if (snapdrive_turns_of_thread) snapdrive_turns_of_thread->spins = 0;
}

/* A thread begins, and waits for its turn. */
static inline void snapdrive_turns_enter(snapdrive_turns *turns, uint32_t thread) {
    snapdrive_turns_of_thread = turns;
    snapdrive_thread = thread;
    while (turns && sem_wait(&turns->turn[thread])) {}
}

/* A thread ends. */
static inline void snapdrive_turns_leave(void) {
    snapdrive_turns *turns = snapdrive_turns_of_thread;
    snapdrive_turns_of_thread = NULL;
    if (!turns) return;
    turns->has_ended[snapdrive_thread] = true;
    snapdrive_turns_pass(turns, snapdrive_thread);
}

/* Lets the other threads run, and naps if the options ask for it. */
static inline void snapdrive_pause(void) {
    if (snapdrive_turns_of_thread) {
        snapdrive_point();
        return;
    }
    if (!snapdrive_longest_nap) {
        sched_yield();
        return;
    }
    uint64_t state = atomic_fetch_add_explicit(&snapdrive_naps, SNAPDRIVE_GAMMA, memory_order_relaxed);
    uint64_t micros = snapdrive_mix(state + SNAPDRIVE_GAMMA) % (snapdrive_longest_nap + 1);
    nanosleep(&(struct timespec){(time_t)(micros / 1000000), (long)(micros % 1000000 * 1000)}, NULL);
}

/* ---- updates that fail */

typedef enum { SNAPDRIVE_DONE, SNAPDRIVE_NO_EFFECT, SNAPDRIVE_UNKNOWN } snapdrive_fate;

/* That of the update that a thread makes; one for all files of a program. */
__attribute__((weak)) _Thread_local snapdrive_fate snapdrive_fate_of_update;

/* This update had no effect, and can have none any more. It is left out of the history. */
static inline void snapdrive_no_effect(void) { snapdrive_fate_of_update = SNAPDRIVE_NO_EFFECT; }

/* Nobody knows whether this update had an effect, or will have one. It stays pending, and its thread makes no more calls in this run. */
static inline void snapdrive_unknown(void) { snapdrive_fate_of_update = SNAPDRIVE_UNKNOWN; }

/* ---- one run */

/* What the threads of a run share, and how many of them run. */
typedef struct {
    pthread_barrier_t start;
    pthread_mutex_t lock;
    pthread_cond_t ended;
    uint32_t running;
    snaprecord *recorder;
    char unfinished[PATH_MAX]; /* the file of a run that does not end */
} snapdrive_race;

static inline void snapdrive_race_open(snapdrive_race *race, uint32_t threads) {
    pthread_condattr_t by_clock;
    pthread_condattr_init(&by_clock);
    pthread_condattr_setclock(&by_clock, CLOCK_MONOTONIC);
    pthread_cond_init(&race->ended, &by_clock);
    pthread_condattr_destroy(&by_clock);
    pthread_mutex_init(&race->lock, NULL);
    pthread_barrier_init(&race->start, NULL, threads);
    race->running = threads;
}

static inline void snapdrive_race_close(snapdrive_race *race) {
    pthread_barrier_destroy(&race->start);
    pthread_mutex_destroy(&race->lock);
    pthread_cond_destroy(&race->ended);
}

static inline void snapdrive_race_end(snapdrive_race *race) {
    pthread_mutex_lock(&race->lock);
    if (--race->running == 0) pthread_cond_signal(&race->ended);
    pthread_mutex_unlock(&race->lock);
}

/* Writes the calls so far of a run that does not end. */
static inline void snapdrive_race_keep(const snapdrive_race *race, const char *name) {
    int file = open(race->unfinished, O_WRONLY | O_CREAT | O_TRUNC, 0666);
    if (file >= 0 && snapsofar_write(race->recorder, file) && close(file) == 0)
        fprintf(stderr, "%s: its calls so far are in %s\n", name, race->unfinished);
}

/* A call that hangs can't be ended, so the process is. */
static inline void snapdrive_race_wait(snapdrive_race *race, const char *name, uint64_t limit) {
    struct timespec end;
    int late = 0;
    clock_gettime(CLOCK_MONOTONIC, &end);
    end.tv_sec += (time_t)limit;
    pthread_mutex_lock(&race->lock);
    while (race->running && !late) late = pthread_cond_timedwait(&race->ended, &race->lock, &end);
    bool hangs = race->running;
    pthread_mutex_unlock(&race->lock);
    if (!hangs) return;
    snapdrive_race_keep(race, name);
    fprintf(stderr, "%s: hangs: a run took more than %" PRIu64 " s: a call of the object does not end\n", name, limit);
    _exit(4);
}

typedef struct {
    const snapdrive_object *object;
    const snapdrive_options *options;
    snaprecord_log *log;
    snapdrive_race *race;
    snapdrive_turns *turns; /* NULL if threads run freely */
    uint64_t seed;
} snapdrive_worker;

static inline void *snapdrive_work(void *argument) {
    snapdrive_worker worker = *(snapdrive_worker *)argument;
    uint32_t thread = worker.log->process, values[SNAPDRIVE_COMPONENTS] = {0};
    char room[SNAPSOFAR_STACK]; /* the front of its stack, if that does not get full */
    snapsofar_use_stack(room);
    pthread_barrier_wait(&worker.race->start);
    snapdrive_turns_enter(worker.turns, thread);
    for (uint64_t i = 0; i < worker.options->calls; i++) {
        snapdrive_point();
        uint32_t component = snapdrive_choose(worker.options, thread, i, &worker.seed);
        if (component == SNAPDRIVE_VIEW) {
            if (!snaprecord_begin_view(worker.log)) break;
            snapdrive_point();
            bool is_done = worker.object->view(thread, values);
            snapdrive_point();
            if (is_done) snaprecord_end_view_values(worker.log, values);
            else snaprecord_drop_view(worker.log);
        } else {
            uint32_t value = (thread + 1) * 1000000 + (uint32_t)i; /* each value once */
            if (!snaprecord_begin_update(worker.log, component, value)) break;
            snapdrive_fate_of_update = SNAPDRIVE_DONE;
            snapdrive_point();
            worker.object->update(thread, component, value);
            snapdrive_point();
            if (snapdrive_fate_of_update == SNAPDRIVE_UNKNOWN) break;
            if (snapdrive_fate_of_update == SNAPDRIVE_NO_EFFECT) snaprecord_drop_update(worker.log);
            else snaprecord_end_update(worker.log);
        }
        snapdrive_goes_on();
        if (snapdrive_longest_nap && !worker.turns) snapdrive_pause();
    }
    snapdrive_turns_leave();
    snapdrive_race_end(worker.race);
    return NULL;
}

/* The history of a fresh object, to be given to free(). Its views are counted. */
static inline char *snapdrive_record(const snapdrive_object *object, const snapdrive_options *options, uint64_t *seeds,
                                     snapdrive_pace *pace, size_t *length, snapdrive_outcome *outcome) {
    static const char *const faults[] = {
        [SNAPRECORD_LIMITS] = "limits", [SNAPRECORD_MEMORY] = "memory", [SNAPRECORD_NESTED] = "nested",
        [SNAPRECORD_NOT_OPEN] = "not open", [SNAPRECORD_AFTER_FULL] = "after full", [SNAPRECORD_COMPONENT] = "component",
        [SNAPRECORD_TWO_WRITERS] = "two writers", [SNAPRECORD_SAME_VALUE] = "same value", [SNAPRECORD_COPIED] = "copied"};
    snaprecord recorder;
    snaprecord_views views;
    pthread_t threads[SNAPDRIVE_THREADS];
    snapdrive_worker workers[SNAPDRIVE_THREADS];
    snapdrive_race race;
    snapdrive_turns turns;
    bool takes_turns = !strcmp(options->schedule, "pct");
    uint32_t count = (uint32_t)options->threads;
    char *text = NULL;
    if (snaprecord_open(&recorder, count, (uint32_t)options->components, (uint32_t)options->calls)) {
        object->begin((uint32_t)options->components);
        snapdrive_race_open(&race, count);
        race.recorder = &recorder;
        snprintf(race.unfinished, sizeof race.unfinished, "%s/%s-unfinished.csv", options->out, object->name);
        snapsofar_keep(&recorder, race.unfinished);
        if (takes_turns) snapdrive_turns_open(&turns, options, pace);
        for (uint32_t t = 0; t < count; t++)
            workers[t] = (snapdrive_worker){object, options, snaprecord_log_of(&recorder, t), &race, takes_turns ? &turns : NULL,
                                            snapdrive_next(seeds)};
        for (uint32_t t = 0; t < count; t++)
            if (pthread_create(&threads[t], NULL, snapdrive_work, &workers[t])) {
                fprintf(stderr, "%s: memory: thread %" PRIu32 " can't be started\n", object->name, t);
                exit(4); /* those before it wait for it */
            }
        if (takes_turns) snapdrive_turns_pass(&turns, count);
        snapdrive_race_wait(&race, object->name, options->limit);
        for (uint32_t t = 0; t < count; t++) pthread_join(threads[t], NULL);
        snapsofar_leave(&recorder);
        if (takes_turns) pace->points = turns.points;
        snapdrive_race_close(&race);
        text = snaprecord_text(&recorder, length);
    }
    if (text && snaprecord_count_views(&recorder, &views)) {
        outcome->views += views.ended;
        outcome->overlapping += views.overlapping;
        outcome->overlapped += views.overlapping > 0;
    } else if (text) {
        free(text);
        text = NULL;
    }
    if (!text) snapdrive_failed(outcome, faults[recorder.fault], "%s", recorder.message);
    snaprecord_close(&recorder);
    return text;
}

/* ---- all runs */

static const struct {
    const char *name;
    size_t place;
    uint64_t least, greatest;
} snapdrive_ranges[] = {
    {"threads", offsetof(snapdrive_options, threads), 1, SNAPDRIVE_THREADS},
    {"components", offsetof(snapdrive_options, components), 1, SNAPDRIVE_COMPONENTS},
    {"calls", offsetof(snapdrive_options, calls), 1, SNAPRECORD_EVENTS / 2},
    {"runs", offsetof(snapdrive_options, runs), 1, 1000000000},
    {"seed", offsetof(snapdrive_options, seed), 0, UINT64_MAX},
    {"nap", offsetof(snapdrive_options, nap), 0, 1000000},
    {"stop", offsetof(snapdrive_options, stop), 0, 1000000000},
    {"limit", offsetof(snapdrive_options, limit), 1, 100000},
    {"views", offsetof(snapdrive_options, views), 0, 1000000000},
    {"events", offsetof(snapdrive_options, events), 2, SNAPRECORD_EVENTS},
    {"depth", offsetof(snapdrive_options, depth), 1, SNAPDRIVE_DEPTH},
};
enum { SNAPDRIVE_RANGES = sizeof snapdrive_ranges / sizeof *snapdrive_ranges };

static inline bool snapdrive_is_beyond(size_t range, snapdrive_outcome *outcome) {
    return snapdrive_failed(outcome, "limits", "%s is a number from %" PRIu64 " to %" PRIu64, snapdrive_ranges[range].name,
                            snapdrive_ranges[range].least, snapdrive_ranges[range].greatest);
}

static inline bool snapdrive_fits(const snapdrive_options *options, snapdrive_outcome *outcome) {
    for (size_t i = 0; i < SNAPDRIVE_RANGES; i++) {
        uint64_t value;
        memcpy(&value, (const char *)options + snapdrive_ranges[i].place, sizeof value);
        if (value < snapdrive_ranges[i].least || value > snapdrive_ranges[i].greatest) return snapdrive_is_beyond(i, outcome);
    }
    if (options->threads * options->calls > options->events / 2)
        return snapdrive_failed(outcome, "limits", "all threads make at most %" PRIu64 " calls", options->events / 2);
    if (strcmp(options->order, "choice") && strcmp(options->order, "turn"))
        return snapdrive_failed(outcome, "usage", "order is choice or turn");
    if (strcmp(options->schedule, "free") && strcmp(options->schedule, "pct"))
        return snapdrive_failed(outcome, "usage", "schedule is free or pct");
    return true;
}

static inline uint64_t snapdrive_runs(const snapdrive_outcome *outcome) {
    return outcome->found[0] + outcome->found[1] + outcome->found[2];
}

/* The word for this many runs. */
static inline const char *snapdrive_called(uint64_t runs) {
    return runs == 1 ? "run" : "runs";
}

static inline void snapdrive_tell(const snapdrive_outcome *outcome, FILE *to) {
    uint64_t runs = snapdrive_runs(outcome);
    fprintf(to,
            "atomic %" PRIu64 ", only-regular %" PRIu64 ", not-regular %" PRIu64 "; %" PRIu64 " of %" PRIu64
            " views overlapped an update, in %" PRIu64 " of %" PRIu64 " %s\n",
            outcome->found[0], outcome->found[1], outcome->found[2], outcome->overlapping, outcome->views, outcome->overlapped, runs,
            snapdrive_called(runs));
}

/* Whether the runs say something of the object: some run was not atomic, or enough views ended and one of them overlapped an update. */
static inline bool snapdrive_has_looked(const snapdrive_options *options, snapdrive_outcome *outcome) {
    uint64_t runs = snapdrive_runs(outcome);
    if (outcome->first || !options->views) return true;
    if (outcome->views < options->views)
        return snapdrive_failed(outcome, "few views", "%" PRIu64 " views ended in %" PRIu64 " %s, fewer than %" PRIu64
                                ": there is no verdict", outcome->views, runs, snapdrive_called(runs), options->views);
    if (outcome->overlapping) return true;
    return snapdrive_failed(outcome, "no overlap", "none of %" PRIu64 " views overlapped an update in %" PRIu64
                            " %s: there is no verdict on calls at the same time", outcome->views, runs, snapdrive_called(runs));
}

/* Runs fresh objects, and counts the verdicts. Of the first run that is not atomic it keeps NAME-caught.csv, the history,
 * NAME-witness.csv, the least of it that is not atomic, and NAME-explained.txt. False if there is no verdict. */
static inline bool snapdrive_run(const snapdrive_object *object, const snapdrive_options *options, snapdrive_outcome *outcome) {
    snapverdict_judge judge;
    char front[PATH_MAX];
    uint64_t seeds = options->seed;
    snapdrive_pace pace = {snapdrive_mix(options->seed), 6 * options->threads * options->calls};
    struct timespec now, told;
    *outcome = (snapdrive_outcome){0};
    if (!snapdrive_fits(options, outcome)) return false;
    if (!snapverdict_open(&judge, options->program, (uint32_t)options->events))
        return snapdrive_failed(outcome, judge.fault, "%s", judge.message);
    if (snprintf(front, sizeof front, "%s/%s", options->out, object->name) >= PATH_MAX)
        return snapdrive_failed(outcome, "files", "the name of the folder is too long");
    if (!snapverdict_can_keep(&judge, options->out) || !snapverdict_tells(&judge, options->out))
        return snapdrive_failed(outcome, judge.fault, "%s", judge.message);
    snapdrive_longest_nap = options->nap;
    atomic_store(&snapdrive_naps, options->seed);
    clock_gettime(CLOCK_MONOTONIC, &told);
    for (uint64_t run = 1, has_ended = false; !has_ended; run++) {
        size_t length = 0;
        char *text = snapdrive_record(object, options, &seeds, &pace, &length, outcome);
        int status = text ? snapverdict_of(&judge, text, length, options->out) : -1;
        if (status >= 0) outcome->found[status]++;
        if (status > 0 && !outcome->first) {
            outcome->first = run;
            if (!snapverdict_keep(&judge, text, length, front)) status = -1;
            else
                fprintf(stderr, "%s: run %" PRIu64 " is not atomic: see %s-caught.csv and the files beside it\n", object->name,
                        run, front);
        }
        if (text && status < 0) snapdrive_failed(outcome, judge.fault, "%s", judge.message);
        free(text);
        if (status < 0) return false;
        has_ended = run == options->runs || (options->stop && outcome->found[1] + outcome->found[2] == options->stop);
        clock_gettime(CLOCK_MONOTONIC, &now);
        if (has_ended || now.tv_sec > told.tv_sec + (now.tv_nsec < told.tv_nsec)) { /* a second later */
            told = now;
            fprintf(stderr, "%s: run %" PRIu64 " of %" PRIu64 ": ", object->name, run, options->runs);
            snapdrive_tell(outcome, stderr);
        }
    }
    return snapdrive_has_looked(options, outcome);
}

/* ---- the command line */

typedef enum { SNAPDRIVE_RUNS, SNAPDRIVE_CHOICES, SNAPDRIVE_HELP } snapdrive_job;

static inline bool snapdrive_read_number(snapdrive_options *options, size_t range, const char *value, snapdrive_outcome *outcome) {
    const char *name = snapdrive_ranges[range].name;
    if (!*value || value[strspn(value, "0123456789")]) return snapdrive_failed(outcome, "usage", "--%s: %s is not a number", name, value);
    errno = 0;
    uint64_t number = strtoull(value, NULL, 10);
    if (errno) return snapdrive_is_beyond(range, outcome);
    memcpy((char *)options + snapdrive_ranges[range].place, &number, sizeof number);
    return true;
}

static inline bool snapdrive_read_option(snapdrive_options *options, const char *name, const char *value, snapdrive_outcome *outcome) {
    const char **text = !strcmp(name, "order")     ? &options->order
                        : !strcmp(name, "schedule") ? &options->schedule
                        : !strcmp(name, "out")     ? &options->out
                        : !strcmp(name, "program") ? &options->program
                                                   : NULL;
    size_t range = 0;
    while (range < SNAPDRIVE_RANGES && strcmp(name, snapdrive_ranges[range].name)) range++;
    if (!text && range == SNAPDRIVE_RANGES) return snapdrive_failed(outcome, "usage", "there is no option --%s", name);
    if (!value) return snapdrive_failed(outcome, "usage", "--%s has no value", name);
    if (!text) return snapdrive_read_number(options, range, value, outcome);
    *text = value;
    return true;
}

/* The options of a command line, whose words begin after the object. */
static inline bool snapdrive_read(char **words, snapdrive_options *options, snapdrive_job *job, snapdrive_outcome *outcome) {
    for (; *words; words++) {
        if (!strcmp(*words, "--help") || !strcmp(*words, "-h")) {
            *job = SNAPDRIVE_HELP;
            return true;
        }
        if (!strcmp(*words, "--choices")) {
            *job = SNAPDRIVE_CHOICES;
            continue;
        }
        if (strncmp(*words, "--", 2)) return snapdrive_failed(outcome, "usage", "%s is not an option", *words);
        if (!snapdrive_read_option(options, *words + 2, words[1], outcome)) return false;
        words++;
    }
    return true;
}

static inline void snapdrive_show_usage(const snapdrive_object *objects, FILE *to) {
    fprintf(to, "%s\nobjects:", SNAPDRIVE_USAGE);
    for (; objects->name; objects++) fprintf(to, " %s", objects->name);
    fprintf(to, "\n");
}

static inline bool snapdrive_show_choices(const snapdrive_options *options, snapdrive_outcome *outcome) {
    if (!snapdrive_fits(options, outcome)) return false;
    uint64_t seeds = options->seed;
    for (uint64_t run = 1; run <= options->runs; run++)
        for (uint32_t thread = 0; thread < options->threads; thread++) {
            uint64_t random = snapdrive_next(&seeds);
            for (uint64_t i = 0; i < options->calls; i++) {
                uint32_t component = snapdrive_choose(options, thread, i, &random);
                printf("%" PRIu64 " %" PRIu32, run, thread);
                if (component == SNAPDRIVE_VIEW) printf(" view\n");
                else printf(" update %" PRIu32 "\n", component);
            }
        }
    return true;
}

/* Whether everything that was printed is written. */
static inline bool snapdrive_flush(snapdrive_outcome *outcome) {
    if (!fflush(stdout) && !ferror(stdout)) return true;
    return snapdrive_failed(outcome, "files", "standard output can't be written: %s", strerror(errno));
}

/* Runs the object that the command line names, or the first one; the last of the objects is {0}. The status is 0 if each run was
 * atomic, 1 if some were only regular, and 2 if some were not regular. It is 3 if too little was seen for a verdict, and 4 if
 * there is none for another reason. */
static inline int snapdrive_main(int count, char **words, const snapdrive_object *objects) {
    const snapdrive_object *object = objects;
    snapdrive_options options = SNAPDRIVE_OPTIONS;
    snapdrive_outcome outcome = {0};
    snapdrive_job job = SNAPDRIVE_RUNS;
    bool is_named = count > 1 && *words[1] != '-';
    while (is_named && object->name && strcmp(object->name, words[1])) object++;
    bool is_fine = object->name ? snapdrive_read(words + 1 + is_named, &options, &job, &outcome)
                                : snapdrive_failed(&outcome, "usage", "there is no object %s", words[1]);
    if (is_fine && job == SNAPDRIVE_HELP) {
        snapdrive_show_usage(objects, stdout);
    } else if (is_fine && job == SNAPDRIVE_CHOICES) {
        is_fine = snapdrive_show_choices(&options, &outcome);
    } else if (is_fine && (is_fine = snapdrive_run(object, &options, &outcome))) {
        printf("%s: ", object->name);
        snapdrive_tell(&outcome, stdout);
    }
    if (is_fine && snapdrive_flush(&outcome)) return outcome.found[2] ? 2 : outcome.found[1] ? 1 : 0;
    if (!strcmp(outcome.fault, "usage")) snapdrive_show_usage(objects, stderr);
    fprintf(stderr, "%s: %s: %s\n", object->name ? object->name : words[1], outcome.fault, outcome.message);
    return strcmp(outcome.fault, "few views") && strcmp(outcome.fault, "no overlap") ? 4 : 3;
}
#endif
