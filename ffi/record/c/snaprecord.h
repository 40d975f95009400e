/* Records the calls that threads make of a single-writer board, and writes them as a history for `snapjudge check`.
 * One file, C11, no dependencies: copy it into a harness. docs/OWN-OBJECT.md of snapjudge leads through one.
 *
 *     snaprecord recorder;
 *     if (!snaprecord_open(&recorder, THREADS, COMPONENTS, CALLS)) die(recorder.message);
 *
 *     snaprecord_log *log = snaprecord_log_of(&recorder, t);          // thread t, and no other; never a copy of the log
 *     if (!snaprecord_begin_update(log, component, value)) return;    // refused: make no further call
 *     board_update(component, value);
 *     snaprecord_end_update(log);
 *     if (!snaprecord_begin_view(log)) return;
 *     board_view(values);
 *     snaprecord_end_view_values(log, values);                        // or snaprecord_end_view, of numbers
 *                                                                     // a call that failed: snaprecord_drop_view, _drop_update
 *
 *     char *text = snaprecord_text(&recorder, &length);               // after the threads were joined; snapsofar.h writes one before
 *     if (!text) die(recorder.message);
 *     snaprecord_close(&recorder);
 *
 * What the record says: if call A ended before call B began, A happened before B in the sense of C11. Each stamp is a
 * fetch_add of one clock with acquire and release. A begin takes it last in begin_.., and an end takes it first in
 * end_... A thread writes to its own log alone. Nothing is locked or allocated while threads run.
 * What it cannot say: the clock orders more calls than the object may, so a fault that needs two calls without such an
 * order can hide.
 *
 * SPDX-License-Identifier: 0BSD
 * Copyright (C) 2026 by the authors of snapjudge
 * Permission to use, copy, modify, and/or distribute this software for any purpose with or without fee is hereby granted.
 * THE SOFTWARE IS PROVIDED "AS IS" AND THE AUTHOR DISCLAIMS ALL WARRANTIES WITH REGARD TO THIS SOFTWARE INCLUDING ALL IMPLIED
 * WARRANTIES OF MERCHANTABILITY AND FITNESS. IN NO EVENT SHALL THE AUTHOR BE LIABLE FOR ANY SPECIAL, DIRECT, INDIRECT, OR
 * CONSEQUENTIAL DAMAGES OR ANY DAMAGES WHATSOEVER RESULTING FROM LOSS OF USE, DATA OR PROFITS, WHETHER IN AN ACTION OF
 * CONTRACT, NEGLIGENCE OR OTHER TORTIOUS ACTION, ARISING OUT OF OR IN CONNECTION WITH THE USE OR PERFORMANCE OF THIS SOFTWARE. */
#ifndef SNAPRECORD_H
#define SNAPRECORD_H
#include <inttypes.h>
#include <stdalign.h>
#include <stdatomic.h>
#include <stdbool.h>
#include <stdint.h>
#include <stdio.h>
#include <stdlib.h>
#include <string.h>

/* What the judge takes. */
#define SNAPRECORD_EVENTS 1048576u  /* in all; a call has two, its begin and its end. More than 65536 the judge takes by --events N */
#define SNAPRECORD_COMPONENTS 256u
#define SNAPRECORD_PROCESSES 65536u /* a thread is one process */

typedef enum {
    SNAPRECORD_FINE,
    SNAPRECORD_LIMITS,      /* more threads, components or calls than the judge takes */
    SNAPRECORD_MEMORY,      /* out of memory */
    SNAPRECORD_NESTED,      /* a call began before the thread's last one had ended */
    SNAPRECORD_NOT_OPEN,    /* a call ended that had not begun */
    SNAPRECORD_AFTER_FULL,  /* a call was made although its begin was refused */
    SNAPRECORD_COMPONENT,   /* a component is too high, or the entries of a view do not rise */
    SNAPRECORD_TWO_WRITERS, /* two threads updated one component */
    SNAPRECORD_SAME_VALUE,  /* views have values alone, and a component got one value twice, or its initial one */
    SNAPRECORD_COPIED       /* a call was made of a copy of a log, or of the recorder: keep a pointer */
} snaprecord_fault;

/* What a view shows of a component; number 0 is its initial state. */
typedef struct {
    uint32_t component, number, value;
} snaprecord_entry;

typedef enum {
    SNAPRECORD_BEGIN_UPDATE,
    SNAPRECORD_END_UPDATE,
    SNAPRECORD_BEGIN_VIEW,
    SNAPRECORD_END_VIEW,       /* its entries have numbers */
    SNAPRECORD_END_VIEW_VALUES /* its entries have values alone */
} snaprecord_kind;

typedef struct {
    uint64_t stamp;
    snaprecord_kind kind;
    uint32_t first, count; /* its entries */
} snaprecord_event;

typedef enum { SNAPRECORD_IDLE, SNAPRECORD_REFUSED, SNAPRECORD_UPDATING, SNAPRECORD_VIEWING } snaprecord_state;

/* What one thread recorded. A log shares no line of the cache with another one. */
typedef struct {
    alignas(128) struct snaprecord *recorder;
    snaprecord_state state;
    uint32_t process, length, entry_count;
    _Atomic uint32_t whole, drops; /* how many events others may read, and how often a begin was taken back */
    snaprecord_event *events;
    snaprecord_entry *entries;
    uint32_t begun[SNAPRECORD_COMPONENTS]; /* how many updates of each component */
} snaprecord_log;

typedef struct snaprecord {
    alignas(128) _Atomic uint64_t clock;
    alignas(128) _Atomic bool stopped; /* a log is full, or a call was misused: begin_.. is refused to all threads */
    _Atomic uint32_t misuse;           /* the first one: fault, and process times 16 */
    alignas(128) uint32_t threads;
    uint32_t components, calls;
    uint32_t initial;         /* the value that each component has at first, 0 unless you set it before the threads start */
    const uint32_t *initials; /* or the first value of each component, if you set it: yours until snaprecord_text is done */
    snaprecord_log *logs;
    snaprecord_fault fault; /* why snaprecord_open or snaprecord_text failed, in a word and in a sentence */
    char message[200];
} snaprecord;

static inline bool snaprecord_failed(snaprecord *recorder, snaprecord_fault fault, const char *message) {
    recorder->fault = fault;
    snprintf(recorder->message, sizeof recorder->message, "%s", message);
    return false;
}

/* Frees what the recorder holds. */
static inline void snaprecord_close(snaprecord *recorder) {
    for (uint32_t t = 0; recorder->logs && t < recorder->threads; t++) {
        free(recorder->logs[t].events);
        free(recorder->logs[t].entries);
    }
    free(recorder->logs);
    recorder->logs = NULL;
}

/* Opens a recorder for this many threads, components, and calls of each thread, at most SNAPRECORD_EVENTS / 2 calls in all.
 * False, with `fault` LIMITS or MEMORY, if there is none; then nothing is held. */
static inline bool snaprecord_open(snaprecord *recorder, uint32_t threads, uint32_t components, uint32_t calls) {
    atomic_init(&recorder->clock, 0);
    atomic_init(&recorder->stopped, false);
    atomic_init(&recorder->misuse, 0);
    recorder->initial = 0;
    recorder->initials = NULL;
    recorder->logs = NULL;
    recorder->fault = SNAPRECORD_FINE;
    recorder->message[0] = 0;
    bool fits = threads >= 1 && threads <= SNAPRECORD_PROCESSES && components <= SNAPRECORD_COMPONENTS;
    if (!fits || calls < 1 || calls > SNAPRECORD_EVENTS / 2 / threads) {
        recorder->fault = SNAPRECORD_LIMITS;
        snprintf(recorder->message, sizeof recorder->message,
                 "a history has at most %u calls of %u threads in all, and %u components", SNAPRECORD_EVENTS / 2,
                 SNAPRECORD_PROCESSES, SNAPRECORD_COMPONENTS);
        return false;
    }
    recorder->threads = threads;
    recorder->components = components;
    recorder->calls = calls;
    recorder->logs = aligned_alloc(128, threads * sizeof *recorder->logs);
    if (!recorder->logs) return snaprecord_failed(recorder, SNAPRECORD_MEMORY, "out of memory");
    memset(recorder->logs, 0, threads * sizeof *recorder->logs);
    for (uint32_t t = 0; t < threads; t++) {
        snaprecord_log *log = &recorder->logs[t];
        size_t events = (size_t)calls * 2 * sizeof *log->events;
        size_t entries = (size_t)calls * (components ? components : 1) * sizeof *log->entries;
        log->recorder = recorder;
        log->process = t;
        log->events = malloc(events);
        log->entries = malloc(entries);
        if (!log->events || !log->entries) {
            snaprecord_close(recorder);
            return snaprecord_failed(recorder, SNAPRECORD_MEMORY, "out of memory");
        }
        memset(log->events, 1, events); /* written once, so that no page is made while threads run */
        memset(log->entries, 1, entries);
    }
    return true;
}

/* Whether the recorder is a copy of the one that was opened. Its logs then belong to that one. */
static inline bool snaprecord_is_copied(const snaprecord *recorder) { return recorder->logs && recorder->logs->recorder != recorder; }

/* The log of a thread, which is the process of that number. If there is none, or the recorder was copied since it was opened, the
 * process ends and says so. */
static inline snaprecord_log *snaprecord_log_of(snaprecord *recorder, uint32_t thread) {
    bool is_copied = snaprecord_is_copied(recorder);
    if (!is_copied && recorder->logs && thread < recorder->threads) return &recorder->logs[thread];
    fprintf(stderr, "snaprecord: thread %" PRIu32 " has no log%s\n", thread, is_copied ? ": the recorder is a copy" : "");
    abort();
}

static inline uint64_t snaprecord_tick(snaprecord_log *log) {
    return atomic_fetch_add_explicit(&log->recorder->clock, 1, memory_order_acq_rel);
}

/* The first misuse is kept for snaprecord_text, and stops all threads. */
static inline bool snaprecord_misused(snaprecord_log *log, snaprecord_fault fault) {
    uint32_t none = 0;
    atomic_compare_exchange_strong(&log->recorder->misuse, &none, (uint32_t)fault + 16 * log->process);
    atomic_store_explicit(&log->recorder->stopped, true, memory_order_relaxed);
    log->state = SNAPRECORD_REFUSED;
    return false;
}

/* Whether the log is a copy. What it records is in no text, and so a history without it could look right. */
static inline bool snaprecord_is_copy(const snaprecord_log *log) { return log != &log->recorder->logs[log->process]; }

static inline bool snaprecord_may_begin(snaprecord_log *log) {
    if (snaprecord_is_copy(log)) return snaprecord_misused(log, SNAPRECORD_COPIED);
    if (log->state >= SNAPRECORD_UPDATING) return snaprecord_misused(log, SNAPRECORD_NESTED);
    if (log->length == 2 * log->recorder->calls) /* all threads stop, else views show updates that no one recorded */
        atomic_store_explicit(&log->recorder->stopped, true, memory_order_relaxed);
    if (!atomic_load_explicit(&log->recorder->stopped, memory_order_relaxed)) return true;
    log->state = SNAPRECORD_REFUSED;
    return false;
}

/* Others may read the events up to here. What the object writes next does not come before that: no instruction on x86. */
static inline void snaprecord_publish(snaprecord_log *log) {
    atomic_store_explicit(&log->whole, log->length, memory_order_release);
    atomic_thread_fence(memory_order_release);
}

static inline void snaprecord_begin(snaprecord_log *log, snaprecord_state state, snaprecord_kind kind, uint32_t count) {
    snaprecord_event *event = &log->events[log->length++];
    event->kind = kind;
    event->first = log->entry_count;
    event->count = count;
    log->entry_count += count;
    log->state = state;
    event->stamp = snaprecord_tick(log);
    snaprecord_publish(log);
}

static inline bool snaprecord_may_end(snaprecord_log *log, snaprecord_state state) {
    if (snaprecord_is_copy(log)) return snaprecord_misused(log, SNAPRECORD_COPIED);
    if (log->state == state) return true;
    return snaprecord_misused(log, log->state == SNAPRECORD_REFUSED ? SNAPRECORD_AFTER_FULL : SNAPRECORD_NOT_OPEN);
}

static inline void snaprecord_end(snaprecord_log *log, uint64_t stamp, snaprecord_kind kind, uint32_t count) {
    log->events[log->length++] = (snaprecord_event){stamp, kind, log->entry_count, count};
    log->entry_count += count;
    log->state = SNAPRECORD_IDLE;
    snaprecord_publish(log);
}

/* The number of the update, from 1 in each component; or 0: a log is full, or a call was misused. Then make no further call. */
static inline uint32_t snaprecord_begin_update(snaprecord_log *log, uint32_t component, uint32_t value) {
    if (!snaprecord_may_begin(log)) return 0;
    if (component >= log->recorder->components) return snaprecord_misused(log, SNAPRECORD_COMPONENT);
    uint32_t number = ++log->begun[component];
    log->entries[log->entry_count] = (snaprecord_entry){component, number, value};
    snaprecord_begin(log, SNAPRECORD_UPDATING, SNAPRECORD_BEGIN_UPDATE, 1);
    return number;
}

static inline void snaprecord_end_update(snaprecord_log *log) {
    uint64_t stamp = snaprecord_tick(log);
    if (snaprecord_may_end(log, SNAPRECORD_UPDATING)) snaprecord_end(log, stamp, SNAPRECORD_END_UPDATE, 0);
}

/* False: a log is full, or a call was misused. Then make no further call. */
static inline bool snaprecord_begin_view(snaprecord_log *log) {
    if (!snaprecord_may_begin(log)) return false;
    snaprecord_begin(log, SNAPRECORD_VIEWING, SNAPRECORD_BEGIN_VIEW, 0);
    return true;
}

/* The end of a view that shows these entries, components rising. Number 0, or no entry, is the initial state. */
static inline void snaprecord_end_view(snaprecord_log *log, const snaprecord_entry *entries, uint32_t count) {
    uint64_t stamp = snaprecord_tick(log);
    if (!snaprecord_may_end(log, SNAPRECORD_VIEWING)) return;
    for (uint32_t i = 0; i < count; i++) {
        if (entries[i].component >= log->recorder->components || (i && entries[i].component <= entries[i - 1].component)) {
            snaprecord_misused(log, SNAPRECORD_COMPONENT);
            return;
        }
        log->entries[log->entry_count + i] = entries[i];
    }
    snaprecord_end(log, stamp, SNAPRECORD_END_VIEW, count);
}

/* The end of a view that shows these values, one for each component. snaprecord_text finds the number of each by its value.
 * So the updates of a component must write values that differ from each other and from the one that it has at first. */
static inline void snaprecord_end_view_values(snaprecord_log *log, const uint32_t *values) {
    uint64_t stamp = snaprecord_tick(log);
    if (!snaprecord_may_end(log, SNAPRECORD_VIEWING)) return;
    uint32_t count = log->recorder->components;
    for (uint32_t k = 0; k < count; k++) log->entries[log->entry_count + k] = (snaprecord_entry){k, 0, values[k]};
    snaprecord_end(log, stamp, SNAPRECORD_END_VIEW_VALUES, count);
}

static inline bool snaprecord_dropped(snaprecord_log *log, snaprecord_state state) {
    if (!snaprecord_may_end(log, state)) return false;
    log->length--;
    log->state = SNAPRECORD_IDLE;
    atomic_fetch_add(&log->drops, 1);
    snaprecord_publish(log);
    return true;
}

/* Call this in place of the end of a view that gave no answer, because it gave up: the view is left out of the history. */
static inline void snaprecord_drop_view(snaprecord_log *log) { snaprecord_dropped(log, SNAPRECORD_VIEWING); }

/* In place of the end of an update that had no effect, and can have none any more: it is left out of the history, and the next
 * update of its component gets its number. If that is not known, end nothing, and use this log no more. */
static inline void snaprecord_drop_update(snaprecord_log *log) {
    if (snaprecord_dropped(log, SNAPRECORD_UPDATING)) log->begun[log->entries[--log->entry_count].component]--;
}

/* ---- after the threads were joined */

typedef struct {
    uint32_t component, value, number;
} snaprecord_written;

static inline int snaprecord_compare(const void *left, const void *right) {
    const snaprecord_written *a = left, *b = right;
    if (a->component != b->component) return a->component < b->component ? -1 : 1;
    if (a->value != b->value) return a->value < b->value ? -1 : 1;
    return a->number < b->number ? -1 : a->number > b->number;
}

/* All updates, to look numbers up. Those of component k begin at first[k]. */
typedef struct {
    uint32_t first[SNAPRECORD_COMPONENTS + 1];
    uint64_t *begun;             /* by component and number: the stamp of the begin */
    snaprecord_written *written; /* by component and value */
    bool by_values;              /* some view has values alone */
    const snaprecord *recorder;
    size_t room;                 /* how long the text is at most */
} snaprecord_table;

/* The value that a component has at first. */
static inline uint32_t snaprecord_initial(const snaprecord *recorder, uint32_t component) {
    return recorder->initials ? recorder->initials[component] : recorder->initial;
}

static inline bool snaprecord_tabulate(snaprecord *recorder, snaprecord_table *table) {
    uint32_t counts[SNAPRECORD_COMPONENTS] = {0}, total = 0;
    table->room = 64;
    for (uint32_t t = 0; t < recorder->threads; t++) {
        const snaprecord_log *log = &recorder->logs[t];
        table->room += (size_t)log->length * 48 + (size_t)log->entry_count * 28;
        for (uint32_t k = 0; k < SNAPRECORD_COMPONENTS; k++) {
            if (log->begun[k] && counts[k]) {
                recorder->fault = SNAPRECORD_TWO_WRITERS;
                snprintf(recorder->message, sizeof recorder->message,
                         "two threads updated component %" PRIu32 ": a component has one writer", k);
                return false;
            }
            counts[k] += log->begun[k];
        }
    }
    for (uint32_t k = 0; k < SNAPRECORD_COMPONENTS; k++) {
        table->first[k] = total;
        total += counts[k];
    }
    table->first[SNAPRECORD_COMPONENTS] = total;
    table->begun = malloc((total + 1) * sizeof *table->begun);
    table->written = malloc((total + 1) * sizeof *table->written);
    if (!table->begun || !table->written) return snaprecord_failed(recorder, SNAPRECORD_MEMORY, "out of memory");
    for (uint32_t t = 0; t < recorder->threads; t++) {
        const snaprecord_log *log = &recorder->logs[t];
        for (uint32_t i = 0; i < log->length; i++) {
            const snaprecord_event *event = &log->events[i];
            const snaprecord_entry *entry = &log->entries[event->first];
            table->by_values |= event->kind == SNAPRECORD_END_VIEW_VALUES;
            if (event->kind != SNAPRECORD_BEGIN_UPDATE) continue;
            uint32_t at = table->first[entry->component] + entry->number - 1;
            table->begun[at] = event->stamp;
            table->written[at] = (snaprecord_written){entry->component, entry->value, entry->number};
        }
    }
    if (!table->by_values) return true;
    qsort(table->written, total, sizeof *table->written, snaprecord_compare);
    for (uint32_t i = 0; i < total; i++) {
        const snaprecord_written *one = &table->written[i];
        bool is_twice = i && one[-1].component == one->component && one[-1].value == one->value;
        if (!is_twice && one->value != snaprecord_initial(recorder, one->component)) continue;
        recorder->fault = SNAPRECORD_SAME_VALUE;
        snprintf(recorder->message, sizeof recorder->message,
                 "component %" PRIu32 " got the value %" PRIu32 " %s, so a view's value has no one number: make the values "
                 "differ, or end views with numbers",
                 one->component, one->value, is_twice ? "twice" : "that it has at first");
        return false;
    }
    return true;
}

/* How many of these rising stamps are below another one. */
static inline uint32_t snaprecord_below(const uint64_t *stamps, uint32_t count, uint64_t stamp) {
    uint32_t low = 0;
    while (low < count) {
        uint32_t middle = low + (count - low) / 2;
        if (stamps[middle] < stamp) low = middle + 1;
        else count = middle;
    }
    return low;
}

/* The number of the value that a view shows. One that nobody wrote gets the last number that had begun when the view ended:
 * the judge then says `integrity`, and no more of this entry by itself. */
static inline uint32_t snaprecord_number(const snaprecord_table *table, const snaprecord_entry *entry, uint64_t ended) {
    if (entry->value == snaprecord_initial(table->recorder, entry->component)) return 0;
    uint32_t first = table->first[entry->component], end = table->first[entry->component + 1];
    uint32_t low = first, high = end;
    while (low < high) {
        uint32_t middle = low + (high - low) / 2;
        if (table->written[middle].value < entry->value) low = middle + 1;
        else high = middle;
    }
    if (low < end && table->written[low].value == entry->value) return table->written[low].number;
    uint32_t last = snaprecord_below(table->begun + first, end - first, ended);
    return last ? last : 1;
}

/* Writes the record of an event, and answers where the next one begins. */
static inline char *snaprecord_write(const snaprecord_table *table, const snaprecord_log *log, const snaprecord_event *event, char *to) {
    static const char *const words[] = {"begin", "end", "begin", "end", "end"};
    static const char *const ops[] = {"update", "update", "view", "view", "view"};
    bool is_by_value = event->kind == SNAPRECORD_END_VIEW_VALUES;
    const char *space = "";
    to += sprintf(to, "%" PRIu64 ",%s,%" PRIu32 ",%s,", event->stamp, words[event->kind], log->process, ops[event->kind]);
    for (uint32_t i = event->first; i < event->first + event->count; i++) {
        const snaprecord_entry *entry = &log->entries[i];
        uint32_t number = is_by_value ? snaprecord_number(table, entry, event->stamp) : entry->number;
        if (number == 0) continue;
        to += sprintf(to, "%s%" PRIu32 ":%" PRIu32 ":%" PRIu32, space, entry->component, number, entry->value);
        space = " ";
    }
    *to++ = '\n';
    return to;
}

/* The history that all logs hold, a text of `*length` bytes with a zero after it, to be given to free(). Or NULL: `fault` and
 * `message` then say why. The logs follow one another: the judge puts the events in the order of their stamps. */
static inline char *snaprecord_text(snaprecord *recorder, size_t *length) {
    static const char *const misuses[] = {
        [SNAPRECORD_NESTED] = "began a call before its last one had ended",
        [SNAPRECORD_NOT_OPEN] = "ended a call that it had not begun",
        [SNAPRECORD_AFTER_FULL] = "made a call although begin had refused it: a log was full",
        [SNAPRECORD_COMPONENT] = "named a component that is too high, or entries that do not rise",
        [SNAPRECORD_COPIED] = "used a copy of its log, whose records would be lost: keep a pointer to the log",
    };
    uint32_t misuse = atomic_load(&recorder->misuse);
    snaprecord_table table = {.recorder = recorder};
    char *text = NULL;
    *length = 0;
    if (snaprecord_is_copied(recorder)) {
        snaprecord_failed(recorder, SNAPRECORD_COPIED, "the recorder is a copy of the one that was opened");
        return NULL;
    }
    if (misuse) {
        recorder->fault = (snaprecord_fault)(misuse % 16);
        snprintf(recorder->message, sizeof recorder->message, "thread %" PRIu32 " %s", misuse / 16, misuses[misuse % 16]);
        return NULL;
    }
    if (snaprecord_tabulate(recorder, &table)) {
        text = malloc(table.room);
        if (!text) snaprecord_failed(recorder, SNAPRECORD_MEMORY, "out of memory");
    }
    if (text) {
        char *to = text + sprintf(text, "at,event,process,op,data\n");
        for (uint32_t t = 0; t < recorder->threads; t++) {
            const snaprecord_log *log = &recorder->logs[t];
            for (uint32_t i = 0; i < log->length; i++) to = snaprecord_write(&table, log, &log->events[i], to);
        }
        *to = 0;
        *length = (size_t)(to - text);
    }
    free(table.begun);
    free(table.written);
    return text;
}

static inline int snaprecord_compare_stamps(const void *left, const void *right) {
    const uint64_t *a = left, *b = right;
    return *a < *b ? -1 : *a > *b;
}

/* How many views of the history ended, and how many of these overlapped an update: both calls were open at one moment. A run in which
 * none did says nothing of calls at the same time. */
typedef struct {
    uint32_t ended, overlapping;
} snaprecord_views;

/* Counts the views, after the threads were joined. False, with `fault` MEMORY, if there is no memory. */
static inline bool snaprecord_count_views(snaprecord *recorder, snaprecord_views *views) {
    uint32_t total = 0, begins = 0, ends = 0;
    for (uint32_t t = 0; t < recorder->threads; t++) total += recorder->logs[t].length;
    /* the begins of updates from the front on, and their ends after them */
    uint64_t *begun = malloc((2 * (size_t)total + 1) * sizeof *begun), *ended = begun + total;
    if (!begun) return snaprecord_failed(recorder, SNAPRECORD_MEMORY, "out of memory");
    for (uint32_t t = 0; t < recorder->threads; t++)
        for (uint32_t i = 0; i < recorder->logs[t].length; i++) {
            const snaprecord_event *event = &recorder->logs[t].events[i];
            if (event->kind == SNAPRECORD_BEGIN_UPDATE) begun[begins++] = event->stamp;
            if (event->kind == SNAPRECORD_END_UPDATE) ended[ends++] = event->stamp;
        }
    qsort(begun, begins, sizeof *begun, snaprecord_compare_stamps);
    qsort(ended, ends, sizeof *ended, snaprecord_compare_stamps);
    *views = (snaprecord_views){0, 0};
    for (uint32_t t = 0; t < recorder->threads; t++)
        for (uint32_t i = 1; i < recorder->logs[t].length; i++) { /* the event before an end is the begin of its call */
            const snaprecord_event *event = &recorder->logs[t].events[i];
            if (event->kind < SNAPRECORD_END_VIEW) continue;
            views->ended++;
            /* more updates began before its end than ended before its begin */
            views->overlapping += snaprecord_below(begun, begins, event->stamp) > snaprecord_below(ended, ends, event[-1].stamp);
        }
    free(begun);
    return true;
}
#endif
