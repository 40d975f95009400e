/* Writes what a recorder of snaprecord.h has so far, while its threads run, or when the process dies. One file beside snaprecord.h, for
 * Linux and gnu11: copy both.
 *
 *     snapsofar_write(&recorder, file);                     // at any time, from any thread, to an open file
 *
 *     snapsofar_keep(&recorder, "unfinished.csv");          // from now on, if the process dies by a signal
 *     snapsofar_use_stack(room);                            // in each thread: lets it write if its own stack is full
 *     snapsofar_leave(&recorder);                           // no more
 *
 * What is written is a history. A call that is open, or ends meanwhile, has no end in it. An update whose begin is left out had not begun
 * before each view that is in it had ended. So a right run is never called wrong. All is written by write() alone, from what is in
 * memory, so a handler of signals may do it. Values that are written twice, and a component with two writers, are not looked for.
 *
 * The signals are SIGSEGV, SIGBUS, SIGFPE, SIGILL, SIGABRT and SIGTERM. After the write a signal does what it did before. A program that
 * hears SIGTERM itself need not die of it, so there that signal is left alone.
 *
 * SPDX-License-Identifier: 0BSD; the terms are those of snaprecord.h. */
#ifndef SNAPSOFAR_H
#define SNAPSOFAR_H
#include "snaprecord.h"
#include <errno.h>
#include <fcntl.h>
#include <limits.h>
#include <poll.h>
#include <signal.h>
#include <unistd.h>

/* What is written, some thousand bytes at a time. */
typedef struct {
    int file;
    bool has_failed;
    size_t length;
    char bytes[4096];
} snapsofar_out;

static inline void snapsofar_flush(snapsofar_out *out) {
    for (size_t at = 0; at < out->length && !out->has_failed;) {
        ssize_t written = write(out->file, out->bytes + at, out->length - at);
        if (written > 0) at += (size_t)written;
        else out->has_failed = written == 0 || errno != EINTR;
    }
    out->length = 0;
}

static inline void snapsofar_put(snapsofar_out *out, const char *word) {
    for (; *word; word++) {
        if (out->length == sizeof out->bytes) snapsofar_flush(out);
        out->bytes[out->length++] = *word;
    }
}

static inline void snapsofar_put_number(snapsofar_out *out, uint64_t number) {
    char digits[21], *at = digits + 20;
    *at = 0;
    do *--at = (char)('0' + number % 10);
    while (number /= 10);
    snapsofar_put(out, at);
}

/* Where the updates of each component are looked up: the log of its writer, and the event that was found last. */
typedef struct {
    const snaprecord *recorder;
    uint64_t now; /* what began or ended later is left out */
    const snaprecord_log *writers[SNAPRECORD_COMPONENTS];
    uint32_t last[SNAPRECORD_COMPONENTS];
} snapsofar_reader;

static inline uint32_t snapsofar_whole(const snaprecord_log *log) {
    return atomic_load_explicit(&((snaprecord_log *)log)->whole, memory_order_acquire);
}

/* The component's update that began by this event, or NULL. */
static inline const snaprecord_entry *snapsofar_update(const snaprecord_log *log, uint32_t at, uint32_t component) {
    const snaprecord_entry *entry = &log->entries[log->events[at].first];
    return log->events[at].kind == SNAPRECORD_BEGIN_UPDATE && entry->component == component ? entry : NULL;
}

/* The number of what a view shows. It is looked for from the last place on, to both sides: views mostly show what the view before
 * showed, or a little more. A value that nobody wrote gets the last number that had begun when the view ended. */
static inline uint32_t snapsofar_number(snapsofar_reader *reader, const snaprecord_entry *shown, uint64_t ended) {
    uint32_t component = shown->component, begun = 1;
    const snaprecord_log *log = reader->writers[component];
    if (shown->value == (reader->recorder->initials ? reader->recorder->initials[component] : reader->recorder->initial)) return 0;
    if (!log) return begun;
    uint32_t whole = snapsofar_whole(log), from = reader->last[component];
    for (uint32_t far = 0; far < whole; far++) {
        uint32_t sides[] = {from + far, from - far};
        for (uint32_t side = 0; side < 2; side++) {
            const snaprecord_entry *update = sides[side] < whole ? snapsofar_update(log, sides[side], component) : NULL;
            if (!update) continue;
            if (update->value == shown->value) {
                reader->last[component] = sides[side];
                return update->number;
            }
            if (log->events[sides[side]].stamp < ended && update->number > begun) begun = update->number;
        }
    }
    return begun;
}

static inline void snapsofar_put_event(snapsofar_out *out, snapsofar_reader *reader, const snaprecord_log *log, const snaprecord_event *event) {
    static const char *const words[] = {",begin,", ",end,", ",begin,", ",end,", ",end,"};
    static const char *const ops[] = {",update,", ",update,", ",view,", ",view,", ",view,"};
    const char *space = "";
    snapsofar_put_number(out, event->stamp);
    snapsofar_put(out, words[event->kind]);
    snapsofar_put_number(out, log->process);
    snapsofar_put(out, ops[event->kind]);
    for (uint32_t i = event->first; i < event->first + event->count; i++) {
        const snaprecord_entry *entry = &log->entries[i];
        bool is_by_value = event->kind == SNAPRECORD_END_VIEW_VALUES;
        uint32_t number = is_by_value ? snapsofar_number(reader, entry, event->stamp) : entry->number;
        if (!number) continue;
        snapsofar_put(out, space);
        snapsofar_put_number(out, entry->component);
        snapsofar_put(out, ":");
        snapsofar_put_number(out, number);
        snapsofar_put(out, ":");
        snapsofar_put_number(out, entry->value);
        space = " ";
    }
    snapsofar_put(out, "\n");
}

/* How many events of a log there are, and a copy of the last one. A begin that is taken back meanwhile is read again. */
static inline uint32_t snapsofar_events(snaprecord_log *log, snaprecord_event *last) {
    for (;;) {
        uint32_t drops = atomic_load(&log->drops), count = snapsofar_whole(log);
        if (count) *last = log->events[count - 1];
        atomic_thread_fence(memory_order_acquire);
        if (drops == atomic_load(&log->drops)) return count;
    }
}

/* The events of one log that began or ended before the moment of the reader. */
static inline void snapsofar_put_log(snapsofar_out *out, snapsofar_reader *reader, snaprecord_log *log) {
    snaprecord_event last;
    uint32_t count = snapsofar_events(log, &last);
    for (uint32_t i = 0; i < count; i++) {
        const snaprecord_event *event = i + 1 == count ? &last : &log->events[i];
        if (event->stamp >= reader->now) return;
        snapsofar_put_event(out, reader, log, event);
    }
}

/* Writes the history so far to an open file. False if it can't be written, or a call was misused; snaprecord_text tells of that. */
static inline bool snapsofar_write(snaprecord *recorder, int file) {
    snapsofar_out out = {.file = file};
    snapsofar_reader reader = {.recorder = recorder, .now = atomic_load(&recorder->clock)};
    if (snaprecord_is_copied(recorder) || atomic_load(&recorder->misuse)) return false;
    for (uint32_t t = 0; t < recorder->threads; t++)
        for (uint32_t k = 0; k < recorder->components; k++)
            if (recorder->logs[t].begun[k]) reader.writers[k] = &recorder->logs[t];
    snapsofar_put(&out, "at,event,process,op,data\n");
    for (uint32_t t = 0; t < recorder->threads; t++) snapsofar_put_log(&out, &reader, &recorder->logs[t]);
    snapsofar_flush(&out);
    return !out.has_failed;
}

/* ---- when the process dies */

static const int snapsofar_signals[] = {SIGSEGV, SIGBUS, SIGFPE, SIGILL, SIGABRT, SIGTERM};
enum { SNAPSOFAR_SIGNALS = sizeof snapsofar_signals / sizeof *snapsofar_signals, SNAPSOFAR_STACK = 65536 };

/* What is kept; one for all files of a program. */
typedef struct {
    _Atomic bool is_taken, is_dying;
    _Atomic(snaprecord *) owner, recorder; /* who keeps, and whose file is not yet written */
    char path[PATH_MAX];
    void (*die)(int);
    struct sigaction before[SNAPSOFAR_SIGNALS];
} snapsofar_kept;
__attribute__((weak)) snapsofar_kept snapsofar_of_process;

/* Writes the file once, and lets the signal do what it did before. A second thread that dies waits, or the process would end before
 * the file is whole. */
static inline void snapsofar_die(int signal) {
    int error = errno;
    while (atomic_exchange(&snapsofar_of_process.is_dying, true)) poll(NULL, 0, 1);
    snaprecord *recorder = atomic_exchange(&snapsofar_of_process.recorder, NULL);
    if (recorder) {
        int file = open(snapsofar_of_process.path, O_WRONLY | O_CREAT | O_TRUNC | O_CLOEXEC, 0666);
        snapsofar_out told = {.file = STDERR_FILENO};
        if (file >= 0 && snapsofar_write(recorder, file) && close(file) == 0) {
            snapsofar_put(&told, "snapsofar: the process dies: its calls so far are in ");
            snapsofar_put(&told, snapsofar_of_process.path);
            snapsofar_put(&told, "\n");
            snapsofar_flush(&told);
        }
    }
    for (int i = 0; i < SNAPSOFAR_SIGNALS; i++)
        if (snapsofar_signals[i] == signal) sigaction(signal, &snapsofar_of_process.before[i], NULL);
    atomic_store(&snapsofar_of_process.is_dying, false);
    raise(signal); /* it comes at the end of this handler */
    errno = error;
}

/* If the process dies by a signal from now on, the history so far is written into this file. One recorder at a time: false if
 * another one is kept, or the path is too long. */
static inline bool snapsofar_keep(snaprecord *recorder, const char *path) {
    snapsofar_kept *kept = &snapsofar_of_process;
    struct sigaction action = {.sa_handler = snapsofar_die, .sa_flags = SA_ONSTACK};
    if (strlen(path) >= sizeof kept->path || atomic_exchange(&kept->is_taken, true)) return false;
    strcpy(kept->path, path);
    sigemptyset(&action.sa_mask);
    for (int i = 0; i < SNAPSOFAR_SIGNALS; i++) sigaddset(&action.sa_mask, snapsofar_signals[i]);
    kept->die = snapsofar_die;
    for (int i = 0; i < SNAPSOFAR_SIGNALS; i++) {
        sigaction(snapsofar_signals[i], NULL, &kept->before[i]);
        bool is_heard = snapsofar_signals[i] == SIGTERM && kept->before[i].sa_handler != SIG_DFL;
        if (!is_heard) sigaction(snapsofar_signals[i], &action, NULL);
    }
    atomic_store(&kept->owner, recorder);
    atomic_store(&kept->recorder, recorder);
    return true;
}

/* Ends that for this recorder, if it is kept. The signals then do what they did before. A handler that the program set meanwhile
 * stays. */
static inline void snapsofar_leave(snaprecord *recorder) {
    snapsofar_kept *kept = &snapsofar_of_process;
    struct sigaction now;
    if (!atomic_compare_exchange_strong(&kept->owner, &recorder, NULL)) return;
    atomic_store(&kept->recorder, NULL);
    for (int i = 0; i < SNAPSOFAR_SIGNALS; i++) {
        sigaction(snapsofar_signals[i], NULL, &now);
        if (now.sa_handler == kept->die) sigaction(snapsofar_signals[i], &kept->before[i], NULL);
    }
    atomic_store(&kept->is_taken, false);
}

/* Gives the calling thread a stack of SNAPSOFAR_STACK bytes to write on. It belongs to the thread until that ends. */
static inline void snapsofar_use_stack(char *room) {
    stack_t stack = {.ss_sp = room, .ss_size = SNAPSOFAR_STACK};
    sigaltstack(&stack, NULL);
}
#endif
