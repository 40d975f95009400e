/* Whether calls are ordered as the recorder says: an end with an earlier stamp than a begin happened before it. Two threads write and
 * read a plain word in calls that follow each other. They wait for each other by a relaxed flag, which orders nothing. So
 * ThreadSanitizer reports a race exactly when the clock of the recorder does not order them.
 *
 * SPDX-License-Identifier: 0BSD */
#include "snaprecord.h"
#include <pthread.h>
#include <sched.h>

enum { ROUNDS = 20 };

static uint32_t word;
static _Atomic uint32_t turn;

static void await(uint32_t wanted) {
    while (atomic_load_explicit(&turn, memory_order_relaxed) != wanted) sched_yield();
}

static void *write_word(void *log) {
    for (uint32_t i = 0; i < ROUNDS; i++) {
        await(2 * i);
        if (!snaprecord_begin_update(log, 0, i + 1)) break;
        word = i + 1;
        snaprecord_end_update(log);
        atomic_store_explicit(&turn, 2 * i + 1, memory_order_relaxed);
    }
    return NULL;
}

static void *read_word(void *log) {
    for (uint32_t i = 0; i < ROUNDS; i++) {
        await(2 * i + 1);
        if (!snaprecord_begin_view(log)) break;
        uint32_t value = word;
        snaprecord_end_view_values(log, &value);
        atomic_store_explicit(&turn, 2 * i + 2, memory_order_relaxed);
    }
    return NULL;
}

int main(void) {
    snaprecord recorder;
    pthread_t writer, reader;
    size_t length;
    if (!snaprecord_open(&recorder, 2, 1, ROUNDS)) return 4;
    pthread_create(&writer, NULL, write_word, snaprecord_log_of(&recorder, 0));
    pthread_create(&reader, NULL, read_word, snaprecord_log_of(&recorder, 1));
    pthread_join(writer, NULL);
    pthread_join(reader, NULL);
    char *text = snaprecord_text(&recorder, &length);
    if (!text) return 4;
    fwrite(text, 1, length, stdout);
    free(text);
    snaprecord_close(&recorder);
    return 0;
}
