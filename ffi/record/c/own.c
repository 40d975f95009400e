/* Tests two boards: `naive` collects once, which is not atomic; `double` collects until two collects are equal, which is.
 *
 *     cc -std=gnu11 -O2 -Wall -o own own.c -pthread
 *     ./own naive --runs 20
 *
 * SPDX-License-Identifier: 0BSD */
#include "snapdrive.h"

static _Atomic uint32_t board[SNAPDRIVE_COMPONENTS];
static uint32_t components;

static void begin(uint32_t count) {
    for (components = 0; components < count; components++) board[components] = 0;
}

static void update(uint32_t thread, uint32_t component, uint32_t value) { board[component] = value; }

static bool view(uint32_t thread, uint32_t *values) {
    for (uint32_t k = 0; k < components; k++) {
        values[k] = board[k];
        snapdrive_pause();
    }
    return true;
}

static bool double_view(uint32_t thread, uint32_t *values) {
    uint32_t again[SNAPDRIVE_COMPONENTS];
    view(thread, again);
    do {
        memcpy(values, again, sizeof again);
        view(thread, again);
    } while (memcmp(values, again, components * sizeof *again));
    return true;
}

int main(int count, char **words) {
    static const snapdrive_object objects[] = {{"naive", begin, update, view}, {"double", begin, update, double_view}, {0}};
    return snapdrive_main(count, words, objects);
}
