/* Objects for the rates of bench/recorders.py: usage as that of ffi/record/c/own.c.
 *
 * `bare` is one collect, in which nothing lets other threads run; `naive` is one collect with pauses. `published` is the snapshot of
 * Afek, Attiya, Dolev, Gafni, Merritt and Shavit (1993): an update embeds a view, and a view that has seen a component move twice takes
 * the one that is embedded there. `first-move` takes it when the component has moved once. `old-view` embeds the last view that its
 * thread took, in place of a new one. `late-version` raises a version after each write, and a view collects until the version stayed
 * the same: two views can disagree on two writes whose versions are still to be raised. `late-version-bare` does so without a pause in
 * its updates. `one-shot` writes each component once, and a view of it takes the second of two collects, equal or not. */
#include "../../ffi/record/c/snapdrive.h"

typedef struct {
    uint32_t value, view[SNAPDRIVE_COMPONENTS];
} cell;

static cell cells[SNAPRECORD_EVENTS / 2 + 1], last[SNAPDRIVE_THREADS]; /* cell 0 is what each component has at first */
static _Atomic uint32_t used, version;
static _Atomic(cell *) board[SNAPDRIVE_COMPONENTS];
static uint32_t components;

static void begin(uint32_t count) {
    components = count;
    atomic_store(&used, 1);
    memset(last, 0, sizeof last);
    for (uint32_t k = 0; k < count; k++) atomic_store(&board[k], &cells[0]);
}

static void collect(cell **read, bool pauses) {
    for (uint32_t k = 0; k < components; k++) {
        read[k] = atomic_load(&board[k]);
        if (pauses) snapdrive_pause();
    }
}

static void tell(cell *const *read, uint32_t *values) {
    for (uint32_t k = 0; k < components; k++) values[k] = read[k]->value;
}

static bool bare_view(uint32_t thread, uint32_t *values) {
    cell *read[SNAPDRIVE_COMPONENTS];
    (void)thread;
    collect(read, false);
    tell(read, values);
    return true;
}

static bool naive_view(uint32_t thread, uint32_t *values) {
    cell *read[SNAPDRIVE_COMPONENTS];
    (void)thread;
    collect(read, true);
    tell(read, values);
    return true;
}

static void scan(uint32_t *values, int moves) {
    cell *before[SNAPDRIVE_COMPONENTS], *after[SNAPDRIVE_COMPONENTS];
    int moved[SNAPDRIVE_COMPONENTS] = {0};
    size_t size = components * sizeof *before;
    collect(before, true);
    for (;;) {
        collect(after, true);
        if (!memcmp(before, after, size)) {
            tell(after, values);
            return;
        }
        for (uint32_t k = 0; k < components; k++)
            if (before[k] != after[k] && ++moved[k] == moves) {
                memcpy(values, after[k]->view, components * sizeof *values);
                return;
            }
        memcpy(before, after, size);
    }
}

static bool published_view(uint32_t thread, uint32_t *values) {
    scan(values, 2);
    memcpy(last[thread].view, values, components * sizeof *values);
    return true;
}

static bool first_move_view(uint32_t thread, uint32_t *values) {
    (void)thread;
    scan(values, 1);
    return true;
}

static void put(uint32_t component, uint32_t value, cell *next) {
    next->value = value;
    atomic_store(&board[component], next);
}

static void plain_update(uint32_t thread, uint32_t component, uint32_t value) {
    (void)thread;
    put(component, value, &cells[atomic_fetch_add(&used, 1)]);
}

static void published_update(uint32_t thread, uint32_t component, uint32_t value) {
    cell *next = &cells[atomic_fetch_add(&used, 1)];
    (void)thread;
    scan(next->view, 2);
    put(component, value, next);
}

static void first_move_update(uint32_t thread, uint32_t component, uint32_t value) {
    cell *next = &cells[atomic_fetch_add(&used, 1)];
    (void)thread;
    scan(next->view, 1);
    put(component, value, next);
}

static void old_view_update(uint32_t thread, uint32_t component, uint32_t value) {
    cell *next = &cells[atomic_fetch_add(&used, 1)];
    *next = last[thread];
    put(component, value, next);
}

static bool late_version_view(uint32_t thread, uint32_t *values) {
    cell *read[SNAPDRIVE_COMPONENTS];
    uint32_t before;
    (void)thread;
    do {
        before = atomic_load(&version);
        for (uint32_t k = 0; k < components; k++) {
            if (k) snapdrive_pause(); /* between two reads alone */
            read[k] = atomic_load(&board[k]);
        }
    } while (atomic_load(&version) != before);
    tell(read, values);
    return true;
}

static void late_version_update(uint32_t thread, uint32_t component, uint32_t value) {
    plain_update(thread, component, value);
    snapdrive_pause();
    atomic_fetch_add(&version, 1);
}

static void late_version_bare_update(uint32_t thread, uint32_t component, uint32_t value) {
    plain_update(thread, component, value);
    atomic_fetch_add(&version, 1);
}

/* One that comes later has no effect. */
static void one_shot_update(uint32_t thread, uint32_t component, uint32_t value) {
    if (atomic_load(&board[component]) == &cells[0]) plain_update(thread, component, value);
    else snapdrive_no_effect();
}

static bool one_shot_view(uint32_t thread, uint32_t *values) {
    cell *read[SNAPDRIVE_COMPONENTS];
    (void)thread;
    collect(read, true);
    collect(read, true);
    tell(read, values);
    return true;
}

int main(int count, char **words) {
    static const snapdrive_object objects[] = {
        {"bare", begin, plain_update, bare_view},
        {"naive", begin, plain_update, naive_view},
        {"published", begin, published_update, published_view},
        {"first-move", begin, first_move_update, first_move_view},
        {"old-view", begin, old_view_update, published_view},
        {"late-version", begin, late_version_update, late_version_view},
        {"late-version-bare", begin, late_version_bare_update, late_version_view},
        {"one-shot", begin, one_shot_update, one_shot_view},
        {0}};
    return snapdrive_main(count, words, objects);
}
