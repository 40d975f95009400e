/* Objects that test the answers of a driver: usage as that of own. `stale` shows nothing but the initial values, `gives-up` never has a
 * view, and a view of `hangs` does not end. `second` is stale from its second run on, and gives up before. `slow` pauses around what it
 * does, and is right with one component. `fails` is stale; of its updates the first had no effect, and of the third it is not known.
 * `retries` is slow, and right with one component: of five updates one has no effect, one is tried again, and the 13th comes late.
 * `crashes` is slow, and right with one component; its 30th update writes outside of its memory, and has its effect before. A view of
 * `overflows` calls itself until the stack is full. The calls of `waits` wait for each other by a loop, and it is right. */
#include "snapdrive.h"

static uint32_t components, begun;
static _Atomic uint32_t word, updates, late;

static void begin(uint32_t count) {
    components = count;
    begun++;
    word = updates = late = 0;
}

static void update(uint32_t thread, uint32_t component, uint32_t value) {
    (void)thread;
    (void)component;
    (void)value;
}

static void failing_update(uint32_t thread, uint32_t component, uint32_t value) {
    update(thread, component, value);
    updates++;
    if (updates == 1) snapdrive_no_effect();
    if (updates == 3) snapdrive_unknown();
}

static bool stale(uint32_t thread, uint32_t *values) {
    (void)thread;
    memset(values, 0, components * sizeof *values);
    return true;
}

static bool gives_up(uint32_t thread, uint32_t *values) { return thread > SNAPDRIVE_THREADS && values; }

static bool second(uint32_t thread, uint32_t *values) { return begun > 1 && stale(thread, values); }

static void slow_update(uint32_t thread, uint32_t component, uint32_t value) {
    (void)thread;
    (void)component;
    snapdrive_pause();
    word = value;
    snapdrive_pause();
}

static bool slow_view(uint32_t thread, uint32_t *values) {
    (void)thread;
    snapdrive_pause();
    *values = word;
    snapdrive_pause();
    return true;
}

/* Whether a try has an effect. The first one of each fifth update has none. */
static bool is_done(uint32_t number, uint32_t tries, uint32_t value) {
    if (number % 5 == 2 && tries == 0) return false;
    slow_update(0, 0, value);
    return true;
}

static void retried_update(uint32_t thread, uint32_t component, uint32_t value) {
    uint32_t number = ++updates, tries = 0;
    (void)thread;
    (void)component;
    if (number % 5 == 1) {
        snapdrive_no_effect();
    } else if (number == 13) {
        late = value;
        snapdrive_unknown();
    } else {
        while (!is_done(number, tries, value)) tries++;
    }
}

/* What comes late comes at the end of a view. */
static bool retried_view(uint32_t thread, uint32_t *values) {
    slow_view(thread, values);
    uint32_t value = atomic_exchange(&late, 0);
    if (value) word = value;
    return true;
}

static void crashing_update(uint32_t thread, uint32_t component, uint32_t value) {
    slow_update(thread, component, value);
    if (++updates == 30) {
        snapdrive_pause();
        *(volatile uint32_t *)NULL = value;
    }
}

static bool overflows(uint32_t thread, uint32_t *values) {
    volatile char room[4096] = {(char)thread};
    return thread < UINT32_MAX && overflows(thread + 1, values) && room[0];
}

static _Atomic bool is_taken;
static uint32_t guarded[SNAPDRIVE_COMPONENTS];

static void take(void) {
    while (atomic_exchange(&is_taken, true)) snapdrive_pause();
    snapdrive_pause();
}

static void waiting_begin(uint32_t count) {
    begin(count);
    memset(guarded, 0, sizeof guarded);
}

static void waiting_update(uint32_t thread, uint32_t component, uint32_t value) {
    (void)thread;
    take();
    guarded[component] = value;
    snapdrive_pause();
    is_taken = false;
}

static bool waiting_view(uint32_t thread, uint32_t *values) {
    (void)thread;
    take();
    memcpy(values, guarded, components * sizeof *values);
    is_taken = false;
    return true;
}

static bool hangs(uint32_t thread, uint32_t *values) {
    for (;;) sleep(thread + 1);
    return values;
}

int main(int count, char **words) {
    static const snapdrive_object objects[] = {
        {"stale", begin, update, stale}, {"gives-up", begin, update, gives_up}, {"hangs", begin, update, hangs},
        {"second", begin, update, second}, {"slow", begin, slow_update, slow_view},
        {"fails", begin, failing_update, stale}, {"retries", begin, retried_update, retried_view},
        {"crashes", begin, crashing_update, slow_view}, {"overflows", begin, update, overflows},
        {"waits", waiting_begin, waiting_update, waiting_view}, {0}};
    return snapdrive_main(count, words, objects);
}
