/* The recorder's texts of two worked runs, written to the files that are named, and the fault of each misuse.
 * usage: misuse FILE FILE */
#include <stddef.h>
#include <stdlib.h>

/* How many allocations the recorder gets before it gets none, and how many blocks it holds. */
static unsigned scarce = 1000000;
static int held;

static void *taken(void *memory) {
    held += memory != NULL;
    return memory;
}

static void *scarce_malloc(size_t size) { return scarce && scarce-- ? taken(malloc(size)) : NULL; }

static void *scarce_aligned_alloc(size_t alignment, size_t size) { return scarce && scarce-- ? taken(aligned_alloc(alignment, size)) : NULL; }

static void counted_free(void *memory) {
    held -= memory != NULL;
    free(memory);
}

#define malloc scarce_malloc
#define aligned_alloc scarce_aligned_alloc
#define free counted_free
#include "snapsofar.h"
#include <setjmp.h>
#include <signal.h>
#include <sys/resource.h>

static int passed, failed;

static void expect(const char *name, bool holds) {
    if (holds) passed++;
    else failed++;
    if (!holds) fprintf(stderr, "c: %s: failed\n", name);
}

/* The fault of the recorder's text; the recorder is closed. */
static snaprecord_fault fault_of(snaprecord *recorder) {
    size_t length;
    char *text = snaprecord_text(recorder, &length);
    snaprecord_fault fault = text ? SNAPRECORD_FINE : recorder->fault;
    if (!text && !strlen(recorder->message)) fault = SNAPRECORD_FINE;
    free(text);
    snaprecord_close(recorder);
    return fault;
}

static void update(snaprecord *recorder, uint32_t thread, uint32_t component, uint32_t value) {
    snaprecord_log *log = snaprecord_log_of(recorder, thread);
    if (snaprecord_begin_update(log, component, value)) snaprecord_end_update(log);
}

static void view(snaprecord *recorder, uint32_t thread, const uint32_t *values) {
    snaprecord_log *log = snaprecord_log_of(recorder, thread);
    if (snaprecord_begin_view(log)) snaprecord_end_view_values(log, values);
}

/* Whether this text is written of what the recorder has so far. */
static bool has_so_far(snaprecord *recorder, const char *text) {
    char found[1000] = {0};
    FILE *file = tmpfile();
    bool is_fine = file && snapsofar_write(recorder, fileno(file)) && fseek(file, 0, SEEK_SET) == 0;
    if (is_fine) found[fread(found, 1, sizeof found - 1, file)] = 0;
    if (file) fclose(file);
    return is_fine && !strcmp(found, text);
}

static bool is_written(snaprecord *recorder, const char *name) {
    size_t length;
    char *text = snaprecord_text(recorder, &length);
    expect("what there is so far is all that there is", text && has_so_far(recorder, text));
    FILE *file = fopen(name, "wb");
    bool written = text && file && fwrite(text, 1, length, file) == length && fclose(file) == 0;
    free(text);
    snaprecord_close(recorder);
    return written;
}

/* Whether this many views ended, and this many of them overlapped an update. */
static bool has_views(snaprecord *recorder, uint32_t ended, uint32_t overlapping) {
    snaprecord_views views;
    return snaprecord_count_views(recorder, &views) && views.ended == ended && views.overlapping == overlapping;
}

static bool worked(snaprecord *recorder, const char *name) {
    snaprecord_log *writer = snaprecord_log_of(recorder, 0), *viewer = snaprecord_log_of(recorder, 1);
    bool begun = snaprecord_begin_update(writer, 0, 7) == 1 && snaprecord_begin_view(viewer);
    snaprecord_end_view_values(viewer, (const uint32_t[]){7, 0});
    snaprecord_end_update(writer);
    begun = begun && snaprecord_begin_update(writer, 0, 8) == 2;
    snaprecord_end_update(writer);
    begun = begun && snaprecord_begin_view(viewer);
    snaprecord_end_view(viewer, (const snaprecord_entry[]){{0, 2, 8}, {1, 0, 0}}, 2);
    begun = begun && snaprecord_begin_view(viewer);
    snaprecord_drop_view(viewer);
    begun = begun && snaprecord_begin_view(viewer);
    snaprecord_end_view_values(viewer, (const uint32_t[]){99, 0}); /* nobody wrote 99 */
    expect("the views of the worked run", has_views(recorder, 3, 1));
    return begun && is_written(recorder, name);
}

/* An update had no effect and is made again, of another it is not known, and a spare log goes on. */
static bool failed_calls(snaprecord *recorder, const char *name) {
    snaprecord_log *writer = snaprecord_log_of(recorder, 0);
    recorder->initials = (const uint32_t[]){5, 6};
    bool begun = snaprecord_begin_update(writer, 0, 7) == 1;
    snaprecord_drop_update(writer);
    begun = begun && snaprecord_begin_update(writer, 0, 7) == 1;
    view(recorder, 1, (const uint32_t[]){5, 6});
    snaprecord_end_update(writer);
    view(recorder, 1, (const uint32_t[]){7, 6});
    begun = begun && snaprecord_begin_update(writer, 1, 8) == 1;
    view(recorder, 1, (const uint32_t[]){7, 8});
    view(recorder, 2, (const uint32_t[]){7, 8});
    expect("the views beside an update that stays pending", has_views(recorder, 4, 3));
    return begun && is_written(recorder, name);
}

/* A view shows what a dropped update wrote. */
static bool is_dirty(snaprecord *recorder) {
    size_t length;
    bool begun = snaprecord_begin_update(snaprecord_log_of(recorder, 0), 0, 9) == 1;
    view(recorder, 1, (const uint32_t[]){9});
    snaprecord_drop_update(snaprecord_log_of(recorder, 0));
    char *text = snaprecord_text(recorder, &length);
    bool is_told = begun && text && !strcmp(text, "at,event,process,op,data\n1,begin,1,view,\n2,end,1,view,0:1:9\n");
    free(text);
    snaprecord_close(recorder);
    return is_told;
}

/* What there is while a call is open. */
static bool writes_so_far(snaprecord *recorder) {
    bool begun = snaprecord_begin_update(snaprecord_log_of(recorder, 0), 0, 7) == 1;
    view(recorder, 1, (const uint32_t[]){7});
    bool is_told = begun && has_so_far(recorder, "at,event,process,op,data\n0,begin,0,update,0:1:7\n1,begin,1,view,\n2,end,1,view,0:1:7\n");
    snaprecord_close(recorder);
    return is_told;
}

/* The values of the last view of one history are the first ones of the next, which may write older ones again. */
static bool goes_on(snaprecord *recorder) {
    size_t length;
    recorder->initials = (const uint32_t[]){7, 0};
    view(recorder, 0, (const uint32_t[]){7, 0});
    update(recorder, 0, 0, 0);
    view(recorder, 0, (const uint32_t[]){0, 0});
    char *text = snaprecord_text(recorder, &length);
    bool is_told = text && !strcmp(text, "at,event,process,op,data\n0,begin,0,view,\n1,end,0,view,\n2,begin,0,update,0:1:0\n"
                                         "3,end,0,update,\n4,begin,0,view,\n5,end,0,view,0:1:0\n");
    free(text);
    snaprecord_close(recorder);
    return is_told;
}

/* Without memory there is no recorder and no text; the fault says so, and nothing is held. */
static bool lacks_memory(snaprecord *recorder) {
    unsigned opened = 0, told = 0;
    size_t length;
    char *text = NULL;
    snaprecord_views views;
    for (scarce = 0; !snaprecord_open(recorder, 2, 1, 2); scarce = ++opened)
        if (recorder->fault != SNAPRECORD_MEMORY || strcmp(recorder->message, "out of memory") || held) return false;
    for (scarce = 0; !(text = snaprecord_text(recorder, &length)); scarce = ++told)
        if (recorder->fault != SNAPRECORD_MEMORY || strcmp(recorder->message, "out of memory")) return false;
    free(text);
    scarce = 0;
    if (snaprecord_count_views(recorder, &views) || recorder->fault != SNAPRECORD_MEMORY) return false;
    snaprecord_close(recorder);
    scarce = 1000000;
    return opened == 5 && told == 3 && !held; /* two logs of two parts each and their list; two tables and the text */
}

static jmp_buf aborted;

static void catch_abort(int signal) { longjmp(aborted, signal); }

/* Whether the process would end if it asks for a log that does not exist. */
static bool has_no_log(snaprecord *recorder, uint32_t thread) {
    signal(SIGABRT, catch_abort);
    if (setjmp(aborted)) return true;
    snaprecord_log_of(recorder, thread);
    return false;
}

/* How many pages this process was given so far, without a read from a disk. */
static long pages(void) {
    struct rusage usage;
    return getrusage(RUSAGE_SELF, &usage) ? 0 : usage.ru_minflt;
}

/* The logs take some 3,000 pages, and all of them are there before. */
static bool makes_no_pages(void) {
    static const uint32_t values[64];
    static snaprecord r;
    snaprecord_open(&r, 1, 64, 16000);
    long before = pages();
    for (uint32_t i = 0; i < 16000; i++) view(&r, 0, values);
    bool is_made = pages() - before < 300 && has_views(&r, 16000, 0);
    snaprecord_close(&r);
    return is_made;
}

/* What is recorded in a copy is in no text, so a copy refuses to record, and all threads stop. */
static void try_copies(void) {
    static snaprecord r, copied;
    snaprecord_open(&r, 2, 1, 4);
    snaprecord_log begins = *snaprecord_log_of(&r, 0);
    expect("a copy of a log is refused", !snaprecord_begin_update(&begins, 0, 1));
    expect("a copy of a log stops all threads", !snaprecord_begin_view(snaprecord_log_of(&r, 1)));
    expect("a copy of a log", fault_of(&r) == SNAPRECORD_COPIED);

    snaprecord_open(&r, 1, 1, 4);
    expect("an update", snaprecord_begin_update(snaprecord_log_of(&r, 0), 0, 1) == 1);
    snaprecord_log ends = *snaprecord_log_of(&r, 0);
    snaprecord_end_update(&ends);
    expect("an end by a copy of a log", fault_of(&r) == SNAPRECORD_COPIED);

    snaprecord_open(&r, 1, 1, 4);
    copied = r;
    expect("a log of a copied recorder", has_no_log(&copied, 0) && !has_no_log(&r, 0));
    snaprecord_close(&r);
    snaprecord_open(&r, 1, 1, 4);
    copied = r;
    expect("a text of a copied recorder", fault_of(&copied) == SNAPRECORD_COPIED);
}

int main(int count, char **words) {
    static snaprecord r;
    if (count < 3) return 2;
    snaprecord_open(&r, 2, 2, 6);
    expect("worked run", worked(&r, words[1]));
    snaprecord_open(&r, 3, 2, 6);
    expect("failed calls", failed_calls(&r, words[2]));
    snaprecord_open(&r, 2, 1, 2);
    expect("a dropped update that was seen", is_dirty(&r));
    snaprecord_open(&r, 1, 2, 4);
    expect("a history that goes on", goes_on(&r));
    expect("two threads and a component", snaprecord_open(&r, 2, 1, 2));
    expect("what there is so far", writes_so_far(&r));
    expect("no memory", lacks_memory(&r));

    expect("limits of threads", !snaprecord_open(&r, 0, 1, 1) && r.fault == SNAPRECORD_LIMITS && !snaprecord_open(&r, 65537, 1, 1));
    expect("limits of components", !snaprecord_open(&r, 1, 257, 1) && r.fault == SNAPRECORD_LIMITS);
    expect("limits of calls", !snaprecord_open(&r, 2, 1, SNAPRECORD_EVENTS / 4 + 1) && r.fault == SNAPRECORD_LIMITS);
    expect("no call", !snaprecord_open(&r, 1, 1, 0) && r.fault == SNAPRECORD_LIMITS);
    expect("a log of a recorder that is not open", has_no_log(&r, 0));
    snaprecord_open(&r, 2, 1, 2);
    expect("a log that there is not", has_no_log(&r, 2) && !has_no_log(&r, 1));
    snaprecord_close(&r);
    try_copies();
    expect("no page is made while calls are recorded", makes_no_pages());

    snaprecord_open(&r, 2, 1, 2);
    for (uint32_t value = 1; value <= 3; value++) update(&r, 0, 0, value);
    expect("a full log refuses", snaprecord_log_of(&r, 0)->length == 4 && !snaprecord_begin_update(snaprecord_log_of(&r, 0), 0, 4));
    expect("a full log stops all threads", !snaprecord_begin_view(snaprecord_log_of(&r, 1)));
    expect("a full log is a history", fault_of(&r) == SNAPRECORD_FINE);

    snaprecord_open(&r, 1, 1, 1);
    update(&r, 0, 0, 1);
    expect("full", !snaprecord_begin_update(snaprecord_log_of(&r, 0), 0, 2));
    snaprecord_end_update(snaprecord_log_of(&r, 0));
    expect("a call after a full log", fault_of(&r) == SNAPRECORD_AFTER_FULL);

    snaprecord_open(&r, 2, 1, 4);
    expect("begun", snaprecord_begin_update(snaprecord_log_of(&r, 0), 0, 1) == 1);
    expect("a nested call is refused", !snaprecord_begin_view(snaprecord_log_of(&r, 0)));
    expect("a misuse stops all threads", !snaprecord_begin_view(snaprecord_log_of(&r, 1)));
    expect("a nested call", fault_of(&r) == SNAPRECORD_NESTED);

    snaprecord_open(&r, 1, 1, 4);
    snaprecord_end_update(snaprecord_log_of(&r, 0));
    expect("an end without a begin", fault_of(&r) == SNAPRECORD_NOT_OPEN);

    snaprecord_open(&r, 1, 1, 4);
    expect("a view", snaprecord_begin_view(snaprecord_log_of(&r, 0)));
    snaprecord_end_update(snaprecord_log_of(&r, 0));
    expect("an end of another kind", fault_of(&r) == SNAPRECORD_NOT_OPEN);

    snaprecord_open(&r, 1, 1, 4);
    snaprecord_end_view_values(snaprecord_log_of(&r, 0), (const uint32_t[]){0});
    expect("an end of a view without a begin", fault_of(&r) == SNAPRECORD_NOT_OPEN);

    snaprecord_open(&r, 1, 1, 4);
    snaprecord_end_view(snaprecord_log_of(&r, 0), (const snaprecord_entry[]){{0, 0, 0}}, 1);
    expect("the same of one with numbers", fault_of(&r) == SNAPRECORD_NOT_OPEN);

    snaprecord_open(&r, 1, 1, 4);
    snaprecord_drop_view(snaprecord_log_of(&r, 0));
    expect("a view dropped without a begin", fault_of(&r) == SNAPRECORD_NOT_OPEN);

    snaprecord_open(&r, 1, 1, 4);
    expect("an update", snaprecord_begin_update(snaprecord_log_of(&r, 0), 0, 1) == 1);
    snaprecord_drop_view(snaprecord_log_of(&r, 0));
    expect("an update dropped as a view", fault_of(&r) == SNAPRECORD_NOT_OPEN);

    snaprecord_open(&r, 1, 1, 4);
    snaprecord_drop_update(snaprecord_log_of(&r, 0));
    expect("an update dropped without a begin", fault_of(&r) == SNAPRECORD_NOT_OPEN);

    snaprecord_open(&r, 1, 1, 4);
    expect("a view", snaprecord_begin_view(snaprecord_log_of(&r, 0)));
    snaprecord_drop_update(snaprecord_log_of(&r, 0));
    expect("a view dropped as an update", fault_of(&r) == SNAPRECORD_NOT_OPEN);

    snaprecord_open(&r, 1, 1, 1);
    for (uint32_t i = 0; i < 100; i++) {
        expect("a dropped update leaves its room", snaprecord_begin_update(snaprecord_log_of(&r, 0), 0, 1) == 1);
        snaprecord_drop_update(snaprecord_log_of(&r, 0));
    }
    expect("a dropped update leaves its entry", snaprecord_log_of(&r, 0)->entry_count == 0);
    snaprecord_close(&r);

    snaprecord_open(&r, 1, 2, 4);
    expect("a component that is too high is refused", !snaprecord_begin_update(snaprecord_log_of(&r, 0), 2, 1));
    expect("a component that is too high", fault_of(&r) == SNAPRECORD_COMPONENT);

    snaprecord_open(&r, 1, 2, 4);
    expect("a view", snaprecord_begin_view(snaprecord_log_of(&r, 0)));
    snaprecord_end_view(snaprecord_log_of(&r, 0), (const snaprecord_entry[]){{1, 1, 1}, {0, 1, 1}}, 2);
    expect("components that do not rise", fault_of(&r) == SNAPRECORD_COMPONENT);

    snaprecord_open(&r, 1, 2, 4);
    expect("a view", snaprecord_begin_view(snaprecord_log_of(&r, 0)));
    snaprecord_end_view(snaprecord_log_of(&r, 0), (const snaprecord_entry[]){{2, 1, 1}}, 1);
    expect("an entry that is too high", fault_of(&r) == SNAPRECORD_COMPONENT);

    snaprecord_open(&r, 2, 2, 4);
    update(&r, 0, 1, 5);
    update(&r, 1, 1, 6);
    expect("two writers", fault_of(&r) == SNAPRECORD_TWO_WRITERS);

    for (int views = 0; views < 2; views++) {
        snaprecord_open(&r, 1, 2, 4);
        update(&r, 0, 1, 5);
        update(&r, 0, 1, 5);
        if (views) view(&r, 0, (const uint32_t[]){0, 5});
        expect("one value twice", fault_of(&r) == (views ? SNAPRECORD_SAME_VALUE : SNAPRECORD_FINE));
    }

    snaprecord_open(&r, 1, 1, 4);
    r.initial = 5;
    update(&r, 0, 0, 5);
    view(&r, 0, (const uint32_t[]){5});
    expect("the initial value", fault_of(&r) == SNAPRECORD_SAME_VALUE);

    for (uint32_t component = 0; component < 2; component++) {
        snaprecord_open(&r, 1, 2, 4);
        r.initials = (const uint32_t[]){4, 5};
        update(&r, 0, component, 5);
        view(&r, 0, (const uint32_t[]){5, 5});
        expect("the initial value of a component", fault_of(&r) == (component ? SNAPRECORD_SAME_VALUE : SNAPRECORD_FINE));
    }

    printf("%d passed, %d failed\n", passed, failed);
    return failed != 0;
}
