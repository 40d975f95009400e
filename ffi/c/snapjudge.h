/* The judge of recorded histories of a single-writer board, for C and C++.
 *
 * What each call answers and writes is proved: the contract is that of the export, in crates/snap_c/src/lib.rt. This header is
 * not proved.
 *
 * Build and link: ffi/build.sh, then  cc harness.c -Iffi/c ffi/build/libsnapjudge.a  (or -Lffi/build -lsnapjudge for the
 * shared library). Of the C library it needs malloc, realloc, free, memcpy, memmove and memset. x86-64 of level v2, Linux. */
#ifndef SNAPJUDGE_H
#define SNAPJUDGE_H

#include <stddef.h>
#include <stdint.h>
#include <stdlib.h>
#include <string.h>

#ifdef __cplusplus
extern "C" {
#endif

/* The version that this header is for: snapjudge_version() of a library that fits. */
#define SNAPJUDGE_VERSION 1

enum {
    SNAPJUDGE_ATOMIC = 0,    /* the history is atomic */
    SNAPJUDGE_REGULAR = 1,   /* it is regular, and not atomic */
    SNAPJUDGE_IRREGULAR = 2, /* it is not regular */
    SNAPJUDGE_REFUSED = 3,   /* the text is not a history */
    SNAPJUDGE_NO_MEMORY = 4, /* memory ran out: nothing was written, *length is 0 */
    SNAPJUDGE_NO_ROOM = 5,   /* the answer does not fit: nothing was written, *length is how many bytes it has */
    SNAPJUDGE_NO_LIMIT = 6,  /* events names no limit: nothing was written, *length is 0 */
    SNAPJUDGE_NO_OPTION = 7  /* an option is out of its range, or names a call that the history lacks: nothing was written, *length is 0 */
};

/* How many events a history may have by default. */
enum { SNAPJUDGE_EVENTS = 65536 };

/* Added to the events of a call, it lets a component have many writers, as `--writers many` does. */
#define SNAPJUDGE_MANY_WRITERS 2147483648u

/* The forms of an explanation: 0 for the sentences alone, one of these, or both together by |. */
enum {
    SNAPJUDGE_DRAWN = 1, /* a picture in characters is below */
    SNAPJUDGE_WHOLE = 2  /* all entries of the views of a fault are listed */
};

/* How many faults of a kind an explanation may have. */
enum { SNAPJUDGE_FAULTS = 1000 };

/* The forms of a witness. */
enum {
    SNAPJUDGE_WITNESS = 0,       /* the witness, which is a history */
    SNAPJUDGE_WITNESS_DRAWN = 1, /* its picture in characters */
    SNAPJUDGE_WITNESS_MAP = 2    /* a table of its calls and of those of the history that they are */
};

/* The forms of a picture. A page is light or dark as the reader's system is, unless the form says which. */
enum {
    SNAPJUDGE_PAGE = 0,       /* a page for a browser */
    SNAPJUDGE_SVG = 1,        /* SVG alone, which is light */
    SNAPJUDGE_LINES = 2,      /* characters */
    SNAPJUDGE_LIGHT_PAGE = 3, /* a page with dark ink on a light ground */
    SNAPJUDGE_DARK_PAGE = 4,  /* a page with light ink on a dark ground */
    SNAPJUDGE_DARK_SVG = 5    /* SVG alone, with light ink on a dark ground */
};

/* Judges the text_length bytes at text. If the answer is from 0 to 3, the report is at the front of the room bytes at
 * report, and *report_length is its length. No 0 byte follows it, and the rest of the room is unchanged. The report and
 * the status are those of `snapjudge check`.
 *
 * What the caller owes in each call below, and nothing checks:
 *   - no pointer is null, even if text_length, name_length or room is 0;
 *   - the places of a call lie apart from one another, but text and name may overlap;
 *   - all room bytes were written once before (calloc or memset does);
 *   - during the call nobody writes text or name, and nobody reads or writes the room and the length;
 *   - malloc, realloc and free are those of one allocator, as of the C library;
 *   - the call is not made from a signal handler, nor in the forked child of a process with threads;
 *   - the calling thread has 128 KiB of stack.
 * The library keeps nothing from call to call: any number of threads may call at once. */
uint32_t snapjudge_check(const uint8_t *text, size_t text_length, uint8_t *report, size_t room, size_t *report_length);

/* Judges as snapjudge_check does, but a history may have this many events, from 1 to 1,048,576, in place of 65,536. Its text may
 * have 1,024 bytes for each of them. If SNAPJUDGE_MANY_WRITERS is added to events, a component may have many writers. The answer is
 * SNAPJUDGE_NO_LIMIT if events, without SNAPJUDGE_MANY_WRITERS, is not in that range. */
uint32_t snapjudge_check_limit(const uint8_t *text, size_t text_length, uint32_t events, uint8_t *report, size_t room, size_t *report_length);

/* Each of the next six answers as snapjudge_check_limit does, and writes what a command of the program writes in place of the
 * report. The status is the same too. */

/* `snapjudge explain`: why the history is not atomic, an order if it is, or why the text is not a history. The form adds `--draw` and
 * `--all`: 0 for neither, 1 for `--draw`, 2 for `--all`, 3 for both. The answer is SNAPJUDGE_NO_OPTION if form is more than 3. */
uint32_t snapjudge_explain(const uint8_t *text, size_t text_length, uint32_t events, uint32_t form, uint8_t *out, size_t room, size_t *length);

/* `snapjudge explain --faults N`, with faults for N: of each kind the first fault of each of the first N views that have one. If whole is 1,
 * all entries of the views of a fault are listed, as with `--all`. The answer is SNAPJUDGE_NO_OPTION if whole is neither 0 nor 1, or if
 * faults is not from 1 to SNAPJUDGE_FAULTS. */
uint32_t snapjudge_explain_faults(const uint8_t *text, size_t text_length, uint32_t events, uint32_t whole, uint32_t faults, uint8_t *out,
                                  size_t room, size_t *length);

/* `snapjudge check --format json` of a file with this name: an object on a line. In the name U+FFFD stands for what is not UTF-8. */
uint32_t snapjudge_json(const uint8_t *text, size_t text_length, uint32_t events, const uint8_t *name, size_t name_length, uint8_t *out,
                        size_t room, size_t *length);

/* `snapjudge shrink`, `snapjudge shrink --draw` or `snapjudge shrink --map`, by the form: a witness of the first fault, its picture, or which
 * calls of the history it keeps. The answer is SNAPJUDGE_NO_OPTION if form is not one of the forms of a witness above. */
uint32_t snapjudge_shrink(const uint8_t *text, size_t text_length, uint32_t events, uint32_t form, uint8_t *out, size_t room, size_t *length);

/* `snapjudge draw`, `snapjudge draw --svg` or `snapjudge draw --text`, by the form, or with `--light` or `--dark`. The answer is
 * SNAPJUDGE_NO_OPTION if form is not one of the forms of a picture above. */
uint32_t snapjudge_draw(const uint8_t *text, size_t text_length, uint32_t events, uint32_t form, uint8_t *out, size_t room, size_t *length);

/* A part of that picture, as by `--calls`, `--from` and `--around`: of this number of calls, from a call on, or around it. Calls are counted
 * from 1, and 0 asks for nothing. The answer is SNAPJUDGE_NO_OPTION too if both calls are named, if the history lacks the call, or if calls
 * is more than 2,000, or with SNAPJUDGE_LINES more than 12. */
uint32_t snapjudge_draw_calls(const uint8_t *text, size_t text_length, uint32_t events, uint32_t form, uint32_t calls, uint32_t from,
                              uint32_t around, uint8_t *out, size_t room, size_t *length);

/* `snapjudge stats`, or `snapjudge stats --format json` where object is 1: what the history has shown. It judges nothing, so the answer is
 * 0 for each history. It is SNAPJUDGE_NO_OPTION where object is neither 0 nor 1. */
uint32_t snapjudge_stats(const uint8_t *text, size_t text_length, uint32_t events, uint32_t object, uint8_t *out, size_t room, size_t *length);

/* The version of the library. */
uint32_t snapjudge_version(void);

/* What is asked of a text: by which call, with which option, the JSON object with which name, and an explanation by how many faults. It
 * serves the calls below. */
enum snapjudge_command {
    SNAPJUDGE_CHECK,
    SNAPJUDGE_EXPLAIN,
    SNAPJUDGE_JSON,
    SNAPJUDGE_SHRINK,
    SNAPJUDGE_DRAW,
    SNAPJUDGE_STATS,
    SNAPJUDGE_EXPLAIN_FAULTS
};

/* Which calls are drawn, as snapjudge_draw_calls has it. */
struct snapjudge_part {
    uint32_t calls, from, around;
};

/* Without a part, a picture is the usual one. */
struct snapjudge_question {
    enum snapjudge_command command;
    uint32_t events, option;
    const char *name;
    const struct snapjudge_part *part;
    uint32_t faults;
};

static inline uint32_t snapjudge_ask(const struct snapjudge_question *asked, const uint8_t *text, size_t text_length, uint8_t *out, size_t room,
                                     size_t *length) {
    const uint32_t events = asked->events, option = asked->option;
    switch (asked->command) {
    case SNAPJUDGE_EXPLAIN: return snapjudge_explain(text, text_length, events, option, out, room, length);
    case SNAPJUDGE_EXPLAIN_FAULTS: return snapjudge_explain_faults(text, text_length, events, option, asked->faults, out, room, length);
    case SNAPJUDGE_JSON:
        return snapjudge_json(text, text_length, events, (const uint8_t *)asked->name, strlen(asked->name), out, room, length);
    case SNAPJUDGE_SHRINK: return snapjudge_shrink(text, text_length, events, option, out, room, length);
    case SNAPJUDGE_DRAW:
        if (asked->part == NULL) return snapjudge_draw(text, text_length, events, option, out, room, length);
        return snapjudge_draw_calls(text, text_length, events, option, asked->part->calls, asked->part->from, asked->part->around, out, room, length);
    case SNAPJUDGE_STATS: return snapjudge_stats(text, text_length, events, option, out, room, length);
    default: return snapjudge_check_limit(text, text_length, events, out, room, length);
    }
}

static inline uint32_t snapjudge_ask_new(const struct snapjudge_question *asked, const char *text, size_t text_length, char **out,
                                         size_t *length) {
    size_t room = text_length + text_length / 4 + (asked->command == SNAPJUDGE_CHECK ? 256 : 16384);
    *out = NULL;
    *length = 0;
    for (;;) {
        size_t needed = 0;
        uint32_t answer;
        uint8_t *bytes = (uint8_t *)calloc(room + 1, 1);
        if (bytes == NULL) return SNAPJUDGE_NO_MEMORY;
        answer = snapjudge_ask(asked, (const uint8_t *)text, text_length, bytes, room, &needed);
        if (answer < SNAPJUDGE_NO_MEMORY) {
            *out = (char *)bytes;
            *length = needed;
            return answer;
        }
        free(bytes);
        if (answer != SNAPJUDGE_NO_ROOM) return answer;
        room = needed;
    }
}

/* The calls below do as those above, with room from calloc: *out is a text that ends with a 0 byte, and the caller frees it. It is null
 * if the answer is above SNAPJUDGE_REFUSED. SNAPJUDGE_NO_ROOM is never answered. */

static inline uint32_t snapjudge_check_new(const char *text, size_t text_length, char **report, size_t *report_length) {
    const struct snapjudge_question asked = {SNAPJUDGE_CHECK, SNAPJUDGE_EVENTS, 0, "", NULL, 0};
    return snapjudge_ask_new(&asked, text, text_length, report, report_length);
}

static inline uint32_t snapjudge_explain_new(const char *text, size_t text_length, uint32_t events, uint32_t form, char **out, size_t *length) {
    const struct snapjudge_question asked = {SNAPJUDGE_EXPLAIN, events, form, "", NULL, 0};
    return snapjudge_ask_new(&asked, text, text_length, out, length);
}

static inline uint32_t snapjudge_explain_faults_new(const char *text, size_t text_length, uint32_t events, uint32_t whole, uint32_t faults,
                                                    char **out, size_t *length) {
    const struct snapjudge_question asked = {SNAPJUDGE_EXPLAIN_FAULTS, events, whole, "", NULL, faults};
    return snapjudge_ask_new(&asked, text, text_length, out, length);
}

static inline uint32_t snapjudge_json_new(const char *text, size_t text_length, uint32_t events, const char *name, char **out, size_t *length) {
    const struct snapjudge_question asked = {SNAPJUDGE_JSON, events, 0, name, NULL, 0};
    return snapjudge_ask_new(&asked, text, text_length, out, length);
}

static inline uint32_t snapjudge_shrink_new(const char *text, size_t text_length, uint32_t events, uint32_t form, char **out, size_t *length) {
    const struct snapjudge_question asked = {SNAPJUDGE_SHRINK, events, form, "", NULL, 0};
    return snapjudge_ask_new(&asked, text, text_length, out, length);
}

static inline uint32_t snapjudge_draw_new(const char *text, size_t text_length, uint32_t events, uint32_t form, char **out, size_t *length) {
    const struct snapjudge_question asked = {SNAPJUDGE_DRAW, events, form, "", NULL, 0};
    return snapjudge_ask_new(&asked, text, text_length, out, length);
}

static inline uint32_t snapjudge_draw_calls_new(const char *text, size_t text_length, uint32_t events, uint32_t form, uint32_t calls, uint32_t from,
                                                uint32_t around, char **out, size_t *length) {
    const struct snapjudge_part part = {calls, from, around};
    const struct snapjudge_question asked = {SNAPJUDGE_DRAW, events, form, "", &part, 0};
    return snapjudge_ask_new(&asked, text, text_length, out, length);
}

static inline uint32_t snapjudge_stats_new(const char *text, size_t text_length, uint32_t events, uint32_t object, char **out, size_t *length) {
    const struct snapjudge_question asked = {SNAPJUDGE_STATS, events, object, "", NULL, 0};
    return snapjudge_ask_new(&asked, text, text_length, out, length);
}

#ifdef __cplusplus
}
#endif
#endif
