/* Judges a recorded history: by the library of snapjudge if it is there, and else by the program.
 * One file, gnu11 and POSIX, no dependencies; snapdrive.h uses it. Nothing is linked: the library is opened while the program runs.
 *
 *     snapverdict_judge judge;
 *     if (!snapverdict_open(&judge, NULL, 65536)) die(judge.message);  // a history may have this many events
 *     int status = snapverdict_of(&judge, text, length, ".");      // 0 atomic, 1 only regular, 2 not regular, -1 no verdict
 *
 * SPDX-License-Identifier: 0BSD
 * Copyright (C) 2026 by the authors of snapjudge
 * Permission to use, copy, modify, and/or distribute this software for any purpose with or without fee is hereby granted.
 * THE SOFTWARE IS PROVIDED "AS IS" AND THE AUTHOR DISCLAIMS ALL WARRANTIES WITH REGARD TO THIS SOFTWARE INCLUDING ALL IMPLIED
 * WARRANTIES OF MERCHANTABILITY AND FITNESS. IN NO EVENT SHALL THE AUTHOR BE LIABLE FOR ANY SPECIAL, DIRECT, INDIRECT, OR
 * CONSEQUENTIAL DAMAGES OR ANY DAMAGES WHATSOEVER RESULTING FROM LOSS OF USE, DATA OR PROFITS, WHETHER IN AN ACTION OF
 * CONTRACT, NEGLIGENCE OR OTHER TORTIOUS ACTION, ARISING OUT OF OR IN CONNECTION WITH THE USE OR PERFORMANCE OF THIS SOFTWARE. */
#ifndef SNAPVERDICT_H
#define SNAPVERDICT_H
#include <dlfcn.h>
#include <errno.h>
#include <fcntl.h>
#include <inttypes.h>
#include <limits.h>
#include <spawn.h>
#include <stdarg.h>
#include <stdbool.h>
#include <stdint.h>
#include <stdio.h>
#include <stdlib.h>
#include <string.h>
#include <sys/wait.h>
#include <unistd.h>

typedef struct {
    char program[PATH_MAX]; /* empty if there is none */
    uint32_t (*check)(const uint8_t *, size_t, uint32_t, uint8_t *, size_t, size_t *); /* of the library, or NULL */
    uint32_t events; /* how many a history may have */
    const char *fault; /* why there is no judge or no verdict: no judge, no verdict or files; and a sentence */
    char message[600];
} snapverdict_judge;

__attribute__((format(printf, 3, 4))) static inline bool snapverdict_failed(snapverdict_judge *judge, const char *fault,
                                                                            const char *message, ...) {
    va_list rest;
    va_start(rest, message);
    judge->fault = fault;
    vsnprintf(judge->message, sizeof judge->message, message, rest);
    va_end(rest);
    return false;
}

/* Finds a program on the PATH, as a shell does. */
static inline void snapverdict_find(const char *named, char *place) {
    const char *at = strchr(named, '/') ? "" : getenv("PATH");
    *place = 0;
    if (strchr(named, '/') && (access(named, X_OK) || !realpath(named, place))) *place = 0;
    while (at && *at && !*place) {
        char candidate[PATH_MAX];
        size_t length = strcspn(at, ":");
        snprintf(candidate, sizeof candidate, "%.*s/%s", (int)length, at, named);
        if (access(candidate, X_OK) || !realpath(candidate, place)) *place = 0;
        at += length + (at[length] == ':');
    }
}

/* Whether the program says its version. A program of another kind may end with 0 whatever it is given, and that is not a verdict. */
static inline bool snapverdict_is_judge(const snapverdict_judge *judge) {
    extern char **environ;
    char *const words[] = {"snapjudge", "--version", NULL};
    char said[64] = "";
    posix_spawn_file_actions_t files;
    pid_t process;
    int ends[2], status = 1;
    ssize_t taken = 0;
    if (pipe(ends)) return false;
    posix_spawn_file_actions_init(&files);
    posix_spawn_file_actions_addclose(&files, ends[0]); /* first: if an input or output is closed, it has that number */
    posix_spawn_file_actions_addopen(&files, STDIN_FILENO, "/dev/null", O_RDONLY, 0);
    posix_spawn_file_actions_adddup2(&files, ends[1], STDOUT_FILENO);
    bool is_started = !posix_spawn(&process, judge->program, &files, NULL, words, environ);
    posix_spawn_file_actions_destroy(&files);
    close(ends[1]);
    for (size_t length = 0; length + 1 < sizeof said && (taken = read(ends[0], said + length, sizeof said - 1 - length)) > 0;)
        length += (size_t)taken;
    close(ends[0]);
    bool has_ended = is_started && waitpid(process, &status, 0) == process && WIFEXITED(status) && !WEXITSTATUS(status);
    return has_ended && !strncmp(said, "snapjudge ", 10) && said[10] >= '0' && said[10] <= '9';
}

static inline bool snapverdict_load(snapverdict_judge *judge, const char *place) {
    uint32_t (*version)(void) = NULL;
    void *library = dlopen(place, RTLD_NOW), *found = library ? dlsym(library, "snapjudge_version") : NULL;
    memcpy(&version, &found, sizeof found);
    if (!version || version() != 1) return false;
    found = dlsym(library, "snapjudge_check_limit");
    memcpy(&judge->check, &found, sizeof found);
    return judge->check;
}

/* The program is the one that is named, else that of SNAPJUDGE_PROGRAM, else snapjudge. SNAPJUDGE_LIBRARY names the library; it is
 * empty for none. Else the library is sought beside the program. */
static inline bool snapverdict_open(snapverdict_judge *judge, const char *program, uint32_t events) {
    const char *library = getenv("SNAPJUDGE_LIBRARY"), *named = program ? program : getenv("SNAPJUDGE_PROGRAM");
    char folder[PATH_MAX], place[PATH_MAX + 60];
    if (!named || !*named) named = "snapjudge";
    memset(judge, 0, sizeof *judge);
    judge->events = events;
    snapverdict_find(named, judge->program);
    if (*judge->program && !snapverdict_is_judge(judge))
        return snapverdict_failed(judge, "no judge", "%s is not snapjudge: it tells no version of it", judge->program);
    snprintf(folder, sizeof folder, "%s", *judge->program ? judge->program : "./");
    *strrchr(folder, '/') = 0;
    if (library && *library && !snapverdict_load(judge, library))
        return snapverdict_failed(judge, "no judge", "%s is no library of the judge", library);
    static const char *const places[] = {"../lib", "ffi/build"};
    for (size_t i = 0; !library && !judge->check && i < 2; i++) {
        snprintf(place, sizeof place, "%s/%s/libsnapjudge.so", folder, places[i]);
        snapverdict_load(judge, place);
    }
    if (!library && !judge->check) snapverdict_load(judge, "libsnapjudge.so");
    if (judge->check || *judge->program) return true;
    return snapverdict_failed(judge, "no judge", "there is no program %s: install snapjudge, or name it by --program", named);
}

/* Runs a command of the program from a file to a file; its status, or 4. */
static inline int snapverdict_call(const snapverdict_judge *judge, const char *command, const char *from, const char *to) {
    extern char **environ;
    char name[16], events[24];
    char *const words[] = {"snapjudge", name, events, strcmp(command, "check") ? NULL : "--quiet", NULL};
    snprintf(name, sizeof name, "%s", command);
    snprintf(events, sizeof events, "--events=%" PRIu32, judge->events);
    posix_spawn_file_actions_t files;
    pid_t process;
    int status = 0;
    posix_spawn_file_actions_init(&files);
    posix_spawn_file_actions_addopen(&files, STDIN_FILENO, from, O_RDONLY, 0);
    posix_spawn_file_actions_addopen(&files, STDOUT_FILENO, to, O_WRONLY | O_CREAT | O_TRUNC, 0666);
    bool is_started = !posix_spawn(&process, judge->program, &files, NULL, words, environ);
    posix_spawn_file_actions_destroy(&files);
    return is_started && waitpid(process, &status, 0) == process && WIFEXITED(status) ? WEXITSTATUS(status) : 4;
}

static inline bool snapverdict_write(snapverdict_judge *judge, const char *name, const char *text, size_t length) {
    FILE *file = fopen(name, "wb");
    bool is_written = file && fwrite(text, 1, length, file) == length;
    if ((!file || !fclose(file)) && is_written) return true;
    return snapverdict_failed(judge, "files", "%s can't be written: %s", name, strerror(errno));
}

/* The name of a file that this judge of this process may write into a folder. */
static inline void snapverdict_scratch(const snapverdict_judge *judge, char *name, const char *out) {
    snprintf(name, PATH_MAX + 60, "%s/run-%ld-%" PRIxPTR ".csv", out, (long)getpid(), (uintptr_t)judge);
}

/* Whether files can be written into a folder; it is tried before the first run, so that none is lost. */
static inline bool snapverdict_can_keep(snapverdict_judge *judge, const char *out) {
    char name[PATH_MAX + 60];
    snapverdict_scratch(judge, name, out);
    return snapverdict_write(judge, name, "", 0) && !remove(name);
}

/* 0 for atomic, 1 for only regular, 2 for not regular; or -1, and `fault` says why. A file of the folder `out` holds the text meanwhile. */
static inline int snapverdict_of(snapverdict_judge *judge, const char *text, size_t length, const char *out) {
    uint32_t status;
    if (judge->check) {
        size_t room = 2 * length + 256, report_length = 0;
        uint8_t *report = calloc(room, 1);
        status = report ? judge->check((const uint8_t *)text, length, judge->events, report, room, &report_length) : 4;
        free(report);
    } else {
        char name[PATH_MAX + 60];
        snapverdict_scratch(judge, name, out);
        if (!snapverdict_write(judge, name, text, length)) return -1;
        status = (uint32_t)snapverdict_call(judge, "check", name, "/dev/null");
        remove(name);
    }
    if (status < 3) return (int)status;
    snapverdict_failed(judge, "no verdict", "the judge ends with status %" PRIu32, status);
    return -1;
}

/* Whether the judge recognizes a history that is not regular: its view misses an update. A judge whose status is lost, as by a
 * script with a pipe, would call every run atomic. It is asked before the first run. */
static inline bool snapverdict_tells(snapverdict_judge *judge, const char *out) {
    static const char stale[] = "event,process,op,data\nbegin,0,update,0:1:7\nend,0,update,\nbegin,1,view,\nend,1,view,\n";
    int status = snapverdict_of(judge, stale, sizeof stale - 1, out);
    if (status == 2 || status == -1) return status == 2;
    return snapverdict_failed(judge, "no judge", "of a history that is not regular the judge tells status %d, and not 2", status);
}

/* Writes a history, its witness and its explanation. */
static inline bool snapverdict_keep(snapverdict_judge *judge, const char *text, size_t length, const char *front) {
    char caught[PATH_MAX + 40], witness[PATH_MAX + 40], explained[PATH_MAX + 40];
    snprintf(caught, sizeof caught, "%s-caught.csv", front);
    snprintf(witness, sizeof witness, "%s-witness.csv", front);
    snprintf(explained, sizeof explained, "%s-explained.txt", front);
    if (!snapverdict_write(judge, caught, text, length)) return false;
    remove(witness); /* of an earlier run */
    remove(explained);
    if (!*judge->program) return true;
    bool is_kept = snapverdict_call(judge, "shrink", caught, witness) < 3 && snapverdict_call(judge, "explain", caught, explained) < 3;
    return is_kept || snapverdict_failed(judge, "files", "%s or %s can't be written", witness, explained);
}
#endif
