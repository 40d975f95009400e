/* Histories a second, one thread: through the library, and by starting the program once for each (posix_spawn, two pipes).
 * usage: library HISTORY PROGRAM SECONDS */
#define _GNU_SOURCE
#include "snapjudge.h"
#include <fcntl.h>
#include <spawn.h>
#include <stdio.h>
#include <sys/wait.h>
#include <time.h>
#include <unistd.h>

extern char **environ;
static const char *program;
static char *text;
static size_t length, room;
static uint8_t *report;

static double now(void) {
    struct timespec t;
    clock_gettime(CLOCK_MONOTONIC, &t);
    return t.tv_sec + t.tv_nsec * 1e-9;
}

static int by_library(void) {
    size_t n;
    return snapjudge_check((const uint8_t *)text, length, report, room, &n) <= SNAPJUDGE_IRREGULAR;
}

static int by_program(void) {
    char *words[] = {(char *)program, "check", "--workers", "1", NULL};
    posix_spawn_file_actions_t actions;
    int in[2], out[2], status, is_started;
    pid_t child;
    if (pipe2(in, O_CLOEXEC) || pipe2(out, O_CLOEXEC)) return 0;
    posix_spawn_file_actions_init(&actions);
    posix_spawn_file_actions_adddup2(&actions, in[0], 0);
    posix_spawn_file_actions_adddup2(&actions, out[1], 1);
    is_started = posix_spawn(&child, program, &actions, NULL, words, environ) == 0;
    posix_spawn_file_actions_destroy(&actions);
    close(in[0]);
    close(out[1]);
    if (!is_started || write(in[1], text, length) != (ssize_t)length) return 0;
    close(in[1]);
    while (read(out[0], report, room) > 0) {}
    close(out[0]);
    waitpid(child, &status, 0);
    return WIFEXITED(status) && WEXITSTATUS(status) <= SNAPJUDGE_IRREGULAR;
}

/* How many judgements a second. */
static double rate(int (*judge)(void), double seconds) {
    double begun = now(), took;
    long done = 0;
    do {
        if (!judge()) exit(3);
        done++;
        took = now() - begun;
    } while (took < seconds);
    return done / took;
}

int main(int count, char **words) {
    FILE *file = count == 4 ? fopen(words[1], "rb") : NULL;
    double seconds;
    if (file == NULL) return 2;
    program = words[2];
    seconds = atof(words[3]);
    text = calloc(1, 1 << 20);
    length = fread(text, 1, 1 << 20, file);
    room = 2 * length + 512;
    report = calloc(1, room);
    printf("%.0f %.0f\n", rate(by_library, seconds), rate(by_program, seconds));
    return 0;
}
