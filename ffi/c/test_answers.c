/* Asks each question about each history NAME.csv that is named, in 8 threads of 128 KiB of stack at once. It compares with what the
 * program answered: FOLDER/NAME.csv.QUESTION has its exit status, as one digit, and what it wrote. C or C++.
 * usage: test_answers FOLDER NAME.csv .. */
#include "test_questions.h"
#include <pthread.h>
#include <stdio.h>

enum { THREADS = 8, ROUNDS = 10, UNTOUCHED = 0xEE, MOST = 1 << 20 };

struct example {
    const char *name;
    char *text, *wanted[QUESTIONS];
    size_t length, wanted_length[QUESTIONS];
};

static struct example examples[64];
static int count;

static char *read_file(const char *path, size_t *length) {
    FILE *file = fopen(path, "rb");
    char *bytes = (char *)calloc(1, MOST);
    if (file == NULL || bytes == NULL) {
        perror(path);
        exit(2);
    }
    *length = fread(bytes, 1, MOST - 1, file);
    fclose(file);
    return bytes;
}

static int is_untouched(const uint8_t *from, const uint8_t *to) {
    for (; from < to; from++)
        if (*from != UNTOUCHED) return 0;
    return 1;
}

/* Whether a call with this much room answers as the program did; past the room nothing is written. */
static int fits(const struct snapjudge_question *asked, const struct example *e, int q, size_t room) {
    const size_t needed = e->wanted_length[q] - 1, all = needed + 64;
    const int is_enough = room >= needed;
    uint8_t *bytes = (uint8_t *)malloc(all);
    size_t length = 77;
    uint32_t answer;
    int is_right;
    memset(bytes, UNTOUCHED, all);
    answer = snapjudge_ask(asked, (const uint8_t *)e->text, e->length, bytes, room, &length);
    is_right = length == needed && answer == (is_enough ? (uint32_t)(e->wanted[q][0] - '0') : (uint32_t)SNAPJUDGE_NO_ROOM) &&
               (!is_enough || memcmp(bytes, e->wanted[q] + 1, needed) == 0) && is_untouched(bytes + (is_enough ? needed : 0), bytes + all);
    free(bytes);
    return is_right;
}

/* Whether the call that takes its own room answers as the program did. */
static int is_answered(const struct snapjudge_question *asked, const struct example *e, int q) {
    char *out;
    size_t length;
    const uint32_t answer = snapjudge_ask_new(asked, e->text, e->length, &out, &length);
    const int is_right = out != NULL && answer == (uint32_t)(e->wanted[q][0] - '0') && length + 1 == e->wanted_length[q] &&
                         memcmp(out, e->wanted[q] + 1, length + 1) == 0;
    free(out);
    return is_right;
}

/* Whether a limit or an option that there is not has its answer, and nothing is written. */
static int is_refused(struct snapjudge_question asked, const struct example *e, uint32_t events, uint32_t option, uint32_t wanted) {
    uint8_t bytes[64];
    size_t length = 77;
    memset(bytes, UNTOUCHED, sizeof bytes);
    asked.events = events;
    asked.option = option;
    return snapjudge_ask(&asked, (const uint8_t *)e->text, e->length, bytes, sizeof bytes, &length) == wanted && length == 0 &&
           is_untouched(bytes, bytes + sizeof bytes);
}

/* The greatest option of a command. */
static uint32_t most_of(enum snapjudge_command command) {
    switch (command) {
    case SNAPJUDGE_EXPLAIN: return SNAPJUDGE_WHOLE | SNAPJUDGE_DRAWN;
    case SNAPJUDGE_DRAW: return SNAPJUDGE_DARK_SVG;
    case SNAPJUDGE_SHRINK: return SNAPJUDGE_WITNESS_MAP;
    default: return 1;
    }
}

/* Whether numbers of faults that there are not have their answer. */
static int is_bounded(struct snapjudge_question asked, const struct example *e) {
    const uint32_t beyond[] = {0, SNAPJUDGE_FAULTS + 1, UINT32_MAX};
    size_t i;
    for (i = 0; i < sizeof beyond / sizeof *beyond; i++) {
        asked.faults = beyond[i];
        if (!is_refused(asked, e, SNAPJUDGE_EVENTS, asked.option, SNAPJUDGE_NO_OPTION)) return 0;
    }
    return 1;
}

static int is_right(const struct example *e, int q) {
    struct snapjudge_question asked = ASKED[q];
    const size_t needed = e->wanted_length[q] - 1;
    const int has_option = asked.command != SNAPJUDGE_CHECK && asked.command != SNAPJUDGE_JSON;
    const uint32_t most = most_of(asked.command);
    asked.name = e->name;
    return is_answered(&asked, e, q) && fits(&asked, e, q, needed + 64) && fits(&asked, e, q, needed) && fits(&asked, e, q, needed - 1) &&
           fits(&asked, e, q, 0) && is_refused(asked, e, 0, asked.option, SNAPJUDGE_NO_LIMIT) &&
           is_refused(asked, e, 1048577, asked.option, SNAPJUDGE_NO_LIMIT) &&
           is_refused(asked, e, SNAPJUDGE_MANY_WRITERS, asked.option, SNAPJUDGE_NO_LIMIT) &&
           is_refused(asked, e, SNAPJUDGE_MANY_WRITERS + 1048577, asked.option, SNAPJUDGE_NO_LIMIT) &&
           (!has_option || (is_refused(asked, e, SNAPJUDGE_EVENTS, most + 1, SNAPJUDGE_NO_OPTION) &&
                            is_refused(asked, e, SNAPJUDGE_EVENTS, UINT32_MAX, SNAPJUDGE_NO_OPTION))) &&
           (asked.command != SNAPJUDGE_EXPLAIN_FAULTS || is_bounded(asked, e));
}

static void *ask_all(void *failures) {
    int round, i, q;
    for (round = 0; round < ROUNDS; round++) {
        for (i = 0; i < count; i++) {
            for (q = 0; q < QUESTIONS; q++) {
                if (is_right(&examples[i], q)) continue;
                fprintf(stderr, "%s: %s is not as the program answers\n", examples[i].name, NAMES[q]);
                ++*(int *)failures;
            }
        }
    }
    return NULL;
}

/* Reads an example, and what the program answered. */
static void take(const char *folder, const char *name) {
    struct example *e = &examples[count++];
    const char *slash = strrchr(name, '/');
    char path[1024];
    int q;
    e->name = name;
    e->text = read_file(name, &e->length);
    for (q = 0; q < QUESTIONS; q++) {
        snprintf(path, sizeof path, "%s/%s.%s", folder, slash == NULL ? name : slash + 1, NAMES[q]);
        e->wanted[q] = read_file(path, &e->wanted_length[q]);
        if (e->wanted_length[q] < 2) exit(2);
    }
}

int main(int argc, char **argv) {
    pthread_t threads[THREADS];
    pthread_attr_t small;
    int failures[THREADS] = {0}, all = 0, i;
    for (i = 2; i < argc && count < 64; i++) take(argv[1], argv[i]);
    if (snapjudge_version() != SNAPJUDGE_VERSION || count == 0) return 2;
    pthread_attr_init(&small);
    pthread_attr_setstacksize(&small, 128 * 1024);
    for (i = 0; i < THREADS; i++)
        if (pthread_create(&threads[i], &small, ask_all, &failures[i]) != 0) return 2;
    for (i = 0; i < THREADS; i++) {
        pthread_join(threads[i], NULL);
        all += failures[i];
    }
    printf("%d examples, %d questions, %d threads, %d rounds: %d failures\n", count, QUESTIONS, THREADS, ROUNDS, all);
    return all != 0;
}
