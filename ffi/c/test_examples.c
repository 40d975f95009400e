/* Judges each history NAME.csv that is named, in 8 threads of 128 KiB of stack at once, and compares with NAME.report. Each call is asked
 * of a component with two writers too, whose answers were worked by hand. C or C++. */
#include "test_questions.h"
#include <pthread.h>
#include <stdio.h>
#include <string.h>

enum { THREADS = 8, ROUNDS = 50, ROOM = 4096, UNTOUCHED = 0xEE };

struct example {
    const char *name;
    char *text, *report;
    size_t length, report_length;
    uint32_t status;
};

static struct example examples[64];
static int count;

#define TWO_WRITERS "event,process,op,data\nbegin,0,update,0:1:5\nbegin,1,update,0:2:6\n"
#define IN_ORDER TWO_WRITERS "end,0,update,\nend,1,update,\n"
#define OUT_OF_ORDER TWO_WRITERS "end,1,update,\nend,0,update,\n"

/* A history of two writers of a component with a number of events, and its status and report. */
static const struct {
    const char *text;
    uint32_t events, status;
    const char *report;
} WRITERS[] = {
    {IN_ORDER, 4, SNAPJUDGE_REFUSED, "refused record 3: writer\n"},
    {IN_ORDER, SNAPJUDGE_MANY_WRITERS + 4, SNAPJUDGE_ATOMIC,
     "events 4 calls 2 pending 0 views 0\nregular yes\nmonotone yes\natomic yes\norder 2\n1 p0 update 0:1:5\n2 p1 update 0:2:6\n"},
    {OUT_OF_ORDER, SNAPJUDGE_MANY_WRITERS + SNAPJUDGE_EVENTS, SNAPJUDGE_REFUSED, "refused record 4: order\n"},
    {IN_ORDER, SNAPJUDGE_MANY_WRITERS + 3, SNAPJUDGE_REFUSED, "refused record 5: toomany\n"},
    {IN_ORDER, SNAPJUDGE_MANY_WRITERS, SNAPJUDGE_NO_LIMIT, ""},
    {IN_ORDER, SNAPJUDGE_MANY_WRITERS + 1048577, SNAPJUDGE_NO_LIMIT, ""},
};

static char *read_file(const char *path, size_t *length) {
    FILE *file = fopen(path, "rb");
    char *bytes = (char *)calloc(1, 1 << 20);
    if (file == NULL || bytes == NULL) {
        perror(path);
        exit(2);
    }
    *length = fread(bytes, 1, (1 << 20) - 1, file);
    fclose(file);
    return bytes;
}

/* The status that belongs to a report. */
static uint32_t status_of(const char *report) {
    if (strncmp(report, "refused", 7) == 0) return SNAPJUDGE_REFUSED;
    if (strstr(report, "regular no") != NULL) return SNAPJUDGE_IRREGULAR;
    if (strstr(report, "atomic no") != NULL) return SNAPJUDGE_REGULAR;
    return SNAPJUDGE_ATOMIC;
}

static int is_untouched(const uint8_t *from, const uint8_t *to) {
    for (; from < to; from++)
        if (*from != UNTOUCHED) return 0;
    return 1;
}

/* Whether a call with this much room answers as it must, and gives the length of the report. */
static int fits(const struct example *e, size_t room) {
    uint8_t bytes[ROOM];
    size_t length = 77;
    int is_enough = room >= e->report_length;
    uint32_t answer;
    memset(bytes, UNTOUCHED, sizeof bytes);
    answer = snapjudge_check((const uint8_t *)e->text, e->length, bytes, room, &length);
    if (length != e->report_length || answer != (is_enough ? e->status : SNAPJUDGE_NO_ROOM)) return 0;
    if (!is_enough) return is_untouched(bytes, bytes + ROOM);
    return memcmp(bytes, e->report, length) == 0 && is_untouched(bytes + length, bytes + ROOM);
}

/* Whether the call that takes its own room answers as it must. */
static int is_judged(const struct example *e) {
    char *report;
    size_t length;
    uint32_t answer = snapjudge_check_new(e->text, e->length, &report, &length);
    int is_right = answer == e->status && report != NULL && length == e->report_length && strcmp(report, e->report) == 0;
    free(report);
    return is_right;
}

/* How many questions about components with two writers are not answered as they must be. */
static int wrong_by_writers(void) {
    int wrong = 0, i, q;
    for (i = 0; i < (int)(sizeof WRITERS / sizeof *WRITERS); i++) {
        for (q = 0; q < QUESTIONS; q++) {
            struct snapjudge_question asked = ASKED[q];
            char *out;
            size_t length;
            asked.events = WRITERS[i].events;
            if (snapjudge_ask_new(&asked, WRITERS[i].text, strlen(WRITERS[i].text), &out, &length) != WRITERS[i].status ||
                (asked.command == SNAPJUDGE_CHECK && strcmp(out == NULL ? "" : out, WRITERS[i].report) != 0)) {
                fprintf(stderr, "two writers, text %d: %s is not as it is to be\n", i, NAMES[q]);
                wrong++;
            }
            free(out);
        }
    }
    return wrong;
}

static void *judge_all(void *failures) {
    int round, i;
    for (round = 0; round < ROUNDS; round++) {
        for (i = 0; i < count; i++) {
            const struct example *e = &examples[i];
            if (is_judged(e) && fits(e, ROOM) && fits(e, e->report_length) && fits(e, e->report_length - 1) && fits(e, 0)) continue;
            fprintf(stderr, "%s: not as it is to be\n", e->name);
            ++*(int *)failures;
        }
    }
    return NULL;
}

int main(int argc, char **argv) {
    pthread_t threads[THREADS];
    pthread_attr_t small;
    int failures[THREADS] = {0}, all, i;
    for (i = 1; i < argc && count < 64; i++) {
        struct example *e = &examples[count++];
        char path[512];
        e->name = argv[i];
        e->text = read_file(argv[i], &e->length);
        snprintf(path, sizeof path, "%.*s.report", (int)(strlen(argv[i]) - 4), argv[i]);
        e->report = read_file(path, &e->report_length);
        e->status = status_of(e->report);
    }
    if (snapjudge_version() != SNAPJUDGE_VERSION || count == 0) return 2;
    all = wrong_by_writers();
    pthread_attr_init(&small);
    pthread_attr_setstacksize(&small, 128 * 1024);
    for (i = 0; i < THREADS; i++)
        if (pthread_create(&threads[i], &small, judge_all, &failures[i]) != 0) return 2;
    for (i = 0; i < THREADS; i++) {
        pthread_join(threads[i], NULL);
        all += failures[i];
    }
    printf("%d examples, %d threads, %d rounds: %d failures\n", count, THREADS, ROUNDS, all);
    return all != 0;
}
