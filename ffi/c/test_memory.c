/* Refuses each allocation of each answer in turn: it is 4, nothing is written and no block is lost. Linked with
 * -Wl,--wrap=malloc,--wrap=realloc,--wrap=free; C or C++. */
#include "test_questions.h"
#include <stdio.h>

#ifdef __cplusplus
extern "C" {
#endif

void *__real_malloc(size_t size);
void *__real_realloc(void *block, size_t size);
void __real_free(void *block);

/* How many allocations are granted before one is refused, or -1; and how many blocks are held. */
static long granted = -1, held;

static int is_refused(void) {
    if (granted == 0) return 1;
    if (granted > 0) granted--;
    return 0;
}

void *__wrap_malloc(size_t size) {
    void *block = is_refused() ? NULL : __real_malloc(size);
    held += block != NULL;
    return block;
}

void *__wrap_realloc(void *block, size_t size) {
    void *moved = is_refused() ? NULL : __real_realloc(block, size);
    held += moved != NULL && block == NULL;
    return moved;
}

void __wrap_free(void *block) {
    held -= block != NULL;
    __real_free(block);
}

#ifdef __cplusplus
}
#endif

enum { COUNT = 5 };

/* A history that is atomic, one with a read fault, one that is refused, and with many writers one that is atomic and one that is refused. */
static const char *const TEXTS[COUNT] = {
    "event,process,op,data\nbegin,0,update,0:1:10\nend,0,update,\nbegin,1,update,1:1:20\nbegin,2,view,\nbegin,0,update,0:2:11\n"
    "end,2,view,0:1:10\nend,0,update,\nbegin,3,view,\nend,3,view,0:2:11 1:1:20\nend,1,update,\n",
    "event,process,op,data\nbegin,0,update,0:1:7\nbegin,1,view,\nend,1,view,0:1:7\nbegin,2,view,\nend,2,view,\nend,0,update,\n",
    "event,process,op,data\nbegin,0,update,0:1:7\nbegin,0,view,\n",
    "event,process,op,data\nbegin,0,update,0:1:5\nbegin,1,update,0:2:6\nend,0,update,\nend,1,update,\nbegin,2,view,\nend,2,view,0:2:6\n",
    "event,process,op,data\nbegin,0,update,0:1:5\nbegin,1,update,0:2:6\nend,1,update,\n",
};

static const uint32_t STATUSES[COUNT] = {SNAPJUDGE_ATOMIC, SNAPJUDGE_REGULAR, SNAPJUDGE_REFUSED, SNAPJUDGE_ATOMIC, SNAPJUDGE_REFUSED};

/* How many writers of a component each text may have, as that is added to the events. */
static const uint32_t WRITERS[COUNT] = {0, 0, 0, SNAPJUDGE_MANY_WRITERS, SNAPJUDGE_MANY_WRITERS};

/* The status of a text by a question: a history is counted without a verdict. */
static uint32_t status_of(int which, const struct snapjudge_question *asked) {
    const int is_counted = asked->command == SNAPJUDGE_STATS && STATUSES[which] != SNAPJUDGE_REFUSED;
    return is_counted ? 0 : STATUSES[which];
}

/* Whether a question is answered as it must be after this many allocations; *is_whole if none was refused. */
static int is_right(int which, struct snapjudge_question asked, long allocations, int *is_whole) {
    static uint8_t room[1 << 16];
    size_t length = 99, i;
    uint32_t answer;
    asked.events += WRITERS[which];
    memset(room, 0xEE, sizeof room);
    held = 0;
    granted = allocations;
    answer = snapjudge_ask(&asked, (const uint8_t *)TEXTS[which], strlen(TEXTS[which]), room, sizeof room, &length);
    granted = -1;
    *is_whole = answer == status_of(which, &asked);
    if (held != 0) return 0;
    if (*is_whole) return 1;
    for (i = 0; i < sizeof room; i++)
        if (room[i] != 0xEE) return 0;
    return answer == SNAPJUDGE_NO_MEMORY && length == 0;
}

/* Refuses each allocation of the answer to a question in turn; how often it was not as it must be. */
static int failures_of(int which, int question) {
    long allocations = 0;
    int is_whole = 0, failures = 0;
    for (; !is_whole && allocations < 100000; allocations++) {
        if (is_right(which, ASKED[question], allocations, &is_whole)) continue;
        fprintf(stderr, "text %d, %s, allocation %ld: not as it is to be\n", which, NAMES[question], allocations);
        failures++;
    }
    printf("text %d, %s: %ld allocations, each refused in turn\n", which, NAMES[question], allocations - 1);
    return failures + (!is_whole || allocations < 2);
}

int main(void) {
    int which, question, failures = 0;
    for (which = 0; which < COUNT; which++)
        for (question = 0; question < QUESTIONS; question++) failures += failures_of(which, question);
    return failures != 0;
}
