/* The same rows on eight threads at once, each with buffers of its own and with the stack that the header tells. */
#define _POSIX_C_SOURCE 200809L

#include "checks.h"

#include <pthread.h>
#include <stdlib.h>
#include <string.h>

enum { THREADS = 8 };

size_t behind_expected(const struct list *list, size_t row)
{
    return skip(list, row, ROW_NUMBERS + EXPECTED_NUMBERS);
}

/* The rows of a list with the answers of one thread alone. */
struct answers {
    const struct list *list;
    size_t count;
    struct row *rows;
    struct outcome *outcomes;
};

/* A thread's room, the row that it begins with, and how many of its answers are the same. */
struct worker {
    const struct answers *answers;
    struct room *room;
    size_t first;
    size_t same;
};

static bool same(const struct outcome *a, const struct outcome *b)
{
    return memcmp(a->call, b->call, sizeof a->call) == 0 && a->writer == b->writer && a->length == b->length
        && a->checksum == b->checksum && a->kept && b->kept;
}

static void *work(void *argument)
{
    struct worker *worker = argument;
    const struct answers *answers = worker->answers;
    for (size_t i = 0; i < answers->count; i++) {
        size_t at = (worker->first + i) % answers->count;
        struct outcome outcome = run_row(answers->list, answers->rows[at], worker->room);
        worker->same += same(&outcome, &answers->outcomes[at]);
    }
    return NULL;
}

/* Runs every row alone, over the checks' own room. */
static bool answer_alone(struct checks *checks, const struct list *list, struct answers *answers)
{
    struct row row = list_start(list);
    answers->list = list;
    answers->count = list_rows(list);
    answers->rows = calloc(answers->count, sizeof *answers->rows);
    answers->outcomes = calloc(answers->count, sizeof *answers->outcomes);
    if (answers->rows == NULL || answers->outcomes == NULL) {
        return false;
    }
    for (size_t i = 0; i < answers->count; i++) {
        row = list_step(list, row, behind_expected);
        answers->rows[i] = row;
        answers->outcomes[i] = run_row(list, row, &checks->room);
    }
    return true;
}

/* Starts the threads and waits for all of them; false where one cannot be had. */
static bool run_threads(struct worker workers[THREADS])
{
    pthread_t threads[THREADS];
    pthread_attr_t attributes;
    size_t started = 0;
    bool had = pthread_attr_init(&attributes) == 0 && pthread_attr_setstacksize(&attributes, QUAYSAFFRON_STACK_BYTES) == 0;
    while (had && started < THREADS) {
        had = workers[started].room != NULL && pthread_create(&threads[started], &attributes, work, &workers[started]) == 0;
        started += had;
    }
    for (size_t i = 0; i < started; i++) {
        pthread_join(threads[i], NULL);
    }
    return had;
}

void check_threads(struct checks *checks, const struct list *list)
{
    struct worker workers[THREADS];
    struct answers answers;
    bool had = answer_alone(checks, list, &answers) && 0 < answers.count;
    for (size_t i = 0; i < THREADS; i++) {
        struct worker worker = {&answers, malloc(sizeof(struct room)), i * answers.count / THREADS, 0};
        workers[i] = worker;
    }
    check(checks, had && run_threads(workers), "eight threads, and memory for them");
    for (size_t i = 0; i < THREADS; i++) {
        check(checks, workers[i].same == answers.count, "every answer of a thread is that of one thread alone");
        free(workers[i].room);
    }
    free(answers.rows);
    free(answers.outcomes);
}
