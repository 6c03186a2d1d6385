/* The checks that test_calls counts. */
#ifndef CHECKS_H
#define CHECKS_H

#include "books.h"
#include "lists.h"
#include "room.h"

struct checks {
    struct room room;
    struct book book;
    size_t passed;
    size_t failed;
};

/* Counts a check; one that failed is told. */
void check(struct checks *checks, bool right, const char *what);

/* What must come back from a search or a status. */
struct expected {
    size_t kind;
    size_t number;
    size_t place;
    size_t steps;
};

struct expected refused(size_t number, size_t place);
struct expected proved(size_t steps);
struct expected unprovable(size_t steps);

/* What is lent for the book: what it needs and some more. */
struct search ample(struct checks *checks);
/* Lays the book's words at the front of slices that are full of junk. */
void lay_book(struct checks *checks, uint8_t junk);
/* Asks over slices that are full of junk behind the book's words, once for each kind of junk. */
void expect_answer(struct checks *checks, room_search *ask, const struct search *lent, const char *what, struct expected expected);

/* One of the two tests, over the front of what is lent. */
typedef size_t test_call(const struct slices *lent, size_t length, size_t count, size_t *place);
test_call of_words, of_names;
/* Asks a test, which changes nothing. */
void expect_test(struct checks *checks, test_call *test, size_t length, size_t count, const char *what, size_t number, size_t place);

/* Each refusal and shortage by each call that can give it, over slices full of junk. */
void check_searches(struct checks *checks);
void check_writers(struct checks *checks);
/* A symbol under two kinds, by each call that tests words. */
void check_kinds(struct checks *checks);
/* Every example of a folder, and files that are none. */
void check_files(struct checks *checks, const char *examples);

/* The rows of the replay list on eight threads at once, each answer compared with that of one thread alone. */
void check_threads(struct checks *checks, const struct list *list);

/* The position behind what the replay list adds to a row: the ten expected numbers. */
size_t behind_expected(const struct list *list, size_t row);

#endif
