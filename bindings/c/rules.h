/* The refusals 1 to 5 and 13 as the header tells them, worked out once more beside the library. */
#ifndef RULES_H
#define RULES_H

#include "calls.h"

/* A number of the table, or 0, and its place. */
struct refusal {
    size_t number;
    size_t place;
};

/* The kind of a word, and its left field. */
size_t kind_of(uint32_t word);
size_t left_of(uint32_t word);

/* What the five fields of a kind of node hold: n a name, t a term, f a formula, 0 nothing. NULL where there is no such kind. */
const char *fields_of(size_t kind);

struct refusal words_refusal(const uint32_t *words, size_t words_length, size_t count);
struct refusal names_refusal(const uint8_t *names, size_t names_length, size_t assumptions);
typedef struct refusal search_test(const struct search *lent);
search_test search_refusal, status_refusal;
struct refusal text_refusal(const struct draft *lent);

#endif
