/* Rule books for the tests, built word by word; indices are those of words in the book. */
#ifndef BOOKS_H
#define BOOKS_H

#include "calls.h"

enum { BOOK_NAMES = TOO_MANY_ASSUMPTIONS * (1 + UINT8_MAX) };

/* The kinds of leaves. */
enum { LEAF_KINDS = 3 };
extern const size_t leaf_kinds[LEAF_KINDS];

struct book {
    uint32_t words[QUAYSAFFRON_MOST_WORDS];
    size_t count;
    uint16_t assumed[TOO_MANY_ASSUMPTIONS];
    size_t assumptions;
    uint8_t names[BOOK_NAMES];
    size_t names_length;
    size_t goal;
};

/* Takes all words and assumptions out of a book, and returns it. */
struct book *clear(struct book *book);

/* A word as it is. A book that is full keeps its words and returns an index that no book has. */
size_t add(struct book *book, uint32_t word);

size_t truth(struct book *book);
size_t falsity(struct book *book);
/* A leaf of a kind, and that of an atom. */
size_t leaf(struct book *book, size_t kind, size_t symbol);
size_t atom(struct book *book, size_t symbol);
/* AND, OR or IMPL of two words. */
size_t join(struct book *book, size_t kind, size_t a, size_t b);

/* The end, joined so many times with a part: on its left, as in A->(A->E), or on its right, as in (E->A)->A. */
size_t chain(struct book *book, size_t kind, size_t part, size_t times, size_t end);
size_t left_chain(struct book *book, size_t kind, size_t end, size_t times, size_t part);

/* The atoms from a symbol on, joined by halves. */
size_t balanced(struct book *book, size_t kind, size_t symbol, size_t atoms);

/* A disjunction of so many times the same formula; its words are few. */
size_t disjunction(struct book *book, size_t many, size_t formula);

/* Assumes a formula under a name of at most 255 bytes. */
void assume(struct book *book, const char *name, size_t formula);
/* .. under a name that is x and a number. */
void assume_next(struct book *book, size_t formula);

/* The bytes of the house file of a book, and how many. */
size_t house_file(const struct book *book, uint8_t file[2 * QUAYSAFFRON_MOST_FILE_BYTES]);

#endif
