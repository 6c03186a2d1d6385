/* Random numbers, books and term nodes. */
#ifndef DRAW_H
#define DRAW_H

#include "books.h"

struct dice {
    uint64_t state;
};

uint64_t draw(struct dice *dice);
/* A number below another, which is not 0. */
size_t below(struct dice *dice, size_t most);
/* True once in so many times. */
bool once_in(struct dice *dice, size_t times);

/* A lawful book: mostly a small one, now and then one that comes near a limit, and then `large`. */
void draw_book(struct dice *dice, struct book *book, bool *large);

/* Breaks one rule of a book, or of its words or names; sometimes none is broken. A word gets another bit, or becomes a leaf whose symbol
 * may stand elsewhere under another kind. */
void damage_book(struct dice *dice, struct book *book);
void damage_words(struct dice *dice, struct book *book);
void damage_names(struct dice *dice, struct book *book);

/* Lawful nodes over a book with assumptions, and how many; a generated name may be one that an assumption has. */
enum { DRAWN_NODES = QUAYSAFFRON_MOST_PATH + 64 };
size_t draw_nodes(struct dice *dice, const struct book *book, uint16_t nodes[DRAWN_NODES * NODE]);

#endif
