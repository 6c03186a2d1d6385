#include "draw.h"

#include "rules.h"

#include <string.h>

/* splitmix64, which takes every seed */
uint64_t draw(struct dice *dice)
{
    uint64_t mixed = dice->state += UINT64_C(0x9e3779b97f4a7c15);
    mixed = (mixed ^ mixed >> 30) * UINT64_C(0xbf58476d1ce4e5b9);
    mixed = (mixed ^ mixed >> 27) * UINT64_C(0x94d049bb133111eb);
    return mixed ^ mixed >> 31;
}

size_t below(struct dice *dice, size_t most)
{
    return draw(dice) % most;
}

bool once_in(struct dice *dice, size_t times)
{
    return below(dice, times) == 0;
}

/* So many symbols has each kind of leaf, few, so that equal leaves meet: the first kind the lowest ones, the next kind the next. */
enum { FEW = 3 };

static size_t draw_leaf(struct dice *dice, struct book *book)
{
    size_t quantified;
    switch (below(dice, 12)) {
    case 0:
        return truth(book);
    case 1:
    case 2:
        return falsity(book);
    case 3:
        quantified = FEW + below(dice, (LEAF_KINDS - 1) * FEW);
        return leaf(book, leaf_kinds[quantified / FEW], quantified);
    case 4:
        return atom(book, once_in(dice, 2) ? QUAYSAFFRON_FIRST_FREE_SYMBOL : QUAYSAFFRON_LAST_SYMBOL);
    default:
        return atom(book, below(dice, FEW));
    }
}

/* A formula of so many connectives, half of them implications. */
static size_t draw_formula(struct dice *dice, struct book *book, size_t connectives)
{
    static const size_t kinds[] = {QUAYSAFFRON_AND, QUAYSAFFRON_OR, QUAYSAFFRON_IMPL, QUAYSAFFRON_IMPL};
    size_t kind, half, left;
    if (connectives == 0) {
        return draw_leaf(dice, book);
    }
    kind = kinds[below(dice, 4)];
    half = below(dice, connectives);
    left = draw_formula(dice, book, half);
    return join(book, kind, left, draw_formula(dice, book, connectives - 1 - half));
}

/* Assumes a formula; now and then under the name that would be generated first. */
static void draw_assumption(struct dice *dice, struct book *book, size_t formula)
{
    static const char *const generated[] = {"a", "b", "ba"};
    if (book->assumptions < 3 && once_in(dice, 4)) {
        assume(book, generated[book->assumptions], formula);
    } else {
        assume_next(book, formula);
    }
}

static void draw_small(struct dice *dice, struct book *book)
{
    size_t assumptions = below(dice, 4);
    for (size_t i = 0; i < assumptions; i++) {
        draw_assumption(dice, book, draw_formula(dice, book, below(dice, 6)));
    }
    if (0 < book->count && once_in(dice, 5)) {
        book->goal = below(dice, book->count);
    } else {
        book->goal = draw_formula(dice, book, below(dice, 9));
    }
}

/* What is supposed on the left of the goal, as an assumption or by an implication. */
static void suppose(struct dice *dice, struct book *book, size_t formula)
{
    if (once_in(dice, 2)) {
        assume_next(book, formula);
    } else {
        book->goal = join(book, QUAYSAFFRON_IMPL, formula, book->goal);
    }
}

/* Levels: implications or conjunctions one in the other, around 63 of them. */
static void draw_deep(struct dice *dice, struct book *book)
{
    size_t part = draw_leaf(dice, book);
    size_t kind = once_in(dice, 2) ? QUAYSAFFRON_IMPL : QUAYSAFFRON_AND;
    book->goal = chain(book, kind, kind == QUAYSAFFRON_AND ? truth(book) : part, QUAYSAFFRON_HIGHEST_LEVEL - 5 + below(dice, 10), part);
}

/* Contexts: around 256 atoms in a conjunction. */
static void draw_wide(struct dice *dice, struct book *book)
{
    book->goal = atom(book, QUAYSAFFRON_FIRST_FREE_SYMBOL + below(dice, 2));
    suppose(dice, book, balanced(book, QUAYSAFFRON_AND, 0, QUAYSAFFRON_MOST_RECORDS - 6 + below(dice, 12)));
}

/* Names: around 4,096 implications that are tried one after the other. */
static void draw_naming(struct dice *dice, struct book *book)
{
    size_t p = atom(book, 0);
    size_t tried = join(book, QUAYSAFFRON_IMPL, p, atom(book, 1));
    book->goal = disjunction(book, QUAYSAFFRON_LAST_INDEX - 4 + below(dice, 12), tried);
}

/* Terms: eleven disjunctions split, which takes over 4,096 nodes. */
static void draw_splits(struct dice *dice, struct book *book)
{
    size_t either;
    book->goal = atom(book, 0);
    either = join(book, QUAYSAFFRON_OR, book->goal, book->goal);
    for (size_t i = 0; i < 11; i++) {
        suppose(dice, book, either);
    }
}

/* Paths: around 1,024 Applications one in the other. */
static void draw_path(struct dice *dice, struct book *book)
{
    size_t t = truth(book);
    book->goal = atom(book, 0);
    assume_next(book, chain(book, QUAYSAFFRON_IMPL, t, QUAYSAFFRON_MOST_PATH - 4 + below(dice, 8), book->goal));
}

/* Formulas: around as many words as the program lends, and 2 that the search makes. */
static void draw_full(struct dice *dice, struct book *book)
{
    size_t p = atom(book, 0), q = atom(book, 1), supposed;
    size_t fill = QUAYSAFFRON_PROGRAM_WORDS - below(dice, 4);
    book->goal = atom(book, 2);
    supposed = join(book, QUAYSAFFRON_IMPL, join(book, QUAYSAFFRON_AND, p, q), book->goal);
    suppose(dice, book, supposed);
    while (book->count < fill) {
        truth(book);
    }
}

/* Steps: a few more than a million. */
static void draw_long(struct dice *dice, struct book *book)
{
    size_t many = QUAYSAFFRON_MOST_STEPS / 6 + 1 + below(dice, 4);
    assume_next(book, truth(book));
    book->goal = disjunction(book, many, falsity(book));
}

void draw_book(struct dice *dice, struct book *book, bool *large)
{
    static void (*const near[])(struct dice *, struct book *) = {draw_deep, draw_wide, draw_splits, draw_path, draw_full};
    clear(book);
    *large = once_in(dice, 16);
    if (!*large) {
        draw_small(dice, book);
    } else if (once_in(dice, 15)) {
        draw_long(dice, book);
    } else if (once_in(dice, 8)) {
        draw_naming(dice, book);
    } else {
        near[below(dice, sizeof near / sizeof near[0])](dice, book);
    }
}

void damage_words(struct dice *dice, struct book *book)
{
    uint32_t *word = &book->words[below(dice, book->count)];
    if (once_in(dice, 2)) {
        *word ^= UINT32_C(1) << below(dice, 32);
    } else {
        *word = quaysaffron_word(leaf_kinds[below(dice, LEAF_KINDS)], below(dice, LEAF_KINDS * FEW), 0);
    }
}

void damage_names(struct dice *dice, struct book *book)
{
    size_t length = book->names_length;
    switch (below(dice, 4)) {
    case 0:
        book->names_length -= 0 < length;
        break;
    case 1:
        book->names[book->names_length++] = (uint8_t)draw(dice);
        break;
    case 2:
        if (1 < book->assumptions) {
            memcpy(book->names + 1 + book->names[0], book->names, (size_t)1 + book->names[0]);
        }
        break;
    default:
        if (0 < length) {
            book->names[below(dice, length)] = (uint8_t)draw(dice);
        }
    }
}

/* 65 assumptions, or one whose formula is not there. */
static void damage_assumptions(struct dice *dice, struct book *book)
{
    if (book->assumptions == 0 || once_in(dice, 3)) {
        while (book->assumptions < TOO_MANY_ASSUMPTIONS) {
            assume_next(book, 0);
        }
        return;
    }
    book->assumed[below(dice, book->assumptions)] = (uint16_t)(book->count + below(dice, 3));
}

void damage_book(struct dice *dice, struct book *book)
{
    switch (below(dice, 4)) {
    case 0:
        damage_words(dice, book);
        break;
    case 1:
        damage_assumptions(dice, book);
        break;
    case 2:
        damage_names(dice, book);
        break;
    default:
        book->goal = once_in(dice, 2) ? book->count : draw(dice);
    }
}

static uint16_t draw_name(struct dice *dice, const struct book *book)
{
    if (0 < book->assumptions && !once_in(dice, 4)) {
        return (uint16_t)below(dice, book->assumptions);
    }
    return (uint16_t)(QUAYSAFFRON_FIRST_GENERATED + (once_in(dice, 8) ? below(dice, QUAYSAFFRON_LAST_INDEX + 1) : below(dice, 30)));
}

/* A node whose terms stand before it; the first one has none. */
static void draw_node(struct dice *dice, const struct book *book, uint16_t *node, size_t at)
{
    size_t kind = at == 0 ? QUAYSAFFRON_IDENT : below(dice, QUAYSAFFRON_UNIT);
    if (fields_of(kind) == NULL || once_in(dice, 12)) {
        kind = QUAYSAFFRON_UNIT;
    }
    node[0] = (uint16_t)kind;
    for (size_t i = 0; i < NODE - 1; i++) {
        switch (fields_of(kind)[i]) {
        case 'n':
            node[1 + i] = draw_name(dice, book);
            break;
        case 't':
            node[1 + i] = (uint16_t)below(dice, at);
            break;
        case 'f':
            node[1 + i] = (uint16_t)below(dice, book->count);
            break;
        default:
            node[1 + i] = 0;
        }
    }
}

size_t draw_nodes(struct dice *dice, const struct book *book, uint16_t nodes[DRAWN_NODES * NODE])
{
    size_t count = 1 + below(dice, 16);
    for (size_t i = 0; i < count; i++) {
        draw_node(dice, book, nodes + NODE * i, i);
    }
    if (once_in(dice, 20)) {
        size_t more = QUAYSAFFRON_MOST_PATH - 8 + below(dice, 12);
        for (size_t i = 0; i < more; i++, count++) {
            uint16_t node[NODE] = {QUAYSAFFRON_PROJECT_FST, (uint16_t)(count - 1), 0, 0, 0, 0};
            memcpy(nodes + NODE * count, node, sizeof node);
        }
    }
    return count;
}
