/* The tip rule of README.md in C: is the odd penny due to one of the three, and is it due to Ana?
 *
 * It prints `proved` and the derivation for the first claim, `unprovable` for the second. A refusal is told on standard error, and the
 * exit status is then 1. */
#include "quaysaffron.h"

#include <stdbool.h>
#include <stdio.h>
#include <string.h>

enum {
    MOST_NAMES_BYTES = QUAYSAFFRON_MOST_ASSUMPTIONS * (1 + QUAYSAFFRON_MOST_NAME_BYTES),
    MOST_NUMBERS = QUAYSAFFRON_PROGRAM_NODES * QUAYSAFFRON_NODE_NUMBERS
};

/* A rule book under construction, and the room that the prover works in. What is behind the given words need not be cleared. */
struct book {
    uint32_t words[QUAYSAFFRON_PROGRAM_WORDS];
    size_t count;
    uint16_t assumed[QUAYSAFFRON_MOST_ASSUMPTIONS];
    size_t assumptions;
    uint8_t names[MOST_NAMES_BYTES];
    size_t names_length;
    uint16_t terms[MOST_NUMBERS];
    quaysaffron_record work[QUAYSAFFRON_WORK_RECORDS];
};

/* Adds a word and returns its index. A book that is full goes on counting: the prover then refuses it for its sizes. */
static size_t add(struct book *book, uint32_t word)
{
    if (book->count < QUAYSAFFRON_PROGRAM_WORDS) {
        book->words[book->count] = word;
    }
    return book->count++;
}

static size_t atom(struct book *book, size_t symbol)
{
    return add(book, quaysaffron_word(QUAYSAFFRON_ATOM, symbol, 0));
}

/* a or b */
static size_t either(struct book *book, size_t a, size_t b)
{
    return add(book, quaysaffron_word(QUAYSAFFRON_OR, a, b));
}

/* if a then b */
static size_t implies(struct book *book, size_t a, size_t b)
{
    return add(book, quaysaffron_word(QUAYSAFFRON_IMPL, a, b));
}

/* Assumes a formula under a name. False where the book has no room for it; whether the name is lawful is tested by the prover. */
static bool assume(struct book *book, const char *name, size_t formula)
{
    size_t length = strlen(name);
    if (book->assumptions == QUAYSAFFRON_MOST_ASSUMPTIONS || formula > UINT16_MAX) {
        return false;
    }
    if (length > UINT8_MAX || 1 + length > MOST_NAMES_BYTES - book->names_length) {
        return false;
    }
    book->assumed[book->assumptions++] = (uint16_t)formula;
    book->names[book->names_length++] = (uint8_t)length;
    memcpy(book->names + book->names_length, name, length);
    book->names_length += length;
    return true;
}

/* Who closed and who gets the penny: the people of the tip rule. */
struct person {
    const char *rule;
    size_t closed;
    size_t gets_it;
};

enum { ANA, BEN, CLEO, PEOPLE };

/* The one who closed gets the penny that is left over; one of the three closed, and a penny is left over. */
static bool lay_rules(struct book *book, struct person people[PEOPLE])
{
    size_t odd_penny = atom(book, 0);
    size_t ben_or_cleo, someone;
    bool laid;
    for (size_t i = 0; i < PEOPLE; i++) {
        people[i].closed = atom(book, 1 + i);
        people[i].gets_it = atom(book, 1 + PEOPLE + i);
    }
    ben_or_cleo = either(book, people[BEN].closed, people[CLEO].closed);
    someone = either(book, people[ANA].closed, ben_or_cleo);
    laid = assume(book, "left_over", odd_penny) && assume(book, "someone_closed", someone);
    for (size_t i = 0; i < PEOPLE; i++) {
        size_t if_odd = implies(book, odd_penny, people[i].gets_it);
        laid = laid && assume(book, people[i].rule, implies(book, people[i].closed, if_odd));
    }
    return laid;
}

/* Writes the derivation and prints it. */
static size_t print_derivation(const struct book *book, const quaysaffron_answer *answer)
{
    static uint8_t text[QUAYSAFFRON_PROGRAM_TEXT_BYTES];
    size_t size, place;
    size_t number = quaysaffron_text(book->words, QUAYSAFFRON_PROGRAM_WORDS, answer->formulas, book->assumptions, book->names,
                                     book->names_length, book->terms, MOST_NUMBERS, answer->terms, answer->root, text, sizeof text,
                                     &size, &place);
    if (number != 0) {
        fprintf(stderr, "the derivation has no text: number %zu, place %zu\n", number, place);
        return number;
    }
    printf("%.*s\n", (int)size, (const char *)text);
    return 0;
}

/* Settles a claim and prints what came back. Returns 0, or the number of the refusal. What the search made stays behind the given words
 * until the next claim, which may make others there. */
static size_t settle(struct book *book, size_t goal)
{
    quaysaffron_answer answer;
    quaysaffron_prove(book->words, QUAYSAFFRON_PROGRAM_WORDS, book->count, book->assumed, book->assumptions, book->names,
                      book->names_length, goal, book->terms, MOST_NUMBERS, book->work, QUAYSAFFRON_WORK_RECORDS,
                      QUAYSAFFRON_PROGRAM_STEPS, &answer);
    switch (answer.kind) {
    case QUAYSAFFRON_PROVED:
        puts("proved");
        return print_derivation(book, &answer);
    case QUAYSAFFRON_UNPROVABLE:
        puts("unprovable");
        return 0;
    case QUAYSAFFRON_SHORT:
        fprintf(stderr, "a limit would be passed: number %zu after %zu steps\n", answer.number, answer.steps);
        return answer.number;
    default:
        fprintf(stderr, "the book is refused: number %zu, place %zu\n", answer.number, answer.place);
        return answer.number;
    }
}

int main(void)
{
    /* static, since it has some 130 KB and a thread's stack is dear */
    static struct book book;
    struct person people[PEOPLE] = {{"rule_ana", 0, 0}, {"rule_ben", 0, 0}, {"rule_cleo", 0, 0}};
    size_t ben_or_cleo, one_of_them, failed;
    if (!lay_rules(&book, people)) {
        fputs("the book has no room for the rules\n", stderr);
        return 1;
    }
    ben_or_cleo = either(&book, people[BEN].gets_it, people[CLEO].gets_it);
    one_of_them = either(&book, people[ANA].gets_it, ben_or_cleo);
    failed = settle(&book, one_of_them);
    if (failed == 0) {
        failed = settle(&book, people[ANA].gets_it);
    }
    return failed == 0 ? 0 : 1;
}
