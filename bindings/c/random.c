/* Random calls, a million of them by default: random [CALLS [SEED]].
 *
 * Each buffer stands beside a page that may not be touched, so that one byte too far stops the program although the library itself is
 * not instrumented. After each call its answer and every lent byte are held against what the header promises, and each refusal against
 * rules.c. The last line is `N calls, 0 wrong`. A kind or a number that a call can give and never gave counts as wrong too, where there
 * were 100,000 calls or more: fewer may miss the rare ones. */
#include "draw.h"
#include "guard.h"
#include "room.h"
#include "rules.h"

#include <stdio.h>
#include <stdlib.h>
#include <string.h>

enum { DEFAULT_CALLS = 1000000, ENOUGH_CALLS = 100000 };
enum { FILE_ROOM = 2 * QUAYSAFFRON_MOST_FILE_BYTES, NAME_ROOM = 200 };

/* The calls, and what one can come to: a number of the table (0 where there is none to tell), or a kind of answer. */
enum { PROVE, STATUS_CALL, TEXT, NAME, OUTPUT, TEST_WORDS, TEST_NAMES, CALLS };
enum { KINDS_FROM = QUAYSAFFRON_BAD_FILE, OUTCOMES = KINDS_FROM + QUAYSAFFRON_UNKNOWN + 1 };

static const char *const call_names[CALLS] = {"prove", "status", "text", "name", "output", "test_words", "test_names"};
static const char *const kind_names[] = {"", "proved", "unprovable", "", "", "solvable", "unsolvable", "unknown"};

/* Sets of outcomes. */
#define NUMBER(n) (UINT32_C(1) << (n))
#define NUMBERS(from, to) (NUMBER((to) + 1) - NUMBER(from))
#define KIND(k) NUMBER(KINDS_FROM + (k))

/* What each call must have come to in the end. */
static const uint32_t must_meet[CALLS] = {
    KIND(QUAYSAFFRON_PROVED) | KIND(QUAYSAFFRON_UNPROVABLE) | NUMBERS(QUAYSAFFRON_SIZES, QUAYSAFFRON_LEVELS),
    NUMBERS(KINDS_FROM + QUAYSAFFRON_SOLVABLE, KINDS_FROM + QUAYSAFFRON_UNKNOWN) | NUMBER(QUAYSAFFRON_SIZES)
        | NUMBER(QUAYSAFFRON_BAD_FORMULA) | NUMBERS(QUAYSAFFRON_BAD_GOAL, QUAYSAFFRON_LEVELS),
    NUMBERS(0, QUAYSAFFRON_BAD_NAMES) | NUMBERS(QUAYSAFFRON_NO_ROOM, QUAYSAFFRON_BAD_TERM),
    NUMBER(0) | NUMBER(QUAYSAFFRON_NAMES) | NUMBER(QUAYSAFFRON_NO_ROOM),
    KIND(QUAYSAFFRON_PROVED) | KIND(QUAYSAFFRON_UNPROVABLE) | NUMBERS(QUAYSAFFRON_BAD_FORMULA, QUAYSAFFRON_NO_ROOM)
        | NUMBER(QUAYSAFFRON_BAD_FILE),
    NUMBER(0) | NUMBER(QUAYSAFFRON_BAD_FORMULA),
    NUMBER(0) | NUMBER(QUAYSAFFRON_BAD_NAMES),
};

/* What is lent from, what was lent as it was before, and what came back so far. */
struct trial {
    struct dice dice;
    struct book book;
    bool large;
    struct guarded words, assumed, names, terms, work, text, answer, size, place;
    struct slices before;
    uint8_t file[FILE_ROOM];
    size_t met[CALLS][OUTCOMES];
    size_t wanted;
    size_t calls;
    size_t wrong;
};

static void count(struct trial *trial, size_t call, size_t outcome, bool right)
{
    trial->met[call][outcome < OUTCOMES ? outcome : 0]++;
    trial->calls++;
    if (!right) {
        trial->wrong++;
        printf("wrong: call %zu, %s, outcome %zu\n", trial->calls, call_names[call], outcome);
    }
}

/* So many elements of a buffer, at one of its ends, full of junk. */
static void *lend_junk(struct trial *trial, const struct guarded *from, size_t elements, size_t size)
{
    void *lent = lend(from, elements * size, once_in(&trial->dice, 2));
    memset(lent, (int)below(&trial->dice, UINT8_MAX + 1), elements * size);
    return lent;
}

static void *lend_copy(struct trial *trial, const struct guarded *from, const void *bytes, size_t length)
{
    return memcpy(lend(from, length, once_in(&trial->dice, 2)), bytes, length);
}

/* How many words are lent: few more than are given, or many. */
static size_t draw_words_length(struct trial *trial)
{
    struct dice *dice = &trial->dice;
    size_t length = trial->book.count;
    switch (below(dice, 8)) {
    case 0:
    case 1:
        length += below(dice, 4);
        break;
    case 2:
        length = once_in(dice, 8) ? QUAYSAFFRON_MOST_WORDS : QUAYSAFFRON_PROGRAM_WORDS;
        break;
    default:
        length += 64;
    }
    return length < trial->book.count ? trial->book.count : length;
}

/* How many numbers of nodes are lent; a book that comes near a limit is mostly lent what the program lends. */
static size_t draw_terms_length(struct trial *trial)
{
    struct dice *dice = &trial->dice;
    if (trial->large && !once_in(dice, 4)) {
        return NODE * (once_in(dice, 2) ? QUAYSAFFRON_PROGRAM_NODES : QUAYSAFFRON_MOST_NODES);
    }
    return NODE * (once_in(dice, 4) ? below(dice, 8) : below(dice, 128));
}

static size_t draw_steps(struct trial *trial)
{
    struct dice *dice = &trial->dice;
    if (once_in(dice, 4)) {
        return below(dice, 40);
    }
    return trial->large ? QUAYSAFFRON_MOST_STEPS : 2000;
}

/* Breaks one size. */
static void damage_sizes(struct trial *trial, struct search *lent)
{
    struct dice *dice = &trial->dice;
    switch (below(dice, 6)) {
    case 0:
        lent->words_length = below(dice, lent->count);
        break;
    case 1:
        lent->words_length = QUAYSAFFRON_MOST_WORDS + 1 + below(dice, 2);
        break;
    case 2:
        lent->terms_length += 1 + below(dice, NODE - 1);
        break;
    case 3:
        lent->terms_length = QUAYSAFFRON_MOST_NUMBERS + 1 + below(dice, NODE);
        break;
    case 4:
        lent->work_length = once_in(dice, 2) ? below(dice, QUAYSAFFRON_WORK_RECORDS) : QUAYSAFFRON_WORK_RECORDS + 1;
        break;
    default:
        lent->steps = QUAYSAFFRON_MOST_STEPS + 1 + draw(dice) / 2;
    }
}

/* A book and what is lent with it, over junk; one in three breaks a rule. */
static struct search draw_search(struct trial *trial)
{
    struct dice *dice = &trial->dice;
    struct book *book = &trial->book;
    struct search lent = {0};
    size_t given;
    draw_book(dice, book, &trial->large);
    if (once_in(dice, 4)) {
        damage_book(dice, book);
    }
    lent.count = book->count;
    lent.words_length = draw_words_length(trial);
    lent.assumed_length = book->assumptions;
    lent.names_length = book->names_length;
    lent.goal = book->goal;
    lent.terms_length = draw_terms_length(trial);
    lent.work_length = QUAYSAFFRON_WORK_RECORDS;
    lent.steps = draw_steps(trial);
    if (once_in(dice, 12)) {
        damage_sizes(trial, &lent);
    }
    lent.words = lend_junk(trial, &trial->words, lent.words_length, sizeof *lent.words);
    given = lent.words_length < lent.count ? lent.words_length : lent.count;
    memcpy(lent.words, book->words, given * sizeof *lent.words);
    lent.assumed = lend_copy(trial, &trial->assumed, book->assumed, lent.assumed_length * sizeof *lent.assumed);
    lent.names = lend_copy(trial, &trial->names, book->names, lent.names_length);
    lent.terms = lend_junk(trial, &trial->terms, lent.terms_length, sizeof *lent.terms);
    lent.work = lend_junk(trial, &trial->work, lent.work_length, sizeof *lent.work);
    return lent;
}

static struct before keep(struct trial *trial, const struct search *lent)
{
    struct before before = {trial->before.words, trial->before.terms, trial->before.work};
    memcpy(trial->before.words, lent->words, lent->words_length * sizeof *lent->words);
    memcpy(trial->before.terms, lent->terms, lent->terms_length * sizeof *lent->terms);
    memcpy(trial->before.work, lent->work, lent->work_length * sizeof *lent->work);
    return before;
}

/* What a call only reads is as it was. */
static bool only_read(const struct trial *trial, const struct search *lent)
{
    return memcmp(lent->assumed, trial->book.assumed, lent->assumed_length * sizeof *lent->assumed) == 0
        && memcmp(lent->names, trial->book.names, lent->names_length) == 0;
}

static bool refused_alike(const quaysaffron_answer *answer, struct refusal refusal)
{
    bool refused = answer->kind == QUAYSAFFRON_REFUSED;
    return refused == (refusal.number != 0) && (!refused || (answer->number == refusal.number && answer->place == refusal.place));
}

static size_t outcome_of(const quaysaffron_answer *answer)
{
    return answer->number != 0 ? answer->number : KINDS_FROM + answer->kind;
}

/* Writes the text of a draft into a buffer full of junk. */
static void write_text(struct trial *trial, struct draft *lent)
{
    struct refusal refusal;
    struct written written;
    size_t *size = lend(&trial->size, sizeof *size, once_in(&trial->dice, 2));
    size_t *place = lend(&trial->place, sizeof *place, once_in(&trial->dice, 2));
    bool read, right;
    lent->text = lend_junk(trial, &trial->text, lent->text_length, 1);
    memcpy(trial->before.text, lent->text, lent->text_length);
    memcpy(trial->before.words, lent->words, lent->words_length * sizeof *lent->words);
    memcpy(trial->before.terms, lent->terms, lent->terms_length * sizeof *lent->terms);
    refusal = text_refusal(lent);
    written = ask_text(lent, size, place);
    read = memcmp(trial->before.words, lent->words, lent->words_length * sizeof *lent->words) == 0
        && memcmp(trial->before.terms, lent->terms, lent->terms_length * sizeof *lent->terms) == 0
        && memcmp(trial->book.names, lent->names, lent->names_length) == 0;
    right = refusal.number == 0 ? written.number == 0 || written.number == QUAYSAFFRON_NO_ROOM
                                : written.number == refusal.number && written.place == refusal.place;
    count(trial, TEXT, written.number, read && right && text_holds(lent, trial->before.text, written));
}

static size_t draw_text_length(struct trial *trial)
{
    struct dice *dice = &trial->dice;
    return once_in(dice, 4) ? QUAYSAFFRON_PROGRAM_TEXT_BYTES : below(dice, 300);
}

/* The text of what a search found, which is lawful: a refusal of it would be wrong. */
static void write_found(struct trial *trial, const struct search *found, const quaysaffron_answer *answer)
{
    struct draft lent = {found->words, found->words_length, answer->formulas, found->assumed_length, found->names, found->names_length,
                         found->terms, found->terms_length, answer->terms, answer->root, NULL, 0};
    size_t number = text_refusal(&lent).number;
    lent.text_length = draw_text_length(trial);
    if (number != 0) {
        trial->wrong++;
        printf("wrong: call %zu, what prove found breaks rule %zu\n", trial->calls, number);
    }
    write_text(trial, &lent);
}

/* A call over what a search is lent, with what it must refuse and what it promises. */
struct asked {
    size_t name;
    search_test *test;
    search_call *call;
    search_promise *holds;
};

/* Makes one such call over what is lent, and gives its answer. */
static const quaysaffron_answer *try_search(struct trial *trial, const struct search *lent, struct asked asked)
{
    struct before before = keep(trial, lent);
    struct refusal refusal = asked.test(lent);
    quaysaffron_answer *answer = lend(&trial->answer, sizeof *answer, once_in(&trial->dice, 2));
    size_t returned = asked.call(lent, answer);
    bool right = asked.holds(lent, &before, returned, answer) && only_read(trial, lent) && refused_alike(answer, refusal);
    count(trial, asked.name, outcome_of(answer), right);
    return answer;
}

static void try_prove(struct trial *trial)
{
    struct asked asked = {PROVE, search_refusal, ask_prove, prove_holds};
    struct search lent = draw_search(trial);
    const quaysaffron_answer *answer = try_search(trial, &lent, asked);
    if (answer->kind == QUAYSAFFRON_PROVED && trial->calls < trial->wanted) {
        write_found(trial, &lent, answer);
    }
}

static void try_status(struct trial *trial)
{
    struct asked asked = {STATUS_CALL, status_refusal, ask_status, status_holds};
    struct search lent = draw_search(trial);
    try_search(trial, &lent, asked);
}

/* Breaks one size, count or number of a draft. */
static void damage_draft(struct trial *trial, struct draft *lent, uint16_t *terms)
{
    struct dice *dice = &trial->dice;
    switch (below(dice, 8)) {
    case 0:
        lent->nodes += 1 + (once_in(dice, 2) ? 0 : draw(dice) / 2);
        break;
    case 1:
        lent->count = lent->words_length + 1 + draw(dice) / 2;
        break;
    case 2:
        lent->root = lent->nodes + (once_in(dice, 2) ? 0 : draw(dice) / 2);
        break;
    case 3:
        lent->assumptions = once_in(dice, 2) ? TOO_MANY_ASSUMPTIONS : draw(dice);
        break;
    case 4:
        lent->terms_length -= 1 + below(dice, NODE);
        break;
    default:
        terms[below(dice, lent->terms_length)] = (uint16_t)(once_in(dice, 2) ? draw(dice) : below(dice, 16));
    }
}

static void try_text(struct trial *trial)
{
    static uint16_t nodes[DRAWN_NODES * NODE];
    struct dice *dice = &trial->dice;
    struct book *book = &trial->book;
    struct draft lent = {0};
    draw_book(dice, book, &trial->large);
    if (once_in(dice, 8)) {
        damage_book(dice, book);
    }
    lent.nodes = draw_nodes(dice, book, nodes);
    lent.terms_length = NODE * lent.nodes;
    lent.root = once_in(dice, 2) ? lent.nodes - 1 : below(dice, lent.nodes);
    lent.count = book->count;
    lent.words_length = book->count;
    lent.assumptions = book->assumptions;
    if (once_in(dice, 3)) {
        damage_draft(trial, &lent, nodes);
    }
    lent.words = lend_copy(trial, &trial->words, book->words, lent.words_length * sizeof *lent.words);
    lent.names_length = book->names_length;
    lent.names = lend_copy(trial, &trial->names, book->names, lent.names_length);
    lent.terms = lend_copy(trial, &trial->terms, nodes, lent.terms_length * sizeof *nodes);
    lent.text_length = draw_text_length(trial);
    write_text(trial, &lent);
}

static void try_name(struct trial *trial)
{
    struct dice *dice = &trial->dice;
    size_t index = once_in(dice, 4) ? draw(dice) >> below(dice, 64) : below(dice, QUAYSAFFRON_LAST_INDEX + 10);
    size_t length = below(dice, NAME_ROOM);
    uint8_t *name = lend_junk(trial, &trial->text, length, 1);
    size_t *size = lend_junk(trial, &trial->size, 1, sizeof *size);
    struct written written = {0, 0, 0};
    written.number = quaysaffron_name(index, name, length, size);
    written.size = *size;
    count(trial, NAME, written.number, name_holds(index, name, length, written));
}

/* The house file of a book, cut, lengthened or with another bit now and then. */
static size_t draw_file(struct trial *trial)
{
    struct dice *dice = &trial->dice;
    size_t length;
    draw_book(dice, &trial->book, &trial->large);
    if (once_in(dice, 4)) {
        damage_book(dice, &trial->book);
    }
    length = house_file(&trial->book, trial->file);
    switch (below(dice, 16)) {
    case 0:
        return below(dice, length);
    case 1:
        return length + below(dice, FILE_ROOM - length);
    case 2:
        trial->file[below(dice, length)] ^= (uint8_t)(1 << below(dice, 8));
        return length;
    default:
        return length;
    }
}

static void try_output(struct trial *trial)
{
    size_t length = draw_file(trial), outcome, printed;
    uint8_t *file = lend_copy(trial, &trial->terms, trial->file, length);
    uint8_t *out = lend_junk(trial, &trial->text, QUAYSAFFRON_OUTPUT_BYTES, 1);
    bool right;
    printed = quaysaffron_output(file, length, out);
    right = output_holds(out, printed) && memcmp(file, trial->file, length) == 0;
    outcome = printed_refusal(out, printed);
    if (outcome == 0) {
        outcome = KINDS_FROM + (out[0] == 'p' ? QUAYSAFFRON_PROVED : QUAYSAFFRON_UNPROVABLE);
    }
    count(trial, OUTPUT, outcome, right);
}

static void try_test_words(struct trial *trial)
{
    struct dice *dice = &trial->dice;
    struct book *book = &trial->book;
    size_t counted, length, *place = lend_junk(trial, &trial->place, 1, sizeof *place), number;
    uint32_t *words;
    struct refusal refusal;
    draw_book(dice, book, &trial->large);
    if (once_in(dice, 2)) {
        damage_words(dice, book);
    }
    length = below(dice, book->count + 1);
    counted = once_in(dice, 8) ? draw(dice) : below(dice, book->count + 3);
    words = lend_copy(trial, &trial->words, book->words, length * sizeof *words);
    refusal = words_refusal(words, length, counted);
    number = quaysaffron_test_words(words, length, counted, place);
    count(trial, TEST_WORDS, number,
          number == refusal.number && *place == refusal.place && memcmp(words, book->words, length * sizeof *words) == 0);
}

static void try_test_names(struct trial *trial)
{
    struct dice *dice = &trial->dice;
    struct book *book = &trial->book;
    size_t assumptions, *place = lend_junk(trial, &trial->place, 1, sizeof *place), number;
    uint8_t *names;
    struct refusal refusal;
    draw_book(dice, book, &trial->large);
    if (once_in(dice, 2)) {
        damage_names(dice, book);
    }
    assumptions = once_in(dice, 8) ? draw(dice) >> below(dice, 64) : book->assumptions;
    names = lend_copy(trial, &trial->names, book->names, book->names_length);
    refusal = names_refusal(names, book->names_length, assumptions);
    number = quaysaffron_test_names(names, book->names_length, assumptions, place);
    count(trial, TEST_NAMES, number,
          number == refusal.number && *place == refusal.place && memcmp(names, book->names, book->names_length) == 0);
}

static void try_one(struct trial *trial)
{
    static void (*const tries[])(struct trial *) = {try_prove, try_prove, try_prove, try_prove, try_status, try_status, try_text,
                                                    try_text, try_name, try_output, try_test_words, try_test_names};
    tries[below(&trial->dice, sizeof tries / sizeof tries[0])](trial);
}

/* Tells what a call came to; an outcome that must be met and never was is wrong. */
static void tell(struct trial *trial, size_t call)
{
    printf("%s:", call_names[call]);
    for (size_t i = 0; i < OUTCOMES; i++) {
        size_t met = trial->met[call][i];
        bool missing = met == 0 && (must_meet[call] & NUMBER(i)) != 0;
        if (met == 0 && !missing) {
            continue;
        }
        if (i <= KINDS_FROM) {
            printf(" %zu: %zu,", i, met);
        } else {
            printf(" %s: %zu,", kind_names[i - KINDS_FROM], met);
        }
        trial->wrong += missing && ENOUGH_CALLS <= trial->calls;
    }
    puts("");
}

static bool make_room(struct trial *trial)
{
    return guard(&trial->words, sizeof trial->before.words) && guard(&trial->assumed, sizeof trial->book.assumed)
        && guard(&trial->names, BOOK_NAMES) && guard(&trial->terms, sizeof trial->before.terms)
        && guard(&trial->work, sizeof trial->before.work) && guard(&trial->text, ROOM_TEXT)
        && guard(&trial->answer, sizeof(quaysaffron_answer)) && guard(&trial->size, sizeof(size_t))
        && guard(&trial->place, sizeof(size_t));
}

int main(int arguments, char **argument)
{
    static struct trial trial;
    trial.wanted = arguments > 1 ? strtoul(argument[1], NULL, 10) : DEFAULT_CALLS;
    trial.dice.state = arguments > 2 ? strtoul(argument[2], NULL, 10) : 1;
    if (trial.wanted == 0 || !make_room(&trial)) {
        fputs("usage: random [CALLS [SEED]], with at least one call, and memory for it\n", stderr);
        return 2;
    }
    while (trial.calls < trial.wanted) {
        try_one(&trial);
    }
    for (size_t call = 0; call < CALLS; call++) {
        tell(&trial, call);
    }
    printf("%zu calls, %zu wrong\n", trial.calls, trial.wrong);
    return trial.wrong == 0 ? 0 : 1;
}
