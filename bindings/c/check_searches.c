/* Refusals 1 to 5 and shortages 6 to 11 through the search and the status. */
#include "checks.h"

#include <string.h>

/* Who is asked: the search alone, or the status too. */
enum { PROVE = 1, STATUS_TOO };

static const uint8_t junks[] = {0, 0x01, JUNK_BYTE, 0xff};

enum { JUNKS = sizeof junks };

/* What is lent beyond the book: few nodes, but for the claims that come to the limits of records and of levels. */
enum { SPARE_WORDS = 64, SPARE_NODES = 64, RECORDS_NODES = 1024, LEVELS_NODES = 128 };

struct search ample(struct checks *checks)
{
    struct slices *room = &checks->room.lent;
    struct book *book = &checks->book;
    struct search lent = {0};
    lent.words = room->words;
    lent.words_length = book->count + SPARE_WORDS < QUAYSAFFRON_MOST_WORDS ? book->count + SPARE_WORDS : QUAYSAFFRON_MOST_WORDS;
    lent.count = book->count;
    lent.assumed = book->assumed;
    lent.assumed_length = book->assumptions;
    lent.names = book->names;
    lent.names_length = book->names_length;
    lent.goal = book->goal;
    lent.terms = room->terms;
    lent.terms_length = SPARE_NODES * NODE;
    lent.work = room->work;
    lent.work_length = QUAYSAFFRON_WORK_RECORDS;
    lent.steps = QUAYSAFFRON_MOST_STEPS;
    return lent;
}

static bool as_expected(const quaysaffron_answer *answer, struct expected expected)
{
    bool verdict = QUAYSAFFRON_SOLVABLE <= expected.kind;
    return answer->kind == expected.kind && answer->number == expected.number && answer->place == expected.place
        && (verdict || answer->steps == expected.steps);
}

void lay_book(struct checks *checks, uint8_t junk)
{
    fill(&checks->room, junk);
    memcpy(checks->room.lent.words, checks->book.words, checks->book.count * sizeof(uint32_t));
}

/* What the status says of a book without free symbols where the search says this. */
static struct expected settled(struct expected expected)
{
    if (expected.kind == QUAYSAFFRON_PROVED) {
        expected.kind = QUAYSAFFRON_SOLVABLE;
    } else if (expected.kind == QUAYSAFFRON_UNPROVABLE) {
        expected.kind = QUAYSAFFRON_UNSOLVABLE;
    }
    return expected;
}

void expect_answer(struct checks *checks, room_search *ask, const struct search *lent, const char *what, struct expected expected)
{
    for (size_t i = 0; i < JUNKS; i++) {
        bool kept;
        quaysaffron_answer answer;
        lay_book(checks, junks[i]);
        answer = ask(&checks->room, lent, &kept);
        check(checks, kept && as_expected(&answer, expected), what);
    }
}

static void expect(struct checks *checks, int who, const struct search *lent, const char *what, struct expected expected)
{
    expect_answer(checks, room_prove, lent, what, expected);
    if (who == STATUS_TOO) {
        expect_answer(checks, room_status, lent, what, settled(expected));
    }
}

struct expected refused(size_t number, size_t place)
{
    struct expected expected = {QUAYSAFFRON_REFUSED, number, place, 0};
    return expected;
}

static struct expected lacking(size_t number, size_t steps)
{
    struct expected expected = {QUAYSAFFRON_SHORT, number, 0, steps};
    return expected;
}

struct expected proved(size_t steps)
{
    struct expected expected = {QUAYSAFFRON_PROVED, 0, 0, steps};
    return expected;
}

struct expected unprovable(size_t steps)
{
    struct expected expected = {QUAYSAFFRON_UNPROVABLE, 0, 0, steps};
    return expected;
}

/* p0->p0: 5 steps, a name, 2 nodes. */
static void lay_identity(struct checks *checks)
{
    struct book *book = clear(&checks->book);
    size_t p = atom(book, 0);
    book->goal = join(book, QUAYSAFFRON_IMPL, p, p);
}

static void lengths_of_words(struct checks *checks)
{
    struct search lent;
    struct expected sizes = refused(QUAYSAFFRON_SIZES, 0);
    lay_identity(checks);
    lent = ample(checks);
    lent.words_length = lent.count - 1;
    expect(checks, STATUS_TOO, &lent, "1: a word counted that is not there", sizes);
    lent.words_length = 0;
    lent.words = QUAYSAFFRON_EMPTY(uint32_t);
    expect(checks, STATUS_TOO, &lent, "1: no word lent", sizes);
    lent = ample(checks);
    lent.count = SIZE_MAX;
    expect(checks, STATUS_TOO, &lent, "1: the largest count", sizes);
    lent = ample(checks);
    lent.words_length = QUAYSAFFRON_MOST_WORDS + 1;
    expect(checks, STATUS_TOO, &lent, "1: a word too many", sizes);
    lent.words_length = QUAYSAFFRON_MOST_WORDS;
    expect(checks, STATUS_TOO, &lent, "the most words", proved(5));
    lent.words_length = lent.count;
    expect(checks, STATUS_TOO, &lent, "no more words than are given", proved(5));
}

static void lengths_of_terms(struct checks *checks)
{
    static const size_t wrong[] = {1, 5, 7, 11, QUAYSAFFRON_MOST_NUMBERS - 1, QUAYSAFFRON_MOST_NUMBERS + 1,
                                   QUAYSAFFRON_MOST_NUMBERS + NODE};
    struct search lent;
    lay_identity(checks);
    lent = ample(checks);
    for (size_t i = 0; i < sizeof wrong / sizeof wrong[0]; i++) {
        lent.terms_length = wrong[i];
        expect(checks, STATUS_TOO, &lent, "1: no whole nodes, or a node too many", refused(QUAYSAFFRON_SIZES, 0));
    }
    lent.terms_length = QUAYSAFFRON_MOST_NUMBERS;
    expect(checks, STATUS_TOO, &lent, "the most nodes", proved(5));
}

static void lengths_of_work(struct checks *checks)
{
    static const size_t wrong[] = {0, 1, QUAYSAFFRON_WORK_RECORDS - 1, QUAYSAFFRON_WORK_RECORDS + 1};
    struct search lent;
    lay_identity(checks);
    lent = ample(checks);
    for (size_t i = 0; i < sizeof wrong / sizeof wrong[0]; i++) {
        lent.work_length = wrong[i];
        lent.work = wrong[i] == 0 ? QUAYSAFFRON_EMPTY(quaysaffron_record) : checks->room.lent.work;
        expect(checks, STATUS_TOO, &lent, "1: the work area", refused(QUAYSAFFRON_SIZES, 0));
    }
    lent = ample(checks);
    lent.steps = QUAYSAFFRON_MOST_STEPS + 1;
    expect(checks, STATUS_TOO, &lent, "1: a step too many", refused(QUAYSAFFRON_SIZES, 0));
    lent.steps = SIZE_MAX;
    expect(checks, STATUS_TOO, &lent, "1: the largest step limit", refused(QUAYSAFFRON_SIZES, 0));
}

/* Every slice empty but the work area, and then that too. */
static void nothing_lent(struct checks *checks)
{
    struct search lent = {0};
    clear(&checks->book);
    lent.words = QUAYSAFFRON_EMPTY(uint32_t);
    lent.assumed = QUAYSAFFRON_EMPTY(uint16_t);
    lent.names = QUAYSAFFRON_EMPTY(uint8_t);
    lent.terms = QUAYSAFFRON_EMPTY(uint16_t);
    lent.work = checks->room.lent.work;
    lent.work_length = QUAYSAFFRON_WORK_RECORDS;
    expect(checks, STATUS_TOO, &lent, "5: no formula", refused(QUAYSAFFRON_BAD_GOAL, 0));
    lent.work = QUAYSAFFRON_EMPTY(quaysaffron_record);
    lent.work_length = 0;
    expect(checks, STATUS_TOO, &lent, "1: nothing lent", refused(QUAYSAFFRON_SIZES, 0));
}

/* p0, a word that breaks the layout and another one; words behind the count may. */
static void wrong_word(struct checks *checks, uint32_t word)
{
    struct book *book = clear(&checks->book);
    struct search lent;
    atom(book, 0);
    add(book, word);
    add(book, QUAYSAFFRON_NO_WORD);
    lent = ample(checks);
    expect(checks, STATUS_TOO, &lent, "2: the lowest of two words", refused(QUAYSAFFRON_BAD_FORMULA, 1));
    lent.count = 1;
    expect(checks, PROVE, &lent, "a word behind the count", unprovable(3));
}

static void words(struct checks *checks)
{
    static const size_t wrong[][3] = {
        {QUAYSAFFRON_TRUE, 1, 0}, {QUAYSAFFRON_TRUE, 0, 1}, {QUAYSAFFRON_FALSE, 1, 0}, {QUAYSAFFRON_FALSE, 0, 1},
        {QUAYSAFFRON_ATOM, 0, 1}, {QUAYSAFFRON_FOR_ALL, 0, 1}, {QUAYSAFFRON_EXISTS, 0, 1}, {QUAYSAFFRON_AND, 1, 0},
        {QUAYSAFFRON_AND, 0, 1}, {QUAYSAFFRON_OR, 1, 0}, {QUAYSAFFRON_OR, 0, 1}, {QUAYSAFFRON_IMPL, 1, 0}, {QUAYSAFFRON_IMPL, 0, 1},
    };
    struct search lent;
    for (size_t i = 0; i < sizeof wrong / sizeof wrong[0]; i++) {
        wrong_word(checks, quaysaffron_word(wrong[i][0], wrong[i][1], wrong[i][2]));
    }
    for (uint32_t kind = QUAYSAFFRON_EXISTS + 1; kind <= QUAYSAFFRON_NO_WORD; kind++) {
        wrong_word(checks, kind);
    }
    clear(&checks->book);
    checks->book.goal = join(&checks->book, QUAYSAFFRON_AND, 0, 0);
    lent = ample(checks);
    expect(checks, STATUS_TOO, &lent, "2: a word that is its own part", refused(QUAYSAFFRON_BAD_FORMULA, 0));
}

static void assumptions(struct checks *checks)
{
    struct book *book = clear(&checks->book);
    struct search lent;
    book->goal = atom(book, 0);
    assume_next(book, 0);
    assume_next(book, 1);
    assume_next(book, UINT16_MAX);
    lent = ample(checks);
    expect(checks, PROVE, &lent, "3: an index that is the count", refused(QUAYSAFFRON_BAD_ASSUMPTION, 1));
    for (size_t i = book->assumptions; i < TOO_MANY_ASSUMPTIONS; i++) {
        assume_next(book, 0);
    }
    lent = ample(checks);
    expect(checks, PROVE, &lent, "3: 65 assumptions, before one out of range",
           refused(QUAYSAFFRON_BAD_ASSUMPTION, QUAYSAFFRON_MOST_ASSUMPTIONS));
    book->assumed[1] = 0;
    book->assumed[2] = 0;
    lent.assumed_length = QUAYSAFFRON_MOST_ASSUMPTIONS;
    lent.names_length -= 4;
    lent.terms_length = QUAYSAFFRON_MOST_ASSUMPTIONS * NODE;
    expect(checks, PROVE, &lent, "64 assumptions", proved(67));
}

/* A text of names that is refused at a place, for so many assumptions. */
struct names {
    const char *what;
    const char *text;
    size_t length;
    size_t assumptions;
    size_t place;
};

static const struct names wrong_names[] = {
    {"4: no text", "", 0, 1, 0},
    {"4: an empty name", "\0", 1, 1, 0},
    {"4: a cut name", "\2x", 2, 1, 0},
    {"4: a byte that no name has", "\1x\3a-b", 6, 2, 1},
    {"4: a zero byte", "\2x\0", 3, 1, 0},
    {"4: 33 bytes", "\41xxxxxxxxxxxxxxxxxxxxxxxxxxxxxxxxx", 34, 1, 0},
    {"4: a repeated name", "\1x\1y\1x", 6, 3, 2},
    {"4: a name too few", "\1x\1y", 4, 3, 2},
    {"4: a name too many", "\1x\1y", 4, 1, 1},
    {"4: text behind the last name", "\1x\1", 3, 1, 1},
    {"4: text without assumptions", "\1x", 2, 0, 0},
};

static void names(struct checks *checks)
{
    struct book *book = clear(&checks->book);
    struct search lent;
    book->goal = atom(book, 0);
    lent = ample(checks);
    for (size_t i = 0; i < sizeof wrong_names / sizeof wrong_names[0]; i++) {
        lent.assumed_length = wrong_names[i].assumptions;
        lent.names = (const uint8_t *)wrong_names[i].text;
        lent.names_length = wrong_names[i].length;
        expect(checks, PROVE, &lent, wrong_names[i].what, refused(QUAYSAFFRON_BAD_NAMES, wrong_names[i].place));
    }
    lent.assumed_length = 2;
    lent.names = (const uint8_t *)"\40Zzxxxxxxxxxxxxxxxxxxxxxxxxxxxx09\1_";
    lent.names_length = 35;
    expect(checks, PROVE, &lent, "names of 32 bytes and of 1", proved(5));
}

static void goals(struct checks *checks)
{
    struct search lent;
    lay_identity(checks);
    lent = ample(checks);
    lent.goal = lent.count;
    expect(checks, STATUS_TOO, &lent, "5: the goal is the count", refused(QUAYSAFFRON_BAD_GOAL, 0));
    lent.goal = SIZE_MAX;
    expect(checks, STATUS_TOO, &lent, "5: the largest goal", refused(QUAYSAFFRON_BAD_GOAL, 0));
    /* an index whose low half is a lawful one */
    lent.goal = (size_t)1 << 32;
    expect(checks, STATUS_TOO, &lent, "5: a goal of over 32 bits", refused(QUAYSAFFRON_BAD_GOAL, 0));
}

static void steps_and_terms(struct checks *checks)
{
    struct search lent;
    lay_identity(checks);
    lent = ample(checks);
    for (lent.steps = 0; lent.steps < 5; lent.steps++) {
        expect(checks, STATUS_TOO, &lent, "6: too few steps", lacking(QUAYSAFFRON_STEPS, lent.steps));
    }
    expect(checks, STATUS_TOO, &lent, "as many steps as are needed", proved(5));
    lent.terms = QUAYSAFFRON_EMPTY(uint16_t);
    lent.terms_length = 0;
    expect(checks, STATUS_TOO, &lent, "9: no node", lacking(QUAYSAFFRON_TERMS, 1));
    lent.terms = checks->room.lent.terms;
    lent.terms_length = NODE;
    expect(checks, STATUS_TOO, &lent, "9: a node too few", lacking(QUAYSAFFRON_TERMS, 5));
    lent.terms_length = 2 * NODE;
    expect(checks, STATUS_TOO, &lent, "as many nodes as are needed", proved(5));
}

static void generated_names(struct checks *checks)
{
    for (size_t more = 0; more < 2; more++) {
        struct book *book = clear(&checks->book);
        size_t p = atom(book, 0);
        size_t tried = join(book, QUAYSAFFRON_IMPL, p, atom(book, 1));
        struct search lent;
        book->goal = disjunction(book, QUAYSAFFRON_LAST_INDEX + 1 + more, tried);
        lent = ample(checks);
        if (more == 0) {
            expect(checks, STATUS_TOO, &lent, "as many names as there are", unprovable(32765));
        } else {
            expect(checks, STATUS_TOO, &lent, "7: a name too few", lacking(QUAYSAFFRON_NAMES, 32769));
        }
    }
}

/* ((p0&p1)->p2)->p2 makes 2 words. */
static void formulas(struct checks *checks)
{
    struct book *book = clear(&checks->book);
    size_t p = atom(book, 0);
    size_t both = join(book, QUAYSAFFRON_AND, p, atom(book, 1));
    size_t q = atom(book, 2);
    struct search lent;
    book->goal = join(book, QUAYSAFFRON_IMPL, join(book, QUAYSAFFRON_IMPL, both, q), q);
    lent = ample(checks);
    for (size_t more = 0; more < 2; more++) {
        lent.words_length = lent.count + more;
        expect(checks, STATUS_TOO, &lent, "8: too few words", lacking(QUAYSAFFRON_FORMULAS, 3));
    }
    lent.words_length = lent.count + 2;
    expect(checks, STATUS_TOO, &lent, "as many words as are needed", unprovable(6));
}

static void contexts_and_levels(struct checks *checks)
{
    for (size_t more = 0; more < 2; more++) {
        struct book *book = clear(&checks->book);
        size_t all = balanced(book, QUAYSAFFRON_AND, 0, QUAYSAFFRON_MOST_RECORDS + more);
        struct search lent;
        book->goal = join(book, QUAYSAFFRON_IMPL, all, atom(book, QUAYSAFFRON_FIRST_FREE_SYMBOL - 1));
        lent = ample(checks);
        lent.terms_length = RECORDS_NODES * NODE;
        expect(checks, STATUS_TOO, &lent, "10: 256 records and one more",
               more == 0 ? unprovable(515) : lacking(QUAYSAFFRON_CONTEXTS, 513));
    }
    for (size_t more = 0; more < 2; more++) {
        struct book *book = clear(&checks->book);
        size_t p = atom(book, 0);
        struct search lent;
        book->goal = chain(book, QUAYSAFFRON_IMPL, p, QUAYSAFFRON_HIGHEST_LEVEL + more, p);
        lent = ample(checks);
        lent.terms_length = LEVELS_NODES * NODE;
        expect(checks, STATUS_TOO, &lent, "11: 63 levels and one more", more == 0 ? proved(129) : lacking(QUAYSAFFRON_LEVELS, 64));
    }
}

/* p8192, or p8192&(p8192->F): only the second search of the status needs the two added words and nodes. */
static struct search lay_open(struct checks *checks, bool both_ways)
{
    struct book *book = clear(&checks->book);
    size_t letter = atom(book, QUAYSAFFRON_FIRST_FREE_SYMBOL);
    book->goal = letter;
    if (both_ways) {
        size_t falsity = join(book, QUAYSAFFRON_FALSE, 0, 0);
        book->goal = join(book, QUAYSAFFRON_AND, letter, join(book, QUAYSAFFRON_IMPL, letter, falsity));
    }
    return ample(checks);
}

/* A status on both sides of the steps and nodes that suffice, and of the two words; at_nodes: the steps at which fewer nodes run short. */
static void second_search(struct checks *checks, bool both_ways, size_t steps, size_t nodes, const size_t at_nodes[])
{
    struct expected verdict = {both_ways ? QUAYSAFFRON_UNSOLVABLE : QUAYSAFFRON_UNKNOWN, 0, 0, 0};
    struct search lent = lay_open(checks, both_ways);
    for (lent.steps = 0; lent.steps < steps; lent.steps++) {
        expect_answer(checks, room_status, &lent, "6: too few steps for a status", lacking(QUAYSAFFRON_STEPS, lent.steps));
    }
    expect_answer(checks, room_status, &lent, "as many steps as a status needs", verdict);
    for (lent.words_length = lent.count; lent.words_length < lent.count + 2; lent.words_length++) {
        expect_answer(checks, room_status, &lent, "8: no room for the two words", lacking(QUAYSAFFRON_FORMULAS, 0));
    }
    expect_answer(checks, room_status, &lent, "room for the two words", verdict);
    for (size_t few = 0; few < nodes; few++) {
        lent.terms_length = few * NODE;
        expect_answer(checks, room_status, &lent, "9: too few nodes for a status", lacking(QUAYSAFFRON_TERMS, at_nodes[few]));
    }
    lent.terms_length = nodes * NODE;
    expect_answer(checks, room_status, &lent, "as many nodes as a status needs", verdict);
}

static void second_searches(struct checks *checks)
{
    static const size_t one_node[] = {1}, six_nodes[] = {1, 3, 3, 7, 8, 8};
    second_search(checks, false, 5, 1, one_node);
    second_search(checks, true, 8, 6, six_nodes);
}

void check_searches(struct checks *checks)
{
    lengths_of_words(checks);
    lengths_of_terms(checks);
    lengths_of_work(checks);
    nothing_lent(checks);
    words(checks);
    assumptions(checks);
    names(checks);
    goals(checks);
    steps_and_terms(checks);
    generated_names(checks);
    formulas(checks);
    contexts_and_levels(checks);
    second_searches(checks);
}
