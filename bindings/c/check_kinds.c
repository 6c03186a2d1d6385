/* One symbol, one kind (document 02, request 6): a word whose leaf symbol stands at a lower index under another leaf kind is refused with 2
 * at that word, by every call that tests words, and nothing lent is changed. */
#include "checks.h"
#include "rules.h"

#include <string.h>

/* Room for a text; a symbol; the steps of a leaf from a leaf, proved or not; an index that no book has. */
enum { TEXT_BYTES = 40, SYMBOL = 5, LEAF_STEPS = 4, OUTSIDE = QUAYSAFFRON_MOST_WORDS };

/* The text of x, a node of six numbers. */
static void expect_text(struct checks *checks, const struct search *book, const char *what, size_t number, size_t place)
{
    struct draft lent = {book->words, book->words_length, book->count, book->assumed_length, book->names, book->names_length,
                         book->terms, book->terms_length, 1, 0, checks->room.lent.text, TEXT_BYTES};
    struct written written;
    bool kept;
    memset(book->terms, 0, NODE * sizeof *book->terms);
    written = room_text(&checks->room, &lent, &kept);
    check(checks, kept && written.number == number && written.place == place, what);
}

/* The output for the book as a house file, which holds fewer words than may be lent. */
static void expect_output(struct checks *checks, const char *what, size_t number)
{
    static uint8_t file[2 * QUAYSAFFRON_MOST_FILE_BYTES];
    size_t length = house_file(&checks->book, file), printed;
    bool kept;
    printed = room_output(&checks->room, file, length, &kept);
    check(checks, kept && printed_refusal(checks->room.lent.text, printed) == number, what);
}

/* What every call says of the first so many words of the book, and of one of them as the goal; word 0 is assumed as x. */
static void expect_of(struct checks *checks, size_t count, size_t goal, const char *what, struct expected search, struct expected status)
{
    struct search lent;
    if (checks->book.assumptions == 0) {
        assume(&checks->book, "x", 0);
    }
    checks->book.goal = goal;
    lent = ample(checks);
    lent.count = count;
    lay_book(checks, JUNK_BYTE);
    expect_test(checks, of_words, lent.words_length, count, what, search.number, search.place);
    expect_text(checks, &lent, what, search.number, search.place);
    expect_answer(checks, room_prove, &lent, what, search);
    expect_answer(checks, room_status, &lent, what, status);
}

/* .. that they are lawful. The goal is a leaf as x is: it is the same, or has no proof. */
static void expect_lawful(struct checks *checks, size_t count, size_t goal, const char *what)
{
    uint32_t x = checks->book.words[0], word = checks->book.words[goal];
    bool closed = kind_of(word) == QUAYSAFFRON_ATOM && left_of(word) < QUAYSAFFRON_FIRST_FREE_SYMBOL;
    struct expected status = {closed ? QUAYSAFFRON_UNSOLVABLE : QUAYSAFFRON_UNKNOWN, 0, 0, 0};
    expect_of(checks, count, goal, what, x == word ? proved(LEAF_STEPS) : unprovable(LEAF_STEPS), status);
}

/* .. that they are refused. */
static void expect_refused(struct checks *checks, size_t count, size_t goal, const char *what, size_t place)
{
    struct expected refusal = refused(QUAYSAFFRON_BAD_FORMULA, place);
    expect_of(checks, count, goal, what, refusal, refusal);
}

/* The same of a whole book, with its last word and its first as the goal. It is small enough for a house file. */
static void expect_pass(struct checks *checks, const char *what)
{
    size_t count = checks->book.count;
    expect_lawful(checks, count, count - 1, what);
    expect_lawful(checks, count, 0, what);
    expect_output(checks, what, 0);
}

static void expect_refusal(struct checks *checks, const char *what, size_t place)
{
    size_t count = checks->book.count;
    expect_refused(checks, count, count - 1, what, place);
    expect_refused(checks, count, 0, what, place);
    expect_output(checks, what, QUAYSAFFRON_BAD_FORMULA);
}

static void two_leaves(struct checks *checks, size_t first, size_t second, size_t symbol)
{
    struct book *book = clear(&checks->book);
    leaf(book, first, symbol);
    leaf(book, second, symbol);
}

/* Two kinds of one symbol: together, with words between them that nothing uses, and the second one behind the count. */
static void mixed(struct checks *checks, size_t first, size_t second, size_t symbol)
{
    struct book *book;
    two_leaves(checks, first, second, symbol);
    expect_refusal(checks, "2: a symbol under a second kind", 1);
    expect_lawful(checks, 1, 0, "a second kind behind the count");
    book = clear(&checks->book);
    truth(book);
    leaf(book, first, symbol);
    join(book, QUAYSAFFRON_AND, 0, 0);
    leaf(book, second, symbol);
    truth(book);
    expect_refusal(checks, "2: a second kind that nothing uses", 3);
}

static void pairs(struct checks *checks)
{
    static const size_t symbols[] = {0, SYMBOL, QUAYSAFFRON_LAST_SYMBOL};
    for (size_t i = 0; i < LEAF_KINDS * LEAF_KINDS; i++) {
        size_t first = leaf_kinds[i / LEAF_KINDS], second = leaf_kinds[i % LEAF_KINDS];
        for (size_t k = 0; k < sizeof symbols / sizeof symbols[0]; k++) {
            if (first != second) {
                mixed(checks, first, second, symbols[k]);
                continue;
            }
            two_leaves(checks, first, second, symbols[k]);
            expect_pass(checks, "equal leaves");
        }
    }
}

/* Of a second kind and a word that breaks the layout the lower one is told. */
static void lowest(struct checks *checks)
{
    struct book *book;
    two_leaves(checks, QUAYSAFFRON_ATOM, QUAYSAFFRON_FOR_ALL, SYMBOL);
    add(&checks->book, QUAYSAFFRON_NO_WORD);
    expect_refusal(checks, "2: a second kind before another fault", 1);
    book = clear(&checks->book);
    atom(book, SYMBOL);
    add(book, QUAYSAFFRON_NO_WORD);
    leaf(book, QUAYSAFFRON_FOR_ALL, SYMBOL);
    expect_refusal(checks, "2: a fault before a second kind", 1);
    two_leaves(checks, QUAYSAFFRON_ATOM, QUAYSAFFRON_ATOM, SYMBOL);
    leaf(&checks->book, QUAYSAFFRON_EXISTS, SYMBOL);
    leaf(&checks->book, QUAYSAFFRON_FOR_ALL, SYMBOL);
    expect_refusal(checks, "2: the second of three kinds", 2);
}

/* The parts of And, Or and Impl are no symbols, and each symbol has a kind of its own. */
static void apart(struct checks *checks)
{
    struct book *book = clear(&checks->book);
    atom(book, SYMBOL);
    for (size_t kind = QUAYSAFFRON_AND; kind <= QUAYSAFFRON_IMPL; kind++) {
        join(book, kind, 0, 0);
    }
    leaf(book, QUAYSAFFRON_FOR_ALL, 0);
    join(book, QUAYSAFFRON_AND, 1, 1);
    leaf(book, QUAYSAFFRON_EXISTS, 1);
    expect_pass(checks, "parts are no symbols");
    clear(book);
    atom(book, 0);
    for (size_t symbol = 1, turn = 1; symbol < SYMBOLS; symbol *= 2, turn++) {
        leaf(book, leaf_kinds[1 + turn % (LEAF_KINDS - 1)], symbol);
    }
    expect_pass(checks, "symbols that differ in one bit");
}

/* The library keeps the kinds of four symbols in a byte, those that differ in their two top bits alone. Here they have kinds by turns, and
 * then any of them stands once more under each other kind. */
static void sharing(struct checks *checks)
{
    enum { SHARED = 4, APART = SYMBOLS / SHARED };
    for (size_t turn = 0; turn < LEAF_KINDS; turn++) {
        struct book *book = clear(&checks->book);
        for (size_t i = 0; i < SHARED; i++) {
            leaf(book, leaf_kinds[(turn + i) % LEAF_KINDS], SYMBOL + APART * i);
        }
        expect_pass(checks, "symbols that share a byte");
        for (size_t i = 0; i < SHARED * (LEAF_KINDS - 1); i++) {
            size_t again = i % SHARED, other = turn + again + 1 + i / SHARED;
            book->count = SHARED;
            leaf(book, leaf_kinds[other % LEAF_KINDS], SYMBOL + APART * again);
            expect_refusal(checks, "2: a second kind among symbols that share a byte", SHARED);
        }
    }
}

/* Every symbol as an atom, and a quantified one in the place of the last. */
static void all_symbols(struct checks *checks)
{
    struct book *book = clear(&checks->book);
    for (size_t symbol = 0; symbol < SYMBOLS; symbol++) {
        atom(book, symbol);
    }
    expect_lawful(checks, SYMBOLS, 0, "as many symbols as there are");
    book->words[SYMBOLS - 1] = quaysaffron_word(QUAYSAFFRON_FOR_ALL, 0, 0);
    expect_refused(checks, SYMBOLS, 0, "2: the last of 16,384 words", SYMBOLS - 1);
    expect_lawful(checks, SYMBOLS - 1, 0, "one word fewer");
}

/* Row 1 comes before row 2, rows 3 to 5 come behind it. */
static void rows(struct checks *checks)
{
    static const uint16_t outside[] = {OUTSIDE};
    struct expected mixed = refused(QUAYSAFFRON_BAD_FORMULA, 1), sizes = refused(QUAYSAFFRON_SIZES, 0);
    struct search lent;
    two_leaves(checks, QUAYSAFFRON_ATOM, QUAYSAFFRON_FOR_ALL, SYMBOL);
    lent = ample(checks);
    lent.assumed = outside;
    lent.assumed_length = 1;
    lent.names = (const uint8_t *)"\1-";
    lent.names_length = 2;
    lent.goal = OUTSIDE;
    expect_answer(checks, room_prove, &lent, "2: before an assumption, a name and a goal at fault", mixed);
    expect_answer(checks, room_status, &lent, "2: before a goal at fault", mixed);
    lent.terms_length = NODE + 1;
    expect_answer(checks, room_prove, &lent, "1: before a second kind", sizes);
    expect_answer(checks, room_status, &lent, "1: before a second kind", sizes);
}

void check_kinds(struct checks *checks)
{
    pairs(checks);
    lowest(checks);
    apart(checks);
    sharing(checks);
    all_symbols(checks);
    rows(checks);
}
