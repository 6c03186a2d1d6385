/* The writer of texts, the names asked for alone, and the two tests. */
#include "checks.h"

#include <string.h>

/* What the drafts below begin with: p0, assumed as x; the nodes x, (pair x x), (as (pair x x) p0). */
static const uint16_t ascribed_pair[] = {QUAYSAFFRON_IDENT, 0, 0, 0, 0, 0, QUAYSAFFRON_PAIR, 0, 0, 0, 0, 0,
                                         QUAYSAFFRON_ASCRIPTION, 1, 0, 0, 0, 0};
static const char ascribed_text[] = "(as (pair x x) p0)";

enum { NODES = sizeof ascribed_pair / sizeof ascribed_pair[0] / NODE, TEXT_BYTES = sizeof ascribed_text - 1 };

static struct draft start(struct checks *checks)
{
    struct slices *room = &checks->room.lent;
    struct draft lent = {room->words, 1, 1, 1, (const uint8_t *)"\1x", 2, room->terms, NODES * NODE, NODES, NODES - 1, room->text, 64};
    fill(&checks->room, JUNK_BYTE);
    room->words[0] = quaysaffron_word(QUAYSAFFRON_ATOM, 0, 0);
    memcpy(room->terms, ascribed_pair, sizeof ascribed_pair);
    return lent;
}

static void expect(struct checks *checks, const struct draft *lent, const char *what, size_t number, size_t place)
{
    bool kept;
    struct written written = room_text(&checks->room, lent, &kept);
    check(checks, kept && written.number == number && written.place == place, what);
}

static void text_sizes(struct checks *checks)
{
    /* six times the last of these is 2 in 64 bits */
    static const size_t wrong_nodes[] = {NODES + 1, SIZE_MAX, SIZE_MAX / NODE, SIZE_MAX / NODE + 1};
    static const size_t wrong_lengths[] = {1, NODES * NODE - 1, NODES * NODE + 1, QUAYSAFFRON_MOST_NUMBERS + NODE};
    struct draft lent = start(checks);
    for (size_t i = 0; i < sizeof wrong_nodes / sizeof wrong_nodes[0]; i++) {
        lent.nodes = wrong_nodes[i];
        expect(checks, &lent, "text, 1: nodes that are not there", QUAYSAFFRON_SIZES, 0);
    }
    lent = start(checks);
    for (size_t i = 0; i < sizeof wrong_lengths / sizeof wrong_lengths[0]; i++) {
        lent.terms_length = wrong_lengths[i];
        expect(checks, &lent, "text, 1: no whole nodes, or too many", QUAYSAFFRON_SIZES, 0);
    }
    lent = start(checks);
    lent.count = 2;
    expect(checks, &lent, "text, 1: a word that is not there", QUAYSAFFRON_SIZES, 0);
    lent.count = SIZE_MAX;
    expect(checks, &lent, "text, 1: the largest count", QUAYSAFFRON_SIZES, 0);
    lent = start(checks);
    lent.words_length = QUAYSAFFRON_MOST_WORDS + 1;
    expect(checks, &lent, "text, 1: a word too many", QUAYSAFFRON_SIZES, 0);
}

static void text_books(struct checks *checks)
{
    struct draft lent = start(checks);
    lent.words_length = 3;
    lent.count = 3;
    checks->room.lent.words[1] = quaysaffron_word(QUAYSAFFRON_AND, 0, 0);
    checks->room.lent.words[2] = QUAYSAFFRON_NO_WORD;
    expect(checks, &lent, "text, 2: a word", QUAYSAFFRON_BAD_FORMULA, 2);
    lent = start(checks);
    lent.assumptions = TOO_MANY_ASSUMPTIONS;
    expect(checks, &lent, "text, 3: 65 assumptions", QUAYSAFFRON_BAD_ASSUMPTION, QUAYSAFFRON_MOST_ASSUMPTIONS);
    lent.assumptions = SIZE_MAX;
    expect(checks, &lent, "text, 3: the most assumptions", QUAYSAFFRON_BAD_ASSUMPTION, QUAYSAFFRON_MOST_ASSUMPTIONS);
    lent.assumptions = 2;
    expect(checks, &lent, "text, 4: a name too few", QUAYSAFFRON_BAD_NAMES, 1);
    lent.assumptions = 0;
    expect(checks, &lent, "text, 4: a name too many", QUAYSAFFRON_BAD_NAMES, 0);
    lent.assumptions = 1;
    lent.names = QUAYSAFFRON_EMPTY(uint8_t);
    lent.names_length = 0;
    expect(checks, &lent, "text, 4: no text of names", QUAYSAFFRON_BAD_NAMES, 0);
}

/* Nodes that break the layout in the place of node 1, the pair. */
static const uint16_t wrong_nodes[][NODE] = {
    {6, 0, 0, 0, 0, 0}, {13, 0, 0, 0, 0, 0}, {UINT16_MAX, 0, 0, 0, 0, 0}, {QUAYSAFFRON_PAIR, 1, 0, 0, 0, 0},
    {QUAYSAFFRON_PAIR, 0, 1, 0, 0, 0}, {QUAYSAFFRON_PAIR, 0, 0, 1, 0, 0}, {QUAYSAFFRON_IDENT, 1, 0, 0, 0, 0},
    {QUAYSAFFRON_IDENT, 63, 0, 0, 0, 0}, {QUAYSAFFRON_IDENT, QUAYSAFFRON_FIRST_GENERATED + QUAYSAFFRON_LAST_INDEX + 1, 0, 0, 0, 0},
    {QUAYSAFFRON_IDENT, 0, 1, 0, 0, 0},
    {QUAYSAFFRON_FUNCTION, 0, 1, 0, 0, 0}, {QUAYSAFFRON_ASCRIPTION, 0, 1, 0, 0, 0}, {QUAYSAFFRON_UNIT, 1, 0, 0, 0, 0},
    {QUAYSAFFRON_CASE, 0, 0, 0, 0, 1}, {QUAYSAFFRON_ABORT, 0, 0, 0, 0, 1}, {QUAYSAFFRON_IDENT, UINT16_MAX, 0, 0, 0, 0},
};

static void text_terms(struct checks *checks)
{
    struct draft lent;
    for (size_t i = 0; i < sizeof wrong_nodes / sizeof wrong_nodes[0]; i++) {
        lent = start(checks);
        memcpy(checks->room.lent.terms + NODE, wrong_nodes[i], sizeof wrong_nodes[i]);
        expect(checks, &lent, "text, 13: a node", QUAYSAFFRON_BAD_TERM, 1);
        lent.nodes = 1;
        lent.root = 0;
        expect(checks, &lent, "a node behind the count", 0, 0);
    }
    lent = start(checks);
    lent.root = NODES;
    expect(checks, &lent, "text, 13: the root is the node count", QUAYSAFFRON_BAD_TERM, NODES);
    lent.root = SIZE_MAX;
    expect(checks, &lent, "text, 13: the largest root", QUAYSAFFRON_BAD_TERM, NODES);
    lent.terms = QUAYSAFFRON_EMPTY(uint16_t);
    lent.terms_length = 0;
    lent.nodes = 0;
    lent.root = 0;
    expect(checks, &lent, "text, 13: no node", QUAYSAFFRON_BAD_TERM, 0);
    lent = start(checks);
    lent.names = (const uint8_t *)"\1a";
    checks->room.lent.terms[1] = QUAYSAFFRON_FIRST_GENERATED;
    expect(checks, &lent, "text, 13: a generated name that an assumption has", QUAYSAFFRON_BAD_TERM, 0);
}

static void text_rooms(struct checks *checks)
{
    struct draft lent;
    for (size_t length = 0; length < TEXT_BYTES; length++) {
        lent = start(checks);
        lent.text_length = length;
        expect(checks, &lent, "text, 12: a buffer that is too short", QUAYSAFFRON_NO_ROOM, 0);
    }
    for (size_t length = TEXT_BYTES; length < TEXT_BYTES + 2; length++) {
        lent = start(checks);
        lent.text_length = length;
        expect(checks, &lent, "a buffer with room", 0, 0);
        check(checks, memcmp(checks->room.lent.text, ascribed_text, TEXT_BYTES) == 0, "the text");
    }
    lent = start(checks);
    lent.text = QUAYSAFFRON_EMPTY(uint8_t);
    lent.text_length = 0;
    expect(checks, &lent, "text, 12: no buffer", QUAYSAFFRON_NO_ROOM, 0);
}

static void names_alone(struct checks *checks)
{
    static const size_t indices[] = {0, LETTERS - 1, LETTERS, 2 * LETTERS - 1, 2 * LETTERS, 3 * LETTERS, 14 * LETTERS - 1, 14 * LETTERS,
                                     QUAYSAFFRON_LAST_INDEX};
    static const size_t over[] = {QUAYSAFFRON_LAST_INDEX + 1, (size_t)1 << 32, SIZE_MAX};
    bool kept;
    for (size_t i = 0; i < sizeof indices / sizeof indices[0]; i++) {
        size_t letters = indices[i] / LETTERS + 1;
        for (size_t room = letters - 1; room <= letters + 1; room++) {
            fill(&checks->room, JUNK_BYTE);
            room_name(&checks->room, indices[i], room, &kept);
            check(checks, kept, "a name in a byte too few, just enough and one more");
        }
    }
    for (size_t i = 0; i < sizeof over / sizeof over[0]; i++) {
        for (size_t room = 0; room <= QUAYSAFFRON_MOST_GENERATED_BYTES + 1; room++) {
            fill(&checks->room, JUNK_BYTE);
            room_name(&checks->room, over[i], room, &kept);
            check(checks, kept, "name, 7: an index that is too high, whatever the room");
        }
    }
}

size_t of_words(const struct slices *lent, size_t length, size_t count, size_t *place)
{
    return quaysaffron_test_words(length == 0 ? QUAYSAFFRON_EMPTY(uint32_t) : lent->words, length, count, place);
}

size_t of_names(const struct slices *lent, size_t length, size_t names, size_t *place)
{
    return quaysaffron_test_names(length == 0 ? QUAYSAFFRON_EMPTY(uint8_t) : lent->text, length, names, place);
}

void expect_test(struct checks *checks, test_call *test, size_t length, size_t count, const char *what, size_t number, size_t place)
{
    struct room *room = &checks->room;
    size_t at = JUNK_BYTE, returned;
    room->before = room->lent;
    returned = test(&room->lent, length, count, &at);
    check(checks, returned == number && at == place && memcmp(&room->before, &room->lent, sizeof room->lent) == 0, what);
}

/* A word that is lawful behind another one; the leaves have symbols of their own. */
static uint32_t word_of_kind(size_t kind)
{
    for (size_t i = 0; i < LEAF_KINDS; i++) {
        if (kind == leaf_kinds[i]) {
            return quaysaffron_word(kind, i, 0);
        }
    }
    return quaysaffron_word(kind, 0, 0);
}

static void test_words(struct checks *checks)
{
    enum { LAST = QUAYSAFFRON_MOST_WORDS - 1 };
    uint32_t *words = checks->room.lent.words;
    fill(&checks->room, JUNK_BYTE);
    expect_test(checks, of_words, 0, 0, "no word", 0, 0);
    expect_test(checks, of_words, 0, SIZE_MAX, "no word of many", 0, 0);
    for (size_t i = 0; i < QUAYSAFFRON_MOST_WORDS; i++) {
        words[i] = word_of_kind(i % (QUAYSAFFRON_EXISTS + 1));
    }
    words[3] = quaysaffron_word(QUAYSAFFRON_AND, 2, 2);
    words[LAST] = quaysaffron_word(QUAYSAFFRON_OR, LAST - 1, LAST - 1);
    expect_test(checks, of_words, QUAYSAFFRON_MOST_WORDS, QUAYSAFFRON_MOST_WORDS, "16,384 words", 0, 0);
    words[LAST] = quaysaffron_word(QUAYSAFFRON_OR, LAST - 1, LAST);
    expect_test(checks, of_words, QUAYSAFFRON_MOST_WORDS, QUAYSAFFRON_MOST_WORDS, "2: the last of 16,384", QUAYSAFFRON_BAD_FORMULA, LAST);
    expect_test(checks, of_words, QUAYSAFFRON_MOST_WORDS, QUAYSAFFRON_MOST_WORDS - 1, "a word behind the count", 0, 0);
    expect_test(checks, of_words, QUAYSAFFRON_MOST_WORDS, SIZE_MAX, "2: looked at whole", QUAYSAFFRON_BAD_FORMULA, LAST);
    words[3] = quaysaffron_word(QUAYSAFFRON_AND, 2, 3);
    expect_test(checks, of_words, 16, 4, "2: the last of four", QUAYSAFFRON_BAD_FORMULA, 3);
    expect_test(checks, of_words, 16, 3, "three of four", 0, 0);
    expect_test(checks, of_words, 4, 5, "2: more counted than there are", QUAYSAFFRON_BAD_FORMULA, 3);
    expect_test(checks, of_words, 3, 5, "more counted than there are", 0, 0);
}

static void test_names(struct checks *checks)
{
    enum { MOST = QUAYSAFFRON_MOST_ASSUMPTIONS, NAMES = 4 * MOST, ENTRY = 3 };
    uint8_t *text = checks->room.lent.text;
    fill(&checks->room, JUNK_BYTE);
    expect_test(checks, of_names, 0, 0, "no name", 0, 0);
    expect_test(checks, of_names, 0, 1, "4: a name that is not there", QUAYSAFFRON_BAD_NAMES, 0);
    expect_test(checks, of_names, 0, SIZE_MAX, "4: the most names", QUAYSAFFRON_BAD_NAMES, 0);
    for (size_t i = 0; i < NAMES; i++) {
        text[ENTRY * i] = 2;
        text[ENTRY * i + 1] = (uint8_t)('a' + i / 16);
        text[ENTRY * i + 2] = (uint8_t)('A' + i % 16);
    }
    expect_test(checks, of_names, ENTRY * NAMES, NAMES, "any number of names", 0, 0);
    expect_test(checks, of_names, ENTRY * MOST, MOST, "64 names", 0, 0);
    expect_test(checks, of_names, ENTRY * MOST, MOST - 1, "4: one more than asked for", QUAYSAFFRON_BAD_NAMES, MOST - 1);
    expect_test(checks, of_names, ENTRY * MOST, MOST + 1, "4: one less than asked for", QUAYSAFFRON_BAD_NAMES, MOST);
    expect_test(checks, of_names, ENTRY * MOST - 1, MOST, "4: the last one cut", QUAYSAFFRON_BAD_NAMES, MOST - 1);
    expect_test(checks, of_names, ENTRY * MOST - 1, SIZE_MAX, "4: the most names", QUAYSAFFRON_BAD_NAMES, MOST - 1);
    expect_test(checks, of_names, ENTRY * MOST + 1, MOST, "4: a byte behind the last one", QUAYSAFFRON_BAD_NAMES, MOST);
    memcpy(text + ENTRY * (MOST - 1), text, ENTRY);
    expect_test(checks, of_names, ENTRY * MOST, MOST, "4: the last one repeats the first", QUAYSAFFRON_BAD_NAMES, MOST - 1);
    text[ENTRY * 5 + 1] = '-';
    expect_test(checks, of_names, ENTRY * MOST, MOST, "4: the first of two faults", QUAYSAFFRON_BAD_NAMES, 5);
    text[0] = QUAYSAFFRON_MOST_NAME_BYTES;
    memset(text + 1, 'x', QUAYSAFFRON_MOST_NAME_BYTES + 1);
    expect_test(checks, of_names, 1 + QUAYSAFFRON_MOST_NAME_BYTES, 1, "32 bytes", 0, 0);
    text[0] = QUAYSAFFRON_MOST_NAME_BYTES + 1;
    expect_test(checks, of_names, 2 + QUAYSAFFRON_MOST_NAME_BYTES, 1, "4: 33 bytes", QUAYSAFFRON_BAD_NAMES, 0);
}

/* Each byte as a name of its own: 63 are lawful. */
static void name_bytes(struct checks *checks)
{
    for (unsigned byte = 0; byte <= UINT8_MAX; byte++) {
        bool lawful = ('0' <= byte && byte <= '9') || ('A' <= byte && byte <= 'Z') || ('a' <= byte && byte <= 'z') || byte == '_';
        checks->room.lent.text[0] = 1;
        checks->room.lent.text[1] = (uint8_t)byte;
        expect_test(checks, of_names, 2, 1, "a name of one byte", lawful ? 0 : QUAYSAFFRON_BAD_NAMES, 0);
    }
}

void check_writers(struct checks *checks)
{
    text_sizes(checks);
    text_books(checks);
    text_terms(checks);
    text_rooms(checks);
    names_alone(checks);
    test_words(checks);
    test_names(checks);
    name_bytes(checks);
}
