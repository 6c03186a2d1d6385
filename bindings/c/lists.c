#include "lists.h"

#include <stdio.h>
#include <stdlib.h>

enum { MOST_LIST_BYTES = 524288 };

/* A number below this is one byte; this one stands before two bytes, the next before four. */
enum { TWO_BYTES = 254 };

bool read_list(const char *path, struct list *list)
{
    FILE *file = fopen(path, "rb");
    if (file == NULL) {
        perror(path);
        return false;
    }
    list->bytes = malloc(MOST_LIST_BYTES);
    list->length = list->bytes == NULL ? 0 : fread(list->bytes, 1, MOST_LIST_BYTES, file);
    fclose(file);
    if (list->length == 0) {
        fprintf(stderr, "%s: no list\n", path);
    }
    return 0 < list->length;
}

/* So many bytes, little-endian; past the end of the list every byte is 0. */
static size_t number(const struct list *list, size_t at, size_t bytes)
{
    size_t value = 0;
    for (size_t i = bytes; 0 < i; i--) {
        size_t place = at + i - 1;
        value = 256 * value + (place < list->length ? list->bytes[place] : 0);
    }
    return value;
}

size_t after(const struct list *list, size_t at, size_t k)
{
    return at < list->length && k < list->length - at ? at + k : list->length;
}

static size_t width(const struct list *list, size_t at)
{
    size_t first = number(list, at, 1);
    if (first < TWO_BYTES) {
        return 1;
    }
    return first == TWO_BYTES ? 3 : 5;
}

size_t skip(const struct list *list, size_t at, size_t k)
{
    for (size_t i = 0; i < k; i++) {
        at = after(list, at, width(list, at));
    }
    return at;
}

size_t field(const struct list *list, size_t at, size_t k)
{
    size_t place = skip(list, at, k);
    size_t bytes = width(list, place);
    return bytes == 1 ? number(list, place, 1) : number(list, place + 1, bytes - 1);
}

const uint8_t *list_made(const struct list *list, size_t *length)
{
    *length = field(list, 0, 0);
    return list->bytes + skip(list, 0, 1);
}

static size_t rows_at(const struct list *list)
{
    return after(list, skip(list, 0, 1), field(list, 0, 0));
}

size_t list_rows(const struct list *list)
{
    return field(list, rows_at(list), 0);
}

/* A row's numbers and a book's, by their places. */
enum { KIND, AGAIN, WORDS, NUMBERS, RECORDS, STEPS, TEXT, JUNK, SURPLUS, NODES, GOAL };
enum { BOOK_WORDS, BOOK_ASSUMPTIONS, BOOK_NAMES, BOOK_NUMBERS, BOOK_COUNTS };

static size_t words_at(const struct list *list, size_t book)
{
    return skip(list, book, BOOK_COUNTS);
}

static size_t indices_at(const struct list *list, size_t book)
{
    return after(list, words_at(list, book), sizeof(uint32_t) * field(list, book, BOOK_WORDS));
}

static size_t names_at(const struct list *list, size_t book)
{
    return after(list, indices_at(list, book), sizeof(uint16_t) * field(list, book, BOOK_ASSUMPTIONS));
}

static size_t numbers_at(const struct list *list, size_t book)
{
    return after(list, names_at(list, book), field(list, book, BOOK_NAMES));
}

static size_t book_end(const struct list *list, size_t book)
{
    return after(list, numbers_at(list, book), sizeof(uint16_t) * field(list, book, BOOK_NUMBERS));
}

struct row list_start(const struct list *list)
{
    struct row row = {0, 0, 0};
    row.next = skip(list, rows_at(list), 1);
    return row;
}

struct row list_step(const struct list *list, struct row before, size_t (*behind)(const struct list *, size_t))
{
    size_t book = behind(list, before.next);
    struct row row = {before.next, before.book, book};
    if (field(list, row.at, AGAIN) == 0) {
        row.book = book;
        row.next = book_end(list, book);
    }
    return row;
}

size_t row_kind(const struct list *list, struct row row)
{
    return field(list, row.at, KIND);
}

static size_t at_most(size_t n, size_t most)
{
    return n < most ? n : most;
}

static const uint8_t *names_of(const struct list *list, size_t book)
{
    return list->bytes + names_at(list, book);
}

/* Lays the words of a book at the front of the lent ones. */
static void lay_words(const struct list *list, size_t book, struct room *room)
{
    size_t given = at_most(field(list, book, BOOK_WORDS), ROOM_WORDS);
    for (size_t i = 0, at = words_at(list, book); i < given; i++, at += sizeof(uint32_t)) {
        room->lent.words[i] = (uint32_t)number(list, at, sizeof(uint32_t));
    }
}

static void lay_halves(const struct list *list, size_t at, uint16_t *halves, size_t count)
{
    for (size_t i = 0; i < count; i++, at += sizeof(uint16_t)) {
        halves[i] = (uint16_t)number(list, at, sizeof(uint16_t));
    }
}

/* What a row lends to the search or to the status. */
static struct search lent_to_search(const struct list *list, struct row row, struct room *room)
{
    struct search lent;
    lent.words = room->lent.words;
    lent.words_length = at_most(field(list, row.at, WORDS), ROOM_WORDS);
    lent.count = field(list, row.book, BOOK_WORDS) + field(list, row.at, SURPLUS);
    lent.assumed = room->assumed;
    lent.assumed_length = at_most(field(list, row.book, BOOK_ASSUMPTIONS), TOO_MANY_ASSUMPTIONS);
    lent.names = names_of(list, row.book);
    lent.names_length = field(list, row.book, BOOK_NAMES);
    lent.goal = field(list, row.at, GOAL);
    lent.terms = room->lent.terms;
    lent.terms_length = at_most(field(list, row.at, NUMBERS), ROOM_NUMBERS);
    lent.work = room->lent.work;
    lent.work_length = at_most(field(list, row.at, RECORDS), ROOM_RECORDS);
    lent.steps = field(list, row.at, STEPS);
    lay_words(list, row.book, room);
    lay_halves(list, indices_at(list, row.book), room->assumed, lent.assumed_length);
    return lent;
}

/* What a row lends to the writer, the counts and the root aside. */
static struct draft lent_to_writer(const struct list *list, struct row row, struct room *room)
{
    struct draft lent;
    lent.words = room->lent.words;
    lent.words_length = at_most(field(list, row.at, WORDS), ROOM_WORDS);
    lent.count = field(list, row.book, BOOK_WORDS) + field(list, row.at, SURPLUS);
    lent.assumptions = field(list, row.book, BOOK_ASSUMPTIONS);
    lent.names = names_of(list, row.book);
    lent.names_length = field(list, row.book, BOOK_NAMES);
    lent.terms = room->lent.terms;
    lent.terms_length = at_most(field(list, row.at, NUMBERS), ROOM_NUMBERS);
    lent.nodes = field(list, row.at, NODES);
    lent.root = field(list, row.at, GOAL);
    lent.text = room->lent.text;
    lent.text_length = at_most(field(list, row.at, TEXT), ROOM_TEXT);
    return lent;
}

/* The Adler-32 of the first bytes of a text, 0 of none. */
static size_t checksum(const uint8_t *text, size_t length)
{
    const size_t modulus = 65521;
    size_t low = 1, high = 0;
    if (length == 0) {
        return 0;
    }
    for (size_t i = 0; i < length; i++) {
        low = (low + text[i]) % modulus;
        high = (high + low) % modulus;
    }
    return high << 16 | low;
}

static const struct outcome nothing = {{0, 0, 0, 0, 0, 0, 0}, 0, 0, 0, false};

/* The seven numbers behind the kind of an answer. */
static struct outcome told(const quaysaffron_answer *answer)
{
    struct outcome outcome = nothing;
    outcome.call[CALL_NUMBER] = answer->number;
    outcome.call[CALL_PLACE] = answer->place;
    outcome.call[CALL_ROOT] = answer->root;
    outcome.call[CALL_STEPS] = answer->steps;
    outcome.call[CALL_INDICES] = answer->indices;
    outcome.call[CALL_FORMULAS] = answer->formulas;
    outcome.call[CALL_TERMS] = answer->terms;
    return outcome;
}

static void tell_text(struct outcome *outcome, struct written written, const uint8_t *text)
{
    outcome->writer = written.number;
    outcome->length = written.size;
    outcome->checksum = checksum(text, written.size);
}

static struct outcome run_claim(const struct list *list, struct row row, struct room *room)
{
    bool searched, wrote = true;
    struct search lent = lent_to_search(list, row, room);
    quaysaffron_answer answer = room_prove(room, &lent, &searched);
    struct outcome outcome = told(&answer);
    if (answer.kind == QUAYSAFFRON_PROVED) {
        struct draft draft = lent_to_writer(list, row, room);
        draft.count = answer.formulas;
        draft.nodes = answer.terms;
        draft.root = answer.root;
        tell_text(&outcome, room_text(room, &draft, &wrote), room->lent.text);
    }
    outcome.kept = searched && wrote;
    return outcome;
}

static struct outcome run_term(const struct list *list, struct row row, struct room *room)
{
    struct outcome outcome = nothing;
    struct draft lent = lent_to_writer(list, row, room);
    struct written written;
    lay_words(list, row.book, room);
    lay_halves(list, numbers_at(list, row.book), room->lent.terms, at_most(field(list, row.book, BOOK_NUMBERS), ROOM_NUMBERS));
    written = room_text(room, &lent, &outcome.kept);
    outcome.call[CALL_NUMBER] = written.number;
    outcome.call[CALL_PLACE] = written.place;
    tell_text(&outcome, written, room->lent.text);
    return outcome;
}

static struct outcome run_status(const struct list *list, struct row row, struct room *room)
{
    struct search lent = lent_to_search(list, row, room);
    bool kept;
    quaysaffron_answer answer = room_status(room, &lent, &kept);
    struct outcome outcome = told(&answer);
    if (answer.number == 0) {
        outcome.call[CALL_ROOT] = answer.kind - QUAYSAFFRON_SOLVABLE + 1;
    }
    outcome.kept = kept;
    return outcome;
}

/* The bytes of a house file stand in the place of a book's names. */
static struct outcome run_file(const struct list *list, struct row row, struct room *room)
{
    struct outcome outcome = nothing;
    outcome.length = room_output(room, names_of(list, row.book), field(list, row.book, BOOK_NAMES), &outcome.kept);
    outcome.call[CALL_NUMBER] = printed_refusal(room->lent.text, outcome.length);
    outcome.checksum = checksum(room->lent.text, outcome.length);
    return outcome;
}

struct outcome run_row(const struct list *list, struct row row, struct room *room)
{
    fill(room, (uint8_t)field(list, row.at, JUNK));
    switch (row_kind(list, row)) {
    case TERM:
        return run_term(list, row, room);
    case STATUS:
        return run_status(list, row, room);
    case FILE_BYTES:
        return run_file(list, row, room);
    default:
        return run_claim(list, row, room);
    }
}
