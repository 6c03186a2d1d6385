/* The lists that the programs test_cases and test_replay run, row by row: crates/test_rows, crates/test_runs and crates/test_lists tell
 * their format. */
#ifndef LISTS_H
#define LISTS_H

#include "room.h"

struct list {
    uint8_t *bytes;
    size_t length;
};

/* Where a row begins, the book that it runs, and where the next row begins. */
struct row {
    size_t at;
    size_t book;
    size_t next;
};

/* The kinds of rows. */
enum { CLAIM, TERM, STATUS, FILE_BYTES };

/* The numbers of a row; what its list adds stands behind them and before the book. */
enum { ROW_NUMBERS = 11 };

/* The seven numbers of a call, by their places, and what the replay list expects behind them: ten numbers in all. */
enum { CALL_NUMBER, CALL_PLACE, CALL_ROOT, CALL_STEPS, CALL_INDICES, CALL_FORMULAS, CALL_TERMS, CALL_NUMBERS };
enum { EXPECTED_WRITER = CALL_NUMBERS, EXPECTED_LENGTH, EXPECTED_CHECKSUM, EXPECTED_NUMBERS };

/* What came back: the seven numbers of the call (of a status, the verdict in the root's place), the writer's number, the length and the
 * Adler-32 of the text, and whether the answer and each lent slice are as the header says. */
struct outcome {
    size_t call[CALL_NUMBERS];
    size_t writer;
    size_t length;
    size_t checksum;
    bool kept;
};

/* Reads a file whole; false where it cannot be read, and then that is told. */
bool read_list(const char *path, struct list *list);

/* How the list was made, as bytes. */
const uint8_t *list_made(const struct list *list, size_t *length);
size_t list_rows(const struct list *list);

/* What stands before the first row, and the row behind another; behind its own numbers a row of the list has what `behind` skips. */
struct row list_start(const struct list *list);
struct row list_step(const struct list *list, struct row before, size_t (*behind)(const struct list *, size_t));

/* Number k from a position on, the position past k numbers, the position k bytes on. */
size_t field(const struct list *list, size_t at, size_t k);
size_t skip(const struct list *list, size_t at, size_t k);
size_t after(const struct list *list, size_t at, size_t k);

size_t row_kind(const struct list *list, struct row row);

/* Runs a row over slices full of junk; the text is at the front of the room's text. */
struct outcome run_row(const struct list *list, struct row row, struct room *room);

#endif
