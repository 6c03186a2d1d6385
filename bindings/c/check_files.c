/* House files: every example with what is printed for it, and bytes that are no house file. */
#define _POSIX_C_SOURCE 200809L

#include "checks.h"

#include <glob.h>
#include <stdio.h>
#include <string.h>

enum { NUMBERS = QUAYSAFFRON_BAD_FILE + 1, PATH_BYTES = 4096, FILE_ROOM = QUAYSAFFRON_MOST_FILE_BYTES + 1 };

static const char ending[] = ".house";

/* The bytes of a file, or 0 where it cannot be read. */
static size_t read_file(const char *path, uint8_t *bytes, size_t most)
{
    FILE *file = fopen(path, "rb");
    size_t length;
    if (file == NULL) {
        return 0;
    }
    length = fread(bytes, 1, most, file);
    fclose(file);
    return length;
}

/* Asks for a file's output and counts what it was refused with. */
static void check_file(struct checks *checks, const char *path, size_t met[NUMBERS])
{
    static uint8_t file[FILE_ROOM], expected[QUAYSAFFRON_OUTPUT_BYTES];
    size_t length = read_file(path, file, sizeof file), printed, expected_length;
    char out[PATH_BYTES];
    bool kept;
    snprintf(out, sizeof out, "%.*s.out", (int)(strlen(path) - (sizeof ending - 1)), path);
    expected_length = read_file(out, expected, sizeof expected);
    fill(&checks->room, JUNK_BYTE);
    printed = room_output(&checks->room, file, length, &kept);
    check(checks, kept && 0 < printed && printed == expected_length && memcmp(checks->room.lent.text, expected, printed) == 0, path);
    met[printed_refusal(expected, expected_length) % NUMBERS]++;
}

/* The examples meet every number that a file can meet: all but 1 and 13, and 0. */
static void check_examples(struct checks *checks, const char *examples)
{
    size_t met[NUMBERS] = {0};
    char pattern[PATH_BYTES];
    glob_t found;
    snprintf(pattern, sizeof pattern, "%s/*%s", examples, ending);
    if (glob(pattern, 0, NULL, &found) != 0) {
        check(checks, false, pattern);
        return;
    }
    for (size_t i = 0; i < found.gl_pathc; i++) {
        check_file(checks, found.gl_pathv[i], met);
    }
    globfree(&found);
    for (size_t number = 0; number < NUMBERS; number++) {
        bool none = number == QUAYSAFFRON_SIZES || number == QUAYSAFFRON_BAD_TERM;
        check(checks, none == (met[number] == 0), "the examples meet each number that a file can");
    }
}

static void expect(struct checks *checks, const uint8_t *file, size_t length, const char *what, size_t number)
{
    bool kept;
    size_t printed;
    fill(&checks->room, JUNK_BYTE);
    printed = room_output(&checks->room, file, length, &kept);
    check(checks, kept && printed_refusal(checks->room.lent.text, printed) == number, what);
}

/* A lawful file cut at every place, with a byte more, and with other counts. */
static void check_damaged(struct checks *checks)
{
    static uint8_t file[2 * QUAYSAFFRON_MOST_FILE_BYTES];
    struct book *book = &checks->book;
    size_t length;
    clear(book);
    book->goal = atom(book, 0);
    assume(book, "left_over", book->goal);
    length = house_file(book, file);
    expect(checks, file, length, "a lawful file", 0);
    expect(checks, QUAYSAFFRON_EMPTY(uint8_t), 0, "14: no byte", QUAYSAFFRON_BAD_FILE);
    for (size_t cut = 1; cut < length; cut++) {
        expect(checks, file, cut, "14: a file that is cut", QUAYSAFFRON_BAD_FILE);
    }
    expect(checks, file, length + 1, "14: a byte behind the end", QUAYSAFFRON_BAD_FILE);
    for (size_t goals = 0; goals < 3; goals += 2) {
        file[length - 4] = (uint8_t)goals;
        expect(checks, file, length, "14: not one goal", QUAYSAFFRON_BAD_FILE);
    }
    expect(checks, file, sizeof file, "14: twice as long as may be", QUAYSAFFRON_BAD_FILE);
}

void check_files(struct checks *checks, const char *examples)
{
    check_examples(checks, examples);
    check_damaged(checks);
}
