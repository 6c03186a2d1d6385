/* Tests the calls of the library.
 *
 *   test_calls cases LIST              prints what the program test_cases prints for its list, crates/test_cases/data/list
 *   test_calls replay LIST             prints what the program test_replay prints for its list, crates/test_replay/data/list
 *   test_calls checks EXAMPLES LIST    each refusal by each call, the examples, and the rows of test_replay's list on threads; its last
 *                                      line is `N passed`, or tells how many failed
 *
 * The exit status is 0 only if nothing was wrong; whether the first two print the right bytes is for the caller to compare. */
#include "checks.h"

#include <stdio.h>
#include <stdlib.h>
#include <string.h>

void check(struct checks *checks, bool right, const char *what)
{
    if (right) {
        checks->passed++;
        return;
    }
    checks->failed++;
    printf("failed: %s\n", what);
}

/* The table's names. */
static const char *const faults[] = {"", "Sizes", "BadFormula", "BadAssumption", "BadNames", "BadGoal", "Steps", "Names", "Formulas",
                                     "Terms", "Contexts", "Levels", "NoRoom", "BadTerm", "BadFile"};

/* A text of at most this many bytes is shown, a longer one told by its length and its checksum. */
enum { SHOWN = 160 };

/* A refusal has a place, a shortage has steps. */
static void show_refused(const size_t *call)
{
    size_t number = call[CALL_NUMBER];
    if (QUAYSAFFRON_STEPS <= number && number <= QUAYSAFFRON_LEVELS) {
        printf("%zu %s, steps %zu", number, faults[number], call[CALL_STEPS]);
    } else {
        printf("%zu %s, place %zu", number, faults[number], call[CALL_PLACE]);
    }
}

/* The text, or the number of a writer that wrote none. */
static void show_text(const struct outcome *outcome, const uint8_t *text)
{
    if (outcome->length == 0) {
        printf("text %zu %s", outcome->writer, faults[outcome->writer]);
    } else if (outcome->length <= SHOWN) {
        printf("%.*s", (int)outcome->length, (const char *)text);
    } else {
        printf("%zu bytes of text, Adler-32 %zu", outcome->length, outcome->checksum);
    }
}

static void show_verdict(size_t verdict)
{
    static const char *const verdicts[] = {"", "Solvable", "Unsolvable", "Unknown"};
    fputs(verdicts[verdict], stdout);
}

/* Only a proof has nodes. */
static void show_found(const struct outcome *outcome, const uint8_t *text)
{
    const size_t *call = outcome->call;
    if (call[CALL_TERMS] == 0) {
        printf("unprovable");
    } else {
        printf("proved, root %zu", call[CALL_ROOT]);
    }
    printf(", steps %zu, names %zu", call[CALL_STEPS], call[CALL_INDICES]);
    printf(", formulas %zu, terms %zu", call[CALL_FORMULAS], call[CALL_TERMS]);
    if (call[CALL_TERMS] != 0) {
        printf(", ");
        show_text(outcome, text);
    }
}

static void show_file(const struct outcome *outcome)
{
    if (outcome->call[CALL_NUMBER] == 0) {
        printf("prints %zu bytes, Adler-32 %zu", outcome->length, outcome->checksum);
    } else {
        printf("prints refused %zu", outcome->call[CALL_NUMBER]);
    }
}

static void show_answer(size_t kind, const struct outcome *outcome, const uint8_t *text)
{
    if (kind == FILE_BYTES) {
        show_file(outcome);
    } else if (outcome->call[CALL_NUMBER] != 0) {
        show_refused(outcome->call);
    } else if (kind == TERM) {
        show_text(outcome, text);
    } else if (kind == STATUS) {
        show_verdict(outcome->call[CALL_ROOT]);
    } else {
        show_found(outcome, text);
    }
}

/* What the lent slices hold: nothing above the fills after an answer, all that they held after a refusal. */
static const char *rest(size_t kind, const struct outcome *outcome)
{
    size_t number = outcome->call[CALL_NUMBER];
    bool unchanged = (QUAYSAFFRON_SIZES <= number && number <= QUAYSAFFRON_BAD_GOAL) || number == QUAYSAFFRON_BAD_TERM;
    if (!outcome->kept) {
        return "SLICES WRONG";
    }
    return unchanged && kind != FILE_BYTES ? "unchanged" : "rest zero";
}

static void show_made(const struct list *list)
{
    size_t length;
    const uint8_t *made = list_made(list, &length);
    printf("%.*s\n", (int)length, (const char *)made);
}

/* In the list of cases a row has its name behind its numbers. */
static size_t behind_name(const struct list *list, size_t row)
{
    return after(list, skip(list, row, ROW_NUMBERS + 1), field(list, row, ROW_NUMBERS));
}

/* Prints a line for each case; whether every slice holds what it must. */
static bool run_cases(const struct list *list, struct room *room)
{
    size_t count = list_rows(list);
    struct row row = list_start(list);
    bool kept = 0 < count;
    show_made(list);
    for (size_t i = 0; i < count; i++) {
        struct outcome outcome;
        row = list_step(list, row, behind_name);
        printf("%.*s: ", (int)field(list, row.at, ROW_NUMBERS), (const char *)list->bytes + skip(list, row.at, ROW_NUMBERS + 1));
        outcome = run_row(list, row, room);
        show_answer(row_kind(list, row), &outcome, room->lent.text);
        printf("; %s\n", rest(row_kind(list, row), &outcome));
        kept = kept && outcome.kept;
    }
    return kept;
}

/* Counts of what came back: proofs, the table's numbers, claims without a proof, files that are not refused, statuses with a verdict. */
enum { PROVED = 0, UNPROVABLE = QUAYSAFFRON_BAD_FILE + 1, PRINTED, SETTLED, KINDS };

static size_t kind_of(size_t kind, const struct outcome *outcome)
{
    if (outcome->call[CALL_NUMBER] != 0) {
        return outcome->call[CALL_NUMBER];
    }
    if (kind == FILE_BYTES) {
        return PRINTED;
    }
    if (kind == STATUS) {
        return SETTLED;
    }
    if (outcome->writer != 0) {
        return outcome->writer;
    }
    return outcome->call[CALL_TERMS] == 0 ? UNPROVABLE : PROVED;
}

/* Every number is the expected one, and each lent slice holds what it must. */
static bool as_expected(const struct list *list, size_t row, const struct outcome *outcome)
{
    size_t expected = skip(list, row, ROW_NUMBERS);
    for (size_t k = 0; k < CALL_NUMBERS; k++) {
        if (outcome->call[k] != field(list, expected, k)) {
            return false;
        }
    }
    return outcome->writer == field(list, expected, EXPECTED_WRITER) && outcome->length == field(list, expected, EXPECTED_LENGTH)
        && outcome->checksum == field(list, expected, EXPECTED_CHECKSUM) && outcome->kept;
}

static void show_tally(const size_t tally[KINDS], size_t equal, size_t different)
{
    printf("proved %zu, unprovable %zu", tally[PROVED], tally[UNPROVABLE]);
    printf(", files answered %zu, statuses settled %zu\n", tally[PRINTED], tally[SETTLED]);
    for (size_t n = QUAYSAFFRON_SIZES; n <= QUAYSAFFRON_BAD_FILE; n++) {
        printf("%zu: %zu\n", n, tally[n]);
    }
    printf("%zu equal, %zu different\n", equal, different);
}

static bool run_replay(const struct list *list, struct room *room)
{
    size_t tally[KINDS] = {0}, count = list_rows(list), equal = 0;
    struct row row = list_start(list);
    show_made(list);
    for (size_t i = 0; i < count; i++) {
        struct outcome outcome;
        row = list_step(list, row, behind_expected);
        outcome = run_row(list, row, room);
        tally[kind_of(row_kind(list, row), &outcome)]++;
        if (as_expected(list, row.at, &outcome)) {
            equal++;
        } else {
            printf("different: row %zu\n", i);
        }
    }
    show_tally(tally, equal, count - equal);
    return 0 < count && equal == count;
}

static bool run_checks(struct checks *checks, const char *examples, const struct list *list)
{
    check_searches(checks);
    check_writers(checks);
    check_kinds(checks);
    check_files(checks, examples);
    check_threads(checks, list);
    if (checks->failed != 0) {
        printf("%zu failed, ", checks->failed);
    }
    printf("%zu passed\n", checks->passed);
    return checks->failed == 0;
}

static bool asks_for(int arguments, char **argument, const char *command, int wanted)
{
    return arguments == wanted && strcmp(argument[1], command) == 0;
}

int main(int arguments, char **argument)
{
    static struct checks checks;
    struct list list = {NULL, 0};
    bool cases = asks_for(arguments, argument, "cases", 3), replay = asks_for(arguments, argument, "replay", 3), right;
    if (!cases && !replay && !asks_for(arguments, argument, "checks", 4)) {
        fputs("usage: test_calls cases LIST | replay LIST | checks EXAMPLES LIST\n", stderr);
        return 2;
    }
    if (!read_list(argument[arguments - 1], &list)) {
        return 2;
    }
    if (cases) {
        right = run_cases(&list, &checks.room);
    } else if (replay) {
        right = run_replay(&list, &checks.room);
    } else {
        right = run_checks(&checks, argument[2], &list);
    }
    free(list.bytes);
    return right ? 0 : 1;
}
