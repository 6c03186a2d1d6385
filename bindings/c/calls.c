#include "calls.h"

#include <string.h>

static quaysaffron_answer junk_answer(void)
{
    quaysaffron_answer answer;
    memset(&answer, JUNK_BYTE, sizeof answer);
    return answer;
}

size_t ask_prove(const struct search *lent, quaysaffron_answer *answer)
{
    *answer = junk_answer();
    return quaysaffron_prove(lent->words, lent->words_length, lent->count, lent->assumed, lent->assumed_length, lent->names,
                             lent->names_length, lent->goal, lent->terms, lent->terms_length, lent->work, lent->work_length,
                             lent->steps, answer);
}

size_t ask_status(const struct search *lent, quaysaffron_answer *answer)
{
    *answer = junk_answer();
    return quaysaffron_status(lent->words, lent->words_length, lent->count, lent->goal, lent->terms, lent->terms_length, lent->work,
                              lent->work_length, lent->steps, answer);
}

struct written ask_text(const struct draft *lent, size_t *size, size_t *place)
{
    struct written written;
    *size = JUNK_BYTE;
    *place = JUNK_BYTE;
    written.number = quaysaffron_text(lent->words, lent->words_length, lent->count, lent->assumptions, lent->names, lent->names_length,
                                      lent->terms, lent->terms_length, lent->nodes, lent->root, lent->text, lent->text_length, size,
                                      place);
    written.size = *size;
    written.place = *place;
    return written;
}

struct written ask_name(size_t index, uint8_t *name, size_t name_length)
{
    struct written written = {JUNK_BYTE, JUNK_BYTE, 0};
    written.number = quaysaffron_name(index, name, name_length, &written.size);
    return written;
}

bool bytes_are(const void *bytes, size_t length, uint8_t value)
{
    const uint8_t *front = bytes;
    /* each byte is the one before it, and the first is the value */
    return length == 0 || (front[0] == value && memcmp(front, front + 1, length - 1) == 0);
}

/* The first so many words are as they were. */
static bool words_stand(const struct search *lent, const struct before *before, size_t count)
{
    return memcmp(lent->words, before->words, count * sizeof *lent->words) == 0;
}

/* All above two fills is zero, and every work record. */
static bool zero_above(const struct search *lent, size_t words, size_t numbers)
{
    return bytes_are(lent->words + words, (lent->words_length - words) * sizeof *lent->words, 0)
        && bytes_are(lent->terms + numbers, (lent->terms_length - numbers) * sizeof *lent->terms, 0)
        && bytes_are(lent->work, lent->work_length * sizeof *lent->work, 0);
}

static bool unchanged(const struct search *lent, const struct before *before)
{
    return words_stand(lent, before, lent->words_length)
        && memcmp(lent->terms, before->terms, lent->terms_length * sizeof *lent->terms) == 0
        && memcmp(lent->work, before->work, lent->work_length * sizeof *lent->work) == 0;
}

/* The sizes that an answer without a refusal takes for granted. */
static bool sizes_hold(const struct search *lent)
{
    return lent->count <= lent->words_length && lent->words_length <= QUAYSAFFRON_MOST_WORDS
        && lent->terms_length <= QUAYSAFFRON_MOST_NUMBERS && lent->terms_length % NODE == 0
        && lent->work_length == QUAYSAFFRON_WORK_RECORDS && lent->steps <= QUAYSAFFRON_MOST_STEPS && lent->goal < lent->count;
}

/* The given words stand and all else is zero. */
static bool given_back(const struct search *lent, const struct before *before)
{
    return sizes_hold(lent) && words_stand(lent, before, lent->count) && zero_above(lent, lent->count, 0);
}

static bool proved_holds(const struct search *lent, const struct before *before, const quaysaffron_answer *answer)
{
    bool numbers = answer->number == 0 && answer->place == 0 && answer->root < answer->terms && 0 < answer->steps
        && answer->steps <= lent->steps && answer->indices <= QUAYSAFFRON_LAST_INDEX + 1;
    bool fills = lent->count <= answer->formulas && answer->formulas <= lent->words_length
        && answer->terms <= lent->terms_length / NODE;
    return numbers && fills && sizes_hold(lent) && words_stand(lent, before, lent->count)
        && zero_above(lent, answer->formulas, answer->terms * NODE);
}

static bool unprovable_holds(const struct search *lent, const struct before *before, const quaysaffron_answer *answer)
{
    bool numbers = answer->number == 0 && answer->place == 0 && answer->root == 0 && answer->terms == 0
        && answer->steps <= lent->steps && answer->indices <= QUAYSAFFRON_LAST_INDEX + 1;
    return numbers && answer->formulas == lent->count && given_back(lent, before);
}

static bool short_holds(const struct search *lent, const struct before *before, const quaysaffron_answer *answer)
{
    bool number = QUAYSAFFRON_STEPS <= answer->number && answer->number <= QUAYSAFFRON_LEVELS;
    bool steps = answer->number == QUAYSAFFRON_STEPS ? answer->steps == lent->steps : answer->steps <= lent->steps;
    bool others = answer->place == 0 && answer->root == 0 && answer->indices == 0 && answer->formulas == 0 && answer->terms == 0;
    return number && steps && others && given_back(lent, before);
}

static bool refused_holds(const struct search *lent, const struct before *before, const quaysaffron_answer *answer)
{
    bool number = QUAYSAFFRON_SIZES <= answer->number && answer->number <= QUAYSAFFRON_BAD_GOAL;
    bool placeless = answer->number == QUAYSAFFRON_SIZES || answer->number == QUAYSAFFRON_BAD_GOAL;
    bool others = answer->root == 0 && answer->steps == 0 && answer->indices == 0 && answer->formulas == 0 && answer->terms == 0;
    return number && (!placeless || answer->place == 0) && others && unchanged(lent, before);
}

/* A verdict comes with no number. */
static bool verdict_holds(const struct search *lent, const struct before *before, const quaysaffron_answer *answer)
{
    quaysaffron_answer alone = {0, 0, 0, 0, 0, 0, 0, 0};
    alone.kind = answer->kind;
    return memcmp(answer, &alone, sizeof alone) == 0 && given_back(lent, before);
}

bool prove_holds(const struct search *lent, const struct before *before, size_t returned, const quaysaffron_answer *answer)
{
    if (returned != answer->number) {
        return false;
    }
    switch (answer->kind) {
    case QUAYSAFFRON_PROVED:
        return proved_holds(lent, before, answer);
    case QUAYSAFFRON_UNPROVABLE:
        return unprovable_holds(lent, before, answer);
    case QUAYSAFFRON_SHORT:
        return short_holds(lent, before, answer);
    case QUAYSAFFRON_REFUSED:
        return refused_holds(lent, before, answer);
    default:
        return false;
    }
}

bool status_holds(const struct search *lent, const struct before *before, size_t returned, const quaysaffron_answer *answer)
{
    bool tested = answer->number != QUAYSAFFRON_BAD_ASSUMPTION && answer->number != QUAYSAFFRON_BAD_NAMES;
    if (returned != answer->number) {
        return false;
    }
    switch (answer->kind) {
    case QUAYSAFFRON_SHORT:
        return short_holds(lent, before, answer);
    case QUAYSAFFRON_REFUSED:
        return tested && refused_holds(lent, before, answer);
    case QUAYSAFFRON_SOLVABLE:
    case QUAYSAFFRON_UNSOLVABLE:
    case QUAYSAFFRON_UNKNOWN:
        return verdict_holds(lent, before, answer);
    default:
        return false;
    }
}

/* What a buffer holds with a text at its front, or all zero after a writer that had no room. */
static bool fitted(const uint8_t *text, size_t length, struct written written)
{
    if (written.number != 0) {
        return written.size == 0 && bytes_are(text, length, 0);
    }
    return 0 < written.size && written.size <= length && memchr(text, 0, written.size) == NULL
        && bytes_are(text + written.size, length - written.size, 0);
}

bool text_holds(const struct draft *lent, const uint8_t *text_before, struct written written)
{
    switch (written.number) {
    case 0:
    case QUAYSAFFRON_NO_ROOM:
        return written.place == 0 && fitted(lent->text, lent->text_length, written);
    case QUAYSAFFRON_SIZES:
        return written.place == 0 && written.size == 0 && memcmp(lent->text, text_before, lent->text_length) == 0;
    case QUAYSAFFRON_BAD_FORMULA:
    case QUAYSAFFRON_BAD_ASSUMPTION:
    case QUAYSAFFRON_BAD_NAMES:
    case QUAYSAFFRON_BAD_TERM:
        return written.size == 0 && memcmp(lent->text, text_before, lent->text_length) == 0;
    default:
        return false;
    }
}

bool spelled(size_t index, const uint8_t *name, size_t size)
{
    size_t rest = index;
    if (size != index / LETTERS + 1) {
        return false;
    }
    for (size_t i = size; 0 < i; i--) {
        if (name[i - 1] != 'a' + rest % LETTERS) {
            return false;
        }
        rest /= LETTERS;
    }
    return true;
}

bool name_holds(size_t index, const uint8_t *name, size_t name_length, struct written written)
{
    size_t expected = name_length < index / LETTERS + 1 ? QUAYSAFFRON_NO_ROOM : 0;
    if (index > QUAYSAFFRON_LAST_INDEX) {
        expected = QUAYSAFFRON_NAMES;
    }
    return written.number == expected && fitted(name, name_length, written) && (expected != 0 || spelled(index, name, written.size));
}

bool output_holds(const uint8_t *out, size_t length)
{
    return 0 < length && length <= QUAYSAFFRON_OUTPUT_BYTES && out[length - 1] == '\n' && memchr(out, 0, length) == NULL
        && bytes_are(out + length, QUAYSAFFRON_OUTPUT_BYTES - length, 0);
}

size_t printed_refusal(const uint8_t *printed, size_t length)
{
    static const char line[] = "refused ";
    size_t number = 0;
    if (length < sizeof line || memcmp(printed, line, sizeof line - 1) != 0) {
        return 0;
    }
    for (size_t i = sizeof line - 1; i < length && '0' <= printed[i] && printed[i] <= '9'; i++) {
        number = 10 * number + printed[i] - '0';
    }
    return number;
}
