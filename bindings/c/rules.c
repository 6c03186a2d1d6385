#include "rules.h"

#include <string.h>

/* The bits of a word that hold its kind: all below those of left. */
enum { KIND_BITS = (1 << QUAYSAFFRON_LEFT_SHIFT) - 1 };

static struct refusal refused(size_t number, size_t place)
{
    struct refusal refusal = {number, place};
    return refusal;
}

size_t kind_of(uint32_t word)
{
    return word & KIND_BITS;
}

size_t left_of(uint32_t word)
{
    return word >> QUAYSAFFRON_LEFT_SHIFT & QUAYSAFFRON_LAST_SYMBOL;
}

static bool good_layout(uint32_t word, size_t index)
{
    size_t left = left_of(word), right = word >> QUAYSAFFRON_RIGHT_SHIFT;
    switch (kind_of(word)) {
    case QUAYSAFFRON_TRUE:
    case QUAYSAFFRON_FALSE:
        return left == 0 && right == 0;
    case QUAYSAFFRON_ATOM:
    case QUAYSAFFRON_FOR_ALL:
    case QUAYSAFFRON_EXISTS:
        return right == 0;
    case QUAYSAFFRON_AND:
    case QUAYSAFFRON_OR:
    case QUAYSAFFRON_IMPL:
        return left < index && right < index;
    default:
        return false;
    }
}

/* Whether a word gives no symbol a second kind. Kinds has that of each symbol's leaves so far, and 0, which no leaf has, of the others. */
static bool keeps_kinds(uint32_t word, uint8_t kinds[SYMBOLS])
{
    uint8_t kind = (uint8_t)kind_of(word), *kept = &kinds[left_of(word)];
    if (kind != QUAYSAFFRON_ATOM && kind != QUAYSAFFRON_FOR_ALL && kind != QUAYSAFFRON_EXISTS) {
        return true;
    }
    if (*kept == 0) {
        *kept = kind;
    }
    return *kept == kind;
}

struct refusal words_refusal(const uint32_t *words, size_t words_length, size_t count)
{
    uint8_t kinds[SYMBOLS] = {0};
    for (size_t i = 0; i < count && i < words_length; i++) {
        if (!good_layout(words[i], i) || !keeps_kinds(words[i], kinds)) {
            return refused(QUAYSAFFRON_BAD_FORMULA, i);
        }
    }
    return refused(0, 0);
}

static bool good_letters(const uint8_t *name, size_t size)
{
    static const char letters[] = "ABCDEFGHIJKLMNOPQRSTUVWXYZabcdefghijklmnopqrstuvwxyz0123456789_";
    for (size_t i = 0; i < size; i++) {
        if (memchr(letters, name[i], sizeof letters - 1) == NULL) {
            return false;
        }
    }
    return true;
}

/* Whether the text has an entry with these bytes before a place; what stands there is split exactly. */
static bool has_name(const uint8_t *names, size_t end, const uint8_t *name, size_t size)
{
    for (size_t at = 0; at < end; at += (size_t)1 + names[at]) {
        if (names[at] == size && memcmp(names + at + 1, name, size) == 0) {
            return true;
        }
    }
    return false;
}

struct refusal names_refusal(const uint8_t *names, size_t names_length, size_t assumptions)
{
    size_t at = 0;
    for (size_t i = 0; i < assumptions; i++) {
        size_t size = at < names_length ? names[at] : 0;
        if (size == 0 || size > QUAYSAFFRON_MOST_NAME_BYTES || names_length - at - 1 < size
            || !good_letters(names + at + 1, size) || has_name(names, at, names + at + 1, size)) {
            return refused(QUAYSAFFRON_BAD_NAMES, i);
        }
        at += 1 + size;
    }
    return at < names_length ? refused(QUAYSAFFRON_BAD_NAMES, assumptions) : refused(0, 0);
}

static bool good_sizes(size_t words_length, size_t count, size_t terms_length)
{
    return words_length <= QUAYSAFFRON_MOST_WORDS && count <= words_length && terms_length <= QUAYSAFFRON_MOST_NUMBERS
        && terms_length % NODE == 0;
}

static struct refusal assumed_refusal(const struct search *lent)
{
    if (lent->assumed_length > QUAYSAFFRON_MOST_ASSUMPTIONS) {
        return refused(QUAYSAFFRON_BAD_ASSUMPTION, QUAYSAFFRON_MOST_ASSUMPTIONS);
    }
    for (size_t i = 0; i < lent->assumed_length; i++) {
        if (lent->assumed[i] >= lent->count) {
            return refused(QUAYSAFFRON_BAD_ASSUMPTION, i);
        }
    }
    return refused(0, 0);
}

/* The rows that a search and a status test first. */
static struct refusal front_refusal(const struct search *lent)
{
    if (!good_sizes(lent->words_length, lent->count, lent->terms_length) || lent->work_length != QUAYSAFFRON_WORK_RECORDS
        || lent->steps > QUAYSAFFRON_MOST_STEPS) {
        return refused(QUAYSAFFRON_SIZES, 0);
    }
    return words_refusal(lent->words, lent->words_length, lent->count);
}

static struct refusal goal_refusal(const struct search *lent)
{
    return lent->goal < lent->count ? refused(0, 0) : refused(QUAYSAFFRON_BAD_GOAL, 0);
}

struct refusal search_refusal(const struct search *lent)
{
    struct refusal refusal = front_refusal(lent);
    if (refusal.number == 0) {
        refusal = assumed_refusal(lent);
    }
    if (refusal.number == 0) {
        refusal = names_refusal(lent->names, lent->names_length, lent->assumed_length);
    }
    return refusal.number == 0 ? goal_refusal(lent) : refusal;
}

struct refusal status_refusal(const struct search *lent)
{
    struct refusal refusal = front_refusal(lent);
    return refusal.number == 0 ? goal_refusal(lent) : refusal;
}

const char *fields_of(size_t kind)
{
    static const char *const fields[] = {"n0000", "tt000", "t0000", "t0000", "nt000", "tt000", NULL,
                                         "t0000", "t0000", "tntnt", "t0000", "tf000", "00000"};
    return kind < sizeof fields / sizeof fields[0] ? fields[kind] : NULL;
}

/* A name is an assumption's, or that of a generated index which no assumption has. */
static bool good_name(const struct draft *lent, size_t name)
{
    size_t index = name - QUAYSAFFRON_FIRST_GENERATED;
    if (name < QUAYSAFFRON_FIRST_GENERATED) {
        return name < lent->assumptions;
    }
    if (index > QUAYSAFFRON_LAST_INDEX) {
        return false;
    }
    for (size_t at = 0; at < lent->names_length; at += (size_t)1 + lent->names[at]) {
        if (spelled(index, lent->names + at + 1, lent->names[at])) {
            return false;
        }
    }
    return true;
}

static bool good_node(const struct draft *lent, size_t at)
{
    const uint16_t *node = lent->terms + NODE * at;
    const char *fields = fields_of(node[0]);
    bool good = fields != NULL;
    for (size_t i = 0; good && i < NODE - 1; i++) {
        size_t value = node[1 + i];
        switch (fields[i]) {
        case 'n':
            good = good_name(lent, value);
            break;
        case 't':
            good = value < at;
            break;
        case 'f':
            good = value < lent->count;
            break;
        default:
            good = value == 0;
        }
    }
    return good;
}

static struct refusal nodes_refusal(const struct draft *lent)
{
    for (size_t i = 0; i < lent->nodes; i++) {
        if (!good_node(lent, i)) {
            return refused(QUAYSAFFRON_BAD_TERM, i);
        }
    }
    return lent->root < lent->nodes ? refused(0, 0) : refused(QUAYSAFFRON_BAD_TERM, lent->nodes);
}

struct refusal text_refusal(const struct draft *lent)
{
    struct refusal refusal;
    if (!good_sizes(lent->words_length, lent->count, lent->terms_length)
        || lent->nodes > lent->terms_length / NODE) {
        return refused(QUAYSAFFRON_SIZES, 0);
    }
    refusal = words_refusal(lent->words, lent->words_length, lent->count);
    if (refusal.number == 0 && lent->assumptions > QUAYSAFFRON_MOST_ASSUMPTIONS) {
        refusal = refused(QUAYSAFFRON_BAD_ASSUMPTION, QUAYSAFFRON_MOST_ASSUMPTIONS);
    }
    if (refusal.number == 0) {
        refusal = names_refusal(lent->names, lent->names_length, lent->assumptions);
    }
    return refusal.number == 0 ? nodes_refusal(lent) : refusal;
}
