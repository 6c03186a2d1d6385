#include "books.h"

#include <stdio.h>
#include <string.h>

const size_t leaf_kinds[LEAF_KINDS] = {QUAYSAFFRON_ATOM, QUAYSAFFRON_FOR_ALL, QUAYSAFFRON_EXISTS};

struct book *clear(struct book *book)
{
    return memset(book, 0, sizeof *book);
}

size_t add(struct book *book, uint32_t word)
{
    if (book->count == QUAYSAFFRON_MOST_WORDS) {
        return QUAYSAFFRON_MOST_WORDS;
    }
    book->words[book->count] = word;
    return book->count++;
}

size_t truth(struct book *book)
{
    return add(book, quaysaffron_word(QUAYSAFFRON_TRUE, 0, 0));
}

size_t falsity(struct book *book)
{
    return add(book, quaysaffron_word(QUAYSAFFRON_FALSE, 0, 0));
}

size_t leaf(struct book *book, size_t kind, size_t symbol)
{
    return add(book, quaysaffron_word(kind, symbol, 0));
}

size_t atom(struct book *book, size_t symbol)
{
    return leaf(book, QUAYSAFFRON_ATOM, symbol);
}

size_t join(struct book *book, size_t kind, size_t a, size_t b)
{
    return add(book, quaysaffron_word(kind, a, b));
}

size_t chain(struct book *book, size_t kind, size_t part, size_t times, size_t end)
{
    for (size_t i = 0; i < times; i++) {
        end = join(book, kind, part, end);
    }
    return end;
}

size_t left_chain(struct book *book, size_t kind, size_t end, size_t times, size_t part)
{
    for (size_t i = 0; i < times; i++) {
        end = join(book, kind, end, part);
    }
    return end;
}

size_t balanced(struct book *book, size_t kind, size_t symbol, size_t atoms)
{
    size_t half = atoms / 2, left;
    if (atoms == 1) {
        return atom(book, symbol);
    }
    left = balanced(book, kind, symbol, half);
    return join(book, kind, left, balanced(book, kind, symbol + half, atoms - half));
}

size_t disjunction(struct book *book, size_t many, size_t formula)
{
    size_t full = formula, result = formula;
    bool begun = false;
    for (; 0 < many; many /= 2) {
        if (many % 2 == 1) {
            result = begun ? join(book, QUAYSAFFRON_OR, full, result) : full;
            begun = true;
        }
        full = join(book, QUAYSAFFRON_OR, full, full);
    }
    return result;
}

void assume(struct book *book, const char *name, size_t formula)
{
    size_t length = strlen(name);
    book->assumed[book->assumptions++] = (uint16_t)formula;
    book->names[book->names_length++] = (uint8_t)length;
    memcpy(book->names + book->names_length, name, length);
    book->names_length += length;
}

void assume_next(struct book *book, size_t formula)
{
    char name[16];
    snprintf(name, sizeof name, "x%u", (unsigned)book->assumptions);
    assume(book, name, formula);
}

/* Lays a number of so many bytes, little-endian, and returns the place behind it. */
static uint8_t *lay(uint8_t *at, size_t number, size_t bytes)
{
    for (size_t i = 0; i < bytes; i++) {
        *at++ = (uint8_t)(number >> 8 * i);
    }
    return at;
}

size_t house_file(const struct book *book, uint8_t file[2 * QUAYSAFFRON_MOST_FILE_BYTES])
{
    const uint8_t *name = book->names;
    uint8_t *at = lay(file, book->count, sizeof(uint16_t));
    for (size_t i = 0; i < book->count && i <= QUAYSAFFRON_PROGRAM_WORDS; i++) {
        at = lay(at, book->words[i], sizeof(uint32_t));
    }
    at = lay(at, book->assumptions, sizeof(uint16_t));
    for (size_t i = 0; i < book->assumptions; i++, name += 1 + *name) {
        at = lay(at, book->assumed[i], sizeof(uint16_t));
        memcpy(at, name, (size_t)1 + *name);
        at += (size_t)1 + *name;
    }
    at = lay(at, 1, sizeof(uint16_t));
    at = lay(at, book->goal, sizeof(uint16_t));
    return (size_t)(at - file);
}
