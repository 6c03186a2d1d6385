/* What the tests lend to the calls, and what the header promises of each answer and of every lent slice afterwards. */
#ifndef CALLS_H
#define CALLS_H

#include "quaysaffron.h"

#include <stdbool.h>

/* A byte of junk, the numbers of a node, how many symbols there are, and one assumption more than a call takes. */
enum {
    JUNK_BYTE = 0xa5,
    NODE = QUAYSAFFRON_NODE_NUMBERS,
    SYMBOLS = QUAYSAFFRON_LAST_SYMBOL + 1,
    TOO_MANY_ASSUMPTIONS = QUAYSAFFRON_MOST_ASSUMPTIONS + 1
};

/* What a search is lent; a status leaves out the assumptions and the names. */
struct search {
    uint32_t *words;
    size_t words_length;
    size_t count;
    const uint16_t *assumed;
    size_t assumed_length;
    const uint8_t *names;
    size_t names_length;
    size_t goal;
    uint16_t *terms;
    size_t terms_length;
    quaysaffron_record *work;
    size_t work_length;
    size_t steps;
};

/* What the writer is lent. */
struct draft {
    const uint32_t *words;
    size_t words_length;
    size_t count;
    size_t assumptions;
    const uint8_t *names;
    size_t names_length;
    const uint16_t *terms;
    size_t terms_length;
    size_t nodes;
    size_t root;
    uint8_t *text;
    size_t text_length;
};

/* What a writer gave: its number, the bytes written and the place. */
struct written {
    size_t number;
    size_t size;
    size_t place;
};

/* Copies of what was lent, made before the call. */
struct before {
    const uint32_t *words;
    const uint16_t *terms;
    const quaysaffron_record *work;
};

/* The calls. Out-parameters hold junk beforehand, so that one that is not set is seen. */
typedef size_t search_call(const struct search *lent, quaysaffron_answer *answer);
search_call ask_prove, ask_status;
struct written ask_text(const struct draft *lent, size_t *size, size_t *place);
struct written ask_name(size_t index, uint8_t *name, size_t name_length);

/* Whether every byte has this value. */
bool bytes_are(const void *bytes, size_t length, uint8_t value);

/* Whether an answer and the slices are as the header says. */
typedef bool search_promise(const struct search *lent, const struct before *before, size_t returned, const quaysaffron_answer *answer);
search_promise prove_holds, status_holds;
bool text_holds(const struct draft *lent, const uint8_t *text_before, struct written written);
bool name_holds(size_t index, const uint8_t *name, size_t name_length, struct written written);
bool output_holds(const uint8_t *out, size_t length);

/* What generated names are spelled with: a to z. */
enum { LETTERS = 26 };

/* Whether a name is that of a generated index: i/26+1 letters, i in base 26, padded in front with a. */
bool spelled(size_t index, const uint8_t *name, size_t size);

/* The number of a printed line `refused N`, and 0 of any other. */
size_t printed_refusal(const uint8_t *printed, size_t length);

#endif
