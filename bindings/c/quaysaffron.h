/* Quaysaffron for C (C99 or later) and C++: a proved prover for intuitionistic propositional logic.
 *
 * A rule book is an array of words, one a formula; some of them are assumptions with names, one is the goal. quaysaffron_prove answers
 * with a derivation of the goal, or says that there is none, or refuses and names the reason by a number. quaysaffron_text writes the
 * derivation down. example.c beside this file shows both; docs/AUDITORS.md tells how a derivation is read, docs/REFERENCE.md every rule.
 *
 * Each call is proved to return what the definitions in crates/theory/specs say, for every input and for every lent byte. What is proved
 * holds while the caller keeps to these rules, which a C compiler does not test:
 *
 * - Pointers. Each pointer is non-null and aligned for its type, also where its length is 0 (QUAYSAFFRON_EMPTY makes one), and points to
 *   as many elements as its length says, for the whole call. Lengths count elements, not bytes.
 * - Overlap. What a call may write (a pointer without const, and answer, size, place and out) overlaps nothing else that it is lent.
 * - Contents. Any: what is lent as room need not be cleared, and what is given wrong is refused.
 * - Threads. There is no state between calls, no heap and no lock, and no C function is called but memcpy and memset, which the compiler
 *   puts in. Calls on buffers that do not overlap may run at once on any threads.
 * - Stack. QUAYSAFFRON_STACK_BYTES below; a thread with less room may overrun it.
 *
 * Nothing panics, unwinds or exits. Link target/staticlib/libquaysaffron_c.a, which `bindings/make library` makes for x86-64 Linux alone.
 */
#ifndef QUAYSAFFRON_H
#define QUAYSAFFRON_H

#include <stddef.h>
#include <stdint.h>

#ifdef __cplusplus
extern "C" {
#endif

/* Sizes. Where a call is lent more than the most, or less than it needs, it returns QUAYSAFFRON_SIZES. */
#define QUAYSAFFRON_MOST_WORDS 16384 /* formula words */
#define QUAYSAFFRON_MOST_NODES 16384 /* term nodes */
#define QUAYSAFFRON_NODE_NUMBERS 6 /* numbers of a term node: its kind and five fields */
#define QUAYSAFFRON_MOST_NUMBERS 98304 /* numbers of term nodes */
#define QUAYSAFFRON_WORK_RECORDS 16384 /* records of the work area: neither more nor fewer */
#define QUAYSAFFRON_MOST_STEPS 1000000 /* the step limit */

/* Limits of a book. */
#define QUAYSAFFRON_MOST_ASSUMPTIONS 64
#define QUAYSAFFRON_MOST_NAME_BYTES 32 /* bytes of an assumption's name, and at least 1, from A-Z, a-z, 0-9 and _ */
#define QUAYSAFFRON_LAST_SYMBOL 16383 /* symbols of leaves: 0 to this */
#define QUAYSAFFRON_FIRST_FREE_SYMBOL 8192 /* symbols from here on carry free parameters; the status alone looks at that */

/* Limits of a search, with the number that is returned where it would pass one, and of a text. */
#define QUAYSAFFRON_LAST_INDEX 4095 /* the last generated index (QUAYSAFFRON_NAMES) */
#define QUAYSAFFRON_MOST_RECORDS 256 /* records of a sequent (QUAYSAFFRON_CONTEXTS) */
#define QUAYSAFFRON_HIGHEST_LEVEL 63 /* (QUAYSAFFRON_LEVELS) */
#define QUAYSAFFRON_MOST_PATH 1024 /* nodes on a path from the root of a text, ascribed formulas included (QUAYSAFFRON_NO_ROOM) */

/* Names in term nodes are numbers: below this an assumption's, from here on that of a generated index, added to it. */
#define QUAYSAFFRON_FIRST_GENERATED 64
#define QUAYSAFFRON_MOST_GENERATED_BYTES 158 /* letters of the last generated name, the longest */

/* House files and what is printed for them. */
#define QUAYSAFFRON_MOST_FILE_BYTES 32768
#define QUAYSAFFRON_OUTPUT_BYTES 32835

/* What the program ./quay lends, and quaysaffron_output with it. */
#define QUAYSAFFRON_PROGRAM_WORDS 4096
#define QUAYSAFFRON_PROGRAM_NODES 4096
#define QUAYSAFFRON_PROGRAM_STEPS 1000000
#define QUAYSAFFRON_PROGRAM_TEXT_BYTES 32768

/* Kinds of formulas. A leaf has its symbol at left and 0 at right, And, Or and Impl the indices of two words before their own. A symbol
 * has one kind among the given words, used or not: a leaf whose symbol stands at a lower index under another kind is refused with
 * QUAYSAFFRON_BAD_FORMULA. */
#define QUAYSAFFRON_TRUE 0
#define QUAYSAFFRON_FALSE 1
#define QUAYSAFFRON_ATOM 2
#define QUAYSAFFRON_AND 3
#define QUAYSAFFRON_OR 4
#define QUAYSAFFRON_IMPL 5
#define QUAYSAFFRON_FOR_ALL 6 /* a leaf: the prover does not look into it */
#define QUAYSAFFRON_EXISTS 7 /* a leaf too */

/* Kinds of term nodes, with their fields; a term is the index of a node before this one, unused fields are 0. */
#define QUAYSAFFRON_IDENT 0 /* name */
#define QUAYSAFFRON_PAIR 1 /* term, term */
#define QUAYSAFFRON_PROJECT_FST 2 /* term */
#define QUAYSAFFRON_PROJECT_SND 3 /* term */
#define QUAYSAFFRON_FUNCTION 4 /* name, body */
#define QUAYSAFFRON_APPLICATION 5 /* function, argument */
#define QUAYSAFFRON_OR_LEFT 7 /* term */
#define QUAYSAFFRON_OR_RIGHT 8 /* term */
#define QUAYSAFFRON_CASE 9 /* head, name, term, name, term */
#define QUAYSAFFRON_ABORT 10 /* term */
#define QUAYSAFFRON_ASCRIPTION 11 /* term, index of a formula */
#define QUAYSAFFRON_UNIT 12

/* Kinds of answers. */
#define QUAYSAFFRON_PROVED 1
#define QUAYSAFFRON_UNPROVABLE 2 /* no term of any size derives the goal */
#define QUAYSAFFRON_SHORT 3 /* the search, of a status either of the two, would pass a limit: numbers 6 to 11 */
#define QUAYSAFFRON_REFUSED 4 /* numbers 1 to 5 */
#define QUAYSAFFRON_SOLVABLE 5 /* this and the next two: of a status alone */
#define QUAYSAFFRON_UNSOLVABLE 6
#define QUAYSAFFRON_UNKNOWN 7 /* no term of any size derives the goal or its negation */

/* The numbers that come back. 0 is none of them. Of several refusals the lowest number comes back, but for a text 13 comes before 12, and
 * for a house file 14 before all others. */
#define QUAYSAFFRON_SIZES 1 /* a size above is not kept; count is over words_length, or the nodes are more than terms_length holds */
#define QUAYSAFFRON_BAD_FORMULA 2 /* place: the lowest word that breaks the layout, or whose symbol stands before it under another kind */
#define QUAYSAFFRON_BAD_ASSUMPTION 3 /* over 64 (place 64), or place: the first whose formula's index is not below count */
#define QUAYSAFFRON_BAD_NAMES 4 /* place: the first name at fault or repeated, or the count of names where text follows the last one */
#define QUAYSAFFRON_BAD_GOAL 5 /* the goal is not below count */
#define QUAYSAFFRON_STEPS 6 /* the search would pass the step limit */
#define QUAYSAFFRON_NAMES 7 /* .. the last generated index; also for a name asked for alone */
#define QUAYSAFFRON_FORMULAS 8 /* .. words_length */
#define QUAYSAFFRON_TERMS 9 /* .. the nodes that terms_length holds */
#define QUAYSAFFRON_CONTEXTS 10 /* .. the records of a sequent */
#define QUAYSAFFRON_LEVELS 11 /* .. the highest level */
#define QUAYSAFFRON_NO_ROOM 12 /* a text is longer than its buffer, or over 1,024 nodes stand on a path */
#define QUAYSAFFRON_BAD_TERM 13 /* place: the lowest node that breaks the layout, or the node count where the root is not below it */
#define QUAYSAFFRON_BAD_FILE 14 /* the bytes are no house file; quaysaffron_output alone, as its line `refused 14` */

/* The stack that a call takes at most, in bytes and rounded up: measured by stack.c, not proved. There is room for the dynamic linker too,
 * which took 3,184 bytes where it bound memset when that was first called. */
#define QUAYSAFFRON_PROVE_STACK_BYTES 131072
#define QUAYSAFFRON_STATUS_STACK_BYTES 131072
#define QUAYSAFFRON_TEXT_STACK_BYTES 458752
#define QUAYSAFFRON_OUTPUT_STACK_BYTES 655360
#define QUAYSAFFRON_OTHER_STACK_BYTES 16384 /* the name and the two tests, that of words with a table of 4,096 bytes */
/* A thread's whole stack, with which every call has slack. glibc puts a thread's own variables there too: where they are large, as under a
 * sanitizer, take as much more. */
#define QUAYSAFFRON_STACK_BYTES 1048576

/* A pointer for an empty slice: non-null, aligned for every type of this header, never followed. */
#define QUAYSAFFRON_EMPTY(type) ((type *)(uintptr_t)sizeof(uint64_t))

/* A word of no kind, which is refused with QUAYSAFFRON_BAD_FORMULA wherever it is given. */
#define QUAYSAFFRON_NO_WORD UINT32_C(15)

#define QUAYSAFFRON_LEFT_SHIFT 4 /* the lowest bit of left in a word */
#define QUAYSAFFRON_RIGHT_SHIFT 18 /* the lowest bit of right */

/* The word of a formula: kind in the low 4 bits, left in the next 14, right in the top 14. Where one does not fit it is
 * QUAYSAFFRON_NO_WORD, so that a symbol or an index out of range becomes a refusal, never another formula. */
static inline uint32_t quaysaffron_word(size_t kind, size_t left, size_t right)
{
    if (kind > QUAYSAFFRON_EXISTS || left > QUAYSAFFRON_LAST_SYMBOL || right > QUAYSAFFRON_LAST_SYMBOL) {
        return QUAYSAFFRON_NO_WORD;
    }
    return (uint32_t)(kind | left << QUAYSAFFRON_LEFT_SHIFT | right << QUAYSAFFRON_RIGHT_SHIFT);
}

/* A record of the work area. A caller lends 16,384 of them and need not look into one. */
typedef struct {
    uint16_t formula;
    uint16_t term;
} quaysaffron_record;

/* What a search or a status came to: its kind and the seven numbers. Those that a kind does not name are 0.
 *
 *   PROVED                           root, steps, indices, formulas, terms
 *   UNPROVABLE                       steps, indices, formulas (the given count)
 *   SHORT                            number, steps (for QUAYSAFFRON_STEPS the limit)
 *   REFUSED                          number, place (0 for QUAYSAFFRON_SIZES and QUAYSAFFRON_BAD_GOAL)
 *   SOLVABLE, UNSOLVABLE, UNKNOWN    none
 */
typedef struct {
    size_t kind;
    size_t number; /* of the refusal or shortage */
    size_t place; /* what is at fault */
    size_t root; /* the node of the derivation */
    size_t steps; /* entered by the search */
    size_t indices; /* generated indices used, skipped ones included */
    size_t formulas; /* words in use, the given ones included */
    size_t terms; /* nodes in use */
} quaysaffron_answer;

/* Searches for a derivation of a goal from named assumptions.
 *
 *   words, words_length       the given formulas at the front, then room for those that the search makes
 *   count                     how many are given; only these are looked at
 *   assumed, assumed_length   the assumptions, each the index of a given formula
 *   names, names_length       their names in the same order, each behind a byte that holds its length
 *   goal                      the index of a given formula
 *   terms, terms_length       room for nodes, 6 numbers each and no number over
 *   work, work_length         16,384 records
 *   steps                     the step limit
 *   answer                    is set
 *
 * Returns answer->number: 0 for PROVED and for UNPROVABLE alike, so answer->kind must be looked at. Afterwards:
 *   PROVED              words holds answer->formulas words, the given ones unchanged at the front, terms holds answer->terms nodes; both
 *                       are zero behind them, work is zero
 *   UNPROVABLE, SHORT   words holds the given ones, unchanged, and zero behind them; terms and work are zero
 *   REFUSED             words, terms and work are unchanged
 */
size_t quaysaffron_prove(uint32_t *words, size_t words_length, size_t count, const uint16_t *assumed, size_t assumed_length,
                         const uint8_t *names, size_t names_length, size_t goal, uint16_t *terms, size_t terms_length,
                         quaysaffron_record *work, size_t work_length, size_t steps, quaysaffron_answer *answer);

/* The status of a goal without assumptions: SOLVABLE if it is proved; else UNSOLVABLE if no ForAll, Exists or free symbol occurs in it,
 * or if goal->False, for which 2 words are added, is proved; else UNKNOWN: both searches ended without a proof. A shortage of either
 * search is SHORT with that search's own steps, each having the whole step limit; no room for the 2 words is QUAYSAFFRON_FORMULAS, steps 0.
 * Lent as above; refused with 1, 2 and 5 alone. Returns answer->number: 0 for every verdict, so answer->kind must be looked at.
 * Afterwards words holds the given ones, unchanged, and zero behind them, terms and work are zero; or, if REFUSED, all are unchanged. */
size_t quaysaffron_status(uint32_t *words, size_t words_length, size_t count, size_t goal, uint16_t *terms, size_t terms_length,
                          quaysaffron_record *work, size_t work_length, size_t steps, quaysaffron_answer *answer);

/* Writes the house text of the term at a node, with no zero byte at its end.
 *
 *   words, words_length, count   as a search left them; count is answer->formulas
 *   assumptions                  how many there are
 *   names, names_length          their names, as above
 *   terms, terms_length          as a search left them
 *   nodes                        answer->terms
 *   root                         answer->root
 *   text, text_length            the buffer
 *   size                         is set to the bytes of the text
 *   place                        is set to the place of a refusal, else to 0
 *
 * Returns 0: the text is at the front of the buffer and zeros are behind it. Returns 1, 2, 3 (over 64 assumptions alone), 4 or 13: the
 * buffer is unchanged, size 0. Returns 12: the buffer is zero, size and place 0. */
size_t quaysaffron_text(const uint32_t *words, size_t words_length, size_t count, size_t assumptions, const uint8_t *names,
                        size_t names_length, const uint16_t *terms, size_t terms_length, size_t nodes, size_t root, uint8_t *text,
                        size_t text_length, size_t *size, size_t *place);

/* Writes the name of a generated index: 0 is a, 25 z, 26 ba. Returns 0: the name is at the front of the buffer and zeros are behind it,
 * size is its bytes. Returns 7 where the index is over 4,095, else 12 where the buffer is too short: the buffer is zero, size 0. */
size_t quaysaffron_name(size_t index, uint8_t *name, size_t name_length, size_t *size);

/* What the program ./quay prints for the bytes of a house file (docs/REFERENCE.md, section 8). Returns how many bytes that is, at the
 * front of out, and zeros are behind them. There is no number: a refusal is the line `refused N`. */
size_t quaysaffron_output(const uint8_t *file, size_t file_length, uint8_t out[QUAYSAFFRON_OUTPUT_BYTES]);

/* Tests the first count words alone, or all where there are fewer: returns 0 and sets place to 0, or 2 and the place, that of the lowest
 * word that breaks the layout or gives a symbol a second kind. Any number of words is tested. */
size_t quaysaffron_test_words(const uint32_t *words, size_t words_length, size_t count, size_t *place);

/* Tests a text that is to hold so many names: returns 0 and sets place to 0, or 4 and the place. Any number of names is tested, in a time
 * that grows with their square. */
size_t quaysaffron_test_names(const uint8_t *names, size_t names_length, size_t assumptions, size_t *place);

/* The layout that the library was compiled for; an array of -1 elements stops the compiler. */
typedef char quaysaffron_size_has_8_bytes[sizeof(size_t) == 8 ? 1 : -1];
typedef char quaysaffron_record_has_4_bytes[sizeof(quaysaffron_record) == 4 ? 1 : -1];
typedef char quaysaffron_record_ends_in_term[offsetof(quaysaffron_record, term) == 2 ? 1 : -1];
typedef char quaysaffron_answer_has_8_numbers[sizeof(quaysaffron_answer) == 8 * sizeof(size_t) ? 1 : -1];
typedef char quaysaffron_answer_ends_in_terms[offsetof(quaysaffron_answer, terms) == 7 * sizeof(size_t) ? 1 : -1];

#ifdef __cplusplus
}
#endif

#endif
