/* Measures the stack that each call takes: on a thread of its own the stack below the frame that calls is filled with a pattern, and right
 * after the call the bytes are counted from the deepest one that no longer holds it up to that frame. The return address and the
 * arguments that the stack carries are among them, what is lent stands elsewhere. What a frame keeps free below the deepest byte that is
 * written is not seen.
 *
 * The stack of a search grows with its levels, that of a text with the nodes on a path, so each way to go up is taken to its limit.
 * A line for each call tells its maximum and the way that took it; a call that takes more than the header says fails, and a measure that
 * sees no byte.
 *
 * The dynamic linker may bind memset and memcpy where they are first called, and takes stack for that. So each call is measured in a
 * process of its own, at first before anything has called either. The ways up are measured afterwards, with both bound: they take no more
 * in a first call, since none of the functions that go up calls either. */
#define _POSIX_C_SOURCE 200809L

#include "books.h"

#include <pthread.h>
#include <stdio.h>
#include <stdlib.h>
#include <string.h>
#include <sys/wait.h>
#include <unistd.h>

enum { STACK_BYTES = 4 << 20, ALIGNMENT = 4096, PATTERN = 0x5a };
enum { LEVELS = QUAYSAFFRON_HIGHEST_LEVEL, PATH = QUAYSAFFRON_MOST_PATH, TEXT_BYTES = 1 << 20 };

static struct book book;
static uint32_t words[QUAYSAFFRON_MOST_WORDS];
static uint16_t terms[QUAYSAFFRON_MOST_NUMBERS];
static quaysaffron_record work[QUAYSAFFRON_WORK_RECORDS];
static uint8_t text[TEXT_BYTES], file[2 * QUAYSAFFRON_MOST_FILE_BYTES], out[QUAYSAFFRON_OUTPUT_BYTES];
static size_t file_length, nodes, name_index, number, bytes;
static uint8_t *stack;
static volatile uint8_t *frame;
static int failed;

/* A call with what the header says of it, what measures it, and its largest measure so far. */
struct call {
    const char *name;
    size_t told;
    void *(*run)(void *);
    void (*measure)(struct call *call);
    size_t bytes;
    const char *way;
};

/* The two halves of a measure, before and after the call. They stand in the frame that calls: one of their own would lie where the call's
 * is to be seen. */
#define INLINE static inline __attribute__((always_inline))

/* Fills the stack below the frame. The stack pointer is that of x86-64, as the library is. */
INLINE void lay_pattern(void)
{
    __asm__ volatile("mov %%rsp, %0" : "=r"(frame));
    for (volatile uint8_t *at = stack; at < frame; at++) {
        *at = PATTERN;
    }
}

INLINE void count_taken(void)
{
    volatile uint8_t *at = stack;
    while (at < frame && *at == PATTERN) {
        at++;
    }
    bytes = (size_t)(frame - at);
}

/* Runs both halves and the call between them on a thread. */
static void run_alone(void *(*run)(void *))
{
    pthread_attr_t attributes;
    pthread_t thread;
    bytes = 0;
    if (pthread_attr_init(&attributes) != 0 || pthread_attr_setstack(&attributes, stack, STACK_BYTES) != 0
        || pthread_create(&thread, &attributes, run, NULL) != 0 || pthread_join(thread, NULL) != 0) {
        fputs("no thread\n", stderr);
        exit(1);
    }
    pthread_attr_destroy(&attributes);
}

/* Measures one way; a call that ends in another number than the way leads to fails, and so does one that was not seen. */
static void measure(struct call *call, const char *way, size_t expected)
{
    run_alone(call->run);
    if (number != expected) {
        printf("%s, %s: number %zu, not %zu\n", call->name, way, number, expected);
        failed = 1;
    }
    if (bytes == 0) {
        printf("%s, %s: no byte of stack seen\n", call->name, way);
        failed = 1;
    }
    if (call->bytes <= bytes) {
        call->bytes = bytes;
        call->way = way;
    }
}

static void *run_prove(void *argument)
{
    quaysaffron_answer answer;
    lay_pattern();
    number = quaysaffron_prove(words, QUAYSAFFRON_MOST_WORDS, book.count, book.assumed, book.assumptions, book.names, book.names_length,
                               book.goal, terms, QUAYSAFFRON_MOST_NUMBERS, work, QUAYSAFFRON_WORK_RECORDS, QUAYSAFFRON_MOST_STEPS,
                               &answer);
    count_taken();
    return argument;
}

static void *run_status(void *argument)
{
    quaysaffron_answer answer;
    lay_pattern();
    number = quaysaffron_status(words, QUAYSAFFRON_MOST_WORDS, book.count, book.goal, terms, QUAYSAFFRON_MOST_NUMBERS, work,
                                QUAYSAFFRON_WORK_RECORDS, QUAYSAFFRON_MOST_STEPS, &answer);
    count_taken();
    return argument;
}

static void *run_text(void *argument)
{
    size_t size, place;
    lay_pattern();
    number = quaysaffron_text(words, QUAYSAFFRON_MOST_WORDS, book.count, book.assumptions, book.names, book.names_length, terms,
                              QUAYSAFFRON_MOST_NUMBERS, nodes, nodes - 1, text, TEXT_BYTES, &size, &place);
    count_taken();
    return argument;
}

static void *run_output(void *argument)
{
    size_t length;
    lay_pattern();
    length = quaysaffron_output(file, file_length, out);
    count_taken();
    number = printed_refusal(out, length);
    return argument;
}

static void *run_name(void *argument)
{
    size_t size;
    lay_pattern();
    number = quaysaffron_name(name_index, text, TEXT_BYTES, &size);
    count_taken();
    return argument;
}

static void *run_test_words(void *argument)
{
    size_t place;
    lay_pattern();
    number = quaysaffron_test_words(words, QUAYSAFFRON_MOST_WORDS, book.count, &place);
    count_taken();
    return argument;
}

static void *run_test_names(void *argument)
{
    size_t place;
    lay_pattern();
    number = quaysaffron_test_names(book.names, book.names_length, book.assumptions, &place);
    count_taken();
    return argument;
}

/* The ways up of a goal alone, each over `levels` levels. A symbol from 8,192 up makes the status search a second time. */
static void goal_implications(size_t levels, size_t symbol)
{
    size_t a = atom(&book, symbol);
    book.goal = chain(&book, QUAYSAFFRON_IMPL, a, levels, a);
}

static void goal_conjunctions(size_t levels, size_t symbol)
{
    size_t t = truth(&book), a = atom(&book, symbol);
    book.goal = left_chain(&book, QUAYSAFFRON_AND, join(&book, QUAYSAFFRON_IMPL, a, a), levels - 1, t);
}

static void goal_disjunctions(size_t levels, size_t symbol)
{
    size_t a = atom(&book, symbol);
    book.goal = chain(&book, QUAYSAFFRON_OR, a, levels, a);
}

static void goal_left_disjunctions(size_t levels, size_t symbol)
{
    size_t a = atom(&book, symbol);
    book.goal = left_chain(&book, QUAYSAFFRON_OR, a, levels, a);
}

/* The ways up of what stands on the left, as one formula that is to be supposed; the goal is another. */
static size_t left_disjunctions(size_t levels, size_t symbol)
{
    book.goal = atom(&book, symbol);
    return chain(&book, QUAYSAFFRON_OR, book.goal, levels, book.goal);
}

/* ((p->p)->..((p->p)->q)): rule 4's second premise. The first one takes two levels above each. */
static size_t second_premises(size_t levels, size_t symbol)
{
    size_t p = atom(&book, symbol + 1);
    size_t identity = join(&book, QUAYSAFFRON_IMPL, p, p);
    book.goal = atom(&book, symbol);
    return chain(&book, QUAYSAFFRON_IMPL, identity, levels - 1, book.goal);
}

/* (a->g1)->g0, (a->g2)->g1, ..: rule 4's first premise, which goes up two levels each time. The last g stands there too. A level that is
 * left over goes to an implication. */
static size_t first_premises(size_t levels, size_t symbol)
{
    size_t a = atom(&book, symbol), last = atom(&book, symbol + 1), all = last;
    for (size_t i = 0; i < levels / 2; i++) {
        size_t next = atom(&book, symbol + 2 + i);
        size_t premise = join(&book, QUAYSAFFRON_IMPL, a, last);
        size_t nested = join(&book, QUAYSAFFRON_IMPL, premise, next);
        all = join(&book, QUAYSAFFRON_AND, all, nested);
        last = next;
    }
    book.goal = levels % 2 == 0 ? last : join(&book, QUAYSAFFRON_IMPL, a, last);
    return all;
}

/* Disjunctions as the goal, and at the last two levels rule 4's first premise. */
static size_t first_premise_last(size_t levels, size_t symbol)
{
    size_t a = atom(&book, symbol), b = atom(&book, symbol + 1), f = falsity(&book);
    book.goal = left_chain(&book, QUAYSAFFRON_OR, b, levels - 2, f);
    return join(&book, QUAYSAFFRON_IMPL, join(&book, QUAYSAFFRON_IMPL, a, b), f);
}

/* A disjunction on the left, and in its last branch one as the goal. */
static size_t both_disjunctions(size_t levels, size_t symbol)
{
    size_t a = atom(&book, symbol);
    size_t left = chain(&book, QUAYSAFFRON_OR, a, levels / 2, a);
    book.goal = chain(&book, QUAYSAFFRON_OR, atom(&book, symbol + 1), levels - levels / 2, a);
    return left;
}

typedef void goal_way(size_t levels, size_t symbol);
typedef size_t left_way(size_t levels, size_t symbol);

/* climbs: the goal's negation goes up as far as the goal, and a level more for its implication. */
struct way {
    const char *name;
    goal_way *goal;
    left_way *left;
    bool climbs;
};

static const struct way ways[] = {
    {"the goal an implication", goal_implications, NULL, false},
    {"the goal a conjunction", goal_conjunctions, NULL, false},
    {"the goal a disjunction, right halves", goal_disjunctions, NULL, false},
    {"the goal a disjunction, left halves", goal_left_disjunctions, NULL, true},
    {"a disjunction on the left", NULL, left_disjunctions, false},
    {"rule 4, second premise", NULL, second_premises, false},
    {"rule 4, first premise", NULL, first_premises, false},
    {"disjunctions on both sides", NULL, both_disjunctions, false},
    {"the goal a disjunction, then rule 4", NULL, first_premise_last, false},
};

enum { WAYS = sizeof ways / sizeof ways[0] };

/* Lays the book of a way: what it supposes is an assumption, or else the left of an implication, which takes a level. */
static void lay_way(const struct way *way, size_t symbol, bool assumed, size_t levels)
{
    size_t left;
    clear(&book);
    if (way->goal != NULL) {
        way->goal(levels, symbol);
    } else if (assumed) {
        assume(&book, "x", way->left(levels, symbol));
    } else {
        left = way->left(levels - 1, symbol);
        book.goal = join(&book, QUAYSAFFRON_IMPL, left, book.goal);
    }
    memcpy(words, book.words, sizeof words);
    file_length = house_file(&book, file);
}

/* Each way up to the highest level; and one level more, which is refused once the stack is as deep as it gets. A status' second search of
 * a way that climbs is there already. */
static void measure_levels(struct call *call, size_t symbol, bool assumed)
{
    for (size_t i = 0; i < WAYS; i++) {
        bool above = ways[i].climbs && QUAYSAFFRON_FIRST_FREE_SYMBOL <= symbol;
        lay_way(&ways[i], symbol, assumed, LEVELS);
        measure(call, ways[i].name, above ? QUAYSAFFRON_LEVELS : 0);
    }
    for (size_t i = 0; i < WAYS; i++) {
        lay_way(&ways[i], symbol, assumed, LEVELS + 1);
        measure(call, ways[i].name, QUAYSAFFRON_LEVELS);
    }
}

static void add_node(size_t kind, const uint16_t fields[NODE - 1])
{
    uint16_t *node = terms + NODE * nodes++;
    node[0] = (uint16_t)kind;
    memcpy(node + 1, fields, (NODE - 1) * sizeof *fields);
}

/* Where a kind of node has its children: the path goes on by one of them, the others are node 0. */
struct child {
    const char *name;
    size_t kind;
    size_t field;
};

static const struct child children[] = {
    {"Pair, first", QUAYSAFFRON_PAIR, 0},
    {"Pair, second", QUAYSAFFRON_PAIR, 1},
    {"ProjectFst", QUAYSAFFRON_PROJECT_FST, 0},
    {"ProjectSnd", QUAYSAFFRON_PROJECT_SND, 0},
    {"Function", QUAYSAFFRON_FUNCTION, 1},
    {"Application, function", QUAYSAFFRON_APPLICATION, 0},
    {"Application, argument", QUAYSAFFRON_APPLICATION, 1},
    {"OrLeft", QUAYSAFFRON_OR_LEFT, 0},
    {"OrRight", QUAYSAFFRON_OR_RIGHT, 0},
    {"Case, head", QUAYSAFFRON_CASE, 0},
    {"Case, first term", QUAYSAFFRON_CASE, 2},
    {"Case, second term", QUAYSAFFRON_CASE, 4},
    {"Abort", QUAYSAFFRON_ABORT, 0},
    {"TypeAscription, term", QUAYSAFFRON_ASCRIPTION, 0},
};

enum { CHILDREN = sizeof children / sizeof children[0], FIELDS = NODE - 1 };

/* A book with one assumption, whose symbol has the most digits, and its Ident as node 0. */
static void start_term(void)
{
    static const uint16_t first[FIELDS] = {0, 0, 0, 0, 0};
    clear(&book);
    memset(terms, 0, sizeof terms);
    nodes = 0;
    assume(&book, "x", atom(&book, QUAYSAFFRON_LAST_SYMBOL));
    add_node(QUAYSAFFRON_IDENT, first);
}

/* 1,024 nodes on a path by each child; the names of Function and Case are the assumption's. */
static void measure_terms(struct call *call)
{
    for (size_t i = 0; i < CHILDREN; i++) {
        start_term();
        memcpy(words, book.words, sizeof words);
        while (nodes < PATH) {
            uint16_t fields[FIELDS] = {0, 0, 0, 0, 0};
            fields[children[i].field] = (uint16_t)(nodes - 1);
            add_node(children[i].kind, fields);
        }
        measure(call, children[i].name, 0);
    }
}

/* 1,024 nodes on a path, so many of them terms and the rest those of an ascribed formula. */
static void measure_formulas(struct call *call, size_t kind, bool right, size_t above)
{
    uint16_t fields[FIELDS] = {0, 0, 0, 0, 0};
    size_t tower;
    start_term();
    tower = right ? chain(&book, kind, 0, PATH - above - 1, 0) : left_chain(&book, kind, 0, PATH - above - 1, 0);
    memcpy(words, book.words, sizeof words);
    fields[1] = (uint16_t)tower;
    add_node(QUAYSAFFRON_ASCRIPTION, fields);
    fields[1] = 0;
    for (size_t i = 1; i < above; i++) {
        fields[0] = (uint16_t)(nodes - 1);
        add_node(QUAYSAFFRON_PROJECT_FST, fields);
    }
    measure(call, right ? "an ascribed formula, right halves" : "an ascribed formula, left halves", 0);
}

static void measure_text(struct call *call)
{
    measure_terms(call);
    for (size_t kind = QUAYSAFFRON_AND; kind <= QUAYSAFFRON_IMPL; kind++) {
        for (int right = 0; right < 2; right++) {
            measure_formulas(call, kind, right == 1, 1);
            measure_formulas(call, kind, right == 1, PATH / 2);
            measure_formulas(call, kind, right == 1, PATH - 1);
        }
    }
}

/* x : T->(..->(T->p)) and the goal p: 1,023 Applications and x on a path. */
static void measure_applications(struct call *call)
{
    size_t t;
    clear(&book);
    t = truth(&book);
    book.goal = atom(&book, 0);
    assume(&book, "x", chain(&book, QUAYSAFFRON_IMPL, t, PATH - 1, book.goal));
    file_length = house_file(&book, file);
    measure(call, "a text of Applications", 0);
}

/* x : (q|q)->C with C = T->(..->(T->p)), y : q and the goal p: half a path of Applications, and q->C ascribed below them. */
static void measure_ascribed(struct call *call)
{
    size_t t, q, either, deep;
    clear(&book);
    t = truth(&book);
    q = atom(&book, 1);
    book.goal = atom(&book, 0);
    either = join(&book, QUAYSAFFRON_OR, q, q);
    deep = chain(&book, QUAYSAFFRON_IMPL, t, PATH / 2 - 4, book.goal);
    assume(&book, "x", join(&book, QUAYSAFFRON_IMPL, either, deep));
    assume(&book, "y", q);
    file_length = house_file(&book, file);
    measure(call, "a text with an ascribed formula", 0);
}

static void measure_prove(struct call *call)
{
    measure_levels(call, 0, true);
}

static void measure_status(struct call *call)
{
    measure_levels(call, 0, false);
    measure_levels(call, QUAYSAFFRON_FIRST_FREE_SYMBOL, false);
}

static void measure_output(struct call *call)
{
    measure_levels(call, 0, true);
    measure_applications(call);
    measure_ascribed(call);
}

/* A name that is refused clears its buffer, here by the first call of memset. */
static void measure_name(struct call *call)
{
    name_index = QUAYSAFFRON_LAST_INDEX + 1;
    measure(call, "an index that is too high", QUAYSAFFRON_NAMES);
    name_index = QUAYSAFFRON_LAST_INDEX;
    measure(call, "the last index", 0);
}

static void measure_test_words(struct call *call)
{
    clear(&book);
    for (size_t symbol = 0; symbol < QUAYSAFFRON_MOST_WORDS; symbol++) {
        leaf(&book, leaf_kinds[symbol % LEAF_KINDS], symbol);
    }
    memcpy(words, book.words, sizeof words);
    measure(call, "16,384 leaves", 0);
    words[QUAYSAFFRON_MOST_WORDS - 1] = quaysaffron_word(leaf_kinds[1], 0, 0);
    measure(call, "16,384 leaves, the last under a second kind", QUAYSAFFRON_BAD_FORMULA);
    clear(&book);
    (void)chain(&book, QUAYSAFFRON_AND, falsity(&book), QUAYSAFFRON_MOST_WORDS - 1, 0);
    memcpy(words, book.words, sizeof words);
    measure(call, "16,384 words", 0);
}

static void measure_test_names(struct call *call)
{
    clear(&book);
    for (size_t i = 0; i < QUAYSAFFRON_MOST_ASSUMPTIONS; i++) {
        assume_next(&book, 0);
    }
    measure(call, "64 names", 0);
}

/* T as the one word, which is there already, and as the goal; its derivation; and a house file of it. Nothing here may call memset or
 * memcpy, so the file is laid byte by byte. */
static void lay_truth(void)
{
    static const uint8_t lone_truth[] = {1, 0, QUAYSAFFRON_TRUE, 0, 0, 0, 0, 0, 1, 0, 0, 0};
    volatile uint8_t *at = file;
    book.count = 1;
    terms[0] = QUAYSAFFRON_UNIT;
    nodes = 1;
    for (file_length = 0; file_length < sizeof lone_truth; file_length++) {
        at[file_length] = lone_truth[file_length];
    }
}

static void tell(const struct call *call)
{
    bool within = call->bytes <= call->told;
    printf("%-11s %7zu bytes of %7zu (%s)%s\n", call->name, call->bytes, call->told, call->way, within ? "" : ": MORE THAN TOLD");
    failed |= !within;
}

/* Measures a call in a process of its own, which tells of it; returns whether all went well. */
static bool measure_apart(struct call *call)
{
    int status;
    pid_t child = fork();
    if (child == 0) {
        lay_truth();
        measure(call, "the first call of a process", 0);
        call->measure(call);
        tell(call);
        exit(failed);
    }
    return 0 < child && waitpid(child, &status, 0) == child && WIFEXITED(status) && WEXITSTATUS(status) == 0;
}

int main(void)
{
    struct call calls[] = {
        {"prove", QUAYSAFFRON_PROVE_STACK_BYTES, run_prove, measure_prove, 0, ""},
        {"status", QUAYSAFFRON_STATUS_STACK_BYTES, run_status, measure_status, 0, ""},
        {"text", QUAYSAFFRON_TEXT_STACK_BYTES, run_text, measure_text, 0, ""},
        {"output", QUAYSAFFRON_OUTPUT_STACK_BYTES, run_output, measure_output, 0, ""},
        {"name", QUAYSAFFRON_OTHER_STACK_BYTES, run_name, measure_name, 0, ""},
        {"test_words", QUAYSAFFRON_OTHER_STACK_BYTES, run_test_words, measure_test_words, 0, ""},
        {"test_names", QUAYSAFFRON_OTHER_STACK_BYTES, run_test_names, measure_test_names, 0, ""},
    };
    int result = 0;
    if (posix_memalign((void **)&stack, ALIGNMENT, STACK_BYTES) != 0) {
        fputs("no stack\n", stderr);
        return 1;
    }
    for (size_t i = 0; i < sizeof calls / sizeof calls[0]; i++) {
        if (!measure_apart(&calls[i])) {
            fprintf(stderr, "%s: failed\n", calls[i].name);
            result = 1;
        }
    }
    return result;
}
