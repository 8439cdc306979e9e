/*
 * Calls every entry on its deepest files, in a thread and on a stack of exactly the header's bytes for that entry and a page,
 * with inaccessible pages below. C99 and Linux. Link with -z now, as the header says.
 */
#define _GNU_SOURCE
#include <pthread.h>
#include <setjmp.h>
#include <signal.h>
#include <stdio.h>
#include <string.h>
#include <sys/mman.h>
#include <ucontext.h>

#include "calls.h"

#define PAGE 4096
#define GUARD (16 * PAGE)
#define PAINT 0xa5

#define ATOMIC 16
#define ID 17
#define LABEL 18
#define SEQUENCE 19
#define TENSOR 20
#define EMPTY 21
#define ALTERNATION 22
#define ASSERT 23
#define DEFINED 24
#define OPEN 33

/* An entry, the stack that the header names for it, and what came of its calls. */
struct tested {
    enum call call;
    const char *name;
    size_t stack;
    size_t most_used;
    unsigned files, failures;
};

/* The stack that is lent: the guard below, and above it so many bytes. */
static uint8_t *guard;
static size_t mapped, lent;

static enum call called;
static struct hitac_answer answered;
static uint8_t *caller;
static ucontext_t outside, inside;
static sigjmp_buf overflow;
static uint8_t handler_stack[16 * PAGE];

/* A fault in the guard ends the call; any other is a fault of the program. */
static void on_fault(int number, siginfo_t *fault, void *context)
{
    uint8_t *place = (uint8_t *)fault->si_addr;
    (void)context;
    if (guard <= place && place < guard + GUARD)
        siglongjmp(overflow, 1);
    signal(number, SIG_DFL);
}

static void on_the_lent_stack(void)
{
    __asm__ volatile("mov %%rsp, %0" : "=r"(caller));
    answered = answer(called);
}

/* Whether a call ended on the lent stack. */
static int ends(enum call call)
{
    called = call;
    memset(guard + GUARD, PAINT, lent);
    getcontext(&inside);
    inside.uc_stack.ss_sp = guard + GUARD;
    inside.uc_stack.ss_size = lent;
    inside.uc_link = &outside;
    makecontext(&inside, on_the_lent_stack, 0);
    if (sigsetjmp(overflow, 1) != 0)
        return 0;
    swapcontext(&outside, &inside);
    return 1;
}

/* Bytes below the caller's stack pointer that were written. */
static size_t used(void)
{
    uint8_t *lowest = guard + GUARD;
    while (lowest < caller && *lowest == PAINT)
        lowest++;
    return (size_t)(caller - lowest);
}

static void wrong(struct tested *tested, const char *file, const char *place, const char *why)
{
    tested->failures++;
    printf("threads: WRONG: %s, %s%s: %s\n", tested->name, file, place, why);
}

/* The saved state that the call takes up, if it takes up one: half way to the end of the run, or zeros if there is none. */
static void halt_half_way(enum call call)
{
    if (call != RESUME)
        return;
    uint32_t steps = answer(RUN_HALTING).steps;
    memset(saved, 0, sizeof saved);
    if (answer_in(RUN_HALTING, HITAC_RUN_HALTING_WORK, sizeof out, steps / 2).number == HITAC_BUDGET_SPENT)
        memcpy(saved, state, HITAC_STATE);
}

/* One call on the files that stand ready, and the number that it must answer. */
static void expect(struct tested *tested, const char *file, const char *place, uint32_t number)
{
    char why[80];
    tested->files++;
    halt_half_way(tested->call);
    if (!ends(tested->call)) {
        snprintf(why, sizeof why, "more than %zu bytes of stack and a page", tested->stack);
        wrong(tested, file, place, why);
        return;
    }
    if (used() > tested->most_used)
        tested->most_used = used();
    if (used() > tested->stack) {
        snprintf(why, sizeof why, "%zu bytes of stack, not %zu", used(), tested->stack);
        wrong(tested, file, place, why);
    }
    if (answered.number != number) {
        snprintf(why, sizeof why, "answered %u at %u, not %u", answered.number, answered.place, number);
        wrong(tested, file, place, why);
    }
}

/* A term that is as deep as its fields allow. */
struct shape {
    const char *name;
    /* Fields of two terms, one in the other, in turn of two tags; how many; in which of the two; each in a label or not. */
    uint8_t outer, inner;
    size_t depth;
    enum { IN_THE_LEFT, IN_THE_RIGHT } side;
    int labelled;
    /* The terms beside and inside them: a tag, the number of values, and the value. */
    uint8_t leaf;
    size_t values, value;
    /*
     * Goals that it takes, and what a run of it answers: as the job's term, and as a definition that the job names; and what a
     * search answers to either. The terms are higher than a search goes.
     */
    size_t goals;
    uint32_t as_job, as_definition, as_search;
};

static const struct shape SHAPES[] = {
    {"4,095 labels", 0, 0, 0, 0, 0, ID, 0, 0, 1, 0, 0, 41},
    {"2,047 sequences to the left", SEQUENCE, SEQUENCE, 2047, IN_THE_LEFT, 0, ID, 0, 0, 1, 0, 0, 41},
    {"2,047 sequences to the right", SEQUENCE, SEQUENCE, 2047, IN_THE_RIGHT, 0, ID, 0, 0, 1, 0, 0, 41},
    {"2,047 sequences of uses to the left", SEQUENCE, SEQUENCE, 2047, IN_THE_LEFT, 0, ATOMIC, 1, 5, 1, 0, 0, 41},
    {"2,047 sequences of uses to the right", SEQUENCE, SEQUENCE, 2047, IN_THE_RIGHT, 0, ATOMIC, 1, 5, 1, 0, 0, 41},
    {"2,047 tensors to the left", TENSOR, TENSOR, 2047, IN_THE_LEFT, 0, EMPTY, 0, 0, 0, 0, 0, 41},
    {"2,047 tensors to the right", TENSOR, TENSOR, 2047, IN_THE_RIGHT, 0, EMPTY, 0, 0, 0, 0, 0, 41},
    {"2,047 sequences and tensors to the left", SEQUENCE, TENSOR, 2047, IN_THE_LEFT, 0, EMPTY, 0, 0, 0, 0, 0, 41},
    {"2,047 tensors and sequences to the right", TENSOR, SEQUENCE, 2047, IN_THE_RIGHT, 0, EMPTY, 0, 0, 0, 0, 0, 41},
    {"1,365 labelled sequences to the left", SEQUENCE, SEQUENCE, 1365, IN_THE_LEFT, 1, ID, 0, 0, 1, 0, 0, 41},
    {"1,365 labelled sequences to the right", SEQUENCE, SEQUENCE, 1365, IN_THE_RIGHT, 1, ID, 0, 0, 1, 0, 0, 41},
    {"2,047 alternations to the left", ALTERNATION, ALTERNATION, 2047, IN_THE_LEFT, 0, ID, 0, 0, 1, 0, 0, 0},
    {"2,047 failing alternations to the left", ALTERNATION, ALTERNATION, 2047, IN_THE_LEFT, 0, ASSERT, 1, 11, 1, 23, 23, 41},
    {"2,047 failing alternations to the right", ALTERNATION, ALTERNATION, 2047, IN_THE_RIGHT, 0, ASSERT, 1, 11, 1, 23, 23, 41},
};
#define SHAPE_COUNT (sizeof SHAPES / sizeof SHAPES[0])

static int is_hiproof(const struct shape *shape)
{
    return shape->outer != ALTERNATION;
}

static void leaf(struct bytes *file, const struct shape *shape)
{
    field(file, shape->leaf, shape->values, shape->value);
}

static void term(struct bytes *file, const struct shape *shape)
{
    static size_t pairs[HITAC_MOST_TERM_FIELDS], boxes[HITAC_MOST_TERM_FIELDS];
    if (shape->depth == 0) {
        labels(file, HITAC_MOST_TERM_FIELDS);
        return;
    }
    for (size_t i = 0; i < shape->depth; i++) {
        if (shape->labelled) {
            boxes[i] = begin(file, LABEL);
            put16(file, i);
        }
        pairs[i] = begin(file, i % 2 == 0 ? shape->outer : shape->inner);
        if (shape->side == IN_THE_RIGHT)
            leaf(file, shape);
    }
    leaf(file, shape);
    for (size_t i = shape->depth; i-- > 0;) {
        if (shape->side == IN_THE_LEFT)
            leaf(file, shape);
        finish(file, pairs[i]);
        if (shape->labelled)
            finish(file, boxes[i]);
    }
}

/* Rule 5 gives its goal 10 back, 6 closes it, 7 gives two of it, 8 gives eight. */
static void rules(void)
{
    table.length = 0;
    rule(&table, 5, 10, 1, 10);
    rule(&table, 6, 10, 0, 0);
    rule(&table, 7, 10, 2, 10);
    rule(&table, 8, 10, 8, 10);
}

static void definition_of(size_t tactic, const struct shape *shape)
{
    size_t place = begin(&table, 2);
    put16(&table, tactic);
    term(&table, shape);
    finish(&table, place);
}

/* So many definitions, each of which names the next; the last is id. */
static void chain_of_definitions(size_t count)
{
    for (size_t tactic = 0; tactic + 1 < count; tactic++) {
        size_t place = begin(&table, 2);
        put16(&table, tactic);
        field(&table, DEFINED, 1, tactic + 1);
        finish(&table, place);
    }
    definition(&table, count - 1);
}

static int takes_flat(enum call call)
{
    return call == CHECK_FLAT || call == WRITE_PROOF;
}

static int takes_job(enum call call)
{
    return call == RUN || call == SEARCH || call == RUN_HALTING || call == RESUME;
}

/* A run, whether it may halt or not. */
static int runs(enum call call)
{
    return takes_job(call) && call != SEARCH;
}

/* A proof, job or flat file that is answered 0, as the entry takes it. */
static void short_file(enum call call)
{
    other.length = 0;
    field(&other, 3, 1, 10);
    if (takes_flat(call))
        field(&other, OPEN, 1, 10);
    else
        field(&other, ID, 0, 0);
    if (call == CHECK || call == FLATTEN)
        field(&other, 3, 1, 10);
}

/* Deep terms in the table's definitions, for every entry; a run and a search name them. */
static void deep_tables(struct tested *tested)
{
    for (size_t i = 0; i < SHAPE_COUNT; i++) {
        rules();
        definition_of(1, &SHAPES[i]);
        short_file(tested->call);
        if (takes_job(tested->call)) {
            other.length = 0;
            field(&other, 3, SHAPES[i].goals, 10);
            field(&other, DEFINED, 1, 1);
        }
        uint32_t number = runs(tested->call) ? SHAPES[i].as_definition : tested->call == SEARCH ? SHAPES[i].as_search : 0;
        expect(tested, SHAPES[i].name, " in a definition", number);
    }
    rules();
    chain_of_definitions(HITAC_MOST_DEFINITIONS);
    short_file(tested->call);
    if (takes_job(tested->call)) {
        other.length = 5;
        size_t place = begin(&other, TENSOR);
        field(&other, DEFINED, 1, 0);
        field(&other, EMPTY, 0, 0);
        finish(&other, place);
    }
    expect(tested, "256 definitions, each of the next tactic", "", tested->call == SEARCH ? 41 : 0);
}

/* Deep terms in a proof or a job, and one label too many. */
static void deep_terms(struct tested *tested)
{
    int job = takes_job(tested->call);
    for (size_t i = 0; i < SHAPE_COUNT; i++) {
        const struct shape *shape = &SHAPES[i];
        rules();
        other.length = 0;
        field(&other, 3, shape->goals, 10);
        term(&other, shape);
        if (!job)
            field(&other, 3, shape->goals, 10);
        uint32_t number = runs(tested->call) ? shape->as_job : job ? shape->as_search : is_hiproof(shape) ? 0 : 3;
        expect(tested, shape->name, job ? " in a job" : " in a proof", number);
    }
    other.length = 0;
    field(&other, 3, 1, 10);
    labels(&other, HITAC_MOST_TERM_FIELDS + 1);
    field(&other, 3, 1, 10);
    expect(tested, "4,096 labels", "", 5);
}

/* A job on so many goals 10: tactic 1, whose body has a field of two terms, each of which may name the tactic again. */
static void recursive(uint8_t tag, uint8_t left, uint8_t right, size_t goals)
{
    rules();
    size_t place = begin(&table, 2);
    put16(&table, 1);
    size_t pair = begin(&table, tag);
    field(&table, left, left == ID ? 0 : 1, 1);
    field(&table, right, right == ID ? 0 : 1, 1);
    finish(&table, pair);
    finish(&table, place);
    other.length = 0;
    field(&other, 3, goals, 10);
    field(&other, DEFINED, 1, 1);
}

/* Searches through all of the budget, or all of the height. */
static void deep_searches(struct tested *tested)
{
    recursive(SEQUENCE, DEFINED, DEFINED, 1);
    expect(tested, "a tactic that is itself twice", "", 41);
    recursive(SEQUENCE, ID, DEFINED, 1);
    expect(tested, "sequences of id and the tactic itself", "", 41);
    recursive(ALTERNATION, DEFINED, DEFINED, HITAC_MOST_GOALS);
    expect(tested, "alternations of the tactic itself, on 256 goals", "", 24);
    recursive(TENSOR, DEFINED, DEFINED, HITAC_MOST_GOALS);
    expect(tested, "tensors of the tactic itself, on 256 goals", "", 24);
    recursive(TENSOR, ID, DEFINED, HITAC_MOST_GOALS);
    expect(tested, "tensors of id and the tactic itself, on 256 goals", "", 24);
    rules();
    other.length = 0;
    field(&other, 3, 1, 10);
    labels(&other, HITAC_MOST_HEIGHT);
    expect(tested, "64 term fields, one in the other", "", 0);
}

/* Runs that spend all of the budget, or hold all the fields there may be, with as much waiting as there can be of each kind. */
static void deep_halts(struct tested *tested)
{
    recursive(ALTERNATION, DEFINED, ID, HITAC_MOST_GOALS);
    expect(tested, "alternations in the left term, on 256 goals", "", 24);
    recursive(SEQUENCE, DEFINED, ID, HITAC_MOST_GOALS);
    expect(tested, "sequences in the left term, on 256 goals", "", 24);
    recursive(SEQUENCE, ID, DEFINED, 1);
    expect(tested, "sequences in the right term", "", 40);
    recursive(TENSOR, ID, DEFINED, HITAC_MOST_GOALS);
    expect(tested, "tensors in the right term, on 256 goals", "", 23);
}

static void entries(size_t count, size_t name)
{
    while (count-- > 0)
        entry(&other, name, 10);
}

static void opens(size_t count)
{
    while (count-- > 0)
        field(&other, OPEN, 1, 10);
}

/* Opens of all goals but the last; on that, uses in each other's first or last premise, so many deep; all else is closed. */
static void deep_derivation(size_t roots, size_t name, size_t premises, size_t depth, int in_the_first)
{
    rules();
    other.length = 0;
    field(&other, 3, roots, 10);
    opens(roots - 1);
    for (size_t i = 0; i < depth; i++) {
        entry(&other, name, 10);
        if (!in_the_first)
            entries(premises - 1, 6);
    }
    entries(1, 6);
    if (in_the_first)
        entries(depth * (premises - 1), 6);
}

static void deep_derivations(struct tested *tested)
{
    deep_derivation(1, 5, 1, HITAC_MOST_ENTRIES - 1, 0);
    expect(tested, "2,048 uses, each in the premise of the one before", "", 0);
    deep_derivation(1, 7, 2, HITAC_MOST_ENTRIES / 2 - 1, 1);
    expect(tested, "1,023 uses, each in the first of two premises", "", 0);
    deep_derivation(1, 7, 2, HITAC_MOST_ENTRIES / 2 - 1, 0);
    expect(tested, "1,023 uses, each in the last of two premises", "", 0);
    deep_derivation(1, 8, 8, HITAC_MOST_ENTRIES / 8 - 1, 1);
    expect(tested, "255 uses, each in the first of eight premises", "", 0);
    deep_derivation(1, 8, 8, HITAC_MOST_ENTRIES / 8 - 1, 0);
    expect(tested, "255 uses, each in the last of eight premises", "", 0);
    deep_derivation(HITAC_MOST_GOALS, 5, 1, HITAC_MOST_ENTRIES - HITAC_MOST_GOALS, 0);
    expect(tested, "256 goals, the last with 1,793 uses", "", 0);
    deep_derivation(1, 5, 1, HITAC_MOST_USES - 1, 0);
    expect(tested, "4,096 uses, each in the premise of the one before", "", tested->call == WRITE_PROOF ? 28 : 0);
    other.length = 0;
    field(&other, 3, HITAC_MOST_GOALS, 10);
    entries(HITAC_MOST_ENTRIES, 8);
    expect(tested, "2,048 uses with eight premises, none closed", "", 27);
    other.length = 0;
    field(&other, 3, 0, 0);
    expect(tested, "no goals", "", 0);
}

/* A text: a beginning so many times, then a middle, then an end as many times. */
struct nest {
    const char *name, *before;
    size_t times;
    const char *middle, *after;
    uint32_t number;
};

static const struct nest NESTS[] = {
    {"32,766 pairs of brackets", "(", 32766, "id", ")", 0},
    {"65,535 opening brackets", "(", 65535, "", "", 36},
    {"4,095 labels", "[65535]", 4095, "a65535", "", 0},
    {"4,096 labels", "[1]", 4096, "id", "", 5},
    {"4,095 labels, each in brackets", "([1]", 4095, "id", ")", 0},
    {"1,365 labels in brackets, side by side", "([1]id) * ", 1365, "id", "", 0},
    {"2,048 leaves in a sequence", "a65535 ; ", 2047, "a65535", "", 0},
    {"2,048 leaves in an alternation", "a65535 | ", 2047, "a65535", "", 0},
    {"2,048 leaves in a tensor", "a65535 * ", 2047, "a65535", "", 0},
    {"2,047 sequences in brackets to the left", "(", 2047, "id", ";id)", 0},
    {"2,047 tensors in brackets to the right", "id*(", 2047, "id", ")", 0},
    {"682 times each sign, the tightest first", "id*id|id;", 682, "id", "", 0},
    {"682 times each sign, the loosest first", "id;id|id*", 682, "id", "", 0},
    {"65,533 blanks", " ", 65533, "id", "", 0},
    {"65,534 zeros in a number", "", 65534, "a", "0", 0},
};

/* Deep and long texts, and the texts of deep terms. */
static void deep_texts(struct tested *tested)
{
    for (size_t i = 0; i < sizeof NESTS / sizeof NESTS[0]; i++) {
        const struct nest *nest = &NESTS[i];
        other.length = 0;
        text(&other, nest->before, nest->times);
        text(&other, nest->middle, 1);
        text(&other, nest->after, nest->times);
        expect(tested, nest->name, " as text", nest->number);
    }
    for (size_t i = 0; i < SHAPE_COUNT; i++) {
        other.length = 0;
        term(&other, &SHAPES[i]);
        size_t length = answer(WRITE_TEXT).length;
        memcpy(other.at, out, length);
        other.length = length;
        expect(tested, SHAPES[i].name, " as text", 0);
    }
}

/* Deep terms as files by themselves, and one label too many. */
static void deep_term_files(struct tested *tested)
{
    for (size_t i = 0; i < SHAPE_COUNT; i++) {
        other.length = 0;
        term(&other, &SHAPES[i]);
        expect(tested, SHAPES[i].name, " as a term file", 0);
    }
    other.length = 0;
    labels(&other, HITAC_MOST_TERM_FIELDS + 1);
    expect(tested, "4,096 labels", " as a term file", 5);
}

/* Every deep file that the entry takes. */
static void deep_files(struct tested *tested)
{
    if (tested->call == READ_TEXT) {
        deep_texts(tested);
        return;
    }
    if (tested->call == WRITE_TEXT) {
        deep_term_files(tested);
        return;
    }
    deep_tables(tested);
    if (takes_flat(tested->call))
        deep_derivations(tested);
    else
        deep_terms(tested);
    if (tested->call == SEARCH)
        deep_searches(tested);
    if (tested->call == RUN_HALTING || tested->call == RESUME)
        deep_halts(tested);
}

/* What the thread of an entry does, on a stack that it maps for the calls. */
static void *test(void *argument)
{
    struct tested *tested = (struct tested *)argument;
    stack_t handler = {.ss_sp = handler_stack, .ss_size = sizeof handler_stack};
    sigaltstack(&handler, NULL);
    lent = tested->stack + PAGE;
    mapped = GUARD + (lent + PAGE - 1) / PAGE * PAGE;
    guard = (uint8_t *)mmap(NULL, mapped, PROT_READ | PROT_WRITE, MAP_PRIVATE | MAP_ANONYMOUS, -1, 0);
    if (guard == MAP_FAILED || mprotect(guard, GUARD, PROT_NONE) != 0) {
        wrong(tested, "mmap", "", "no stack");
        return NULL;
    }
    deep_files(tested);
    munmap(guard, mapped);
    return NULL;
}

int main(void)
{
    struct tested all[] = {
        {CHECK, "check", HITAC_CHECK_STACK, 0, 0, 0},
        {RUN, "run", HITAC_RUN_STACK, 0, 0, 0},
        {FLATTEN, "flatten", HITAC_FLATTEN_STACK, 0, 0, 0},
        {CHECK_FLAT, "check_flat", HITAC_CHECK_FLAT_STACK, 0, 0, 0},
        {WRITE_PROOF, "write_proof", HITAC_WRITE_PROOF_STACK, 0, 0, 0},
        {READ_TEXT, "read_text", HITAC_READ_TEXT_STACK, 0, 0, 0},
        {WRITE_TEXT, "write_text", HITAC_WRITE_TEXT_STACK, 0, 0, 0},
        {SEARCH, "search", HITAC_SEARCH_STACK, 0, 0, 0},
        {RUN_HALTING, "run_halting", HITAC_RUN_HALTING_STACK, 0, 0, 0},
        {RESUME, "resume", HITAC_RESUME_STACK, 0, 0, 0},
    };
    unsigned failures = 0;
    struct sigaction action;
    memset(&action, 0, sizeof action);
    action.sa_sigaction = on_fault;
    action.sa_flags = SA_SIGINFO | SA_ONSTACK;
    sigaction(SIGSEGV, &action, NULL);
    for (size_t i = 0; i < sizeof all / sizeof all[0]; i++) {
        struct tested *tested = &all[i];
        pthread_t thread;
        if (pthread_create(&thread, NULL, test, tested) != 0 || pthread_join(thread, NULL) != 0)
            wrong(tested, "pthread", "", "no thread");
        printf("threads: %s: %u files, at most %zu bytes of %zu\n", tested->name, tested->files, tested->most_used,
               tested->stack);
        failures += tested->failures;
    }
    printf("threads: %u wrong\n", failures);
    return failures != 0;
}
