/* Checks that include/hitac.h and the library agree: version, answer and frame, sizes, refusal numbers, limits. C99 and C++. */
#include <stdio.h>
#include <string.h>

#include "calls.h"

#define POISON 0xa5

static unsigned tests, failures;

static void expect(const char *what, int holds)
{
    tests++;
    if (!holds) {
        failures++;
        printf("agreement: WRONG: %s\n", what);
    }
}

static int all(const uint8_t *bytes, size_t length, uint8_t value)
{
    for (size_t i = 0; i < length; i++)
        if (bytes[i] != value)
            return 0;
    return 1;
}

static void is(const char *what, struct hitac_answer got, uint32_t number, uint32_t file, uint32_t place)
{
    expect(what, got.number == number && got.file == file && got.place == place);
    expect("a refusal counts no rule", got.number == HITAC_SUCCESS || got.rules == 0);
    expect("the numbers for later calls are 0", got.goals == 0 && got.longest == 0 && got.tactic == 0);
}

/* A term of so many atomics side by side. */
static void side_by_side(struct bytes *file, size_t atomics, size_t name)
{
    for (size_t i = 1; i < atomics; i++) {
        header(file, 20, 5 + 8 * (atomics - i - 1) + 5);
        field(file, 16, 1, name);
    }
    field(file, 16, 1, name);
}

/* A term of rows, one on what the other gave, each of so many atomics side by side. */
static void rows_of(struct bytes *file, size_t rows, size_t atomics, size_t name)
{
    size_t row = 8 * atomics - 3;
    for (size_t i = 1; i < rows; i++) {
        header(file, 19, row + (3 + row) * (rows - i - 1) + row);
        side_by_side(file, atomics, name);
    }
    side_by_side(file, atomics, name);
}

/* Rule 1 on 10 gives 20, 20; rule 2 on 20 gives none. */
static void small_table(void)
{
    table.length = 0;
    rule(&table, 1, 10, 2, 20);
    rule(&table, 2, 20, 0, 0);
}

/* A proof file: so many goals, an atomic, and so many goals remaining. */
static void small_proof(size_t goals, size_t goal, size_t name, size_t remaining)
{
    other.length = 0;
    field(&other, 3, goals, goal);
    field(&other, 16, 1, name);
    field(&other, 3, remaining, 20);
}

/* So many times some marks, and others behind them, as the text. */
static void marks(const char *first, size_t times, const char *last)
{
    other.length = 0;
    text(&other, first, times);
    text(&other, last, 1);
}

/* Leaves the state of table and job after so many steps in saved; the answer must be that of a halt. */
static void halt_at(uint32_t steps)
{
    struct hitac_answer got = answer_in(RUN_HALTING, HITAC_RUN_HALTING_WORK, sizeof out, steps);
    is("24 of a halt", got, HITAC_BUDGET_SPENT, HITAC_NO_FILE, 0);
    expect("with the budget as steps", got.steps == steps);
    memcpy(saved, state, HITAC_STATE);
}

/* The file that a call takes beside the table or alone, for a success; the saved state that is taken up. */
static void good_files(enum call call)
{
    small_table();
    small_proof(1, 10, 1, 2);
    if (call == RUN || call == SEARCH || call == RUN_HALTING || call == RESUME)
        other.length = 10;
    if (call == RESUME)
        halt_at(0);
    if (call == CHECK_FLAT || call == WRITE_PROOF) {
        other.length = 5;
        entry(&other, 1, 10);
        entry(&other, 2, 20);
        entry(&other, 2, 20);
    }
    if (call == READ_TEXT)
        marks("[1]", 1, "a12 ; id");
    if (call == WRITE_TEXT) {
        other.length = 0;
        side_by_side(&other, 3, 12);
    }
}

static int writes(enum call call)
{
    return call != CHECK && call != CHECK_FLAT;
}

/* One byte too few of work space, and just enough; the same of output space. The files stand ready, for a success. */
static void spaces_for(enum call call)
{
    size_t size = work_of(call);
    memset(work, POISON, size);
    memset(out, POISON, sizeof out);
    is("29 of a byte too few", answer_in(call, size - 1, sizeof out, 9), HITAC_WORK_TOO_SHORT, HITAC_NO_FILE, 0);
    expect("29 leaves the work space", all(work, size, POISON));
    struct hitac_answer got = answer_in(call, size, sizeof out, 9);
    is("success with the named size", got, HITAC_SUCCESS, HITAC_NO_FILE, 0);
    expect("the work space is cleared", all(work, size, 0));
    expect("bytes behind the result", all(out + got.length, sizeof out - got.length, POISON));
    if (!writes(call))
        return;
    memset(out, POISON, sizeof out);
    is("room to the byte", answer_in(call, size, got.length, 9), HITAC_SUCCESS, HITAC_NO_FILE, 0);
    memset(out, POISON, sizeof out);
    is("26", answer_in(call, size, got.length - 1, 9), HITAC_OUTPUT_TOO_SHORT, HITAC_NO_FILE, 0);
    expect("26 leaves the output space", all(out, sizeof out, POISON));
}

static void spaces(enum call call)
{
    good_files(call);
    spaces_for(call);
}

static void layout(void)
{
    struct hitac_answer fields;
    expect("the answer has 48 bytes", sizeof fields == 48);
    expect("file", offsetof(struct hitac_answer, file) == 4);
    expect("place", offsetof(struct hitac_answer, place) == 8);
    expect("steps", offsetof(struct hitac_answer, steps) == 12);
    expect("length", offsetof(struct hitac_answer, length) == 16);
    expect("fields", offsetof(struct hitac_answer, fields) == 20);
    expect("uses", offsetof(struct hitac_answer, uses) == 24);
    expect("remaining", offsetof(struct hitac_answer, remaining) == 28);
    expect("rules", offsetof(struct hitac_answer, rules) == 32);
    expect("goals", offsetof(struct hitac_answer, goals) == 36);
    expect("longest", offsetof(struct hitac_answer, longest) == 40);
    expect("tactic", offsetof(struct hitac_answer, tactic) == 44);
    expect("a frame has 12 bytes", sizeof(struct hitac_frame) == 12);
    expect("goals of a frame", offsetof(struct hitac_frame, goals) == 4);
    expect("count of a frame", offsetof(struct hitac_frame, count) == 8);
    expect("stage of a frame", offsetof(struct hitac_frame, stage) == 10);
}

static void version(void)
{
    expect("the version of header and library", hitac_version() == HITAC_VERSION);
    expect("its major number", hitac_version() / 65536 == HITAC_VERSION_MAJOR);
    expect("its minor number", hitac_version() % 65536 == HITAC_VERSION_MINOR);
}

/* The counts of an answer stand where the header says. */
static void counts(void)
{
    small_table();
    other.length = 0;
    field(&other, 3, 2, 10);
    side_by_side(&other, 2, 1);
    field(&other, 3, 4, 20);
    struct hitac_answer got = answer(CHECK);
    expect("counts of check", got.fields == 3 && got.uses == 2 && got.remaining == 4 && got.rules == 1);
    good_files(CHECK_FLAT);
    got = answer(CHECK_FLAT);
    expect("counts of check_flat", got.fields == 0 && got.uses == 3 && got.remaining == 0 && got.rules == 2);
    got = answer(WRITE_PROOF);
    expect("length of write_proof", got.length > 0 && got.uses == 0 && got.rules == 0);
    good_files(RUN);
    got = answer(RUN);
    expect("steps and length of run", got.steps == 1 && got.length == 17 && got.uses == 0 && got.rules == 0);
    got = answer(SEARCH);
    expect("steps and length of search", got.steps == 1 && got.length == 17 && got.uses == 0 && got.rules == 0);
    good_files(FLATTEN);
    got = answer(FLATTEN);
    expect("length of flatten", got.length > 0 && got.uses == 0 && got.rules == 0);
}

/* As many rules as a table may have: names from 1 on, each gives its goal 10 back; a definition behind them. */
static void many_rules(void)
{
    table.length = 0;
    for (size_t name = 1; name <= HITAC_MOST_RULES; name++)
        rule(&table, name, 10, 1, 10);
    definition(&table, 1);
}

/* So many uses, one in the premise of the other, of so many of the last rules in turn; the goal stays open. */
static void uses_in_turn(size_t uses, size_t rules)
{
    other.length = 0;
    field(&other, 3, 1, 10);
    for (size_t i = 0; i < uses; i++)
        entry(&other, HITAC_MOST_RULES - i % rules, 10);
    field(&other, 33, 1, 10);
}

/* The counts of the flat file that stands ready, and of the proof written from it. */
static void counts_rules(uint32_t uses, uint32_t rules)
{
    struct hitac_answer got = answer(CHECK_FLAT);
    is("uses in turn", got, HITAC_SUCCESS, HITAC_NO_FILE, 0);
    expect("their rules", got.uses == uses && got.rules == rules);
    if (uses >= HITAC_MOST_ENTRIES)
        return;
    got = answer(WRITE_PROOF);
    other.length = got.length;
    memcpy(other.at, out, got.length);
    got = answer(CHECK);
    is("the proof of uses in turn", got, HITAC_SUCCESS, HITAC_NO_FILE, 0);
    expect("its rules", got.uses == uses && got.rules == rules);
}

/* Different rules are rule fields: one counts once, however often it is used, and a name on two goals counts twice. */
static void different_rules(void)
{
    static const uint32_t TURNS[][2] = {{0, 1},   {1, 1},       {4, 1},    {4, 2},       {300, 8},
                                        {300, 9}, {2047, 2047}, {2047, 1}, {4096, 4096}, {4096, 2}};
    many_rules();
    for (size_t i = 0; i < sizeof TURNS / sizeof TURNS[0]; i++) {
        uses_in_turn(TURNS[i][0], TURNS[i][1]);
        counts_rules(TURNS[i][0], TURNS[i][0] < TURNS[i][1] ? TURNS[i][0] : TURNS[i][1]);
    }
    table.length = 0;
    rule(&table, 5, 10, 1, 11);
    rule(&table, 5, 11, 1, 10);
    other.length = 0;
    field(&other, 3, 1, 10);
    for (size_t i = 0; i < 6; i++)
        entry(&other, 5, 10 + i % 2);
    field(&other, 33, 1, 10);
    counts_rules(6, 2);
}

/* The refusals of a file that does not read, 1 to 5, in the other file. */
static void refusals_of_reading(void)
{
    small_table();
    other.length = HITAC_LONGEST_FILE + 1;
    memset(other.at, 0, other.length);
    is("1", answer(CHECK), HITAC_INPUT_TOO_LONG, HITAC_OTHER_FILE, 0);
    other.length = HITAC_LONGEST_FILE;
    is("3 at the longest file", answer(CHECK), HITAC_TAG_NOT_ALLOWED, HITAC_OTHER_FILE, 0);
    other.length = 2;
    is("2", answer(CHECK), HITAC_FIELD_TORN, HITAC_OTHER_FILE, 0);
    small_proof(1, 10, 1, 2);
    other.length--;
    is("2 in the last field", answer(CHECK), HITAC_FIELD_TORN, HITAC_OTHER_FILE, 10);
    small_proof(1, 10, 1, 2);
    put(&other, 0);
    is("4", answer(CHECK), HITAC_LENGTH_WRONG, HITAC_OTHER_FILE, 17);
    table.length = 0;
    small_proof(HITAC_MOST_GOALS + 1, 10, 1, 0);
    is("5", answer(CHECK), HITAC_LIMIT_PASSED, HITAC_OTHER_FILE, 0);
}

/* 6 to 9, in the table. */
static void refusals_of_tables(void)
{
    small_table();
    rule(&table, 2, 20, 1, 20);
    is("6", answer(CHECK), HITAC_RULE_REPEATED, HITAC_TABLE, 18);
    small_table();
    rule(&table, 2, 21, 1, 20);
    is("7", answer(CHECK), HITAC_PREMISE_COUNT_DIFFERS, HITAC_TABLE, 18);
    small_table();
    definition(&table, 7);
    definition(&table, 7);
    is("8", answer(CHECK), HITAC_TACTIC_REDEFINED, HITAC_TABLE, 26);
    table.length = 0;
    for (size_t tactic = 1; tactic <= 2; tactic++) {
        header(&table, 2, 10);
        put16(&table, tactic);
        labels(&table, 2);
    }
    is("9", answer(CHECK), HITAC_LABEL_REPEATED, HITAC_TABLE, 18);
}

/* 21 to 27, but for 22 and 26. */
static void refusals_of_meaning(void)
{
    small_table();
    small_proof(1, 10, 1, 1);
    is("21", answer(CHECK), HITAC_REMAINING_DIFFER, HITAC_OTHER_FILE, 10);
    good_files(RUN);
    is("24", answer_in(RUN, HITAC_RUN_WORK, sizeof out, 0), HITAC_BUDGET_SPENT, HITAC_NO_FILE, 0);
    is("25", answer_in(RUN, HITAC_RUN_WORK, sizeof out, HITAC_MOST_STEPS + 1), HITAC_BUDGET_TOO_LARGE, HITAC_NO_FILE, 0);
    other.at[9] = 2;
    is("23", answer(RUN), HITAC_TACTIC_FAILED, HITAC_NO_FILE, 0);
    good_files(CHECK_FLAT);
    other.length -= 7;
    is("27 with a goal pending", answer(CHECK_FLAT), HITAC_FLAT_WRONG, HITAC_OTHER_FILE, 19);
    entry(&other, 1, 20);
    is("27", answer(CHECK_FLAT), HITAC_FLAT_WRONG, HITAC_OTHER_FILE, 19);
}

/* A term on so many goals 10, and the reason why it does not validate; the place counts from the first byte of the term. */
struct reason {
    const char *term;
    uint32_t goals, number, place;
};

/* Leaves a job of the goals and the term. */
static void job_of(const struct reason *reason)
{
    marks(reason->term, 1, "");
    struct hitac_answer read = answer(READ_TEXT);
    is(reason->term, read, HITAC_SUCCESS, HITAC_NO_FILE, 0);
    other.length = 0;
    field(&other, 3, reason->goals, 10);
    for (size_t i = 0; i < read.length; i++)
        put(&other, out[i]);
}

/* The reason when checking and when flattening; a run of the term fails, and a search finds no evaluation. */
static void holds(const struct reason *reason)
{
    uint32_t place = 3 + 2 * reason->goals + reason->place;
    job_of(reason);
    is(reason->term, answer(RUN), HITAC_TACTIC_FAILED, HITAC_NO_FILE, 0);
    is(reason->term, answer(SEARCH), HITAC_NO_EVALUATION, HITAC_NO_FILE, 0);
    field(&other, 3, 0, 0);
    is(reason->term, answer(CHECK), reason->number, HITAC_OTHER_FILE, place);
    is(reason->term, answer(FLATTEN), reason->number, HITAC_OTHER_FILE, place);
}

/* Rule 1 takes 10 and gives two goals, rule 2 takes no goal 10, and no rule has the name 9. */
static const struct reason REASONS[] = {
    {"a2", 1, HITAC_RULE_MISSING, 0},
    {"a9", 1, HITAC_RULE_MISSING, 0},
    {"[7]a2", 1, HITAC_RULE_MISSING, 5},
    {"id ; a2", 1, HITAC_RULE_MISSING, 6},
    {"id * a2", 2, HITAC_RULE_MISSING, 6},
    {"a2 * id", 1, HITAC_RULE_MISSING, 3},
    /* whether there is a rule or not */
    {"a1", 0, HITAC_GOAL_COUNT_WRONG, 0},
    {"a1", 2, HITAC_GOAL_COUNT_WRONG, 0},
    {"a9", 0, HITAC_GOAL_COUNT_WRONG, 0},
    {"a9", 2, HITAC_GOAL_COUNT_WRONG, 0},
    {"id", 0, HITAC_GOAL_COUNT_WRONG, 0},
    {"id", 2, HITAC_GOAL_COUNT_WRONG, 0},
    {"[7]id", 2, HITAC_GOAL_COUNT_WRONG, 0},
    {"<>", 1, HITAC_GOAL_COUNT_WRONG, 0},
    /* the label takes one goal, whatever is inside */
    {"[7]<>", 0, HITAC_GOAL_COUNT_WRONG, 0},
    {"[7]<>", 1, HITAC_GOAL_COUNT_WRONG, 5},
    {"[7]id * id", 2, HITAC_GOAL_COUNT_WRONG, 0},
    /* never at a sequence, and never at a tensor for too many goals */
    {"id ; id", 0, HITAC_GOAL_COUNT_WRONG, 3},
    {"a1 ; id", 1, HITAC_GOAL_COUNT_WRONG, 8},
    {"id * id", 1, HITAC_GOAL_COUNT_WRONG, 6},
    {"id * id", 3, HITAC_GOAL_COUNT_WRONG, 6},
    {"<> * <>", 1, HITAC_GOAL_COUNT_WRONG, 6},
    {"(id * id) * id", 2, HITAC_GOAL_COUNT_WRONG, 12},
    {"id * id", 0, HITAC_GOALS_TOO_FEW, 0},
    {"(id * id) * id", 1, HITAC_GOALS_TOO_FEW, 0},
    {"id * id * id", 1, HITAC_GOALS_TOO_FEW, 6},
    {"[7](id * id) * id", 1, HITAC_GOALS_TOO_FEW, 5},
    {"a1 ; (id * id * id) * id", 1, HITAC_GOALS_TOO_FEW, 8},
    /* before the left term is walked */
    {"(a9 * id) * id", 1, HITAC_GOALS_TOO_FEW, 0},
};

/* 20, 34 and 35 at every sort of term. */
static void refusals_of_hiproofs(void)
{
    small_table();
    for (size_t i = 0; i < sizeof REASONS / sizeof REASONS[0]; i++)
        holds(&REASONS[i]);
    expect("the earlier name of 20", HITAC_NOT_VALID == HITAC_RULE_MISSING);
}

/* Rule 4 on 40 gives eight times 40: 32 of it side by side give 256 goals, 33 give 264. */
static void joined_lists(void)
{
    table.length = 0;
    rule(&table, 4, 40, HITAC_MOST_PREMISES, 40);
    for (size_t atomics = 32; atomics <= 33; atomics++) {
        other.length = 0;
        field(&other, 3, atomics, 40);
        side_by_side(&other, atomics, 4);
        size_t place = 3 + 2 * atomics;
        if (atomics == 33)
            is("22 in a run", answer(RUN), HITAC_JOINED_TOO_LONG, HITAC_NO_FILE, 0);
        is("no 22 in a search", answer(SEARCH), atomics == 33 ? HITAC_NO_EVALUATION : HITAC_SUCCESS, HITAC_NO_FILE, 0);
        field(&other, 3, 8 * 32, 40);
        if (atomics == 32)
            is("256 goals joined", answer(CHECK), HITAC_SUCCESS, HITAC_NO_FILE, 0);
        else
            is("22", answer(CHECK), HITAC_JOINED_TOO_LONG, HITAC_OTHER_FILE, (uint32_t)place);
    }
}

/* As many rules as a table may have, and one more; the same of premises and definitions. */
static void limits_of_tables(void)
{
    small_proof(1, 1, 1, 0);
    table.length = 0;
    for (size_t goal = 0; goal < HITAC_MOST_RULES; goal++)
        rule(&table, 1, goal, 0, 0);
    is("the most rules", answer(CHECK), HITAC_SUCCESS, HITAC_NO_FILE, 0);
    rule(&table, 1, HITAC_MOST_RULES, 0, 0);
    is("a rule more", answer(CHECK), HITAC_LIMIT_PASSED, HITAC_TABLE, 7 * HITAC_MOST_RULES);
    table.length = 0;
    rule(&table, 1, 2, HITAC_MOST_PREMISES + 1, 3);
    is("a premise more", answer(CHECK), HITAC_LENGTH_WRONG, HITAC_TABLE, 0);
    table.length = 0;
    rule(&table, 1, 1, 0, 0);
    for (size_t tactic = 0; tactic < HITAC_MOST_DEFINITIONS; tactic++)
        definition(&table, tactic);
    is("the most definitions", answer(CHECK), HITAC_SUCCESS, HITAC_NO_FILE, 0);
    definition(&table, HITAC_MOST_DEFINITIONS);
    is("a definition more", answer(CHECK), HITAC_LIMIT_PASSED, HITAC_TABLE, 7 + 8 * HITAC_MOST_DEFINITIONS);
}

/* The most term fields, and one more. */
static void limits_of_terms(void)
{
    table.length = 0;
    for (size_t more = 0; more <= 1; more++) {
        other.length = 0;
        field(&other, 3, 1, 10);
        labels(&other, HITAC_MOST_TERM_FIELDS + more);
        field(&other, 3, 1, 10);
        size_t innermost = 5 + 5 * HITAC_MOST_TERM_FIELDS;
        if (more == 0)
            is("the most term fields", answer(CHECK), HITAC_SUCCESS, HITAC_NO_FILE, 0);
        else
            is("a term field more", answer(CHECK), HITAC_LIMIT_PASSED, HITAC_OTHER_FILE, (uint32_t)innermost);
    }
}

/* Eight rows of 256 uses, each giving its goal back: no flat form of a proof is longer. No proof has longer lists or fields. */
static void longest_results(void)
{
    expect("the longest proof", HITAC_LONGEST_PROOF == 2 * (3 + 2 * HITAC_MOST_GOALS) + 5 * HITAC_MOST_TERM_FIELDS);
    table.length = 0;
    rule(&table, 5, 10, 1, 10);
    other.length = 0;
    field(&other, 3, HITAC_MOST_GOALS, 10);
    rows_of(&other, 8, HITAC_MOST_GOALS, 5);
    field(&other, 3, HITAC_MOST_GOALS, 10);
    struct hitac_answer got = answer_in(FLATTEN, HITAC_FLATTEN_WORK, HITAC_LONGEST_FLAT, 0);
    is("the longest flat form", got, HITAC_SUCCESS, HITAC_NO_FILE, 0);
    expect("its length", got.length == HITAC_LONGEST_FLAT);
}

/* A flat file of goal 10, so many uses of rule 5, which gives its goal back, and an open. */
static void long_flat(size_t uses)
{
    table.length = 0;
    rule(&table, 5, 10, 1, 10);
    other.length = 0;
    field(&other, 3, 1, 10);
    while (uses-- > 0)
        entry(&other, 5, 10);
    field(&other, 33, 1, 10);
}

/* The most entries of the writer and the most uses of a flat file, and one more of each; the same of goals and opens. */
static void limits_of_flats(void)
{
    long_flat(HITAC_MOST_ENTRIES - 1);
    is("the most entries", answer(WRITE_PROOF), HITAC_SUCCESS, HITAC_NO_FILE, 0);
    long_flat(HITAC_MOST_ENTRIES);
    is("28", answer(WRITE_PROOF), HITAC_ENTRIES_TOO_MANY, HITAC_OTHER_FILE, 0);
    long_flat(HITAC_MOST_USES);
    is("the most uses", answer(CHECK_FLAT), HITAC_SUCCESS, HITAC_NO_FILE, 0);
    long_flat(HITAC_MOST_USES + 1);
    is("a use more", answer(CHECK_FLAT), HITAC_LIMIT_PASSED, HITAC_OTHER_FILE, 5 + 7 * HITAC_MOST_USES);
    other.length = 0;
    field(&other, 3, HITAC_MOST_GOALS, 10);
    for (size_t i = 0; i < HITAC_MOST_OPENS; i++)
        field(&other, 33, 1, 10);
    is("the most goals and opens", answer(CHECK_FLAT), HITAC_SUCCESS, HITAC_NO_FILE, 0);
    size_t end = other.length;
    field(&other, 33, 1, 10);
    is("an open more", answer(CHECK_FLAT), HITAC_LIMIT_PASSED, HITAC_OTHER_FILE, (uint32_t)end);
}

/* Defines a tactic T as `a * T | <>`: the rule a on every goal. */
static void on_every_goal(size_t tactic, size_t name)
{
    size_t place = begin(&table, 2);
    put16(&table, tactic);
    size_t choice = begin(&table, 22);
    size_t both = begin(&table, 20);
    field(&table, 16, 1, name);
    field(&table, 24, 1, tactic);
    finish(&table, both);
    field(&table, 21, 0, 0);
    finish(&table, choice);
    finish(&table, place);
}

/* T5 * T6 on 20, 20, 30, which a run cannot split, since T5 has no arity. Rule 2 closes 20, rule 3 closes 30. */
static void split_by_demand(void)
{
    table.length = 0;
    rule(&table, 2, 20, 0, 0);
    rule(&table, 3, 30, 0, 0);
    on_every_goal(5, 2);
    on_every_goal(6, 3);
    other.length = 0;
    header(&other, 3, 6);
    put16(&other, 20);
    put16(&other, 20);
    put16(&other, 30);
    size_t both = begin(&other, 20);
    field(&other, 24, 1, 5);
    field(&other, 24, 1, 6);
    finish(&other, both);
}

static void searched(const char *what, uint32_t height, uint32_t budget, uint32_t number, uint32_t steps)
{
    struct hitac_answer got = searched_at(height, budget);
    is(what, got, number, HITAC_NO_FILE, 0);
    expect(what, got.steps == steps);
}

/* A search finds the split, if height and budget suffice; the proof is accepted. */
static void searches(void)
{
    split_by_demand();
    struct hitac_answer got = answer(RUN);
    is("a run cannot split", got, HITAC_TACTIC_FAILED, HITAC_NO_FILE, 0);
    expect("after one step", got.steps == 1);
    searched("41 at height 9", 9, HITAC_MOST_SEARCH_STEPS, HITAC_NO_EVALUATION, 64);
    searched("41 at the end of the budget", 9, 64, HITAC_NO_EVALUATION, 64);
    searched("24 before 41", 9, 63, HITAC_BUDGET_SPENT, 63);
    searched("24 at height 10", 10, 55, HITAC_BUDGET_SPENT, 55);
    searched("24 of no budget", 10, 0, HITAC_BUDGET_SPENT, 0);
    searched("25 of a search", 10, HITAC_MOST_SEARCH_STEPS + 1, HITAC_BUDGET_TOO_LARGE, 0);
    searched("25 before 42", 0, HITAC_MOST_SEARCH_STEPS + 1, HITAC_BUDGET_TOO_LARGE, 0);
    searched("42 of height 0", 0, HITAC_MOST_SEARCH_STEPS, HITAC_HEIGHT_OUTSIDE, 0);
    searched("42 above the largest height", HITAC_MOST_HEIGHT + 1, HITAC_MOST_SEARCH_STEPS, HITAC_HEIGHT_OUTSIDE, 0);
    searched("42 of the largest number", UINT32_MAX, HITAC_MOST_SEARCH_STEPS, HITAC_HEIGHT_OUTSIDE, 0);
    table.length = 2;
    searched("42 before the table", 0, HITAC_MOST_SEARCH_STEPS, HITAC_HEIGHT_OUTSIDE, 0);
    split_by_demand();
    searched("found at the end of the budget", 10, 56, HITAC_SUCCESS, 56);
    got = searched_at(10, HITAC_MOST_SEARCH_STEPS);
    is("found at height 10", got, HITAC_SUCCESS, HITAC_NO_FILE, 0);
    expect("steps and length of the proof", got.steps == 56 && got.length == 45);
    other.length = 0;
    for (size_t i = 0; i < got.length; i++)
        put(&other, out[i]);
    got = answer(CHECK);
    is("the proof that was found", got, HITAC_SUCCESS, HITAC_NO_FILE, 0);
    expect("its counts", got.fields == 9 && got.uses == 3 && got.remaining == 0 && got.rules == 2);
}

/* Rule 1 on 10, then rule 2 beside rule 2 on what it gave: five steps. */
static void five_steps(void)
{
    small_table();
    marks("a1 ; a2 * a2", 1, "");
    struct hitac_answer read = answer(READ_TEXT);
    other.length = 0;
    field(&other, 3, 1, 10);
    for (size_t i = 0; i < read.length; i++)
        put(&other, out[i]);
}

static int frames_are(size_t first, size_t behind, uint8_t value)
{
    return all((const uint8_t *)(frames + first), (behind - first) * sizeof frames[0], value);
}

static void poison(void)
{
    memset(work, POISON, sizeof work);
    memset(frames, POISON, sizeof frames);
    memset(out, POISON, sizeof out);
    memset(state, POISON, sizeof state);
}

/* One call in poisoned spaces; what it does with frames and state. The lengths that are named, but for these. */
static void halting_spaces(const char *what, enum call call, size_t frames_length, size_t state_length, uint32_t budget,
                           uint32_t number)
{
    poison();
    is(what, halting_in(call, work_of(call), frames_length, sizeof out, state_length, HITAC_STATE, budget), number,
       HITAC_NO_FILE, 0);
    if (number == HITAC_WORK_TOO_SHORT) {
        expect("29 leaves frames and work space", frames_are(0, HITAC_FRAMES + 1, POISON) && all(work, sizeof work, POISON));
        expect("29 leaves state and output space", all(state, sizeof state, POISON) && all(out, sizeof out, POISON));
        return;
    }
    expect("the frames are cleared", frames_are(0, frames_length, 0));
    expect("no frame behind them is", frames_are(frames_length, HITAC_FRAMES + 1, POISON));
    size_t written = number == HITAC_BUDGET_SPENT ? HITAC_STATE : 0;
    expect("bytes of state that are not touched", all(state + written, sizeof state - written, POISON));
    expect("a halt leaves the output space", number != HITAC_BUDGET_SPENT || all(out, sizeof out, POISON));
}

/* Each lent space one short, exact and longer, for a halt and for a success. */
static void halting_sizes(enum call call)
{
    for (uint32_t budget = 1; budget <= 5; budget += 4) {
        uint32_t number = budget == 5 ? HITAC_SUCCESS : HITAC_BUDGET_SPENT;
        halting_spaces("frames too few", call, HITAC_FRAMES - 1, HITAC_STATE, budget, HITAC_WORK_TOO_SHORT);
        halting_spaces("no frames", call, 0, HITAC_STATE, budget, HITAC_WORK_TOO_SHORT);
        halting_spaces("state too short", call, HITAC_FRAMES, HITAC_STATE - 1, budget, HITAC_WORK_TOO_SHORT);
        halting_spaces("both", call, HITAC_FRAMES - 1, 0, budget, HITAC_WORK_TOO_SHORT);
        halting_spaces("frames and state as long as named", call, HITAC_FRAMES, HITAC_STATE, budget, number);
        halting_spaces("frames and state longer", call, HITAC_FRAMES + 1, HITAC_STATE + 5, budget, number);
    }
}

/* The halt after 3 steps, byte by byte: the right term of the sequence runs, and in it the left one of the tensor. */
static void bytes_of_a_halt(void)
{
    static const uint8_t HALT[] = {0, 3, 0, 5, 16, 0, 2,  0, 1, 0, 3,  3, 1, 0, 13, 0, 0, 4,
                                   1, 0, 21, 0, 1, 0, 20, 0, 1, 0, 16, 0, 1, 0, 20};
    halt_at(3);
    expect("the contents of a saved state", memcmp(saved, HALT, sizeof HALT) == 0);
    expect("zeros behind them", all(saved + sizeof HALT, HITAC_STATE - sizeof HALT, 0));
}

/* A run in two pieces is a single run, and may halt again; sums of steps over the limit are refused. */
static void going_on(void)
{
    five_steps();
    struct hitac_answer whole = answer(RUN);
    uint8_t proof[64];
    memcpy(proof, out, whole.length);
    for (uint32_t made = 0; made < 5; made++) {
        halt_at(made);
        struct hitac_answer got = answer_in(RESUME, HITAC_RESUME_WORK, sizeof out, 5 - made);
        is("a run that is taken up", got, HITAC_SUCCESS, HITAC_NO_FILE, 0);
        expect("its steps and length", got.steps == 5 && got.length == whole.length);
        expect("its proof", memcmp(out, proof, whole.length) == 0);
        got = answer_in(RESUME, HITAC_RESUME_WORK, sizeof out, 0);
        is("24 of no step more", got, HITAC_BUDGET_SPENT, HITAC_NO_FILE, 0);
        expect("the same halt", got.steps == made && memcmp(state, saved, HITAC_STATE) == 0);
        got = answer_in(RESUME, HITAC_RESUME_WORK, whole.length - 1, 5 - made);
        is("26 of a run that is taken up", got, HITAC_OUTPUT_TOO_SHORT, HITAC_NO_FILE, 0);
        expect("with all steps", got.steps == 5);
        is("the most steps", answer(RESUME), HITAC_SUCCESS, HITAC_NO_FILE, 0);
        got = answer_in(RESUME, HITAC_RESUME_WORK, sizeof out, HITAC_MOST_STEPS + 1 - made);
        is("25 of a sum", got, HITAC_BUDGET_TOO_LARGE, HITAC_NO_FILE, 0);
        got = answer_in(RESUME, HITAC_RESUME_WORK, sizeof out, UINT32_MAX);
        is("25 of a sum over 32 bits", got, HITAC_BUDGET_TOO_LARGE, HITAC_NO_FILE, 0);
    }
    is("25 of a halting run", answer_in(RUN_HALTING, HITAC_RUN_HALTING_WORK, sizeof out, HITAC_MOST_STEPS + 1),
       HITAC_BUDGET_TOO_LARGE, HITAC_NO_FILE, 0);
}

static void taken_up(const char *what, size_t length, uint32_t budget, uint32_t number, uint32_t file)
{
    poison();
    struct hitac_answer got = halting_in(RESUME, HITAC_RESUME_WORK, HITAC_FRAMES, sizeof out, HITAC_STATE, length, budget);
    is(what, got, number, file, 0);
    expect("no step", got.steps == 0);
    expect("state is not touched", all(state, sizeof state, POISON));
}

/* Saved bytes that are no halt of the run: 30, after 25 and the files, and before any step. */
static void not_genuine(void)
{
    five_steps();
    halt_at(3);
    saved[HITAC_STATE] = 0;
    taken_up("30 of no bytes", 0, HITAC_MOST_STEPS, HITAC_STATE_NOT_GENUINE, HITAC_NO_FILE);
    taken_up("25 of no bytes", 0, HITAC_MOST_STEPS + 1, HITAC_BUDGET_TOO_LARGE, HITAC_NO_FILE);
    taken_up("30 of one byte", 1, HITAC_MOST_STEPS, HITAC_STATE_NOT_GENUINE, HITAC_NO_FILE);
    taken_up("30 of two bytes", 2, HITAC_MOST_STEPS - 3, HITAC_STATE_NOT_GENUINE, HITAC_NO_FILE);
    taken_up("25 of two bytes", 2, HITAC_MOST_STEPS - 2, HITAC_BUDGET_TOO_LARGE, HITAC_NO_FILE);
    taken_up("30 of a byte too few", HITAC_STATE - 1, 2, HITAC_STATE_NOT_GENUINE, HITAC_NO_FILE);
    taken_up("30 of a byte too many", HITAC_STATE + 1, 2, HITAC_STATE_NOT_GENUINE, HITAC_NO_FILE);
    for (size_t i = 1; i < 40; i++) {
        saved[i]++;
        taken_up("30 of a changed byte", HITAC_STATE, 2, HITAC_STATE_NOT_GENUINE, HITAC_NO_FILE);
        saved[i]--;
    }
    saved[HITAC_STATE - 1] = 1;
    taken_up("30 of the last byte", HITAC_STATE, 0, HITAC_STATE_NOT_GENUINE, HITAC_NO_FILE);
    size_t length = table.length;
    table.length = 2;
    taken_up("the table before 30", HITAC_STATE, 0, HITAC_FIELD_TORN, HITAC_TABLE);
    table.length = length;
    other.length = 2;
    taken_up("the job before 30", HITAC_STATE, 0, HITAC_FIELD_TORN, HITAC_OTHER_FILE);
    five_steps();
    saved[HITAC_STATE - 1] = 0;
    is("taken up again", answer(RESUME), HITAC_SUCCESS, HITAC_NO_FILE, 0);
}

/* Runs that halt, and runs that are taken up. */
static void halts(void)
{
    five_steps();
    bytes_of_a_halt();
    halting_sizes(RUN_HALTING);
    halt_at(0);
    halting_sizes(RESUME);
    going_on();
    not_genuine();
}

/* Tactics from 0 on: 0 is id, and each of the others has the one before it twice. Tactic n leaves 2^(n + 1) - 1 fields. */
static void doubled(size_t tactics)
{
    table.length = 0;
    definition(&table, 0);
    for (size_t tactic = 1; tactic < tactics; tactic++) {
        size_t place = begin(&table, 2);
        put16(&table, tactic);
        size_t pair = begin(&table, 19);
        field(&table, 24, 1, tactic - 1);
        field(&table, 24, 1, tactic - 1);
        finish(&table, pair);
        finish(&table, place);
    }
}

/* A job of so many labels around tactic 11: as many fields more than 4,095, and as many steps more than 8,190. */
static void labels_around_tactic_11(size_t count)
{
    other.length = 0;
    field(&other, 3, 1, 10);
    for (size_t i = 0; i < count; i++) {
        header(&other, 18, 2 + 5 * (count - i - 1) + 5);
        put16(&other, i);
    }
    field(&other, 24, 1, 11);
}

/* Runs of more than 4,096 steps: 4,096 fields are held, one more is 40, with the budget just spent and once taken up. */
static void longer_runs(void)
{
    doubled(12);
    labels_around_tactic_11(1);
    struct hitac_answer got = answer(RUN);
    is("4,096 fields held", got, HITAC_SUCCESS, HITAC_NO_FILE, 0);
    expect("in 8,191 steps", got.steps == 8191);
    labels_around_tactic_11(2);
    memset(out, POISON, sizeof out);
    for (int i = 0; i < 2; i++) {
        enum call call = i == 0 ? RUN : RUN_HALTING;
        got = answer(call);
        is("40", got, HITAC_FIELDS_TOO_MANY, HITAC_NO_FILE, 0);
        expect("with the steps", got.steps == 8192);
        is("40 before 24", answer_in(call, work_of(call), 0, 8192), HITAC_FIELDS_TOO_MANY, HITAC_NO_FILE, 0);
        is("24 before 40", answer_in(call, work_of(call), 0, 8191), HITAC_BUDGET_SPENT, HITAC_NO_FILE, 0);
    }
    halt_at(8191);
    got = answer(RESUME);
    is("40 of a run that is taken up", got, HITAC_FIELDS_TOO_MANY, HITAC_NO_FILE, 0);
    expect("with all steps", got.steps == 8192);
    expect("40 leaves the output space", all(out, sizeof out, POISON));
}

/* Whether a call leaves just these bytes, and says so. */
static int leaves(enum call call, const void *bytes, size_t length)
{
    struct hitac_answer got = answer(call);
    return got.number == HITAC_SUCCESS && got.length == length && memcmp(out, bytes, length) == 0;
}

/* A proof of zero bytes, in a table with rules and in one of zero bytes; it is written back as nine bytes. */
static void blank_proofs(void)
{
    static const uint8_t NO_GOALS[] = {3, 0, 0}, WRITTEN[] = {3, 0, 0, 21, 0, 0, 3, 0, 0};
    small_table();
    for (size_t i = 0; i < 2; i++) {
        other.length = 0;
        struct hitac_answer got = answer(CHECK);
        is("a proof of zero bytes", got, HITAC_SUCCESS, HITAC_NO_FILE, 0);
        expect("its counts", got.fields == 1 && got.uses == 0 && got.remaining == 0 && got.rules == 0);
        spaces_for(CHECK);
        expect("its flat file", leaves(FLATTEN, NO_GOALS, sizeof NO_GOALS));
        spaces_for(FLATTEN);
        field(&other, 3, 0, 0);
        expect("the proof of no goals", leaves(WRITE_PROOF, WRITTEN, sizeof WRITTEN));
        table.length = 0;
    }
}

/* Zero bytes are no good job, flat file, term file or text; one or two are no good proof either. The table comes first. */
static void hardly_any_bytes(void)
{
    static const enum call NO_PROOF[] = {RUN, SEARCH, RUN_HALTING, RESUME, CHECK_FLAT, WRITE_PROOF, WRITE_TEXT};
    static const enum call PROOF[] = {CHECK, FLATTEN};
    good_files(RESUME);
    other.length = 0;
    for (size_t i = 0; i < sizeof NO_PROOF / sizeof NO_PROOF[0]; i++)
        is("2 of zero bytes", answer(NO_PROOF[i]), HITAC_FIELD_TORN, HITAC_OTHER_FILE, 0);
    is("36 of zero bytes", answer(READ_TEXT), HITAC_TEXT_WRONG, HITAC_OTHER_FILE, 0);
    for (size_t i = 0; i < 2; i++) {
        header(&other, 3, 0);
        for (other.length = 1; other.length <= 2; other.length++)
            is("2 of a byte or two", answer(PROOF[i]), HITAC_FIELD_TORN, HITAC_OTHER_FILE, 0);
        other.length = 0;
        table.length = 2;
        is("2 of the table", answer(PROOF[i]), HITAC_FIELD_TORN, HITAC_TABLE, 0);
        small_table();
        rule(&table, 2, 20, 1, 20);
        is("6 of the table", answer(PROOF[i]), HITAC_RULE_REPEATED, HITAC_TABLE, 18);
        small_table();
    }
}

/* A term in both forms: a1 * ([3]a2) ; a3, whose brackets keep the label from reaching too far. */
static void both_forms(void)
{
    static const char TEXT[] = "a1 * ([3]a2) ; a3";
    static const uint8_t TERM[] = {19, 0, 23, 20, 0, 15, 16, 0, 2, 0, 1, 18, 0, 7, 0, 3, 16, 0, 2, 0, 2, 16, 0, 2, 0, 3};
    marks(TEXT, 1, "");
    expect("the term of a text", leaves(READ_TEXT, TERM, sizeof TERM));
    marks(" a0001*( (", 1, "[03]a2)) ;a3  ");
    expect("the term of a text with other blanks, brackets and zeros", leaves(READ_TEXT, TERM, sizeof TERM));
    other.length = 0;
    for (size_t i = 0; i < sizeof TERM; i++)
        put(&other, TERM[i]);
    expect("the text of a term", leaves(WRITE_TEXT, TEXT, sizeof TEXT - 1));
}

/* 36 and 37, and 1 and 5 where a text has them; the largest value. */
static void refusals_of_texts(void)
{
    marks("a1 ; ", 1, "a2x");
    is("36", answer(READ_TEXT), HITAC_TEXT_WRONG, HITAC_OTHER_FILE, 7);
    marks("(id ", 1, "");
    is("36 at the end", answer(READ_TEXT), HITAC_TEXT_WRONG, HITAC_OTHER_FILE, 4);
    marks("", 0, "a65535");
    static const uint8_t largest[] = {16, 0, 2, HITAC_MOST_VALUE / 256, HITAC_MOST_VALUE % 256};
    expect("the largest value", leaves(READ_TEXT, largest, sizeof largest));
    marks("id ; ", 1, "a65536x");
    is("37", answer(READ_TEXT), HITAC_VALUE_TOO_LARGE, HITAC_OTHER_FILE, 6);
    marks(" ", HITAC_LONGEST_FILE - 2, "id");
    is("the longest text that is read", answer(READ_TEXT), HITAC_SUCCESS, HITAC_NO_FILE, 0);
    marks(" ", HITAC_LONGEST_FILE - 1, "id");
    is("1 of a text", answer(READ_TEXT), HITAC_INPUT_TOO_LONG, HITAC_OTHER_FILE, 0);
    marks("[1]", HITAC_MOST_TERM_FIELDS, "id");
    is("5 of a text", answer(READ_TEXT), HITAC_LIMIT_PASSED, HITAC_OTHER_FILE, 3 * HITAC_MOST_TERM_FIELDS);
}

/* 1 to 5 of a term file. */
static void refusals_of_term_files(void)
{
    other.length = 0;
    is("2 of a term file", answer(WRITE_TEXT), HITAC_FIELD_TORN, HITAC_OTHER_FILE, 0);
    field(&other, 3, 1, 10);
    is("3 of a term file", answer(WRITE_TEXT), HITAC_TAG_NOT_ALLOWED, HITAC_OTHER_FILE, 0);
    other.length = 0;
    field(&other, 17, 0, 0);
    put(&other, 0);
    is("4 of a term file", answer(WRITE_TEXT), HITAC_LENGTH_WRONG, HITAC_OTHER_FILE, 3);
    other.length = 0;
    labels(&other, HITAC_MOST_TERM_FIELDS + 1);
    is("5 of a term file", answer(WRITE_TEXT), HITAC_LIMIT_PASSED, HITAC_OTHER_FILE, 5 * HITAC_MOST_TERM_FIELDS);
    other.length = HITAC_LONGEST_FILE + 1;
    is("1 of a term file", answer(WRITE_TEXT), HITAC_INPUT_TOO_LONG, HITAC_OTHER_FILE, 0);
}

/* The most labels of five digits round such an atomic: no term file is longer, and no written text. */
static void longest_term_and_text(void)
{
    marks("[65535]", HITAC_MOST_TERM_FIELDS - 1, "a65535");
    expect("the longest text", other.length == HITAC_LONGEST_TEXT);
    struct hitac_answer got = answer_in(READ_TEXT, HITAC_READ_TEXT_WORK, HITAC_LONGEST_TERM, 0);
    is("its term file", got, HITAC_SUCCESS, HITAC_NO_FILE, 0);
    expect("the longest term file", got.length == HITAC_LONGEST_TERM);
    other.length = 0;
    for (size_t i = 0; i < got.length; i++)
        put(&other, out[i]);
    got = answer_in(WRITE_TEXT, HITAC_WRITE_TEXT_WORK, HITAC_LONGEST_TEXT, 0);
    is("its text", got, HITAC_SUCCESS, HITAC_NO_FILE, 0);
    expect("the longest text is written", got.length == HITAC_LONGEST_TEXT);
}

int main(void)
{
    version();
    layout();
    counts();
    different_rules();
    spaces(CHECK);
    spaces(RUN);
    spaces(FLATTEN);
    spaces(CHECK_FLAT);
    spaces(WRITE_PROOF);
    spaces(READ_TEXT);
    spaces(WRITE_TEXT);
    spaces(SEARCH);
    spaces(RUN_HALTING);
    spaces(RESUME);
    refusals_of_reading();
    refusals_of_tables();
    refusals_of_meaning();
    refusals_of_hiproofs();
    joined_lists();
    limits_of_tables();
    limits_of_terms();
    longest_results();
    limits_of_flats();
    blank_proofs();
    hardly_any_bytes();
    both_forms();
    refusals_of_texts();
    refusals_of_term_files();
    longest_term_and_text();
    searches();
    halts();
    longer_runs();
    printf("agreement: %u tests, %u wrong\n", tests, failures);
    return failures != 0;
}
