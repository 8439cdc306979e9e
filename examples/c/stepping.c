/*
 * Steps through the run of a job, one term at a time, as a debugger would: after each step it shows what is finished and what
 * waits, from its saved state alone. table.kit and job.tac of a folder.
 */
#include <string.h>

#include "common.h"

static struct file table, job;

/* Space that is lent to the calls. */
static uint8_t work[HITAC_RESUME_WORK], text_work[HITAC_WRITE_TEXT_WORK];
static struct hitac_frame frames[HITAC_FRAMES];
static uint8_t proof[HITAC_LONGEST_PROOF], text[HITAC_LONGEST_TEXT];

/* The run as it was halted last, and as it is halted next: two spaces, since a call reads one and writes the other. */
static uint8_t saved[HITAC_STATE], state[HITAC_STATE];

/* What the term of an entry does; docs/FORMAT.md, "The saved state of a halted run". */
enum stage { TO_BEGIN, LABEL, SEQUENCE_LEFT, SEQUENCE_RIGHT, TENSOR_LEFT, TENSOR_RIGHT, ALTERNATION_LEFT };

/* Where each entry of the saved state begins, outermost first. A run has at most as many waiting terms as frames. */
static size_t entries[HITAC_FRAMES + 1], entry_count;

static unsigned value_at(size_t place)
{
    return 256u * saved[place] + saved[place + 1];
}

/* An entry: stage, file, place of a term, number of goals, goals. */
static enum stage stage_of(size_t entry)
{
    return (enum stage)saved[entries[entry]];
}

static unsigned goal_count(size_t entry)
{
    return value_at(entries[entry] + 4);
}

static unsigned goal_of(size_t entry, size_t number)
{
    return value_at(entries[entry] + 6 + 2 * number);
}

/* Finds the entries, which stand behind the step count, the fields that are finished and the number of entries. */
static void find_entries(void)
{
    size_t place = 4 + value_at(2);
    entry_count = value_at(place);
    place += 2;
    for (size_t i = 0; i < entry_count; i++) {
        entries[i] = place;
        place += 6 + 2 * goal_count(i);
    }
}

/* A list of goals. None is longer than 256. */
struct goals {
    unsigned at[HITAC_MOST_GOALS];
    size_t count;
};

/* Puts an entry's own goals behind those of a list, or in front of them. */
static void add_goals(struct goals *list, size_t entry, int in_front)
{
    size_t own = goal_count(entry), place = in_front ? 0 : list->count;
    memmove(list->at + place + own, list->at + place, (list->count - place) * sizeof list->at[0]);
    for (size_t i = 0; i < own; i++)
        list->at[place + i] = goal_of(entry, i);
    list->count += own;
}

/*
 * The list on which the term of an entry began, put together from the innermost entry on. An alternation keeps only those goals
 * that no entry inside it holds, so its list is its own goals and those inside. The right term of a sequence runs on another list.
 */
static void rebuild(struct goals *list, size_t entry)
{
    list->count = 0;
    for (size_t i = entry_count; i-- > entry;) {
        switch (stage_of(i)) {
        case SEQUENCE_RIGHT:
            list->count = 0;
            break;
        case TO_BEGIN:
        case TENSOR_LEFT:
            add_goals(list, i, 0);
            break;
        case ALTERNATION_LEFT:
            add_goals(list, i, 1);
            break;
        default:
            break;
        }
    }
}

static void print_goals(const char *words, const struct goals *list)
{
    printf("%s", words);
    for (size_t i = 0; i < list->count; i++)
        printf(" %u", list->at[i]);
    printf("%s\n", list->count == 0 ? " no goals" : "");
}

/* A hiproof as text. */
static void print_term(const char *words, const uint8_t *term)
{
    struct hitac_answer answer = hitac_write_text(term, field_length(term), text_work, sizeof text_work, text, sizeof text);
    if (succeeded("write_text", answer))
        printf("%s%.*s\n", words, (int)answer.length, (const char *)text);
}

/* What is finished: the hiproofs of left terms, one behind the other. */
static void print_finished(void)
{
    for (size_t place = 4; place < 4 + value_at(2); place += field_length(saved + place))
        print_term("  finished: ", saved + place);
}

/* One entry, with the goals on which its last inner term is to begin, or those that the left term of a tensor gave. */
static void print_entry(size_t entry)
{
    static const char *const WORDS[] = {"to begin:", "label, inner term", "sequence, left term runs, then", "sequence, right term",
                                        "tensor, left term runs, then", "tensor, right term", "alternation, left term runs, else"};
    struct goals list = {{0}, 0};
    printf("  %s byte %u of the %s", WORDS[stage_of(entry)], value_at(entries[entry] + 2),
           saved[entries[entry] + 1] == 0 ? "table" : "job");
    switch (stage_of(entry)) {
    case TO_BEGIN:
    case ALTERNATION_LEFT:
        rebuild(&list, entry);
        print_goals(" on", &list);
        break;
    case TENSOR_LEFT:
        add_goals(&list, entry, 0);
        print_goals(" on", &list);
        break;
    case TENSOR_RIGHT:
        add_goals(&list, entry, 0);
        print_goals(" runs, left gave", &list);
        break;
    case SEQUENCE_LEFT:
        printf(" on what it gives\n");
        break;
    default:
        printf(" runs\n");
        break;
    }
}

static void print_halt(void)
{
    printf("steps %u\n", value_at(0));
    print_finished();
    find_entries();
    for (size_t i = 0; i < entry_count; i++)
        print_entry(i);
}

int main(int count, char **arguments)
{
    const char *folder = count > 1 ? arguments[1] : "examples/files";
    load(&table, folder, "table.kit");
    load(&job, folder, "job.tac");
    struct hitac_answer answer =
        hitac_run_halting(table.bytes, table.length, job.bytes, job.length, 0, work, HITAC_RUN_HALTING_WORK, frames,
                          HITAC_FRAMES, proof, sizeof proof, state, sizeof state);
    while (answer.number == HITAC_BUDGET_SPENT && answer.steps < HITAC_MOST_STEPS) {
        memcpy(saved, state, sizeof saved);
        print_halt();
        answer = hitac_resume(table.bytes, table.length, job.bytes, job.length, saved, sizeof saved, 1, work, HITAC_RESUME_WORK,
                              frames, HITAC_FRAMES, proof, sizeof proof, state, sizeof state);
    }
    if (succeeded("run", answer)) {
        printf("run: steps %u bytes %u\n", answer.steps, answer.length);
        print_term("proof: ", proof + field_length(proof));
    }
    return EXIT_SUCCESS;
}
