/* Why three wrong proofs do not validate, each with the place of the term that is at fault; table.kit and proof.hip of three folders. */
#include "common.h"

static struct file table, proof;
static uint8_t work[HITAC_CHECK_WORK];

/* For a tool's users. */
static const char *reason(uint32_t number)
{
    switch (number) {
    case HITAC_RULE_MISSING:
        return "the table has no rule of this name for the goal that the rule gets";
    case HITAC_GOAL_COUNT_WRONG:
        return "a rule, id or label gets no goal or more than one, or an empty gets a goal";
    case HITAC_GOALS_TOO_FEW:
        return "a tensor gets fewer goals than its left term takes";
    default:
        return "docs/FORMAT.md says what the number means";
    }
}

static void check(const char *name)
{
    struct hitac_answer answer =
        hitac_check(table.bytes, table.length, proof.bytes, proof.length, work, HITAC_CHECK_WORK);
    if (succeeded(name, answer))
        printf("%s: accepted fields %u uses %u open %u rules %u\n", name, answer.fields, answer.uses, answer.remaining,
               answer.rules);
    else
        printf("byte %u: %s\n", answer.place, reason(answer.number));
}

int main(int count, char **arguments)
{
    const char *folder = count > 1 ? arguments[1] : "examples";
    static const char *const names[] = {"refused", "miscounted", "few_goals"};
    char path[1024];
    for (size_t i = 0; i < sizeof names / sizeof names[0]; i++) {
        snprintf(path, sizeof path, "%s/%s", folder, names[i]);
        load(&table, path, "table.kit");
        load(&proof, path, "proof.hip");
        check(names[i]);
    }
    return EXIT_SUCCESS;
}
