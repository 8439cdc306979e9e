/* A tactic on which a run fails and a search finds a proof, which is then checked; table.kit and search.tac of a folder. */
#include "common.h"

static struct file table, job;

/* Space that is lent to the calls: as much work space as the most demanding call needs. */
static uint8_t work[HITAC_SEARCH_WORK];
static uint8_t proof[HITAC_LONGEST_PROOF], text[HITAC_LONGEST_TEXT];

static void run(void)
{
    struct hitac_answer answer = hitac_run(table.bytes, table.length, job.bytes, job.length, HITAC_MOST_STEPS, work,
                                           HITAC_RUN_WORK, proof, sizeof proof);
    if (succeeded("run", answer))
        printf("run: steps %u bytes %u\n", answer.steps, answer.length);
}

/* Leaves the proof file in proof; its length, or 0 after a refusal. */
static size_t search(uint32_t height, uint32_t budget)
{
    char words[80];
    snprintf(words, sizeof words, "search at height %u, budget %u", height, budget);
    struct hitac_answer answer = hitac_search(table.bytes, table.length, job.bytes, job.length, height, budget, work,
                                              HITAC_SEARCH_WORK, proof, sizeof proof);
    if (!succeeded(words, answer))
        return 0;
    printf("%s: steps %u bytes %u\n", words, answer.steps, answer.length);
    return answer.length;
}

/* Prints the term of the proof, which stands behind its first goal list. */
static void print_term(void)
{
    const uint8_t *term = proof + field_length(proof);
    struct hitac_answer answer =
        hitac_write_text(term, field_length(term), work, HITAC_WRITE_TEXT_WORK, text, sizeof text);
    if (succeeded("write_text", answer))
        printf("proof: %.*s\n", (int)answer.length, (const char *)text);
}

static void check(size_t proof_length)
{
    struct hitac_answer answer = hitac_check(table.bytes, table.length, proof, proof_length, work, HITAC_CHECK_WORK);
    if (succeeded("check", answer))
        printf("check: accepted fields %u uses %u open %u rules %u\n", answer.fields, answer.uses, answer.remaining,
               answer.rules);
}

int main(int count, char **arguments)
{
    const char *folder = count > 1 ? arguments[1] : "examples/paper";
    static const uint32_t tried[][2] = {{9, 4096}, {10, 55}, {65, 4096}, {10, 4096}};
    load(&table, folder, "table.kit");
    load(&job, folder, "search.tac");
    run();
    for (size_t i = 0; i < sizeof tried / sizeof tried[0]; i++) {
        size_t length = search(tried[i][0], tried[i][1]);
        if (length > 0) {
            print_term();
            check(length);
        }
    }
    return EXIT_SUCCESS;
}
