/* Reads tactics as text, writes them back, puts each into a job on its goals and runs it; table.kit and tactics.txt of a folder. */
#include <string.h>

#include "common.h"

static struct file table;

/* Space that is lent to the calls: as much work space as the most demanding call needs. */
static uint8_t work[HITAC_RUN_WORK];
static uint8_t term[HITAC_LONGEST_TERM], text[HITAC_LONGEST_TEXT], proof[HITAC_LONGEST_PROOF];

/* A job: a goal list, then a term. */
static uint8_t job[3 + 2 * HITAC_MOST_GOALS + HITAC_LONGEST_TERM];

/* Puts the goals in front of a line's colon into the job; hands on what stands behind the colon and a blank. */
static const char *put_goals(const char *line)
{
    size_t length = 0;
    while (*line != ':') {
        char *end;
        unsigned long goal = strtoul(line, &end, 10);
        if (end == line || goal > HITAC_MOST_VALUE || length == 2 * HITAC_MOST_GOALS) {
            fprintf(stderr, "tactics.txt: not the goals of a line: %s\n", line);
            exit(EXIT_FAILURE);
        }
        job[3 + length++] = (uint8_t)(goal / 256);
        job[3 + length++] = (uint8_t)(goal % 256);
        line = end;
    }
    job[0] = 3;
    job[1] = (uint8_t)(length / 256);
    job[2] = (uint8_t)(length % 256);
    return line[1] == ' ' ? line + 2 : line + 1;
}

/* Leaves the term file in term; its length, or 0 after a refusal. */
static size_t read_text(const char *tactic)
{
    struct hitac_answer answer =
        hitac_read_text((const uint8_t *)tactic, strlen(tactic), work, HITAC_READ_TEXT_WORK, term, sizeof term);
    if (!succeeded("read_text", answer))
        return 0;
    printf("read_text: bytes %u\n", answer.length);
    print_bytes(term, answer.length);
    return answer.length;
}

/* Prints a term as text behind some words. */
static void write_text(const char *words, const uint8_t *its_term, size_t length)
{
    struct hitac_answer answer = hitac_write_text(its_term, length, work, HITAC_WRITE_TEXT_WORK, text, sizeof text);
    if (succeeded("write_text", answer))
        printf("%s%.*s\n", words, (int)answer.length, (const char *)text);
}

/* Runs the job of the goals and the term; of the proof it prints the term and the goals that remain. */
static void run(size_t term_length)
{
    size_t goals_length = field_length(job);
    memcpy(job + goals_length, term, term_length);
    struct hitac_answer answer = hitac_run(table.bytes, table.length, job, goals_length + term_length, HITAC_MOST_STEPS,
                                           work, HITAC_RUN_WORK, proof, sizeof proof);
    if (!succeeded("run", answer))
        return;
    const uint8_t *its_term = proof + field_length(proof);
    const uint8_t *remaining = its_term + field_length(its_term);
    printf("run: steps %u bytes %u\n", answer.steps, answer.length);
    write_text("proof: ", its_term, field_length(its_term));
    printf("remaining:");
    for (size_t i = 3; i < field_length(remaining); i += 2)
        printf(" %u", 256u * remaining[i] + remaining[i + 1]);
    printf("\n");
}

int main(int count, char **arguments)
{
    const char *folder = count > 1 ? arguments[1] : "examples/paper";
    char line[1024];
    load(&table, folder, "table.kit");
    FILE *stream = opened(folder, "tactics.txt");
    while (fgets(line, sizeof line, stream) != NULL) {
        /* a line end is no blank of the notation */
        line[strcspn(line, "\n")] = 0;
        const char *tactic = put_goals(line);
        printf("tactic: %s\n", tactic);
        size_t length = read_text(tactic);
        if (length > 0) {
            write_text("write_text: ", term, length);
            run(length);
        }
    }
    fclose(stream);
    return EXIT_SUCCESS;
}
