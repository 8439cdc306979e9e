/*
 * Checks a proof, runs a tactic, flattens a proof, checks the derivation and writes it back, on the files of a folder; then
 * checks and flattens a proof of zero bytes.
 */
#include "common.h"

static struct file table, proof, job;

/* A blank document: a proof of zero bytes. */
static struct file blank;

/* Space that is lent to the calls: as much work space as the most demanding call needs. */
static uint8_t work[HITAC_RUN_WORK];
static uint8_t flat[HITAC_LONGEST_FLAT];
static uint8_t written[HITAC_LONGEST_PROOF];

static void check(const char *words, const struct file *its_proof)
{
    struct hitac_answer answer =
        hitac_check(table.bytes, table.length, its_proof->bytes, its_proof->length, work, HITAC_CHECK_WORK);
    if (succeeded(words, answer))
        printf("%s: accepted fields %u uses %u open %u rules %u\n", words, answer.fields, answer.uses, answer.remaining,
               answer.rules);
}

static void run(uint32_t budget)
{
    struct hitac_answer answer = hitac_run(table.bytes, table.length, job.bytes, job.length, budget, work,
                                           HITAC_RUN_WORK, written, sizeof written);
    if (succeeded("run", answer)) {
        printf("run: steps %u bytes %u\n", answer.steps, answer.length);
        print_bytes(written, answer.length);
    }
}

/* Leaves the flat file in flat; its length, or 0 after a refusal. */
static size_t flatten(const char *words, const struct file *its_proof)
{
    struct hitac_answer answer = hitac_flatten(table.bytes, table.length, its_proof->bytes, its_proof->length, work,
                                               HITAC_FLATTEN_WORK, flat, sizeof flat);
    if (!succeeded(words, answer))
        return 0;
    printf("%s: bytes %u\n", words, answer.length);
    print_bytes(flat, answer.length);
    return answer.length;
}

static void check_flat(size_t flat_length)
{
    struct hitac_answer answer =
        hitac_check_flat(table.bytes, table.length, flat, flat_length, work, HITAC_CHECK_FLAT_WORK);
    if (succeeded("check_flat", answer))
        printf("check_flat: right uses %u open %u rules %u\n", answer.uses, answer.remaining, answer.rules);
}

static void write_proof(size_t flat_length)
{
    struct hitac_answer answer = hitac_write_proof(table.bytes, table.length, flat, flat_length, work,
                                                   HITAC_WRITE_PROOF_WORK, written, sizeof written);
    if (succeeded("write_proof", answer)) {
        printf("write_proof: bytes %u\n", answer.length);
        print_bytes(written, answer.length);
    }
}

int main(int count, char **arguments)
{
    const char *folder = count > 1 ? arguments[1] : "examples/files";
    load(&table, folder, "table.kit");
    load(&proof, folder, "proof.hip");
    load(&job, folder, "job.tac");
    printf("version: %u.%u\n", hitac_version() / 65536, hitac_version() % 65536);
    check("check", &proof);
    run(HITAC_MOST_STEPS);
    run(18);
    size_t flat_length = flatten("flatten", &proof);
    if (flat_length > 0) {
        check_flat(flat_length);
        write_proof(flat_length);
    }
    check("check of zero bytes", &blank);
    flatten("flatten of zero bytes", &blank);
    return EXIT_SUCCESS;
}
