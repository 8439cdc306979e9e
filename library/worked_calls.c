/* Runs the worked calls of docs/ENTRIES.md, which library/test puts into worked_calls.inc, on the files of a folder. */
#include <stdio.h>
#include <stdlib.h>
#include <string.h>

#include "hitac.h"

static uint8_t table[HITAC_LONGEST_FILE], proof[HITAC_LONGEST_FILE], job[HITAC_LONGEST_FILE], flat[HITAC_LONGEST_FILE];
static uint8_t text[HITAC_LONGEST_FILE], term[HITAC_LONGEST_FILE];
static size_t table_length, proof_length, job_length, flat_length, text_length, term_length;

/* A file that cannot be opened or read ends the program: as a proof, zero bytes in its place would be accepted. */
static size_t load(const char *folder, const char *name, uint8_t *bytes)
{
    char path[1024];
    snprintf(path, sizeof path, "%s/%s", folder, name);
    FILE *stream = fopen(path, "rb");
    size_t length = stream == NULL ? 0 : fread(bytes, 1, HITAC_LONGEST_FILE, stream);
    if (stream == NULL || ferror(stream)) {
        perror(path);
        exit(EXIT_FAILURE);
    }
    fclose(stream);
    return length;
}

#include "worked_calls.inc"

int main(int count, char **arguments)
{
    const char *folder = count > 1 ? arguments[1] : ".";
    table_length = load(folder, "table.kit", table);
    proof_length = load(folder, "proof.hip", proof);
    job_length = load(folder, "job.tac", job);
    flat_length = load(folder, "flat.der", flat);
    text_length = load(folder, "tactic_3.txt", text);
    term_length = load(folder, "tactic_3.trm", term);
    worked_calls();
    return 0;
}
