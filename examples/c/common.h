/* What the programs share: loading a file, printing bytes, the length of a field, and telling a refusal. */
#ifndef COMMON_H
#define COMMON_H

#include <stdio.h>
#include <stdlib.h>

#include "hitac.h"

/* A file, with room for one byte more than the engine takes: a longer file is then refused with HITAC_INPUT_TOO_LONG. */
struct file {
    uint8_t bytes[HITAC_LONGEST_FILE + 1];
    size_t length;
};

/* Unless that holds, ends the program with what the system says. */
static inline void must(int holds, const char *name)
{
    if (!holds) {
        perror(name);
        exit(EXIT_FAILURE);
    }
}

static inline FILE *opened(const char *folder, const char *name)
{
    char path[1024];
    snprintf(path, sizeof path, "%s/%s", folder, name);
    FILE *stream = fopen(path, "rb");
    must(stream != NULL, path);
    return stream;
}

/* Ends the program if the file cannot be read (a directory opens): zero bytes in its place would be a good table or proof. */
static inline void load(struct file *file, const char *folder, const char *name)
{
    FILE *stream = opened(folder, name);
    file->length = fread(file->bytes, 1, sizeof file->bytes, stream);
    must(!ferror(stream), name);
    fclose(stream);
}

static inline void print_bytes(const uint8_t *bytes, size_t length)
{
    for (size_t i = 0; i < length; i++)
        printf("%s%02x", i == 0 ? "" : " ", bytes[i]);
    printf("\n");
}

/* Bytes of a field, with its header. */
static inline size_t field_length(const uint8_t *field)
{
    return 3 + 256u * field[1] + field[2];
}

/* Whether the call succeeded; a refusal is printed. */
static inline int succeeded(const char *call, struct hitac_answer answer)
{
    if (answer.number == HITAC_SUCCESS)
        return 1;
    printf("%s: refused %u file %u place %u steps %u\n", call, answer.number, answer.file, answer.place, answer.steps);
    return 0;
}

#endif
