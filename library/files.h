/* Putting files and texts together, for the tests of the library. docs/FORMAT.md says what the fields are. C99 and C++. */
#ifndef FILES_H
#define FILES_H

#include <stddef.h>
#include <stdint.h>

/* A file that is being put together; a little longer than the longest that is read. */
struct bytes {
    uint8_t at[70000];
    size_t length;
};

static inline void put(struct bytes *file, uint8_t byte)
{
    file->at[file->length++] = byte;
}

static inline void put16(struct bytes *file, size_t value)
{
    put(file, (uint8_t)(value / 256));
    put(file, (uint8_t)(value % 256));
}

static inline void header(struct bytes *file, uint8_t tag, size_t length)
{
    put(file, tag);
    put16(file, length);
}

/* A field whose length is known when its contents stand there: begin hands on its place, finish puts the length. */
static inline size_t begin(struct bytes *file, uint8_t tag)
{
    header(file, tag, 0);
    return file->length - 3;
}

static inline void finish(struct bytes *file, size_t place)
{
    size_t length = file->length - place - 3;
    file->at[place + 1] = (uint8_t)(length / 256);
    file->at[place + 2] = (uint8_t)(length % 256);
}

/* A field whose contents are so many values, all alike: atomic, id, assert, a goal list, .. */
static inline void field(struct bytes *file, uint8_t tag, size_t values, size_t value)
{
    header(file, tag, 2 * values);
    while (values-- > 0)
        put16(file, value);
}

static inline void rule(struct bytes *file, size_t name, size_t goal, size_t premises, size_t premise)
{
    header(file, 1, 4 + 2 * premises);
    put16(file, name);
    put16(file, goal);
    while (premises-- > 0)
        put16(file, premise);
}

/* A definition whose body is id. */
static inline void definition(struct bytes *file, size_t tactic)
{
    header(file, 2, 5);
    put16(file, tactic);
    field(file, 17, 0, 0);
}

static inline void entry(struct bytes *file, size_t name, size_t goal)
{
    header(file, 32, 4);
    put16(file, name);
    put16(file, goal);
}

/* Some marks of a text, so many times. */
static inline void text(struct bytes *file, const char *marks, size_t times)
{
    while (times-- > 0)
        for (const char *byte = marks; *byte != 0; byte++)
            put(file, (uint8_t)*byte);
}

/* A term of so many fields, label in label, around id. */
static inline void labels(struct bytes *file, size_t fields)
{
    for (size_t i = 1; i < fields; i++) {
        header(file, 18, 2 + 5 * (fields - i - 1) + 3);
        put16(file, i);
    }
    field(file, 17, 0, 0);
}

#endif
