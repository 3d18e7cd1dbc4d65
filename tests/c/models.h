/* Model files for the tests in C, each in a heap block of exactly its length. */
#ifndef MODELS_H
#define MODELS_H

#include <stdint.h>
#include <stdio.h>
#include <stdlib.h>

struct model {
    const char *name;
    uint8_t *bytes;
    size_t len;
};

static inline void fail(const char *what, const char *name)
{
    fprintf(stderr, "%s: %s\n", name, what);
    exit(1);
}

/* A heap block of exactly this length (of one byte for length 0), or the end of the program. */
static inline uint8_t *block(size_t len, const char *name)
{
    uint8_t *bytes = malloc(len > 0 ? len : 1);

    if (bytes == NULL)
        fail("no memory", name);
    return bytes;
}

/* The length of an open file, which then stands at its beginning again; -1 if that fails. */
static inline long length_of(FILE *file)
{
    long len = -1;

    if (fseek(file, 0, SEEK_END) == 0)
        len = ftell(file);
    rewind(file);
    return len;
}

/* Reads a whole model file, or ends the program. */
static inline struct model load(const char *name)
{
    struct model model = {name, NULL, 0};
    FILE *file = fopen(name, "rb");
    long len = file == NULL ? -1 : length_of(file);

    if (len < 0)
        fail("cannot be read", name);
    model.len = (size_t)len;
    model.bytes = block(model.len, name);
    if (fread(model.bytes, 1, model.len, file) != model.len)
        fail("cannot be read", name);
    fclose(file);
    return model;
}

#endif
