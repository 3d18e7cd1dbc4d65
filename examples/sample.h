/* What the samples share: a file's bytes, a number from its digits, answers and refusals. */
#ifndef SAMPLE_H
#define SAMPLE_H

#include "qiifaduleh.h"

#include <errno.h>
#include <inttypes.h>
#include <stdint.h>
#include <stdio.h>
#include <stdlib.h>
#include <string.h>

/* The limit where none is given. */
#define USUAL_LIMIT 1000

/* Exit status of the samples; the last two where a sample tells the answers apart. */
#define ANSWERED 0
#define REFUSED 1
#define CALLED_WRONGLY 2
#define UNKNOWN 3
#define UNFINISHED 4

/* Reads the beginning of a file into a buffer. Gives its length, or -1 if it cannot be read. */
static inline long read_file(const char *name, uint8_t *bytes, size_t size)
{
    FILE *file = fopen(name, "rb");
    size_t len;
    int failed;

    if (file == NULL)
        return -1;
    len = fread(bytes, 1, size, file);
    failed = ferror(file);
    fclose(file);
    return failed ? -1 : (long)len;
}

/* The same, and says if the file cannot be read. */
static inline long read_or_say(const char *program, const char *name, uint8_t *bytes, size_t size)
{
    long len = read_file(name, bytes, size);

    if (len < 0)
        fprintf(stderr, "%s: cannot read %s\n", program, name);
    return len;
}

/* Writes a file of these bytes. Gives 0, and says so, if it cannot be written. */
static inline int write_or_say(const char *program, const char *name, const uint8_t *bytes,
                               size_t len)
{
    FILE *file = fopen(name, "wb");
    int written = file != NULL && fwrite(bytes, 1, len, file) == len;

    if (file != NULL && fclose(file) != 0)
        written = 0;
    if (!written)
        fprintf(stderr, "%s: cannot write %s\n", program, name);
    return written;
}

/* The word for an answer; NULL for a refusal. */
static inline const char *answer_word(uint32_t code)
{
    switch (code) {
    case QII_SAFE:
        return "safe";
    case QII_UNKNOWN:
        return "unknown";
    case QII_UNFINISHED:
        return "unfinished";
    default:
        return NULL;
    }
}

/* Prints a refusal: the number, and what it means in words. */
static inline void print_refusal(uint32_t number)
{
    printf("refused %" PRIu32 ": %s\n", number, qii_meaning(number));
}

/* The same, after what is refused: an order's file, or a plant. */
static inline void print_refused(const char *name, uint32_t number)
{
    printf("%s: ", name);
    print_refusal(number);
}

/* Prints what decide gave, with the length of the table file that it left, or the refusal. Gives
   whether it answered. */
static inline int print_decided(uint64_t decided, const uint8_t *table)
{
    const char *word = answer_word(qii_code(decided));

    if (word == NULL) {
        print_refusal(qii_code(decided));
        return 0;
    }
    printf("answer %s\npasses %" PRIu32 "\ntable bytes %zu\n", word, qii_passes(decided),
           qii_table_len(table));
    return 1;
}

/* Takes a number from its decimal digits. Gives 0 if there is none in 32 bits. */
static inline int read_number(const char *digits, uint32_t *number)
{
    char *end;
    unsigned long long value;

    if (strspn(digits, "0123456789") == 0)
        return 0;
    errno = 0;
    value = strtoull(digits, &end, 10);
    if (*end != '\0' || errno != 0 || value > UINT32_MAX)
        return 0;
    *number = (uint32_t)value;
    return 1;
}

#endif
