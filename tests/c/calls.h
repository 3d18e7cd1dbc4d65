/*
 * Every call of the library, made in one way: on the inputs of one model, with an outcome that has
 * the number and all memory that a call may write.
 */
#ifndef CALLS_H
#define CALLS_H

#include "models.h"
#include "qiifaduleh.h"

#include <string.h>

#define OLD 0xC3

/* What the calls of one model are handed. */
struct inputs {
    struct model model_file;
    int32_t model[QII_MODEL_WORDS_MAX];
    size_t model_len;
    int32_t table[QII_TABLE_WORDS_MAX];
    size_t table_len;
    uint8_t table_file[QII_TABLE_BYTES_MAX];
    size_t table_file_len;
    uint32_t limit;
};

struct outcome {
    uint64_t number;
    uint64_t value;
    uint64_t quoted_words;
    uint64_t quoted_bytes;
    uint64_t quoted_ceiling;
    uint32_t jobs;
    uint32_t passes;
    uint8_t file[QII_TABLE_BYTES_MAX];
    int32_t words[QII_TABLE_WORDS_MAX];
    int32_t work[QII_TABLE_WORDS_MAX];
};

/* A call. Its slice number s is empty if bit s of empty is set; absent is then its pointer. */
struct call {
    const char *name;
    int slices;
    void (*make)(const struct inputs *in, unsigned empty, struct outcome *out);
};

/* The pointer of empty slices: NULL, or the address of something. */
static void *absent;

/* Slice number s as a pointer and a length; a buffer of an outcome. */
#define SLICE(s, pointer, len) \
    (empty >> (s) & 1 ? absent : (pointer)), (empty >> (s) & 1 ? 0 : (size_t)(len))
#define BUFFER(s, array) SLICE(s, array, sizeof array / sizeof array[0])

static void make_decide(const struct inputs *in, unsigned empty, struct outcome *out)
{
    out->number =
        decide(SLICE(0, in->model_file.bytes, in->model_file.len), BUFFER(1, out->file), in->limit);
}

static void make_check(const struct inputs *in, unsigned empty, struct outcome *out)
{
    out->number = check(SLICE(0, in->model_file.bytes, in->model_file.len),
                        SLICE(1, in->table_file, in->table_file_len));
}

static void make_read_model(const struct inputs *in, unsigned empty, struct outcome *out)
{
    out->number = qii_read_model(SLICE(0, in->model_file.bytes, in->model_file.len),
                                 BUFFER(1, out->words), &out->value);
}

static void make_ceiling(const struct inputs *in, unsigned empty, struct outcome *out)
{
    out->number = qii_ceiling(SLICE(0, in->model, in->model_len), &out->value);
}

static void make_words_check(const struct inputs *in, unsigned empty, struct outcome *out)
{
    out->number =
        qii_check(SLICE(0, in->model, in->model_len), SLICE(1, in->table, in->table_len));
}

static void make_analyse(const struct inputs *in, unsigned empty, struct outcome *out)
{
    out->number = qii_analyse(SLICE(0, in->model, in->model_len), in->limit, BUFFER(1, out->words),
                              BUFFER(2, out->work), &out->value);
}

static void make_read_table(const struct inputs *in, unsigned empty, struct outcome *out)
{
    out->number = qii_read_table(SLICE(0, in->model, in->model_len),
                                 SLICE(1, in->table_file, in->table_file_len),
                                 BUFFER(2, out->words), &out->value);
}

static void make_write_table(const struct inputs *in, unsigned empty, struct outcome *out)
{
    out->number =
        qii_write_table(SLICE(0, in->model, in->model_len), SLICE(1, in->table, in->table_len),
                        BUFFER(2, out->file), &out->value);
}

static void make_desk(const struct inputs *in, unsigned empty, struct outcome *out)
{
    out->jobs = 7;
    out->passes = 9;
    out->number =
        qii_desk(&out->jobs, &out->passes, SLICE(0, in->model, in->model_len), in->limit,
                 BUFFER(1, out->words), BUFFER(2, out->work), &out->value);
}

static void make_quote(const struct inputs *in, unsigned empty, struct outcome *out)
{
    out->number = qii_quote(SLICE(0, in->model, in->model_len), &out->quoted_words,
                            &out->quoted_bytes, &out->quoted_ceiling);
}

static void make_write_model(const struct inputs *in, unsigned empty, struct outcome *out)
{
    out->number =
        qii_write_model(SLICE(0, in->model, in->model_len), BUFFER(1, out->file), &out->value);
}

static const struct call calls[] = {
    {"decide", 2, make_decide},
    {"check", 2, make_check},
    {"qii_read_model", 2, make_read_model},
    {"qii_ceiling", 1, make_ceiling},
    {"qii_check", 2, make_words_check},
    {"qii_analyse", 3, make_analyse},
    {"qii_read_table", 3, make_read_table},
    {"qii_write_table", 3, make_write_table},
    {"qii_desk", 3, make_desk},
    {"qii_quote", 1, make_quote},
    {"qii_write_model", 2, make_write_model},
};

#define CALLS ((int)(sizeof calls / sizeof calls[0]))
#define CALLS_ON_FILES 2

/* Makes a call with old contents in all memory that it is lent. */
static inline void make(const struct call *call, const struct inputs *in, unsigned empty,
                        struct outcome *out)
{
    memset(out, OLD, sizeof *out);
    call->make(in, empty, out);
}

/*
 * The inputs of a model file: its words if it reads, the answer's table and table file if it is
 * answered, else words and bytes that are refused.
 */
static inline struct inputs *inputs_of(const char *name, uint32_t limit)
{
    static struct outcome out;
    struct inputs *in = calloc(1, sizeof *in);

    if (in == NULL)
        fail("no memory", name);
    in->model_file = load(name);
    in->limit = limit;
    make(&calls[2], in, 0, &out);
    if (out.number == QII_DONE)
        in->model_len = (size_t)out.value;
    memcpy(in->model, out.words, 4 * in->model_len);
    make(&calls[5], in, 0, &out);
    if (out.number >= QII_SAFE) {
        in->table_len = qii_table_words(in->model);
        memcpy(in->table, out.words, 4 * in->table_len);
        make(&calls[7], in, 0, &out);
        in->table_file_len = (size_t)out.value;
        memcpy(in->table_file, out.file, in->table_file_len);
    }
    return in;
}

static inline void free_inputs(struct inputs *in)
{
    free(in->model_file.bytes);
    free(in);
}

#endif
