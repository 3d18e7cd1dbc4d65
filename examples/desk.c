/*
 * desk LIMIT MODEL.. - answers one order after the other at a fresh desk, each under the same limit
 * of passes.
 *
 * Prints for each order its file, then the answer and its passes, or 'refused', the number and what
 * it means in words; and both counters of the desk after it. Only an answered order is charged.
 *
 * Exit status: 0 all answered, 1 some refused, 2 called wrongly or a file that cannot be read.
 *
 *     cc -std=c99 -I include -o desk examples/desk.c target/staticlib/libhost.a
 *     ./desk 1000 models/plant-p.model models/two-tanks.model
 */
#include "qiifaduleh.h"
#include "sample.h"

#include <inttypes.h>

/* The desk: the service keeps its counters for as long as it charges orders to them. */
struct desk {
    uint32_t jobs;
    uint32_t passes;
};

/* One byte more than the longest model file: a file that fills this is refused in any case. */
static uint8_t file[QII_MODEL_BYTES_MAX + 1];
static int32_t model[QII_MODEL_WORDS_MAX];
static int32_t table[QII_TABLE_WORDS_MAX];
static int32_t work[QII_TABLE_WORDS_MAX];

/* Answers an order, or refuses it. Gives the number, and the passes of the answer. */
static uint32_t answer(struct desk *desk, size_t file_len, uint32_t limit, uint64_t *passes)
{
    uint64_t model_len;
    uint32_t number = qii_read_model(file, file_len, model, QII_MODEL_WORDS_MAX, &model_len);

    *passes = 0;
    if (number != QII_DONE)
        return number;
    return qii_desk(&desk->jobs, &desk->passes, model, model_len, limit, table,
                    QII_TABLE_WORDS_MAX, work, QII_TABLE_WORDS_MAX, passes);
}

/* Prints what an order got. Gives whether it was answered. */
static int print_order(const char *name, uint32_t number, uint64_t passes)
{
    const char *word = answer_word(number);

    if (word == NULL) {
        print_refused(name, number);
        return 0;
    }
    printf("%s: %s, passes %" PRIu64 "\n", name, word, passes);
    return 1;
}

int main(int argc, char **argv)
{
    struct desk desk = {0, 0};
    uint32_t limit;
    int order, status = ANSWERED;

    if (argc < 3 || !read_number(argv[1], &limit)) {
        fprintf(stderr, "usage: %s LIMIT MODEL..\n", argv[0]);
        return CALLED_WRONGLY;
    }
    for (order = 2; order < argc; order++) {
        long file_len = read_or_say(argv[0], argv[order], file, sizeof file);
        uint32_t number;
        uint64_t passes;

        if (file_len < 0)
            return CALLED_WRONGLY;
        number = answer(&desk, (size_t)file_len, limit, &passes);
        if (!print_order(argv[order], number, passes))
            status = REFUSED;
        printf("    desk: jobs %" PRIu32 ", passes %" PRIu32 "\n", desk.jobs, desk.passes);
    }
    return status;
}
