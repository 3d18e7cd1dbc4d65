/*
 * decide MODEL [LIMIT] - decides a model file and, where the answer is safe, has its table checked.
 *
 * Prints the answer, its passes and the length of its table file, and after 'safe' what check says
 * of that table; or 'refused', the number, and what it means in words. The limit is 1,000 passes if
 * none is given.
 *
 * Exit status: 0 safe and its table accepted, 1 refused, 2 called wrongly or a file that cannot be
 * read, 3 unknown, 4 unfinished.
 *
 *     cc -std=c99 -I include -o decide examples/decide.c target/staticlib/libhost.a
 *     ./decide models/plant-p.model
 */
#include "qiifaduleh.h"
#include "sample.h"

/* One byte more than the longest model file: a file that fills this is refused in any case. */
static uint8_t model[QII_MODEL_BYTES_MAX + 1];
static uint8_t table[QII_TABLE_BYTES_MAX];

/* Has the table of a safe answer checked, and prints what check says. Gives the exit status. */
static int print_check(size_t model_len, size_t table_len)
{
    uint64_t checked = check(model, model_len, table, table_len);

    printf("check ");
    if (checked != QII_ACCEPTED) {
        print_refusal((uint32_t)checked);
        return REFUSED;
    }
    printf("accepted\n");
    return ANSWERED;
}

/* Decides the model, and prints the answer or the refusal. Gives the exit status. */
static int print_answer(size_t model_len, uint32_t limit)
{
    uint64_t decided = decide(model, model_len, table, sizeof table, limit);

    if (!print_decided(decided, table))
        return REFUSED;
    switch (qii_code(decided)) {
    case QII_SAFE:
        return print_check(model_len, qii_table_len(table));
    case QII_UNKNOWN:
        return UNKNOWN;
    default:
        return UNFINISHED;
    }
}

int main(int argc, char **argv)
{
    uint32_t limit = USUAL_LIMIT;
    long model_len;

    if (argc < 2 || argc > 3 || (argc == 3 && !read_number(argv[2], &limit))) {
        fprintf(stderr, "usage: %s MODEL [LIMIT]\n", argv[0]);
        return CALLED_WRONGLY;
    }
    model_len = read_or_say(argv[0], argv[1], model, sizeof model);
    if (model_len < 0)
        return CALLED_WRONGLY;
    return print_answer((size_t)model_len, limit);
}
