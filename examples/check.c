/*
 * check MODEL TABLE - says whether a table file shows that a model is safe. For fitters.
 *
 * Prints 'accepted': no run of the model meets a forbidden box. Or 'refused', the number, and what
 * it means in words.
 *
 * Exit status: 0 accepted, 1 refused, 2 called wrongly or a file that cannot be read.
 *
 *     cc -std=c99 -I include -o check examples/check.c target/staticlib/libhost.a
 *     ./check models/plant-p.model models/plant-p.table
 */
#include "qiifaduleh.h"
#include "sample.h"

/* One byte more than the longest files: a file that fills one of these is refused in any case. */
static uint8_t model[QII_MODEL_BYTES_MAX + 1];
static uint8_t table[QII_TABLE_BYTES_MAX + 1];

int main(int argc, char **argv)
{
    long model_len, table_len;
    uint64_t number;

    if (argc != 3) {
        fprintf(stderr, "usage: %s MODEL TABLE\n", argv[0]);
        return CALLED_WRONGLY;
    }
    model_len = read_or_say(argv[0], argv[1], model, sizeof model);
    table_len = read_or_say(argv[0], argv[2], table, sizeof table);
    if (model_len < 0 || table_len < 0)
        return CALLED_WRONGLY;
    number = check(model, (size_t)model_len, table, (size_t)table_len);
    if (number == QII_ACCEPTED) {
        printf("accepted\n");
        return ANSWERED;
    }
    print_refusal((uint32_t)number);
    return REFUSED;
}
