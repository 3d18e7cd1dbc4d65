/*
 * quote MODEL.. - quotes one order after the other, from its model alone, before any run starts.
 * For the order desk, which charges by the pass.
 *
 * Prints for each order its file, then the most that it can take: the passes that it is charged
 * for, the words of its table and the bytes of the table's file; or 'refused', the number and what
 * it means in words. Under a limit of the passes quoted an order is never unfinished; under a lower
 * one it is charged for no more than the limit. A limit has 32 bits, and a quote may be above every
 * limit.
 *
 * Exit status: 0 all quoted, 1 some refused, 2 called wrongly or a file that cannot be read.
 *
 *     cc -std=c99 -I include -o quote examples/quote.c target/staticlib/libhost.a
 *     ./quote models/plant-p.model models/two-tanks.model
 */
#include "qiifaduleh.h"
#include "sample.h"

#include <inttypes.h>

/* What an order may take at most. */
struct quote {
    uint64_t passes;
    uint64_t words;
    uint64_t bytes;
};

/* One byte more than the longest model file: a file that fills this is refused in any case. */
static uint8_t file[QII_MODEL_BYTES_MAX + 1];
static int32_t model[QII_MODEL_WORDS_MAX];

/* Quotes an order, or refuses it. Gives the number. */
static uint32_t quote_order(size_t file_len, struct quote *quote)
{
    uint64_t model_len;
    uint32_t number = qii_read_model(file, file_len, model, QII_MODEL_WORDS_MAX, &model_len);

    if (number != QII_DONE)
        return number;
    return qii_quote(model, model_len, &quote->words, &quote->bytes, &quote->passes);
}

/* Prints what an order is quoted, the passes first: they are the price limit. */
static void print_quote(const char *name, const struct quote *quote)
{
    printf("%s: at most %" PRIu64 " passes, %" PRIu64 " words for the table, %" PRIu64
           " bytes for its file\n",
           name, quote->passes, quote->words, quote->bytes);
}

int main(int argc, char **argv)
{
    int order, status = ANSWERED;

    if (argc < 2) {
        fprintf(stderr, "usage: %s MODEL..\n", argv[0]);
        return CALLED_WRONGLY;
    }
    for (order = 1; order < argc; order++) {
        long file_len = read_or_say(argv[0], argv[order], file, sizeof file);
        struct quote quote;
        uint32_t number;

        if (file_len < 0)
            return CALLED_WRONGLY;
        number = quote_order((size_t)file_len, &quote);
        if (number == QII_DONE) {
            print_quote(argv[order], &quote);
        } else {
            print_refused(argv[order], number);
            status = REFUSED;
        }
    }
    return status;
}
