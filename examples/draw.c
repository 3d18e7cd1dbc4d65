/*
 * draw LEVEL [FILE] - draws a vat with one shut-off valve in words, writes its model file, and has
 * it decided. For drawing offices.
 *
 * The vat is filled from 10 on, by 4 to 6 a second. At LEVEL hangs a float: there the valve begins
 * to close, which takes 4 seconds, and 0 to 6 a second still come in. Then the pump empties the vat
 * down to 10, and it is filled again. The rim is at 100. With the float at 70 the level comes to
 * 70 + 4 * 6 = 94 at the most; with the float at 76 it can come to the rim.
 *
 * Saves the model file as FILE, if one is named. Prints its length, the answer, its passes, the
 * length of its table file, and what becomes of the second shut-off valve; or that the plant is
 * refused, with the number and what it means in words.
 *
 * Safe is about the runs of the model, and says nothing of a plant that the model does not draw.
 * Before a valve is left out, read WHAT SAFE DOES NOT SAY in qiifaduleh.h. The plant here keeps
 * clear of all four: its levels go on above the rim, every wall that a level is pushed against has
 * a switch or lies behind the rim, every switch takes all that arrives, and every location is
 * entered. docs/MODELLING.md draws another plant, step by step.
 *
 * Exit status: 0 answered, 1 refused, 2 called wrongly or a file that cannot be written.
 *
 *     cc -std=c99 -I include -o draw examples/draw.c target/staticlib/libhost.a
 *     ./draw 70 vat.model
 */
#include "qiifaduleh.h"
#include "sample.h"

#include <inttypes.h>

/* The plant's variables and locations by their numbers, and the sides of a wall. */
enum { LEVEL, CLOCK };
enum { FILLING, CLOSING, EMPTYING };
enum { LOW, HIGH };

/* The rim. The levels of the model go on above it, so that a vat that runs over is seen: a
   forbidden box outside the invariant would never be met. */
#define RIM 100
#define TOP 120

/* A box: low and high of the level, low and high of the clock. */
#define BOX(level_low, level_high, clock_low, clock_high) \
    level_low, level_high, clock_low, clock_high
/* Start flag and start box of a location in which runs start, and of one in which none does. */
#define STARTS_IN(box) 1, box
#define NO_START 0, BOX(0, 0, 0, 0)
/* The reset mask of one variable, and of none. */
#define SETS(variable) (1 << (variable))
#define SETS_NOTHING 0
/* In place of a variable and a value at which a location is cut. Zeros would be a cut. */
#define NOT_CUT -1, 0

/* Long enough for the file of every model, and for every table file. */
static uint8_t file[QII_MODEL_BYTES_MAX];
static uint8_t table[QII_TABLE_BYTES_MAX];

/* Draws the plant with its float at a level, and writes its file. Gives number and length. */
static uint32_t write_plant(int32_t at, uint64_t *len)
{
    const int32_t model[] = {
        2, 3, 3, 3, 1, /* n, L, E, B, edition 1 */

        /* Each location: its invariant, its rates, and where runs start. */
        BOX(10, at, 0, 0), BOX(4, 6, 0, 0), STARTS_IN(BOX(10, 10, 0, 0)), /* FILLING */
        BOX(at, TOP, 0, 4), BOX(0, 6, 1, 1), NO_START,                    /* CLOSING */
        BOX(10, TOP, 0, 0), BOX(-5, -3, 0, 0), NO_START,                  /* EMPTYING */

        /* Each switch: from, to, the wall's variable, its side before and after, what is set; its
           guard, and where it leads. */
        FILLING, CLOSING, LEVEL, HIGH, LOW, SETS_NOTHING, /* at the float */
        BOX(at, at, 0, 0), BOX(at, at, 0, 0),
        CLOSING, EMPTYING, CLOCK, HIGH, LOW, SETS(CLOCK), /* when the valve is shut */
        BOX(at, TOP, 4, 4), BOX(at, TOP, 0, 0),
        EMPTYING, FILLING, LEVEL, LOW, LOW, SETS_NOTHING, /* when the vat is empty */
        BOX(10, 10, 0, 0), BOX(10, 10, 0, 0),

        /* Each forbidden box: its location, then all from the rim up; in every location. */
        FILLING, BOX(RIM, TOP, 0, 0),
        CLOSING, BOX(RIM, TOP, 0, 4),
        EMPTYING, BOX(RIM, TOP, 0, 0),

        /* Each location's cut. */
        NOT_CUT, NOT_CUT, NOT_CUT,
    };

    return qii_write_model(model, sizeof model / sizeof model[0], file, sizeof file, len);
}

int main(int argc, char **argv)
{
    uint32_t at, number;
    uint64_t len, decided;

    if (argc < 2 || argc > 3 || !read_number(argv[1], &at) || at > INT32_MAX) {
        fprintf(stderr, "usage: %s LEVEL [FILE]\n", argv[0]);
        return CALLED_WRONGLY;
    }
    number = write_plant((int32_t)at, &len);
    if (number != QII_DONE) {
        print_refused("the plant", number);
        return REFUSED;
    }
    if (argc == 3 && !write_or_say(argv[0], argv[2], file, (size_t)len))
        return CALLED_WRONGLY;
    printf("model bytes %" PRIu64 "\n", len);
    decided = decide(file, (size_t)len, table, sizeof table, USUAL_LIMIT);
    if (!print_decided(decided, table))
        return REFUSED;
    printf("the second shut-off valve %s\n",
           qii_code(decided) == QII_SAFE ? "can be left out" : "stays");
    return ANSWERED;
}
