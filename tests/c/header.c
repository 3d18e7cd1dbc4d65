/*
 * The header by itself, compiled as C99 and as C++: its numbers, that one switch takes all of them,
 * the functions that take decide's number and table apart, those that measure a model's table,
 * which qii_quote gives too, and a model's file, which qii_write_model writes, that all its calls
 * are there to link, and its example.
 */
#include "qiifaduleh.h"

#include <stdio.h>
#include <stdlib.h>
#include <string.h>

/* Refused by the compiler if the fact does not hold. */
#define FACT(name, fact) typedef char name[(fact) ? 1 : -1]

FACT(table_of_one_location, QII_TABLE_BYTES(1, 2) == 7 + 4 * 27);
FACT(no_cut_is_none, QII_CUT_TABLE_BYTES(64, 0, 6) == QII_TABLE_BYTES(64, 6) &&
                         QII_CUT_TABLE_WORDS(64, 0, 6) == QII_TABLE_WORDS(64, 6));
FACT(table_of_one_cut_location, QII_CUT_TABLE_BYTES(1, 1, 2) == 7 + 8 * 31);
FACT(table_of_one_location_cut_of_two, QII_CUT_TABLE_BYTES(2, 1, 2) == 7 + 12 * 31);
FACT(table_of_the_largest_plant,
     QII_CUT_TABLE_BYTES(QII_LOCATIONS_MAX, QII_LOCATIONS_MAX, QII_VARIABLES_MAX) ==
         QII_TABLE_BYTES_MAX);
FACT(smallest_model_file, QII_MODEL_BYTES(1, 1, 0, 0, 0) == 19 + 31);
FACT(model_file_of_plant_p, QII_MODEL_BYTES(2, 1, 0, 1, 0) == 19 + 55 + 23 &&
                                QII_MODEL_BYTES(2, 1, 0, 1, 1) == 19 + 55 + 23 + 15);
FACT(model_file_of_three_tanks, QII_MODEL_BYTES(3, 3, 2, 1, 1) == 19 + 3 * 79 + 2 * 75 + 31 + 15);
FACT(every_location_of_the_largest_plant_cut,
     QII_MODEL_BYTES(QII_VARIABLES_MAX, QII_LOCATIONS_MAX, QII_SWITCHES_MAX, QII_FORBIDDEN_MAX,
                     QII_LOCATIONS_MAX) == QII_MODEL_BYTES_MAX);
FACT(longest_model_file,
     QII_MODEL_BYTES_MAX == 3 + 4 * 4 + QII_LOCATIONS_MAX * (3 + 4 * (6 * QII_VARIABLES_MAX + 1)) +
                                QII_SWITCHES_MAX * (3 + 4 * (6 + 4 * QII_VARIABLES_MAX)) +
                                QII_FORBIDDEN_MAX * (3 + 4 * (1 + 2 * QII_VARIABLES_MAX)) +
                                QII_LOCATIONS_MAX * (3 + 4 * 3));
FACT(words_of_plant_p, QII_MODEL_WORDS(2, 1, 0, 1) == 25 && QII_TABLE_WORDS(1, 2) == 20);
FACT(words_of_plant_p_cut, QII_TABLE_PIECES(1, 1, 2) == 8 && QII_CUT_TABLE_WORDS(1, 1, 2) == 40);
FACT(words_of_the_largest_model,
     QII_MODEL_WORDS(QII_VARIABLES_MAX, QII_LOCATIONS_MAX, QII_SWITCHES_MAX, QII_FORBIDDEN_MAX) ==
         QII_MODEL_WORDS_MAX);
FACT(words_of_the_largest_table,
     QII_CUT_TABLE_WORDS(QII_LOCATIONS_MAX, QII_LOCATIONS_MAX, QII_VARIABLES_MAX) ==
         QII_TABLE_WORDS_MAX);
FACT(refusals_of_the_model_file, QII_MODEL_HEAD == 1 && QII_VARIABLES == 2 && QII_LOCATIONS == 3 &&
                                     QII_SWITCHES_OR_BOXES == 4 && QII_MODEL_SHORT == 5 &&
                                     QII_RECORD_TAG == 6 && QII_RECORD_LENGTH == 7 &&
                                     QII_MODEL_END == 8);
FACT(refusals_of_buffers, QII_TABLE_SHORT == 20 && QII_WORK_SHORT == 21 && QII_DESK_FULL == 22);
FACT(refusals_of_records, QII_INVARIANT == 11 && QII_RATES == 12 && QII_START == 13 &&
                              QII_SWITCH_PLACE == 14 && QII_SWITCH_BOXES == 15 &&
                              QII_SWITCH_RESET == 16 && QII_SWITCH_SOURCE == 17 &&
                              QII_SWITCH_TARGET == 18 && QII_FORBIDDEN == 19);
FACT(refusals_of_tables, QII_TABLE_FACE == 32 && QII_TABLE_GROWS == 33 && QII_TABLE_TOUCHES == 34 &&
                             QII_TABLE_HEAD == 35 && QII_FACE_FIELD == 36 && QII_FACE_PLACE == 37 &&
                             QII_TABLE_END == 38 && QII_TABLE_ROOM == 39);
FACT(refusals_of_requests, QII_MODEL_ROOM == 40 && QII_EDITION == 43 && QII_CUT == 46);
FACT(answers, QII_SAFE == 100 && QII_UNKNOWN == 101 && QII_UNFINISHED == 102);
FACT(other_names_of_100, QII_ACCEPTED == 100 && QII_DONE == 100);

/* How many of the numbers 0 to 255 are in use: one switch over all enumerators of both enums. */
static int numbers_in_use(void)
{
    uint32_t number;
    int count = 0;

    for (number = 0; number < 256; number++) {
        switch (number) {
        case QII_MODEL_HEAD:
        case QII_VARIABLES:
        case QII_LOCATIONS:
        case QII_SWITCHES_OR_BOXES:
        case QII_MODEL_SHORT:
        case QII_RECORD_TAG:
        case QII_RECORD_LENGTH:
        case QII_MODEL_END:
        case QII_INVARIANT:
        case QII_RATES:
        case QII_START:
        case QII_SWITCH_PLACE:
        case QII_SWITCH_BOXES:
        case QII_SWITCH_RESET:
        case QII_SWITCH_SOURCE:
        case QII_SWITCH_TARGET:
        case QII_FORBIDDEN:
        case QII_TABLE_SHORT:
        case QII_WORK_SHORT:
        case QII_DESK_FULL:
        case QII_TABLE_FACE:
        case QII_TABLE_GROWS:
        case QII_TABLE_TOUCHES:
        case QII_TABLE_HEAD:
        case QII_FACE_FIELD:
        case QII_FACE_PLACE:
        case QII_TABLE_END:
        case QII_TABLE_ROOM:
        case QII_MODEL_ROOM:
        case QII_EDITION:
        case QII_CUT:
        case QII_SAFE:
        case QII_UNKNOWN:
        case QII_UNFINISHED:
            count++;
            break;
        default:
            break;
        }
    }
    return count;
}

/* How many of the numbers 0 to 255 have a meaning of their own. */
static int meanings(void)
{
    const char *none = qii_meaning(0);
    uint32_t number, other;
    int count = 0;

    for (number = 0; number < 256; number++) {
        const char *meaning = qii_meaning(number);

        if (strcmp(meaning, none) == 0)
            continue;
        count++;
        for (other = 0; other < number; other++)
            count -= strcmp(meaning, qii_meaning(other)) == 0;
    }
    return count;
}

static int takes_decided_apart(void)
{
    uint64_t safe = UINT64_C(100) << 32 | 4294967295u;
    uint64_t refused = UINT64_C(39) << 32;

    return qii_code(safe) == QII_SAFE && qii_passes(safe) == 4294967295u &&
           qii_code(refused) == QII_TABLE_ROOM && qii_passes(refused) == 0;
}

static int measures_tables(void)
{
    static const uint8_t none[7] = {6, 0, 4, 0, 0, 0, 0};
    static const uint8_t two_of_six_words[10] = {6, 0, 4, 0, 0, 0, 2, 5, 0, 24};
    static const uint8_t most[10] = {6, 0, 4, 0, 0, 6, 0, 5, 0, 60};

    return qii_table_len(none) == 7 && qii_table_len(two_of_six_words) == 7 + 2 * 27 &&
           qii_table_len(most) == QII_TABLE_BYTES_MAX;
}

/* A model's table has so many words and so many bytes, by the header and by the quote, which has this
   ceiling. */
static int measures(const int32_t *model, size_t model_len, size_t words, size_t bytes,
                    uint64_t ceiling)
{
    uint64_t quoted_words = 1, quoted_bytes = 2, quoted_ceiling = 3;

    return qii_table_words(model) == words && qii_table_bytes(model) == bytes &&
           qii_quote(model, model_len, &quoted_words, &quoted_bytes, &quoted_ceiling) == QII_DONE &&
           quoted_words == words && quoted_bytes == bytes && quoted_ceiling == ceiling;
}

/* Room for the longest model file. */
static uint8_t file[QII_MODEL_BYTES_MAX];

/* A model's file has so many bytes, by the header and by qii_write_model, which writes it into as
   many and refuses it in one less. */
static int writes(const int32_t *model, size_t model_len, size_t bytes)
{
    uint64_t written = 1, refused = 2;

    return qii_model_bytes(model) == bytes &&
           qii_write_model(model, model_len, file, bytes, &written) == QII_DONE &&
           written == bytes &&
           qii_write_model(model, model_len, file, bytes - 1, &refused) == QII_MODEL_ROOM &&
           refused == 0;
}

/* Two locations of one variable without switches or boxes: none cut, the second, or both. */
static int measures_models(void)
{
    static int32_t model[] = {1, 2, 0, 0, 1, 0, 9, 0, 0,  0, 0, 0,
                              0, 9, 0, 0, 0, 0, 0, -1, 0, -1, 0};
    int none = qii_cuts(model) == 0 && measures(model, 23, 12, 7 + 4 * 19, 4) &&
               writes(model, 23, 19 + 2 * 31);
    int one, both;

    model[21] = 0;
    model[22] = 5;
    one = qii_cuts(model) == 1 && measures(model, 23, 18, 7 + 6 * 23, 4) &&
          writes(model, 23, 19 + 2 * 31 + 15);
    model[19] = 0;
    model[20] = 1;
    both = qii_cuts(model) == 2 && measures(model, 23, 24, 7 + 8 * 23, 4) &&
           writes(model, 23, 19 + 2 * 31 + 2 * 15);
    return none && one && both;
}

/* The largest plant, all zeros but for its first variable, 0..2, in which every location is cut
   at 1. Of a location two faces count 1 in the ceiling, and the ten others 2 for each piece. */
static int measures_the_largest(void)
{
    static int32_t model[QII_MODEL_WORDS_MAX] = {QII_VARIABLES_MAX, QII_LOCATIONS_MAX,
                                                 QII_SWITCHES_MAX, QII_FORBIDDEN_MAX, 1};
    size_t location = 5, cut = QII_MODEL_WORDS_MAX - 2 * QII_LOCATIONS_MAX;

    for (; cut < QII_MODEL_WORDS_MAX; cut += 2) {
        model[location + 1] = 2;
        model[cut + 1] = 1;
        location += 6 * QII_VARIABLES_MAX + 1;
    }
    return qii_cuts(model) == QII_LOCATIONS_MAX &&
           measures(model, QII_MODEL_WORDS_MAX, QII_TABLE_WORDS_MAX, QII_TABLE_BYTES_MAX,
                    64 * (2 + 10 * 4)) &&
           writes(model, QII_MODEL_WORDS_MAX, QII_MODEL_BYTES_MAX);
}

/* Every call, on nothing at all. */
static int links(void)
{
    uint32_t jobs = 0, passes = 0;
    uint64_t value = 1, words = 2, bytes = 3, ceiling = 4;

    return qii_code(decide(NULL, 0, NULL, 0, 0)) == QII_MODEL_HEAD &&
           check(NULL, 0, NULL, 0) == QII_MODEL_HEAD &&
           qii_read_model(NULL, 0, NULL, 0, &value) == QII_MODEL_HEAD &&
           qii_ceiling(NULL, 0, &value) == QII_MODEL_SHORT &&
           qii_check(NULL, 0, NULL, 0) == QII_MODEL_SHORT &&
           qii_analyse(NULL, 0, 0, NULL, 0, NULL, 0, &value) == QII_MODEL_SHORT &&
           qii_read_table(NULL, 0, NULL, 0, NULL, 0, &value) == QII_MODEL_SHORT &&
           qii_write_table(NULL, 0, NULL, 0, NULL, 0, &value) == QII_MODEL_SHORT &&
           qii_write_model(NULL, 0, NULL, 0, &value) == QII_MODEL_SHORT &&
           qii_desk(&jobs, &passes, NULL, 0, 0, NULL, 0, NULL, 0, &value) == QII_MODEL_SHORT &&
           qii_quote(NULL, 0, &words, &bytes, &ceiling) == QII_MODEL_SHORT && jobs == 0 &&
           passes == 0 && value == 0 && words == 0 && bytes == 0 && ceiling == 0;
}

/* The words of the header's example. */
#define EXAMPLE 2, 1, 0, 1, 1, 0, 10, 0, 10, 1, 1, 1, 2, 1, 0, 0, 2, 5, 0, 9, 10, 0, 4, -1, 0

/* It is answered in both editions and no other, without a cut and with one. */
static int answers_its_example(void)
{
    static int32_t model[] = {EXAMPLE};
    static const int32_t due[] = {1, 0, 0, 2, 5, 0, 0, 0, 0, 0, 0, 0, 0, 0, 0, 1, 2, 8, 10, 10};
    static const int32_t due_on_face_3[] = {1, 2, 5, 10, 10, 1, 5, 8, 10, 10};
    int32_t table[QII_CUT_TABLE_WORDS(1, 1, 2)], work[QII_CUT_TABLE_WORDS(1, 1, 2)];
    uint64_t passes = 0;

    for (model[4] = 1; model[4] <= 2; model[4]++)
        if (qii_analyse(model, 25, 1000, table, 20, work, 20, &passes) != QII_SAFE ||
            passes != 1 || memcmp(table, due, sizeof due) != 0)
            return 0;
    if (qii_analyse(model, 25, 1000, table, 20, work, 20, &passes) != QII_EDITION)
        return 0;
    model[4] = 1;
    if (!measures(model, 25, 20, 115, 44))
        return 0;
    model[23] = 0;
    model[24] = 5;
    return qii_analyse(model, 25, 1000, table, 40, work, 40, &passes) == QII_SAFE && passes == 1 &&
           memcmp(table + 30, due_on_face_3, sizeof due_on_face_3) == 0 &&
           measures(model, 25, 40, 255, 46);
}

/* Its file, by what the header says of files: in edition 1 without a cut, in edition 2 with one. */
static int writes_its_example(void)
{
    static int32_t model[] = {EXAMPLE};
    static const uint8_t due[] = {
        9, 0, 16, 0, 0, 0, 2, 0, 0, 0, 1, 0, 0, 0, 0, 0, 0, 0, 1,              /* head */
        2, 0, 52, 0, 0, 0, 0, 0, 0, 0, 10, 0, 0, 0, 0, 0, 0, 0, 10,            /* invariant */
        0, 0, 0, 1, 0, 0, 0, 1, 0, 0, 0, 1, 0, 0, 0, 2,                        /* rates */
        0, 0, 0, 1, 0, 0, 0, 0, 0, 0, 0, 0, 0, 0, 0, 2, 0, 0, 0, 5,            /* start */
        4, 0, 20, 0, 0, 0, 0, 0, 0, 0, 9, 0, 0, 0, 10, 0, 0, 0, 0, 0, 0, 0, 4, /* forbidden */
        8, 0, 12, 0, 0, 0, 0, 0, 0, 0, 0, 0, 0, 0, 5,                          /* cut */
    };

    if (!writes(model, 25, 97) || file[0] != 1 || memcmp(file + 1, due + 1, 96) != 0)
        return 0;
    model[4] = 2;
    model[23] = 0;
    model[24] = 5;
    return writes(model, 25, 112) && memcmp(file, due, sizeof due) == 0;
}

/* header NUMBERS: as many as the header's enums have. */
int main(int argc, char **argv)
{
    int numbers = argc == 2 ? atoi(argv[1]) : 0;

    if (numbers_in_use() != numbers || meanings() != numbers || !takes_decided_apart() ||
        !measures_tables() || !measures_models() || !measures_the_largest() || !links() ||
        !answers_its_example() || !writes_its_example()) {
        printf("the header's numbers or functions are wrong\n");
        return 1;
    }
    return 0;
}
