/*
 * qiifaduleh.h - can a plant reach a forbidden level?
 *
 * A plant is a model of locations, ranges for levels and rates, switches and forbidden boxes. The
 * library says that no run of the model meets a forbidden box, or that this is unknown, with a
 * table of reached faces behind the answer; and it checks a table that anyone made. A location may
 * be cut, so that its faces are kept in two pieces, where one box for each would be too coarse.
 *
 *     On files:  decide            finds the answer, and writes the table's file
 *                check             says whether a table's file shows that a model is safe
 *     On words:  qii_analyse       finds the answer, and leaves the table
 *                qii_desk          the same, charged to a desk of two counters
 *                qii_check         says whether a table shows that a model is safe
 *                qii_ceiling       the passes after which the analysis has always ended
 *                qii_quote         what no analysis exceeds: words, bytes and passes
 *     Between:   qii_read_model    a model file's words
 *                qii_write_model   a model's file
 *                qii_read_table    a table file's words
 *                qii_write_table   a table's file
 *
 * If check or qii_check accepts a table, no run of the model, of any length, meets a forbidden box.
 * This is proved, and it does not rest on the analysis. Proved too, for every input: the number and
 * the values that each call gives, and all memory that it leaves. docs/PROMISES.md says which
 * theorem carries what. That a model has the runs of its plant is for those to see who draw it:
 * WHAT SAFE DOES NOT SAY, below, and docs/MODELLING.md.
 *
 *     uint8_t table[QII_TABLE_BYTES_MAX];
 *     uint64_t decided = decide(model, model_len, table, sizeof table, 1000);
 *
 *     if (qii_code(decided) == QII_SAFE)
 *         keep(table, qii_table_len(table));
 *
 * The same on words, charged to a desk (examples/ has whole programs):
 *
 *     static int32_t model[QII_MODEL_WORDS_MAX];
 *     static int32_t table[QII_TABLE_WORDS_MAX], work[QII_TABLE_WORDS_MAX];
 *     uint32_t jobs = 0, charged = 0;
 *     uint64_t words, passes;
 *
 *     if (qii_read_model(file, file_len, model, QII_MODEL_WORDS_MAX, &words) == QII_DONE &&
 *         qii_desk(&jobs, &charged, model, words, 1000, table, QII_TABLE_WORDS_MAX, work,
 *                  QII_TABLE_WORDS_MAX, &passes) == QII_SAFE)
 *         ...
 *
 * WHAT HOLDS FOR ALL CALLS
 *
 *     Input     Bytes or words of any number and content may be handed over. A call answers, or it
 *               refuses with the number of the first question that is not yes. It fails in no other
 *               way, and it always returns; under a high limit that can take long (Time).
 *     Numbers   Every call gives a number, of enum qii_answer or of enum qii_refusal; decide gives
 *               it times 2^32, plus the passes. A number has one meaning, whichever call gives it.
 *     Values    A call with a parameter value writes it in every case: 0 on a refusal. qii_quote
 *               writes words, bytes and ceiling likewise.
 *     Memory    A call reads what it is handed as const and writes what it is lent otherwise, no
 *               more than is said below. No heap, no file, no lock. Nothing is kept between calls.
 *     Pointers  A slice is a pointer and a length, in bytes of uint8_t or words of int32_t. The
 *               pointer is valid for that length and aligned for its type; with length 0 it may be
 *               NULL. value, jobs and passes, and the three of qii_quote, point to a number each,
 *               and are not NULL.
 *     Overlap   What is lent for writing, these numbers too, overlaps nothing else that the call is
 *               handed. Slices that are only read may overlap.
 *     Threads   Calls may run on several threads at once, as long as no thread uses memory that
 *               another's call is writing. qii_desk says how threads share a desk.
 *     Stack     A thread that makes a call needs a stack of QII_STACK_BYTES, or for all calls but
 *               decide and check of QII_STACK_BYTES_ON_WORDS; see there.
 *     Time      decide, qii_analyse and qii_desk make the passes that they answer, and at most one
 *               more; check and qii_check one at most, the other calls none. Passes can be many:
 *               a model file of 11 kB took 2,560,001 of them, in 15 s. The largest plant, all its
 *               locations cut, takes some 0.2 ms a pass. (Measured, not proved.) A call cannot be
 *               stopped from outside, and none goes on where another ended: the limit is the way
 *               to bound it. To try a limit, and after each QII_UNFINISHED twice that limit, costs
 *               about twice as much in all as the last limit alone; a desk charges every try.
 *
 * WHAT THE WORDS SAY
 *
 *     n, L, E and B are the numbers of variables (1 to 6), locations (1 to 64), switches (0 to 128)
 *     and forbidden boxes (0 to 64), all numbered from 0. A level lies in -1,000,000..1,000,000, a
 *     rate in -1,000..1,000. A box is a low and a high for each variable, ends included: low 0,
 *     high 0, low 1, high 1, ..; it is ordered if no low is above its high.
 *
 *     Model     n, L, E, B and the edition, 1 or 2; then the records, one after the other:
 *                 location    invariant box, rate box, start flag (1 or 0), start box (zeros if
 *                             the flag is 0; it may stick out of the invariant)
 *                 switch      source location, target location, wall variable d, source side,
 *                             target side (0 low, 1 high), reset mask (2^i for variable i), guard
 *                             box, reset box (for a masked variable a single value; in edition 2
 *                             it may be a range, but for d)
 *                 forbidden   location, box
 *                 cut         one for each location: variable and value, or -1 and 0 where the
 *                             location is not cut (always there: two zeros are a cut, not none)
 *     Wall      Wall (d, side) of a location is the low or high end of d in its invariant. Its face
 *               has the number 2d + side.
 *     Cut       The value lies strictly inside the location's invariant. Each face of a cut
 *               location comes in two pieces. On the walls of the other variables piece 0 is up to
 *               the value and piece 1 from the value; both hold it. On the walls of the cut
 *               variable piece 0 is the whole face, and piece 1 is always absent. A face of a
 *               location that is not cut is one piece, piece 0. C is the number of locations that
 *               are cut, so there are 2n(L + C) pieces. A cut changes no run, and start parts are
 *               not cut to pieces. A cut never hurts: a model that is safe stays safe when a
 *               location that is not cut gets one, under a limit of at least its new ceiling
 *               (docs/PROMISES.md, "A cut never hurts").
 *     Start     The start part of a location with start flag 1 is its start box cut to its
 *               invariant. Where nothing is left, and under start flag 0, no run starts there.
 *     Run       Starts in the start part of a location. A delay of t stays in its location and
 *               moves each level by at least t times its low rate and at most t times its high
 *               rate. A switch leads from its source location, with levels in its guard, to its
 *               target location, with levels in its reset box: each masked variable set to any
 *               level of its reset range, the others unchanged. The levels always lie in the
 *               location's invariant. Levels and delays are fractions, with a denominator that is
 *               the run's own. A run meets a forbidden box if it starts in one of its location, or
 *               a delay or switch of it ends in one.
 *     Table     For each location the pieces of its 2n faces, face by face: its piece, or piece 0
 *               and then piece 1. A piece is a flag and a box: 1 and a box that holds what is
 *               reached of it, perhaps more, or all zeros where nothing is.
 *     Pass      A pass widens each piece to the smallest box that holds it and what can be reached
 *               in one step from the start parts and from the pieces of the table before the pass,
 *               rounded outward, then cut to the piece. Table 0 is all zeros, table k is the table
 *               after k passes.
 *
 *     Words past the end of a model or of a table are not part of it: a list may be longer.
 *
 *     A plant of one location with the levels x and y, in 25 words:
 *
 *         static const int32_t model[] = {
 *             2, 1, 0, 1, 1,         n, L, E, B, edition 1
 *             0, 10, 0, 10,          location 0: invariant x 0..10, y 0..10
 *             1, 1, 1, 2,                        rates x 1..1, y 1..2
 *             1, 0, 0, 2, 5,                     start flag 1, start box x 0..0, y 2..5
 *             0, 9, 10, 0, 4,        forbidden in location 0: x 9..10, y 0..4
 *             -1, 0,                 location 0 is not cut
 *         };
 *
 *     qii_quote says 20 words, 115 bytes and 44 passes at most. qii_analyse gives QII_SAFE after 1
 *     pass, with this table of 20 words:
 *
 *             1, 0, 0, 2, 5,         face 0, x at 0: y 2..5
 *             0, 0, 0, 0, 0,         face 1, x at 10: not reached
 *             0, 0, 0, 0, 0,         face 2, y at 0: not reached
 *             1, 2, 8, 10, 10,       face 3, y at 10: x 2..8
 *
 *     With 0, 5 for -1, 0 the location is cut at x = 5. The answer is the same; the table has 40
 *     words, two pieces of each face. Those of face 3 are
 *
 *             1, 2, 5, 10, 10,       piece 0: x 2..5
 *             1, 5, 8, 10, 10,       piece 1: x 5..8
 *
 * WHAT SAFE DOES NOT SAY
 *
 *     Safe is about the runs of the model. A run ends where the model has no way on, and a model
 *     whose runs end too early is safe and worthless. It passes all questions, and nothing warns:
 *
 *     Outside   A forbidden box outside its location's invariant is never met. One location, level
 *               30..100, a pump of 2..5, no switch, forbidden 101..120: safe after 1 pass. Let the
 *               invariant go on above the rim, up to 120, and forbid 100..120: unknown.
 *     Walls     A level that is pushed against a wall which no switch leaves stops there, and with
 *               it the run: no time can pass. In that plant no run goes on from 100.
 *     Switches  A switch whose guard, reset box or target invariant takes only part of what arrives
 *               drops the rest of the runs. A vat is full with a heat of 36..60, and then emptied,
 *               but a guard takes a heat of 20..40 alone. The other fillings end there. They would
 *               come to a heat of up to 70, and from 65 up is forbidden: safe after 3 passes.
 *     Entries   A location that nothing enters says nothing, nor do its forbidden boxes.
 *
 *     models/worthless-wall.model and models/worthless-guard.model are these plants. After safe the
 *     table helps: no run enters a location that has no present piece, but by starting there; where
 *     a piece is present and no switch leads from its wall, or none takes all of it, runs may end.
 *
 * WHAT THE FILES SAY
 *
 *     A file is a row of fields: a byte for the tag, two bytes for the length of what follows, then
 *     that many bytes, words of four bytes each, in two's complement; the highest byte comes first
 *     everywhere.
 *
 *     Model     tag 1, or tag 9 in edition 2: n, L, E, B; then L of tag 2, E of tag 3, B of tag 4,
 *               each one record; then for each location that is cut a tag 8: location, variable,
 *               value; by location.
 *     Table     tag 6: the number of present pieces; then for each a tag 5: location, face, box; by
 *               location, then by face, then by piece. If any location of the model is cut, every
 *               tag 5 has the piece, 0 or 1, after the face.
 *
 * docs/FORMATS.md has all of this in full, with an example byte by byte.
 *
 * For C99 and C++11 on x86-64 Linux. Link with libhost.a, whose only global names are the eleven
 * calls declared here. All other names of this header begin with qii_ or QII_.
 */
#ifndef QII_H
#define QII_H

#include <stddef.h>
#include <stdint.h>

/* A number as a number of another type, without a C cast in C++. For this header's own use. */
#ifdef __cplusplus
#define QII_AS(type, number) (static_cast<type>(number))
extern "C" {
#else
#define QII_AS(type, number) ((type)(number))
#endif

/*
 * decide - is a model safe?
 *
 *     model, model_len    the bytes of a model file
 *     table, table_len    a buffer for the table file, of at least QII_CUT_TABLE_BYTES(L, C, n)
 *                         bytes (without cuts QII_TABLE_BYTES(L, n))
 *     limit               the most passes that the answer may have
 *
 * Gives code * 2^32 + passes; qii_code and qii_passes take the two apart. The code is one of:
 *
 *     QII_SAFE          No run meets a forbidden box. check accepts the table.
 *     QII_UNKNOWN       A reached part touches a forbidden box, as far as boxes can tell. check
 *                       refuses every table for this model. A run need not meet the box.
 *     QII_UNFINISHED    Neither after limit passes. A higher limit may tell; one of at least the
 *                       model's ceiling always does (qii_ceiling).
 *     a refusal         With 0 passes.
 *
 * Leaves in the buffer, after any of the three answers, the file of the table after that many
 * passes (qii_table_len gives its length), and the rest as it was; after a refusal, all as it was.
 *
 * Asks, in this order: 1 to 4; 6 and 7 of each record's field in turn; 8, and 46 of each cut's
 * field in turn; 11 to 13 of each location in turn, 14 to 18 of each switch, 19 of each forbidden
 * box, 46 of each cut; 39.
 */
uint64_t decide(const uint8_t *model, size_t model_len, uint8_t *table, size_t table_len,
                uint32_t limit);

/*
 * check - does a table file show that a model is safe?
 *
 *     model, model_len    the bytes of a model file
 *     table, table_len    the bytes of a table file, whoever made it
 *
 * Gives QII_ACCEPTED, or a refusal. It writes nothing.
 *
 * A table file that is accepted for a model is accepted for every narrower one that is not refused
 * itself, as where a pump was exchanged for a steadier one. So it is with qii_check. Narrower takes
 * all of this:
 *
 *     walls        the same n and L, the same invariants, the same cuts;
 *     rates        in each location inside the model's;
 *     starts       a start part, where there is one, inside the model's in that location;
 *     switches     for each of them one of the model with the same source and target location, the
 *                  same wall variable d, the same sides and the same mask, whose guard and reset
 *                  boxes hold its own;
 *     forbidden    each box inside one of the model's in the same location.
 *
 * Where one of these is broken, by another mask, say, the table can be refused although every box
 * lies inside the model's. No call compares two models; check says of a table whether it still
 * holds. docs/PROMISES.md, "A narrower plant", names the theorem.
 *
 * Asks, in this order: 1 to 4; 6 and 7 of each record's field in turn; 8, and 46 of each cut's
 * field in turn; 11 to 13 of each location in turn, 14 to 18 of each switch, 19 of each forbidden
 * box, 46 of each cut; 35, then 36 and 37 of each piece's field in turn, 38, 32; 33, 34.
 */
uint64_t check(const uint8_t *model, size_t model_len, const uint8_t *table, size_t table_len);

/*
 * qii_read_model - the words of a model file.
 *
 *     file, file_len      the bytes of a model file
 *     words, words_len    a buffer for the words, of at least QII_MODEL_WORDS(n, L, E, B) words
 *     value               how many words the model has
 *
 * Gives QII_DONE, or a refusal. A file that reads is exactly the one that qii_write_model writes of
 * its words.
 *
 * Leaves in the buffer
 *     after QII_DONE                the model's words, which pass all the model's questions, and
 *                                   the rest as it was;
 *     after 1 to 5                  all as it was;
 *     after 6 to 8, 11 to 19, 46    zeros, over its whole length.
 *
 * Asks, in this order: 1 to 4; 5 of the buffer; 6 and 7 of each record's field in turn; 8, and 46
 * of each cut's field in turn; 11 to 13 of each location in turn, 14 to 18 of each switch, 19 of
 * each forbidden box, 46 of each cut. Where the end of the file is expected, a byte that is not the
 * tag of a cut gets 8. Of a cut's field 46 asks there that it is whole, of three words, of a
 * location that exists and comes after the one before, and not of variable -1; whether variable
 * and value fit the location is asked at the end.
 */
uint32_t qii_read_model(const uint8_t *file, size_t file_len, int32_t *words, size_t words_len,
                        uint64_t *value);

/*
 * THE MODEL'S QUESTIONS, which every call below asks first of the model's words, in this order: are
 * there five words (5); 2, 3, 4; 43; are there all the model's words (5); 11 to 13 of each location
 * in turn, 14 to 18 of each switch, 19 of each forbidden box, 46 of each location's cut.
 */

/*
 * qii_write_model - the file of a model.
 *
 *     model, model_len    model words
 *     file, file_len      a buffer for the file, of at least as many bytes as it has:
 *                         QII_MODEL_BYTES(n, L, E, B, C); QII_MODEL_BYTES_MAX is always enough
 *     value               how many bytes the file has
 *
 * Gives QII_DONE, or a refusal. Any words that pass the model's questions can be written, and of
 * these qii_model_bytes gives the file's length: a caller that got 40 learns by it how long a
 * buffer to bring. qii_read_model reads the file as the same words, and decide and check take it
 * for the same model.
 *
 * Leaves in the buffer, after QII_DONE, the file, and the rest as it was; after a refusal, all as
 * it was.
 *
 * Asks, in this order: the model's questions; 40 of the buffer.
 */
uint32_t qii_write_model(const int32_t *model, size_t model_len, uint8_t *file, size_t file_len,
                         uint64_t *value);

/*
 * qii_ceiling - the passes after which the analysis has always ended.
 *
 *     model, model_len    model words
 *     value               the ceiling: at most 12,800,001,408, so more than 32 bits
 *
 * Gives QII_DONE, or a refusal. Under a limit of at least the ceiling, the analysis is never
 * QII_UNFINISHED. Most models end after far fewer passes. A ceiling can be above every limit.
 *
 * Asks the model's questions.
 */
uint32_t qii_ceiling(const int32_t *model, size_t model_len, uint64_t *value);

/*
 * qii_quote - what does no order of a model exceed?
 *
 *     model, model_len    model words
 *     words               the words of the model's table: the room that 20 and 21 ask for
 *     bytes               the room that 39 asks for: no table file of the model is longer
 *     ceiling             what qii_ceiling gives: no answer has more passes
 *
 * Gives QII_DONE, or a refusal, with 0 in all three. No analysis by passes exceeds any of the
 * three: under whatever limit, an answer of qii_analyse, of qii_desk or, for the model's file, of
 * decide has at most so many passes, a table of exactly so many words, and a table file of at most
 * so many bytes. With so many words no call finds a table, a table buffer or a work buffer too
 * short (20, 21), with so many bytes none a byte buffer (39); with one less, each that asks does.
 * At most QII_TABLE_WORDS_MAX words, QII_TABLE_BYTES_MAX bytes and 12,800,001,408 passes.
 *
 * Asks the model's questions.
 */
uint32_t qii_quote(const int32_t *model, size_t model_len, uint64_t *words, uint64_t *bytes,
                   uint64_t *ceiling);

/*
 * qii_check - does a table show that a model is safe?
 *
 *     model, model_len    model words
 *     table, table_len    any words, whoever made them
 *
 * Gives QII_ACCEPTED, or a refusal. It writes nothing.
 *
 * Asks, in this order: the model's questions; 20 of the table; 32, 33, 34.
 */
uint32_t qii_check(const int32_t *model, size_t model_len, const int32_t *table, size_t table_len);

/*
 * qii_analyse - is a model safe?
 *
 *     model, model_len    model words
 *     limit               the most passes that the answer may have
 *     table, table_len    a buffer for the table, of at least QII_CUT_TABLE_WORDS(L, C, n) words
 *     work, work_len      a buffer to work in, of at least as many
 *     value               the passes of the answer
 *
 * Gives QII_SAFE, QII_UNKNOWN or QII_UNFINISHED, which mean what decide says of them, or a refusal.
 * What the buffers held before makes no difference.
 *
 * Leaves
 *     after any of the three answers    in the table buffer the table after value passes, and the
 *                                       rest as it was; in the work buffer zeros, over its whole
 *                                       length;
 *     after a refusal                   all as it was.
 *
 * Asks, in this order: the model's questions; 20 of the table buffer; 21 of the work buffer.
 */
uint32_t qii_analyse(const int32_t *model, size_t model_len, uint32_t limit, int32_t *table,
                     size_t table_len, int32_t *work, size_t work_len, uint64_t *value);

/*
 * qii_desk - is a model safe? The answer is charged to a desk.
 *
 *     jobs, passes        the desk: two counters. A fresh desk has 0 in both.
 *     the others          as qii_analyse takes them
 *
 * Gives what qii_analyse gives, or 22. Leaves the buffers as qii_analyse does, and
 *     after any of the three answers    jobs 1 higher, passes higher by value;
 *     after a refusal                   both counters as they were.
 *
 * So for every list of calls of one desk, from counters 0 on: jobs is the number of answered calls,
 * and passes is the sum of the passes answered. The counters never wrap: a call that would be
 * answered, but whose job or whose limit the counters could not take, is refused by 22 before any
 * pass is made.
 *
 * The library keeps no desk: the counters are the caller's, and nothing but these calls may change
 * them in between, unless both are set to 0: a fresh desk.
 *
 * After 22 nothing has changed. Unless jobs is 4,294,967,295, make the call again under a limit of
 * at most 4,294,967,295 - passes. Or write down both counters, set them to 0, and make it again as
 * it was: a fresh desk takes every limit, and what was written down and what the desk counts from
 * there on add up.
 *
 * Threads: both counters, like the buffers and value, are lent until the call returns, all its
 * passes long, and meanwhile no other thread may so much as read them. A lock around the call keeps
 * to that, and makes analyses wait for each other. So let every call have a fresh desk of its own,
 * and add it afterwards to totals that all threads share:
 *
 *     uint32_t jobs = 0, charged = 0;
 *
 *     number = qii_desk(&jobs, &charged, model, ..);     (no lock is held)
 *     lock();
 *     all_jobs += jobs;                                  (both totals of type uint64_t)
 *     all_charged += charged;
 *     unlock();
 *
 * Each desk has what its one call was answered, so the totals are the number of answered calls and
 * the sum of the passes answered, of all threads; and 22 never comes.
 *
 * Asks, in this order: the model's questions; 20 of the table buffer; 21 of the work buffer; 22 of
 * the counters and the limit.
 */
uint32_t qii_desk(uint32_t *jobs, uint32_t *passes, const int32_t *model, size_t model_len,
                  uint32_t limit, int32_t *table, size_t table_len, int32_t *work, size_t work_len,
                  uint64_t *value);

/*
 * qii_read_table - the words of a table file.
 *
 *     model, model_len    model words
 *     file, file_len      the bytes of a table file
 *     table, table_len    a buffer for the table, of at least QII_CUT_TABLE_WORDS(L, C, n) words
 *     value               how many words the table has: QII_CUT_TABLE_WORDS(L, C, n)
 *
 * Gives QII_DONE, or a refusal. A file that reads is exactly the one that qii_write_table writes of
 * its table, with the same model.
 *
 * Leaves in the buffer
 *     after QII_DONE                          the table, and the rest as it was;
 *     after the model's refusals and 20       all as it was;
 *     after 35 to 38 and 32                   zeros, over its whole length.
 *
 * Asks, in this order: the model's questions; 20 of the buffer; 35, then 36 and 37 of each piece's
 * field in turn, 38; 32 of the table.
 */
uint32_t qii_read_table(const int32_t *model, size_t model_len, const uint8_t *file,
                        size_t file_len, int32_t *table, size_t table_len, uint64_t *value);

/*
 * qii_write_table - the file of a table.
 *
 *     model, model_len    model words
 *     table, table_len    the table's words
 *     file, file_len      a buffer for the file, of at least QII_CUT_TABLE_BYTES(L, C, n) bytes,
 *                         however few pieces are present
 *     value               how many bytes the file has
 *
 * Gives QII_DONE, or a refusal. With the same model, qii_read_table reads the file as the same
 * table. Any table with well-formed pieces can be written, also one that qii_check refuses by 33 or
 * 34.
 *
 * Leaves in the buffer, after QII_DONE, the file, and the rest as it was; after a refusal, all as
 * it was.
 *
 * Asks, in this order: the model's questions; 20 of the table; 32; 39 of the buffer.
 */
uint32_t qii_write_table(const int32_t *model, size_t model_len, const int32_t *table,
                         size_t table_len, uint8_t *file, size_t file_len, uint64_t *value);

/*
 * The answers. No refusal has one of these numbers. Each number is one enumerator, so that one
 * switch can have a case for each of them, and for each refusal.
 */
enum qii_answer {
    /* No run meets a forbidden box; the table is accepted; what was to be read, written or quoted
       is. */
    QII_SAFE = 100,
    /* A start part or a piece of the table touches a forbidden box. In finer units, or with other
       cuts, the plant may come out safe: docs/MODELLING.md. */
    QII_UNKNOWN = 101,
    /* The limit came before an answer. */
    QII_UNFINISHED = 102
};

/* Other names of QII_SAFE, as the answer of check and qii_check, and of the calls that only give
   values. A switch takes one of the three names. */
#define QII_ACCEPTED QII_SAFE
#define QII_DONE QII_SAFE

/*
 * The refusals: the first question that is not yes. The numbers 9, 10, 23 to 31, 41, 42, 44 and 45
 * are not in use.
 */
enum qii_refusal {
    /* The model file does not begin with a whole field of tag 1 or 9 and length 16. */
    QII_MODEL_HEAD = 1,
    /* n is not 1 to 6. */
    QII_VARIABLES = 2,
    /* L is not 1 to 64. */
    QII_LOCATIONS = 3,
    /* E is not 0 to 128, or B is not 0 to 64. */
    QII_SWITCHES_OR_BOXES = 4,
    /* The list of words, or the buffer for them, is too short for the model. */
    QII_MODEL_SHORT = 5,
    /* Where a record is due, fewer than three bytes are left or another tag stands. */
    QII_RECORD_TAG = 6,
    /* A field has another length than its record, or is not all there. */
    QII_RECORD_LENGTH = 7,
    /* The model file goes on after its last record or cut, and not with a cut's tag. */
    QII_MODEL_END = 8,

    /* A location's invariant is not ordered, or has an end that is no level. */
    QII_INVARIANT = 11,
    /* A location's rate box is not ordered, or has an end that is no rate. */
    QII_RATES = 12,
    /* A location's start flag is neither 0 with a start box of zeros, nor 1 with one that is
       ordered and whose ends are all levels. */
    QII_START = 13,

    /* A switch names a location, a variable d or a side that does not exist, or its mask is not
       0 to 2^n - 1. */
    QII_SWITCH_PLACE = 14,
    /* A switch's guard or reset box is not ordered, or has an end that is no level. */
    QII_SWITCH_BOXES = 15,
    /* A switch's reset range of a masked variable is not a single value. In edition 2 this is asked
       of d alone. */
    QII_SWITCH_RESET = 16,
    /* A switch's guard of d is not the source wall. */
    QII_SWITCH_SOURCE = 17,
    /* A switch's target wall is not the value that d has: its reset value, or the source wall if
       d is not masked. */
    QII_SWITCH_TARGET = 18,

    /* A forbidden box names a location that does not exist, is not ordered, or has an end that is
       no level. */
    QII_FORBIDDEN = 19,

    /* The table, or the buffer for it, has fewer than QII_CUT_TABLE_WORDS(L, C, n) words. */
    QII_TABLE_SHORT = 20,
    /* The work buffer has fewer than QII_CUT_TABLE_WORDS(L, C, n) words. */
    QII_WORK_SHORT = 21,
    /* jobs + 1, or passes + limit, is above 4,294,967,295. qii_desk says what to do then. */
    QII_DESK_FULL = 22,

    /* A piece's flag is not 0 or 1, an absent piece is not all zeros, or a present one is not
       ordered, not inside its location's invariant, not on its wall, not on its side of the cut's
       value, or is piece 1 on a wall of the cut variable. */
    QII_TABLE_FACE = 32,
    /* A pass changes the table. */
    QII_TABLE_GROWS = 33,
    /* A start part or a piece of the table touches a forbidden box. */
    QII_TABLE_TOUCHES = 34,
    /* The table file does not begin with a whole field of tag 6 and length 4 whose count is 0 to
       2n(L + C). */
    QII_TABLE_HEAD = 35,
    /* A piece's field is not whole, not of tag 5, or not of the due length: 8 + 8n, or 12 + 8n if
       any location of the model is cut. */
    QII_FACE_FIELD = 36,
    /* A piece's location, face or number (0, or 0 and 1 in a cut location) does not exist, or does
       not come after the one before. */
    QII_FACE_PLACE = 37,
    /* The table file goes on after its last piece. */
    QII_TABLE_END = 38,
    /* The buffer for the table file has fewer than QII_CUT_TABLE_BYTES(L, C, n) bytes. */
    QII_TABLE_ROOM = 39,

    /* The buffer for the model file has fewer bytes than the file:
       QII_MODEL_BYTES(n, L, E, B, C). */
    QII_MODEL_ROOM = 40,

    /* The edition, the fifth word of a model, is neither 1 nor 2. Never given of a file: its first
       tag gives the edition, and any but 1 and 9 gets QII_MODEL_HEAD. */
    QII_EDITION = 43,

    /* A cut's field of the model file is not whole, not of length 12, of a location that does not
       exist or does not come after the one before, or of variable -1; or a location's variable and
       value are neither -1 and 0, nor a variable of 0 to n - 1 and a value strictly inside the
       invariant. */
    QII_CUT = 46
};

/* The counts of the largest plant. */
#define QII_VARIABLES_MAX 6
#define QII_LOCATIONS_MAX 64
#define QII_SWITCHES_MAX 128
#define QII_FORBIDDEN_MAX 64

/* The words of a model (5), and of the largest. A macro here uses its parameters more than once. */
#define QII_MODEL_WORDS(n, L, E, B)                                                      \
    (5 + QII_AS(size_t, L) * (6 * QII_AS(size_t, n) + 3) +                               \
     QII_AS(size_t, E) * (6 + 4 * QII_AS(size_t, n)) +                                   \
     QII_AS(size_t, B) * (1 + 2 * QII_AS(size_t, n)))
#define QII_MODEL_WORDS_MAX 7173

/* The pieces of a table, for L locations, C of them cut, and n variables (35). */
#define QII_TABLE_PIECES(L, C, n) \
    ((QII_AS(size_t, L) + QII_AS(size_t, C)) * 2 * QII_AS(size_t, n))

/* The words of a table (20, 21): with C locations cut, and without cuts; and of the largest, every
   location of the largest plant cut. */
#define QII_CUT_TABLE_WORDS(L, C, n) (QII_TABLE_PIECES(L, C, n) * (1 + 2 * QII_AS(size_t, n)))
#define QII_TABLE_WORDS(L, n) QII_CUT_TABLE_WORDS(L, 0, n)
#define QII_TABLE_WORDS_MAX 19968

/* The length of a model's file (40), with C locations cut; and of the longest. A file longer than
   QII_MODEL_BYTES_MAX is refused, so a program that reads one byte more has read enough. */
#define QII_MODEL_BYTES(n, L, E, B, C)                                                   \
    (19 + QII_AS(size_t, L) * (7 + 24 * QII_AS(size_t, n)) +                             \
     QII_AS(size_t, E) * (27 + 16 * QII_AS(size_t, n)) +                                 \
     QII_AS(size_t, B) * (7 + 8 * QII_AS(size_t, n)) + QII_AS(size_t, C) * 15)
#define QII_MODEL_BYTES_MAX 29907

/* The room for a table file (39): with C locations cut, where a piece's field is four bytes longer
   if any is; and without cuts; and for the largest. */
#define QII_CUT_TABLE_BYTES(L, C, n) \
    (7 + QII_TABLE_PIECES(L, C, n) * (((C) > 0 ? 15 : 11) + 8 * QII_AS(size_t, n)))
#define QII_TABLE_BYTES(L, n) QII_CUT_TABLE_BYTES(L, 0, n)
#define QII_TABLE_BYTES_MAX 96775

/* The stack of a thread that makes any call, and of one that makes any but decide and check. Of it
   decide and check use up to 195,000 bytes, qii_check 85,000, each of the others less than 3,000
   (measured by tests/c/stack.c); the rest is for the thread itself and for the caller. Not counted
   are a program's own thread-local memory, which can lie on the thread's stack, and what a
   sanitizer takes: add them. */
#define QII_STACK_BYTES (256 * 1024)
#define QII_STACK_BYTES_ON_WORDS (128 * 1024)

/* The code in decide's number: of enum qii_answer or enum qii_refusal. */
static inline uint32_t qii_code(uint64_t decided)
{
    return QII_AS(uint32_t, decided >> 32);
}

/* The passes in decide's number. */
static inline uint32_t qii_passes(uint64_t decided)
{
    return QII_AS(uint32_t, decided & 0xFFFFFFFFu);
}

/* The length of the table file that decide has written. After an answer only. */
static inline size_t qii_table_len(const uint8_t *table)
{
    size_t pieces = 256 * QII_AS(size_t, table[5]) + table[6];
    size_t piece_len = 0;

    if (pieces > 0)
        piece_len = 3 + 256 * QII_AS(size_t, table[8]) + table[9];
    return 7 + pieces * piece_len;
}

/* C: how many locations of a model are cut. Only of words that pass the model's questions, such as
   those that qii_read_model has read; so too the three below. */
static inline int32_t qii_cuts(const int32_t *model)
{
    size_t end = QII_MODEL_WORDS(model[0], model[1], model[2], model[3]);
    size_t at;
    int32_t cuts = 0;

    for (at = end - 2 * QII_AS(size_t, model[1]); at < end; at += 2)
        cuts += model[at] != -1;
    return cuts;
}

/* The length of a model's file (40). */
static inline size_t qii_model_bytes(const int32_t *model)
{
    return QII_MODEL_BYTES(model[0], model[1], model[2], model[3], qii_cuts(model));
}

/* The words of a model's table (20, 21). */
static inline size_t qii_table_words(const int32_t *model)
{
    return QII_CUT_TABLE_WORDS(model[1], qii_cuts(model), model[0]);
}

/* The room for a model's table file (39). */
static inline size_t qii_table_bytes(const int32_t *model)
{
    int32_t cuts = qii_cuts(model);

    return QII_CUT_TABLE_BYTES(model[1], cuts, model[0]);
}

/* A number's meaning in words, for people. */
static inline const char *qii_meaning(uint32_t number)
{
    switch (number) {
    case QII_SAFE:
        return "safe, accepted or done";
    case QII_UNKNOWN:
        return "unknown: a reached part touches a forbidden box";
    case QII_UNFINISHED:
        return "unfinished: the limit came before an answer";
    case QII_MODEL_HEAD:
        return "the model file does not begin with a whole head field";
    case QII_VARIABLES:
        return "the number of variables is not 1 to 6";
    case QII_LOCATIONS:
        return "the number of locations is not 1 to 64";
    case QII_SWITCHES_OR_BOXES:
        return "the number of switches is not 0 to 128, or of forbidden boxes not 0 to 64";
    case QII_MODEL_SHORT:
        return "the list or buffer is too short for the model's words";
    case QII_RECORD_TAG:
        return "the model file has another tag, or ends, where a record is due";
    case QII_RECORD_LENGTH:
        return "a record of the model file has another length, or is not all there";
    case QII_MODEL_END:
        return "the model file goes on after its last record or cut";
    case QII_INVARIANT:
        return "a location's invariant is not ordered or not in the range of levels";
    case QII_RATES:
        return "a location's rates are not ordered or not in the range of rates";
    case QII_START:
        return "a location's start flag is not 0 or 1, or its start box is not zeros under flag 0, "
               "or not ordered or not in the range of levels under flag 1";
    case QII_SWITCH_PLACE:
        return "a switch names a location, variable, side or mask that does not exist";
    case QII_SWITCH_BOXES:
        return "a switch's guard or reset box is not ordered or not in the range of levels";
    case QII_SWITCH_RESET:
        return "a switch's reset range of a masked variable, in edition 2 of the wall variable, is "
               "not a single value";
    case QII_SWITCH_SOURCE:
        return "a switch's guard is not on the source wall";
    case QII_SWITCH_TARGET:
        return "a switch does not arrive on the target wall";
    case QII_FORBIDDEN:
        return "a forbidden box's location does not exist, or the box does not fit";
    case QII_TABLE_SHORT:
        return "the table or the table buffer is too short";
    case QII_WORK_SHORT:
        return "the work buffer is too short";
    case QII_DESK_FULL:
        return "the desk's counters cannot take another job or the limit";
    case QII_TABLE_FACE:
        return "a piece of the table is not well formed, or not inside its location, on its wall "
               "and on its side";
    case QII_TABLE_GROWS:
        return "a pass changes the table: a step from it leads outside it";
    case QII_TABLE_TOUCHES:
        return "a start part or a piece of the table touches a forbidden box";
    case QII_TABLE_HEAD:
        return "the table file has no whole head field with a possible count of pieces";
    case QII_FACE_FIELD:
        return "a piece's field of the table file is not whole, or has another tag or length";
    case QII_FACE_PLACE:
        return "a piece of the table file does not exist, or is not in order";
    case QII_TABLE_END:
        return "the table file goes on after its last piece";
    case QII_TABLE_ROOM:
        return "the byte buffer has no room for every table file of the model";
    case QII_MODEL_ROOM:
        return "the byte buffer is too short for the model's file";
    case QII_EDITION:
        return "the model's edition is neither 1 nor 2";
    case QII_CUT:
        return "a cut is not whole or not in order, or its variable or value does not fit";
    default:
        return "no call gives this number";
    }
}

#ifdef __cplusplus
}
#endif

#endif
