/* Crumbchorus: exact words of an experimental plan, from its own runs.
 *
 * A plan is a list of levels, one byte for each column, and a run table of
 * n times m bytes, run after run; an entry of column i is below its level.
 * 1 to 24 columns, 1 to 256 runs, levels 1 to 16, product of the levels at
 * most 2,000,000,000. Runs, columns and places are numbered from 0.
 *
 * The functions keep nothing between calls, allocate nothing, write to no
 * memory but the rooms that they are lent, and always return. They may be
 * called from several threads at once. A pointer whose length is 0 may be
 * null; any other must point to that many bytes, or to that many numbers
 * where it points to size_t. A room overlaps nothing else that is lent in
 * the same call. Below each call stands how much stack it takes, compiled for
 * x86-64; a test of the library measures it.
 */
#ifndef CRUMBCHORUS_H
#define CRUMBCHORUS_H

#include <stddef.h>
#include <stdint.h>

#define CRUMB_VERSION "0.11.0"
#define CRUMB_VERSION_NUMBER 1100 /* 10000 * major + 100 * minor + patch */

/* The refusals: number, name, what is wrong, what to do. A call that is
 * refused answers the number negated. Numbers 12 and 15 are not used. The
 * checks stand in the order 13, 14, 1, 2, 3, 4, 5, 6, 16, 8, 9, 10, 11, 7; the
 * first that applies is given. A table of their words, for instance:
 *
 *     #define ROW(number, name, wrong, advice) { number, wrong, advice },
 *     static const struct { int number; const char *wrong, *advice; }
 *         refusals[] = { CRUMB_REFUSALS(ROW) { 0, "", "" } };
 */
#define CRUMB_REFUSALS(X) \
    X(1, CRUMB_COLUMNS, "no column, or more than 24", "Write one level for each column in the first line.") \
    X(2, CRUMB_LEVEL, "a level is outside 1 to 16", "The first line holds the levels: how many settings each column has.") \
    X(3, CRUMB_PRODUCT, "the product of the levels is above 2,000,000,000", "Leave a column out, or write a smaller level.") \
    X(4, CRUMB_RUNS, "no run, more than 256 runs, or part of a run", "A plan has 1 to 256 runs, each with one entry for each column.") \
    X(5, CRUMB_ENTRY, "an entry is not below its level", "Entries are counted from 0: at level 3 they are 0, 1 and 2.") \
    X(6, CRUMB_SIZE, "the number of columns or runs asked about is out of range", "Columns: 1 to 4 and no more than the plan has. Runs: 1 to 3.") \
    X(7, CRUMB_ROOM, "a lent room is too small for the whole answer", "Lend a larger one.") \
    X(8, CRUMB_RANGE, "a run, column, place or word length is out of range", "Runs, columns and places are counted from 0, lengths from 1.") \
    X(9, CRUMB_ALREADY, "the run is already struck, or already standing", "Name each run once.") \
    X(10, CRUMB_TOO_FEW, "fewer runs stand than the call needs", "The last standing run cannot be struck.") \
    X(11, CRUMB_NO_RESOLUTION, "every word is zero, so there is no resolution", "The plan has every level combination equally often.") \
    X(13, CRUMB_TOO_LONG, "the text is longer than 32,768 bytes", "A plan of 256 runs and 24 columns is shorter: is this a plan?") \
    X(14, CRUMB_MALFORMED, "a line of the text is malformed", "A line is numbers with single commas, as many as in line 1, and a line end.") \
    X(16, CRUMB_PAST_RESOLUTION, "the relative table is asked for a size above the resolution", "Ask for a size up to the resolution, or for the absolute table.")

#define CRUMB_REFUSAL_NAME(number, name, wrong, advice) , name = number
enum crumb_refusal { CRUMB_ANSWERED = 0 CRUMB_REFUSALS(CRUMB_REFUSAL_NAME) };

#ifdef __cplusplus
extern "C" {
#endif

/* The version of the library that is linked, as CRUMB_VERSION_NUMBER has that
 * of the header.
 */
uint64_t crumb_version(void);

/* The scaled word of one length, 1 to the number of columns: the sum, over
 * all sets of that many columns and all ordered pairs of runs (a run with
 * itself included), of the product of the scores. Divided by the square of
 * the number of runs it is the word of the generalized word length pattern.
 *
 * It is never negative. A negative answer is a refusal number, negated:
 *   -1  no column, or more than 24
 *   -2  a level is outside 1..16
 *   -3  the product of the levels is above its limit
 *   -4  the table is empty, not a multiple of the columns, or over 256 runs
 *   -5  an entry is not below its level
 *   -8  the length is outside 1 .. the number of columns
 * The first that applies, in this order, is given.
 *
 * Stack: less than 2 KB.
 */
int64_t crumb_word(const uint8_t *levels, size_t columns,
                   const uint8_t *table, size_t entries,
                   uint64_t length);

/* The listing of a plan text. Every line of the text ends with byte 10 and
 * holds numbers with single commas between them, the levels first and then
 * a line for each run:
 *
 *     2,3
 *     0,0
 *     0,1
 *     1,2
 *
 * The listing has the runs and columns, a line for each word (length,
 * numerator, denominator; a reduced fraction), the strength, the resolution
 * with the largest ratio and the generalized resolution in thousandths, and
 * the run advised for loss. The resolution is the strength + 1, or `none`
 * where the strength is the number of columns. For a text that is
 * refused it is one line, `refused`, the number and its two places; 13 is a
 * text of more than 32,768 bytes, 14 a malformed line, and the others are
 * those above.
 *
 * It goes to the front of `room`, without a byte 0 behind it, and the answer
 * is the number of its bytes, 2048 at most. The room's other bytes stay as
 * they were. Where the room is smaller than the listing the answer is -7 and
 * no byte of the room is written.
 *
 * Stack: less than 256 KB.
 */
int64_t crumb_listing(const uint8_t *text, size_t length,
                      uint8_t *room, size_t bytes);

/* The text of a plan, in the form above: numbers in decimal without leading
 * zeros, single commas between them, byte 10 behind each line. A plan has
 * only one such text, so that writing what was read gives the same bytes.
 *
 * It goes to the front of `room`, without a byte 0 behind it, and the answer
 * is the number of its bytes, 18,504 at most. The room's other bytes stay as
 * they were. A negative answer is a refusal number, negated: -1 to -5 as
 * above, then -7 where the room is smaller than the text. In a refusal no
 * byte of the room is written.
 *
 * Stack: less than 32 KB.
 */
int64_t crumb_write(const uint8_t *levels, size_t columns,
                    const uint8_t *table, size_t entries,
                    uint8_t *room, size_t bytes);

/* The text of the same plan without the runs that were lost. Their numbers
 * are those of the text that comes in, and they are struck one after the
 * other. The new text goes to the front of `room`, and to the front of
 * `numbers` go the original numbers of the runs left, rising: as many as the
 * new text has lines behind the first. The answer is the number of the new
 * text's bytes, 18,504 at most. What is past the text and past the numbers
 * stays as it was. Without a lost run the text comes out as it went in.
 *
 * A negative answer is a refusal number, negated; the first that applies, in
 * this order, is given:
 *   -13, -14, -1 to -5  the text is refused, as above
 *   then, for the first lost run that cannot be struck,
 *   -8  it is not a run of the plan
 *   -9  it was named before
 *   -10 it is the last run standing
 *   and then
 *   -7  the room is smaller than the text, or `places` is below the number
 *       of runs left
 * In a refusal nothing is written to either room.
 *
 * Stack: less than 64 KB.
 */
int64_t crumb_rewrite(const uint8_t *text, size_t length,
                      const size_t *lost, size_t losses,
                      uint8_t *room, size_t bytes,
                      size_t *numbers, size_t places);

/* Whether the runs that stand can tell an effect of `column` from the columns
 * `others` acting together: whether no effect of these could stand in for one
 * of it. `standing` has a byte for each run, 0 where it is struck; no bytes
 * (`runs` 0) where all runs stand. `others` rise, are without `column`, and
 * may be none.
 *
 * The answer is lines, each ended by byte 10; runs, columns and levels by
 * number:
 *
 *     tell 0 1 2        the column, then the others
 *     answer yes        or no
 *     words 8 25        see below
 *     absent 2          a level of the column that no run has
 *     group 0 1 2       levels that the runs can compare, rising
 *     pair 0 4 0 1      runs 0 and 4 agree in the others and have the levels
 *                       0 and 1: what joins a group
 *     cell 0 1 1        only where the answer is no: a combination of levels of
 *                       the others that occurs, behind the lowest level of the
 *                       group that its runs have
 *
 * Yes is shown by the pairs, no by the cells: one group against the others is
 * an effect that the cells repeat in every run. `words` is (s - 1) times the
 * sum of W({column} and K) over all parts K of the others, over the square of
 * the number of runs, reduced; below 1 the published words alone say yes. Yes
 * says nothing of precision: it may rest on two runs.
 *
 * The lines go to the front of `room`, without a byte 0 behind them, and the
 * answer is the number of their bytes, 144,000 at most. The room's other bytes
 * stay as they were. A negative answer is a refusal number, negated; the first
 * that applies, in this order, is given, and nothing is written:
 *   -1 to -5  the plan is refused, as above
 *   -8  the marks are not as many as the runs
 *   -10 no run stands
 *   -8  a column is out of range, `others` do not rise, or `column` is one of
 *       them
 *   -7  the room is smaller than the lines
 *
 * Stack: less than 192 KB.
 */
int64_t crumb_tell(const uint8_t *levels, size_t columns,
                   const uint8_t *table, size_t entries,
                   const uint8_t *standing, size_t runs,
                   uint64_t column, const size_t *others, size_t count,
                   uint8_t *room, size_t bytes);

/* The projection frequency table for size f, 1 to 4 and no more than the
 * columns, of the runs that stand (`standing` as above): the distinct values
 * of all sets of f columns, rising, each with the number of sets that have it.
 * The value of a set is its word over the square of the number of runs; in the
 * relative table, which any `relative` but 0 asks for, that is divided by the
 * smallest level of the set less one (0 where that level is 1). That divisor
 * is derived for sets of R columns, R being the resolution, the smallest length
 * with a word above zero: there the value 1 is complete aliasing. Below R the
 * relative table has only zeros; above R it would say nothing, and is refused.
 * A plan without words is answered at every size.
 *
 * Line k has its numerator in nums[k], its denominator in dens[k] and its
 * count in counts[k], from the front of each room; a value is a reduced
 * fraction. The answer is the number of lines, 10,626 at most. What is past
 * them stays as it was. A negative answer is a refusal number, negated; the
 * first that applies, in this order, is given, and nothing is written:
 *   -1 to -5  the plan is refused, as above
 *   -8  the marks are not as many as the runs
 *   -10 no run stands
 *   -6  f is outside 1..4, or above the number of columns
 *   -16 the relative table is asked for f above R
 *   -7  a room has fewer places than the table has lines
 *
 * Stack: less than 640 KB.
 */
int64_t crumb_table(const uint8_t *levels, size_t columns,
                    const uint8_t *table, size_t entries,
                    const uint8_t *standing, size_t runs,
                    uint64_t f, uint64_t relative,
                    uint64_t *nums, size_t num_places,
                    uint64_t *dens, size_t den_places,
                    uint64_t *counts, size_t count_places);

#ifdef __cplusplus
}
#endif

#endif
