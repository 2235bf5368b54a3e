/* The projections of a plan onto three columns, and the published tables of
 * them.
 */
#ifndef PUBLISHED_TRIPLES_H
#define PUBLISHED_TRIPLES_H

#include "tally.h"

/* So many sets of three columns have this value. */
typedef struct {
    long num, den, sets;
} Line;

/* A line as the source prints it; `right` is how it has to be where that is a misprint, and otherwise zero. */
typedef struct {
    long num, den, sets;
    Line right;
} PrintedLine;

enum { ABSOLUTE, RELATIVE };

/* The words of all sets of three columns. What follows is about the plan looked at last. */
void look_at_triples(const Plan *plan);

/* Every line, and that no set has another value. */
void compare_lines(int kind, const PrintedLine *lines, long count);

/* rA_3: the sum of the relative values. */
Fraction relative_sum(void);

/* Of a choice of columns, a bit for each: W_3, rA_3 and the largest relative value. */
long word_within(long columns);
Fraction relative_sum_within(long columns);
Fraction largest_within(long columns);

/* The largest word of the sets that hold this column, over its level less 1 (003, Definition 5). */
Fraction factor_ratio(long column);

#endif
