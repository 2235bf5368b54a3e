/* Exact ranks of matrices of whole numbers, by elimination without fractions.
 * A row is added to the rows before it, and either the rank grows or the row
 * is a sum of multiples of theirs.
 */
#ifndef RANKS_H
#define RANKS_H

enum { MOST_TERMS = 288 };

typedef struct {
    long rows[MOST_TERMS][MOST_TERMS]; /* each is 0 at the pivots of those before it */
    long pivots[MOST_TERMS];
    long rank, terms;
} Rows;

void start_rows(Rows *rows, long terms);

void add_row(Rows *rows, const long *row);

/* Whether the rank stays the same with this row. */
int rank_stays(const Rows *rows, const long *row);

/* Whether a number has left 64 bits since the program began. */
int ranks_fail(void);

#endif
