/* Plans for the comparison with the published tables: read from plan texts,
 * cut down to some of their columns or runs, and put to the library.
 */
#ifndef PUBLISHED_PLAN_H
#define PUBLISHED_PLAN_H

typedef unsigned char byte;

enum { MOST_COLUMNS = 24, MOST_RUNS = 256 };

typedef struct {
    long num, den;
} Fraction;

typedef struct {
    long columns, runs;
    byte levels[MOST_COLUMNS], table[MOST_RUNS * MOST_COLUMNS];
} Plan;

/* What the listing says below its words; -1 where it says none. */
typedef struct {
    long strength, resolution, thousandths, lose;
    Fraction ratio;
} Listing;

/* The folder of the plan texts, then a plan by the name of its text without `.txt`. */
void plans_stand_in(const char *folder);
Plan plan_of(const char *name);

/* Columns and runs are counted from 0 and rise. */
Plan projected(const Plan *plan, const long *columns, long count);
Plan without(const Plan *plan, const long *runs, long count);

/* W_j, and A_j over n². A refusal is below zero and agrees with no published figure. */
long scaled_word(const Plan *plan, long length);
Fraction word(const Plan *plan, long length);
Listing listing(const Plan *plan);

/* The sets of `size` numbers below `of`, in dictionary order. */
void first_set(long *set, long size);
int next_set(long *set, long size, long of);

#endif
