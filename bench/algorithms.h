/* The library's algorithms in C, for the benchmark. They take accepted plans
 * and well-formed text alone: nothing is checked.
 */
#ifndef ALGORITHMS_H
#define ALGORITHMS_H

#include <stddef.h>
#include <stdint.h>

typedef uint8_t byte;

enum { MOST_COLUMNS = 24, MOST_RUNS = 256, MOST_SETS = 10626 };

/* Words of sets are worked out by counts where the set has so many columns at most and the plan so many runs at least. */
enum { MOST_COUNTED = 4, FEW_RUNS = 16, COMBINATIONS = 65536 };

/* A set of as many columns as the resolution has so many combinations at most: all its columns but one are even, so that the
 * product of their levels divides the runs. */
enum { COMBINATIONS_AT_RESOLUTION = 16 * MOST_RUNS };

/* By value, so that no store through a pointer can be one to its fields. */
typedef struct {
    const byte *levels, *table;
    long columns;
} Plan;

/* Some runs of a plan, by their numbers. */
typedef struct {
    long numbers[MOST_RUNS];
    long count;
} Runs;

typedef struct {
    uint64_t num, den;
} Fraction;

static inline long score(byte level, byte a, byte b)
{
    return a == b ? level - 1 : -1;
}

static inline const byte *start_of(Plan plan, long run)
{
    return plan.table + run * plan.columns;
}

/* The number of the combination that a run shows in a set. */
static inline long combination(Plan plan, const byte *run, const long *set, long size)
{
    long number = 0;
    for (long k = 0; k < size; k++)
        number = number * plan.levels[set[k]] + run[set[k]];
    return number;
}

/* words.c: rooms for 24 numbers, length 1 first */
void every_run(long n, Runs *runs);
void row_in_c(Plan plan, const Runs *runs, long run, long *row);
void words_in_c(Plan plan, const Runs *runs, long *words);
void words_by_rows_in_c(Plan plan, const Runs *runs, long *words);
void diagonal_in_c(Plan plan, long *diagonal);

/* strikes.c: as bench_strikes */
long strikes_in_c(Plan plan, long n, long length, long times);

/* sets.c: W(I); the counters are all zero before and after */
typedef long SetWord(Plan plan, const Runs *runs, const long *set, long size, uint16_t *counters);
int is_counted(long n, long size);
SetWord set_word_in_c;           /* by counts where there are counters, else by pairs */
SetWord word_at_resolution_in_c; /* of a set of which every smaller part but the empty one has word 0 */

/* tables.c */
void fill_binomials(void);
long binomial(long a, long b);
void set_at(long columns, long size, long place, long *set);
Fraction reduced(uint64_t num, uint64_t den);
int compared(Fraction x, Fraction y); /* below, at or above zero */
Fraction value_of(Plan plan, const Runs *runs, const long *set, long size, int relative, long word);
long table_in_c(Plan plan, long n, long size, int relative, uint64_t *nums, uint64_t *dens, uint64_t *counts);
long table_by_pairs_in_c(Plan plan, long n, long size, int relative, uint64_t *nums, uint64_t *dens, uint64_t *counts);

/* listing.c: as bench_ratio and crumb_listing, with a room for 2048 bytes */
long resolution_in_c(Plan plan, const long *words);
long ratio_in_c(Plan plan, long n);
long ratio_before_in_c(Plan plan, long n);
long listing_in_c(const byte *text, long length, byte *room);

/* tell.c: as crumb_tell with all runs standing, with a room for 144000 bytes */
long tell_in_c(Plan plan, long n, long column, const size_t *others, long count, byte *room);

#endif
