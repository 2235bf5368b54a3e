/* What is timed, by the library and in C: each works on the plan that was made
 * last, and answers a number that tells whether the two agree.
 */
#ifndef WORKS_H
#define WORKS_H

/* The plan's runs and columns, the size of a table, and the rounds of strikes. */
extern long n, m, size, times_struck;

/* Any entries: four columns of three levels, the others of two. */
void make_any(long runs, long columns);

/* Two levels and strength R - 1, with its text; as many columns as there are, where those are fewer. */
void make_with_resolution(long resolution, long runs, long columns);

/* The word of length 3: of all runs, in C also by every ordered pair of them; of
 * all but run 0, which was struck after so many rounds; and of all but run 0,
 * counted anew.
 */
long word_of_library(void), word_of_c(void), word_by_rows_of_c(void);
long strikes_of_library(void), strikes_of_c(void);
long recount_of_library(void), recount_of_c(void);

long table_of_library(void), table_of_c(void), table_by_pairs_of_c(void);
long set_words_by_counts(void), set_words_by_pairs(void); /* both of the library */
long ratio_of_library(void), ratio_of_c(void), ratio_before_of_c(void);
long listing_of_library(void), listing_of_c(void);

/* For `tell`, column 0 against all others: all runs in one cell with 15 of 16 levels; no two runs in one cell; all levels joined by the first runs. */
void make_one_cell(void), make_no_pair(void), make_soon_joined(void);
long tell_of_library(void), tell_of_c(void);

#endif
