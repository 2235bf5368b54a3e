/* W(I) of sets of columns, by both of the library's engines, and the words of
 * all sets of a size, added up.
 */
#ifndef TRIAL_SETS_H
#define TRIAL_SETS_H

#include "tried.h"

long bench_set_word(const byte *levels, size columns, const byte *table, size entries, unsigned long f,
                    const size *set, size set_columns, _Bool by_pairs);
long bench_set_words(const byte *levels, size columns, const byte *table, size entries, unsigned long f, _Bool by_pairs);

void generated_sets(long rounds);
void sets_at_limits(int full);

/* A set, or a size, of a plan with two damages: those of the columns are numbered from PLAN_DAMAGES. */
void damaged_set(int a, int b);
void damaged_set_words(int a, int b);

#endif
