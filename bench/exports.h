/* What the archive of `bench` exports for the benchmark and the tests, beside
 * include/crumbchorus.h. A negative answer is a refusal number, negated.
 */
#ifndef EXPORTS_H
#define EXPORTS_H

#include <stddef.h>
#include <stdint.h>

/* Opens a plan, so many times strikes run 0 and reinstates it, strikes it
 * once more, and answers the word of one length that is then held.
 */
int64_t bench_strikes(const uint8_t *levels, size_t columns, const uint8_t *table, size_t entries, uint64_t length, uint64_t times);

/* The projection frequency table for size f into three lent rooms, and the
 * number of its lines.
 */
int64_t bench_table(const uint8_t *levels, size_t columns, const uint8_t *table, size_t entries, uint64_t f, _Bool relative,
                    uint64_t *nums, size_t nums_room, uint64_t *dens, size_t dens_room, uint64_t *counts, size_t counts_room);

/* W(I) of a set of f columns, by pairs of runs or by counts of combinations. */
int64_t bench_set_word(const uint8_t *levels, size_t columns, const uint8_t *table, size_t entries, uint64_t f,
                       const size_t *set, size_t set_columns, _Bool by_pairs);

/* The words of all sets of f columns, added up, each by pairs of runs or by
 * counts of combinations.
 */
int64_t bench_set_words(const uint8_t *levels, size_t columns, const uint8_t *table, size_t entries, uint64_t f, _Bool by_pairs);

/* Generalized resolution in thousandths. */
int64_t bench_ratio(const uint8_t *levels, size_t columns, const uint8_t *table, size_t entries);

#endif
