/* bench_set_word and bench_set_words by the benchmark's engines, in the place
 * of the library's: for errors to be planted in those. What is refused, the
 * reference says.
 */
#include "algorithms.h"
#include "exports.h"

long reference_set_word(const byte *levels, long columns, const byte *table, long entries, unsigned long f,
                        const unsigned long *set, long count);
long reference_set_words(const byte *levels, long columns, const byte *table, long entries, unsigned long f);

static uint16_t counters[COMBINATIONS];

/* All runs, and the plan's resolution. */
static long open_plan(Plan plan, size_t entries, Runs *runs)
{
    long words[MOST_COLUMNS];
    every_run((long)entries / plan.columns, runs);
    words_in_c(plan, runs, words);
    return resolution_in_c(plan, words);
}

/* A set of no more columns than the resolution is also counted as for the largest ratio: -1 where that gives another word. */
static long word(Plan plan, const Runs *runs, const long *set, long size, int by_pairs, long resolution)
{
    long word = set_word_in_c(plan, runs, set, size, by_pairs ? 0 : counters);
    return size > resolution || word_at_resolution_in_c(plan, runs, set, size, counters) == word ? word : -1;
}

int64_t bench_set_word(const uint8_t *levels, size_t columns, const uint8_t *table, size_t entries, uint64_t f,
                       const size_t *set, size_t set_columns, _Bool by_pairs)
{
    Plan plan = { levels, table, (long)columns };
    long kept[MOST_COUNTED], refused = reference_set_word(levels, plan.columns, table, (long)entries, f, set, (long)set_columns);
    if (refused < 0)
        return refused;
    for (uint64_t k = 0; k < f; k++)
        kept[k] = (long)set[k];
    Runs runs;
    long resolution = open_plan(plan, entries, &runs);
    return word(plan, &runs, kept, (long)f, by_pairs, resolution);
}

int64_t bench_set_words(const uint8_t *levels, size_t columns, const uint8_t *table, size_t entries, uint64_t f, _Bool by_pairs)
{
    Plan plan = { levels, table, (long)columns };
    long set[MOST_COUNTED], sum = 0, refused = reference_set_words(levels, plan.columns, table, (long)entries, f);
    if (refused < 0)
        return refused;
    Runs runs;
    long resolution = open_plan(plan, entries, &runs);
    fill_binomials();
    for (long k = 0; k < binomial(plan.columns, (long)f); k++) {
        set_at(plan.columns, (long)f, k, set);
        sum += word(plan, &runs, set, (long)f, by_pairs, resolution);
    }
    return sum;
}
