/* W(I), the word of a set of columns, in three ways: by every pair of different
 * runs once, counted double, and the pairs of a run with itself; by counts of
 * the combinations in every part of the set, the empty one included; or by those
 * of the whole set and of the empty part alone.
 */
#include "algorithms.h"

/* ---- by pairs */

static long pair_product(Plan plan, const byte *a, const byte *b, const long *set, long size)
{
    long product = 1;
    for (long k = size; k-- > 0;)
        product *= score(plan.levels[set[k]], a[set[k]], b[set[k]]);
    return product;
}

static long later_products(Plan plan, const Runs *runs, long at, const long *set, long size)
{
    const byte *a = start_of(plan, runs->numbers[at]);
    long total = 0;
    for (long k = runs->count; k-- > at + 1;)
        total += pair_product(plan, a, start_of(plan, runs->numbers[k]), set, size);
    return total;
}

static long word_by_pairs(Plan plan, const Runs *runs, const long *set, long size)
{
    long word = 0;
    for (long k = runs->count; k-- > 0;) {
        const byte *a = start_of(plan, runs->numbers[k]);
        word += 2 * later_products(plan, runs, k, set, size) + pair_product(plan, a, a, set, size);
    }
    return word;
}

/* ---- by counts */

/* The runs' entries in the set's columns, column after column. */
typedef struct {
    long runs, columns, levels[MOST_COUNTED];
    byte digits[MOST_COUNTED * MOST_RUNS];
} Turned;

static void turn(Plan plan, const Runs *runs, const long *set, long size, Turned *turned)
{
    turned->runs = runs->count;
    turned->columns = size;
    for (long t = 0; t < size; t++) {
        turned->levels[t] = plan.levels[set[t]];
        for (long k = 0; k < runs->count; k++)
            turned->digits[t * runs->count + k] = start_of(plan, runs->numbers[k])[set[t]];
    }
}

/* The squares of how often each number occurs, added up: one that was met c times before adds 2c + 1. */
static long squares(const uint16_t *numbers, long n, uint16_t *counters)
{
    long total = 0;
    for (long k = n; k-- > 0;)
        total += 2 * counters[numbers[k]]++ + 1;
    for (long k = 0; k < n; k++)
        counters[numbers[k]]--;
    return total;
}

static void longer(const uint16_t *numbers, long level, const byte *digits, long n, uint16_t *room)
{
    for (long k = 0; k < n; k++)
        room[k] = (uint16_t)(numbers[k] * level + digits[k]);
}

/* Over the parts of the columns from this one on; the numbers are those of the combinations in the columns taken before. */
static long over_parts(const Turned *turned, long column, const uint16_t *numbers, long weight, uint16_t *counters)
{
    uint16_t taken[MOST_RUNS];
    if (column == turned->columns)
        return weight * squares(numbers, turned->runs, counters);
    long level = turned->levels[column];
    longer(numbers, level, turned->digits + column * turned->runs, turned->runs, taken);
    return over_parts(turned, column + 1, taken, -level * weight, counters)
        + over_parts(turned, column + 1, numbers, weight, counters);
}

static long word_by_counts(Plan plan, const Runs *runs, const long *set, long size, uint16_t *counters)
{
    static const uint16_t zeros[MOST_RUNS];
    Turned turned;
    turn(plan, runs, set, size, &turned);
    return over_parts(&turned, 0, zeros, size % 2 == 0 ? 1 : -1, counters);
}

/* ---- by counts of the whole set */

static long product_of_levels(Plan plan, const long *set, long size)
{
    long product = 1;
    for (long k = 0; k < size; k++)
        product *= plan.levels[set[k]];
    return product;
}

long word_at_resolution_in_c(Plan plan, const Runs *runs, const long *set, long size, uint16_t *counters)
{
    uint16_t numbers[MOST_RUNS];
    long total = 0;
    for (long k = 0; k < runs->count; k++) {
        numbers[k] = (uint16_t)combination(plan, start_of(plan, runs->numbers[k]), set, size);
        total += 2 * counters[numbers[k]]++ + 1;
    }
    for (long k = 0; k < runs->count; k++)
        counters[numbers[k]]--;
    return product_of_levels(plan, set, size) * total - runs->count * runs->count;
}

/* ---- which of the first two */

int is_counted(long n, long size)
{
    return size <= MOST_COUNTED && n >= FEW_RUNS;
}

long set_word_in_c(Plan plan, const Runs *runs, const long *set, long size, uint16_t *counters)
{
    return counters ? word_by_counts(plan, runs, set, size, counters) : word_by_pairs(plan, runs, set, size);
}
