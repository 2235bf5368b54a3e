/* Projection frequency tables: the places in turn, each set's word by counts
 * or by pairs, and its value put in its place among rising ones.
 */
#include "algorithms.h"

/* ---- sets of columns by their places */

static long binomials[MOST_COLUMNS + 1][MOST_COLUMNS + 1];

void fill_binomials(void)
{
    for (long a = 0; a <= MOST_COLUMNS; a++)
        for (long b = 0; b <= a; b++)
            binomials[a][b] = b == 0 || b == a ? 1 : binomials[a - 1][b - 1] + binomials[a - 1][b];
}

long binomial(long a, long b)
{
    return binomials[a][b];
}

/* The sets that have the column come first. */
void set_at(long columns, long size, long place, long *set)
{
    long taken = 0;
    for (long column = 0; taken < size; column++) {
        long having = binomials[columns - column - 1][size - taken - 1];
        if (place < having)
            set[taken++] = column;
        else
            place -= having;
    }
}

/* ---- fractions */

Fraction reduced(uint64_t num, uint64_t den)
{
    uint64_t a = num, b = den;
    while (b != 0) {
        uint64_t rest = a % b;
        a = b;
        b = rest;
    }
    Fraction x = { num / a, den / a };
    return x;
}

static int order(uint64_t a, uint64_t b)
{
    return (a > b) - (a < b);
}

/* The products across can pass 64 bits, so the quotients decide first. */
int compared(Fraction x, Fraction y)
{
    uint64_t left = x.num / x.den, right = y.num / y.den;
    if (left != right)
        return order(left, right);
    return order(x.num % x.den * y.den, y.num % y.den * x.den);
}

/* ---- the value of a set */

static long smallest_level(Plan plan, const long *set, long size)
{
    long smallest = plan.levels[set[0]];
    for (long k = 1; k < size; k++)
        if (plan.levels[set[k]] < smallest)
            smallest = plan.levels[set[k]];
    return smallest;
}

Fraction value_of(Plan plan, const Runs *runs, const long *set, long size, int relative, long word)
{
    uint64_t pairs = (uint64_t)(runs->count * runs->count);
    uint64_t less_one = relative ? (uint64_t)smallest_level(plan, set, size) - 1 : 1;
    return reduced((uint64_t)word, pairs * less_one);
}

/* ---- a table: numerators, denominators, counts */

typedef struct {
    Fraction values[MOST_SETS];
    uint64_t counts[MOST_SETS];
    long lines;
} Table;

static long place_of(const Table *table, Fraction value)
{
    for (long k = 0; k < table->lines; k++)
        if (compared(table->values[k], value) >= 0)
            return k;
    return table->lines;
}

static void put_before(Table *table, long at, Fraction value)
{
    for (long k = table->lines; k > at; k--) {
        table->values[k] = table->values[k - 1];
        table->counts[k] = table->counts[k - 1];
    }
    table->values[at] = value;
    table->counts[at] = 1;
    table->lines++;
}

static void count_value(Table *table, Fraction value)
{
    long at = place_of(table, value);
    if (at < table->lines && compared(table->values[at], value) == 0)
        table->counts[at]++;
    else
        put_before(table, at, value);
}

static void tabulate(Plan plan, long n, long size, int relative, uint16_t *counters, Table *table)
{
    long set[MOST_COLUMNS];
    Runs runs;
    every_run(n, &runs);
    table->lines = 0;
    for (long k = 0; k < binomial(plan.columns, size); k++) {
        set_at(plan.columns, size, k, set);
        long word = set_word_in_c(plan, &runs, set, size, counters);
        count_value(table, value_of(plan, &runs, set, size, relative, word));
    }
}

static long copy_lines(const Table *table, uint64_t *nums, uint64_t *dens, uint64_t *counts)
{
    for (long k = 0; k < table->lines; k++) {
        nums[k] = table->values[k].num;
        dens[k] = table->values[k].den;
        counts[k] = table->counts[k];
    }
    return table->lines;
}

static Table table;

long table_by_pairs_in_c(Plan plan, long n, long size, int relative, uint64_t *nums, uint64_t *dens, uint64_t *counts)
{
    tabulate(plan, n, size, relative, 0, &table);
    return copy_lines(&table, nums, dens, counts);
}

long table_in_c(Plan plan, long n, long size, int relative, uint64_t *nums, uint64_t *dens, uint64_t *counts)
{
    if (!is_counted(n, size))
        return table_by_pairs_in_c(plan, n, size, relative, nums, dens, counts);
    uint16_t counters[COMBINATIONS] = { 0 };
    tabulate(plan, n, size, relative, counters, &table);
    return copy_lines(&table, nums, dens, counts);
}
