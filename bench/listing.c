/* The listing of a plan text: words, strength from counts, the largest ratio
 * over the sets of R columns, and the run with the largest row sums.
 */
#include "algorithms.h"

/* ---- strength: from t = m down, ended by the first set that is not even */

static long combinations(Plan plan, const long *set, long size, long limit)
{
    long product = 1;
    for (long k = 0; k < size && product <= limit; k++)
        product *= plan.levels[set[k]];
    return product;
}

static int is_even(Plan plan, const Runs *runs, const long *set, long size)
{
    uint16_t tallies[MOST_RUNS] = { 0 };
    long product = combinations(plan, set, size, runs->count);
    if (runs->count < product)
        return 0;
    for (long k = 0; k < runs->count; k++)
        tallies[combination(plan, start_of(plan, runs->numbers[k]), set, size)]++;
    for (long k = 1; k < product; k++)
        if (tallies[k] != tallies[0])
            return 0;
    return 1;
}

static int is_balanced(Plan plan, const Runs *runs, long size)
{
    long set[MOST_COLUMNS];
    for (long k = 0; k < binomial(plan.columns, size); k++) {
        set_at(plan.columns, size, k, set);
        if (!is_even(plan, runs, set, size))
            return 0;
    }
    return 1;
}

static long strength(Plan plan, const Runs *runs)
{
    long t = plan.columns;
    while (t > 0 && !is_balanced(plan, runs, t))
        t--;
    return t;
}

/* ---- resolution and the largest ratio */

long resolution_in_c(Plan plan, const long *words)
{
    long j = 1;
    while (j <= plan.columns && words[j - 1] <= 0)
        j++;
    return j;
}

static Fraction largest_over(Plan plan, const Runs *runs, long size, SetWord *word, uint16_t *counters)
{
    Fraction largest = { 0, 1 };
    long set[MOST_COLUMNS];
    for (long k = 0; k < binomial(plan.columns, size); k++) {
        set_at(plan.columns, size, k, set);
        Fraction ratio = value_of(plan, runs, set, size, 1, word(plan, runs, set, size, counters));
        if (compared(largest, ratio) < 0)
            largest = ratio;
    }
    return largest;
}

typedef Fraction LargestRatio(Plan plan, const Runs *runs, long size);

static Fraction largest_ratio(Plan plan, const Runs *runs, long size)
{
    uint16_t counters[COMBINATIONS_AT_RESOLUTION] = { 0 };
    return largest_over(plan, runs, size, word_at_resolution_in_c, counters);
}

/* Before request #109: as for a table. */
static Fraction largest_ratio_before(Plan plan, const Runs *runs, long size)
{
    if (!is_counted(runs->count, size))
        return largest_over(plan, runs, size, set_word_in_c, 0);
    uint16_t counters[COMBINATIONS] = { 0 };
    return largest_over(plan, runs, size, set_word_in_c, counters);
}

static long thousandths(long resolution, Fraction ratio)
{
    uint64_t q = 0;
    while (q < 1000 && q * q * ratio.den < 1000000 * ratio.num)
        q++;
    return 1000 * (resolution + 1) - (long)q;
}

static long ratio_by(LargestRatio *largest, Plan plan, long n)
{
    long words[MOST_COLUMNS];
    Runs runs;
    every_run(n, &runs);
    words_in_c(plan, &runs, words);
    long size = resolution_in_c(plan, words);
    return size > plan.columns ? -11 : thousandths(size, largest(plan, &runs, size));
}

long ratio_in_c(Plan plan, long n)
{
    return ratio_by(largest_ratio, plan, n);
}

long ratio_before_in_c(Plan plan, long n)
{
    return ratio_by(largest_ratio_before, plan, n);
}

/* ---- advice */

static int is_larger(const long *row, const long *kept, long columns)
{
    for (long j = 0; j < columns; j++)
        if (row[j] != kept[j])
            return row[j] > kept[j];
    return 0;
}

static long advice(Plan plan, const Runs *runs)
{
    static long rows[MOST_RUNS][MOST_COLUMNS];
    for (long k = 0; k < runs->count; k++)
        row_in_c(plan, runs, runs->numbers[k], rows[runs->numbers[k]]);
    long best = runs->numbers[0];
    for (long k = 1; k < runs->count; k++)
        if (is_larger(rows[runs->numbers[k]], rows[best], plan.columns))
            best = runs->numbers[k];
    return best;
}

/* ---- text */

/* Every number of the text, in its order; answers how many the first line has. */
static long read_numbers(const byte *text, long length, byte *numbers, long *count)
{
    long columns = 0;
    *count = 0;
    for (long at = 0; at < length; at++) {
        byte value = text[at++] - '0';
        if (text[at] >= '0')
            value = value * 10 + (text[at++] - '0');
        numbers[(*count)++] = value;
        if (text[at] == '\n' && columns == 0)
            columns = *count;
    }
    return columns;
}

static byte *write_number(byte *at, uint64_t number)
{
    if (number >= 10)
        at = write_number(at, number / 10);
    *at = '0' + number % 10;
    return at + 1;
}

static byte *write_line(byte *at, const char *name, const uint64_t *fields, long count)
{
    while (*name)
        *at++ = *name++;
    for (long k = 0; k < count; k++) {
        *at = ' ';
        at = write_number(at + 1, fields[k]);
    }
    *at = '\n';
    return at + 1;
}

static byte *write_words(byte *at, const long *words, long columns, uint64_t pairs)
{
    for (long j = 1; j <= columns; j++) {
        Fraction word = reduced((uint64_t)words[j - 1], pairs);
        uint64_t fields[] = { j, word.num, word.den };
        at = write_line(at, "word", fields, 3);
    }
    return at;
}

static byte *write_resolution(byte *at, Plan plan, const Runs *runs, const long *words)
{
    long size = resolution_in_c(plan, words);
    if (size > plan.columns)
        return write_line(at, "resolution none", 0, 0);
    Fraction ratio = largest_ratio(plan, runs, size);
    uint64_t fields[] = { size, ratio.num, ratio.den, thousandths(size, ratio) };
    at = write_line(at, "resolution", fields, 1);
    at = write_line(at, "ratio", fields + 1, 2);
    return write_line(at, "gr", fields + 3, 1);
}

static byte *write_advice(byte *at, Plan plan, const Runs *runs)
{
    if (runs->count < 2)
        return write_line(at, "lose none", 0, 0);
    uint64_t run = advice(plan, runs);
    return write_line(at, "lose", &run, 1);
}

long listing_in_c(const byte *text, long length, byte *room)
{
    static byte numbers[16384];
    long count, columns = read_numbers(text, length, numbers, &count);
    Plan plan = { numbers, numbers + columns, columns };
    long words[MOST_COLUMNS];
    Runs runs;
    every_run((count - columns) / columns, &runs);
    words_in_c(plan, &runs, words);
    uint64_t sizes[] = { runs.count, columns }, even = strength(plan, &runs);
    byte *at = write_line(room, "plan", sizes, 2);
    at = write_words(at, words, columns, sizes[0] * sizes[0]);
    at = write_line(at, "strength", &even, 1);
    at = write_resolution(at, plan, &runs, words);
    return write_advice(at, plan, &runs) - room;
}
