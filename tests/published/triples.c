#include "triples.h"

enum { MOST_TRIPLES = 2024, SHARES = 6 }; /* a multiple of s - 1 for the levels 2, 3 and 4 */

static const Plan *looked_at;
static long triples[MOST_TRIPLES][3], words[MOST_TRIPLES], count;

void look_at_triples(const Plan *plan)
{
    long set[3];
    looked_at = plan;
    count = 0;
    first_set(set, 3);
    do {
        Plan part = projected(plan, set, 3);
        for (long k = 0; k < 3; k++)
            triples[count][k] = set[k];
        words[count++] = scaled_word(&part, 3);
    } while (next_set(set, 3, plan->columns));
}

static long smallest_level(const long *set)
{
    long smallest = looked_at->levels[set[0]];
    for (long k = 1; k < 3; k++)
        if (looked_at->levels[set[k]] < smallest)
            smallest = looked_at->levels[set[k]];
    return smallest;
}

static Fraction value(int kind, long triple)
{
    long divisor = kind == RELATIVE ? smallest_level(triples[triple]) - 1 : 1;
    Fraction v = { words[triple], looked_at->runs * looked_at->runs * divisor };
    return v;
}

static long sets_with(int kind, long num, long den)
{
    long sets = 0;
    for (long k = 0; k < count; k++) {
        Fraction v = value(kind, k);
        sets += v.num * den == num * v.den;
    }
    return sets;
}

/* How many sets a misprinted line has to have at the value that it prints: none where that value is the misprint. */
static long right_sets(const PrintedLine *line)
{
    return line->right.num * line->den == line->num * line->right.den ? line->right.sets : 0;
}

/* The number of sets that the line has to have. */
static long compare_line(int kind, const PrintedLine *line)
{
    const char *what = kind == RELATIVE ? "sets with a relative value" : "sets with a value";
    const Line *right = &line->right;
    long sets = sets_with(kind, line->num, line->den);
    if (right->den == 0) {
        same_number(what, sets, line->sets);
        return line->sets;
    }
    misprinted_number(what, sets, line->sets, right_sets(line));
    must_be(what, sets_with(kind, right->num, right->den), right->sets);
    return right->sets;
}

void compare_lines(int kind, const PrintedLine *lines, long line_count)
{
    long sets = 0;
    for (long k = 0; k < line_count; k++)
        sets += compare_line(kind, &lines[k]);
    must_be("sets of three columns", count, sets);
}

static int within(long columns, const long *set)
{
    long bits = 1L << set[0] | 1L << set[1] | 1L << set[2];
    return (columns & bits) == bits;
}

long word_within(long columns)
{
    long sum = 0;
    for (long k = 0; k < count; k++)
        sum += within(columns, triples[k]) ? words[k] : 0;
    return sum;
}

static long shares(long triple)
{
    return words[triple] * (SHARES / (smallest_level(triples[triple]) - 1));
}

Fraction relative_sum_within(long columns)
{
    Fraction sum = { 0, SHARES * looked_at->runs * looked_at->runs };
    for (long k = 0; k < count; k++)
        sum.num += within(columns, triples[k]) ? shares(k) : 0;
    return sum;
}

Fraction largest_within(long columns)
{
    Fraction largest = { 0, SHARES * looked_at->runs * looked_at->runs };
    for (long k = 0; k < count; k++)
        if (within(columns, triples[k]) && shares(k) > largest.num)
            largest.num = shares(k);
    return largest;
}

Fraction relative_sum(void)
{
    return relative_sum_within(-1);
}

Fraction factor_ratio(long column)
{
    Fraction largest = { 0, looked_at->runs * looked_at->runs * (looked_at->levels[column] - 1) };
    for (long k = 0; k < count; k++)
        if ((triples[k][0] == column || triples[k][1] == column || triples[k][2] == column) && words[k] > largest.num)
            largest.num = words[k];
    return largest;
}
