/* Source document 002: runs removed from an orthogonal array. */
#include "sources.h"

/* ---- section 4.1: OA(12, 2^5), which the paper prints */

enum { RUNS = 12, COLUMNS = 5 };

/* Table 1: A_1 to A_5 without the run f_1, f_2 and so on. */
static const double table1[RUNS][COLUMNS] = {
    { 0.041, 0.083, 1.14, 0.636, 0.008 },  { 0.041, 0.083, 1.14, 0.636, 0.008 }, { 0.041, 0.083, 1.405, 0.372, 0.008 },
    { 0.041, 0.083, 1.14, 0.636, 0.008 },  { 0.041, 0.083, 1.14, 0.636, 0.008 }, { 0.041, 0.083, 1.14, 0.636, 0.008 },
    { 0.041, 0.083, 1.14, 0.636, 0.008 },  { 0.041, 0.083, 1.14, 0.636, 0.008 }, { 0.041, 0.083, 1.14, 0.636, 0.008 },
    { 0.041, 0.083, 1.405, 0.372, 0.008 }, { 0.041, 0.083, 1.14, 0.636, 0.008 }, { 0.041, 0.083, 1.14, 0.636, 0.008 },
};

static void one_run_removed(const Plan *array)
{
    table_begins("002 Table 1");
    for (long k = 0; k < RUNS * COLUMNS; k++) {
        long f = k / COLUMNS, length = k % COLUMNS + 1;
        Plan rest = without(array, &f, 1);
        same_decimal("a word without one run", word(&rest, length), table1[f][length - 1], 3);
    }
    table_ends();
}

/* Table 2: W_3(f, g), then w_{3,f}. By document 01 the entry of row 3 under f_11 is misprinted; the text of the paper from which
 * this was copied has 2 there, which is right. */
static const long table2[RUNS][RUNS + 1] = {
    { 10, -2, -2, -2, 2, 2, 2, -2, 2, 2, 2, 2, 22 },
    { -2, 10, 2, 2, -2, 2, -2, 2, 2, -2, 2, 2, 22 },
    { -2, 2, 10, -2, 2, -2, 2, -2, -2, -10, 2, 2, -10 },
    { -2, 2, -2, 10, 2, -2, 2, 2, 2, 2, -2, 2, 22 },
    { 2, -2, 2, 2, 10, -2, 2, 2, 2, -2, 2, -2, 22 },
    { 2, 2, -2, -2, -2, 10, 2, 2, -2, 2, 2, 2, 22 },
    { 2, -2, 2, 2, 2, 2, 10, 2, -2, -2, -2, 2, 22 },
    { -2, 2, -2, 2, 2, 2, 2, 10, -2, 2, 2, -2, 22 },
    { 2, 2, -2, 2, 2, -2, -2, -2, 10, 2, 2, 2, 22 },
    { 2, -2, -10, 2, -2, 2, -2, 2, 2, 10, -2, -2, -10 },
    { 2, 2, 2, -2, 2, 2, -2, 2, 2, -2, 10, -2, 22 },
    { 2, 2, 2, 2, -2, 2, 2, -2, 2, -2, -2, 10, 22 },
};

/* W_j(f, g). The scaled word of f alone is W_j(f, f); that of f and g together has W_j(f, f), W_j(g, g), which is the same number,
 * and W_j(f, g) twice. */
static long pair_sum(const Plan *array, long f, long g, long length)
{
    Plan pair = { COLUMNS, 1, { 2, 2, 2, 2, 2 }, { 0 } };
    long one = scaled_word(&pair, length);
    if (f == g)
        return one;
    pair.runs = 2;
    for (long i = 0; i < COLUMNS; i++) {
        pair.table[i] = array->table[f * COLUMNS + i];
        pair.table[COLUMNS + i] = array->table[g * COLUMNS + i];
    }
    return (scaled_word(&pair, length) - 2 * one) / 2;
}

static void pairs_of_runs(const Plan *array)
{
    table_begins("002 Table 2");
    for (long k = 0; k < RUNS * RUNS; k++)
        same_number("an entry of W_3", pair_sum(array, k / RUNS, k % RUNS, 3), table2[k / RUNS][k % RUNS]);
    for (long f = 0; f < RUNS; f++) {
        Plan rest = without(array, &f, 1);
        same_number("w_{3,f}", scaled_word(array, 3) - scaled_word(&rest, 3), table2[f][RUNS]);
    }
    table_ends();
}

/* How many fractions with one run removed have A_3 printed as this. */
static long with_third_word(const Plan *array, long thousandths)
{
    long count = 0;
    for (long f = 0; f < RUNS; f++) {
        Plan rest = without(array, &f, 1);
        long n2 = rest.runs * rest.runs;
        count += (2000 * scaled_word(&rest, 3) + n2) / (2 * n2) == thousandths;
    }
    return count;
}

/* The first word without f_1 and another run: the least, and the runs that give it, a bit each. */
static long least_after_f1(const Plan *array, long *runs)
{
    long least = -1;
    for (long g = 1; g < RUNS; g++) {
        long pair[2] = { 0, g };
        Plan rest = without(array, pair, 2);
        long first = scaled_word(&rest, 1);
        if (least < 0 || first < least)
            least = first, *runs = 0;
        if (first == least)
            *runs |= 1L << g;
    }
    return least;
}

/* "The best possible choices for the second point would be f_6 or f_9", with A_1 = 0.04; without f_3 and f_10 A_1 = 0. The advice
 * takes the same way: any of ten runs first, which is f_1, and then f_6, run 4 of the eleven that are left. */
static void run_after_run(const Plan *array)
{
    static const long f1 = 0, f3_f10[2] = { 2, 9 };
    long runs = 0;
    Fraction least = { least_after_f1(array, &runs), 10 * 10 };
    same_decimal("A_1 without f_1 and f_6 or f_9", least, 0.04, 2);
    same_number("f_6 and f_9", runs, 1L << 5 | 1L << 8);
    Plan best = without(array, f3_f10, 2), second = without(array, &f1, 1);
    same_number("A_1 without f_3 and f_10", scaled_word(&best, 1), 0);
    must_be("the run to lose first", listing(array).lose, 0);
    must_be("the run to lose second", listing(&second).lose, 4);
}

static void section_4_1(const Plan *array)
{
    static const long f1 = 0;
    Plan rest = without(array, &f1, 1);
    table_begins("002 section 4.1");
    same_number("strength", listing(array).strength, 2);
    same_number("A_1", scaled_word(array, 1), 0);
    same_number("A_2", scaled_word(array, 2), 0);
    same_decimal("A_3", word(array, 3), 1.111, 3);
    same_decimal("A_4", word(array, 4), 0.5556, 4);
    same_number("A_5", scaled_word(array, 5), 0);
    same_number("A_1 without a run, over 11 squared", scaled_word(&rest, 1), 5);
    same_number("A_2 without a run, over 11 squared", scaled_word(&rest, 2), 10);
    same_number("fractions with A_3 = 1.140", with_third_word(array, 1140), 10);
    same_number("fractions with A_3 = 1.405", with_third_word(array, 1405), 2);
    run_after_run(array);
    table_ends();
}

/* ---- two formulas */

/* Equation (11), for f_1 and A_3: the last sum, over g other than f, has to be taken twice, for (f, g) and for (g, f), as equation (13)
 * does. */
static void equation_11(const Plan *array)
{
    static const long f1 = 0;
    Plan rest = without(array, &f1, 1);
    long alone = scaled_word(&rest, 3) + pair_sum(array, f1, f1, 3), others = 0;
    for (long g = 1; g < RUNS; g++)
        others += pair_sum(array, f1, g, 3);
    misprinted_number("n² A_3 by (11)", scaled_word(array, 3), alone + others, alone + 2 * others);
}

/* Equation (16), for W_3(f_1, f_1): W_j is W_1 W_(j-1) - (m - j + 2) W_(j-2), divided by j. The paper has a factor j - 1 more and divides
 * by the factorial of j: its proof takes the sum over different i_2 to i_j, which has each set (j - 1)! times, for W_(j-1). */
static void equation_16(const Plan *array)
{
    long first = pair_sum(array, 0, 0, 1), second = pair_sum(array, 0, 0, 2), third = pair_sum(array, 0, 0, 3);
    misprinted_number("6 W_3(f_1, f_1) by (16)", 6 * third, first * second - 2 * 4 * first, 2 * (first * second - 4 * first));
    for (long k = 0; k < RUNS * RUNS * 3; k++) {
        long f = k / 3 / RUNS, g = k / 3 % RUNS, j = k % 3 + 3;
        long longer = pair_sum(array, f, g, 1) * pair_sum(array, f, g, j - 1);
        must_be("(16) mended", j * pair_sum(array, f, g, j), longer - (COLUMNS - j + 2) * pair_sum(array, f, g, j - 2));
    }
}

static void formulas(const Plan *array)
{
    table_begins("002 equations 11 and 16");
    equation_11(array);
    equation_16(array);
    table_ends();
}

/* ---- tables 3 to 5: the different patterns that p removed runs leave */

enum { MOST_PATTERNS = 32, MOST_WORDS = 6, MOST_REMOVED = 3 };

typedef struct {
    long words[MOST_COLUMNS], fractions;
} Pattern;

static Pattern patterns[MOST_PATTERNS];
static long pattern_count;

/* Below 0, 0 or above 0 as the first pattern stands before, with or behind the second by generalized minimum aberration. */
static long order(const long *a, const long *b, long columns)
{
    long j = 0;
    while (j < columns - 1 && a[j] == b[j])
        j++;
    return a[j] - b[j];
}

static void count_pattern(const Pattern *found, long columns)
{
    long k = 0;
    while (k < pattern_count && order(patterns[k].words, found->words, columns) < 0)
        k++;
    if (k < pattern_count && order(patterns[k].words, found->words, columns) == 0) {
        patterns[k].fractions++;
        return;
    }
    for (long l = pattern_count < MOST_PATTERNS ? pattern_count++ : MOST_PATTERNS - 1; l > k; l--)
        patterns[l] = patterns[l - 1];
    if (k < MOST_PATTERNS)
        patterns[k] = *found;
}

static void find_patterns(const Plan *array, long removed)
{
    long runs[MOST_REMOVED];
    pattern_count = 0;
    first_set(runs, removed);
    do {
        Plan rest = without(array, runs, removed);
        Pattern found = { { 0 }, 1 };
        for (long j = 0; j < array->columns; j++)
            found.words[j] = scaled_word(&rest, j + 1);
        count_pattern(&found, array->columns);
    } while (next_set(runs, removed, array->runs));
}

typedef struct {
    long removed, fractions;
    double words[MOST_WORDS];
} Row;

static void compare_row(const Row *row, const Pattern *found, const long *lengths, long count, long runs)
{
    same_number("N", found->fractions, row->fractions);
    for (long k = 0; k < count; k++) {
        Fraction a = { found->words[lengths[k] - 1], (runs - row->removed) * (runs - row->removed) };
        same_decimal("a word", a, row->words[k], 3);
    }
}

/* The rows for each p stand in the order of the criterion, best first. */
static void compare_rows(const char *name, const char *text, const Row *rows, long row_count, const long *lengths, long count)
{
    Plan array = plan_of(text);
    long place = 0;
    table_begins(name);
    for (long k = 0; k < row_count; k++) {
        int begins = k == 0 || rows[k].removed != rows[k - 1].removed;
        if (begins)
            find_patterns(&array, rows[k].removed);
        place = begins ? 0 : place + 1;
        compare_row(&rows[k], &patterns[place], lengths, count, array.runs);
        if (k + 1 == row_count || rows[k + 1].removed != rows[k].removed)
            must_be("patterns", pattern_count, place + 1);
    }
    table_ends();
}

/* Table 3: the Plackett-Burman array is named and not printed; this is the cyclic one. */
static void table_3(void)
{
    static const long lengths[5] = { 1, 2, 3, 10, 11 };
    static const Row rows[3] = {
        { 1, 12, { 0.091, 0.455, 19.545, 0.091, 1 } },
        { 2, 66, { 0.2, 1, 21, 0.2, 1 } },
        { 3, 220, { 0.333, 1.667, 22.778, 0.333, 1 } },
    };
    compare_rows("002 Table 3", "pb12", rows, 3, lengths, 5);
}

/* Table 4: OA(18, 2^1 3^3) is not printed. Of the choices of three 3-level columns of L18, with its 2-level column, those that give
 * the published figures are 1 2 4 8, which is used here, 1 2 5 8, 1 3 6 7 and 1 4 5 8, counted from 1. */
static void table_4(void)
{
    static const long lengths[4] = { 1, 2, 3, 4 };
    static const Row rows[6] = {
        { 1, 18, { 0.024, 0.062, 0.567, 1.522 } }, { 2, 27, { 0.023, 0.188, 0.617, 1.547 } }, { 2, 18, { 0.039, 0.141, 0.664, 1.531 } },
        { 2, 27, { 0.047, 0.117, 0.688, 1.523 } }, { 2, 54, { 0.063, 0.117, 0.641, 1.555 } }, { 2, 27, { 0.07, 0.117, 0.617, 1.57 } },
    };
    compare_rows("002 Table 4", "l18-1248", rows, 6, lengths, 4);
}

/* Table 5: OA(16, 2^4 4^2) is not printed. Here the runs are the combinations of a, b, c, d; the 4-level columns are (a, b) and
 * (c, d), so that they stand for the 2-level columns a, b, ab and c, d, cd; the 2-level columns are ac, bc, abd and abcd, the
 * first choice among the nine that are left which gives the published figures. */
static void table_5(void)
{
    static const long lengths[6] = { 1, 2, 3, 4, 5, 6 };
    static const Row rows[6] = {
        { 1, 16, { 0.044, 0.173, 6.311, 8.316, 0.187, 1.036 } }, { 2, 8, { 0.041, 0.551, 6.449, 8.796, 0.367, 1.082 } },
        { 2, 32, { 0.082, 0.388, 6.694, 8.633, 0.408, 1.082 } }, { 2, 32, { 0.102, 0.327, 6.735, 8.673, 0.347, 1.102 } },
        { 2, 32, { 0.102, 0.367, 6.653, 8.673, 0.429, 1.061 } }, { 2, 16, { 0.122, 0.347, 6.612, 8.714, 0.449, 1.041 } },
    };
    compare_rows("002 Table 5", "oa16-mixed", rows, 6, lengths, 6);
}

void source_002(void)
{
    Plan array = plan_of("oa12");
    section_4_1(&array);
    one_run_removed(&array);
    pairs_of_runs(&array);
    formulas(&array);
    table_3();
    table_4();
    table_5();
}
