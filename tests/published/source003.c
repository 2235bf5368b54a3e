/* Source document 003: words of three columns and generalized resolution. R² values and canonical correlations, and the resolutions
 * made from them (GR_ind), are outside document 01 and not compared. */
#include "sources.h"

static void same_gr(const Plan *plan, double printed)
{
    Listing said = listing(plan);
    same_resolution("GR", said.resolution, said.ratio, printed, 2);
}

/* A_3 of three columns as a fraction, and GR. The words before it are zero: the array is orthogonal. */
static void compare_array(const char *text, long num, long den, double resolution)
{
    Plan array = plan_of(text);
    Fraction third = word(&array, 3);
    must_be("A_1", scaled_word(&array, 1), 0);
    must_be("A_2", scaled_word(&array, 2), 0);
    same_number("A_3", third.num * den, num * third.den);
    same_gr(&array, resolution);
}

/* ---- the examples 1 to 4, with tables 1 and 2 */

static void examples_1_to_4(void)
{
    table_begins("003 Examples 1 to 4");
    compare_array("oa9", 2, 1, 3);
    compare_array("oa18-partial", 4, 9, 3.33);
    compare_array("oa8", 1, 1, 3);
    table_ends();
}

/* Table 1. A misprint: B has 1 seven times and 2 five times, so that the array as printed is not even balanced, and its A_3 is not the
 * 4/9 of Example 2. With 2 for B in run 13 it is orthogonal and has A_3 = 4/9. (Run 8 is the same run: changing it instead gives the
 * same eighteen runs.) */
static void table_1(void)
{
    Plan mended = plan_of("oa18-partial"), printed = mended;
    long entry = 12 * printed.columns + 1;
    printed.table[entry] = 1;
    table_begins("003 Table 1");
    must_be("the printed array is balanced", scaled_word(&printed, 1) == 0, 0);
    must_be("strength", listing(&mended).strength, 2);
    misprinted_number("B in run 13", mended.table[entry], printed.table[entry], 2);
    table_ends();
}

/* Section 5: Table 2's GR_tot, from the averages over the three columns, is 3.12. */
static void table_2(void)
{
    Plan array = plan_of("oa8");
    Fraction third = word(&array, 3), average = { 0, 9 * third.den };
    table_begins("003 Table 2");
    for (long i = 0; i < 3; i++)
        average.num += 3 * third.num / (array.levels[i] - 1);
    same_resolution("GR_tot", 3, average, 3.12, 2);
    table_ends();
}

/* ---- tables 5 and 7: how often each combination of A, B, C occurs. A string for each C, a group for each A, a digit for each B. */

static long occurrences(const Plan *plan, long a, long b, long c)
{
    long times = 0;
    for (const byte *run = plan->table; run < plan->table + 3 * plan->runs; run += 3)
        times += run[0] == a && run[1] == b && run[2] == c;
    return times;
}

static void compare_frequencies(const Plan *plan, const char *const *printed, long level)
{
    for (long k = 0; k < level * level * level; k++) {
        long c = k / (level * level), a = k / level % level, b = k % level;
        same_number("a frequency", occurrences(plan, a, b, c), printed[c][a * (level + 1) + b] - '0');
    }
}

/* Table 5 and Example 5: columns of L18, counted from 1. */
static void example_5(void)
{
    static const char *const table5[3] = { "101 101 020", "110 110 002", "011 011 200" };
    Plan second = plan_of("l18-236");
    table_begins("003 Example 5 with Table 5");
    compare_array("l18-345", 1, 2, 3.5);
    compare_array("l18-236", 1, 1, 3.29);
    compare_array("l18-245", 2, 1, 3);
    compare_frequencies(&second, table5, 3);
    not_compared(5); /* four canonical correlations and a GR_ind */
    table_ends();
}

/* Table 7 prints the designs 1, 3 and 9 of Table 3, which has A_3 = 1 for all ten, and Example 4 GR = 3.42. */
static void tables_3_6_7(void)
{
    static const char *const texts[3] = { "oa32-design1", "oa32-design3", "oa32-design9" };
    static const char *const table7[3][4] = {
        { "1100 1100 0011 0011", "1100 1100 0011 0011", "0011 0011 1100 1100", "0011 0011 1100 1100" },
        { "1100 1010 0101 0011", "1100 1010 0101 0011", "0011 0101 1010 1100", "0011 0101 1010 1100" },
        { "1100 1010 0011 0101", "1010 0101 1100 0011", "0101 1001 0110 1010", "0011 0110 1001 1100" },
    };
    table_begins("003 Table 7");
    for (long k = 0; k < 3; k++) {
        Plan design = plan_of(texts[k]);
        compare_frequencies(&design, table7[k], 4);
    }
    table_ends();
    table_begins("003 Table 3");
    for (long k = 0; k < 3; k++)
        compare_array(texts[k], 1, 1, 3.42);
    not_compared(5 * 9 + 2); /* R² values and canonical correlations; A_3 of the rows of which no design is printed */
    table_ends();
    table_begins("003 Table 6");
    not_compared(10 * 7);
    table_ends();
}

/* ---- table 4: L18 */

/* Example 6: the columns 1 and 2 together are a 6-level column; the others, three at a time, have A_3 = 1/2 and GR = 3.5. */
static void example_6(const Plan *l18)
{
    static const long others[6] = { 2, 3, 4, 5, 6, 7 };
    static const PrintedLine lines[1] = { { 1, 2, 20 } };
    Plan plan = projected(l18, others, 6);
    table_begins("003 Example 6");
    look_at_triples(&plan);
    compare_lines(ABSOLUTE, lines, 1);
    same_gr(&plan, 3.5);
    table_ends();
}

/* GR, then GR_tot of each column; 0 where the paper does not give it. */
static void compare_factors(const char *text, double resolution, const double *printed)
{
    Plan plan = plan_of(text);
    look_at_triples(&plan);
    same_gr(&plan, resolution);
    for (long i = 0; i < plan.columns; i++)
        if (printed[i] > 0)
            same_resolution("GR_tot of a column", 3, factor_ratio(i), printed[i], 2);
}

/* Example 8. */
static void example_8(void)
{
    static const double whole[8] = { 3.18, 3, 3.29, 3, 3, 3.29, 3.29, 3.29 };
    static const double without_2[7] = { 0, 3.42, 3.42, 3.42, 3.42, 3.42, 3.42 };
    static const double without_4[7] = { 3.18, 3.29, 3.29, 3.42, 3.29, 3.29, 3.29 };
    table_begins("003 Example 8 with Table 4");
    compare_factors("l18", 3, whole);
    compare_factors("l18-without-2", 3.18, without_2);
    compare_factors("l18-without-4", 3.18, without_4);
    not_compared(4); /* GR_ind */
    table_ends();
}

/* The introduction: the Plackett-Burman array of 12 runs has GR = 3.67. */
static void introduction(void)
{
    Plan array = plan_of("pb12");
    table_begins("003 introduction");
    same_gr(&array, 3.67);
    table_ends();
}

void source_003(void)
{
    Plan l18 = plan_of("l18");
    introduction();
    examples_1_to_4();
    table_1();
    table_2();
    tables_3_6_7();
    example_5();
    example_6(&l18);
    example_8();
}
