/* Source document 000: projection frequency tables. */
#include "sources.h"

enum { MOST_LINES = 8 };

/* A design of a table: its lines, its third word and its sum of relative values. */
typedef struct {
    const char *text;
    PrintedLine lines[MOST_LINES];
    double sum;
} Design;

static void compare_design(const Design *design, int kind, long lines)
{
    Plan array = plan_of(design->text);
    look_at_triples(&array);
    compare_lines(kind, design->lines, lines);
    same_decimal(kind == RELATIVE ? "rA_3" : "A_3", kind == RELATIVE ? relative_sum() : word(&array, 3), design->sum, 2);
}

static void compare_designs(const char *name, const Design *designs, long count, int kind, long lines)
{
    table_begins(name);
    for (long k = 0; k < count; k++)
        compare_design(&designs[k], kind, lines);
    table_ends();
}

/* Tables 2 and 4: the third array is L18 (003, Table 4). The others, of Schoen (2009), are not printed: these were found by keeping the
 * columns 2 to 5, and 2 to 6, of L18 and looking for columns to complete them. */
static void table_2(void)
{
    static const Design designs[3] = {
        { "oa18-first", { { 0, 1, 9 }, { 4, 9, 9 }, { 1, 2, 16 }, { 2, 3, 21 }, { 1, 1, 0 }, { 2, 1, 1 } }, 28 },
        { "oa18-second", { { 0, 1, 10 }, { 4, 9, 6 }, { 1, 2, 20 }, { 2, 3, 17 }, { 1, 1, 2 }, { 2, 1, 1 } }, 28 },
        { "l18", { { 0, 1, 12 }, { 4, 9, 0 }, { 1, 2, 28 }, { 2, 3, 9 }, { 1, 1, 6 }, { 2, 1, 1 } }, 28 },
    };
    compare_designs("000 Table 2", designs, 3, ABSOLUTE, 6);
}

static void table_4(void)
{
    static const Design designs[3] = {
        { "oa18-first",
          { { 0, 1, 9 }, { 1, 4, 16 }, { 1, 3, 18 }, { 4, 9, 9 }, { 1, 2, 0 }, { 2, 3, 3 }, { 1, 1, 1 } }, 17 },
        { "oa18-second",
          { { 0, 1, 10 }, { 1, 4, 20 }, { 1, 3, 12 }, { 4, 9, 6 }, { 1, 2, 2 }, { 2, 3, 5 }, { 1, 1, 1 } }, 17 },
        { "l18",
          { { 0, 1, 12 }, { 1, 4, 28 }, { 1, 3, 0 }, { 4, 9, 0 }, { 1, 2, 6 }, { 2, 3, 9 }, { 1, 1, 1 } }, 17 },
    };
    compare_designs("000 Table 4", designs, 3, RELATIVE, 7);
}

/* Table 3: neither array is printed. The regular one has fourteen of the fifteen sums of four 2-level columns. The other has fourteen of
 * the fifteen columns of a Hadamard matrix of order 16 whose seven completely aliased triples share the column left out. Section 3 gives
 * the generalized resolutions. */
static void table_3(void)
{
    static const Design designs[2] = {
        { "oa16-regular", { { 0, 1, 336 }, { 1, 4, 0 }, { 1, 1, 28 } }, 28 },
        { "oa16-nonregular", { { 0, 1, 252 }, { 1, 4, 112 }, { 1, 1, 0 } }, 28 },
    };
    static const double resolutions[2] = { 3, 3.5 };
    table_begins("000 Table 3");
    for (long k = 0; k < 2; k++) {
        Plan array = plan_of(designs[k].text);
        Listing said = listing(&array);
        compare_design(&designs[k], ABSOLUTE, 3);
        same_resolution("GR", said.resolution, said.ratio, resolutions[k], 1);
    }
    table_ends();
}

/* Table 5, first array: OA(36, 2^11 3^12) is not printed. This one has the twelve runs of a Plackett-Burman array three times, beside a
 * difference matrix of order 12 with 0, 1 and 2 added; which of its rows stands beside which run was chosen for the published figures.
 *
 * Misprints. The counts add up to 1768 and there are 1771 sets. The 165 sets of three 2-level columns all have the value 1/9 of the
 * Plackett-Burman array: the printed 162 has to be 165. The 192 sets with the value 1/8 have three 3-level columns, so their relative
 * value is 1/16, as 7/8 becomes 7/16 and 1/2 becomes 1/4 in the same row; the paper leaves them at 1/8. rA_3 = 184 is the sum of the
 * relative values as printed. A_3 is 194 1/3, printed as 194. */
static void table_5_first(void)
{
    static const PrintedLine absolute[7] = {
        { 0, 1, 855 }, { 1, 9, 162, { 1, 9, 165 } }, { 1, 8, 192 }, { 1, 6, 417 }, { 1, 2, 93 }, { 2, 3, 33 },
        { 7, 8, 16 },
    };
    static const PrintedLine relative[8] = {
        { 0, 1, 855 }, { 1, 9, 162, { 1, 9, 165 } }, { 1, 8, 192, { 1, 16, 192 } }, { 1, 6, 417 }, { 1, 4, 12 },
        { 7, 16, 16 }, { 1, 2, 81 }, { 2, 3, 33 },
    };
    Plan array = plan_of("l36");
    look_at_triples(&array);
    compare_lines(ABSOLUTE, absolute, 7);
    compare_lines(RELATIVE, relative, 8);
    Fraction third = word(&array, 3), sum = relative_sum();
    same_decimal("A_3", third, 194, 0);
    must_be("A_3 is 583/3", 3 * third.num, 583 * third.den);
    misprinted_decimal("rA_3", sum, 184, 172, 0);
    must_be("rA_3 is 517/3", 3 * sum.num, 517 * sum.den);
    Listing said = listing(&array);
    same_resolution("GR", said.resolution, said.ratio, 3.1835, 4);
}

/* Table 5, second array: L18 without its third 3-level column. */
static void table_5_second(void)
{
    static const PrintedLine absolute[4] = { { 0, 1, 9 }, { 1, 2, 14 }, { 2, 3, 6 }, { 1, 1, 6 } };
    static const PrintedLine relative[4] = { { 0, 1, 9 }, { 1, 4, 14 }, { 1, 2, 6 }, { 2, 3, 6 } };
    Plan array = plan_of("l18-without-4");
    look_at_triples(&array);
    compare_lines(ABSOLUTE, absolute, 4);
    compare_lines(RELATIVE, relative, 4);
    same_decimal("A_3", word(&array, 3), 17, 1);
    same_decimal("rA_3", relative_sum(), 10.5, 1);
    Listing said = listing(&array);
    same_resolution("GR", said.resolution, said.ratio, 3.1835, 4);
}

/* Table 7, of the array that Table 6 prints. */
static void table_7(void)
{
    static const PrintedLine absolute[3] = { { 0, 1, 536 }, { 1, 1, 142 }, { 3, 1, 2 } };
    static const PrintedLine relative[3] = { { 0, 1, 536 }, { 1, 3, 33 }, { 1, 1, 111 } };
    Plan array = plan_of("oa32");
    table_begins("000 Table 7");
    look_at_triples(&array);
    compare_lines(ABSOLUTE, absolute, 3);
    compare_lines(RELATIVE, relative, 3);
    same_decimal("A_3", word(&array, 3), 148, 0);
    same_decimal("rA_3", relative_sum(), 122, 0);
    table_ends();
}

/* ---- tables 8 and 9: selections of columns, counted from 1 */

typedef struct {
    long columns[8];
    double third, fourth;
    PrintedLine absolute[5];
    double relative_sum;
    PrintedLine relative[5];
} Selection;

static void compare_selection(const Plan *plan, const Selection *s)
{
    look_at_triples(plan);
    same_decimal("A_3", word(plan, 3), s->third, 1);
    same_decimal("A_4", word(plan, 4), s->fourth, 1);
    same_decimal("rA_3", relative_sum(), s->relative_sum, 2);
}

static Plan selected(const Plan *array, const long *from_1, long count)
{
    long columns[MOST_COLUMNS];
    for (long i = 0; i < count; i++)
        columns[i] = from_1[i] - 1;
    return projected(array, columns, count);
}

/* Table 8. A misprint in both tables of the third selection: 38 sets without a word add up to 55 sets, there are 56. */
static void table_8(void)
{
    static const Selection selections[3] = {
        { { 3, 5, 8, 11, 12, 15, 16, 17 }, 20, 58, { { 0, 1, 36 }, { 1, 1, 20 }, { 3, 1, 0 } }, 13.33,
          { { 0, 1, 36 }, { 1, 3, 10 }, { 1, 1, 10 } } },
        { { 3, 9, 10, 12, 13, 14, 15, 17 }, 20, 58, { { 0, 1, 38 }, { 1, 1, 17 }, { 3, 1, 1 } }, 12,
          { { 0, 1, 38 }, { 1, 3, 9 }, { 1, 1, 9 } } },
        { { 1, 3, 4, 13, 14, 15, 16, 17 }, 21, 53, { { 0, 1, 38, { 0, 1, 39 } }, { 1, 1, 15 }, { 3, 1, 2 } }, 11.67,
          { { 0, 1, 38, { 0, 1, 39 } }, { 1, 3, 8 }, { 1, 1, 9 } } },
    };
    Plan array = plan_of("oa32");
    table_begins("000 Table 8");
    for (long k = 0; k < 3; k++) {
        Plan plan = selected(&array, selections[k].columns, 8);
        compare_selection(&plan, &selections[k]);
        compare_lines(ABSOLUTE, selections[k].absolute, 3);
        compare_lines(RELATIVE, selections[k].relative, 3);
    }
    table_ends();
}

/* Table 9. Its GR is cut off behind the third decimal, as the listing's is: section 4.3 has 3.1835, and the root gives 3.18350. */
static void table_9(void)
{
    static const Selection selections[3] = {
        { { 1, 3, 4, 5, 6, 7, 8 }, 16, 28.5, { { 0, 1, 6 }, { 1, 2, 20 }, { 2, 3, 9 }, { 1, 1, 0 }, { 2, 1, 0 } }, 11,
          { { 0, 1, 6 }, { 1, 4, 20 }, { 1, 2, 0 }, { 2, 3, 9 }, { 1, 1, 0 } } },
        { { 1, 2, 3, 5, 6, 7, 8 }, 17, 24.5, { { 0, 1, 9 }, { 1, 2, 14 }, { 2, 3, 6 }, { 1, 1, 6 }, { 2, 1, 0 } }, 10.5,
          { { 0, 1, 9 }, { 1, 4, 14 }, { 1, 2, 6 }, { 2, 3, 6 }, { 1, 1, 0 } } },
        { { 1, 2, 3, 4, 5, 6, 7 }, 17, 24.5, { { 0, 1, 9 }, { 1, 2, 16 }, { 2, 3, 6 }, { 1, 1, 3 }, { 2, 1, 1 } }, 10.5,
          { { 0, 1, 9 }, { 1, 4, 16 }, { 1, 2, 3 }, { 2, 3, 6 }, { 1, 1, 1 } } },
    };
    static const long thousandths[3] = { 3183, 3183, 3000 };
    Plan array = plan_of("l18");
    table_begins("000 Table 9");
    for (long k = 0; k < 3; k++) {
        Plan plan = selected(&array, selections[k].columns, 7);
        compare_selection(&plan, &selections[k]);
        compare_lines(ABSOLUTE, selections[k].absolute, 5);
        compare_lines(RELATIVE, selections[k].relative, 5);
        same_number("GR", listing(&plan).thousandths, thousandths[k]);
    }
    table_ends();
}

void source_000(void)
{
    table_2();
    table_3();
    table_4();
    table_begins("000 Table 5");
    table_5_first();
    table_5_second();
    table_ends();
    table_7();
    table_8();
    table_9();
}
