/* Source document 000, section 4.4: all choices of three 2-level and five 4-level columns of the array of Table 6. */
#include "sources.h"

enum { TWO_LEVEL = 10, FOUR_LEVEL = 7, CHOSEN = 8, MOST_CHOICES = 2520 };

static long choices[MOST_CHOICES], choice_count;

static long bits(const long *set, long size)
{
    long columns = 0;
    for (long k = 0; k < size; k++)
        columns |= 1L << set[k];
    return columns;
}

/* With these 2-level columns, each five of the 4-level ones. */
static void choose_four_level(long two_level)
{
    long set[5];
    first_set(set, 5);
    do
        if (choice_count < MOST_CHOICES)
            choices[choice_count++] = two_level | bits(set, 5) << TWO_LEVEL;
    while (next_set(set, 5, FOUR_LEVEL));
}

static void choose(void)
{
    long set[3];
    choice_count = 0;
    first_set(set, 3);
    do
        choose_four_level(bits(set, 3));
    while (next_set(set, 3, TWO_LEVEL));
}

static long fourth_word(const Plan *array, long choice)
{
    long columns[CHOSEN], count = 0;
    for (long i = 0; i < array->columns; i++)
        if (choice >> i & 1)
            columns[count++] = i;
    Plan plan = projected(array, columns, count);
    return scaled_word(&plan, 4);
}

static long completely_aliased(void)
{
    long count = 0;
    for (long k = 0; k < choice_count; k++) {
        Fraction largest = largest_within(choices[k]);
        count += largest.num == largest.den;
    }
    return count;
}

/* A figure to be made small, and how many choices have it. */
typedef struct {
    long least, count;
} Least;

static void meet(Least *so_far, long figure)
{
    if (so_far->count == 0 || figure < so_far->least) {
        so_far->least = figure;
        so_far->count = 0;
    }
    so_far->count += figure == so_far->least;
}

/* Generalized minimum aberration: W_4 among the choices with the least W_3. */
static Least least_fourth(const Plan *array, long third)
{
    Least fourth = { 0, 0 };
    for (long k = 0; k < choice_count; k++)
        if (word_within(choices[k]) == third)
            meet(&fourth, fourth_word(array, choices[k]));
    return fourth;
}

static Least least_third(void)
{
    Least third = { 0, 0 };
    for (long k = 0; k < choice_count; k++)
        meet(&third, word_within(choices[k]));
    return third;
}

static Least least_relative_sum(void)
{
    Least sum = { 0, 0 };
    for (long k = 0; k < choice_count; k++)
        meet(&sum, relative_sum_within(choices[k]).num);
    return sum;
}

/* How many choices with this relative sum have this fourth word. */
static long with_fourth(const Plan *array, long relative_sum, long fourth)
{
    long count = 0;
    for (long k = 0; k < choice_count; k++)
        if (relative_sum_within(choices[k]).num == relative_sum)
            count += fourth_word(array, choices[k]) == fourth;
    return count;
}

/* "Eight designs with A_3 = 20 and A_4 = 58"; "there is no column allocation with GR > 3, all 2520 possible choices"; "six column
 * allocations with the minimum rA_3 of 35/3"; "Design 3 minimizes A_4 among the six (the other five have A_4 = 55)". */
void source_000_choices(void)
{
    Plan array = plan_of("oa32");
    long pairs = array.runs * array.runs;
    table_begins("000 section 4.4");
    look_at_triples(&array);
    choose();
    same_number("choices", choice_count, 2520);
    same_number("choices with GR = 3", completely_aliased(), 2520);
    Least third = least_third(), fourth = least_fourth(&array, third.least), sum = least_relative_sum();
    Fraction least_sum = { sum.least, relative_sum().den };
    same_number("the least A_3", third.least, 20 * pairs);
    same_number("the least A_4 with it", fourth.least, 58 * pairs);
    same_number("designs with both", fourth.count, 8);
    same_number("the least rA_3", 3 * least_sum.num, 35 * least_sum.den);
    same_number("designs with it", sum.count, 6);
    same_number("with A_4 = 53", with_fourth(&array, sum.least, 53 * pairs), 1);
    same_number("with A_4 = 55", with_fourth(&array, sum.least, 55 * pairs), 5);
    table_ends();
}
