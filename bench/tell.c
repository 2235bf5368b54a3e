/* Whether the runs tell a column from others acting together, as lines: the
 * walk over the pairs of runs in one cell, the words from their scores, and
 * the cells in dictionary order by their numbers.
 */
#include "algorithms.h"

enum { LEVELS = 16 };

typedef struct {
    byte groups[LEVELS];
    long left[LEVELS], right[LEVELS], many;
} Joins;

static int agree(Plan plan, long f, long g, const size_t *others, long count)
{
    const byte *left = start_of(plan, f), *right = start_of(plan, g);
    for (long k = 0; k < count; k++)
        if (left[others[k]] != right[others[k]])
            return 0;
    return 1;
}

/* ---- the groups */

static void join(Joins *joins, long f, long g, byte p, byte q)
{
    byte low = p < q ? p : q, high = p < q ? q : p;
    for (long x = 0; x < LEVELS; x++)
        if (joins->groups[x] == high)
            joins->groups[x] = low;
    joins->left[joins->many] = f;
    joins->right[joins->many++] = g;
}

static void join_later(Joins *joins, Plan plan, long n, long f, long column, const size_t *others, long count, long last)
{
    byte x = start_of(plan, f)[column];
    for (long g = f + 1; g < n && joins->many < last; g++) {
        byte y = start_of(plan, g)[column];
        if (joins->groups[x] != joins->groups[y] && agree(plan, f, g, others, count))
            join(joins, f, g, joins->groups[x], joins->groups[y]);
    }
}

static Joins joined(Plan plan, long n, long column, const size_t *others, long count)
{
    Joins joins = { { 0 }, { 0 }, { 0 }, 0 };
    long last = plan.levels[column] - 1;
    for (long x = 0; x < LEVELS; x++)
        joins.groups[x] = (byte)x;
    for (long f = 0; f < n && joins.many < last; f++)
        join_later(&joins, plan, n, f, column, others, count, last);
    return joins;
}

/* ---- the words */

static long later_scores(Plan plan, long n, long f, long column, const size_t *others, long count)
{
    long total = 0;
    for (long g = f + 1; g < n; g++)
        if (agree(plan, f, g, others, count))
            total += score(plan.levels[column], start_of(plan, f)[column], start_of(plan, g)[column]);
    return total;
}

static Fraction words_figure(Plan plan, long n, long column, const size_t *others, long count)
{
    long total = 0, product = 1, own = plan.levels[column] - 1;
    for (long f = 0; f < n; f++)
        total += 2 * later_scores(plan, n, f, column, others, count) + own;
    for (long k = 0; k < count; k++)
        product *= plan.levels[others[k]];
    return reduced((uint64_t)(own * product * total), (uint64_t)(n * n));
}

/* ---- the lines */

static byte *put_word(byte *out, const char *word)
{
    while (*word)
        *out++ = (byte)*word++;
    return out;
}

static byte *put_number(byte *out, uint64_t number)
{
    byte digits[20];
    long many = 0;
    do
        digits[many++] = (byte)('0' + number % 10);
    while ((number /= 10) > 0);
    *out++ = ' ';
    while (many > 0)
        *out++ = digits[--many];
    return out;
}

static byte *put_end(byte *out)
{
    *out++ = '\n';
    return out;
}

static byte *put_levels(byte *out, const Joins *joins, long s, const byte *occurs)
{
    for (long x = 0; x < s; x++)
        if (!occurs[x])
            out = put_end(put_number(put_word(out, "absent"), (uint64_t)x));
    for (long k = 0; k < s; k++) {
        if (joins->groups[k] != k || !occurs[k])
            continue;
        out = put_word(out, "group");
        for (long x = 0; x < s; x++)
            if (joins->groups[x] == k)
                out = put_number(out, (uint64_t)x);
        out = put_end(out);
    }
    return out;
}

static byte *put_pairs(byte *out, Plan plan, const Joins *joins, long column)
{
    for (long k = 0; k < joins->many; k++) {
        out = put_number(put_number(put_word(out, "pair"), (uint64_t)joins->left[k]), (uint64_t)joins->right[k]);
        out = put_number(put_number(out, start_of(plan, joins->left[k])[column]), start_of(plan, joins->right[k])[column]);
        out = put_end(out);
    }
    return out;
}

static byte *put_cell(byte *out, Plan plan, const Joins *joins, long run, long column, const size_t *others, long count)
{
    out = put_number(put_word(out, "cell"), joins->groups[start_of(plan, run)[column]]);
    for (long k = 0; k < count; k++)
        out = put_number(out, start_of(plan, run)[others[k]]);
    return put_end(out);
}

static byte *put_cells(byte *out, Plan plan, long n, const Joins *joins, long column, const size_t *others, long count)
{
    long numbers[MOST_RUNS];
    for (long f = 0; f < n; f++) {
        numbers[f] = 0;
        for (long k = 0; k < count; k++)
            numbers[f] = numbers[f] * plan.levels[others[k]] + start_of(plan, f)[others[k]];
    }
    for (long low = 0;;) {
        long next = -1;
        for (long f = 0; f < n; f++)
            if (numbers[f] >= low && (next < 0 || numbers[f] < numbers[next]))
                next = f;
        if (next < 0)
            return out;
        out = put_cell(out, plan, joins, next, column, others, count);
        low = numbers[next] + 1;
    }
}

static int is_told(Plan plan, long n, const Joins *joins, long column, byte *occurs)
{
    int yes = 1;
    for (long f = 0; f < n; f++) {
        byte x = start_of(plan, f)[column];
        occurs[x] = 1;
        yes &= joins->groups[x] == joins->groups[start_of(plan, 0)[column]];
    }
    return yes;
}

long tell_in_c(Plan plan, long n, long column, const size_t *others, long count, byte *room)
{
    Joins joins = joined(plan, n, column, others, count);
    byte occurs[LEVELS] = { 0 };
    int yes = is_told(plan, n, &joins, column, occurs);
    Fraction figure = words_figure(plan, n, column, others, count);
    byte *out = put_number(put_word(room, "tell"), (uint64_t)column);
    for (long k = 0; k < count; k++)
        out = put_number(out, others[k]);
    out = put_word(put_end(out), yes ? "answer yes\nwords" : "answer no\nwords");
    out = put_end(put_number(put_number(out, figure.num), figure.den));
    out = put_pairs(put_levels(out, &joins, plan.levels[column], occurs), plan, &joins, column);
    if (!yes)
        out = put_cells(out, plan, n, &joins, column, others, count);
    return out - room;
}
