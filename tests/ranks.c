#include "ranks.h"

static int overflowed;

int ranks_fail(void)
{
    return overflowed;
}

static long times(long a, long b)
{
    long product;
    overflowed |= __builtin_mul_overflow(a, b, &product);
    return product;
}

static long minus(long a, long b)
{
    long difference;
    overflowed |= __builtin_sub_overflow(a, b, &difference);
    return difference;
}

static long divisor(long a, long b)
{
    while (b != 0) {
        long rest = a % b;
        a = b;
        b = rest;
    }
    return a < 0 ? -a : a;
}

/* The row, made smaller by what all its numbers are multiples of. */
static void reduce(long *row, long terms)
{
    long common = 0;
    for (long i = 0; i < terms && common != 1; i++)
        common = divisor(common, row[i]);
    for (long i = 0; i < terms && common > 1; i++)
        row[i] /= common;
}

/* Takes a multiple of row k from a multiple of this one, so that it is 0 at the pivot of row k. */
static void clear_pivot(const Rows *rows, long k, long *row)
{
    const long *other = rows->rows[k];
    long own = other[rows->pivots[k]], here = row[rows->pivots[k]];
    if (here == 0)
        return;
    for (long i = 0; i < rows->terms; i++)
        row[i] = minus(times(row[i], own), times(other[i], here));
    reduce(row, rows->terms);
}

/* What is left of a row; the place of its first number that is not 0, or -1. */
static long remainder_of(const Rows *rows, const long *row, long *left)
{
    for (long i = 0; i < rows->terms; i++)
        left[i] = row[i];
    for (long k = 0; k < rows->rank; k++)
        clear_pivot(rows, k, left);
    for (long i = 0; i < rows->terms; i++)
        if (left[i] != 0)
            return i;
    return -1;
}

void start_rows(Rows *rows, long terms)
{
    rows->rank = 0;
    rows->terms = terms;
}

/* The rank is at most the number of terms, so that the last row has its room. */
void add_row(Rows *rows, const long *row)
{
    long left[MOST_TERMS], pivot = remainder_of(rows, row, left);
    if (pivot < 0)
        return;
    for (long i = 0; i < rows->terms; i++)
        rows->rows[rows->rank][i] = left[i];
    rows->pivots[rows->rank++] = pivot;
}

int rank_stays(const Rows *rows, const long *row)
{
    long left[MOST_TERMS];
    return remainder_of(rows, row, left) < 0;
}
