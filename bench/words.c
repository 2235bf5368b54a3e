/* Words and row sums: of a pair of runs the columns' scores, folded into 25
 * sums in place. The words visit each pair of different runs once.
 */
#include "algorithms.h"

void every_run(long n, Runs *runs)
{
    runs->count = n;
    for (long f = 0; f < n; f++)
        runs->numbers[f] = f;
}

/* One column more. The sums of lengths above the columns so far are zero. */
static void extend(long *sums, long score, long columns)
{
    for (long j = columns + 1; j > 0; j--)
        sums[j] += score * sums[j - 1];
}

static void add_to(long *total, const long *more)
{
    for (long j = 0; j < MOST_COLUMNS; j++)
        total[j] += more[j];
}

static void add_pair(Plan plan, const byte *a, const byte *b, long *row)
{
    long sums[MOST_COLUMNS + 1] = { 1 };
    for (long i = 0; i < plan.columns; i++)
        extend(sums, score(plan.levels[i], a[i], b[i]), i);
    add_to(row, sums + 1);
}

void row_in_c(Plan plan, const Runs *runs, long run, long *row)
{
    long total[MOST_COLUMNS] = { 0 };
    for (long k = 0; k < runs->count; k++)
        add_pair(plan, start_of(plan, run), start_of(plan, runs->numbers[k]), total);
    for (long j = 0; j < MOST_COLUMNS; j++)
        row[j] = total[j];
}

void diagonal_in_c(Plan plan, long *diagonal)
{
    long sums[MOST_COLUMNS + 1] = { 1 };
    for (long i = 0; i < plan.columns; i++)
        extend(sums, plan.levels[i] - 1, i);
    for (long j = 0; j < MOST_COLUMNS; j++)
        diagonal[j] = sums[j + 1];
}

static void add_later(Plan plan, const Runs *runs, long place, long *total)
{
    const byte *run = start_of(plan, runs->numbers[place]);
    for (long k = place + 1; k < runs->count; k++)
        add_pair(plan, run, start_of(plan, runs->numbers[k]), total);
}

void words_in_c(Plan plan, const Runs *runs, long *words)
{
    long total[MOST_COLUMNS] = { 0 }, own[MOST_COLUMNS];
    for (long k = runs->count - 1; k >= 0; k--)
        add_later(plan, runs, k, total);
    diagonal_in_c(plan, own);
    for (long j = 0; j < MOST_COLUMNS; j++)
        words[j] = 2 * total[j] + runs->count * own[j];
}

/* The words before request #104: the row sums of all runs, added up. */
void words_by_rows_in_c(Plan plan, const Runs *runs, long *words)
{
    long total[MOST_COLUMNS] = { 0 }, row[MOST_COLUMNS];
    for (long k = 0; k < runs->count; k++) {
        row_in_c(plan, runs, runs->numbers[k], row);
        add_to(total, row);
    }
    for (long j = 0; j < MOST_COLUMNS; j++)
        words[j] = total[j];
}
