/* A held plan: its own copy of levels and entries, a mark for each run, and
 * the words, which a strike or a reinstatement changes by one row sum. It is
 * changed in place, where the library takes it and hands it back by value.
 */
#include "algorithms.h"

typedef struct {
    byte levels[MOST_COLUMNS], entries[MOST_RUNS * MOST_COLUMNS], marks[MOST_RUNS];
    long columns, runs, words[MOST_COLUMNS];
} Held;

static Plan plan_in(const Held *held)
{
    Plan plan = { held->levels, held->entries, held->columns };
    return plan;
}

static void open_plan(Plan plan, long n, Held *held)
{
    Runs runs;
    held->columns = plan.columns;
    held->runs = n;
    for (long i = 0; i < plan.columns; i++)
        held->levels[i] = plan.levels[i];
    for (long e = 0; e < n * plan.columns; e++)
        held->entries[e] = plan.table[e];
    for (long f = 0; f < n; f++)
        held->marks[f] = 1;
    every_run(n, &runs);
    words_in_c(plan, &runs, held->words);
}

static void standing_runs(const Held *held, Runs *runs)
{
    runs->count = 0;
    for (long f = 0; f < held->runs; f++)
        if (held->marks[f])
            runs->numbers[runs->count++] = f;
}

static void change_mark(Held *held, long run, byte stands)
{
    Runs runs;
    long row[MOST_COLUMNS], diagonal[MOST_COLUMNS], factor = stands ? 2 : -2;
    standing_runs(held, &runs);
    row_in_c(plan_in(held), &runs, run, row);
    diagonal_in_c(plan_in(held), diagonal);
    for (long j = 0; j < MOST_COLUMNS; j++)
        held->words[j] += factor * row[j] + diagonal[j];
    held->marks[run] = stands;
}

long strikes_in_c(Plan plan, long n, long length, long times)
{
    static Held held;
    open_plan(plan, n, &held);
    for (long k = 0; k < times; k++) {
        change_mark(&held, 0, 0);
        change_mark(&held, 0, 1);
    }
    change_mark(&held, 0, 0);
    return held.words[length - 1];
}
