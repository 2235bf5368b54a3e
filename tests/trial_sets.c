#include "trial_sets.h"
#include "draws.h"

/* ---- one input */

static void try_set(const Plan *p, const Columns *c)
{
    long wanted = reference_set_word(p->levels, p->columns, p->table, p->entries, c->size, c->columns, c->count);
    note_word(&sets, wanted);
    for (int by_pairs = 0; by_pairs < 2; by_pairs++) {
        long got = bench_set_word(p->levels, (size)p->columns, p->table, (size)p->entries, c->size,
                                  c->columns, (size)c->count, by_pairs);
        if (got != wanted) {
            differs(by_pairs ? "bench_set_word by pairs" : "bench_set_word by counts", got, wanted);
            print_columns(c);
            print_plan(p);
        }
    }
}

static void try_set_words(Plan *p, unsigned long f)
{
    long wanted = reference_set_words(p->levels, p->columns, p->table, p->entries, f);
    note_word(&set_words, wanted);
    for (int by_pairs = 0; by_pairs < 2; by_pairs++) {
        long got = bench_set_words(p->levels, (size)p->columns, p->table, (size)p->entries, f, by_pairs);
        if (got != wanted) {
            differs(by_pairs ? "bench_set_words by pairs" : "bench_set_words by counts", got, wanted);
            p->length = f;
            print_plan(p);
        }
    }
}

/* ---- generated plans */

/* A set of the plan, and again with one or two damages. */
static void try_drawn_sets(const Plan *p)
{
    Columns columns;
    draw_columns(&columns, p->columns);
    try_set(p, &columns);
    for (long k = 1 + (long)draw(2); k > 0; k--)
        damage_columns(&columns, p->columns, (int)draw(COLUMN_DAMAGES));
    try_set(p, &columns);
}

/* Of one plan in five all sets of a size, unless it has any number of columns and runs. */
void generated_sets(long rounds)
{
    static Plan plan;
    for (long round = 0; round < rounds; round++) {
        int wide = draw(100) == 0;
        if (wide)
            wide_plan(&plan);
        else
            a_plan(&plan);
        note_levels(&plan);
        try_drawn_sets(&plan);
        if (!wide && draw(5) == 0)
            try_set_words(&plan, draw(MOST_ASKED + 2));
    }
}

/* ---- two damages, in both orders */

static void damaged_columns(Plan *p, Columns *c, int a, int b)
{
    int kinds[2] = { a, b };
    small_plan(p);
    for (int k = 0; k < 2; k++)
        if (kinds[k] < PLAN_DAMAGES)
            damage(p, kinds[k]);
    draw_columns(c, p->columns);
    for (int k = 0; k < 2; k++)
        if (kinds[k] >= PLAN_DAMAGES)
            damage_columns(c, p->columns, kinds[k] - PLAN_DAMAGES);
}

/* The plan's own bit 8 is for a length, which nobody asks for here. */
static unsigned deserved_by_both(const Plan *p, const Columns *c)
{
    return (deserved(p) & ~(1u << 8)) | deserved_by_columns(c, p->columns);
}

void damaged_set(int a, int b)
{
    static Plan plan;
    Columns columns;
    damaged_columns(&plan, &columns, a, b);
    sets.damaged[a][b]++;
    note_at_once(&sets, deserved_by_both(&plan, &columns));
    try_set(&plan, &columns);
}

void damaged_set_words(int a, int b)
{
    static Plan plan;
    Columns columns;
    damaged_columns(&plan, &columns, a, b);
    set_words.damaged[a][b]++;
    note_at_once(&set_words, deserved_by_both(&plan, &columns));
    try_set_words(&plan, columns.size);
}

/* ---- at the limits */

/* Every size up to one above the limit, the same beyond 32 bits, and so many sets. */
static void try_sizes(Plan *p, long some)
{
    Columns columns;
    for (unsigned long f = 0; f <= MOST_ASKED + 1; f++) {
        try_set_words(p, f);
        try_set_words(p, (1UL << 32) + f);
    }
    for (long k = 0; k < some; k++) {
        draw_columns(&columns, p->columns);
        try_set(p, &columns);
    }
}

/* The last combination of all, from this run on. */
static void end_at_the_last(Plan *p, long run)
{
    for (long k = run * p->columns; k < p->entries; k++)
        p->table[k] = p->levels[k % p->columns] - 1;
}

/* Four columns; the last combination once at least, then in every run; then a column of one level among them. */
static void four_columns(Plan *p, byte level, long runs, long some)
{
    even_plan(p, MOST_ASKED, level, runs);
    end_at_the_last(p, runs - 1);
    try_sizes(p, some);
    end_at_the_last(p, 0);
    try_sizes(p, some);
    even_plan(p, MOST_ASKED, level, runs);
    insert_one_level(p, (long)draw(MOST_ASKED + 1));
    try_sizes(p, some);
}

/* Every combination of the first two of four columns of 16 levels: the upper half of a combination's number. */
static void upper_halves(Plan *p, long some)
{
    even_plan(p, MOST_ASKED, 16, 256);
    for (long k = 0; k < p->entries; k++)
        p->table[k] = (byte)(k % 4 == 0 ? k / 4 / 16 : k % 4 == 1 ? k / 4 % 16 : 0);
    try_sizes(p, some);
}

/* One run, around where the library begins to count, and 256 runs, which take the reference longer. */
void sets_at_limits(int full)
{
    static const long runs[] = { 1, 2, 11, 12, 13, 256 };
    static const byte levels[] = { 1, 2, 16 };
    static Plan plan;
    long some = full ? 15 : 3;
    for (unsigned k = 0; k < sizeof runs / sizeof *runs; k++)
        for (unsigned l = 0; l < sizeof levels; l++)
            if (full || runs[k] < 256 || levels[l] == 16)
                four_columns(&plan, levels[l], runs[k], some);
    upper_halves(&plan, some);
    for (byte level = 1; level <= 2; level++) {
        even_plan(&plan, 24, level, full ? 12 : 1);
        try_sizes(&plan, some);
    }
}
