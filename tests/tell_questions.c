#include "tell_questions.h"
#include "draws.h"
#include "losses.h"

int printf(const char *format, ...);

long entry_at(const Question *q, long run, unsigned long column)
{
    return q->plan.table[run * q->plan.columns + (long)column];
}

static long runs_of(const Question *q)
{
    return q->plan.columns > 0 ? q->plan.entries / q->plan.columns : 0;
}

long standing_runs(const Question *q, long *runs)
{
    long count = 0;
    for (long run = 0; run < runs_of(q); run++)
        if (q->marks == 0 || q->standing[run])
            runs[count++] = run;
    return count;
}

int in_one_cell(const Question *q, long f, long g)
{
    for (long k = 0; k < q->count; k++)
        if (entry_at(q, f, q->others[k]) != entry_at(q, g, q->others[k]))
            return 0;
    return 1;
}

/* ---- good questions */

/* The level of a column goes by the sum of the others' entries, but for one run in so many. */
static void mix_column(Plan *p, long column, unsigned long strays)
{
    byte level = p->levels[column];
    long multiple = 1 + (long)draw((unsigned long)level - 1);
    for (long k = 0; k < p->entries; k += p->columns) {
        long sum = 0;
        for (long i = 0; i < p->columns; i++)
            sum += i == column ? 0 : p->table[k + i];
        p->table[k + column] = draw(strays) ? (byte)(sum * multiple % level) : (byte)draw(level);
    }
}

/* Columns of few levels, so that cells repeat, and one that goes by them; its number. */
static long mixed_plan(Plan *p)
{
    long columns = 2 + (long)draw(3), column = (long)draw((unsigned long)columns);
    even_plan(p, columns, 3, 2 + (long)draw(draw(4) ? 11 : 24));
    for (long i = 0; i < columns; i++)
        p->levels[i] = (byte)(i == column ? 2 + draw(draw(4) ? 3 : 15) : draw(8) ? 2 + draw(3) : 1);
    for (long k = 0; k < p->entries; k++)
        p->table[k] = (byte)draw(p->levels[k % columns]);
    mix_column(p, column, draw(3) ? 3 + draw(12) : 1000);
    return column;
}

/* Each other column with a chance of so many in eight. */
static void draw_others(Question *q, unsigned long chance)
{
    q->count = 0;
    for (unsigned long i = 0; i < (unsigned long)q->plan.columns; i++)
        if (i != q->column && draw(8) < chance)
            q->others[q->count++] = i;
}

/* None in one of four, a few in two, any number in one. */
static void draw_lost(Losses *l, long runs)
{
    unsigned long kind = draw(4), few = 1 + draw(3);
    if (kind == 0)
        draw_losses(l, runs);
    else
        lose(l, runs, kind == 1 ? 0 : (long)few < runs ? (long)few : runs - 1);
}

static void draw_standing(Question *q)
{
    static Losses losses;
    long runs = runs_of(q);
    draw_lost(&losses, runs);
    q->marks = losses.count > 0 || draw(2) ? runs : 0;
    for (long run = 0; run < runs; run++)
        q->standing[run] = (byte)(draw(4) ? 1 : 1 + draw(255));
    for (long k = 0; k < losses.count; k++)
        q->standing[losses.runs[k]] = 0;
}

void draw_question(Question *q)
{
    unsigned long kind = draw(1000);
    long mixed = -1;
    if (kind < 2)
        wide_plan(&q->plan);
    else if (kind < 600)
        mixed = mixed_plan(&q->plan);
    else
        a_plan(&q->plan);
    q->column = mixed >= 0 && draw(8) ? (unsigned long)mixed : draw((unsigned long)q->plan.columns);
    draw_others(q, q->plan.columns > 8 ? 1 : 7);
    draw_standing(q);
}

void all_runs_stand(Question *q)
{
    q->marks = 0;
}

/* ---- damaged questions */

/* The numbers next behind the columns, and numbers that would be one of them if their upper bits were lost. */
static unsigned long outside(const Question *q)
{
    unsigned long columns = (unsigned long)q->plan.columns, inside = draw(columns + 1);
    switch (draw(4)) {
    case 0: return (1UL << (draw(2) ? 32 : 63)) + inside;
    case 1: return ~0UL - inside;
    default: return columns + draw(2);
    }
}

static void insert_other(Question *q, long place, unsigned long column)
{
    for (long k = q->count++; k > place; k--)
        q->others[k] = q->others[k - 1];
    q->others[place] = column;
}

static void name_twice(Question *q)
{
    if (q->count == 0)
        insert_other(q, 0, 0);
    long place = (long)draw((unsigned long)q->count);
    insert_other(q, place, q->others[place]);
}

static void swap_two(Question *q)
{
    if (q->count < 2)
        name_twice(q);
    long place = (long)draw((unsigned long)q->count - 1);
    unsigned long kept = q->others[place];
    q->others[place] = q->others[place + 1];
    q->others[place + 1] = kept;
}

/* In its place, so that the others still rise. */
static void name_column(Question *q)
{
    long place = 0;
    while (place < q->count && q->others[place] < q->column)
        place++;
    insert_other(q, place, q->column);
}

/* So many marks are handed over that never none are, which would be that all stand. */
static void change_marks(Question *q, long more)
{
    long marks = runs_of(q) + more;
    q->marks = marks > 0 && marks < (long)sizeof q->standing ? marks : 1 + runs_of(q);
}

static void strike_all(Question *q)
{
    long marks = q->marks > 0 ? q->marks : runs_of(q);
    q->marks = marks > 0 ? marks : 1;
    for (long run = 0; run < (long)sizeof q->standing; run++)
        q->standing[run] = 0;
}

void damage_question(Question *q, int kind)
{
    switch (kind) {
    case COLUMN_ABOVE: q->column = outside(q); break;
    case OTHER_ABOVE: insert_other(q, q->count, outside(q)); break;
    case OTHER_TWICE: name_twice(q); break;
    case OTHERS_FALL: swap_two(q); break;
    case COLUMN_AMONG: name_column(q); break;
    case A_MARK_MORE: change_marks(q, 1); break;
    case A_MARK_LESS: change_marks(q, -1); break;
    case NONE_STANDS: strike_all(q); break;
    default: damage(&q->plan, kind);
    }
}

/* ---- refusals */

static int a_column_is_bad(const Question *q)
{
    unsigned long columns = (unsigned long)q->plan.columns;
    int bad = q->column >= columns;
    for (long k = 0; k < q->count; k++)
        bad |= q->others[k] >= columns || q->others[k] == q->column || (k > 0 && q->others[k] <= q->others[k - 1]);
    return bad;
}

static int marks_are_bad(const Question *q)
{
    return q->marks != 0 && q->marks != runs_of(q);
}

static int none_stands(const Question *q)
{
    int stands = q->marks == 0;
    for (long run = 0; run < q->marks; run++)
        stands |= q->standing[run] != 0;
    return !stands;
}

unsigned deserved_by_question(const Question *q)
{
    unsigned plan = deserved(&q->plan) & ~(1u << 8);
    return plan | (unsigned)(a_column_is_bad(q) || marks_are_bad(q)) << 8 | (unsigned)none_stands(q) << 10;
}

int refusal_of_question(const Question *q)
{
    const Plan *p = &q->plan;
    int number = reference_check(p->levels, p->columns, p->table, p->entries).number;
    if (number != 0)
        return number;
    if (marks_are_bad(q))
        return 8;
    if (none_stands(q))
        return 10;
    return a_column_is_bad(q) ? 8 : 0;
}

void print_question(const Question *q)
{
    printf("; levels");
    for (long i = 0; i < q->plan.columns && i < 64; i++)
        printf(" %d", q->plan.levels[i]);
    printf(", runs");
    for (long k = 0; k < q->plan.entries && k < 240; k++)
        printf(k % q->plan.columns ? ",%d" : " %d", q->plan.table[k]);
    printf(", struck");
    for (long run = 0; run < q->marks; run++)
        if (!q->standing[run])
            printf(" %ld", run);
    printf(" of %ld marks, column %lu, others", q->marks, q->column);
    for (long k = 0; k < q->count; k++)
        printf(" %lu", q->others[k]);
    printf("\n");
}
