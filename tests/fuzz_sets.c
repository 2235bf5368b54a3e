#include "fuzz_sets.h"
#include "columns.h"
#include "lent.h"
#include "draws.h"

long bench_set_word(const byte *levels, size columns, const byte *table, size entries, unsigned long f,
                    const size *set, size set_columns, _Bool by_pairs);

int memcmp(const void *a, const void *b, size n);

static long ask_set_word(const byte *levels, const byte *table, const Plan *p, const size *set, const Columns *c, int by_pairs)
{
    asked = "bench_set_word";
    long answer = bench_set_word(levels, (size)p->columns, table, (size)p->entries, c->size, set, (size)c->count, by_pairs);
    asked = "the fuzzer";
    return answer;
}

static void try_lent_set(const Plan *p, const Columns *c, long answer, int by_pairs, int late)
{
    byte *levels = lend(lent_levels, p->levels, p->columns, late);
    byte *table = lend(lent_table, p->table, p->entries, late);
    size *set = lend_numbers(lent_columns, c->columns, c->count, late);
    long got = ask_set_word(levels, table, p, set, c, by_pairs);
    if (got != answer)
        differs(by_pairs ? "bench_set_word by pairs" : "bench_set_word by counts", got, answer);
    else if (memcmp(levels, p->levels, (size)p->columns) != 0 || memcmp(table, p->table, (size)p->entries) != 0)
        differs("levels and table after bench_set_word", 0, 0);
    else if (memcmp(set, c->columns, (size)c->count * sizeof(size)) != 0)
        differs("columns after bench_set_word", 0, 0);
}

/* Damaged once or twice in one of three. */
static void choose_columns(Columns *c, long columns)
{
    draw_columns(c, columns);
    for (long k = draw(3) ? 0 : 1 + (long)draw(2); k > 0; k--)
        damage_columns(c, columns, (int)draw(COLUMN_DAMAGES));
}

void try_set(const Plan *p)
{
    Columns columns;
    choose_columns(&columns, p->columns);
    long answer = reference_set_word(p->levels, p->columns, p->table, p->entries, columns.size, columns.columns, columns.count);
    sets.tried++;
    sets.met[answer < 0 && answer > -16 ? -answer : 0]++; /* an error planted in the reference may give any number */
    int late = (int)draw(2);
    try_lent_set(p, &columns, answer, 0, late);
    try_lent_set(p, &columns, answer, 1, !late);
}
