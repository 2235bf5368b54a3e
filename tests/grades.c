#include "grades.h"

enum { COLUMNS = 24 };

/* The last column of a half fraction is the sum of the others. */
static const byte factorial[] = { 1, 2, 4, 8 };
static const byte half_of_4[] = { 1, 2, 4, 7 };
static const byte half_of_6[] = { 1, 2, 4, 8, 16, 31 };
static const byte half_of_9[] = { 1, 2, 4, 8, 16, 32, 64, 128, 255 };
static const byte strength_2[] = { 1, 2, 3, 4, 5, 6, 7, 8, 9, 10, 11, 12 };

const Grades grades[TIMED_GRADES] = {
    { "none", 0, 5, 0 },
    { "balanced", 1, 2, factorial },
    { "one run", 1, 1, factorial },
    { "drawn", 1, 5, 0 },
    { "full factorial", 4, 16, factorial },
    { "half fraction", 4, 8, half_of_4 },
    { "drawn", 4, 8, 0 },
    { "drawn", 12, 4, 0 },
    { "half fraction", 6, 32, half_of_6 },
    { "strength 2", 12, 16, strength_2 },
    { "drawn", 20, 2, 0 },
    { "drawn", 23, 1, 0 },
    { "half fraction", 9, 256, half_of_9 },
};

const char *const orders[ORDERS] = { "first", "last", "in turn" };

static void fill_by_masks(Plan *p, const byte *masks)
{
    for (long k = 0; k < p->entries; k++)
        p->table[k] = (byte)__builtin_parityl((unsigned long)(k / p->columns) & masks[k % p->columns]);
}

void make_grades(Plan *p, const Grades *g, int order)
{
    if (g->several == 0)
        even_plan(p, 1, 1, g->runs);
    else
        even_plan(p, g->several, 2, g->runs);
    if (g->masks)
        fill_by_masks(p, g->masks);
    for (long k = 0; p->columns < COLUMNS; k++) {
        long in_turn = 2 * k < p->columns ? 2 * k : p->columns;
        insert_one_level(p, order == ONE_LEVEL_FIRST ? 0 : order == ONE_LEVEL_LAST ? p->columns : in_turn);
    }
}
