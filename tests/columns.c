#include "columns.h"
#include "draws.h"

/* Each column in turn, where the draw is for one of those that are wanting. */
void draw_columns(Columns *c, long columns)
{
    long all = columns > 0 ? columns : 1, wanted = 1 + (long)draw((unsigned long)(all < MOST_ASKED ? all : MOST_ASKED));
    c->size = (unsigned long)wanted;
    c->count = 0;
    for (long i = 0; i < all; i++)
        if ((long)draw((unsigned long)(all - i)) < wanted - c->count)
            c->columns[c->count++] = (unsigned long)i;
}

/* ---- damaged sets */

/* The size next above the plan's columns, or one that would be good if its upper bits were lost. */
static unsigned long size_above(long columns)
{
    return draw(4) ? (unsigned long)columns + 1 + draw(3) : (1UL << (draw(2) ? 32 : 63)) + 1 + draw(4);
}

/* The numbers next behind the columns, and numbers that would be one of them if their upper bits were lost. */
static unsigned long outside(long columns)
{
    unsigned long inside = draw((unsigned long)columns + 1);
    switch (draw(4)) {
    case 0: return (1UL << (draw(2) ? 32 : 63)) + inside;
    case 1: return ~0UL - inside;
    default: return (unsigned long)columns + draw(2);
    }
}

static void insert_column(Columns *c, long place, unsigned long column)
{
    for (long k = c->count++; k > place; k--)
        c->columns[k] = c->columns[k - 1];
    c->columns[place] = column;
}

/* In place of its last column, so that what comes before still rises. */
static void go_outside(Columns *c, unsigned long column)
{
    c->count += c->count == 0;
    c->columns[c->count - 1] = column;
}

/* The size goes with it, so that the columns alone are wrong. */
static void name_twice(Columns *c)
{
    if (c->count == 0)
        insert_column(c, 0, 0);
    long place = (long)draw((unsigned long)c->count);
    insert_column(c, place, c->columns[place]);
    c->size = (unsigned long)c->count;
}

static void swap_two(Columns *c)
{
    if (c->count < 2)
        name_twice(c);
    long place = (long)draw((unsigned long)c->count - 1);
    unsigned long kept = c->columns[place];
    c->columns[place] = c->columns[place + 1];
    c->columns[place + 1] = kept;
}

void damage_columns(Columns *c, long columns, int kind)
{
    switch (kind) {
    case SIZE_0: c->size = 0; break;
    case SIZE_5: c->size = 5 + draw(3); break;
    case SIZE_ABOVE: c->size = size_above(columns); break;
    case COLUMN_LEFT_OUT: c->count -= c->count > 0; break;
    case COLUMN_TOO_MANY: insert_column(c, c->count, draw((unsigned long)columns + 1)); break;
    case COLUMN_TWICE: name_twice(c); break;
    case COLUMNS_FALL: swap_two(c); break;
    case COLUMN_OUTSIDE: go_outside(c, outside(columns)); break;
    }
}

static int is_rising_inside(const Columns *c, long columns)
{
    for (long k = 0; k < c->count; k++)
        if (c->columns[k] >= (unsigned long)columns || (k > 0 && c->columns[k] <= c->columns[k - 1]))
            return 0;
    return 1;
}

unsigned deserved_by_columns(const Columns *c, long columns)
{
    int bad_size = c->size < 1 || c->size > MOST_ASKED || c->size > (unsigned long)columns;
    int bad_set = c->size != (unsigned long)c->count || !is_rising_inside(c, columns);
    return (unsigned)bad_size << 6 | (unsigned)bad_set << 8;
}
