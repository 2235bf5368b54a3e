#include "losses.h"
#include "draws.h"

enum { RUNS = 512 };

void lose(Losses *l, long runs, long count)
{
    for (long run = 0; run < runs; run++)
        l->runs[run] = (unsigned long)run;
    for (long k = 0; k < count; k++) {
        unsigned long other = (unsigned long)k + draw((unsigned long)(runs - k)), run = l->runs[other];
        l->runs[other] = l->runs[k];
        l->runs[k] = run;
    }
    l->count = count;
}

void draw_losses(Losses *l, long runs)
{
    unsigned long kind = draw(6);
    long most = runs > 0 ? runs - 1 : 0;
    lose(l, runs, kind == 0 ? 0 : kind == 1 ? most > 0 : kind == 2 ? most : (long)draw((unsigned long)most + 1));
}

/* ---- damaged lists */

static void insert_run(Losses *l, unsigned long run)
{
    long place = (long)draw((unsigned long)l->count + 1);
    for (long k = l->count++; k > place; k--)
        l->runs[k] = l->runs[k - 1];
    l->runs[place] = run;
}

/* The numbers next behind the plan, and numbers that would be a run of it if their upper bits were lost. */
static unsigned long outside(long runs)
{
    unsigned long behind = (unsigned long)runs + draw(2), inside = draw((unsigned long)runs + 1);
    switch (draw(6)) {
    case 0: return behind + draw(300);
    case 1: return (1UL << (draw(2) ? 32 : 63)) + inside;
    case 2: return ~0UL - inside;
    default: return behind;
    }
}

static void name_twice(Losses *l)
{
    if (l->count == 0)
        insert_run(l, 0);
    insert_run(l, l->runs[draw((unsigned long)l->count)]);
}

/* How many runs of the plan are named, each marked. */
static long mark_named(const Losses *l, long runs, char *named)
{
    long count = 0;
    for (long run = 0; run < runs; run++)
        named[run] = 0;
    for (long k = 0; k < l->count; k++)
        if (l->runs[k] < (unsigned long)runs && !named[l->runs[k]]) {
            named[l->runs[k]] = 1;
            count++;
        }
    return count;
}

static void name_every_run(Losses *l, long runs)
{
    char named[RUNS];
    mark_named(l, runs, named);
    for (long run = 0; run < runs; run++)
        if (!named[run])
            l->runs[l->count++] = (unsigned long)run;
}

void damage_losses(Losses *l, long runs, int kind)
{
    switch (kind) {
    case RUN_OUTSIDE: insert_run(l, outside(runs)); break;
    case RUN_TWICE: name_twice(l); break;
    case EVERY_RUN: name_every_run(l, runs); break;
    case LOSSES_257:
        while (l->count < 257)
            l->runs[l->count++] = draw((unsigned long)runs + 1);
        break;
    }
}

unsigned deserved_by_losses(const Losses *l, long runs)
{
    char named[RUNS];
    long inside = 0, different = mark_named(l, runs, named);
    for (long k = 0; k < l->count; k++)
        inside += l->runs[k] < (unsigned long)runs;
    return (unsigned)(inside < l->count) << 8 | (unsigned)(different < inside) << 9 | (unsigned)(l->count > 0 && different == runs) << 10;
}
