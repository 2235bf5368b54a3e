/* Strength and the largest ratio must not be looked for among columns of one
 * level: the time of a listing of 24 columns, many of them of one level, is
 * held against that of a listing of 24 columns of two levels with as many
 * runs. A search over all columns shows most in the half fractions with the
 * columns of one level first: only all the others together are uneven. Where
 * they are four, it would walk past 55,154 sets for strength, and 10,626 for
 * the ratio. The exit status is not 0 where a listing takes more than so many
 * times as long.
 */
#include "grades.h"
#include "draws.h"

enum { AT_MOST = 20, TURNS = 9, LEAST_OF_TURN = 20000, COLUMNS = 24 };

typedef unsigned long size;

long crumb_listing(const byte *text, size length, byte *room, size bytes);
int printf(const char *format, ...);
long clock(void); /* microseconds of the processor, in the C library of x86-64 Linux */

/* As many listings as make a turn that the clock can tell; microseconds of one. */
static double turn(const Text *t)
{
    static byte room[2048];
    long calls = 0, took = 0;
    for (long start = clock(); took < LEAST_OF_TURN; took = clock() - start, calls++)
        crumb_listing(t->bytes, (size)t->length, room, sizeof room);
    return (double)took / (double)calls;
}

static double best_turn(const Plan *p)
{
    static Text text;
    write_text(p, &text);
    double best = turn(&text);
    for (int k = 1; k < TURNS; k++) {
        double next = turn(&text);
        best = next < best ? next : best;
    }
    return best;
}

/* Whether the listings of these plans are slow, in any order of the columns. */
static int is_slow(const Grades *g)
{
    static Plan plan;
    int slow = 0;
    even_plan(&plan, COLUMNS, 2, g->runs);
    double other = best_turn(&plan);
    for (int order = 0; order < ORDERS; order++) {
        make_grades(&plan, g, order);
        double took = best_turn(&plan);
        printf("%-15s %7ld %5ld  %-8s %10.1f %10.1f %7.1f\n",
               g->name, g->several, g->runs, orders[order], took, other, took / other);
        slow |= took > AT_MOST * other;
    }
    return slow;
}

int main(void)
{
    int slow = 0;
    start_draws(20261115);
    printf("%-15s %7s %5s  %-8s %10s %10s %7s\n", "", "several", "runs", "one", "us", "24 of 2 us", "ratio");
    for (int kind = 0; kind < TIMED_GRADES; kind++)
        slow |= is_slow(&grades[kind]);
    printf("%s: at most %d times as long\n", slow ? "NOT at once" : "at once", AT_MOST);
    return slow;
}
