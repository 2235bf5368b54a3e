#include "timing.h"

long clock(void); /* microseconds of the processor, in the C library of x86-64 Linux */

/* A line has 100 rounds, or as many as begin within a second. */
enum { MOST_ROUNDS = 100, LONGEST_LINE = 1000000 };

typedef struct {
    long least, answer;
} Turn;

static long take(Turn *turn, Work *work, long calls)
{
    long start = clock();
    for (long k = 0; k < calls; k++)
        turn->answer = work();
    long took = clock() - start;
    if (turn->least < 0 || took < turn->least)
        turn->least = took;
    return took;
}

Times turn_by_turn(Work *library, Work *c, long calls, int rounds)
{
    Turn ours = { -1, 0 }, theirs = { -1, 0 };
    long spent = 0;
    for (int round = 0; round < rounds || (round < MOST_ROUNDS && spent < LONGEST_LINE); round++) {
        spent += take(&ours, library, calls);
        spent += take(&theirs, c, calls);
    }
    Times times = { (double)ours.least / calls, (double)theirs.least / calls, ours.answer != theirs.answer, ours.answer };
    return times;
}
