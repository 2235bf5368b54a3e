/* The library and C turn by turn: each time is that of one call, the best of
 * several rounds, in microseconds of the processor; the answer is the library's.
 */
#ifndef TIMING_H
#define TIMING_H

/* Something to be timed; what it answers is compared. */
typedef long Work(void);

typedef struct {
    double library, c;
    int differ;
    long answer;
} Times;

/* So many calls make a turn, and there are so many rounds at least. */
Times turn_by_turn(Work *library, Work *c, long calls, int rounds);

#endif
