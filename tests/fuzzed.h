/* What the fuzzer tried, and where an answer differed or a call trapped.
 */
#ifndef FUZZED_H
#define FUZZED_H

#include "plans.h"

typedef unsigned long size;

typedef struct {
    const char *name;
    long tried, uncompared, met[16];
} Tally;

extern Tally words, listings, writes, rewrites, sets;
extern unsigned long seed, round_now;

/* What this round's inputs are made from. */
extern Text text;

/* The function that is asked just now. */
extern const char *asked;

/* The first few are printed; the next one ends the run. */
void differs(const char *what, long got, long wanted);

/* Takes the signal of a trap. */
void trapped(int number);

/* Prints what was tried, and ends the program. */
void finish(void);

#endif
