/* What the trial tried, which refusals it met, and where an answer differed.
 */
#ifndef TRIED_H
#define TRIED_H

#include "columns.h"
#include "losses.h"
#include "plans.h"

typedef unsigned long size;

enum { LISTING_DAMAGES = PLAN_DAMAGES + TEXT_DAMAGES, REWRITE_DAMAGES = LISTING_DAMAGES + LOSS_DAMAGES, DAMAGES = REWRITE_DAMAGES };
enum { SET_DAMAGES = PLAN_DAMAGES + COLUMN_DAMAGES, SET_WORDS_DAMAGES = PLAN_DAMAGES + SIZE_DAMAGES };

typedef struct {
    const char *name;
    long least;                  /* so often it has to be tried */
    int damages;
    int refusals[12];            /* those that can be met, in the order of the checks, closed by 0 */
    long tried, met[16];         /* by refusal number, answers at 0 */
    long at_once[16][16];        /* inputs that deserve both */
    long damaged[DAMAGES][DAMAGES];
} Tally;

extern Tally words, listings, writes, rewrites, sets, set_words;

/* A good plan that was generated. */
void note_levels(const Plan *p);

/* An input that deserves these refusals, bit 1 for refusal 1, and so on. */
void note_at_once(Tally *tally, unsigned refusals);

/* An input that was answered, or refused by this number negated; one that is answered is also tried in a room too small. */
void note_answer(Tally *tally, long answer);

/* The same of a word, which has no room. */
void note_word(Tally *tally, long answer);

/* The first few are printed; the next one ends the trial. */
void differs(const char *what, long got, long wanted);

/* Behind what differs. */
void print_plan(const Plan *p);
void print_text(const Text *t);
void print_losses(const Losses *l);
void print_columns(const Columns *c);

/* Prints what was tried, and ends the program. Demanded is one part of so many of a full run; 0 demands nothing. */
void finish(long parts);

#endif
