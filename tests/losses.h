/* Lists of lost runs for the trial and the fuzzer: good ones and damaged
 * ones.
 */
#ifndef LOSSES_H
#define LOSSES_H

typedef struct {
    unsigned long runs[1024];
    long count;
} Losses;

/* So many different runs of a plan that has `runs`, in any order. */
void lose(Losses *l, long runs, long count);

/* None, one, all but one, or any number below that. */
void draw_losses(Losses *l, long runs);

enum { RUN_OUTSIDE, RUN_TWICE, EVERY_RUN, LOSSES_257, LOSS_DAMAGES };

void damage_losses(Losses *l, long runs, int kind);

/* Which of the refusals 8, 9 and 10 a list deserves, each looked at by itself: bit 8 for refusal 8, and so on. */
unsigned deserved_by_losses(const Losses *l, long runs);

#endif
