/* What was asked, which refusals came up, and where an answer differed.
 */
#ifndef ASKED_TALLY_H
#define ASKED_TALLY_H

#include "asked.h"

/* A plan with its history, and whether the opening was refused. */
void note_case(const Input *input, int refused);

/* A call of a history, refused by this number, 0 where it was accepted. */
void note_call(unsigned long refused);

/* Compares the two answers; the first few that differ are printed, and the next one ends the trial. */
void note_answers(const Input *input, const Question *question, const Answer *got, const Answer *wanted);

/* Prints what was asked, and gives the exit status. So many cases are demanded, each question in one part of so many of them, and
 * every refusal; 0 cases demand nothing. */
int finish_asked(long cases, long parts);

#endif
