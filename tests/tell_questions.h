/* Questions for the trial of `tell`: a plan, marks of the runs that stand, a
 * column and others. Good ones and damaged ones.
 */
#ifndef TELL_QUESTIONS_H
#define TELL_QUESTIONS_H

#include "plans.h"

enum { MOST_RUNS = 256, MOST_LEVEL = 16, MOST_COLUMNS = 24 };

typedef struct {
    Plan plan;
    byte standing[512];       /* 0 where the run is struck */
    long marks;               /* how many of these are handed over, 0 where all runs stand */
    unsigned long column, others[32];
    long count;
} Question;

/* The entry of a run in a column. */
long entry_at(const Question *q, long run, unsigned long column);

/* The runs that stand, rising, into a room for 256; how many they are. */
long standing_runs(const Question *q, long *runs);

/* Whether two runs agree in all other columns. */
int in_one_cell(const Question *q, long f, long g);

/* Any plan that is good, any runs lost, any column and others. */
void draw_question(Question *q);

/* The same question of all runs. */
void all_runs_stand(Question *q);

enum {
    COLUMN_ABOVE = PLAN_DAMAGES, OTHER_ABOVE, OTHER_TWICE, OTHERS_FALL, COLUMN_AMONG, A_MARK_MORE, A_MARK_LESS, NONE_STANDS,
    QUESTION_DAMAGES
};

void damage_question(Question *q, int kind);

/* Which refusals a question deserves, each looked at by itself: bit 1 for refusal 1, and so on. */
unsigned deserved_by_question(const Question *q);

/* The refusal of a question: 1 to 5 of the plan; of the marks 8 where they are not one for each run, and 10 where no run stands; then
 * 8 where the column or another is out of range, the others do not rise, or the column is one of them. 0 where it is answered. */
int refusal_of_question(const Question *q);

/* For where an answer differs. */
void print_question(const Question *q);

#endif
