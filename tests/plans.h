/* Plans and plan texts for the trial: good ones, arrays with strength, and
 * damaged ones.
 */
#ifndef PLANS_H
#define PLANS_H

#include "reference.h"

/* A plan and the length of the word that is asked for. */
typedef struct {
    byte levels[64], table[16384];
    long columns, entries;
    unsigned long length;
} Plan;

typedef struct {
    byte bytes[40000];
    long length;
} Text;

/* ---- good plans */

void small_plan(Plan *p);
void medium_plan(Plan *p);
void large_plan(Plan *p);

/* Any number of columns and of runs. */
void wide_plan(Plan *p);

/* Every combination of levels once. */
void full_factorial(Plan *p);

/* Every combination of some columns with the same level; each further column is a sum of multiples of those. */
void regular_fraction(Plan *p);

/* Columns with the same level, entries drawn, the first run all zero. */
void even_plan(Plan *p, long columns, byte level, long runs);

/* One column more, of one level. */
void insert_one_level(Plan *p, long place);

void take_runs_out(Plan *p, long count);
void repeat_runs(Plan *p);
void shuffle_runs(Plan *p);

/* A small plan for the most part, one in three an array with strength. */
void a_plan(Plan *p);

/* ---- damaged plans */

enum {
    NO_COLUMN, COLUMNS_25, LEVEL_0, LEVEL_17, LEVEL_ABOVE_16, PRODUCT_ABOVE, NO_RUN, TABLE_CUT, RUNS_257, ENTRY_FAR_ABOVE,
    ENTRY_AT_LEVEL, PLAN_DAMAGES, LENGTH_0 = PLAN_DAMAGES, LENGTH_ABOVE, WORD_DAMAGES
};

void damage(Plan *p, int kind);

/* Which of the refusals 1 to 5 and 8 a plan deserves, each looked at by itself: bit 1 for refusal 1, and so on. */
unsigned deserved(const Plan *p);

/* ---- texts */

enum { NO_BYTE, UNENDED, BYTE_REPLACED, BYTE_INSERTED, BYTE_CUT, EMPTY_LINE, BYTES_32768, BYTES_32769, TEXT_DAMAGES };

void write_text(const Plan *p, Text *t);
void damage_text(Text *t, int kind);

/* Lines of so many small numbers until the text has `length` bytes; at least four lines must be wanting. */
void fill_text(Text *t, long columns, long length);

/* A small plan with two damages and its text: those of the plan come before it is written, those of the text, numbered from
 * PLAN_DAMAGES, after. Numbers past these are no damage to either. */
void damaged_text(Plan *p, Text *t, int a, int b);

/* Which of the refusals 13, 14 and 1 to 5 a text deserves, each looked at by itself; the plan is the one that it was written from. */
unsigned deserved_by_text(const Plan *p, const Text *t);

#endif
