/* Plans of 24 columns that have one level or two: materials bought in one
 * grade, beside others.
 */
#ifndef GRADES_H
#define GRADES_H

#include "plans.h"

/* So many columns have two levels. A run's entry there is the parity of the bits that its number and the column's mask share; it
 * is drawn where there are no masks. */
typedef struct {
    const char *name;
    long several, runs;
    const byte *masks;
} Grades;

/* Those behind the first few take the reference longer; the last is only for the clock. */
enum { SHORT_GRADES = 8, GRADES = 12, TIMED_GRADES = 13 };
extern const Grades grades[TIMED_GRADES];

/* Where the columns of one level stand. */
enum { ONE_LEVEL_FIRST, ONE_LEVEL_LAST, ONE_LEVEL_IN_TURN, ORDERS };
extern const char *const orders[ORDERS];

void make_grades(Plan *p, const Grades *g, int order);

#endif
