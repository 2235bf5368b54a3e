/* The lines that answer a question of `tell`, read, and held as evidence to
 * the question: by exact ranks of the linear model's matrices and by the runs
 * themselves. Nothing of the algorithm that joins the levels is here.
 */
#ifndef TOLD_H
#define TOLD_H

#include "tell_questions.h"

typedef struct {
    long asked[32], columns;                       /* the column, then the others */
    int yes;
    long num, den;
    long absent[MOST_LEVEL], absents;
    long group[MOST_LEVEL][MOST_LEVEL], sizes[MOST_LEVEL], groups;
    long pair[MOST_LEVEL][4], pairs;               /* two runs, their levels */
    long cell[MOST_RUNS][MOST_COLUMNS], names[MOST_RUNS], cells; /* the name is the lowest level of the cell's group */
} Told;

/* Reads the lines. Whether they have the form: a word, numbers without leading zeros behind single spaces, byte 10. */
int read_told(const byte *lines, long length, Told *told);

/* What is wrong with an answer to a question that is not refused, or null. */
const char *fault_of(const Question *q, const Told *told);

/* How often the sum of the words by its short cut was not that of the definition, and how often it was held to it. Whether that or
 * an exact rank failed. */
int told_fails(void);

#endif
