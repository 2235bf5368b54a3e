/* Every question of the library, asked for the tests: what is asked, what the
 * answer is made of, and the two that answer, the library and the reference.
 */
#ifndef ASKED_H
#define ASKED_H

#include "columns.h"
#include "reference.h"

typedef unsigned long size;

/* A plan; `held` is whether it is opened and led through the calls. Call 2f strikes run f, and call 2f + 1 reinstates it. */
typedef struct {
    const byte *levels, *table;
    long columns, entries;
    int held;
    const unsigned long *history;
    long calls;
} Input;

/* CALL asks for one call more, GENERALIZED and what stands before it for held plans alone, DIAGONAL and what stands behind it for
 * plans alone. MARKED is a table of the runs that the marks leave standing, as a C program asks for it. */
enum {
    CALL, WORD, SET_WORD, ABSOLUTE, RELATIVE, GENERALIZED, WORDS, ROW_SUMS, STRENGTH, RESOLUTION, CHART, FIGURE, COMPARISON, ADVICE,
    IN_TURN, DIAGONAL, PLACE, SET_AT, MARKED, QUESTIONS
};

/* Rooms for a table have so many places at most. */
enum { MOST_LINES = 400 };

/* The call, run, length, size, column, number of runs or place that is asked for, for PLACE and SET_AT the columns m, and for MARKED
 * whether the table is relative, and the marks. */
typedef struct {
    int kind;
    unsigned long number, columns;
    Columns set;
    long rooms[3];
    const Input *other;
    unsigned long relative;
    byte marks[260];
    long marked;
} Question;

/* The refusal's number, 0 where there is none, and its places; the numbers of the answer, those of a refusal included; a room that
 * was lent is told whole. An f64 is told by its bits. COMPARISON has no refusal beside its numbers. */
typedef struct {
    unsigned long refused, places[2];
    unsigned long numbers[3 * MOST_LINES + 1];
    long count;
} Answer;

/* What a room holds before a question. */
enum { CANARY = 77777 };

void ask_library(const Input *input, const Question *question, Answer *answer);
void ask_reference(const Input *input, const Question *question, Answer *answer);

/* How often a short cut of the reference gave something else than the definition. */
long asked_disagreements(void);

#endif
