/* Sets of columns for the trial and the fuzzer: good ones and damaged ones.
 */
#ifndef COLUMNS_H
#define COLUMNS_H

/* Columns, and the size of the sets that is named beside them. */
typedef struct {
    unsigned long columns[32];
    long count;
    unsigned long size;
} Columns;

/* Sets are asked for up to so many columns. */
enum { MOST_ASKED = 4 };

/* Any one to four columns of a plan that has so many, one where it has none. */
void draw_columns(Columns *c, long columns);

enum {
    SIZE_0, SIZE_5, SIZE_ABOVE, SIZE_DAMAGES, COLUMN_LEFT_OUT = SIZE_DAMAGES, COLUMN_TOO_MANY, COLUMN_TWICE, COLUMNS_FALL,
    COLUMN_OUTSIDE, COLUMN_DAMAGES
};

void damage_columns(Columns *c, long columns, int kind);

/* Which of the refusals 6 and 8 columns deserve, each looked at by itself: bit 6 for refusal 6, and so on. */
unsigned deserved_by_columns(const Columns *c, long columns);

#endif
