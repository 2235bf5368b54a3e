/* The figures of a published table, compared one at a time. A table's line
 * says how many agree, how many are misprints of the source, and how many
 * are not compared.
 */
#ifndef PUBLISHED_TALLY_H
#define PUBLISHED_TALLY_H

#include "plan.h"

void table_begins(const char *name);
void table_ends(void);

/* Over all tables. */
long differences(void);

void same_number(const char *what, long got, long printed);

/* Printed with so many decimals, rounded; a final 0 may be left out. */
void same_decimal(const char *what, Fraction got, double printed, int places);

/* R + 1 less the square root of the ratio, rounded in the same way. */
void same_resolution(const char *what, long resolution, Fraction ratio, double printed, int places);

/* A misprint: the library has to give the number that is right, and the source prints another. */
void misprinted_number(const char *what, long got, long printed, long right);
void misprinted_decimal(const char *what, Fraction got, double printed, double right, int places);

/* What has to hold and is no published figure. */
void must_be(const char *what, long got, long wanted);

void not_compared(long figures);

#endif
