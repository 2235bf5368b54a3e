/* Numbers from a seed, the same on every machine, and numbers from a
 * program's arguments.
 */
#ifndef DRAWS_H
#define DRAWS_H

void start_draws(unsigned long seed);

/* Where the row of a seed's numbers begins. */
unsigned long row_of(unsigned long seed);

/* Goes on in another row; gives back the place in the row that was left. */
unsigned long change_row(unsigned long row);

/* 0 to below - 1 */
unsigned long draw(unsigned long below);

/* The decimal number at `place` among a program's arguments, or `otherwise` where there is none. */
unsigned long argument(int count, char **arguments, int place, unsigned long otherwise);

#endif
