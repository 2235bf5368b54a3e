/* One input of crumb_write or of crumb_rewrite, tried in several rooms, and
 * what must hold between the two functions.
 */
#ifndef TRIAL_WRITERS_H
#define TRIAL_WRITERS_H

#include "tried.h"

long crumb_write(const byte *levels, size columns, const byte *table, size entries, byte *room, size bytes);
long crumb_rewrite(const byte *text, size length, const size *lost, size losses, byte *room, size bytes, size *numbers, size places);

void try_write(const Plan *p);
void try_rewrite(const Text *t, const Losses *l);

#endif
