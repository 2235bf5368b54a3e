/* The lines of `tell`, as include/crumbchorus.h has the call: they go to the
 * front of the room, and the answer is the number of their bytes, or the
 * refusal number negated. `standing` has a byte for each run, 0 where it is
 * struck, or there are no such bytes and all runs stand.
 */
#ifndef TELL_H
#define TELL_H

#include "reference.h"

typedef unsigned long size;

long crumb_tell(const byte *levels, size columns, const byte *table, size entries, const byte *standing, size runs,
                size column, const size *others, size count, byte *room, size bytes);

#endif
