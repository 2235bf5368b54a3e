/* Memory for the fuzzer to lend, between two stretches without access.
 */
#ifndef LENT_H
#define LENT_H

#include "reference.h"

typedef struct {
    byte *start;
} Guarded;

extern Guarded lent_text, lent_room, lent_levels, lent_table, lent_losses, lent_numbers, lent_columns;

/* Gets the memory. */
void start_lending(void);

/* A copy of the bytes, its end flush with the stretch behind or its start with the one before. */
byte *lend(Guarded g, const byte *bytes, long length, int late);
unsigned long *lend_numbers(Guarded g, const void *numbers, long count, int late);

/* What a room is filled with before it is lent. */
enum { CANARIES = 20000, CANARY = 0xA5 };
extern byte canaries[CANARIES];

#endif
