/* crumb_write and crumb_rewrite in a round of the fuzzer.
 */
#ifndef FUZZ_WRITERS_H
#define FUZZ_WRITERS_H

#include "fuzzed.h"

void try_write(const Plan *p);

/* This round's text, without runs that are drawn. */
void try_rewrite(void);

#endif
