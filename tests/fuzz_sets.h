/* bench_set_word in a round of the fuzzer.
 */
#ifndef FUZZ_SETS_H
#define FUZZ_SETS_H

#include "fuzzed.h"

/* Columns of the plan that are drawn, by both of the library's engines. */
void try_set(const Plan *p);

#endif
