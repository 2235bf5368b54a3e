/* The tables of a source document, a line of output for each. */
#ifndef PUBLISHED_SOURCES_H
#define PUBLISHED_SOURCES_H

#include "triples.h"

void source_000(void);
void source_000_choices(void);
void source_002(void);
void source_003(void);

#endif
