#include "tried.h"

int printf(const char *format, ...);
void exit(int status);

enum { LEAST = 100000, LEAST_SETS = 50000, LEAST_SET_WORDS = 15000, LEAST_LEVELS = 10000, DIFFERENCES = 10 };

Tally words = { "crumb_word", LEAST, WORD_DAMAGES, { 1, 2, 3, 4, 5, 8 } };
Tally listings = { "crumb_listing", LEAST, LISTING_DAMAGES, { 13, 14, 1, 2, 3, 4, 5, 7 } };
Tally writes = { "crumb_write", LEAST, PLAN_DAMAGES, { 1, 2, 3, 4, 5, 7 } };
Tally rewrites = { "crumb_rewrite", LEAST, REWRITE_DAMAGES, { 13, 14, 1, 2, 3, 4, 5, 8, 9, 10, 7 } };
Tally sets = { "bench_set_word", LEAST_SETS, SET_DAMAGES, { 1, 2, 3, 4, 5, 6, 8 } };
Tally set_words = { "bench_set_words", LEAST_SET_WORDS, SET_WORDS_DAMAGES, { 1, 2, 3, 4, 5, 6 } };
static Tally *const tallies[] = { &words, &listings, &writes, &rewrites, &sets, &set_words };
enum { TALLIES = sizeof tallies / sizeof *tallies };
static long differences;

/* Plans that were generated: without a column of one level, with such a one beside others, of such ones alone. */
static long without, beside, alone;

void note_levels(const Plan *p)
{
    long ones = 0;
    for (long i = 0; i < p->columns; i++)
        ones += p->levels[i] == 1;
    without += ones == 0;
    beside += ones > 0 && ones < p->columns;
    alone += ones == p->columns;
}

void note_at_once(Tally *tally, unsigned refusals)
{
    for (int a = 1; a < 16; a++)
        for (int b = 1; b < 16; b++)
            tally->at_once[a][b] += refusals >> a & refusals >> b & 1;
}

void note_answer(Tally *tally, long answer)
{
    tally->tried++;
    tally->met[answer < 0 ? -answer : 0]++;
    tally->met[7] += answer >= 0;
}

void note_word(Tally *tally, long answer)
{
    tally->tried++;
    tally->met[answer < 0 && answer > -16 ? -answer : 0]++; /* an error planted in the reference may give any number */
}

/* ---- at the end */

static void print_met(const Tally *tally)
{
    printf("%s: %ld tried, %ld answered; refusals met:", tally->name, tally->tried, tally->met[0]);
    for (const int *number = tally->refusals; *number; number++)
        printf(" %d (%ld)", *number, tally->met[*number]);
    printf("\n");
}

static long refusals_missing(const Tally *tally)
{
    long missing = 0;
    for (const int *number = tally->refusals; *number; number++)
        missing += tally->met[*number] == 0;
    return missing;
}

static long two_refusals_missing(const Tally *tally)
{
    long missing = 0, least = tally->tried;
    for (const int *a = tally->refusals; *a; a++)
        for (const int *b = a + 1; *b; b++) {
            long count = tally->at_once[*a][*b];
            missing += count == 0;
            least = count < least ? count : least;
        }
    printf("%s: every two refusals at once, each two at least %ld times\n", tally->name, least);
    return missing;
}

static long damages_missing(const Tally *tally)
{
    long missing = 0, all = tally->damages * tally->damages;
    for (int a = 0; a < tally->damages; a++)
        for (int b = 0; b < tally->damages; b++)
            missing += tally->damaged[a][b] == 0;
    printf("%s: %ld of %ld ordered pairs of damages\n", tally->name, all - missing, all);
    return missing;
}

static int too_little(const Tally *tally, long parts)
{
    long missing = refusals_missing(tally) + two_refusals_missing(tally) + damages_missing(tally);
    int few = tally->tried < tally->least / parts || missing > 0;
    if (few)
        printf("%s: NOT enough was tried\n", tally->name);
    return few;
}

static int too_few_levels(long parts)
{
    long least = LEAST_LEVELS / parts;
    int few = without < least || beside < least || alone < least;
    if (few)
        printf("columns of one level: NOT enough was tried\n");
    return few;
}

void finish(long parts)
{
    int status = differences > 0;
    printf("plans generated: %ld without a column of one level, %ld with such beside others, %ld of such alone\n",
           without, beside, alone);
    for (int k = 0; k < TALLIES; k++)
        print_met(tallies[k]);
    for (int k = 0; parts && k < TALLIES; k++)
        status |= too_little(tallies[k], parts);
    status |= parts && too_few_levels(parts);
    status |= reference_fails();
    printf("%s: %ld differ\n", differences == 0 ? "the same" : "NOT the same", differences);
    exit(status);
}

/* ---- what differs */

void differs(const char *what, long got, long wanted)
{
    if (differences == DIFFERENCES)
        finish(0);
    differences++;
    printf("differs: %s gives %ld, the reference %ld", what, got, wanted);
}

void print_plan(const Plan *p)
{
    printf("; length %lu, levels", p->length);
    for (long i = 0; i < p->columns; i++)
        printf(" %d", p->levels[i]);
    printf(", %ld entries", p->entries);
    for (long k = 0; k < p->entries && k < 40; k++)
        printf(" %d", p->table[k]);
    printf("\n");
}

void print_text(const Text *t)
{
    printf("; text of %ld bytes:\n%.*s\n", t->length, (int)(t->length < 200 ? t->length : 200), (const char *)t->bytes);
}

void print_losses(const Losses *l)
{
    printf("; %ld lost:", l->count);
    for (long k = 0; k < l->count && k < 40; k++)
        printf(" %lu", l->runs[k]);
}

void print_columns(const Columns *c)
{
    printf("; size %lu, columns", c->size);
    for (long k = 0; k < c->count; k++)
        printf(" %lu", c->columns[k]);
}
