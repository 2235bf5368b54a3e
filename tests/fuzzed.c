#include "fuzzed.h"

int printf(const char *format, ...);
void exit(int status);

enum { DIFFERENCES = 10 };

Tally words = { .name = "crumb_word" }, listings = { .name = "crumb_listing" };
Tally writes = { .name = "crumb_write" }, rewrites = { .name = "crumb_rewrite" }, sets = { .name = "bench_set_word" };
unsigned long seed, round_now;
Text text;
const char *asked = "the fuzzer";
static long differences;

static void print_tally(const Tally *tally)
{
    printf("%s: %ld tried, %ld answered, of which %ld too large to compare; refused:",
           tally->name, tally->tried, tally->met[0], tally->uncompared);
    for (int number = 1; number < 16; number++)
        if (tally->met[number] > 0)
            printf(" %d (%ld)", number, tally->met[number]);
    printf("\n");
}

void finish(void)
{
    print_tally(&words);
    print_tally(&listings);
    print_tally(&writes);
    print_tally(&rewrites);
    print_tally(&sets);
    int fails = reference_fails();
    printf("%s: %ld differ\n", differences == 0 ? "the same" : "NOT the same", differences);
    exit(differences != 0 || fails);
}

static void print_input(void)
{
    for (long k = 0; k < text.length && k < 400; k++)
        printf(text.bytes[k] >= ' ' && text.bytes[k] < 127 && text.bytes[k] != '\\' ? "%c" : "\\%03o", text.bytes[k]);
    printf("\n");
}

void differs(const char *what, long got, long wanted)
{
    if (differences == DIFFERENCES)
        finish();
    differences++;
    printf("differs in round %lu: %s gives %ld, not %ld, made from %ld bytes: ", round_now, what, got, wanted, text.length);
    print_input();
}

/* Nothing else runs when the library traps, so that printing is safe here. */
void trapped(int number)
{
    printf("trapped in %s by signal %d in round %lu, seed %lu, made from %ld bytes: ", asked, number, round_now, seed, text.length);
    print_input();
    exit(1);
}
