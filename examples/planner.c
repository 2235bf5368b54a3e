/* A humidity correction rests on a trial of membrane (three grades), potting
 * (two), cure (two) and lot (two). Two chamber runs were lost. Can the runs
 * that are left still tell a membrane effect from potting and cure acting
 * together?
 *
 * The word of length 3 of the columns membrane, potting and cure says how far
 * the two are mixed up; its words of length 1 and 2 say whether the columns
 * are still balanced, alone and in pairs. Each is divided by the square of
 * the runs.
 */
#include <stdio.h>
#include "crumbchorus.h"

enum { COLUMNS = 4, RUNS = 12, ASKED = 3 };

static const uint8_t levels[COLUMNS] = { 3, 2, 2, 2 };

static const uint8_t trial[RUNS][COLUMNS] = {
    /* membrane, potting, cure, lot */
    { 0, 0, 0, 0 }, { 0, 0, 1, 1 }, { 0, 1, 0, 1 }, { 0, 1, 1, 0 },
    { 1, 0, 0, 1 }, { 1, 0, 1, 0 }, { 1, 1, 0, 0 }, { 1, 1, 1, 1 },
    { 2, 0, 0, 0 }, { 2, 0, 1, 1 }, { 2, 1, 0, 1 }, { 2, 1, 1, 0 },
};

/* The words of the first `columns` columns of the runs that are not lost. */
static void words(const char *title, size_t columns, const int *lost, int losses)
{
    uint8_t table[RUNS * COLUMNS];
    size_t entries = 0, runs = 0;
    for (int run = 0; run < RUNS; run++) {
        int stands = 1;
        for (int k = 0; k < losses; k++)
            if (lost[k] == run)
                stands = 0;
        if (!stands)
            continue;
        for (size_t i = 0; i < columns; i++)
            table[entries++] = trial[run][i];
        runs++;
    }
    printf("%s, %d runs:\n", title, (int)runs);
    for (uint64_t length = 1; length <= columns; length++) {
        int64_t word = crumb_word(levels, columns, table, entries, length);
        if (word < 0)
            printf("  length %d: refused, %d\n", (int)length, (int)-word);
        else
            printf("  length %d: %ld / %ld\n", (int)length, (long)word, (long)(runs * runs));
    }
}

int main(void)
{
    static const int lost[2] = { 5, 10 };
    words("membrane, potting, cure", ASKED, lost, 0);
    words("membrane, potting, cure, without runs 5 and 10", ASKED, lost, 2);
    words("all four columns", COLUMNS, lost, 0);
    words("all four columns, without runs 5 and 10", COLUMNS, lost, 2);
    static const uint8_t wrong[COLUMNS] = { 0, 0, 2, 0 };
    printf("an entry that is not below its level: %ld\n", (long)crumb_word(levels, COLUMNS, wrong, sizeof wrong, 1));
    return 0;
}
