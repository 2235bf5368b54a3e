/* One work on a plan so many times, for the emulator to count: which, runs,
 * columns, the size of the sets (which the words do not need), times. With a
 * resolution behind these the plan has that one.
 */
#include "algorithms.h"
#include "timing.h"
#include "works.h"

int printf(const char *format, ...);
int strcmp(const char *a, const char *b);
long atol(const char *number);

static const struct {
    const char *name;
    Work *work;
} works[] = {
    { "words", word_of_library },
    { "words-in-c", word_of_c },
    { "words-by-rows-in-c", word_by_rows_of_c },
    { "table", table_of_library },
    { "table-in-c", table_of_c },
    { "set-words-by-counts", set_words_by_counts },
    { "set-words-by-pairs", set_words_by_pairs },
    { "ratio", ratio_of_library },
    { "ratio-in-c", ratio_of_c },
    { "ratio-before-in-c", ratio_before_of_c },
    { "listing", listing_of_library },
};

static Work *work_of(const char *name)
{
    for (unsigned k = 0; k < sizeof works / sizeof *works; k++)
        if (strcmp(name, works[k].name) == 0)
            return works[k].work;
    return 0;
}

static void make(char **sizes, const char *resolution)
{
    if (resolution)
        make_with_resolution(atol(resolution), atol(sizes[0]), atol(sizes[1]));
    else
        make_any(atol(sizes[0]), atol(sizes[1]));
}

int main(int count, char **arguments)
{
    Work *work = count > 5 ? work_of(arguments[1]) : 0;
    if (!work)
        return 2;
    long answer = 0;
    fill_binomials();
    make(arguments + 2, count > 6 ? arguments[6] : 0);
    size = atol(arguments[4]);
    for (long k = atol(arguments[5]); k > 0; k--)
        answer = work();
    printf("%ld\n", answer);
    return 0;
}
