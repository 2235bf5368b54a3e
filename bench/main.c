/* The library and the same algorithms in C at -O3, in one process, turn by
 * turn on the same inputs: prints the times and their ratio. The answers must
 * agree. With the argument `judged` the words of the largest plan may take at
 * most 1.3 times as long as in C. With `judged` and with `emulated` the words
 * of its sets of four columns have to be 20 times faster by counts than by
 * pairs, and the largest ratio over sets of five columns 20 times faster than
 * by pairs in C. With `answers` each work is done once, its answers are
 * compared, and no time is taken.
 */
#include "algorithms.h"
#include "timing.h"
#include "works.h"

int printf(const char *format, ...);
int strcmp(const char *a, const char *b);

static int differ, emulated;

/* ---- lines */

/* How many calls make a turn that the clock can tell: the less a plan's words cost, the more. */
static long calls_in_a_turn(void)
{
    return 1 + 20000000 / (n * n * m * m);
}

static Times timed(Work *library, Work *c)
{
    return turn_by_turn(library, c, calls_in_a_turn(), 1);
}

static double ratio_of(Times times)
{
    return times.library / (times.c > 0 ? times.c : 1);
}

static void print_line(const char *name, Times times)
{
    differ |= times.differ;
    printf("%-26s %4ld %4ld %12.1f %12.1f %6.2f%s\n", name, n, m, times.library, times.c, ratio_of(times),
           times.differ ? "  THE ANSWERS DIFFER" : "");
}

static Times print_timed(const char *name, Work *library, Work *c)
{
    Times times = timed(library, c);
    print_line(name, times);
    return times;
}

static double print_faster(const char *than, Times times)
{
    double faster = times.c / (times.library > 0 ? times.library : 1);
    printf("  times faster than %-17s%12.1f\n", than, faster);
    return faster;
}

/* ---- words */

static void time_words(long runs, long columns)
{
    make_any(runs, columns);
    print_timed("words", word_of_library, word_of_c);
}

/* The line that is judged has every round, however long it takes. */
static double judged_words(void)
{
    make_any(256, 24);
    Times times = turn_by_turn(word_of_library, word_of_c, 1, emulated ? 1 : 100);
    print_line("words", times);
    return ratio_of(times);
}

/* The same plan against every ordered pair of runs: what visiting each pair once saves. */
static void time_words_by_rows(void)
{
    print_timed("words, C by rows", word_of_library, word_by_rows_of_c);
}

/* ---- a strike against a recount */

/* One strike or reinstatement: what many rounds take, less the opening. */
static Times strike_times(void)
{
    times_struck = 0;
    Times opening = timed(strikes_of_library, strikes_of_c);
    times_struck = 200;
    Times whole = timed(strikes_of_library, strikes_of_c);
    double calls = 2 * times_struck;
    int differed = opening.differ | whole.differ;
    Times strike = { (whole.library - opening.library) / calls, (whole.c - opening.c) / calls, differed, whole.answer };
    return strike;
}

static void time_strikes(long runs, long columns)
{
    make_any(runs, columns);
    Times strike = strike_times();
    print_line("strike", strike);
    Times recount = print_timed("recount", recount_of_library, recount_of_c);
    differ |= recount.answer != strike.answer;
    printf("  strikes in a recount               %12.1f %12.1f\n", recount.library / strike.library, recount.c / strike.c);
}

/* ---- tables and generalized resolution */

static void time_table(long runs, long columns, long f)
{
    make_any(runs, columns);
    size = f;
    print_timed(f == 3 ? "table, f = 3" : "table, f = 4", table_of_library, table_of_c);
}

/* The library, by counts, against pairs in C. */
static void time_table_by_pairs(long f)
{
    const char *name = f == 3 ? "table f = 3, C by pairs" : "table f = 4, C by pairs";
    size = f;
    print_faster("by pairs", print_timed(name, table_of_library, table_by_pairs_of_c));
}

/* The library by counts, and in the place of C the library by pairs; how many times faster the one is. */
static double time_set_words(long f)
{
    const char *name = f == 3 ? "set words f = 3, by pairs" : "set words f = 4, by pairs";
    size = f;
    return print_faster("by pairs", print_timed(name, set_words_by_counts, set_words_by_pairs));
}

static void time_ratio(long runs, long columns)
{
    make_with_resolution(3, runs, columns);
    print_timed("generalized resolution", ratio_of_library, ratio_of_c);
}

/* The walk over the sets of R columns: generalized resolution, less that of a plan of the same size with resolution 1, which works
 * out the same words and then walks over single columns. */
static Times walk_times(long resolution)
{
    make_with_resolution(resolution, 256, 24);
    Times whole = turn_by_turn(ratio_of_library, ratio_before_of_c, 1, 1);
    make_any(n, m);
    Times words = turn_by_turn(ratio_of_library, ratio_before_of_c, 1, 1);
    Times walk = { whole.library - words.library, whole.c - words.c, whole.differ | words.differ, whole.answer };
    return walk;
}

/* The library against C of before request #109. The largest ratio of these plans is 1. */
static double time_largest_ratio(const char *name, long resolution)
{
    Times walk = walk_times(resolution);
    walk.differ |= walk.answer != 1000 * resolution;
    print_line(name, walk);
    return print_faster("before", walk);
}

/* How many times faster it is for sets of five columns, which were by pairs before. */
static double time_largest_ratios(void)
{
    time_largest_ratio("largest ratio, R = 3", 3);
    time_largest_ratio("largest ratio, R = 4", 4);
    return time_largest_ratio("largest ratio, R = 5", 5);
}

/* ---- the listing */

static void time_listing(long runs, long columns)
{
    make_with_resolution(3, runs, columns);
    print_timed("listing", listing_of_library, listing_of_c);
}

/* ---- tell */

static void time_tell(void)
{
    make_one_cell();
    print_timed("tell, one cell", tell_of_library, tell_of_c);
    make_no_pair();
    print_timed("tell, no pair", tell_of_library, tell_of_c);
    make_soon_joined();
    print_timed("tell, soon joined", tell_of_library, tell_of_c);
}

/* ---- growth */

/* Each line, and how many times the line before it took. */
static void time_growth(const char *name, const long sizes[][2], long lines)
{
    Times before = { 0, 0, 0 };
    for (long k = 0; k < lines; k++) {
        make_any(sizes[k][0], sizes[k][1]);
        Times times = print_timed(name, word_of_library, word_of_c);
        if (k > 0)
            printf("  times the line before              %12.1f %12.1f\n", times.library / before.library, times.c / before.c);
        before = times;
    }
}

static void time_all_growth(void)
{
    static const long by_runs[][2] = { { 16, 24 }, { 32, 24 }, { 64, 24 }, { 128, 24 }, { 256, 24 } };
    static const long by_columns[][2] = { { 256, 6 }, { 256, 12 }, { 256, 24 } };
    time_growth("words, n grows", by_runs, 5);
    time_growth("words, m grows", by_columns, 3);
}

static void time_tables(void)
{
    time_table(64, 12, 3);
    time_table(64, 12, 4);
    time_table(256, 24, 3);
    time_table(256, 24, 4);
    time_ratio(64, 12);
    time_ratio(256, 24);
    time_listing(64, 12);
    time_listing(256, 24);
    time_tell();
}

/* The largest plan; how many times faster the words of its sets of four columns are by counts. */
static double time_by_pairs(void)
{
    make_any(256, 24);
    time_table_by_pairs(3);
    time_table_by_pairs(4);
    time_set_words(3);
    return time_set_words(4);
}

static int verdict(int slow, int not_faster, int ratio_not_faster)
{
    printf(differ ? "the answers differ\n" : "the answers agree\n");
    if (slow)
        printf("the words of the largest plan take more than 1.3 times the time of C\n");
    if (not_faster)
        printf("the words of the largest plan's sets of four columns are not 20 times faster by counts than by pairs\n");
    if (ratio_not_faster)
        printf("the largest ratio over sets of five columns is not 20 times faster than before\n");
    return differ || slow || not_faster || ratio_not_faster;
}

/* ---- answers alone */

static void compare(const char *name, Work *library, Work *c)
{
    int differed = library() != c();
    differ |= differed;
    printf("%-26s %4ld %4ld%s\n", name, n, m, differed ? "  THE ANSWERS DIFFER" : "");
}

static void compare_words(long runs, long columns)
{
    make_any(runs, columns);
    compare("words", word_of_library, word_of_c);
    compare("words, C by rows", word_of_library, word_by_rows_of_c);
    times_struck = 3;
    compare("strike", strikes_of_library, strikes_of_c);
    compare("recount", recount_of_library, recount_of_c);
    compare("strike, recount", strikes_of_library, recount_of_c);
}

static void compare_tables(long f)
{
    size = f;
    compare(f == 3 ? "table, f = 3" : "table, f = 4", table_of_library, table_of_c);
}

static void compare_by_pairs(long f)
{
    size = f;
    compare(f == 3 ? "table f = 3, C by pairs" : "table f = 4, C by pairs", table_of_library, table_by_pairs_of_c);
    compare(f == 3 ? "set words f = 3, by pairs" : "set words f = 4, by pairs", set_words_by_counts, set_words_by_pairs);
}

static void compare_ratios(long resolution, long runs, long columns)
{
    make_with_resolution(resolution, runs, columns);
    compare("generalized resolution", ratio_of_library, ratio_of_c);
    compare("listing", listing_of_library, listing_of_c);
}

static void compare_tell(void)
{
    make_one_cell();
    compare("tell, one cell", tell_of_library, tell_of_c);
    make_no_pair();
    compare("tell, no pair", tell_of_library, tell_of_c);
    make_soon_joined();
    compare("tell, soon joined", tell_of_library, tell_of_c);
}

/* On the plans that are timed; what is slow by pairs on those of 64 runs. */
static void compare_all(void)
{
    compare_words(16, 5);
    compare_words(64, 12);
    compare_tables(3), compare_tables(4);
    compare_by_pairs(3), compare_by_pairs(4);
    compare_words(256, 24);
    compare_tables(3), compare_tables(4);
    for (long resolution = 3; resolution <= 5; resolution++) {
        compare_ratios(resolution, 64, 12);
        compare("largest ratio, C before", ratio_of_library, ratio_before_of_c);
        compare_ratios(resolution, 256, 24);
    }
    compare_tell();
}

int main(int count, char **arguments)
{
    int judged = count > 1 && strcmp(arguments[1], "judged") == 0;
    emulated = count > 1 && strcmp(arguments[1], "emulated") == 0;
    fill_binomials();
    if (count > 1 && strcmp(arguments[1], "answers") == 0) {
        printf("each work once, by the library and in C; no time is taken\n%-26s %4s %4s\n", "", "runs", "cols");
        compare_all();
        return verdict(0, 0, 0);
    }
    printf("%-26s %4s %4s %12s %12s %6s\n", "", "runs", "cols", "library us", "C us", "ratio");
    time_words(16, 5);
    time_words(64, 12);
    double ratio = judged_words();
    time_words_by_rows();
    time_strikes(64, 12);
    time_strikes(256, 24);
    time_tables();
    double ratio_faster = time_largest_ratios();
    double faster = time_by_pairs();
    time_all_growth();
    int one_of_both = judged || emulated;
    return verdict(judged && ratio > 1.3, one_of_both && faster < 20, one_of_both && ratio_faster < 20);
}
