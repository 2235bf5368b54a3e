#include "crumbchorus.h"
#include "algorithms.h"
#include "exports.h"
#include "works.h"

long n, m, size, times_struck;

static byte levels[MOST_COLUMNS], table[MOST_RUNS * MOST_COLUMNS];

static Plan plan(void)
{
    Plan plan = { levels, table, m };
    return plan;
}

/* ---- plans */

static uint64_t state = 20261115;

void make_any(long runs, long columns)
{
    n = runs;
    m = columns;
    for (long i = 0; i < m; i++)
        levels[i] = i < 4 ? 3 : 2;
    for (long e = 0; e < n * m; e++) {
        state = state * 6364136223846793005UL + 1442695040888963407UL;
        table[e] = (byte)((state >> 33) % levels[e % m]);
    }
}

static byte text[2 * (MOST_RUNS + 1) * MOST_COLUMNS];
static long text_bytes;

/* Levels and entries of one digit. */
static void write_text(void)
{
    text_bytes = 0;
    for (long e = -m; e < n * m; e++) {
        text[text_bytes++] = '0' + (e < 0 ? levels[e + m] : table[e]);
        text[text_bytes++] = (e + m) % m == m - 1 ? '\n' : ',';
    }
}

/* An entry is the parity of the bits that the run's number and the column's vector share. */
static void make_parities(long runs, long columns, const long *vectors)
{
    n = runs;
    m = columns;
    for (long i = 0; i < m; i++)
        levels[i] = 2;
    for (long e = 0; e < n * m; e++)
        table[e] = __builtin_parityl((e / m) & vectors[e % m]);
    write_text();
}

/* Of how few vectors each number is a sum, when one more vector joins them. */
static void join(long vector, byte *fewest)
{
    for (long v = 0; v < MOST_RUNS; v++)
        if (fewest[v] + 1 < fewest[v ^ vector])
            fewest[v ^ vector] = (byte)(fewest[v] + 1);
}

/* The runs' numbers in rising order, without those that are a sum of R - 2 or fewer of the vectors before them: then no R - 1
 * vectors or fewer add up to zero. */
static long vectors_with_resolution(long resolution, long runs, long columns, long *vectors)
{
    byte fewest[MOST_RUNS];
    long count = 0;
    for (long v = 0; v < MOST_RUNS; v++)
        fewest[v] = v == 0 ? 0 : MOST_COLUMNS + 1;
    for (long v = 1; v < runs && count < columns; v++)
        if (fewest[v] > resolution - 2) {
            vectors[count++] = v;
            join(v, fewest);
        }
    return count;
}

void make_with_resolution(long resolution, long runs, long columns)
{
    long vectors[MOST_COLUMNS];
    make_parities(runs, vectors_with_resolution(resolution, runs, columns, vectors), vectors);
}

/* ---- words */

long word_of_library(void)
{
    return crumb_word(levels, m, table, n * m, 3);
}

long word_of_c(void)
{
    long words[MOST_COLUMNS];
    Runs runs;
    every_run(n, &runs);
    words_in_c(plan(), &runs, words);
    return words[2];
}

long word_by_rows_of_c(void)
{
    long words[MOST_COLUMNS];
    Runs runs;
    every_run(n, &runs);
    words_by_rows_in_c(plan(), &runs, words);
    return words[2];
}

/* ---- strikes, and a recount */

long strikes_of_library(void)
{
    return bench_strikes(levels, m, table, n * m, 3, times_struck);
}

long strikes_of_c(void)
{
    return strikes_in_c(plan(), n, 3, times_struck);
}

long recount_of_library(void)
{
    return crumb_word(levels, m, table + m, (n - 1) * m, 3);
}

long recount_of_c(void)
{
    long words[MOST_COLUMNS];
    Runs runs;
    every_run(n, &runs);
    for (long k = 1; k < n; k++)
        runs.numbers[k - 1] = k;
    runs.count = n - 1;
    words_in_c(plan(), &runs, words);
    return words[2];
}

/* ---- tables and generalized resolution */

static uint64_t nums[MOST_SETS], dens[MOST_SETS], counts[MOST_SETS];

static long mixed(long sum, uint64_t number)
{
    return (long)((uint64_t)sum * 1099511628211UL + number);
}

static long sum_of_table(long lines)
{
    long sum = lines;
    for (long k = 0; k < lines; k++)
        sum = mixed(mixed(mixed(sum, nums[k]), dens[k]), counts[k]);
    return sum;
}

long table_of_library(void)
{
    return sum_of_table(bench_table(levels, m, table, n * m, size, 0, nums, MOST_SETS, dens, MOST_SETS, counts, MOST_SETS));
}

long table_of_c(void)
{
    return sum_of_table(table_in_c(plan(), n, size, 0, nums, dens, counts));
}

long table_by_pairs_of_c(void)
{
    return sum_of_table(table_by_pairs_in_c(plan(), n, size, 0, nums, dens, counts));
}

long set_words_by_counts(void)
{
    return bench_set_words(levels, m, table, n * m, size, 0);
}

long set_words_by_pairs(void)
{
    return bench_set_words(levels, m, table, n * m, size, 1);
}

long ratio_of_library(void)
{
    return bench_ratio(levels, m, table, n * m);
}

long ratio_of_c(void)
{
    return ratio_in_c(plan(), n);
}

long ratio_before_of_c(void)
{
    return ratio_before_in_c(plan(), n);
}

/* ---- the listing */

static byte room[2048];

static long sum_of_listing(long bytes)
{
    long sum = bytes;
    for (long k = 0; k < bytes; k++)
        sum = mixed(sum, room[k]);
    return sum;
}

long listing_of_library(void)
{
    return sum_of_listing(crumb_listing(text, text_bytes, room, sizeof room));
}

long listing_of_c(void)
{
    return sum_of_listing(listing_in_c(text, text_bytes, room));
}

/* ---- tell */

static byte told[144000];
static size_t others[MOST_COLUMNS];

/* 256 runs of 24 columns: column 0 has 16 levels, of which run f has f modulo `occurring`; two of the other columns' entries differ. */
static void make_for_tell(long occurring, int one_cell)
{
    n = MOST_RUNS;
    m = MOST_COLUMNS;
    for (long i = 0; i < m; i++) {
        levels[i] = i == 0 ? 16 : 2;
        others[i] = (size_t)i + 1;
    }
    for (long e = 0; e < n * m; e++)
        table[e] = (byte)(e % m == 0 ? e / m % occurring : one_cell ? 0 : (e / m) >> (e % m - 1) % 8 & 1);
}

void make_one_cell(void)
{
    make_for_tell(15, 1);
}

void make_no_pair(void)
{
    make_for_tell(16, 0);
}

void make_soon_joined(void)
{
    make_for_tell(16, 1);
}

static long sum_of_told(long bytes)
{
    long sum = bytes;
    for (long k = 0; k < bytes; k++)
        sum = mixed(sum, told[k]);
    return sum;
}

long tell_of_library(void)
{
    return sum_of_told(crumb_tell(levels, (size_t)m, table, (size_t)(n * m), 0, 0, 0, others, (size_t)m - 1, told, sizeof told));
}

long tell_of_c(void)
{
    return sum_of_told(tell_in_c(plan(), n, 0, others, m - 1, told));
}
