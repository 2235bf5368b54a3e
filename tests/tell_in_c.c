/* The lines of `tell` by the library's algorithm in C, in the place of the
 * library's: each pair of standing runs in turn, and levels joined by giving
 * the higher group the name of the lower. For errors to be planted in it, and
 * for the benchmark. What is refused, tell_questions.c says.
 */
#include "tell.h"
#include "tell_questions.h"

void *memcpy(void *to, const void *from, unsigned long n);

typedef struct {
    long runs[MOST_RUNS], count;
    long groups[MOST_LEVEL], level;
    long left[MOST_LEVEL], right[MOST_LEVEL], many; /* the pairs that joined two groups */
} Joins;

static void fill_question(Question *q, const byte *levels, size columns, const byte *table, size entries,
                          const byte *standing, size runs, size column, const size *others, size count)
{
    for (size i = 0; i < columns; i++)
        q->plan.levels[i] = levels[i];
    for (size k = 0; k < entries; k++)
        q->plan.table[k] = table[k];
    for (size run = 0; run < runs; run++)
        q->standing[run] = standing[run];
    for (size k = 0; k < count; k++)
        q->others[k] = others[k];
    q->plan.columns = (long)columns, q->plan.entries = (long)entries, q->plan.length = 1;
    q->marks = (long)runs, q->count = (long)count;
    q->column = column;
}

/* ---- the levels, joined */

static int occurs(const Question *q, const Joins *joins, long x)
{
    for (long k = 0; k < joins->count; k++)
        if (entry_at(q, joins->runs[k], q->column) == x)
            return 1;
    return 0;
}

static int agree(const Question *q, long f, long g)
{
    const byte *left = q->plan.table + f * q->plan.columns, *right = q->plan.table + g * q->plan.columns;
    for (long k = 0; k < q->count; k++)
        if (left[q->others[k]] != right[q->others[k]])
            return 0;
    return 1;
}

static void list_runs(const Question *q, Joins *joins)
{
    joins->count = 0;
    for (long run = 0; run < q->plan.entries / q->plan.columns; run++)
        if (q->marks == 0 || q->standing[run] != 0)
            joins->runs[joins->count++] = run;
}

static void rename_group(Joins *joins, long from, long to)
{
    for (long x = 0; x < joins->level; x++)
        if (joins->groups[x] == from)
            joins->groups[x] = to;
}

static void join_pair(const Question *q, Joins *joins, long f, long g)
{
    long p = joins->groups[entry_at(q, f, q->column)], r = joins->groups[entry_at(q, g, q->column)];
    if (p == r || !agree(q, f, g))
        return;
    joins->left[joins->many] = f;
    joins->right[joins->many++] = g;
    rename_group(joins, p < r ? r : p, p < r ? p : r);
}

static void join_levels(const Question *q, Joins *joins)
{
    list_runs(q, joins);
    joins->level = q->plan.levels[q->column];
    joins->many = 0;
    for (long x = 0; x < joins->level; x++)
        joins->groups[x] = x;
    for (long k = 0; k < joins->count && joins->many < joins->level - 1; k++)
        for (long l = k + 1; l < joins->count; l++)
            join_pair(q, joins, joins->runs[k], joins->runs[l]);
}

/* ---- the words: the pairs in one cell, by the others' levels */

static long words_of(const Question *q, const Joins *joins)
{
    long sum = 0, level = joins->level, product = 1;
    for (long k = 0; k < q->count; k++)
        product *= q->plan.levels[q->others[k]];
    for (long k = 0; k < joins->count; k++)
        for (long l = 0; l < joins->count; l++) {
            long f = joins->runs[k], g = joins->runs[l];
            if (agree(q, f, g))
                sum += entry_at(q, f, q->column) == entry_at(q, g, q->column) ? level - 1 : -1;
        }
    return (level - 1) * product * sum;
}

static long divisor(long a, long b)
{
    return b == 0 ? a : divisor(b, a % b);
}

/* ---- lines */

static byte *put_word(byte *out, const char *word)
{
    while (*word)
        *out++ = (byte)*word++;
    return out;
}

static byte *put_number(byte *out, long n)
{
    byte digits[20];
    long count = 0;
    do {
        digits[count++] = (byte)('0' + n % 10);
        n /= 10;
    } while (n > 0);
    *out++ = ' ';
    while (count > 0)
        *out++ = digits[--count];
    return out;
}

static byte *put_end(byte *out)
{
    *out++ = 10;
    return out;
}

static byte *put_head(byte *out, const Question *q, const Joins *joins, int yes)
{
    long num = words_of(q, joins), den = joins->count * joins->count, common = divisor(num, den);
    out = put_number(put_word(out, "tell"), (long)q->column);
    for (long k = 0; k < q->count; k++)
        out = put_number(out, (long)q->others[k]);
    out = put_word(put_end(out), yes ? "answer yes\nwords" : "answer no\nwords");
    return put_end(put_number(put_number(out, num / common), den / common));
}

static byte *put_absent(byte *out, const Question *q, const Joins *joins)
{
    for (long x = 0; x < joins->level; x++)
        if (!occurs(q, joins, x))
            out = put_end(put_number(put_word(out, "absent"), x));
    return out;
}

static byte *put_groups(byte *out, const Question *q, const Joins *joins)
{
    for (long g = 0; g < joins->level; g++) {
        if (joins->groups[g] != g || !occurs(q, joins, g))
            continue;
        out = put_word(out, "group");
        for (long x = g; x < joins->level; x++)
            if (joins->groups[x] == g)
                out = put_number(out, x);
        out = put_end(out);
    }
    return out;
}

static byte *put_pairs(byte *out, const Question *q, const Joins *joins)
{
    for (long k = 0; k < joins->many; k++) {
        long f = joins->left[k], g = joins->right[k];
        out = put_number(put_number(put_word(out, "pair"), f), g);
        out = put_number(put_number(out, entry_at(q, f, q->column)), entry_at(q, g, q->column));
        out = put_end(out);
    }
    return out;
}

static long compare_cells(const Question *q, long f, long g)
{
    for (long k = 0; k < q->count; k++) {
        long difference = entry_at(q, f, q->others[k]) - entry_at(q, g, q->others[k]);
        if (difference != 0)
            return difference;
    }
    return 0;
}

/* A run for each cell, in the order of the cells. */
static byte *put_cells(byte *out, const Question *q, const Joins *joins)
{
    for (long last = -1;;) {
        long next = -1;
        for (long k = 0; k < joins->count; k++) {
            long run = joins->runs[k];
            if ((last < 0 || compare_cells(q, last, run) < 0) && (next < 0 || compare_cells(q, run, next) < 0))
                next = run;
        }
        if (next < 0)
            return out;
        out = put_number(put_word(out, "cell"), joins->groups[entry_at(q, next, q->column)]);
        for (long k = 0; k < q->count; k++)
            out = put_number(out, entry_at(q, next, q->others[k]));
        out = put_end(out);
        last = next;
    }
}

static int says_yes(const Question *q, const Joins *joins)
{
    long first = joins->groups[entry_at(q, joins->runs[0], q->column)];
    for (long k = 0; k < joins->count; k++)
        if (joins->groups[entry_at(q, joins->runs[k], q->column)] != first)
            return 0;
    return 1;
}

long crumb_tell(const byte *levels, size columns, const byte *table, size entries, const byte *standing, size runs,
                      size column, const size *others, size count, byte *room, size bytes)
{
    static Question q;
    static byte lines[32768];
    fill_question(&q, levels, columns, table, entries, standing, runs, column, others, count);
    int refused = refusal_of_question(&q);
    if (refused != 0)
        return -refused;
    Joins joins;
    join_levels(&q, &joins);
    int yes = says_yes(&q, &joins);
    byte *out = put_absent(put_head(lines, &q, &joins, yes), &q, &joins);
    out = put_pairs(put_groups(out, &q, &joins), &q, &joins);
    if (!yes)
        out = put_cells(out, &q, &joins);
    long length = out - lines;
    if ((size)length > bytes)
        return -7;
    memcpy(room, lines, (size)length);
    return length;
}
