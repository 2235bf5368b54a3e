#include "reference.h"

int printf(const char *format, ...);

typedef __int128 wide;

/* ---- refusals 1 to 5 */

static Refusal refusal(int number, long first, long second)
{
    Refusal r = { number, first, second };
    return r;
}

Refusal reference_check(const byte *levels, long columns, const byte *table, long entries)
{
    if (columns < 1 || columns > 24)
        return refusal(1, 0, 0);
    for (long i = 0; i < columns; i++)
        if (levels[i] < 1 || levels[i] > 16)
            return refusal(2, i, 0);
    wide product = 1;
    for (long i = 0; i < columns; i++)
        product *= levels[i];
    if (product > 2000000000)
        return refusal(3, 0, 0);
    if (entries == 0 || entries % columns != 0 || entries / columns > 256)
        return refusal(4, 0, 0);
    for (long run = 0; run < entries / columns; run++)
        for (long i = 0; i < columns; i++)
            if (table[run * columns + i] >= levels[i])
                return refusal(5, run, i);
    return refusal(0, 0, 0);
}

/* ---- a plan with some of its runs */

typedef struct {
    const byte *levels, *table;
    long columns;
    long runs[256];
    long count;
} Plan;

static long entry(const Plan *p, long run, long column)
{
    return p->table[p->runs[run] * p->columns + column];
}

static long score(const Plan *p, long f, long g, long column)
{
    return entry(p, f, column) == entry(p, g, column) ? p->levels[column] - 1 : -1;
}

static Plan whole(const byte *levels, long columns, const byte *table, long entries)
{
    Plan p = { levels, table, columns, { 0 }, entries / columns };
    for (long run = 0; run < p.count; run++)
        p.runs[run] = run;
    return p;
}

/* ---- columns of one level, left out or not */

/* The definition itself is taken up to so many columns. */
enum { SMALL = 10 };

static long disagreements;

/* Good until it is asked for again. */
static Plan without_one_level(const Plan *p)
{
    static byte levels[24], table[256 * 24];
    Plan q = { levels, table, 0, { 0 }, p->count };
    long entries = 0;
    for (long i = 0; i < p->columns; i++)
        if (p->levels[i] > 1)
            levels[q.columns++] = p->levels[i];
    for (long run = 0; run < p->count; run++) {
        q.runs[run] = run;
        for (long i = 0; i < p->columns; i++)
            if (p->levels[i] > 1)
                table[entries++] = (byte)entry(p, run, i);
    }
    return q;
}

static int both_ways(const Plan *p, const Plan *several)
{
    return p->columns <= SMALL && several->columns < p->columns;
}

/* What the definition gives, where the short cut has to give the same. */
static long agreed(long literal, long short_cut)
{
    disagreements += literal != short_cut;
    return literal;
}

long reference_columns(const byte *levels, long columns)
{
    long several = 0;
    for (long i = 0; i < columns; i++)
        several += levels[i] > 1;
    return columns <= SMALL ? columns : several;
}

/* ---- sets of columns, in dictionary order */

static int first_set(long *set, long size, long columns)
{
    for (long k = 0; k < size; k++)
        set[k] = k;
    return size <= columns;
}

static int next_set(long *set, long size, long columns)
{
    for (long k = size - 1; k >= 0; k--)
        if (set[k] < columns - size + k) {
            set[k]++;
            for (long l = k + 1; l < size; l++)
                set[l] = set[l - 1] + 1;
            return 1;
        }
    return 0;
}

/* W(I) */
static long set_word(const Plan *p, const long *set, long size)
{
    long sum = 0;
    for (long f = 0; f < p->count; f++)
        for (long g = 0; g < p->count; g++) {
            long product = 1;
            for (long k = 0; k < size; k++)
                product *= score(p, f, g, set[k]);
            sum += product;
        }
    return sum;
}

static long word_of(const Plan *p, long length)
{
    long set[24], sum = 0;
    for (int more = first_set(set, length, p->columns); more; more = next_set(set, length, p->columns))
        sum += set_word(p, set, length);
    return sum;
}

/* W_j. A set that holds a column of one level has no word: all its scores there are 0. */
static long word(const Plan *p, long length)
{
    Plan several = without_one_level(p);
    long short_cut = word_of(&several, length);
    return both_ways(p, &several) ? agreed(word_of(p, length), short_cut) : short_cut;
}

long reference_word(const byte *levels, long columns, const byte *table, long entries, unsigned long length)
{
    Refusal r = reference_check(levels, columns, table, entries);
    if (r.number != 0)
        return -r.number;
    if (length < 1 || length > (unsigned long)columns)
        return -8;
    Plan p = whole(levels, columns, table, entries);
    return word(&p, (long)length);
}

/* Refusals 1 to 5 and 6; 0 where there is none. */
static int refused_for_size(const byte *levels, long columns, const byte *table, long entries, unsigned long f)
{
    Refusal r = reference_check(levels, columns, table, entries);
    if (r.number != 0)
        return r.number;
    return f < 1 || f > 4 || f > (unsigned long)columns ? 6 : 0;
}

static int is_set(const unsigned long *set, long count, long columns)
{
    for (long k = 0; k < count; k++)
        if (set[k] >= (unsigned long)columns || (k > 0 && set[k] <= set[k - 1]))
            return 0;
    return 1;
}

long reference_set_word(const byte *levels, long columns, const byte *table, long entries, unsigned long f,
                        const unsigned long *set, long count)
{
    long kept[4];
    int refused = refused_for_size(levels, columns, table, entries, f);
    if (refused != 0)
        return -refused;
    if (f != (unsigned long)count || !is_set(set, count, columns))
        return -8;
    for (long k = 0; k < count; k++)
        kept[k] = (long)set[k];
    Plan p = whole(levels, columns, table, entries);
    return set_word(&p, kept, count);
}

long reference_set_words(const byte *levels, long columns, const byte *table, long entries, unsigned long f)
{
    int refused = refused_for_size(levels, columns, table, entries, f);
    if (refused != 0)
        return -refused;
    Plan p = whole(levels, columns, table, entries);
    return word(&p, (long)f);
}

/* ---- strength, from counts of every combination */

static long occurrences(const Plan *p, const long *set, long size, const long *combination)
{
    long count = 0;
    for (long run = 0; run < p->count; run++) {
        int shows = 1;
        for (long k = 0; k < size; k++)
            if (entry(p, run, set[k]) != combination[k])
                shows = 0;
        count += shows;
    }
    return count;
}

static int even(const Plan *p, const long *set, long size)
{
    long combination[24] = { 0 };
    long first = occurrences(p, set, size, combination);
    for (;;) {
        long k = size - 1;
        while (k >= 0 && combination[k] == p->levels[set[k]] - 1)
            combination[k--] = 0;
        if (k < 0)
            return 1;
        combination[k]++;
        if (occurrences(p, set, size, combination) != first)
            return 0;
    }
}

static long strength_of(const Plan *p)
{
    for (long t = p->columns; t > 0; t--) {
        long set[24];
        int balanced = 1;
        for (int more = first_set(set, t, p->columns); more && balanced; more = next_set(set, t, p->columns))
            balanced = even(p, set, t);
        if (balanced)
            return t;
    }
    return 0;
}

/* A column of one level is balanced with anything, so that it adds no more than to a full strength. */
static long strength(const Plan *p)
{
    Plan several = without_one_level(p);
    long found = strength_of(&several), short_cut = found == several.columns ? p->columns : found;
    return both_ways(p, &several) ? agreed(strength_of(p), short_cut) : short_cut;
}

/* ---- fractions */

typedef struct {
    wide num, den;
} Fraction;

static Fraction reduced(wide num, wide den)
{
    wide a = num, b = den;
    while (b != 0) {
        wide rest = a % b;
        a = b;
        b = rest;
    }
    Fraction x = { num / a, den / a };
    return x;
}

static int less(Fraction x, Fraction y)
{
    return x.num * y.den < y.num * x.den;
}

/* ---- resolution, the largest ratio, generalized resolution */

static long resolution(const Plan *p)
{
    for (long j = 1; j <= p->columns; j++)
        if (word(p, j) > 0)
            return j;
    return p->columns + 1;
}

/* W(I)/(n²(s - 1)); 0/1, without a division, where s is 1. */
static Fraction relative_value(const Plan *p, const long *set, long size)
{
    Fraction zero = { 0, 1 };
    long smallest = 16;
    for (long k = 0; k < size; k++)
        if (p->levels[set[k]] < smallest)
            smallest = p->levels[set[k]];
    return smallest == 1 ? zero : reduced(set_word(p, set, size), (wide)p->count * p->count * (smallest - 1));
}

static Fraction largest_of(const Plan *p, long size)
{
    Fraction largest = { 0, 1 };
    long set[24];
    for (int more = first_set(set, size, p->columns); more; more = next_set(set, size, p->columns)) {
        Fraction x = relative_value(p, set, size);
        if (less(largest, x))
            largest = x;
    }
    return largest;
}

static Fraction largest_ratio(const Plan *p, long size)
{
    Plan several = without_one_level(p);
    Fraction short_cut = largest_of(&several, size);
    if (!both_ways(p, &several))
        return short_cut;
    Fraction literal = largest_of(p, size);
    disagreements += less(literal, short_cut) || less(short_cut, literal);
    return literal;
}

/* The smallest q is 1000 at most, since no ratio is above 1. */
static long thousandths(long size, Fraction ratio)
{
    wide q = 0;
    while (q < 1000 && q * q * ratio.den < 1000000 * ratio.num)
        q++;
    return 1000 * (size + 1) - (long)q;
}

/* ---- what is proved of every plan */

static long above_one, off_strength;

/* A resolution that does not exist is given as the number of columns and one, and the strength is then full. */
static void hold_to_theorems(long size, long balanced, Fraction ratio)
{
    Fraction one = { 1, 1 };
    above_one += less(one, ratio);
    off_strength += size != balanced + 1;
}

int reference_fails(void)
{
    printf("the reference by definition and by its short cut: %ld differ\n", disagreements);
    printf("the largest ratios of the reference: %ld above 1\n", above_one);
    printf("the resolutions of the reference: %ld not the strength and one\n", off_strength);
    return disagreements + above_one + off_strength > 0;
}

/* ---- advice */

static Plan without(const Plan *p, long place)
{
    Plan q = *p;
    q.count = 0;
    for (long run = 0; run < p->count; run++)
        if (run != place)
            q.runs[q.count++] = p->runs[run];
    return q;
}

/* Whether the first words are better: smaller at the first length where they differ. Both plans have the same number of columns. */
static int better(const Fraction *x, const Fraction *y, long columns)
{
    for (long j = 1; j <= columns; j++) {
        if (less(x[j], y[j]))
            return 1;
        if (less(y[j], x[j]))
            return 0;
    }
    return 0;
}

static long advice(const Plan *p)
{
    static Fraction losses[256][25];
    for (long f = 0; f < p->count; f++) {
        Plan left = without(p, f);
        for (long j = 1; j <= p->columns; j++) {
            losses[f][j].num = word(&left, j);
            losses[f][j].den = (wide)left.count * left.count;
        }
    }
    for (long f = 0; f < p->count; f++) {
        int beaten = 0;
        for (long g = 0; g < p->count; g++)
            if (better(losses[g], losses[f], p->columns))
                beaten = 1;
        if (!beaten)
            return p->runs[f];
    }
    return -1;
}

/* ---- plan text */

/* One line's numbers; how many, or -1 where it is malformed. */
static long read_line(const byte *line, long length, byte *numbers)
{
    long count = 0, at = 0;
    for (;;) {
        long start = at;
        while (at < length && line[at] >= '0' && line[at] <= '9')
            at++;
        long digits = at - start;
        if (digits < 1 || digits > 2 || (digits == 2 && line[start] == '0'))
            return -1;
        numbers[count++] = digits == 1 ? line[start] - '0' : (line[start] - '0') * 10 + line[start + 1] - '0';
        if (at == length)
            return count;
        if (line[at++] != ',')
            return -1;
    }
}

Refusal reference_read(const byte *text, long length, Read *read)
{
    if (length > 32768)
        return refusal(13, 0, 0);
    read->columns = read->entries = 0;
    long at = 0, line = 1;
    do {
        long end = at;
        while (end < length && text[end] != 10)
            end++;
        if (end == length)
            return refusal(14, line, 0);
        long count = read_line(text + at, end - at, line == 1 ? read->levels : read->table + read->entries);
        if (count < 0 || (line > 1 && count != read->columns))
            return refusal(14, line, 0);
        if (line == 1)
            read->columns = count;
        else
            read->entries += count;
        at = end + 1;
        line++;
    } while (at < length);
    return reference_check(read->levels, read->columns, read->table, read->entries);
}

static byte *number(byte *out, wide n)
{
    byte digits[40];
    int count = 0;
    do
        digits[count++] = (byte)('0' + (int)(n % 10));
    while ((n /= 10) > 0);
    while (count > 0)
        *out++ = digits[--count];
    return out;
}

static byte *end_line(byte *out)
{
    *out++ = 10;
    return out;
}

static byte *put_line(byte *out, const byte *row, long count)
{
    for (long k = 0; k < count; k++) {
        if (k > 0)
            *out++ = ',';
        out = number(out, row[k]);
    }
    return end_line(out);
}

/* How many bytes the text has, or -7. */
static long put_text(const Plan *p, byte *room, long bytes)
{
    static byte text[257 * 24 * 3];
    byte *out = put_line(text, p->levels, p->columns);
    for (long run = 0; run < p->count; run++)
        out = put_line(out, p->table + p->runs[run] * p->columns, p->columns);
    long length = out - text;
    if (length > bytes)
        return -7;
    for (long k = 0; k < length; k++)
        room[k] = text[k];
    return length;
}

long reference_write(const byte *levels, long columns, const byte *table, long entries, byte *room, long bytes)
{
    Refusal r = reference_check(levels, columns, table, entries);
    if (r.number != 0)
        return -r.number;
    Plan p = whole(levels, columns, table, entries);
    return put_text(&p, room, bytes);
}

/* Strikes one run of a plan that had so many; the refusal number, 0 where there is none. */
static int strike(Plan *p, long runs, unsigned long run)
{
    long place = 0;
    while (place < p->count && (unsigned long)p->runs[place] != run)
        place++;
    if (run >= (unsigned long)runs)
        return 8;
    if (place == p->count)
        return 9;
    if (p->count == 1)
        return 10;
    *p = without(p, place);
    return 0;
}

long reference_rewrite(const byte *text, long length, const unsigned long *lost, long losses,
                       byte *room, long bytes, unsigned long *numbers, long places)
{
    static Read read;
    Refusal r = reference_read(text, length, &read);
    if (r.number != 0)
        return -r.number;
    Plan all = whole(read.levels, read.columns, read.table, read.entries), left = all;
    for (long k = 0; k < losses; k++) {
        int refused = strike(&left, all.count, lost[k]);
        if (refused != 0)
            return -refused;
    }
    if (left.count > places)
        return -7;
    long answer = put_text(&left, room, bytes);
    for (long k = 0; answer > 0 && k < left.count; k++)
        numbers[k] = (unsigned long)left.runs[k];
    return answer;
}

/* ---- the listing */

static byte *put(byte *out, const char *name)
{
    while (*name)
        *out++ = (byte)*name++;
    return out;
}

static byte *field(byte *out, wide n)
{
    *out++ = ' ';
    return number(out, n);
}

static byte *put_refusal(byte *out, Refusal r)
{
    return end_line(field(field(field(put(out, "refused"), r.number), r.first), r.second));
}

static byte *put_words(byte *out, const Plan *p)
{
    for (long j = 1; j <= p->columns; j++) {
        Fraction x = reduced(word(p, j), (wide)p->count * p->count);
        out = end_line(field(field(field(put(out, "word"), j), x.num), x.den));
    }
    return out;
}

static byte *put_resolution(byte *out, long size, Fraction ratio)
{
    out = end_line(field(put(out, "resolution"), size));
    out = end_line(field(field(put(out, "ratio"), ratio.num), ratio.den));
    return end_line(field(put(out, "gr"), thousandths(size, ratio)));
}

long reference_listing(const byte *text, long length, byte *out)
{
    static Read read;
    byte *start = out;
    Refusal r = reference_read(text, length, &read);
    if (r.number != 0)
        return put_refusal(out, r) - start;
    Plan p = whole(read.levels, read.columns, read.table, read.entries);
    long size = resolution(&p), balanced = strength(&p);
    Fraction ratio = { 0, 1 };
    if (size <= p.columns)
        ratio = largest_ratio(&p, size);
    hold_to_theorems(size, balanced, ratio);
    out = end_line(field(field(put(out, "plan"), p.count), p.columns));
    out = put_words(out, &p);
    out = end_line(field(put(out, "strength"), balanced));
    out = size <= p.columns ? put_resolution(out, size, ratio) : end_line(put(out, "resolution none"));
    out = p.count < 2 ? end_line(put(out, "lose none")) : end_line(field(put(out, "lose"), advice(&p)));
    return out - start;
}
