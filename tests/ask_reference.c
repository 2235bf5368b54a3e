/* Every answer from its definition in document 01, with no code of the
 * product and none of tests/reference.c but the checks of a plan. It adds up
 * whole numbers alone: an f64 is made from its fraction, bit by bit.
 *
 * There are two short cuts, for plans of more than eight columns. The sums
 * over all sets of j columns are the coefficients of a product, and the search
 * for the strength stops at the first t that fails. In a smaller plan the
 * definition is taken, and the short cut has to give the same.
 */
#include "asked.h"

typedef __int128 wide;

/* Some runs of a plan, rising, and the refusal that a call begins with. */
typedef struct {
    const byte *levels, *table;
    long columns, all;
    long runs[256], count;
    Refusal start;
} Runs;

static const Refusal accepted = { 0, 0, 0 };

static Refusal plain(int number)
{
    Refusal r = { number, 0, 0 };
    return r;
}

/* ---- opening, strike and reinstatement */

static Runs none(const Refusal start)
{
    Runs r = { .start = start };
    return r;
}

static Runs of_plan(const Input *x)
{
    Refusal refused = reference_check(x->levels, x->columns, x->table, x->entries);
    if (refused.number != 0)
        return none(refused);
    Runs r = { x->levels, x->table, x->columns, x->entries / x->columns, { 0 }, x->entries / x->columns, accepted };
    for (long f = 0; f < r.all; f++)
        r.runs[f] = f;
    return r;
}

static long place_of_run(const Runs *r, unsigned long run)
{
    for (long k = 0; k < r->count; k++)
        if ((unsigned long)r->runs[k] == run)
            return k;
    return -1;
}

static Runs without(const Runs *r, long place)
{
    Runs left = *r;
    left.count = 0;
    for (long k = 0; k < r->count; k++)
        if (k != place)
            left.runs[left.count++] = r->runs[k];
    return left;
}

static void put_back(Runs *r, long run)
{
    long k = r->count++;
    for (; k > 0 && r->runs[k - 1] > run; k--)
        r->runs[k] = r->runs[k - 1];
    r->runs[k] = run;
}

/* The refusal's number, 0 where there is none. */
static int make_call(Runs *r, unsigned long call)
{
    unsigned long run = call / 2;
    int strikes = call % 2 == 0;
    long place = place_of_run(r, run);
    if (run >= (unsigned long)r->all)
        return 8;
    if (strikes != (place >= 0))
        return 9;
    if (strikes && r->count < 2)
        return 10;
    if (strikes)
        *r = without(r, place);
    else
        put_back(r, (long)run);
    return 0;
}

/* A refused opening leaves no column and no run. */
static Runs of_held(const Input *x)
{
    Runs r = of_plan(x);
    for (long k = 0; k < x->calls; k++)
        make_call(&r, x->history[k]);
    r.start = r.count < 1 ? plain(10) : accepted;
    return r;
}

static Runs asked_of(const Input *x)
{
    return x->held ? of_held(x) : of_plan(x);
}

/* ---- scores, and the sums of their products */

enum { FEW_COLUMNS = 8 };

static long disagreements;

static long score(const Runs *r, long f, long g, long i)
{
    return r->table[f * r->columns + i] == r->table[g * r->columns + i] ? r->levels[i] - 1 : -1;
}

/* Over the sets of j columns, a set being a number whose bits are its members. */
static void by_sets(const long *scores, long columns, long *sums)
{
    for (long set = 0; set < 1L << columns; set++) {
        long members = 0, product = 1;
        for (long i = 0; i < columns; i++)
            if (set >> i & 1) {
                product *= scores[i];
                members++;
            }
        sums[members] += product;
    }
}

/* The coefficients of the product of all 1 + score·x. */
static void by_coefficients(const long *scores, long columns, long *sums)
{
    sums[0] = 1;
    for (long i = 0; i < columns; i++)
        for (long j = i + 1; j > 0; j--)
            sums[j] += scores[i] * sums[j - 1];
}

/* For each length j the sum, over the sets of j columns, of the product of the scores. */
static void sums_of_products(const long *scores, long columns, long *sums)
{
    long short_cut[25] = { 0 };
    for (long j = 0; j < 25; j++)
        sums[j] = 0;
    by_coefficients(scores, columns, columns > FEW_COLUMNS ? sums : short_cut);
    if (columns > FEW_COLUMNS)
        return;
    by_sets(scores, columns, sums);
    for (long j = 0; j <= columns; j++)
        disagreements += sums[j] != short_cut[j];
}

long asked_disagreements(void)
{
    return disagreements;
}

/* What each ordered pair of runs adds to the words. Good until another plan is asked about. */
static long pairs[256][256][25];

static void fill_pairs(const Runs *r)
{
    long scores[24];
    for (long f = 0; f < r->all; f++)
        for (long g = 0; g < r->all; g++) {
            for (long i = 0; i < r->columns; i++)
                scores[i] = score(r, f, g, i);
            sums_of_products(scores, r->columns, pairs[f][g]);
        }
}

static long row_sum(const Runs *r, long run, long j)
{
    long sum = 0;
    for (long k = 0; k < r->count; k++)
        sum += pairs[run][r->runs[k]][j];
    return sum;
}

/* W_j */
static long word(const Runs *r, long j)
{
    long sum = 0;
    for (long k = 0; k < r->count; k++)
        sum += row_sum(r, r->runs[k], j);
    return sum;
}

/* ---- sets of columns in dictionary order */

static int first_set(long *set, long f, long columns)
{
    for (long k = 0; k < f; k++)
        set[k] = k;
    return f <= columns;
}

static int next_set(long *set, long f, long columns)
{
    long k = f - 1;
    while (k >= 0 && set[k] == columns - f + k)
        k--;
    if (k < 0)
        return 0;
    for (set[k]++; k + 1 < f; k++)
        set[k + 1] = set[k] + 1;
    return 1;
}

/* W(I) */
static long set_word(const Runs *r, const long *set, long f)
{
    long sum = 0;
    for (long a = 0; a < r->count; a++)
        for (long b = 0; b < r->count; b++) {
            long product = 1;
            for (long k = 0; k < f; k++)
                product *= score(r, r->runs[a], r->runs[b], set[k]);
            sum += product;
        }
    return sum;
}

static int is_set(const Columns *set, unsigned long columns)
{
    if ((unsigned long)set->count != set->size)
        return 0;
    for (long k = 0; k < set->count; k++)
        if (set->columns[k] >= columns || (k > 0 && set->columns[k] <= set->columns[k - 1]))
            return 0;
    return 1;
}

static int is_size(unsigned long f, unsigned long columns)
{
    return f >= 1 && f <= 4 && f <= columns;
}

/* ---- strength, by counting */

/* All combinations occur equally often: so there are no more of them than runs. */
static int even(const Runs *r, const long *set, long f)
{
    long counts[256] = { 0 }, combinations = 1;
    for (long k = 0; k < f; k++)
        if ((combinations *= r->levels[set[k]]) > r->count)
            return 0;
    for (long a = 0; a < r->count; a++) {
        long number = 0;
        for (long k = 0; k < f; k++)
            number = number * r->levels[set[k]] + r->table[r->runs[a] * r->columns + set[k]];
        counts[number]++;
    }
    for (long k = 1; k < combinations; k++)
        if (counts[k] != counts[0])
            return 0;
    return 1;
}

static int balanced(const Runs *r, long t)
{
    long set[24];
    for (int more = first_set(set, t, r->columns); more; more = next_set(set, t, r->columns))
        if (!even(r, set, t))
            return 0;
    return 1;
}

/* The largest t, and the first before one that fails. */
static long strength(const Runs *r)
{
    long largest = 0, stopped = 0;
    for (long t = 1; t <= r->columns && (r->columns <= FEW_COLUMNS || stopped == t - 1); t++)
        if (balanced(r, t)) {
            largest = t;
            stopped += stopped == t - 1;
        }
    disagreements += largest != stopped;
    return largest;
}

/* ---- fractions */

typedef struct {
    wide num, den;
} Fraction;

static Fraction reduced(wide num, wide den)
{
    wide a = num, b = den;
    while (b != 0) {
        wide rest = a % b;
        a = b;
        b = rest;
    }
    Fraction x = { num / a, den / a };
    return x;
}

/* Below, at or above zero, as x is below, at or above y. */
static int order(Fraction x, Fraction y)
{
    wide a = x.num * y.den, b = y.num * x.den;
    return a < b ? -1 : a > b;
}

/* The bits of the f64 nearest to x, even among equals: 53 digits of its binary expansion, and the rest. */
static unsigned long nearest(Fraction x)
{
    const wide low = (wide)1 << 52;
    long shift = 0;
    if (x.num == 0)
        return 0;
    while ((x.num << shift) / x.den < low)
        shift++;
    wide digits = (x.num << shift) / x.den, rest = (x.num << shift) % x.den;
    if (2 * rest > x.den || (2 * rest == x.den && digits % 2 == 1))
        digits++;
    if (digits == 2 * low) {
        digits = low;
        shift--;
    }
    return (unsigned long)(1023 + 52 - shift) << 52 | (unsigned long)(digits - low);
}

/* ---- values of sets, the resolution and what rests on it */

static Fraction value(const Runs *r, const long *set, long f, int relative)
{
    Fraction zero = { 0, 1 };
    long smallest = 16;
    for (long k = 0; k < f; k++)
        smallest = r->levels[set[k]] < smallest ? r->levels[set[k]] : smallest;
    if (relative && smallest == 1)
        return zero;
    return reduced(set_word(r, set, f), (wide)r->count * r->count * (relative ? smallest - 1 : 1));
}

/* The number of columns and one where there is none. */
static long resolution(const Runs *r)
{
    long j = 1;
    while (j <= r->columns && word(r, j) <= 0)
        j++;
    return j;
}

/* Over the sets of f columns that hold the column; over all where it is -1. */
static Fraction largest_ratio(const Runs *r, long f, long column)
{
    Fraction largest = { 0, 1 };
    long set[24];
    for (int more = first_set(set, f, r->columns); more; more = next_set(set, f, r->columns)) {
        int held = column < 0;
        for (long k = 0; k < f; k++)
            held |= set[k] == column;
        if (!held)
            continue;
        Fraction x = value(r, set, f, 1);
        if (order(largest, x) < 0)
            largest = x;
    }
    return largest;
}

static long thousandths(long size, Fraction x)
{
    wide q = 0;
    while (q * q * x.den < 1000000 * x.num)
        q++;
    return 1000 * (size + 1) - (long)q;
}

static Fraction word_as_fraction(const Runs *r, long j)
{
    return reduced(word(r, j), (wide)r->count * r->count);
}

/* ---- the comparison, and the run to lose */

/* 0, 1 or 2 as the first is equal, better or worse: better is smaller at the first length where they differ. */
static int verdict(const Fraction *x, const Fraction *y, long columns)
{
    for (long j = 1; j <= columns; j++)
        if (order(x[j], y[j]) != 0)
            return order(x[j], y[j]) < 0 ? 1 : 2;
    return 0;
}

static void pattern(const Runs *r, Fraction *x)
{
    for (long j = 1; j <= r->columns; j++)
        x[j] = word_as_fraction(r, j);
}

/* The place of the run whose loss no other loss beats; the first of these. */
static long advice(const Runs *r)
{
    static Fraction left[256][25];
    for (long k = 0; k < r->count; k++) {
        Runs others = without(r, k);
        pattern(&others, left[k]);
    }
    for (long k = 0; k < r->count; k++) {
        int beaten = 0;
        for (long l = 0; l < r->count && !beaten; l++)
            beaten = verdict(left[l], left[k], r->columns) == 1;
        if (!beaten)
            return k;
    }
    return -1;
}

/* ---- answers */

static void tell(Answer *a, long number)
{
    a->numbers[a->count++] = (unsigned long)number;
}

static void tell_zeros(Answer *a, long count)
{
    while (count-- > 0)
        tell(a, 0);
}

static int refuses(Answer *a, Refusal r, long zeros)
{
    a->refused = (unsigned long)r.number;
    a->places[0] = (unsigned long)r.first;
    a->places[1] = (unsigned long)r.second;
    if (r.number != 0)
        tell_zeros(a, zeros);
    return r.number != 0;
}

/* The first refusal, and where there is none the number where the check fails. */
static Refusal then(Refusal r, int fails, int number)
{
    return r.number != 0 || !fails ? r : plain(number);
}

static void tell_words(const Runs *r, Answer *a)
{
    if (refuses(a, r->start, 24))
        return;
    for (long j = 1; j <= 24; j++)
        tell(a, j <= r->columns ? word(r, j) : 0);
}

static void tell_row_sums(const Runs *r, unsigned long run, Answer *a)
{
    if (refuses(a, r->start, 24))
        return;
    for (long j = 1; j <= 24; j++)
        tell(a, j <= r->columns && place_of_run(r, run) >= 0 ? row_sum(r, (long)run, j) : 0);
}

static void tell_word(const Runs *r, unsigned long j, Answer *a)
{
    if (!refuses(a, then(r->start, j < 1 || j > (unsigned long)r->columns, 8), 1))
        tell(a, word(r, (long)j));
}

static void tell_set_word(const Runs *r, const Columns *set, Answer *a)
{
    long kept[4];
    Refusal refused = then(then(r->start, !is_size(set->size, (unsigned long)r->columns), 6), !is_set(set, (unsigned long)r->columns), 8);
    if (refuses(a, refused, 1))
        return;
    for (long k = 0; k < set->count; k++)
        kept[k] = (long)set->columns[k];
    tell(a, set_word(r, kept, set->count));
}

/* The smallest value above the last one that was listed, as long as there is one, and how many sets have it. */
static long list_values(const Fraction *values, long sets, Fraction *listed, long *counts)
{
    long lines = 0;
    for (;;) {
        long found = -1;
        for (long k = 0; k < sets; k++)
            if ((lines == 0 || order(values[k], listed[lines - 1]) > 0) && (found < 0 || order(values[k], values[found]) < 0))
                found = k;
        if (found < 0)
            return lines;
        listed[lines] = values[found];
        counts[lines] = 0;
        for (long k = 0; k < sets; k++)
            counts[lines] += order(values[k], values[found]) == 0;
        lines++;
    }
}

/* The room afterwards: what is listed, and the canaries behind it. */
static void tell_room(Answer *a, const long *listed, long lines, long places)
{
    for (long k = 0; k < places; k++)
        tell(a, k < lines ? listed[k] : CANARY);
}

static void tell_table(const Runs *r, const Question *q, int relative, Answer *a)
{
    static Fraction values[10626], listed[10626];
    static long counts[10626], nums[10626], dens[10626];
    long set[4], sets = 0, lines = 0, shortest = q->rooms[0];
    Refusal refused = then(r->start, !is_size(q->number, (unsigned long)r->columns), 6);
    for (int k = 1; k < 3; k++)
        shortest = q->rooms[k] < shortest ? q->rooms[k] : shortest;
    if (refused.number == 0) {
        long f = (long)q->number;
        refused = then(refused, relative && f > resolution(r), 16);
        for (int more = first_set(set, f, r->columns); more; more = next_set(set, f, r->columns))
            values[sets++] = value(r, set, f, relative);
        lines = list_values(values, sets, listed, counts);
    }
    refused = then(refused, lines > shortest, 7);
    lines = refused.number == 0 ? lines : 0;
    for (long k = 0; k < lines; k++) {
        nums[k] = (long)listed[k].num;
        dens[k] = (long)listed[k].den;
    }
    tell_room(a, nums, lines, q->rooms[0]);
    tell_room(a, dens, lines, q->rooms[1]);
    tell_room(a, counts, lines, q->rooms[2]);
    refuses(a, refused, 0);
    tell(a, lines);
}

/* The marks, where there are any: 8 where they are not as many as the runs, 10 where none stands. A refusal has no places. */
static void tell_marked(Runs *r, const Question *q, Answer *a)
{
    int marked = q->marked > 0 && r->start.number == 0;
    r->start = plain(r->start.number);
    if (marked && q->marked != r->count)
        r->start = plain(8);
    else if (marked) {
        long all = r->count;
        r->count = 0;
        for (long f = 0; f < all; f++)
            if (q->marks[f] != 0)
                r->runs[r->count++] = f;
        if (r->count == 0)
            r->start = plain(10);
    }
    tell_table(r, q, q->relative != 0, a);
}

/* 11 where there is no resolution; a column that is asked for comes before. */
static Refusal unresolved(const Runs *r, Refusal start)
{
    return then(start, start.number == 0 && resolution(r) > r->columns, 11);
}

static void tell_resolution(const Runs *r, Answer *a)
{
    if (!refuses(a, unresolved(r, r->start), 1))
        tell(a, resolution(r));
}

static void tell_generalized(const Runs *r, Answer *a)
{
    if (refuses(a, unresolved(r, r->start), 4))
        return;
    long size = resolution(r);
    Fraction ratio = largest_ratio(r, size, -1);
    tell(a, size);
    tell(a, (long)ratio.num);
    tell(a, (long)ratio.den);
    tell(a, thousandths(size, ratio));
}

static void tell_chart(const Runs *r, Answer *a)
{
    if (refuses(a, unresolved(r, r->start), 3))
        return;
    long size = resolution(r);
    Fraction zero = { 0, 1 };
    tell(a, (long)nearest(word_as_fraction(r, size)));
    tell(a, (long)nearest(size == r->columns ? zero : word_as_fraction(r, size + 1)));
    tell(a, (long)nearest(largest_ratio(r, size, -1)));
}

static void tell_figure(const Runs *r, unsigned long column, Answer *a)
{
    if (refuses(a, unresolved(r, then(r->start, column >= (unsigned long)r->columns, 8)), 2))
        return;
    Fraction ratio = largest_ratio(r, resolution(r), (long)column);
    tell(a, ratio.num != 0);
    tell(a, (long)nearest(ratio));
}

static void tell_advice(const Runs *r, Answer *a)
{
    if (!refuses(a, then(r->start, r->count < 2, 10), 1))
        tell(a, r->runs[advice(r)]);
}

static void tell_in_turn(const Runs *r, unsigned long k, Answer *a)
{
    Runs left = *r;
    if (refuses(a, then(then(r->start, k < 1 || k > 3, 6), (unsigned long)r->count <= k, 10), 3))
        return;
    for (unsigned long taken = 0; taken < 3; taken++) {
        long place = taken < k ? advice(&left) : 0;
        tell(a, taken < k ? left.runs[place] : 0);
        if (taken < k)
            left = without(&left, place);
    }
}

/* The verdict, 3 where the numbers of columns differ, or 4 with the plan that is refused, 1 or 2, its number and its places. */
static void tell_comparison(const Runs *r, const Input *other, Answer *a)
{
    static Fraction x[25], y[25];
    Runs s = asked_of(other);
    Refusal refused = r->start.number != 0 ? r->start : s.start;
    refuses(a, accepted, 0);
    if (refused.number != 0) {
        tell(a, 4);
        tell(a, r->start.number != 0 ? 1 : 2);
        tell(a, refused.number);
        tell(a, refused.first);
        tell(a, refused.second);
        return;
    }
    if (r->columns == s.columns) {
        pattern(r, x);
        fill_pairs(&s);
        pattern(&s, y);
        fill_pairs(r);
    }
    tell(a, r->columns != s.columns ? 3 : verdict(x, y, r->columns));
    tell_zeros(a, 4);
}

/* E_j, of levels alone. */
static void tell_diagonal(const Input *input, Answer *a)
{
    static const byte zeros[24];
    long scores[24], sums[25];
    Refusal refused = reference_check(input->levels, input->columns, zeros, input->columns);
    if (refuses(a, refused, 24))
        return;
    for (long i = 0; i < input->columns; i++)
        scores[i] = input->levels[i] - 1;
    sums_of_products(scores, input->columns, sums);
    for (long j = 1; j <= 24; j++)
        tell(a, j <= input->columns ? sums[j] : 0);
}

/* How many sets stand before the one that is asked for, or the set that has so many before it. */
static void tell_places(const Question *q, Answer *a)
{
    long set[4], columns = (long)q->columns, f = (long)q->set.size, place = 0;
    int by_set = q->kind == PLACE, found = 0;
    Refusal refused = then(then(accepted, q->columns < 1 || q->columns > 24, 1), !is_size(q->set.size, q->columns), 6);
    int walked = refused.number == 0 && (!by_set || is_set(&q->set, q->columns));
    for (int more = walked && first_set(set, f, columns); more && !found; more = !found && next_set(set, f, columns)) {
        found = by_set || (unsigned long)place == q->number;
        for (long k = 0; k < f && by_set; k++)
            found &= (unsigned long)set[k] == q->set.columns[k];
        place += !found;
    }
    if (refuses(a, then(refused, !found, 8), by_set ? 1 : 4))
        return;
    if (by_set)
        tell(a, place);
    for (long k = 0; k < 4 && !by_set; k++)
        tell(a, k < f ? set[k] : 0);
}

/* A call says only whether it is refused. */
static void tell_call(Runs *r, unsigned long call, Answer *a)
{
    refuses(a, plain(make_call(r, call)), 0);
}

/* The pairs are those of the plan that was asked about last, most often the same. */
static void fill_pairs_of(const Input *x, const Runs *r)
{
    static Input last;
    static byte levels[24], table[6144];
    int same = last.columns == x->columns && last.entries == x->entries;
    if (r->all == 0)
        return;
    for (long i = 0; i < x->columns && same; i++)
        same = levels[i] == x->levels[i];
    for (long k = 0; k < x->entries && same; k++)
        same = table[k] == x->table[k];
    if (same)
        return;
    last = *x;
    for (long i = 0; i < x->columns; i++)
        levels[i] = x->levels[i];
    for (long k = 0; k < x->entries; k++)
        table[k] = x->table[k];
    fill_pairs(r);
}

static void tell_answer(const Input *input, Runs *r, const Question *q, Answer *a)
{
    switch (q->kind) {
    case CALL: tell_call(r, q->number, a); break;
    case WORD: tell_word(r, q->number, a); break;
    case SET_WORD: tell_set_word(r, &q->set, a); break;
    case ABSOLUTE: tell_table(r, q, 0, a); break;
    case RELATIVE: tell_table(r, q, 1, a); break;
    case GENERALIZED: tell_generalized(r, a); break;
    case WORDS: tell_words(r, a); break;
    case ROW_SUMS: tell_row_sums(r, q->number, a); break;
    case STRENGTH:
        if (!refuses(a, r->start, 1))
            tell(a, strength(r));
        break;
    case RESOLUTION: tell_resolution(r, a); break;
    case CHART: tell_chart(r, a); break;
    case FIGURE: tell_figure(r, q->number, a); break;
    case COMPARISON: tell_comparison(r, q->other, a); break;
    case ADVICE: tell_advice(r, a); break;
    case IN_TURN: tell_in_turn(r, q->number, a); break;
    case DIAGONAL: tell_diagonal(input, a); break;
    case MARKED: tell_marked(r, q, a); break;
    default: tell_places(q, a);
    }
}

void ask_reference(const Input *input, const Question *question, Answer *answer)
{
    Runs r = asked_of(input);
    answer->count = 0;
    fill_pairs_of(input, &r);
    tell_answer(input, &r, question, answer);
}
