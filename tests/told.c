#include "told.h"
#include "ranks.h"

int printf(const char *format, ...);

/* ---- the form of the lines */

typedef struct {
    const byte *at, *end;
    int bad;
} Reader;

static int next_is(const Reader *r, int value)
{
    return r->at < r->end && *r->at == value;
}

/* Goes past the word where the line begins with it. */
static int begins(Reader *r, const char *word)
{
    const byte *at = r->at;
    while (*word && at < r->end && *at == (byte)*word)
        at++, word++;
    if (*word || at == r->end || (*at != ' ' && *at != 10))
        return 0;
    r->at = at;
    return 1;
}

static void demand(Reader *r, int value)
{
    r->bad |= !next_is(r, value);
    r->at += r->at < r->end;
}

/* A number behind a space, at most 18 digits. */
static long number(Reader *r)
{
    long value = 0, digits = 0;
    demand(r, ' ');
    int zero = next_is(r, '0');
    while (r->at < r->end && *r->at >= '0' && *r->at <= '9' && digits < 18) {
        value = value * 10 + *r->at++ - '0';
        digits++;
    }
    r->bad |= digits == 0 || (zero && digits > 1);
    return value;
}

/* The numbers up to the line's end, at most so many; how many they are. */
static long numbers(Reader *r, long *room, long most)
{
    long count = 0;
    while (next_is(r, ' ') && count < most && !r->bad)
        room[count++] = number(r);
    demand(r, 10);
    return count;
}

static void demand_word(Reader *r, const char *word)
{
    r->bad |= !begins(r, word);
}

static void read_answer(Reader *r, Told *told)
{
    demand_word(r, "answer");
    demand(r, ' ');
    told->yes = begins(r, "yes");
    if (!told->yes)
        demand_word(r, "no");
    demand(r, 10);
}

static void read_words(Reader *r, Told *told)
{
    demand_word(r, "words");
    told->num = number(r);
    told->den = number(r);
    demand(r, 10);
}

static void read_evidence(Reader *r, Told *told)
{
    long one[1 + MOST_COLUMNS];
    for (told->absents = 0; told->absents < MOST_LEVEL && begins(r, "absent"); told->absents++)
        r->bad |= numbers(r, &told->absent[told->absents], 1) != 1;
    for (told->groups = 0; told->groups < MOST_LEVEL && begins(r, "group"); told->groups++)
        told->sizes[told->groups] = numbers(r, told->group[told->groups], MOST_LEVEL);
    for (told->pairs = 0; told->pairs < MOST_LEVEL && begins(r, "pair"); told->pairs++)
        r->bad |= numbers(r, told->pair[told->pairs], 4) != 4;
    for (told->cells = 0; told->cells < MOST_RUNS && begins(r, "cell"); told->cells++) {
        r->bad |= numbers(r, one, 1 + MOST_COLUMNS) != told->columns;
        told->names[told->cells] = one[0];
        for (long k = 0; k + 1 < told->columns; k++)
            told->cell[told->cells][k] = one[k + 1];
    }
}

int read_told(const byte *lines, long length, Told *told)
{
    Reader r = { lines, lines + length, 0 };
    demand_word(&r, "tell");
    told->columns = numbers(&r, told->asked, MOST_COLUMNS);
    read_answer(&r, told);
    read_words(&r, told);
    read_evidence(&r, told);
    return !r.bad && r.at == r.end;
}

/* ---- the model: the general mean, the levels of the column, all interactions of the others */

typedef struct {
    const Question *q;
    long runs[MOST_RUNS], count;
    int occurs[MOST_LEVEL];
    long level;
} Runs;

/* Up to so many products of dummies the textbook's matrix is made too. */
enum { MOST_PRODUCTS = 64 };

static Rows cells_model, textbook;

static void open_runs(Runs *s, const Question *q)
{
    s->q = q;
    s->count = standing_runs(q, s->runs);
    s->level = q->plan.levels[q->column];
    for (long x = 0; x < MOST_LEVEL; x++)
        s->occurs[x] = 0;
    for (long k = 0; k < s->count; k++)
        s->occurs[entry_at(q, s->runs[k], q->column)] = 1;
}

static void clear_row(long *row, long terms)
{
    for (long i = 0; i < terms; i++)
        row[i] = 0;
}

/* The place of the first run in the same cell: one indicator for each cell stands for the mean and all interactions. */
static long cell_of(const Runs *s, long k)
{
    long first = 0;
    while (!in_one_cell(s->q, s->runs[first], s->runs[k]))
        first++;
    return first;
}

static void make_cells_model(const Runs *s)
{
    long row[MOST_TERMS];
    start_rows(&cells_model, s->level + s->count);
    for (long k = 0; k < s->count; k++) {
        clear_row(row, cells_model.terms);
        row[entry_at(s->q, s->runs[k], s->q->column)] = 1;
        row[s->level + cell_of(s, k)] = 1;
        add_row(&cells_model, row);
    }
}

/* The combinations of the others' levels; 0 where they are too many for the textbook's matrix. */
static long products_of(const Question *q)
{
    long products = 1;
    for (long k = 0; k < q->count && products <= MOST_PRODUCTS; k++)
        products *= q->plan.levels[q->others[k]];
    return products <= MOST_PRODUCTS ? products : 0;
}

/* The product of dummies of number `place`: a digit for each other column, 0 where the column has no part in it. The product of none is
 * the general mean. */
static long product_at(const Question *q, long run, long place)
{
    long product = 1;
    for (long k = 0; k < q->count; k++) {
        long level = q->plan.levels[q->others[k]], digit = place % level;
        product *= digit == 0 || entry_at(q, run, q->others[k]) == digit;
        place /= level;
    }
    return product;
}

/* Main effects and interactions by dummies of the levels from 1 on, as a textbook has them. */
static void make_textbook(const Runs *s, long products)
{
    long row[MOST_TERMS];
    start_rows(&textbook, s->level + products);
    for (long k = 0; k < s->count; k++) {
        clear_row(row, s->level);
        row[entry_at(s->q, s->runs[k], s->q->column)] = 1;
        row[0] = 0;
        for (long place = 0; place < products; place++)
            row[s->level + place] = product_at(s->q, s->runs[k], place);
        add_row(&textbook, row);
    }
}

static int difference_stays(const Rows *model, long x, long y, int dummies_from_1)
{
    long row[MOST_TERMS];
    clear_row(row, model->terms);
    row[x] += 1;
    row[y] -= 1;
    if (dummies_from_1)
        row[0] = 0;
    return rank_stays(model, row);
}

/* ---- evidence */

/* The group that has the level, or -1. */
static long group_with(const Told *told, long x)
{
    for (long g = 0; g < told->groups; g++)
        for (long k = 0; k < told->sizes[g]; k++)
            if (told->group[g][k] == x)
                return g;
    return -1;
}

static const char *fault_in_question(const Question *q, const Told *told)
{
    int same = told->columns == q->count + 1 && told->asked[0] == (long)q->column;
    for (long k = 0; same && k < q->count; k++)
        same = told->asked[k + 1] == (long)q->others[k];
    return same ? 0 : "what was asked";
}

static const char *fault_in_absent(const Runs *s, const Told *told)
{
    long met = 0;
    for (long x = 0; x < s->level; x++)
        if (!s->occurs[x] && (met == told->absents || told->absent[met++] != x))
            return "the levels that are absent";
    return met == told->absents ? 0 : "an absent level that occurs";
}

/* Each level that occurs is in one group, levels and groups rise, and no other level is in any. */
static const char *fault_in_levels(const Runs *s, const Told *told)
{
    long named = 0, occurring = 0;
    for (long x = 0; x < s->level; x++)
        occurring += s->occurs[x];
    for (long g = 0; g < told->groups; g++) {
        named += told->sizes[g];
        if (told->sizes[g] == 0 || (g > 0 && told->group[g][0] <= told->group[g - 1][0]))
            return "the order of the groups";
        for (long k = 0; k < told->sizes[g]; k++)
            if (told->group[g][k] >= s->level || !s->occurs[told->group[g][k]] || (k > 0 && told->group[g][k] <= told->group[g][k - 1]))
                return "the levels of a group";
    }
    for (long x = 0; x < s->level; x++)
        if (s->occurs[x] && group_with(told, x) < 0)
            return "a level in no group";
    return named == occurring ? 0 : "a level in two groups";
}

/* Two levels that occur are in one group exactly where the rank stays the same with their difference. */
static const char *fault_in_groups(const Runs *s, const Told *told)
{
    long products = products_of(s->q);
    make_cells_model(s);
    if (products > 0)
        make_textbook(s, products);
    for (long x = 0; x < s->level; x++)
        for (long y = x + 1; y < s->level; y++) {
            if (!s->occurs[x] || !s->occurs[y])
                continue;
            int together = group_with(told, x) == group_with(told, y);
            if (difference_stays(&cells_model, x, y, 0) != together)
                return "two levels, by the rank of cells and levels";
            if (products > 0 && difference_stays(&textbook, x, y, 1) != together)
                return "two levels, by the rank of the textbook's matrix";
        }
    return told->yes == (told->groups == 1) ? 0 : "the answer";
}

static int stands(const Runs *s, long run)
{
    for (long k = 0; k < s->count; k++)
        if (s->runs[k] == run)
            return 1;
    return 0;
}

/* The pairs so far join levels: each level's lowest. */
static void join(long *lowest, long x, long y)
{
    long low = lowest[x] < lowest[y] ? lowest[x] : lowest[y], high = lowest[x] < lowest[y] ? lowest[y] : lowest[x];
    for (long z = 0; z < MOST_LEVEL; z++)
        if (lowest[z] == high)
            lowest[z] = low;
}

/* Each pair is two standing runs in one cell, with those levels, which no pair before it joins; all pairs together give the groups. */
static const char *fault_in_pairs(const Runs *s, const Told *told)
{
    long lowest[MOST_LEVEL];
    for (long x = 0; x < MOST_LEVEL; x++)
        lowest[x] = x;
    for (long p = 0; p < told->pairs; p++) {
        const long *pair = told->pair[p];
        if (!stands(s, pair[0]) || !stands(s, pair[1]) || pair[0] >= pair[1])
            return "a run of a pair";
        if (!in_one_cell(s->q, pair[0], pair[1]))
            return "a pair that is not in one cell";
        if (entry_at(s->q, pair[0], s->q->column) != pair[2] || entry_at(s->q, pair[1], s->q->column) != pair[3])
            return "the levels of a pair";
        if (lowest[pair[2]] == lowest[pair[3]])
            return "a pair that joins nothing";
        join(lowest, pair[2], pair[3]);
    }
    for (long x = 0; x < s->level; x++)
        if (s->occurs[x] && lowest[x] != told->group[group_with(told, x)][0])
            return "pairs that do not join the groups";
    return 0;
}

/* The pairs are the first: none that comes before the next one listed, by its first run and then its second, joins two groups. */
static const char *fault_in_order(const Runs *s, const Told *told)
{
    long lowest[MOST_LEVEL], p = 0;
    for (long x = 0; x < MOST_LEVEL; x++)
        lowest[x] = x;
    for (long k = 0; k < s->count; k++)
        for (long l = k + 1; l < s->count; l++) {
            long f = s->runs[k], g = s->runs[l], x = entry_at(s->q, f, s->q->column), y = entry_at(s->q, g, s->q->column);
            if (lowest[x] == lowest[y] || !in_one_cell(s->q, f, g))
                continue;
            if (p == told->pairs || told->pair[p][0] != f || told->pair[p][1] != g)
                return "a pair that is not the first";
            join(lowest, x, y);
            p++;
        }
    return 0;
}

static int is_cell_of(const Question *q, const long *cell, long run)
{
    for (long k = 0; k < q->count; k++)
        if (cell[k] != entry_at(q, run, q->others[k]))
            return 0;
    return 1;
}

static int rises(const long *before, const long *cell, long columns)
{
    for (long k = 0; k < columns; k++)
        if (before[k] != cell[k])
            return before[k] < cell[k];
    return 0;
}

/* Every run that stands is in one of the cells, and its level is in that cell's group: the split that says no. Every cell has a run. */
static const char *fault_in_cells(const Runs *s, const Told *told)
{
    int met[MOST_RUNS] = { 0 };
    if (told->yes)
        return told->cells == 0 ? 0 : "cells where the answer is yes";
    for (long c = 1; c < told->cells; c++)
        if (!rises(told->cell[c - 1], told->cell[c], s->q->count))
            return "the order of the cells";
    for (long k = 0; k < s->count; k++) {
        long c = 0, group = group_with(told, entry_at(s->q, s->runs[k], s->q->column));
        while (c < told->cells && !is_cell_of(s->q, told->cell[c], s->runs[k]))
            c++;
        if (c == told->cells)
            return "a run in no cell";
        if (told->names[c] != told->group[group][0])
            return "the group of a cell";
        met[c] = 1;
    }
    for (long c = 0; c < told->cells; c++)
        if (!met[c])
            return "a cell without a run";
    return 0;
}

/* ---- the words */

static long held_to_definition, differed;

static long score(const Question *q, long f, long g, unsigned long column)
{
    return entry_at(q, f, column) == entry_at(q, g, column) ? q->plan.levels[column] - 1 : -1;
}

/* W of the column and the others whose bit is set: over all ordered pairs of runs, the product of the scores. */
static long word_with(const Runs *s, unsigned long bits)
{
    long sum = 0;
    for (long k = 0; k < s->count; k++)
        for (long l = 0; l < s->count; l++) {
            long product = score(s->q, s->runs[k], s->runs[l], s->q->column);
            for (long i = 0; i < s->q->count; i++)
                if (bits >> i & 1)
                    product *= score(s->q, s->runs[k], s->runs[l], s->q->others[i]);
            sum += product;
        }
    return sum;
}

/* The words of the column with each part of the others, added up. */
static long all_words(const Runs *s)
{
    long sum = 0;
    for (unsigned long bits = 0; bits < 1UL << s->q->count; bits++)
        sum += word_with(s, bits);
    return sum;
}

/* The same with the parts added up first: the product of score + 1, which is the level in a cell of both and 0 elsewhere. */
static long words_in_cells(const Runs *s)
{
    long sum = 0, product = 1;
    for (long k = 0; k < s->q->count; k++)
        product *= s->q->plan.levels[s->q->others[k]];
    for (long k = 0; k < s->count; k++)
        for (long l = 0; l < s->count; l++)
            if (in_one_cell(s->q, s->runs[k], s->runs[l]))
                sum += product * score(s->q, s->runs[k], s->runs[l], s->q->column);
    return sum;
}

static long divisor(long a, long b)
{
    return b == 0 ? a : divisor(b, a % b);
}

/* Where they are below 1 the answer is yes, and every level occurs. */
static const char *fault_in_words(const Runs *s, const Told *told)
{
    long sum = words_in_cells(s), den = s->count * s->count;
    if ((s->count * s->count) << s->q->count <= 1 << 14) {
        held_to_definition++;
        long whole = all_words(s);
        differed += whole != sum;
        sum = whole;
    }
    long num = (s->level - 1) * sum, common = divisor(num, den);
    if (told->num != num / common || told->den != den / common)
        return "the words";
    return num < den && (!told->yes || told->absents > 0) ? "the words, which say yes" : 0;
}

const char *fault_of(const Question *q, const Told *told)
{
    static Runs s;
    open_runs(&s, q);
    const char *fault = fault_in_question(q, told);
    if (!fault)
        fault = fault_in_absent(&s, told);
    if (!fault)
        fault = fault_in_levels(&s, told);
    if (!fault)
        fault = fault_in_groups(&s, told);
    if (!fault)
        fault = fault_in_pairs(&s, told);
    if (!fault)
        fault = fault_in_order(&s, told);
    if (!fault)
        fault = fault_in_cells(&s, told);
    return fault ? fault : fault_in_words(&s, told);
}

int told_fails(void)
{
    printf("the sum of the words by its short cut and by definition: %ld held to it, %ld differ\n", held_to_definition, differed);
    printf("exact ranks: %s\n", ranks_fail() ? "a number left 64 bits" : "no number left 64 bits");
    return differed > 0 || ranks_fail();
}
