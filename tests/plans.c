#include "plans.h"
#include "draws.h"

/* ---- good plans */

static void draw_table(Plan *p, long runs)
{
    p->entries = runs * p->columns;
    for (long k = 0; k < p->entries; k++)
        p->table[k] = (byte)draw(p->levels[k % p->columns]);
}

/* Of eight columns, how many have one level: none in half of the plans, in the others a few, half, most or all. */
static unsigned long draw_share(void)
{
    static const unsigned long shares[] = { 0, 0, 0, 0, 0, 0, 2, 2, 4, 4, 7, 8 };
    return shares[draw(sizeof shares / sizeof *shares)];
}

/* Levels, mostly low; 1 where another would take their product past the limit. */
static void draw_levels(Plan *p, long columns, long limit)
{
    unsigned long share = draw_share();
    long product = 1;
    p->columns = 0;
    while (p->columns < columns) {
        byte level = (byte)(draw(8) < share ? 1 : draw(4) ? 2 + draw(3) : 2 + draw(15));
        if (product * level > limit)
            level = product * 2 > limit ? 1 : 2;
        product *= level;
        p->levels[p->columns++] = level;
    }
}

void small_plan(Plan *p)
{
    draw_levels(p, 1 + (long)draw(5), 2000);
    draw_table(p, 1 + (long)draw(draw(3) ? 6 : 10));
    p->length = 1;
}

void medium_plan(Plan *p)
{
    draw_levels(p, 1 + (long)draw(6), 5000);
    draw_table(p, 8 + (long)draw(17));
    p->length = 1;
}

void large_plan(Plan *p)
{
    draw_levels(p, 2 + (long)draw(5), 5000);
    draw_table(p, 25 + (long)draw(40));
    p->length = 1;
}

void wide_plan(Plan *p)
{
    draw_levels(p, 1 + (long)draw(24), 2000000000);
    draw_table(p, 1 + (long)draw(256));
    p->length = 1;
}

void even_plan(Plan *p, long columns, byte level, long runs)
{
    p->columns = columns;
    for (long i = 0; i < columns; i++)
        p->levels[i] = level;
    draw_table(p, runs);
    for (long i = 0; i < columns; i++)
        p->table[i] = 0;
    p->length = 1;
}

/* The product of the first so many levels. */
static long product_of(const Plan *p, long columns)
{
    return columns == 0 ? 1 : p->levels[columns - 1] * product_of(p, columns - 1);
}

void full_factorial(Plan *p)
{
    draw_levels(p, 1 + (long)draw(4), 18);
    p->entries = product_of(p, p->columns) * p->columns;
    for (long k = 0; k < p->entries; k++) {
        long run = k / p->columns, column = k % p->columns;
        p->table[k] = (byte)(run / product_of(p, column) % p->levels[column]);
    }
    p->length = 1;
}

static long power(long base, long exponent)
{
    return exponent == 0 ? 1 : base * power(base, exponent - 1);
}

/* The multiples of the free columns that a column is the sum of; a free column is itself. */
static void draw_multiples(long *multiples, long column, long free, byte level)
{
    for (long k = 0; k < free; k++)
        multiples[k] = column < free ? column == k : (long)draw(level);
}

static byte entry_of_sum(const long *multiples, long run, long free, byte level)
{
    long sum = 0;
    for (long k = 0; k < free; k++)
        sum += multiples[k] * (run / power(level, k) % level);
    return (byte)(sum % level);
}

void regular_fraction(Plan *p)
{
    static const unsigned long most_free[6] = { 0, 0, 4, 2, 2, 1 };
    byte level = (byte)(2 + draw(4));
    long free = 1 + (long)draw(most_free[level]), multiples[8][4];
    even_plan(p, free + 1 + (long)draw(3), level, power(level, free));
    for (long i = 0; i < p->columns; i++)
        draw_multiples(multiples[i], i, free, level);
    for (long k = 0; k < p->entries; k++)
        p->table[k] = entry_of_sum(multiples[k % p->columns], k / p->columns, free, level);
}

static void insert_byte(byte *bytes, long count, long place, byte value)
{
    for (long k = count; k > place; k--)
        bytes[k] = bytes[k - 1];
    bytes[place] = value;
}

/* From the last run on, so that the entries before it keep their places. */
void insert_one_level(Plan *p, long place)
{
    long runs = p->entries / p->columns;
    for (long run = runs - 1; run >= 0; run--)
        insert_byte(p->table, p->entries++, run * p->columns + place, 0);
    insert_byte(p->levels, p->columns++, place, 1);
}

void take_runs_out(Plan *p, long count)
{
    while (count-- > 0 && p->entries > p->columns) {
        long run = (long)draw(p->entries / p->columns);
        for (long k = run * p->columns; k + p->columns < p->entries; k++)
            p->table[k] = p->table[k + p->columns];
        p->entries -= p->columns;
    }
}

void repeat_runs(Plan *p)
{
    for (long k = 0; k < p->entries; k++)
        p->table[p->entries + k] = p->table[k];
    p->entries *= 2;
}

static void swap_runs(Plan *p, long f, long g)
{
    for (long i = 0; i < p->columns; i++) {
        byte kept = p->table[f * p->columns + i];
        p->table[f * p->columns + i] = p->table[g * p->columns + i];
        p->table[g * p->columns + i] = kept;
    }
}

void shuffle_runs(Plan *p)
{
    for (long run = p->entries / p->columns - 1; run > 0; run--)
        swap_runs(p, run, (long)draw(run + 1));
}

static void an_array(Plan *p)
{
    if (draw(3) == 0)
        full_factorial(p);
    else
        regular_fraction(p);
    for (long k = draw(3) ? 0 : 1 + (long)draw(2); k > 0; k--)
        insert_one_level(p, (long)draw((unsigned long)p->columns + 1));
    if (draw(2))
        shuffle_runs(p);
    if (draw(8) == 0 && p->entries <= 12 * p->columns)
        repeat_runs(p);
    if (draw(2))
        take_runs_out(p, 1 + (long)draw(3));
}

void a_plan(Plan *p)
{
    unsigned long kind = draw(1000);
    if (kind < 2)
        large_plan(p);
    else if (kind < 80)
        medium_plan(p);
    else if (kind < 400)
        an_array(p);
    else
        small_plan(p);
}

/* ---- damaged plans */

static void spoil_an_entry(Plan *p, int far)
{
    if (p->entries == 0)
        return;
    long k = (long)draw(p->entries);
    byte level = p->columns > 0 ? p->levels[k % p->columns] : 2;
    p->table[k] = (byte)(!far ? level : draw(2) ? 16 + draw(84) : 16 + draw(240));
}

static void add_columns(Plan *p, long columns, byte level)
{
    while (p->columns < columns)
        p->levels[p->columns++] = level;
}

/* So far that no other damage takes it down again. */
static void raise_product(Plan *p)
{
    add_columns(p, 10, 16);
    for (long i = 0; i < 10; i++)
        p->levels[i] = 16;
}

static void add_runs(Plan *p)
{
    while (p->entries < 257 * p->columns)
        p->table[p->entries++] = 0;
}

void damage(Plan *p, int kind)
{
    long i = p->columns > 0 ? (long)draw(p->columns) : 0;
    switch (kind) {
    case NO_COLUMN: p->columns = 0; break;
    case COLUMNS_25: add_columns(p, 25, (byte)(1 + draw(2))); break;
    case LEVEL_0: p->levels[i] = 0; break;
    case LEVEL_17: p->levels[i] = 17; break;
    case LEVEL_ABOVE_16: p->levels[i] = (byte)(draw(2) ? 17 + draw(83) : 17 + draw(239)); break;
    case PRODUCT_ABOVE: raise_product(p); break;
    case NO_RUN: p->entries = 0; break;
    case TABLE_CUT: p->entries -= p->entries > 0; break;
    case RUNS_257: add_runs(p); break;
    case ENTRY_FAR_ABOVE: spoil_an_entry(p, 1); break;
    case ENTRY_AT_LEVEL: spoil_an_entry(p, 0); break;
    case LENGTH_0: p->length = 0; break;
    case LENGTH_ABOVE: p->length = draw(4) ? (unsigned long)p->columns + 1 + draw(3) : (1UL << 32) + 1; break;
    }
}

static int a_level_is_bad(const Plan *p)
{
    for (long i = 0; i < p->columns; i++)
        if (p->levels[i] < 1 || p->levels[i] > 16)
            return 1;
    return 0;
}

static int the_product_is_above(const Plan *p)
{
    double product = 1;
    for (long i = 0; i < p->columns; i++)
        product *= p->levels[i];
    return product > 2e9;
}

static int the_table_is_bad(const Plan *p)
{
    return p->entries == 0 || p->columns == 0 || p->entries % p->columns != 0 || p->entries / p->columns > 256;
}

static int an_entry_is_bad(const Plan *p)
{
    for (long k = 0; p->columns > 0 && k < p->entries; k++)
        if (p->table[k] >= p->levels[k % p->columns])
            return 1;
    return 0;
}

unsigned deserved(const Plan *p)
{
    unsigned refusals = 0;
    refusals |= (unsigned)(p->columns < 1 || p->columns > 24) << 1;
    refusals |= (unsigned)a_level_is_bad(p) << 2;
    refusals |= (unsigned)the_product_is_above(p) << 3;
    refusals |= (unsigned)the_table_is_bad(p) << 4;
    refusals |= (unsigned)an_entry_is_bad(p) << 5;
    refusals |= (unsigned)(p->length < 1 || p->length > (unsigned long)p->columns) << 8;
    return refusals;
}

/* ---- texts */

static void put_byte(Text *t, long value)
{
    t->bytes[t->length++] = (byte)value;
}

static void put_number(Text *t, long n)
{
    if (n >= 100)
        put_byte(t, '0' + n / 100);
    if (n >= 10)
        put_byte(t, '0' + n / 10 % 10);
    put_byte(t, '0' + n % 10);
}

static void put_line(Text *t, const byte *row, long count)
{
    for (long k = 0; k < count; k++) {
        if (k > 0)
            put_byte(t, ',');
        put_number(t, row[k]);
    }
    put_byte(t, 10);
}

/* A last run that is cut short is written as it is. */
void write_text(const Plan *p, Text *t)
{
    t->length = 0;
    put_line(t, p->levels, p->columns);
    for (long k = 0; p->columns > 0 && k < p->entries; k += p->columns)
        put_line(t, p->table + k, p->entries - k < p->columns ? p->entries - k : p->columns);
}

void fill_text(Text *t, long columns, long length)
{
    byte row[64];
    while (t->length < length) {
        long rest = length - t->length, tens = 0;
        if (rest <= 6 * columns)
            tens = rest <= 3 * columns ? rest - 2 * columns : rest - 4 * columns;
        for (long i = 0; i < columns; i++)
            row[i] = i < tens ? 10 : 0;
        put_line(t, row, columns);
    }
}

static byte odd_byte(void)
{
    static const byte odd[] = { 0, 9, 13, ' ', ',', '-', '0', '9', 10, 127, 128, 255, ';', '/', ':' };
    return odd[draw(sizeof odd)];
}

static void cut_byte(Text *t, long place)
{
    for (long k = place; k + 1 < t->length; k++)
        t->bytes[k] = t->bytes[k + 1];
    t->length -= t->length > 0;
}

/* The numbers in the first line; 1 where it holds nothing like a number. */
static long first_count(const Text *t)
{
    long count = 1;
    for (long k = 0; k < t->length && t->bytes[k] != 10 && count < 32; k++)
        count += t->bytes[k] == ',';
    return count;
}

void damage_text(Text *t, int kind)
{
    long place = t->length > 0 ? (long)draw(t->length) : 0;
    switch (kind) {
    case NO_BYTE: t->length = 0; break;
    case UNENDED: t->length -= t->length > 0; break;
    case BYTE_REPLACED: t->bytes[place] = odd_byte(); break;
    case BYTE_INSERTED: insert_byte(t->bytes, t->length++, place, odd_byte()); break;
    case BYTE_CUT: cut_byte(t, place); break;
    case EMPTY_LINE: put_byte(t, 10); break;
    case BYTES_32768: fill_text(t, first_count(t), 32768); break;
    case BYTES_32769: fill_text(t, first_count(t), 32769); break;
    }
}

void damaged_text(Plan *p, Text *t, int a, int b)
{
    int kinds[2] = { a, b };
    small_plan(p);
    for (int k = 0; k < 2; k++)
        if (kinds[k] < PLAN_DAMAGES)
            damage(p, kinds[k]);
    write_text(p, t);
    for (int k = 0; k < 2; k++)
        if (kinds[k] >= PLAN_DAMAGES)
            damage_text(t, kinds[k] - PLAN_DAMAGES);
}

/* Whether a line is malformed among those that end in the first 32,768 bytes, or the text ends without an end of line. */
static int malformed(const Text *t)
{
    static Read read;
    long length = t->length;
    while (length > 32768 || (length < t->length && t->bytes[length - 1] != 10))
        length--;
    return reference_read(t->bytes, length, &read).number == 14;
}

/* Without columns or bytes nothing of the plan is in the text. */
unsigned deserved_by_text(const Plan *p, const Text *t)
{
    unsigned refusals = p->columns == 0 || t->length == 0 ? 0 : deserved(p);
    return refusals | (unsigned)(t->length > 32768) << 13 | (unsigned)malformed(t) << 14;
}
