/* Compares every exported function of the library with the reference on
 * generated inputs: good plans and damaged ones, two damages at a time in
 * both orders, boundary sizes, arrays with strength and runs taken out of
 * them, columns of one level among others, lists of lost runs, rooms too
 * short by one, sets of columns by both of the library's engines. Prints its
 * seed and what it tried.
 *
 * Arguments: the seed, and 1 for a short run, 2 for a short run of the sets
 * alone, 3 for a tenth of the full run's rounds. The exit status is not 0
 * where an answer differed or the reference failed by itself, and in a full
 * run also where a function was tried less than 100,000 times (sets of columns
 * 50,000, all sets of a size 15,000 times), or a refusal, two refusals at once
 * or two damages in their order did not come up, or plans with columns of one
 * level, without any or of such alone fewer than 10,000 times. A tenth has to
 * reach a tenth of these numbers, and all the rest.
 *
 * It declares what it needs of the C library, so that it compiles with the
 * kit's own clang, which comes without headers.
 */
#include "trial_writers.h"
#include "trial_sets.h"
#include "grades.h"
#include "rooms.h"
#include "draws.h"

long crumb_word(const byte *levels, size columns, const byte *table, size entries, unsigned long length);
long crumb_listing(const byte *text, size length, byte *room, size bytes);

int printf(const char *format, ...);

/* ---- one input */

static void try_word(const Plan *p)
{
    long wanted = reference_word(p->levels, p->columns, p->table, p->entries, p->length);
    long got = crumb_word(p->levels, (size)p->columns, p->table, (size)p->entries, p->length);
    note_word(&words, wanted);
    if (got != wanted) {
        differs("crumb_word", got, wanted);
        print_plan(p);
    }
}

static void try_word_of(Plan *p, unsigned long length)
{
    p->length = length;
    try_word(p);
}

static void try_every_word(Plan *p)
{
    for (long j = 0; j <= p->columns + 1; j++)
        try_word_of(p, (unsigned long)j);
}

static byte wanted[4096];

static void try_room(const Text *t, long length, long bytes)
{
    static Room room;
    long answer = bytes >= length ? length : -7, written = bytes >= length ? length : 0;
    long got = crumb_listing(t->bytes, (size)t->length, with_canaries(&room, bytes), (size)bytes);
    if (got == answer && holds(&room, bytes, wanted, written))
        return;
    differs(got == answer ? "the room of crumb_listing" : "crumb_listing", got, answer);
    print_text(t);
}

/* The refusal number in a listing, 0 where it is an answer. */
static int refused_in(const byte *listing)
{
    if (listing[0] != 'r')
        return 0;
    return listing[9] == ' ' ? listing[8] - '0' : 10 + listing[9] - '0';
}

/* In a room of the listing's length, in one too short by one, and in a larger one. */
static void try_listing(const Text *t)
{
    long length = reference_listing(t->bytes, t->length, wanted);
    listings.tried++;
    listings.met[refused_in(wanted)]++;
    listings.met[7]++;
    try_room(t, length, length);
    try_room(t, length, length - 1);
    try_room(t, length, length + 40);
}

/* The plan written, and its text rewritten without a loss and with some. */
static void try_writers(const Plan *p)
{
    static Text text;
    static Losses losses;
    long runs = p->entries / p->columns;
    try_write(p);
    write_text(p, &text);
    lose(&losses, runs, 0);
    try_rewrite(&text, &losses);
    draw_losses(&losses, runs);
    try_rewrite(&text, &losses);
}

static void try_all(Plan *p)
{
    static Text text;
    write_text(p, &text);
    try_listing(&text);
    try_every_word(p);
    try_writers(p);
}

/* ---- generated plans */

/* A word of each plan, and the listing of its text, which is damaged once or twice in one of three. */
static void generated(long rounds)
{
    static Plan plan;
    static Text text;
    for (long round = 0; round < rounds; round++) {
        a_plan(&plan);
        note_levels(&plan);
        try_word_of(&plan, draw((unsigned long)plan.columns + 2));
        write_text(&plan, &text);
        for (long k = draw(3) ? 0 : 1 + (long)draw(2); k > 0; k--)
            damage_text(&text, (int)draw(BYTES_32768));
        try_listing(&text);
    }
}

/* Each plan written; its text, damaged once in one of four, rewritten without the runs of a list, damaged once or twice in one of
 * three. */
static void generated_writers(long rounds)
{
    static Plan plan;
    static Text text;
    static Losses losses;
    for (long round = 0; round < rounds; round++) {
        if (draw(400))
            a_plan(&plan);
        else
            wide_plan(&plan);
        note_levels(&plan);
        try_write(&plan);
        write_text(&plan, &text);
        if (draw(4) == 0)
            damage_text(&text, (int)draw(BYTES_32768));
        long runs = plan.entries / plan.columns;
        draw_losses(&losses, runs);
        for (long k = draw(3) ? 0 : 1 + (long)draw(2); k > 0; k--)
            damage_losses(&losses, runs, (int)draw(LOSS_DAMAGES));
        try_rewrite(&text, &losses);
    }
}

/* ---- two damages, in both orders */

static void damaged_word(int a, int b)
{
    static Plan plan;
    small_plan(&plan);
    damage(&plan, a);
    damage(&plan, b);
    words.damaged[a][b]++;
    note_at_once(&words, deserved(&plan));
    try_word(&plan);
}

static void damaged_listing(int a, int b)
{
    static Plan plan;
    static Text text;
    damaged_text(&plan, &text, a, b);
    listings.damaged[a][b]++;
    note_at_once(&listings, deserved_by_text(&plan, &text) | 1u << 7);
    try_listing(&text);
}

static void damaged_write(int a, int b)
{
    static Plan plan;
    small_plan(&plan);
    damage(&plan, a);
    damage(&plan, b);
    writes.damaged[a][b]++;
    note_at_once(&writes, deserved(&plan) | 1u << 7);
    try_write(&plan);
}

/* A last run that is cut short counts, since it has a line. */
static void damaged_rewrite(int a, int b)
{
    static Plan plan;
    static Text text;
    static Losses losses;
    int kinds[2] = { a, b };
    damaged_text(&plan, &text, a, b);
    long runs = plan.columns > 0 ? (plan.entries + plan.columns - 1) / plan.columns : 0;
    draw_losses(&losses, runs);
    for (int k = 0; k < 2; k++)
        if (kinds[k] >= LISTING_DAMAGES)
            damage_losses(&losses, runs, kinds[k] - LISTING_DAMAGES);
    rewrites.damaged[a][b]++;
    note_at_once(&rewrites, deserved_by_text(&plan, &text) | deserved_by_losses(&losses, runs) | 1u << 7);
    try_rewrite(&text, &losses);
}

static void damaged(long rounds, const Tally *tally, void try(int a, int b))
{
    for (long round = 0; round < rounds; round++)
        for (int k = 0; k < tally->damages * tally->damages; k++)
            try(k / tally->damages, k % tally->damages);
}

/* ---- at the limits */

/* 24 and 25 columns. A listing of 24 with two levels takes the reference seconds. */
static void many_columns(Plan *p, byte level, int full)
{
    static const unsigned long lengths[] = { 0, 1, 2, 3, 22, 23, 24, 25, 26, ~0UL, 1UL << 32, (1UL << 32) + 1, 1UL << 63 };
    static Text text;
    for (long columns = 23; columns <= 26; columns++)
        for (long runs = 1; runs <= 3; runs++) {
            even_plan(p, columns, level, runs);
            for (unsigned k = 0; k < sizeof lengths / sizeof *lengths; k++)
                try_word_of(p, lengths[k]);
            write_text(p, &text);
            if (columns > 24 || level == 1 || (full && runs <= 2))
                try_listing(&text);
            try_writers(p);
        }
}

static void many_runs(Plan *p)
{
    for (long runs = 255; runs <= 258; runs++) {
        even_plan(p, 1, 1, runs), try_all(p);
        even_plan(p, 1, 2, runs), try_all(p);
        even_plan(p, 2, 3, runs), try_all(p);
        even_plan(p, 3, 16, runs), try_every_word(p), try_writers(p);
    }
    even_plan(p, 2, 16, 256);
    for (long k = 0; k < p->entries; k++)
        p->table[k] = (byte)(k % 2 ? k / 2 % 16 : k / 32);
    try_all(p);
}

/* 2,000,000,000, the products of ten levels next above and below it, 3,000,000,000, alone and among columns of one level; then
 * products beyond 32 and 64 bits. */
static void large_products(Plan *p)
{
    static const byte at_limit[][10] = {
        { 2, 10, 10, 10, 10, 10, 10, 10, 10, 10 },
        { 2, 2, 6, 9, 14, 14, 14, 15, 15, 15 },
        { 2, 2, 7, 11, 13, 13, 14, 14, 14, 14 },
        { 10, 10, 10, 10, 10, 10, 10, 10, 10, 3 },
    };
    for (unsigned k = 0; k < sizeof at_limit / sizeof *at_limit; k++)
        for (long runs = 1; runs <= 2; runs++) {
            even_plan(p, 10, 2, runs);
            for (long i = 0; i < 10; i++)
                p->levels[i] = at_limit[k][i];
            try_all(p);
            while (p->columns < 24)
                insert_one_level(p, (long)draw((unsigned long)p->columns + 1));
            try_all(p);
        }
    for (long columns = 7; columns <= 24; columns++)
        even_plan(p, columns, 16, 2), try_all(p);
}

/* Texts of 32,767 to 32,770 bytes, well-formed and then with a bad end. */
static void long_texts(Plan *p)
{
    static Text text;
    static const Losses none = { .count = 0 };
    for (long columns = 1; columns <= 25; columns += 3)
        for (long length = 32767; length <= 32770; length++) {
            even_plan(p, columns, 2, 3);
            write_text(p, &text);
            fill_text(&text, columns, length);
            try_listing(&text);
            try_rewrite(&text, &none);
            text.bytes[text.length - 1] = '0';
            try_listing(&text);
            try_rewrite(&text, &none);
        }
}

/* The most bytes that the text of a good plan can have: 24 columns, of which so many have two digits in their level and in every
 * entry, from 11 levels on, and so many in their level alone, which is 10. The others can have one level. */
static long most_bytes(void)
{
    long most = 0, product = 1;
    for (long entries = 0; product <= 2000000000; entries++, product *= 11) {
        long levels = 0;
        for (long tens = product * 10; tens <= 2000000000; tens *= 10)
            levels++;
        long bytes = 257 * 48 + 257 * entries + levels;
        most = bytes > most ? bytes : most;
    }
    return most;
}

/* Eight columns of 11 levels, every entry 10, and 16 columns of one level. */
static void longest_text(Plan *p)
{
    static Text text;
    even_plan(p, 24, 1, 256);
    for (long i = 16; i < 24; i++)
        p->levels[i] = 11;
    for (long k = 0; k < p->entries; k++)
        p->table[k] = k % 24 >= 16 ? 10 : 0;
    write_text(p, &text);
    printf("the longest text of a good plan: %ld bytes, and none can have more than %ld\n", text.length, most_bytes());
    if (text.length != most_bytes())
        differs("the longest text", text.length, most_bytes());
    try_writers(p);
}

/* ---- plans of 24 columns, some of one level */

static void one_level_columns(Plan *p, int full)
{
    for (int kind = 0; kind < (full ? GRADES : SHORT_GRADES); kind++)
        for (int order = 0; order < ORDERS; order++) {
            make_grades(p, &grades[kind], order);
            try_all(p);
        }
}

/* A pointer whose length is 0 may be null. */
static void nothing_lent(void)
{
    static const byte two[1] = { 2 }, zero[1] = { 0 }, text[] = "2\n0\n";
    long got[] = {
        crumb_word(0, 0, 0, 0, 1), crumb_word(two, 1, 0, 0, 1), crumb_listing(0, 0, 0, 0), crumb_listing(two, 1, 0, 0),
        crumb_write(0, 0, 0, 0, 0, 0), crumb_write(two, 1, 0, 0, 0, 0), crumb_write(two, 1, zero, 1, 0, 0),
        crumb_rewrite(0, 0, 0, 0, 0, 0, 0, 0), crumb_rewrite(text, 4, 0, 0, 0, 0, 0, 0),
    };
    static const long answers[] = { -1, -4, -7, -7, -1, -4, -7, -14, -7 };
    for (unsigned k = 0; k < sizeof got / sizeof *got; k++)
        if (got[k] != answers[k]) {
            differs("a call that is lent nothing", got[k], answers[k]);
            printf("\n");
        }
}

static void boundaries(int full)
{
    static Plan plan;
    nothing_lent();
    large_products(&plan);
    long_texts(&plan);
    many_columns(&plan, 1, full);
    many_columns(&plan, 2, full);
    many_runs(&plan);
    longest_text(&plan);
    one_level_columns(&plan, full);
}

/* ---- how much is tried */

enum { FULL, SHORT, SHORT_SETS, TENTH, KINDS };

static unsigned long kind;

/* So many in a full run, a tenth of them in a tenth, and a few in a short run. */
static long rounds(long all, long few)
{
    return kind == FULL ? all : kind == TENTH ? all / 10 : few;
}

/* Everything at the limits, in a tenth too. */
static int every_limit(void)
{
    return kind == FULL || kind == TENTH;
}

static void everything_but_sets(void)
{
    generated(rounds(120000, 2000));
    damaged(rounds(400, 4), &words, damaged_word);
    damaged(rounds(120, 2), &listings, damaged_listing);
    boundaries(every_limit());
    generated_writers(rounds(100000, 2000));
    damaged(rounds(250, 4), &writes, damaged_write);
    damaged(rounds(40, 2), &rewrites, damaged_rewrite);
}

static void all_sets(void)
{
    generated_sets(rounds(30000, 2000));
    damaged(rounds(60, 2), &sets, damaged_set);
    damaged(rounds(60, 2), &set_words, damaged_set_words);
    sets_at_limits(every_limit());
}

int main(int count, char **arguments)
{
    static const char *const names[KINDS] = { "", ", a short run", ", a short run of the sets", ", a tenth of the rounds" };
    unsigned long seed = argument(count, arguments, 1, 20261115);
    kind = argument(count, arguments, 2, FULL);
    if (kind >= KINDS)
        return 2;
    start_draws(seed);
    printf("seed %lu%s\n", seed, names[kind]);
    if (kind != SHORT_SETS)
        everything_but_sets();
    all_sets();
    finish(kind == FULL ? 1 : kind == TENTH ? 10 : 0);
}
