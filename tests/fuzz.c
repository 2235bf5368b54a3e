/* A mutation fuzzer for the exported functions. Texts of the corpus have
 * bytes flipped, inserted and cut, lines copied, heads and tails joined.
 * What comes out is handed to crumb_listing as it is, to crumb_rewrite with
 * a list of lost runs, and taken apart into levels, table and length for
 * crumb_word and crumb_write, and for bench_set_word with a set of columns;
 * the answers are compared with the reference.
 * Every lent buffer stands between two stretches of memory without
 * access: flush with the one behind it, and in a second call flush with the
 * one before it. A read or a write out of bounds traps.
 *
 * Arguments: the seed, the number of rounds, the files of the corpus. Each
 * round tries every function. A plan whose answer is of a new kind joins the
 * corpus for the rest of the run.
 *
 * The reference is slow, so the figures of a larger plan are not compared:
 * then the form of the listing is looked at, its words against crumb_word,
 * its resolution against its strength, and its ratio, which is 1 at most; a
 * word must not be negative. How many those were is printed.
 */
#include "fuzz_writers.h"
#include "fuzz_sets.h"
#include "lent.h"
#include "draws.h"

typedef __int128 wide;
long crumb_word(const byte *levels, size columns, const byte *table, size entries, unsigned long length);
long crumb_listing(const byte *text, size length, byte *room, size bytes);

int printf(const char *format, ...);
void exit(int status);
void *memcpy(void *to, const void *from, size n);
void *memmove(void *to, const void *from, size n);
void *memset(void *to, int value, size n);
int memcmp(const void *a, const void *b, size n);
int open(const char *path, int flags, ...);
long read(int file, void *to, size bytes);
int close(int file);
void (*signal(int number, void (*handler)(int)))(int);

/* Their values on x86-64 Linux. */
enum { READ_ONLY = 0, BUS_ERROR = 7, SEGMENT_FAULT = 11 };

/* ---- asking */

static long ask_word(const byte *levels, long columns, const byte *table, long entries, unsigned long length)
{
    asked = "crumb_word";
    long answer = crumb_word(levels, (size)columns, table, (size)entries, length);
    asked = "the fuzzer";
    return answer;
}

static long ask_listing(const byte *from, byte *room, long bytes)
{
    asked = "crumb_listing";
    long answer = crumb_listing(from, (size)text.length, room, (size)bytes);
    asked = "the fuzzer";
    return answer;
}

/* ---- crumb_listing */

enum { LONGEST = 2048, ROOM = 4096 };

static byte wanted[ROOM];

/* With a room of so many bytes; `length` is that of the listing wanted. */
static void try_room(long length, long bytes, int late)
{
    long answer = bytes >= length ? length : -7, written = bytes >= length ? length : 0;
    byte *from = lend(lent_text, text.bytes, text.length, late);
    byte *room = lend(lent_room, canaries, bytes, late);
    long got = ask_listing(from, room, bytes);
    if (got != answer)
        differs("crumb_listing", got, answer);
    else if (memcmp(room, wanted, (size)written) != 0)
        differs("crumb_listing, by its bytes,", got, answer);
    else if (memcmp(room + written, canaries, (size)(bytes - written)) != 0)
        differs("the rest of the room", 0, CANARY);
    else if (memcmp(from, text.bytes, (size)text.length) != 0)
        differs("the text afterwards", 0, 0);
}

/* About how many scores the reference adds up for a listing, and how many entries it looks at for strength: a column of one level
 * adds no combination, but sets where it is not left out. */
static double listing_cost(const Read *plan)
{
    double runs = (double)(plan->entries / plan->columns), sets = 1, combinations = 1;
    long walked = reference_columns(plan->levels, plan->columns);
    for (long i = 0; i < plan->columns; i++) {
        sets *= i < walked ? 2 : 1;
        combinations *= plan->levels[i] > 1 ? plan->levels[i] : walked == plan->columns ? 2 : 1;
    }
    return (runs * runs * runs * sets + runs * combinations) * (double)plan->columns;
}

/* One line: a name and so many numbers. The byte behind it, or null where it has another form. */
static const byte *line(const byte *at, const char *name, long *numbers, int count)
{
    while (at && *name)
        at = *at == (byte)*name++ ? at + 1 : 0;
    for (int k = 0; at && k < count; k++) {
        if (at[0] != ' ' || at[1] < '0' || at[1] > '9')
            return 0;
        for (numbers[k] = 0, at++; *at >= '0' && *at <= '9'; at++)
            numbers[k] = numbers[k] * 10 + *at - '0';
    }
    return at && *at == 10 ? at + 1 : 0;
}

/* The lines of the words, each against crumb_word. */
static const byte *words_lines(const byte *at, const Read *plan, long runs)
{
    for (long j = 1; at && j <= plan->columns; j++) {
        long numbers[3] = { 0 };
        at = line(at, "word", numbers, 3);
        long word = ask_word(plan->levels, plan->columns, plan->table, plan->entries, (unsigned long)j);
        if (numbers[0] != j || (wide)word * numbers[2] != (wide)numbers[1] * runs * runs)
            return 0;
    }
    return at;
}

/* The lines of a resolution that exists: it is the strength and one, and the ratio is 1 at most. */
static const byte *resolution_lines(const byte *at, long strength)
{
    long resolution = 0, ratio[2] = { 0 }, gr = 0;
    at = line(line(line(at, "resolution", &resolution, 1), "ratio", ratio, 2), "gr", &gr, 1);
    return resolution == strength + 1 && ratio[0] <= ratio[1] ? at : 0;
}

/* Whether what stands in `wanted` has the form of a listing of this plan. */
static int has_form(const Read *plan, long length)
{
    long runs = plan->entries / plan->columns, numbers[2] = { 0 }, strength = 0;
    wanted[length] = 0;
    const byte *at = line(wanted, "plan", numbers, 2);
    if (numbers[0] != runs || numbers[1] != plan->columns)
        return 0;
    at = words_lines(at, plan, runs);
    at = line(at, "strength", &strength, 1);
    const byte *none = strength == plan->columns ? line(at, "resolution none", numbers, 0) : 0;
    at = none ? none : resolution_lines(at, strength);
    at = runs < 2 ? line(at, "lose none", numbers, 0) : line(at, "lose", numbers, 1);
    return at == wanted + length;
}

/* The library's own listing for a plan too large to compare, put into `wanted`. */
static long form_of(const Read *plan)
{
    byte *from = lend(lent_text, text.bytes, text.length, 1);
    byte *room = lend(lent_room, canaries, LONGEST, 1);
    long length = ask_listing(from, room, LONGEST);
    listings.uncompared++;
    if (length < 1 || length > LONGEST) {
        differs("crumb_listing of a larger plan", length, LONGEST);
        return 0;
    }
    memcpy(wanted, room, (size)length);
    if (!has_form(plan, length))
        differs("the form of a listing", length, length);
    return length;
}

/* Whether the text is a plan, and one that the reference could be asked about. */
static int try_listing(void)
{
    static Read plan;
    Refusal refusal = reference_read(text.bytes, text.length, &plan);
    int compared = refusal.number != 0 || listing_cost(&plan) <= 1e6;
    long length = compared ? reference_listing(text.bytes, text.length, wanted) : form_of(&plan);
    listings.tried++;
    listings.met[refusal.number]++;
    if (length > 0) {
        try_room(length, length, 1);
        try_room(length, length, 0);
        try_room(length, length - 1, (int)draw(2));
        try_room(length, length + (long)draw(ROOM - (unsigned long)length), (int)draw(2));
    }
    return refusal.number == 0 && compared;
}

/* ---- crumb_word */

static Plan plan;

static void try_lent_word(long answer, int compared, int late)
{
    byte *levels = lend(lent_levels, plan.levels, plan.columns, late);
    byte *table = lend(lent_table, plan.table, plan.entries, late);
    long got = ask_word(levels, plan.columns, table, plan.entries, plan.length);
    if (compared ? got != answer : got < 0)
        differs("crumb_word", got, answer);
    else if (memcmp(levels, plan.levels, (size)plan.columns) != 0 || memcmp(table, plan.table, (size)plan.entries) != 0)
        differs("levels and table afterwards", 0, 0);
}

/* About how many scores the reference multiplies for the word. */
static double word_cost(void)
{
    double runs = (double)(plan.entries / plan.columns), sets = 1;
    long walked = reference_columns(plan.levels, plan.columns);
    for (long k = 0; k < (long)plan.length; k++)
        sets = sets * (double)(walked - k) / (double)(k + 1);
    return runs * runs * sets * (double)plan.length;
}

static void try_word(void)
{
    int refused = reference_check(plan.levels, plan.columns, plan.table, plan.entries).number != 0;
    int compared = refused || plan.length > (unsigned long)plan.columns || word_cost() <= 1e6;
    long answer = compared ? reference_word(plan.levels, plan.columns, plan.table, plan.entries, plan.length) : 0;
    words.tried++;
    words.uncompared += !compared;
    words.met[answer < 0 && answer > -16 ? -answer : 0]++; /* an error planted in the reference may give any number */
    try_lent_word(answer, compared, 1);
    try_lent_word(answer, compared, 0);
}

static unsigned long length_from(byte b)
{
    if (b >= 250)
        return ~0UL - (b - 250UL);
    return b >= 240 ? (1UL << 32) + b - 240 : b % 27;
}

/* The table again and again until it has so many runs. */
static void lengthen_table(long runs)
{
    long entries = plan.entries;
    while (entries > 0 && plan.entries < runs * plan.columns) {
        plan.table[plan.entries] = plan.table[plan.entries - entries];
        plan.entries++;
    }
}

/* Levels in range, a table of whole runs, entries in range: each where its bit is set, or the highest. */
static void mend(unsigned bits)
{
    bits |= bits & 128 ? 7 : 0;
    for (long i = 0; i < plan.columns && bits & 1; i++)
        plan.levels[i] = (byte)(1 + plan.levels[i] % (bits & 16 && (plan.columns < 8 || bits & 32) ? 16 : 3));
    if (plan.columns > 0 && bits & 2)
        plan.entries -= plan.entries % plan.columns;
    for (long k = 0; k < plan.entries && plan.columns > 0 && bits & 4; k++)
        plan.table[k] %= plan.levels[k % plan.columns] ? plan.levels[k % plan.columns] : 2;
}

/* Three bytes say how many columns, which length and what is mended; they are mostly drawn anew, since the head of a text is
 * nearly always a digit. The levels follow, then the table. */
static void take_apart(const Text *t)
{
    byte head[3];
    for (long k = 0; k < 3; k++)
        head[k] = k < t->length && draw(4) == 0 ? t->bytes[k] : (byte)draw(256);
    long rest = t->length > 3 ? t->length - 3 : 0;
    long columns = head[0] % 64 < 48 ? head[0] % 8 : head[0] % 27;
    plan.columns = columns < rest ? columns : rest;
    plan.entries = rest - plan.columns < 4000 ? rest - plan.columns : 4000;
    plan.length = head[1] % 4 ? length_from((byte)(head[1] % (plan.columns + 2))) : length_from(head[1]);
    memcpy(plan.levels, t->bytes + 3, (size)plan.columns);
    memcpy(plan.table, t->bytes + 3 + plan.columns, (size)plan.entries);
    mend(head[2]);
    if (draw(50) == 0)
        lengthen_table(256 + (long)draw(2));
}

/* ---- the corpus, and what joins it */

enum { KEPT = 512, LONGEST_KEPT = 1024 };

typedef struct {
    byte bytes[LONGEST_KEPT];
    long length;
} Kept;

static Kept kept[KEPT];
static long stored, joined, kinds;
static byte seen[1 << 16];

static void load(const char *path)
{
    int file = open(path, READ_ONLY);
    long length = file < 0 || stored == KEPT / 2 ? -1 : read(file, kept[stored].bytes, LONGEST_KEPT);
    if (length < 0) {
        printf("cannot read %s\n", path);
        exit(1);
    }
    kept[stored++].length = length;
    close(file);
}

/* A number for the kind of an answer: from its lines from strength on. */
static unsigned kind_of_answer(void)
{
    unsigned kind = 0;
    const byte *at = wanted;
    while (*at && *at != 's')
        at++;
    for (; *at; at++)
        kind = kind * 31 + *at;
    return (kind ^ kind >> 16) % sizeof seen;
}

static void keep_new_kind(void)
{
    unsigned kind = kind_of_answer();
    if (seen[kind] || text.length > LONGEST_KEPT)
        return;
    seen[kind] = 1;
    kinds++;
    long place = stored + joined < KEPT ? stored + joined : stored + (long)draw((unsigned long)(KEPT - stored));
    memcpy(kept[place].bytes, text.bytes, (size)text.length);
    kept[place].length = text.length;
    joined += stored + joined < KEPT;
}

static void choose(Text *t)
{
    const Kept *k = &kept[draw(2) && joined > 0 ? (unsigned long)stored + draw((unsigned long)joined) : draw((unsigned long)stored)];
    memcpy(t->bytes, k->bytes, (size)k->length);
    t->length = k->length;
}

/* ---- mutations */

enum { MOST = 33000 };

static byte usual_byte(void)
{
    static const byte usual[] = "0123456789,\n,\n00112";
    return usual[draw(sizeof usual - 1)];
}

static long place_in(const Text *t)
{
    return t->length > 0 ? (long)draw((unsigned long)t->length) : 0;
}

static void insert(Text *t, long place, const byte *bytes, long count)
{
    if (t->length + count > MOST)
        return;
    memmove(t->bytes + place + count, t->bytes + place, (size)(t->length - place));
    memcpy(t->bytes + place, bytes, (size)count);
    t->length += count;
}

static void cut(Text *t, long place, long count)
{
    if (count > t->length - place)
        count = t->length - place;
    memmove(t->bytes + place, t->bytes + place + count, (size)(t->length - place - count));
    t->length -= count;
}

static long line_start(const Text *t, long place)
{
    while (place > 0 && t->bytes[place - 1] != 10)
        place--;
    return place;
}

static long line_length(const Text *t, long start)
{
    long end = start;
    while (end < t->length && t->bytes[end] != 10)
        end++;
    return end < t->length ? end + 1 - start : end - start;
}

/* The next digit becomes another one, mostly a low one. */
static void change_digit(Text *t)
{
    long place = place_in(t);
    while (place < t->length && (t->bytes[place] < '0' || t->bytes[place] > '9'))
        place++;
    if (place < t->length)
        t->bytes[place] = (byte)('0' + draw(draw(4) ? 3 : 10));
}

static void copy_line(Text *t)
{
    static byte copy[MOST];
    long from = line_start(t, place_in(t)), count = line_length(t, from);
    memcpy(copy, t->bytes + from, (size)count);
    insert(t, line_start(t, place_in(t)), copy, count);
}

static void cut_line(Text *t)
{
    long start = line_start(t, place_in(t));
    cut(t, start, line_length(t, start));
}

/* The tail of another input in place of this one's. */
static void join(Text *t)
{
    static Text other;
    choose(&other);
    long from = place_in(&other);
    t->length = place_in(t);
    insert(t, t->length, other.bytes + from, other.length - from);
}

static void grow(Text *t)
{
    long columns = 1 + (long)draw(3), length = 32766 + (long)draw(5);
    if (t->length < 32000)
        fill_text(t, columns, length);
}

/* The rare one makes a text of about 32,768 bytes. */
static void mutate(Text *t)
{
    byte drawn = (byte)draw(256), usual = usual_byte();
    long place = place_in(t);
    switch (draw(200) ? draw(14) : 14) {
    case 0: t->bytes[place] ^= (byte)(1 << draw(8)); break;
    case 1: t->bytes[place] = draw(2) ? drawn : usual; break;
    case 2: insert(t, place, draw(2) ? &drawn : &usual, 1); break;
    case 3: cut(t, place, 1 + (long)draw(4)); break;
    case 4: cut(t, place, (long)draw((unsigned long)t->length + 1)); break;
    case 5: join(t); break;
    case 6: case 7: copy_line(t); break;
    case 8: case 9: cut_line(t); break;
    case 10: case 11: case 12: case 13: change_digit(t); break;
    case 14: grow(t); break;
    }
}

/* The writers and the sets draw from rows of their own, so that the mutations of a seed do not depend on them. */
static unsigned long writers_row, sets_row;

static void one_round(void)
{
    choose(&text);
    for (long k = (long)draw(draw(2) ? 2 : 6); k >= 0; k--)
        mutate(&text);
    memset(wanted, 0, sizeof wanted);
    if (try_listing())
        keep_new_kind();
    take_apart(&text);
    try_word();
    unsigned long row = change_row(writers_row);
    try_write(&plan);
    try_rewrite();
    writers_row = change_row(sets_row);
    try_set(&plan);
    sets_row = change_row(row);
}

int main(int count, char **arguments)
{
    seed = argument(count, arguments, 1, 20261115);
    unsigned long rounds = argument(count, arguments, 2, 1000);
    start_draws(seed);
    writers_row = row_of(seed + 1), sets_row = row_of(seed + 2);
    for (int k = 3; k < count; k++)
        load(arguments[k]);
    if (stored == 0)
        return 1;
    signal(SEGMENT_FAULT, trapped);
    signal(BUS_ERROR, trapped);
    start_lending();
    printf("seed %lu, %lu rounds from %ld texts\n", seed, rounds, stored);
    for (round_now = 0; round_now < rounds; round_now++)
        one_round();
    printf("%ld kinds of listings\n", kinds);
    finish();
}
