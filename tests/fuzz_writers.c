#include "fuzz_writers.h"
#include "lent.h"
#include "losses.h"
#include "draws.h"

long crumb_write(const byte *levels, size columns, const byte *table, size entries, byte *room, size bytes);
long crumb_rewrite(const byte *text, size length, const size *lost, size losses, byte *room, size bytes, size *numbers, size places);

int memcmp(const void *a, const void *b, size n);

static byte wanted[CANARIES];

/* Whether a room of so many bytes has what is wanted at its front and canaries behind it. */
static int holds(const void *room, long bytes, const void *front, long written)
{
    return memcmp(room, front, (size)written) == 0 && memcmp((const byte *)room + written, canaries, (size)(bytes - written)) == 0;
}

/* ---- crumb_write */

static long ask_write(const byte *levels, const byte *table, const Plan *p, byte *room, long bytes)
{
    asked = "crumb_write";
    long answer = crumb_write(levels, (size)p->columns, table, (size)p->entries, room, (size)bytes);
    asked = "the fuzzer";
    return answer;
}

static long try_room(const Plan *p, long bytes, int late)
{
    byte *levels = lend(lent_levels, p->levels, p->columns, late);
    byte *table = lend(lent_table, p->table, p->entries, late);
    byte *room = lend(lent_room, canaries, bytes, late);
    long answer = reference_write(p->levels, p->columns, p->table, p->entries, wanted, bytes);
    long got = ask_write(levels, table, p, room, bytes);
    if (got != answer)
        differs("crumb_write", got, answer);
    else if (!holds(room, bytes, wanted, answer > 0 ? answer : 0))
        differs("the room of crumb_write", got, answer);
    else if (memcmp(levels, p->levels, (size)p->columns) != 0 || memcmp(table, p->table, (size)p->entries) != 0)
        differs("levels and table after crumb_write", 0, 0);
    return answer;
}

void try_write(const Plan *p)
{
    long answer = try_room(p, CANARIES, (int)draw(2));
    long length = answer > 0 ? answer : 1 + (long)draw(100);
    writes.tried++;
    writes.met[answer < 0 ? -answer : 0]++;
    try_room(p, length, 1);
    try_room(p, length, 0);
    try_room(p, length - 1, (int)draw(2));
}

/* ---- crumb_rewrite */

typedef struct {
    long bytes, places;
    int late;
} Rooms;

static long ask_rewrite(const byte *from, const size *lost, long losses, byte *room, size *numbers, Rooms rooms)
{
    asked = "crumb_rewrite";
    long answer = crumb_rewrite(from, (size)text.length, lost, (size)losses, room, (size)rooms.bytes, numbers, (size)rooms.places);
    asked = "the fuzzer";
    return answer;
}

/* The lines behind the first, less the runs that are lost. */
static long runs_left(const Losses *l)
{
    long lines = 0;
    for (long k = 0; k < text.length; k++)
        lines += text.bytes[k] == 10;
    return lines - 1 - l->count;
}

static void try_rooms(const Losses *l, Rooms rooms)
{
    static size wanted_numbers[256];
    long answer = reference_rewrite(text.bytes, text.length, l->runs, l->count, wanted, rooms.bytes, wanted_numbers, rooms.places);
    long left = answer > 0 ? runs_left(l) : 0;
    byte *from = lend(lent_text, text.bytes, text.length, rooms.late);
    size *lost = lend_numbers(lent_losses, l->runs, l->count, rooms.late);
    byte *room = lend(lent_room, canaries, rooms.bytes, rooms.late);
    size *numbers = lend_numbers(lent_numbers, canaries, rooms.places, rooms.late);
    long got = ask_rewrite(from, lost, l->count, room, numbers, rooms);
    if (got != answer)
        differs("crumb_rewrite", got, answer);
    else if (!holds(room, rooms.bytes, wanted, answer > 0 ? answer : 0))
        differs("the room of crumb_rewrite", got, answer);
    else if (!holds(numbers, rooms.places * (long)sizeof(size), wanted_numbers, left * (long)sizeof(size)))
        differs("the numbers of crumb_rewrite", got, answer);
    else if (memcmp(from, text.bytes, (size)text.length) != 0 || memcmp(lost, l->runs, (size)l->count * sizeof(size)) != 0)
        differs("text and lost runs after crumb_rewrite", 0, 0);
}

/* A list for the text's runs, or for a few where it has none; damaged once or twice in one of three. */
static void choose_losses(Losses *l, const Read *plan, int refused)
{
    long runs = refused ? 1 + (long)draw(20) : plan->entries / plan->columns;
    draw_losses(l, runs);
    for (long k = draw(3) ? 0 : 1 + (long)draw(2); k > 0; k--)
        damage_losses(l, runs, (int)draw(LOSS_DAMAGES));
}

/* What the reference needs for its answer, or a little where it refuses. */
static Rooms needed(long answer, const Losses *l)
{
    Rooms rooms = { answer, runs_left(l), 1 };
    Rooms little = { 1 + (long)draw(100), 1 + (long)draw(20), 1 };
    return answer > 0 ? rooms : little;
}

void try_rewrite(void)
{
    static Read plan;
    static Losses losses;
    static size numbers[256];
    choose_losses(&losses, &plan, reference_read(text.bytes, text.length, &plan).number != 0);
    long answer = reference_rewrite(text.bytes, text.length, losses.runs, losses.count, wanted, CANARIES, numbers, 256);
    rewrites.tried++;
    rewrites.met[answer < 0 ? -answer : 0]++;
    Rooms exact = needed(answer, &losses), early = exact, short_room = exact, few_places = exact, larger = exact;
    early.late = 0;
    short_room.bytes--, short_room.late = (int)draw(2);
    few_places.places--, few_places.late = (int)draw(2);
    larger.bytes += (long)draw(200), larger.places += (long)draw(20), larger.late = (int)draw(2);
    try_rooms(&losses, exact);
    try_rooms(&losses, early);
    try_rooms(&losses, short_room);
    try_rooms(&losses, few_places);
    try_rooms(&losses, larger);
}
