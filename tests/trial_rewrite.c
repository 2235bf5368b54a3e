#include "trial_writers.h"
#include "rooms.h"
#include "draws.h"

int memcmp(const void *a, const void *b, size n);

enum { PLACES = 260 };

static void say(const char *what, long got, long wanted, const Text *t, const Losses *l)
{
    differs(what, got, wanted);
    print_losses(l);
    print_text(t);
}

/* The lines behind the first. */
static long runs_of(const Text *t)
{
    long lines = 0;
    for (long k = 0; k < t->length; k++)
        lines += t->bytes[k] == 10;
    return lines - 1;
}

/* ---- against the reference */

static long try_rooms(const Text *t, const Losses *l, long bytes, long places)
{
    static Room room, numbers;
    static byte wanted[ROOM];
    static size wanted_numbers[PLACES];
    long width = places * (long)sizeof(size);
    long answer = reference_rewrite(t->bytes, t->length, l->runs, l->count, wanted, bytes, wanted_numbers, places);
    long left = answer > 0 ? runs_of(t) - l->count : 0;
    byte *lent = with_canaries(&room, bytes);
    size *lent_numbers = with_canaries(&numbers, width);
    long got = crumb_rewrite(t->bytes, (size)t->length, l->count > 0 ? l->runs : 0, (size)l->count,
                             bytes > 0 ? lent : 0, (size)bytes, places > 0 ? lent_numbers : 0, (size)places);
    if (got != answer)
        say("crumb_rewrite", got, answer, t, l);
    else if (!holds(&room, bytes, wanted, answer > 0 ? answer : 0))
        say("the room of crumb_rewrite", got, answer, t, l);
    else if (!holds(&numbers, width, wanted_numbers, left * (long)sizeof(size)))
        say("the numbers of crumb_rewrite", got, answer, t, l);
    return answer;
}

/* ---- against the text itself */

typedef struct {
    Text text;
    size numbers[PLACES];
} Rewritten;

static void rewrite(const Text *t, const size *lost, long losses, Rewritten *out)
{
    out->text.length = crumb_rewrite(t->bytes, (size)t->length, lost, (size)losses, out->text.bytes, sizeof out->text.bytes,
                                     out->numbers, PLACES);
}

static int same_text(const Text *a, const Text *b)
{
    return a->length == b->length && a->length > 0 && memcmp(a->bytes, b->bytes, (size)a->length) == 0;
}

/* Writing what was read gives the same bytes. */
static void try_writing_back(const Text *t, const Losses *l)
{
    static Read read;
    static Text again;
    reference_read(t->bytes, t->length, &read);
    again.length = crumb_write(read.levels, (size)read.columns, read.table, (size)read.entries, again.bytes, sizeof again.bytes);
    if (!same_text(&again, t))
        say("crumb_write of what was read", again.length, t->length, t, l);
}

static void try_without_loss(const Text *t, const Losses *l)
{
    static Rewritten whole;
    rewrite(t, 0, 0, &whole);
    int same = same_text(&whole.text, t);
    for (long run = 0; same && run < runs_of(t); run++)
        same = whole.numbers[run] == (size)run;
    if (!same)
        say("crumb_rewrite without a loss", whole.text.length, t->length, t, l);
}

/* The numbers that the further lost runs have once the first ones are gone. */
static void renumber(const size *lost, long losses, const Rewritten *first, size *renumbered)
{
    for (long k = 0; k < losses; k++)
        for (renumbered[k] = 0; renumbered[k] < PLACES && first->numbers[renumbered[k]] != lost[k];)
            renumbered[k]++;
}

/* Some runs first, and then the others by their new numbers, leaves what all at once leaves. */
static void try_in_two(const Text *t, const Losses *l)
{
    static Rewritten once, first, second;
    static size renumbered[PLACES];
    long some = (long)draw((size)l->count + 1);
    rewrite(t, l->runs, l->count, &once);
    rewrite(t, l->runs, some, &first);
    renumber(l->runs + some, l->count - some, &first, renumbered);
    rewrite(&first.text, renumbered, l->count - some, &second);
    int same = same_text(&second.text, &once.text);
    for (long k = 0; same && k < runs_of(&once.text); k++)
        same = second.numbers[k] < PLACES && first.numbers[second.numbers[k]] == once.numbers[k];
    if (!same)
        say("crumb_rewrite in two", second.text.length, once.text.length, t, l);
}

/* In rooms that are larger than needed, in none at all, in both as long as needed, and with one of them too short by one. */
void try_rewrite(const Text *t, const Losses *l)
{
    long answer = try_rooms(t, l, t->length + 40, PLACES), left = runs_of(t) - l->count;
    note_answer(&rewrites, answer);
    try_rooms(t, l, 0, 0);
    if (answer < 0)
        return;
    try_rooms(t, l, answer, left);
    try_rooms(t, l, answer - 1, left + (long)draw(2));
    try_rooms(t, l, answer + (long)draw(2), left - 1);
    try_writing_back(t, l);
    try_without_loss(t, l);
    try_in_two(t, l);
}
