#include "trial_writers.h"
#include "rooms.h"

int memcmp(const void *a, const void *b, size n);

static long try_room(const Plan *p, long bytes)
{
    static Room room;
    static byte wanted[ROOM];
    long answer = reference_write(p->levels, p->columns, p->table, p->entries, wanted, bytes);
    byte *lent = with_canaries(&room, bytes);
    long got = crumb_write(p->levels, (size)p->columns, p->table, (size)p->entries, bytes > 0 ? lent : 0, (size)bytes);
    if (got != answer || !holds(&room, bytes, wanted, answer > 0 ? answer : 0)) {
        differs(got == answer ? "the room of crumb_write" : "crumb_write", got, answer);
        print_plan(p);
    }
    return answer;
}

/* Reading what was written gives the plan back. */
static void try_reading_back(const Plan *p)
{
    static Text text;
    static Read read;
    text.length = crumb_write(p->levels, (size)p->columns, p->table, (size)p->entries, text.bytes, sizeof text.bytes);
    Refusal r = reference_read(text.bytes, text.length, &read);
    if (r.number == 0 && read.columns == p->columns && memcmp(read.levels, p->levels, (size)p->columns) == 0
        && read.entries == p->entries && memcmp(read.table, p->table, (size)p->entries) == 0)
        return;
    differs("crumb_write, read back,", r.number, 0);
    print_plan(p);
}

/* In a room of the text's length, in one too short by one, in a larger one, and in none at all. */
void try_write(const Plan *p)
{
    static Text text;
    write_text(p, &text);
    long answer = try_room(p, text.length);
    note_answer(&writes, answer);
    try_room(p, text.length - 1);
    try_room(p, text.length + 40);
    try_room(p, 0);
    if (answer > 0)
        try_reading_back(p);
}
