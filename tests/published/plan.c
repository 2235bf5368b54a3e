#include <stdio.h>
#include "crumbchorus.h"
#include "plan.h"

int open(const char *path, int flags, ...);
long read(int file, void *room, unsigned long bytes);
int close(int file);
int snprintf(char *room, unsigned long bytes, const char *format, ...);
int strncmp(const char *a, const char *b, unsigned long bytes);
void exit(int status);

enum { TEXT_ROOM = 32769, LISTING_ROOM = 2048 };

/* ---- plan text */

static const char *folder = ".";

void plans_stand_in(const char *path)
{
    folder = path;
}

static void read_text(const char *name, char *text)
{
    char path[512];
    snprintf(path, sizeof path, "%s/%s.txt", folder, name);
    int file = open(path, 0);
    long bytes = file < 0 ? -1 : read(file, text, TEXT_ROOM - 1);
    if (bytes < 0) {
        printf("no plan text: %s\n", path);
        exit(1);
    }
    text[bytes] = 0;
    close(file);
}

static long number(const char **at)
{
    long n = 0;
    while (**at >= '0' && **at <= '9')
        n = n * 10 + *(*at)++ - '0';
    return n;
}

/* The numbers of a line; `at` ends behind it. */
static long line(const char **at, byte *room)
{
    long count = 0;
    do
        room[count++] = (byte)number(at);
    while (*(*at)++ == ',');
    return count;
}

Plan plan_of(const char *name)
{
    static char text[TEXT_ROOM];
    Plan plan = { 0 };
    read_text(name, text);
    const char *at = text;
    plan.columns = line(&at, plan.levels);
    while (*at) {
        line(&at, plan.table + plan.runs * plan.columns);
        plan.runs++;
    }
    return plan;
}

static long put_line(char *text, const byte *row, long count)
{
    long bytes = 0;
    for (long i = 0; i < count; i++)
        bytes += snprintf(text + bytes, 4, i + 1 < count ? "%d," : "%d\n", row[i]);
    return bytes;
}

static long put_plan(char *text, const Plan *plan)
{
    long bytes = put_line(text, plan->levels, plan->columns);
    for (long run = 0; run < plan->runs; run++)
        bytes += put_line(text + bytes, plan->table + run * plan->columns, plan->columns);
    return bytes;
}

/* ---- parts of a plan */

Plan projected(const Plan *plan, const long *columns, long count)
{
    Plan part = { count, plan->runs, { 0 }, { 0 } };
    for (long i = 0; i < count; i++)
        part.levels[i] = plan->levels[columns[i]];
    for (long k = 0; k < plan->runs * count; k++)
        part.table[k] = plan->table[k / count * plan->columns + columns[k % count]];
    return part;
}

static int among(long wanted, const long *numbers, long count)
{
    for (long k = 0; k < count; k++)
        if (numbers[k] == wanted)
            return 1;
    return 0;
}

Plan without(const Plan *plan, const long *runs, long count)
{
    Plan part = *plan;
    long entries = 0;
    for (long k = 0; k < plan->runs * plan->columns; k++)
        if (!among(k / plan->columns, runs, count))
            part.table[entries++] = plan->table[k];
    part.runs = plan->runs - count;
    return part;
}

/* ---- the library's answers */

long scaled_word(const Plan *plan, long length)
{
    return crumb_word(plan->levels, plan->columns, plan->table, plan->runs * plan->columns, length);
}

Fraction word(const Plan *plan, long length)
{
    Fraction a = { scaled_word(plan, length), plan->runs * plan->runs };
    return a;
}

/* The field `place` of the line that starts with `name`, -1 where there is no such line or number. */
static long field(const char *text, const char *name, long length, long place)
{
    const char *at = text;
    while (*at && strncmp(at, name, length) != 0)
        while (*at++ != '\n')
            ;
    for (long k = 0; *at && k < place; k++)
        while (*at && *at++ != ' ')
            ;
    return *at >= '0' && *at <= '9' ? number(&at) : -1;
}

Listing listing(const Plan *plan)
{
    static char text[TEXT_ROOM], room[LISTING_ROOM + 1];
    long bytes = crumb_listing((byte *)text, put_plan(text, plan), (byte *)room, LISTING_ROOM);
    room[bytes < 0 ? 0 : bytes] = 0;
    Listing said = {
        field(room, "strength ", 9, 1), field(room, "resolution ", 11, 1), field(room, "gr ", 3, 1), field(room, "lose ", 5, 1),
        { field(room, "ratio ", 6, 1), field(room, "ratio ", 6, 2) },
    };
    return said;
}

/* ---- sets */

void first_set(long *set, long size)
{
    for (long k = 0; k < size; k++)
        set[k] = k;
}

int next_set(long *set, long size, long of)
{
    long k = size - 1;
    while (k >= 0 && set[k] == of - size + k)
        k--;
    if (k < 0)
        return 0;
    set[k]++;
    for (k++; k < size; k++)
        set[k] = set[k - 1] + 1;
    return 1;
}
