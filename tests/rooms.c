#include "rooms.h"

void *memset(void *to, int value, unsigned long n);
int memcmp(const void *a, const void *b, unsigned long n);

enum { CANARY = 0xA5 };

void *with_canaries(Room *room, long bytes)
{
    memset(room, CANARY, (unsigned long)(BESIDE + bytes + BESIDE));
    return (unsigned char *)room + BESIDE;
}

static int all_canaries(const unsigned char *from, long count)
{
    int other = 0;
    for (long k = 0; k < count; k++)
        other |= from[k] ^ CANARY;
    return !other;
}

int holds(const Room *room, long bytes, const void *wanted, long written)
{
    const unsigned char *all = (const unsigned char *)room, *lent = all + BESIDE;
    return all_canaries(all, BESIDE) && memcmp(lent, wanted, (unsigned long)written) == 0
        && all_canaries(lent + written, bytes - written + BESIDE);
}
