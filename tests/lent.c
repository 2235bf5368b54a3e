#include "lent.h"

int printf(const char *format, ...);
void exit(int status);
void *memcpy(void *to, const void *from, unsigned long n);
void *memset(void *to, int value, unsigned long n);
void *mmap(void *at, unsigned long bytes, int protection, int flags, int file, long offset);
int mprotect(void *at, unsigned long bytes, int protection);

/* Their values on x86-64 Linux. */
enum { NO_ACCESS = 0, READ_AND_WRITE = 3, PRIVATE_AND_ANONYMOUS = 0x22 };

/* A multiple of every page size in use, an emulator's host included. */
enum { STRETCH = 65536 };

Guarded lent_text, lent_room, lent_levels, lent_table, lent_losses, lent_numbers, lent_columns;
byte canaries[CANARIES];

static Guarded guarded(void)
{
    byte *all = mmap(0, 3 * STRETCH, NO_ACCESS, PRIVATE_AND_ANONYMOUS, -1, 0);
    Guarded g = { all + STRETCH };
    if (all == (byte *)-1 || mprotect(g.start, STRETCH, READ_AND_WRITE) != 0) {
        printf("no memory\n");
        exit(1);
    }
    return g;
}

void start_lending(void)
{
    lent_text = guarded(), lent_room = guarded(), lent_levels = guarded(), lent_table = guarded();
    lent_losses = guarded(), lent_numbers = guarded(), lent_columns = guarded();
    memset(canaries, CANARY, sizeof canaries);
}

byte *lend(Guarded g, const byte *bytes, long length, int late)
{
    byte *copy = late ? g.start + STRETCH - length : g.start;
    memcpy(copy, bytes, (unsigned long)length);
    return copy;
}

unsigned long *lend_numbers(Guarded g, const void *numbers, long count, int late)
{
    return (unsigned long *)lend(g, numbers, count * (long)sizeof(unsigned long), late);
}
