/* A program in the common part of C89, C99 and C++ that was given the header
 * and the library by pkg-config alone. Prints what it gets; the exit status is
 * not 0 where the library is not that of the header.
 */
#include <crumbchorus.h>
#include <stdio.h>

#define ROW(number, name, wrong, advice) { number, name, wrong, advice },
static const struct { int number; enum crumb_refusal name; const char *wrong, *advice; } refusals[] = {
    CRUMB_REFUSALS(ROW) { 0, CRUMB_ANSWERED, "", "" }
};

static const uint8_t levels[3] = { 2, 2, 2 };
static const uint8_t table[12] = { 0, 0, 0, 0, 1, 1, 1, 0, 1, 1, 1, 0 };
static const uint8_t text[] = "2,2,2\n0,0,0\n0,1,1\n1,0,1\n1,1,0\n";
static uint8_t room[2048];

int main(void)
{
    const size_t lost = 3;
    size_t numbers[4];
    int k, bytes;
    printf("version %d, %s\n", (int)crumb_version(), CRUMB_VERSION);
    printf("word %d\n", (int)crumb_word(levels, 3, table, sizeof table, 3));
    printf("refused %d\n", (int)crumb_word(levels, 3, table, sizeof table, 4));
    for (k = 0; refusals[k].number != 0; k++)
        if (refusals[k].number == CRUMB_RANGE)
            printf("%d: %s\n", (int)refusals[k].name, refusals[k].wrong);
    bytes = (int)crumb_write(levels, 3, table, sizeof table, room, sizeof room);
    printf("%.*s", bytes, (const char *)room);
    bytes = (int)crumb_rewrite(text, sizeof text - 1, &lost, 1, room, sizeof room, numbers, 4);
    printf("%.*s", bytes, (const char *)room);
    bytes = (int)crumb_listing(text, sizeof text - 1, room, sizeof room);
    printf("%.*s", bytes, (const char *)room);
    return crumb_version() != CRUMB_VERSION_NUMBER;
}
