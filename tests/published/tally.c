#include <stdio.h>
#include "tally.h"

static const char *table;
static long agreed, misprints, left_out, differing;

void table_begins(const char *name)
{
    table = name;
    agreed = misprints = left_out = 0;
}

void table_ends(void)
{
    printf("%s: %ld agree, %ld misprints, %ld not compared\n", table, agreed, misprints, left_out);
}

long differences(void)
{
    return differing;
}

static int same(const char *what, long got, long wanted)
{
    if (got != wanted) {
        differing++;
        printf("differs: %s, %s: the library gives %ld, wanted %ld\n", table, what, got, wanted);
    }
    return got == wanted;
}

void same_number(const char *what, long got, long printed)
{
    agreed += same(what, got, printed);
}

void must_be(const char *what, long got, long wanted)
{
    same(what, got, wanted);
}

void misprinted_number(const char *what, long got, long printed, long right)
{
    misprints += printed != right && same(what, got, right);
}

static long scale(int places)
{
    long tens = 1;
    while (places-- > 0)
        tens *= 10;
    return tens;
}

static long whole(double printed, int places)
{
    return (long)(printed * (double)scale(places) + 0.5);
}

static long rounded(Fraction got, int places)
{
    return got.num < 0 ? got.num : (2 * scale(places) * got.num + got.den) / (2 * got.den);
}

void same_decimal(const char *what, Fraction got, double printed, int places)
{
    same_number(what, rounded(got, places), whole(printed, places));
}

void misprinted_decimal(const char *what, Fraction got, double printed, double right, int places)
{
    misprinted_number(what, rounded(got, places), whole(printed, places), whole(right, places));
}

/* The whole number nearest to `times` the square root of the ratio. */
static long nearest_root(Fraction ratio, long times)
{
    long q = 0;
    while (ratio.den > 0 && (2 * q + 1) * (2 * q + 1) * ratio.den <= 4 * times * times * ratio.num)
        q++;
    return q;
}

void same_resolution(const char *what, long resolution, Fraction ratio, double printed, int places)
{
    long times = scale(places);
    same_number(what, times * (resolution + 1) - nearest_root(ratio, times), whole(printed, places));
}

void not_compared(long figures)
{
    left_out += figures;
}
