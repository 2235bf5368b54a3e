#include "draws.h"

static unsigned long state;

unsigned long row_of(unsigned long seed)
{
    return seed * 2654435769u + 88172645463325252u;
}

unsigned long change_row(unsigned long row)
{
    unsigned long left = state;
    state = row;
    return left;
}

void start_draws(unsigned long seed)
{
    state = row_of(seed);
}

unsigned long draw(unsigned long below)
{
    state ^= state << 13;
    state ^= state >> 7;
    state ^= state << 17;
    return (state >> 11) % below;
}

unsigned long argument(int count, char **arguments, int place, unsigned long otherwise)
{
    if (place >= count)
        return otherwise;
    unsigned long number = 0;
    for (const char *digit = arguments[place]; *digit >= '0' && *digit <= '9'; digit++)
        number = number * 10 + (unsigned long)(*digit - '0');
    return number;
}
