/* Runs the published tables of the source documents 000, 002 and 003 through
 * the library and compares them, in the papers' own rounding. Its argument is
 * the folder of the plan texts. A line for each table; the exit status is not
 * 0 where a figure differs that is not noted as a misprint. docs/PUBLISHED.md
 * tells where the arrays come from.
 */
#include <stdio.h>
#include "published/sources.h"

int main(int count, char **arguments)
{
    if (count > 1)
        plans_stand_in(arguments[1]);
    source_000();
    source_000_choices();
    source_002();
    source_003();
    printf("published figures that differ: %ld\n", differences());
    return differences() != 0;
}
