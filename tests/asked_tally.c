#include "asked_tally.h"

int printf(const char *format, ...);
void exit(int status);

/* Refusals that a question to a held plan can meet, and to a plan, in the order of the checks, closed by 0. COMPARISON: the cases,
 * each told by one more than its number. */
typedef struct {
    const char *name;
    int of_held[6], of_plan[11];
} Kind;

static const Kind kinds[QUESTIONS] = {
    [CALL] = { "a call", { 8, 9, 10 }, { 0 } },
    [WORD] = { "a word", { 10, 8 }, { 0 } },
    [SET_WORD] = { "the word of a set", { 10, 6, 8 }, { 0 } },
    [ABSOLUTE] = { "the absolute table", { 10, 6, 7 }, { 0 } },
    [RELATIVE] = { "the relative table", { 10, 6, 16, 7 }, { 0 } },
    [GENERALIZED] = { "generalized resolution", { 10, 11 }, { 0 } },
    [WORDS] = { "the words", { 10 }, { 1, 2, 3, 4, 5 } },
    [ROW_SUMS] = { "row sums", { 10 }, { 1, 2, 3, 4, 5 } },
    [STRENGTH] = { "the strength", { 10 }, { 1, 2, 3, 4, 5 } },
    [RESOLUTION] = { "the resolution", { 10, 11 }, { 1, 2, 3, 4, 5, 11 } },
    [CHART] = { "chart figures", { 10, 11 }, { 1, 2, 3, 4, 5, 11 } },
    [FIGURE] = { "a column's figure", { 10, 8, 11 }, { 1, 2, 3, 4, 5, 8, 11 } },
    [COMPARISON] = { "a comparison", { 1, 2, 3, 4, 5 }, { 1, 2, 3, 4, 5 } },
    [ADVICE] = { "advice", { 10 }, { 1, 2, 3, 4, 5, 10 } },
    [IN_TURN] = { "losing in turn", { 10, 6 }, { 1, 2, 3, 4, 5, 6, 10 } },
    [DIAGONAL] = { "E_j", { 0 }, { 1, 2, 3 } },
    [PLACE] = { "the place of a set", { 0 }, { 1, 6, 8 } },
    [SET_AT] = { "the set at a place", { 0 }, { 1, 6, 8 } },
    [MARKED] = { "a table of marked runs", { 0 }, { 1, 2, 3, 4, 5, 8, 10, 6, 16, 7 } },
};

enum { DIFFERENCES = 5 };

static long asked[QUESTIONS][2], met[QUESTIONS][2][17];
static long cases, with_calls, refused_openings, calls, refused_calls, differences;

void note_case(const Input *input, int refused)
{
    cases++;
    with_calls += input->calls > 0;
    refused_openings += refused;
}

void note_call(unsigned long refused)
{
    calls++;
    refused_calls += refused != 0;
}

static int same(const Answer *x, const Answer *y)
{
    int equal = x->refused == y->refused && x->places[0] == y->places[0] && x->places[1] == y->places[1] && x->count == y->count;
    for (long k = 0; k < x->count && equal; k++)
        equal = x->numbers[k] == y->numbers[k];
    return equal;
}

static void print_answer(const char *name, const Answer *x)
{
    printf("%s: refused %lu %lu %lu, numbers", name, x->refused, x->places[0], x->places[1]);
    for (long k = 0; k < x->count && k < 24; k++)
        printf(" %ld", (long)x->numbers[k]);
    printf("\n");
}

static void print_input(const Input *x)
{
    printf("levels");
    for (long i = 0; i < x->columns; i++)
        printf(" %d", x->levels[i]);
    printf(", %ld entries", x->entries);
    for (long k = 0; k < x->entries && k < 40; k++)
        printf(" %d", x->table[k]);
    printf("; calls");
    for (long k = 0; k < x->calls; k++)
        printf(" %lu", x->history[k]);
    printf("\n");
}

void note_answers(const Input *input, const Question *question, const Answer *got, const Answer *wanted)
{
    int kind = question->kind;
    asked[kind][input->held]++;
    met[kind][input->held][kind == COMPARISON ? wanted->numbers[0] + 1 : wanted->refused]++;
    if (same(got, wanted))
        return;
    if (differences++ == DIFFERENCES)
        exit(finish_asked(0, 1));
    printf("differs: %s of a %s, number %lu\n", kinds[kind].name, input->held ? "held plan" : "plan", question->number);
    print_answer("the library", got);
    print_answer("the reference", wanted);
    print_input(input);
}

/* ---- what was asked */

static void print_kind(int kind, int held)
{
    const int *number = held ? kinds[kind].of_held : kinds[kind].of_plan;
    if (*number == 0)
        return;
    printf("%s of a %s: %ld asked;", kinds[kind].name, held ? "held plan" : "plan", asked[kind][held]);
    if (kind == COMPARISON)
        printf(" equal, better, worse, not comparable, refused");
    else
        printf(" answered (%ld), refused by", met[kind][held][0]);
    for (; *number; number++)
        if (kind == COMPARISON)
            printf(" (%ld)", met[kind][held][*number]);
        else
            printf(" %d (%ld)", *number, met[kind][held][*number]);
    printf("\n");
}

static int too_little(int kind, int held, long demanded)
{
    const int *number = held ? kinds[kind].of_held : kinds[kind].of_plan;
    int few = *number && asked[kind][held] < demanded;
    for (; *number; number++)
        few |= met[kind][held][*number] == 0;
    return few;
}

int finish_asked(long demanded, long parts)
{
    int few = cases < demanded;
    printf("cases: %ld, of which %ld have calls and %ld a refused opening; calls: %ld, of which %ld refused\n",
           cases, with_calls, refused_openings, calls, refused_calls);
    for (int kind = 0; kind < QUESTIONS; kind++)
        for (int held = 1; held >= 0; held--) {
            print_kind(kind, held);
            few |= demanded && too_little(kind, held, demanded / parts);
        }
    if (few)
        printf("NOT enough was asked\n");
    printf("the reference by definition and by its short cuts: %ld differ\n", asked_disagreements());
    printf("%s: %ld differ\n", differences == 0 ? "the same" : "NOT the same", differences);
    return few || differences > 0 || asked_disagreements() > 0;
}
