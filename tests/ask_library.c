/* The library's answers, by the exports of `asked`, `asked_held` and
 * `asked_projections`, and by crumb_table.
 */
#include "asked.h"

#define PLAN const byte *, size, const byte *, size
#define HELD PLAN, const unsigned long *, size

size asked_words(PLAN, long *, size *);
size asked_row_sums(PLAN, byte, long *, size *);
size asked_diagonal(const byte *, size, long *, size *);
size asked_strength(PLAN, size *, size *);
size asked_resolution(PLAN, size *, size *);
size asked_chart(PLAN, double *, size *);
size asked_figure(PLAN, size, unsigned long *, double *, size *);
void asked_comparison(PLAN, PLAN, unsigned long *);
size asked_advice(PLAN, size *, size *);
size asked_in_turn(PLAN, size, size *, size *);
size asked_place(size, size, const size *, size, size *, size *);
size asked_set_at(size, size, size, size *, size *);

long crumb_table(PLAN, const byte *, size, unsigned long, unsigned long, unsigned long *, size, unsigned long *, size, unsigned long *, size);

size asked_held_call(HELD, unsigned long);
size asked_held_words(HELD, long *);
size asked_held_word(HELD, size, long *);
size asked_held_row_sums(HELD, byte, long *);
size asked_held_strength(HELD, size *);
size asked_held_resolution(HELD, size *);
size asked_held_generalized(HELD, unsigned long *);
size asked_held_chart(HELD, double *);
size asked_held_figure(HELD, size, unsigned long *, double *);
size asked_held_set_word(HELD, size, const size *, size, long *);
size asked_held_absolute(HELD, size, unsigned long *, size, unsigned long *, size, unsigned long *, size, size *);
size asked_held_relative(HELD, size, unsigned long *, size, unsigned long *, size, unsigned long *, size, size *);
void asked_held_comparison(HELD, HELD, unsigned long *);
size asked_held_advice(HELD, size *);
size asked_held_in_turn(HELD, size, size *);

#define GIVEN(x) (x)->levels, (size)(x)->columns, (x)->table, (size)(x)->entries
#define LED(x) GIVEN(x), (x)->history, (size)(x)->calls

static unsigned long bits(double x)
{
    union {
        double x;
        unsigned long bits;
    } told = { x };
    return told.bits;
}

/* ---- the rooms of an answer */

static unsigned long *room(Answer *a, long places)
{
    unsigned long *start = a->numbers + a->count;
    for (long k = 0; k < places; k++)
        start[k] = CANARY;
    a->count += places;
    return start;
}

static long *signed_room(Answer *a, long places)
{
    return (long *)room(a, places);
}

static void put_figures(Answer *a, const double *figures, long count)
{
    for (long k = 0; k < count; k++)
        *room(a, 1) = bits(figures[k]);
}

/* ---- a plan */

/* The number of lines, or the refusal negated; no places. */
static void ask_marked(const Input *x, const Question *q, Answer *a)
{
    unsigned long *nums = room(a, q->rooms[0]), *dens = room(a, q->rooms[1]), *counts = room(a, q->rooms[2]);
    long lines = crumb_table(GIVEN(x), q->marks, (size)q->marked, q->number, q->relative, nums, (size)q->rooms[0], dens,
                             (size)q->rooms[1], counts, (size)q->rooms[2]);
    a->refused = lines < 0 ? (unsigned long)-lines : 0;
    *room(a, 1) = lines < 0 ? 0 : (unsigned long)lines;
}

static void ask_plan(const Input *x, const Question *q, Answer *a)
{
    double figures[3] = { CANARY, CANARY, CANARY };
    switch (q->kind) {
    case WORDS: a->refused = asked_words(GIVEN(x), signed_room(a, 24), a->places); break;
    case ROW_SUMS: a->refused = asked_row_sums(GIVEN(x), (byte)q->number, signed_room(a, 24), a->places); break;
    case STRENGTH: a->refused = asked_strength(GIVEN(x), room(a, 1), a->places); break;
    case RESOLUTION: a->refused = asked_resolution(GIVEN(x), room(a, 1), a->places); break;
    case CHART:
        a->refused = asked_chart(GIVEN(x), figures, a->places);
        put_figures(a, figures, 3);
        break;
    case FIGURE:
        a->refused = asked_figure(GIVEN(x), q->number, room(a, 1), figures, a->places);
        put_figures(a, figures, 1);
        break;
    case COMPARISON: asked_comparison(GIVEN(x), GIVEN(q->other), room(a, 5)); break;
    case ADVICE: a->refused = asked_advice(GIVEN(x), room(a, 1), a->places); break;
    case IN_TURN: a->refused = asked_in_turn(GIVEN(x), q->number, room(a, 3), a->places); break;
    case DIAGONAL: a->refused = asked_diagonal(x->levels, (size)x->columns, signed_room(a, 24), a->places); break;
    case PLACE:
        a->refused = asked_place(q->columns, q->set.size, q->set.columns, (size)q->set.count, room(a, 1), a->places);
        break;
    case SET_AT: a->refused = asked_set_at(q->columns, q->set.size, q->number, room(a, 4), a->places); break;
    case MARKED: ask_marked(x, q, a); break;
    }
}

/* ---- a held plan; its refusals have no places */

typedef size Table(HELD, size, unsigned long *, size, unsigned long *, size, unsigned long *, size, size *);

static void ask_table(Table *table, const Input *x, const Question *q, Answer *a)
{
    unsigned long *nums = room(a, q->rooms[0]), *dens = room(a, q->rooms[1]), *counts = room(a, q->rooms[2]);
    a->refused = table(LED(x), q->number, nums, (size)q->rooms[0], dens, (size)q->rooms[1], counts, (size)q->rooms[2], room(a, 1));
}

static void ask_held(const Input *x, const Question *q, Answer *a)
{
    double figures[3] = { CANARY, CANARY, CANARY };
    a->places[0] = a->places[1] = 0;
    switch (q->kind) {
    case CALL: a->refused = asked_held_call(LED(x), q->number); break;
    case WORD: a->refused = asked_held_word(LED(x), q->number, signed_room(a, 1)); break;
    case SET_WORD:
        a->refused = asked_held_set_word(LED(x), q->set.size, q->set.columns, (size)q->set.count, signed_room(a, 1));
        break;
    case ABSOLUTE: ask_table(asked_held_absolute, x, q, a); break;
    case RELATIVE: ask_table(asked_held_relative, x, q, a); break;
    case GENERALIZED: a->refused = asked_held_generalized(LED(x), room(a, 4)); break;
    case WORDS: a->refused = asked_held_words(LED(x), signed_room(a, 24)); break;
    case ROW_SUMS: a->refused = asked_held_row_sums(LED(x), (byte)q->number, signed_room(a, 24)); break;
    case STRENGTH: a->refused = asked_held_strength(LED(x), room(a, 1)); break;
    case RESOLUTION: a->refused = asked_held_resolution(LED(x), room(a, 1)); break;
    case CHART:
        a->refused = asked_held_chart(LED(x), figures);
        put_figures(a, figures, 3);
        break;
    case FIGURE:
        a->refused = asked_held_figure(LED(x), q->number, room(a, 1), figures);
        put_figures(a, figures, 1);
        break;
    case COMPARISON: asked_held_comparison(LED(x), LED(q->other), room(a, 5)); break;
    case ADVICE: a->refused = asked_held_advice(LED(x), room(a, 1)); break;
    case IN_TURN: a->refused = asked_held_in_turn(LED(x), q->number, room(a, 3)); break;
    }
}

void ask_library(const Input *input, const Question *question, Answer *answer)
{
    answer->refused = answer->places[0] = answer->places[1] = 0;
    answer->count = 0;
    (input->held ? ask_held : ask_plan)(input, question, answer);
}
