/* Asks the library and the reference every question, of plans and of held
 * plans after histories of strikes and reinstatements, refused ones among
 * them: generated plans, good and damaged, and the texts that are named, which
 * are the arrays of the sources. An answer is compared whole: refusal, places,
 * numbers, every place of a lent room, an f64 by its bits.
 *
 * Arguments: the seed, the number of generated cases, the share, texts. In
 * each case every question is asked where the share is 1, and one in so many
 * where it is larger; where it is 0 every question, and nothing is demanded.
 * The exit status is not 0 where an answer differed, a question was asked less
 * often than there are cases, or half its share of them, or a refusal that it
 * can give did not come up.
 */
#include "asked_tally.h"
#include "draws.h"
#include "plans.h"

int printf(const char *format, ...);
void exit(int status);
int open(const char *path, int flags, ...);
long read(int file, void *to, size bytes);
int close(int file);

enum { READ_ONLY = 0, MOST_CALLS = 300 };

/* A plan, and a history of calls to it. */
typedef struct {
    Plan plan;
    unsigned long history[MOST_CALLS];
    Input input;
} Case;

static unsigned long share;

/* Whether a question is one of those that are asked. */
static int is_asked(void)
{
    return share < 2 || draw(share) == 0;
}

static void ask(const Input *input, const Question *question)
{
    static Answer got, wanted;
    ask_library(input, question, &got);
    ask_reference(input, question, &wanted);
    note_answers(input, question, &got, &wanted);
}

/* ---- histories */

/* Runs of the plan for the most part; the numbers next behind it, and numbers that would be a run if their upper bits were lost. */
static unsigned long draw_run(unsigned long runs)
{
    switch (draw(16)) {
    case 0: return runs + draw(2);
    case 1: return draw(4) ? runs : (1UL << (draw(2) ? 32 : 62)) + draw(runs + 1);
    default: return runs > 0 ? draw(runs) : 0;
    }
}

static unsigned long draw_call(unsigned long runs)
{
    return 2 * draw_run(runs) + (draw(3) == 0);
}

/* None, a few calls, or strikes of all runs one after the other, of which the last is refused. */
static void draw_history(Case *c)
{
    unsigned long runs = c->plan.columns > 0 ? (unsigned long)(c->plan.entries / c->plan.columns) : 0, kind = draw(16);
    long calls = kind < 2 ? 0 : 1 + (long)draw(7), made = 0;
    if (kind == 1)
        for (unsigned long run = 0; run < runs && run < 64; run++)
            c->history[made++] = 2 * run;
    while (made < calls)
        c->history[made++] = draw_call(runs);
    c->input = (Input){ c->plan.levels, c->plan.table, c->plan.columns, c->plan.entries, 1, c->history, made };
}

/* Every call of the history, after those before it; of one history in three. */
static void ask_calls(const Case *c)
{
    if (draw(3))
        return;
    Question question = { .kind = CALL };
    for (long k = 0; k < c->input.calls; k++) {
        Answer answer;
        Input before = c->input;
        before.calls = k;
        question.number = c->history[k];
        if (!is_asked())
            continue;
        ask(&before, &question);
        ask_reference(&before, &question, &answer);
        note_call(answer.refused);
    }
}

/* ---- questions */

/* One beyond 32 or 63 bits now and then. */
static unsigned long draw_number(unsigned long below)
{
    return draw(40) == 0 ? (1UL << (draw(2) ? 32 : 63)) + draw(below) : draw(below);
}

static void draw_set(Question *q, unsigned long columns)
{
    long known = columns > 24 ? 25 : (long)columns;
    draw_columns(&q->set, known);
    if (draw(3) == 0)
        damage_columns(&q->set, known, (int)draw(COLUMN_DAMAGES));
}

/* A size for a table whose sets the reference can add up. */
static unsigned long draw_size(const Input *x)
{
    static const long most[] = { 0, 64, 24, 14, 10 };
    long sizes = x->columns < 1 ? 1 : x->columns < 4 ? x->columns : 4;
    unsigned long f = draw(4) ? 1 + draw((unsigned long)sizes) : draw_number(6);
    while (f > 1 && f < 5 && x->columns > most[f])
        f--;
    return f;
}

/* Rooms long enough for the most part. */
static void draw_rooms(Question *q)
{
    int narrow = draw(3) == 0;
    for (int k = 0; k < 3; k++)
        q->rooms[k] = narrow ? (long)draw(6) : MOST_LINES - (long)draw(3);
}

/* No marks, one for each run, none of them standing, or one too many or too few. */
static void draw_marks(Question *q, unsigned long runs)
{
    unsigned long kind = draw(12);
    long marks = runs > 256 ? 256 : (long)runs;
    q->marked = kind < 4 ? 0 : kind == 4 ? marks + 1 : kind == 5 && marks > 0 ? marks - 1 : marks;
    for (long f = 0; f < q->marked; f++)
        q->marks[f] = kind == 6 ? 0 : draw(8) ? (byte)(1 + draw(255)) : 0;
}

static Question draw_question(int kind, const Case *c, const Input *other)
{
    const Input *x = &c->input;
    unsigned long columns = (unsigned long)x->columns, runs = columns > 0 ? (unsigned long)x->entries / columns : 0;
    Question q = { .kind = kind, .other = other };
    switch (kind) {
    case CALL: q.number = draw_call(runs); break;
    case WORD: q.number = draw_number(columns + 2); break;
    case SET_WORD: draw_set(&q, columns); break;
    case ABSOLUTE:
    case RELATIVE:
        q.number = draw_size(x);
        draw_rooms(&q);
        break;
    case MARKED:
        q.number = draw_size(x);
        q.relative = draw(2) ? draw_number(3) : 0;
        draw_rooms(&q);
        draw_marks(&q, runs);
        break;
    case ROW_SUMS: q.number = draw(12) ? draw(runs < 254 ? runs + 2 : 256) : draw(256); break;
    case FIGURE: q.number = draw_number(columns + 1); break;
    case IN_TURN: q.number = draw_number(5); break;
    case PLACE:
    case SET_AT:
        q.columns = draw(12) ? 1 + draw(24) : draw_number(27);
        draw_set(&q, q.columns);
        q.number = draw_number(draw(2) ? 40 : 10700);
        break;
    }
    return q;
}

static void ask_all(Case *c, Case *other)
{
    ask_calls(c);
    for (int held = 1; held >= 0; held--)
        for (int kind = held ? CALL : WORDS; kind < (held ? DIAGONAL : QUESTIONS); kind++) {
            c->input.held = other->input.held = held;
            Question question = draw_question(kind, c, &other->input);
            if (is_asked())
                ask(&c->input, &question);
        }
}

/* ---- cases */

static void note_and_ask(Case *c, Case *other)
{
    const Plan *p = &c->plan;
    note_case(&c->input, reference_check(p->levels, p->columns, p->table, p->entries).number != 0);
    ask_all(c, other);
}

static void draw_plan(Plan *p)
{
    a_plan(p);
    if (draw(10) == 0)
        damage(p, (int)draw(PLAN_DAMAGES));
}

/* The plan itself, for the most part with other runs standing, or another, for the most part of as many columns. */
static void draw_other(const Case *c, Case *other)
{
    if (draw(2))
        other->plan = c->plan;
    else
        for (int k = 0; k == 0 || (k < 6 && other->plan.columns != c->plan.columns); k++)
            draw_plan(&other->plan);
    draw_history(other);
}

static void generated(long rounds)
{
    static Case one, other;
    for (long round = 0; round < rounds; round++) {
        draw_plan(&one.plan);
        draw_history(&one);
        draw_other(&one, &other);
        note_and_ask(&one, &other);
    }
}

/* ---- the arrays of the sources */

/* Whether the text holds a plan, refused or not. */
static int load(const char *path, Plan *p)
{
    static byte text[33000];
    static Read taken;
    int file = open(path, READ_ONLY);
    long length = file < 0 ? -1 : read(file, text, sizeof text);
    if (length < 0) {
        printf("cannot read %s\n", path);
        exit(1);
    }
    close(file);
    int refused = reference_read(text, length, &taken).number;
    if (refused > 5 || taken.columns > 64)
        return 0;
    p->columns = taken.columns;
    p->entries = taken.entries;
    for (long i = 0; i < taken.columns; i++)
        p->levels[i] = taken.levels[i];
    for (long k = 0; k < taken.entries; k++)
        p->table[k] = taken.table[k];
    return 1;
}

/* So many histories of each. */
static void sources(int count, char **paths, long histories)
{
    static Case one, other;
    long plans = 0;
    for (int k = 0; k < count; k++)
        if (load(paths[k], &one.plan)) {
            plans++;
            for (long turn = 0; turn < histories; turn++) {
                draw_history(&one);
                draw_other(&one, &other);
                note_and_ask(&one, &other);
            }
        }
    printf("plans of the sources: %ld, each with %ld histories\n", plans, histories);
}

int main(int count, char **arguments)
{
    unsigned long seed = argument(count, arguments, 1, 20261115), rounds = argument(count, arguments, 2, 100000);
    share = argument(count, arguments, 3, 1);
    start_draws(seed);
    printf("seed %lu, %lu generated cases, one question in %lu\n", seed, rounds, share ? share : 1);
    if (count > 4)
        sources(count - 4, arguments + 4, share ? 10 : 2);
    generated((long)rounds);
    return finish_asked(share ? (long)rounds : 0, share < 2 ? 1 : 2 * (long)share);
}
