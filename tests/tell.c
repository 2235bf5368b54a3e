/* The lines of `tell`, asked of generated plans, lost runs and columns, and
 * held as evidence to the runs and to the ranks of the linear model (told.c).
 * Questions of few runs for the most part; in three of five the column goes
 * by the others, but for some runs; one in 500 is of any size. Each is asked
 * of the runs left and of all runs. Then questions with two damages, in both
 * orders, and, but for a short run, the largest ones.
 *
 * Arguments: the seed, and 1 for a short run, 3 for a tenth of the full run's
 * rounds. The exit status is not 0 where an answer was wrong or the check
 * failed by itself, and in a full run also where fewer than 100,000 questions
 * were answered, or too few of a kind; a tenth has to reach a tenth.
 *
 * It declares what it needs of the C library, so that it compiles with the
 * kit's own clang, which comes without headers.
 */
#include "tell.h"
#include "told.h"
#include "rooms.h"
#include "draws.h"

int printf(const char *format, ...);
void *memcpy(void *to, const void *from, unsigned long n);

enum { FULL, SHORT, TENTH = 3, DIFFERENCES = 10 };

/* What was tried, and of the questions that were answered, how many were of which kind. */
typedef struct {
    const char *name;
    long least, met;
} Kind;

enum { ANSWERED, YES, NO, LOST, ABSENT, GROUPED, CHAINED, TO_NO, TO_YES, BY_WORDS, BEYOND_WORDS, NO_OTHERS, ONE_LEVEL, KINDS };

static Kind kinds[KINDS] = {
    { "answered", 100000, 0 },
    { "yes", 30000, 0 },
    { "no", 30000, 0 },
    { "runs lost", 30000, 0 },
    { "a level absent", 10000, 0 },
    { "no, and levels in one group", 3000, 0 },
    { "yes, and no cell has all levels", 1000, 0 },
    { "a loss turns yes into no", 1000, 0 },
    { "a loss turns no into yes", 3000, 0 },
    { "yes by the words alone", 3000, 0 },
    { "yes, which the words alone do not say", 3000, 0 },
    { "no other column", 1000, 0 },
    { "one level occurs", 3000, 0 },
};
static long tried, faults, refused[16], at_once[16][16], damaged[QUESTION_DAMAGES][QUESTION_DAMAGES];

static void wrong(const Question *q, const char *what, long got)
{
    if (++faults > DIFFERENCES)
        return;
    printf("wrong: %s (%ld)", what, got);
    print_question(q);
}

/* ---- one question */

static long lines_in(const Question *q, byte *room, long bytes)
{
    const Plan *p = &q->plan;
    tried++;
    return crumb_tell(p->levels, (size)p->columns, p->table, (size)p->entries, q->standing, (size)q->marks,
                            q->column, q->others, (size)q->count, room, (size)bytes);
}

/* A room that is larger than the lines of any question of these sizes. */
static long large_room(const Question *q)
{
    long runs = q->plan.columns > 0 ? q->plan.entries / q->plan.columns : 0;
    return 1000 + (runs < MOST_RUNS ? runs : MOST_RUNS) * (8 + 3 * q->count);
}

static void try_refused(const Question *q, int number)
{
    static Room room;
    long bytes = draw(2) ? large_room(q) : 0, got = lines_in(q, with_canaries(&room, bytes), bytes);
    refused[number]++;
    if (got != -number)
        wrong(q, "the refusal", got);
    if (!holds(&room, bytes, "", 0))
        wrong(q, "the room of a refusal", number);
}

/* In a larger room, in one as long as the lines and in one too short by one; whether it was answered. */
static int try_answered(const Question *q, Told *told)
{
    static Room room;
    static byte lines[ROOM];
    long bytes = large_room(q);
    byte *lent = with_canaries(&room, bytes);
    long length = lines_in(q, lent, bytes);
    if (length <= 0 || length > bytes) {
        wrong(q, "the number of bytes", length);
        return 0;
    }
    memcpy(lines, lent, (size)length);
    if (!holds(&room, bytes, lines, length))
        wrong(q, "the room behind the lines", length);
    if (lines_in(q, with_canaries(&room, length), length) != length || !holds(&room, length, lines, length))
        wrong(q, "a room as long as the lines", length);
    if (lines_in(q, with_canaries(&room, length - 1), length - 1) != -7 || !holds(&room, length - 1, lines, 0))
        wrong(q, "a room too short by one", length);
    if (!read_told(lines, length, told)) {
        wrong(q, "the form of the lines", length);
        return 0;
    }
    const char *fault = fault_of(q, told);
    if (fault)
        wrong(q, fault, length);
    return !fault;
}

/* ---- of which kind an answer is */

/* Whether some cell has every level that occurs. */
static int one_cell_has_all(const Question *q, const Told *told)
{
    long runs[MOST_RUNS], count = standing_runs(q, runs);
    for (long k = 0; k < count; k++) {
        unsigned levels = 0;
        for (long l = 0; l < count; l++)
            if (in_one_cell(q, runs[k], runs[l]))
                levels |= 1u << entry_at(q, runs[l], q->column);
        if (__builtin_popcount(levels) == told->sizes[0])
            return 1;
    }
    return 0;
}

static long levels_left(const Told *told)
{
    long levels = 0;
    for (long g = 0; g < told->groups; g++)
        levels += told->sizes[g];
    return levels;
}

static void note(const Question *q, const Told *told)
{
    long runs[MOST_RUNS];
    kinds[ANSWERED].met++;
    kinds[YES].met += told->yes;
    kinds[NO].met += !told->yes;
    kinds[LOST].met += standing_runs(q, runs) < q->plan.entries / q->plan.columns;
    kinds[ABSENT].met += told->absents > 0;
    kinds[GROUPED].met += !told->yes && told->pairs > 0;
    kinds[CHAINED].met += told->yes && !one_cell_has_all(q, told);
    kinds[BY_WORDS].met += told->num < told->den;
    kinds[BEYOND_WORDS].met += told->yes && told->num >= told->den;
    kinds[NO_OTHERS].met += q->count == 0;
    kinds[ONE_LEVEL].met += levels_left(told) == 1;
}

/* ---- generated questions */

static long group_of(const Told *told, long x)
{
    for (long g = 0; g < told->groups; g++)
        for (long k = 0; k < told->sizes[g]; k++)
            if (told->group[g][k] == x)
                return g;
    return -1;
}

/* What the runs left compare, all runs compare. */
static int compares_no_more(const Told *left, const Told *all)
{
    for (long g = 0; g < left->groups; g++)
        for (long k = 1; k < left->sizes[g]; k++)
            if (group_of(all, left->group[g][0]) != group_of(all, left->group[g][k]))
                return 0;
    return 1;
}

static void generated(long rounds)
{
    static Question q;
    static Told left, all;
    for (long round = 0; round < rounds; round++) {
        draw_question(&q);
        if (!try_answered(&q, &left))
            continue;
        note(&q, &left);
        if (q.marks == 0)
            continue;
        all_runs_stand(&q);
        if (!try_answered(&q, &all))
            continue;
        kinds[TO_NO].met += all.yes && !left.yes;
        kinds[TO_YES].met += !all.yes && left.yes;
        if (!compares_no_more(&left, &all))
            wrong(&q, "a loss that compares more", 0);
        if (!all.yes && left.yes && left.absents == all.absents)
            wrong(&q, "a loss that turns no into yes, and every level is left", 0);
    }
}

/* ---- two damages, in both orders */

static void damaged_question(int a, int b)
{
    static Question q;
    static Told told;
    draw_question(&q);
    damage_question(&q, a);
    damage_question(&q, b);
    damaged[a][b]++;
    unsigned deserved = deserved_by_question(&q);
    for (int k = 1; k < 16; k++)
        for (int l = 1; l < 16; l++)
            at_once[k][l] += deserved >> k & deserved >> l & 1;
    int number = refusal_of_question(&q);
    if (number != 0)
        try_refused(&q, number);
    else if (try_answered(&q, &told))
        note(&q, &told);
}

static void all_damages(long rounds)
{
    for (long round = 0; round < rounds; round++)
        for (int k = 0; k < QUESTION_DAMAGES * QUESTION_DAMAGES; k++)
            damaged_question(k / QUESTION_DAMAGES, k % QUESTION_DAMAGES);
}

/* ---- the largest questions */

static void try_with_others(Question *q, unsigned long column, long count)
{
    static Told told;
    q->marks = 0;
    q->column = column;
    q->count = 0;
    for (unsigned long i = 0; i < (unsigned long)q->plan.columns && q->count < count; i++)
        if (i != column)
            q->others[q->count++] = i;
    if (try_answered(q, &told))
        note(q, &told);
}

/* 256 runs of 24 columns: in one cell, drawn, each in a cell of its own; a column of 16 levels first, last and between. */
static void largest(void)
{
    static Question q;
    static const long places[] = { 0, 11, 23 };
    for (int kind = 0; kind < 3; kind++)
        for (int at = 0; at < 3; at++) {
            even_plan(&q.plan, 24, kind == 0 ? 1 : 2, 256);
            q.plan.levels[places[at]] = 16;
            for (long run = 0; run < 256; run++) {
                byte *row = q.plan.table + run * 24;
                for (long i = 0; kind == 2 && i < 24; i++)
                    row[i] = (byte)(run >> i % 8 & 1);
                row[places[at]] = (byte)draw(16);
            }
            for (long count = 0; count <= 23; count += count < 6 ? 1 : 17)
                try_with_others(&q, (unsigned long)places[at], count);
        }
}

/* A pointer whose length is 0 may be null. */
static void nothing_lent(void)
{
    static const byte two[1] = { 2 }, zero[1] = { 0 };
    long got[] = {
        crumb_tell(0, 0, 0, 0, 0, 0, 0, 0, 0, 0, 0), crumb_tell(two, 1, 0, 0, 0, 0, 0, 0, 0, 0, 0),
        crumb_tell(two, 1, zero, 1, 0, 0, 0, 0, 0, 0, 0), crumb_tell(two, 1, zero, 1, 0, 0, 1, 0, 0, 0, 0),
        crumb_tell(two, 1, zero, 1, zero, 1, 0, 0, 0, 0, 0),
    };
    static const long answers[] = { -1, -4, -7, -8, -10 };
    for (unsigned k = 0; k < sizeof got / sizeof *got; k++)
        if (got[k] != answers[k]) {
            faults++;
            printf("wrong: a call that is lent nothing gives %ld, not %ld\n", got[k], answers[k]);
        }
}

/* ---- at the end */

static int too_few(long parts)
{
    static const int numbers[] = { 1, 2, 3, 4, 5, 8, 10 };
    int few = 0;
    printf("%ld calls; refusals met:", tried);
    for (unsigned k = 0; k < sizeof numbers / sizeof *numbers; k++) {
        printf(" %d (%ld)", numbers[k], refused[numbers[k]]);
        few |= refused[numbers[k]] == 0;
        for (unsigned l = 0; l < k; l++)
            few |= at_once[numbers[k]][numbers[l]] == 0;
    }
    for (int k = 0; k < QUESTION_DAMAGES * QUESTION_DAMAGES; k++)
        few |= damaged[k / QUESTION_DAMAGES][k % QUESTION_DAMAGES] == 0;
    printf("\n");
    for (int k = 0; k < KINDS; k++) {
        printf("questions: %ld %s\n", kinds[k].met, kinds[k].name);
        few |= parts > 0 && kinds[k].met < kinds[k].least / parts;
    }
    if (parts > 0 && few)
        printf("NOT enough was tried\n");
    return parts > 0 && few;
}

int main(int count, char **arguments)
{
    unsigned long seed = argument(count, arguments, 1, 20261115), kind = argument(count, arguments, 2, FULL);
    if (kind != FULL && kind != SHORT && kind != TENTH)
        return 2;
    start_draws(seed);
    printf("seed %lu%s\n", seed, kind == FULL ? "" : kind == SHORT ? ", a short run" : ", a tenth of the rounds");
    nothing_lent();
    generated(kind == FULL ? 100000 : kind == TENTH ? 10000 : 2000);
    all_damages(kind == FULL ? 60 : kind == TENTH ? 6 : 1);
    if (kind != SHORT)
        largest();
    int status = too_few(kind == FULL ? 1 : kind == TENTH ? 10 : 0) | told_fails() | (faults > 0);
    printf("%s: %ld wrong\n", faults == 0 ? "all evidence holds" : "NOT all evidence holds", faults);
    return status;
}
