/* How much stack each call uses for the largest plan: the call is made on a
 * stack of our own, painted before it, and the paint that is left is counted.
 * Prints the bytes, and the exit status is not 0 where a call uses as much as
 * the header says it does not.
 */
#include "crumbchorus.h"

int printf(const char *format, ...);

enum { COLUMNS = 24, RUNS = 256, ROOM = 1 << 20 };

static uint8_t levels[COLUMNS], table[RUNS * COLUMNS];
static uint8_t room[ROOM] __attribute__((aligned(16)));
static const uint8_t paint = 0xA5;
static uint8_t text[2 * (RUNS + 1) * COLUMNS], written[18504];
static const size_t lost[2] = { 5, 10 };
static size_t numbers[RUNS], others[COLUMNS - 1];
static uint8_t told[144000];
static uint64_t nums[2000], dens[2000], counts[2000];
static int64_t answer;

/* Column i is the parity of the bits that the run's number and i + 1 share. */
static void make_plan(void)
{
    for (int i = 0; i < COLUMNS; i++)
        levels[i] = 2;
    for (int e = 0; e < RUNS * COLUMNS; e++)
        table[e] = __builtin_parity((e / COLUMNS) & (e % COLUMNS + 1));
}

static void write_text(void)
{
    for (int e = -COLUMNS, k = 0; e < RUNS * COLUMNS; e++) {
        text[k++] = (uint8_t)('0' + (e < 0 ? levels[e + COLUMNS] : table[e]));
        text[k++] = (e + COLUMNS) % COLUMNS == COLUMNS - 1 ? '\n' : ',';
    }
}

static void ask_word(void)
{
    answer = crumb_word(levels, COLUMNS, table, sizeof table, 3);
}

static void ask_listing(void)
{
    answer = crumb_listing(text, sizeof text, written, sizeof written);
}

static void ask_write(void)
{
    answer = crumb_write(levels, COLUMNS, table, sizeof table, written, sizeof written);
}

static void ask_rewrite(void)
{
    answer = crumb_rewrite(text, sizeof text, lost, 2, written, sizeof written, numbers, RUNS);
}

static void ask_tell(void)
{
    answer = crumb_tell(levels, COLUMNS, table, sizeof table, 0, 0, 0, others, COLUMNS - 1, told, sizeof told);
}

/* Rooms that have no place for every set, so that the table is made in rooms of its own. */
static void ask_table(void)
{
    answer = crumb_table(levels, COLUMNS, table, sizeof table, 0, 0, 4, 0, nums, 2000, dens, 2000, counts, 2000);
}

/* Calls `work` with the end of the room as its stack. */
static void on_painted_stack(void (*work)(void))
{
    for (long k = 0; k < ROOM; k++)
        room[k] = paint;
    __asm__ volatile("movq %%rsp, %%rbx\n\tmovq %0, %%rsp\n\tcall *%1\n\tmovq %%rbx, %%rsp"
                     :
                     : "r"(room + ROOM), "r"(work)
                     : "rbx", "rax", "rcx", "rdx", "rsi", "rdi", "r8", "r9", "r10", "r11", "memory", "cc",
                       "xmm0", "xmm1", "xmm2", "xmm3", "xmm4", "xmm5", "xmm6", "xmm7",
                       "xmm8", "xmm9", "xmm10", "xmm11", "xmm12", "xmm13", "xmm14", "xmm15");
}

static long used(void)
{
    long left = 0;
    while (left < ROOM && room[left] == paint)
        left++;
    return ROOM - left;
}

static const struct { const char *name; void (*work)(void); long limit; } calls[] = {
    { "crumb_word", ask_word, 2048 },
    { "crumb_listing", ask_listing, 262144 },
    { "crumb_write", ask_write, 32768 },
    { "crumb_rewrite", ask_rewrite, 65536 },
    { "crumb_tell", ask_tell, 196608 },
    { "crumb_table", ask_table, 655360 },
};

int main(void)
{
    int over = 0;
    make_plan();
    write_text();
    for (int i = 0; i < COLUMNS - 1; i++)
        others[i] = (size_t)i + 1;
    for (unsigned k = 0; k < sizeof calls / sizeof *calls; k++) {
        on_painted_stack(calls[k].work);
        printf("%s, %d runs and %d columns: %ld, %ld bytes of stack\n", calls[k].name, RUNS, COLUMNS, (long)answer, used());
        over |= answer < 0 || used() >= calls[k].limit;
    }
    return over;
}
