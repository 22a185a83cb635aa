/* What do the promises cost: the proved library and plain.c side by side in one run, round after round, with
 * the median of nanoseconds a call. What the loop takes with an empty call is measured too and taken off. */
#include "boards.h"
#include "clock.h"

#include <stdio.h>
#include <stdlib.h>
#include <string.h>

/* valgrind brings this header; without it bench/count has nothing to read. */
#if defined(__has_include)
#if __has_include(<valgrind/callgrind.h>)
#include <valgrind/callgrind.h>
#endif
#endif
#ifndef CALLGRIND_ZERO_STATS
#define CALLGRIND_ZERO_STATS
#define CALLGRIND_DUMP_STATS_AT(name) (void)(name)
#endif

enum { PROVED, PLAIN, NOTHING, SIDES, MAX_ROUNDS = 64, SEGMENT = 10000 };
static made *const make[SIDES] = {make_proved, make_plain, make_nothing};

static struct lent board[BOARDS];
static struct item items[MAX_ITEMS];
static unsigned item_count;
static struct call *shift;
static int rounds = 31, shift_rounds = 15, markdown;

/* Where each side's loops work, and what keeps their answers from being dropped. */
static struct lent at_work[SIDES];
static volatile uint64_t sink;

/* Nanoseconds a call: of each round and side for an item, and for the shift. */
static double taken[MAX_ITEMS + 1][SIDES][MAX_ROUNDS];

static void make_calls(int side, const struct item *it, unsigned long n)
{
    made *make_one = make[side];
    struct lent *l = &at_work[side];
    uint64_t answers = 0;
    while (n--) {
        answers += make_one(l, &it->call).value;
        for (unsigned k = 0; k < it->changed; k++)
            l->state[it->undo[k].place] = it->undo[k].word;
    }
    sink = answers;
}

static void make_shift(int side, const struct call *from, unsigned long n)
{
    made *make_one = make[side];
    uint64_t answers = 0;
    for (unsigned long k = 0; k < n; k++)
        answers += make_one(&at_work[side], &from[k]).value;
    sink = answers;
}

/* Calls in a batch of a side: some tenths of a millisecond, so that all sides are disturbed alike. */
static unsigned long batch_of(int side, const struct item *it)
{
    unsigned long n = 16;
    double spent = 0;
    at_work[side] = *it->board;
    while (spent < 2e5) {
        n *= 2;
        double start = now();
        make_calls(side, it, n);
        spent = now() - start;
    }
    return n;
}

static double timed(int side, const struct item *it, unsigned long n)
{
    at_work[side] = *it->board;
    make_calls(side, it, n / 8 + 1);
    double start = now();
    make_calls(side, it, n);
    return (now() - start) / (double)n;
}

/* Which side goes k-th: the first two take turns. */
static int side_at(int round, int k)
{
    return k == NOTHING ? NOTHING : (round + k) % 2;
}

/* The whole shift on each side, a segment at a time. */
static void shift_round(int round)
{
    double spent[SIDES] = {0};
    for (int side = 0; side < SIDES; side++)
        at_work[side] = board[1];
    for (unsigned long from = 0; from < SHIFT_CALLS; from += SEGMENT) {
        for (int k = 0; k < SIDES; k++) {
            int side = side_at((int)(from / SEGMENT), k);
            double start = now();
            make_shift(side, &shift[from], SEGMENT);
            spent[side] += now() - start;
        }
    }
    for (int side = 0; side < SIDES; side++)
        taken[item_count][side][round] = spent[side] / SHIFT_CALLS;
}

static void measure(void)
{
    static unsigned long batch[MAX_ITEMS][SIDES];
    for (unsigned k = 0; k < item_count; k++)
        for (int side = 0; side < SIDES; side++)
            batch[k][side] = batch_of(side, &items[k]);
    for (int r = 0; r < rounds; r++)
        for (unsigned k = 0; k < item_count; k++)
            for (int j = 0; j < SIDES; j++) {
                int side = side_at(r, j);
                taken[k][side][r] = timed(side, &items[k], batch[k][side]);
            }
    for (int r = 0; r < shift_rounds; r++)
        shift_round(r);
}

/* Prints a line of the table and answers its ratio. */
static double print_line(const char *name, double of[SIDES][MAX_ROUNDS], int n)
{
    double loop = median(of[NOTHING], n);
    double proved = median(of[PROVED], n) - loop, plain = median(of[PLAIN], n) - loop;
    printf(markdown ? "| %s | %.1f | %.1f | %.2f |\n" : "%-36s %9.1f %9.1f %7.2f\n", name, proved, plain,
           proved / plain);
    return proved / plain;
}

static void print_table(void)
{
    double largest = 0;
    const char *where = "";
    if (markdown)
        printf("| call | proved, ns | plain, ns | ratio |\n|---|---:|---:|---:|\n");
    else
        printf("%-36s %9s %9s %7s\n", "call", "proved ns", "plain ns", "ratio");
    for (unsigned k = 0; k < item_count; k++) {
        double ratio = print_line(items[k].name, taken[k], rounds);
        if (ratio > largest) {
            largest = ratio;
            where = items[k].name;
        }
    }
    double mixed = print_line("mixed", taken[item_count], shift_rounds);
    printf("%slargest ratio %.2f (%s), mixed shift %.2f\n", markdown ? "\n" : "", largest, where, mixed);
}

/* Without valgrind this only makes the calls; with it the instructions of an item are dumped by its name. */
static void count_item(int side, const struct item *it, unsigned long n)
{
    at_work[side] = *it->board;
    CALLGRIND_ZERO_STATS;
    make_calls(side, it, n);
    CALLGRIND_DUMP_STATS_AT(it->name);
}

static void count_shift(int side, unsigned long n)
{
    n = n < SHIFT_CALLS ? n : SHIFT_CALLS;
    build_shift(shift, n);
    at_work[side] = board[1];
    CALLGRIND_ZERO_STATS;
    make_shift(side, shift, n);
    CALLGRIND_DUMP_STATS_AT("mixed");
}

/* The calls of bench/shift.record, all of them, on a board after a reset. */
static void count_record(int side)
{
    build_record(shift);
    start_board(&at_work[side]);
    CALLGRIND_ZERO_STATS;
    make_shift(side, shift, RECORD_LINES);
    CALLGRIND_DUMP_STATS_AT("record");
}

/* Makes N calls of what is named, and answers whether there is such a thing and such a side. */
static int count(const char *what, const char *side_name, unsigned long n)
{
    static const char *const names[SIDES] = {"proved", "plain", "nothing"};
    int side = 0, mixed = strcmp(what, "mixed") == 0, record = strcmp(what, "record") == 0, found = 0;
    while (side < SIDES && strcmp(side_name, names[side]) != 0)
        side++;
    if (side == SIDES)
        return 0;
    if (mixed)
        count_shift(side, n);
    if (record)
        count_record(side);
    for (unsigned k = 0; k < item_count; k++) {
        if (strcmp(what, "all") != 0 && strcmp(what, items[k].name) != 0)
            continue;
        count_item(side, &items[k], n);
        found = 1;
    }
    return found || mixed || record;
}

static int usage(void)
{
    fprintf(stderr, "usage: bench [--quick] [--markdown] | --list | --count WHAT proved|plain|nothing N |"
                    " --write-shift\n"
                    "WHAT is a name of --list, all for each but mixed, or record for what --write-shift writes\n");
    return 2;
}

static int list(void)
{
    for (unsigned k = 0; k < item_count; k++)
        printf("%s\n", items[k].name);
    printf("mixed\n");
    return 0;
}

static int write_shift(void)
{
    build_record(shift);
    for (unsigned k = 0; k < RECORD_LINES; k++)
        print_call(&shift[k]);
    return 0;
}

/* The sides' boards after the whole shift are compared, so that the shift measures like with like. */
static int shift_differs(void)
{
    if (memcmp(&at_work[PROVED], &at_work[PLAIN], sizeof *at_work) == 0)
        return 0;
    fprintf(stderr, "bench: the two sides do not agree after the mixed shift\n");
    return 1;
}

static int read_options(int argc, char **argv)
{
    for (int k = 1; k < argc; k++) {
        if (strcmp(argv[k], "--quick") == 0)
            rounds = 15, shift_rounds = 3;
        else if (strcmp(argv[k], "--markdown") == 0)
            markdown = 1;
        else
            return 0;
    }
    return 1;
}

int main(int argc, char **argv)
{
    build_boards(board);
    item_count = build_items(board, items);
    shift = calloc(SHIFT_CALLS, sizeof *shift);
    if (!shift)
        return 1;
    if (argc == 2 && strcmp(argv[1], "--list") == 0)
        return list();
    if (argc == 2 && strcmp(argv[1], "--write-shift") == 0)
        return write_shift();
    if (argc == 5 && strcmp(argv[1], "--count") == 0)
        return count(argv[2], argv[3], strtoul(argv[4], NULL, 10)) ? 0 : usage();
    if (!read_options(argc, argv))
        return usage();
    build_shift(shift, SHIFT_CALLS);
    measure();
    print_table();
    return shift_differs();
}
