/* What a replay costs in time: two programs on one record, and the record's calls made from their values on the
 * side of each, interleaved round after round. replays PROVED PLAIN RECORD ROUNDS, where RECORD is REPEATS times
 * bench/shift.record; prints a line for the programs and one for the calls alone, of the median nanoseconds a
 * line on both sides. */
#define _DEFAULT_SOURCE
#include "boards.h"
#include "clock.h"

#include <fcntl.h>
#include <stdio.h>
#include <stdlib.h>
#include <sys/resource.h>
#include <sys/time.h>
#include <sys/wait.h>
#include <unistd.h>

enum { PROVED, PLAIN, SIDES, MAX_ROUNDS = 64, REPEATS = 50, LINES = REPEATS * RECORD_LINES };

static struct call record[RECORD_LINES];
static volatile uint64_t sink;

/* Nanoseconds a line, of each round and side. */
static double replayed[SIDES][MAX_ROUNDS], called[SIDES][MAX_ROUNDS];

static _Noreturn void fail(const char *what)
{
    fprintf(stderr, "replays: %s\n", what);
    exit(1);
}

static double nanoseconds(struct timeval t)
{
    return (double)t.tv_sec * 1e9 + (double)t.tv_usec * 1e3;
}

static _Noreturn void become(const char *program, const char *input)
{
    int from = open(input, O_RDONLY), to = open("/dev/null", O_WRONLY);
    if (from >= 0 && to >= 0 && dup2(from, STDIN_FILENO) >= 0 && dup2(to, STDOUT_FILENO) >= 0)
        execl(program, program, (char *)NULL);
    _exit(1);
}

/* The processor's time of one run, the kernel's for its reads and writes included. */
static double time_program(const char *program, const char *input)
{
    struct rusage used;
    int status;
    pid_t child = fork();
    if (child == 0)
        become(program, input);
    if (child < 0 || wait4(child, &status, 0, &used) != child || status != 0)
        fail("a program cannot be run, or fails");
    return (nanoseconds(used.ru_utime) + nanoseconds(used.ru_stime)) / LINES;
}

static double time_calls(made *make_one)
{
    static struct lent l;
    uint64_t answers = 0;
    start_board(&l);
    double start = now();
    for (int k = 0; k < REPEATS; k++)
        for (int n = 0; n < RECORD_LINES; n++)
            answers += make_one(&l, &record[n]).value;
    sink = answers;
    return (now() - start) / LINES;
}

static void measure(char *const program[SIDES], const char *input, int rounds)
{
    static made *const make[SIDES] = {make_proved, make_plain};
    for (int r = 0; r < rounds; r++)
        for (int k = 0; k < SIDES; k++) {
            int side = (r + k) % SIDES;
            double loop = time_calls(make_nothing);
            replayed[side][r] = time_program(program[side], input);
            called[side][r] = time_calls(make[side]) - loop;
        }
}

int main(int argc, char **argv)
{
    int rounds = argc == 5 ? atoi(argv[4]) : 0;
    if (rounds < 1 || rounds > MAX_ROUNDS) {
        fprintf(stderr, "usage: replays PROVED PLAIN RECORD ROUNDS\n");
        return 2;
    }
    build_record(record);
    measure(&argv[1], argv[3], rounds);
    printf("replay %.1f %.1f\n", median(replayed[PROVED], rounds), median(replayed[PLAIN], rounds));
    printf("calls %.1f %.1f\n", median(called[PROVED], rounds), median(called[PLAIN], rounds));
    return 0;
}
