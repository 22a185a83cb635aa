/* A call as a value, so that one list of calls is made on both sides: the proved library and plain.c. */
#ifndef CALLS_H
#define CALLS_H

#include "plain.h"

enum kind {
    RESET, WIRE, DOMAIN_READ, DOMAIN_WRITE, PAGE_READ, PAGE_WRITE, REGISTER, TOP, CLAIM, SIGNALS, MOVE
};

/* The numbers stand in the order of the call's own arguments. */
struct call {
    uint64_t number[5];
    enum kind kind;
};

/* What a call is lent. Every board lies alike in the lines of the cache. */
struct lent {
    _Alignas(64) uint32_t state[VSK_STATE_WORDS];
    uint32_t log[VSK_LOG_WORDS];
    size_t state_len, log_len;
    uint64_t saved[VSK_SAVED_NUMBERS];
};

typedef vsk_answer made(struct lent *l, const struct call *c);

/* The two sides, and one that does nothing, for what the making itself takes. */
made make_proved, make_plain, make_nothing;

/* A lent board after a reset, with right lengths and a record of zeros. */
void start_board(struct lent *l);

/* The line that tells a call, as in a record: its name and its numbers in decimal, tabs between. */
void print_call(const struct call *c);

/* The next number of a seeded generator, and one below an end. */
uint64_t next_random(uint64_t *seed);
uint64_t below(uint64_t *seed, uint64_t end);

#endif
