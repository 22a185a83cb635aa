/* Calls made from their values, on either side. */
#include "calls.h"

#include <inttypes.h>
#include <stdio.h>
#include <string.h>

#define BLOCKS l->state, l->state_len, l->log, l->log_len

/* The same for both sides, so that what it takes is the same. */
#define MAKE(side)                                                                             \
    vsk_answer make_##side(struct lent *l, const struct call *c)                               \
    {                                                                                          \
        const uint64_t *n = c->number;                                                         \
        switch (c->kind) {                                                                     \
        case RESET: return NAMED(side, reset)(BLOCKS);                                         \
        case WIRE: return NAMED(side, wire)(BLOCKS, n[0], n[1]);                               \
        case DOMAIN_READ: return NAMED(side, domain_read)(BLOCKS, n[0], n[1]);                 \
        case DOMAIN_WRITE: return NAMED(side, domain_write)(BLOCKS, n[0], n[1], (uint32_t)n[2]); \
        case PAGE_READ: return NAMED(side, page_read)(BLOCKS, n[0], n[1], n[2]);               \
        case PAGE_WRITE: return NAMED(side, page_write)(BLOCKS, n[0], n[1], n[2], (uint32_t)n[3]); \
        case REGISTER: return NAMED(side, register)(BLOCKS, n[0], n[1], n[2], n[3], n[4]);     \
        case TOP: return NAMED(side, top)(BLOCKS, n[0], n[1]);                                 \
        case CLAIM: return NAMED(side, claim)(BLOCKS, n[0], n[1]);                             \
        case SIGNALS: return NAMED(side, signals)(BLOCKS, n[0]);                               \
        case MOVE: return NAMED(side, move)(BLOCKS, n[0], n[1], n[2], n[3], n[4], l->saved);   \
        }                                                                                      \
        return (vsk_answer){0, 0, 0};                                                          \
    }
#define NAMED(side, call) NAMED_##side(call)
#define NAMED_proved(call) vsk_##call
#define NAMED_plain(call) plain_##call
MAKE(proved)
MAKE(plain)

vsk_answer make_nothing(struct lent *l, const struct call *c)
{
    (void)l;
    return (vsk_answer){c->number[0], 0, 0};
}

void start_board(struct lent *l)
{
    memset(l, 0, sizeof *l);
    l->state_len = VSK_STATE_WORDS;
    l->log_len = VSK_LOG_WORDS;
    (void)!vsk_reset(BLOCKS).refusal;
}

void print_call(const struct call *c)
{
    static const struct {
        const char *name;
        int numbers;
    } call[] = {{"reset", 0},      {"wire", 2},     {"domain_read", 2}, {"domain_write", 3}, {"page_read", 3},
                {"page_write", 4}, {"register", 5}, {"top", 2},         {"claim", 2},        {"signals", 1},
                {"move", 5}};
    printf("%s", call[c->kind].name);
    for (int k = 0; k < call[c->kind].numbers; k++)
        printf("\t%" PRIu64, c->number[k]);
    printf("\n");
}

/* xorshift64*: the same calls on every machine. */
uint64_t next_random(uint64_t *seed)
{
    *seed ^= *seed >> 12;
    *seed ^= *seed << 25;
    *seed ^= *seed >> 27;
    return *seed * UINT64_C(2685821657736338717);
}

uint64_t below(uint64_t *seed, uint64_t end)
{
    return (next_random(seed) >> 32) % end;
}
