/* Every refusal of every call: its number, that it comes in its order, and that neither block changes. */
#include "check.h"

#include <string.h>

#define FAR (UINT64_C(1) << 32) /* a number that is compared whole: cut to 32 bits it would be 0 */

static uint64_t saved[VSK_SAVED_NUMBERS];

/* Every call once, with numbers that are all there, on blocks of some lengths. */
static void each(size_t state_len, size_t log_len, uint32_t number)
{
#define SIZED state, state_len, messages, log_len
    REFUSED(vsk_wire(SIZED, 1, 1), number);
    REFUSED(vsk_domain_read(SIZED, 0, VSK_DOMAINCFG), number);
    REFUSED(vsk_domain_write(SIZED, 0, VSK_DOMAINCFG, 1), number);
    REFUSED(vsk_page_read(SIZED, 0, 0, 0), number);
    REFUSED(vsk_page_write(SIZED, 0, 0, 0, 1), number);
    REFUSED(vsk_register(SIZED, 0, 0, VSK_WRITE, VSK_EITHRESHOLD, 1), number);
    REFUSED(vsk_top(SIZED, 0, 0), number);
    REFUSED(vsk_claim(SIZED, 0, 0), number);
    REFUSED(vsk_signals(SIZED, 0), number);
    REFUSED(vsk_move(SIZED, 0, 2, 1, 2, 1, saved), number);
#undef SIZED
}

static void lengths(void)
{
    start();
    each(VSK_STATE_WORDS - 1, VSK_LOG_WORDS, VSK_STATE_LENGTH);
    each(0, 0, VSK_STATE_LENGTH); /* 1 before 2 */
    each(VSK_STATE_WORDS, VSK_LOG_WORDS - 1, VSK_LOG_LENGTH);
    REFUSED(vsk_reset(state, VSK_STATE_WORDS - 1, LOG), VSK_STATE_LENGTH);
    REFUSED(vsk_reset(state, VSK_STATE_WORDS, messages, VSK_LOG_WORDS - 1), VSK_LOG_LENGTH);
}

/* A state that breaks a rule: 2 comes before 3, 3 before 4, and a reset mends it. */
static void rules(void)
{
    start();
    state[1] = 256; /* a threshold has 8 bits */
    each(VSK_STATE_WORDS, VSK_LOG_WORDS - 1, VSK_LOG_LENGTH);
    each(VSK_STATE_WORDS, VSK_LOG_WORDS, VSK_BROKEN_RULE);
    REFUSED(vsk_top(BLOCKS, VSK_HARTS, VSK_FILES), VSK_BROKEN_RULE);
    DONE(vsk_reset(BLOCKS), 0);
    DONE(vsk_top(BLOCKS, 0, 0), 0);
}

/* A block of zeros keeps the rules: it is a board on which every file is switched off. */
static void zeros(void)
{
    start();
    for (unsigned k = 0; k < VSK_STATE_WORDS; k++)
        state[k] = 0;
    for (uint64_t hart = 0; hart < VSK_HARTS; hart++) {
        DONE(vsk_signals(BLOCKS, hart), 0);
        for (uint64_t file = 0; file < VSK_FILES; file++)
            DONE(vsk_register(BLOCKS, hart, file, VSK_READ, VSK_EIDELIVERY, 0), VSK_DELIVERY_OFF);
    }
}

/* A word out of its range, by its place in docs/LAYOUT.md, on a board after a reset: refusal 3. */
static void ranges(void)
{
    static const uint32_t broken[][2] = {
        {0, 2}, {1, 256}, {2, 1}, {10, 1},            /* hart 0, file 0: delivery, threshold, identity 0 */
        {36, 0x40000000},                             /* hart 0, file 2: a guest follows no domain */
        {342, 2}, {343, 256}, {344, 1}, {352, 1},     /* hart 3, file 4 */
        {360, 1},                                     /* wire 0 */
        {362, 1}, {363, 2}, {425, 8}, {426, 1},       /* machine: domaincfg, sourcecfg[1], [63], genmsi */
        {427, 1}, {489, 1}, {490, 2}, {492, 2},       /* targets, pending and enable of an inactive source */
        {494, 2}, {495, 2}, {496, 256}, {505, 256},   /* idelivery, iforce, ithreshold, that of hart 3 */
        {506, 1}, {507, 4}, {570, 1}, {571, 1},       /* child: domaincfg, undelegated, genmsi, target */
        {634, 2}, {636, 2}, {638, 2}, {649, 256},     /* pending, enable, idelivery, ithreshold of hart 3 */
    };
    start();
    for (unsigned n = 0; n < sizeof broken / sizeof broken[0]; n++) {
        const uint32_t was = state[broken[n][0]];
        state[broken[n][0]] = broken[n][1];
        REFUSED(vsk_signals(BLOCKS, 0), VSK_BROKEN_RULE);
        state[broken[n][0]] = was;
        DONE(vsk_signals(BLOCKS, 0), 0);
    }
}

static void no_such(void)
{
    start();
    REFUSED(vsk_wire(BLOCKS, 0, 1), VSK_NO_SUCH);
    REFUSED(vsk_wire(BLOCKS, VSK_SOURCES + 1, 1), VSK_NO_SUCH);
    REFUSED(vsk_wire(BLOCKS, 1, 2), VSK_NO_SUCH);
    REFUSED(vsk_wire(BLOCKS, FAR + 1, 1), VSK_NO_SUCH);
    REFUSED(vsk_domain_read(BLOCKS, VSK_DOMAINS, 0), VSK_NO_SUCH);
    REFUSED(vsk_domain_read(BLOCKS, VSK_DOMAINS, 1), VSK_NO_SUCH); /* 4 before 5 */
    REFUSED(vsk_domain_write(BLOCKS, FAR, 0, 0), VSK_NO_SUCH);
    REFUSED(vsk_page_read(BLOCKS, VSK_HARTS, 0, 0), VSK_NO_SUCH);
    REFUSED(vsk_page_read(BLOCKS, 0, VSK_FILES, 0), VSK_NO_SUCH);
    REFUSED(vsk_page_write(BLOCKS, FAR, 0, 0, 1), VSK_NO_SUCH);
    REFUSED(vsk_page_write(BLOCKS, 0, VSK_GUEST_FILE(4), 0, 1), VSK_NO_SUCH);
    REFUSED(vsk_register(BLOCKS, VSK_HARTS, 0, VSK_READ, VSK_EIP(0), 0), VSK_NO_SUCH);
    REFUSED(vsk_register(BLOCKS, 0, VSK_FILES, VSK_READ, VSK_EIP(0), 0), VSK_NO_SUCH);
    REFUSED(vsk_register(BLOCKS, 0, 0, VSK_CLEAR + 1, 0, 0), VSK_NO_SUCH); /* 4 before 6 */
    REFUSED(vsk_top(BLOCKS, VSK_HARTS, 0), VSK_NO_SUCH);
    REFUSED(vsk_top(BLOCKS, 0, VSK_FILES), VSK_NO_SUCH);
    REFUSED(vsk_claim(BLOCKS, VSK_HARTS, 0), VSK_NO_SUCH);
    REFUSED(vsk_claim(BLOCKS, 0, VSK_FILES), VSK_NO_SUCH);
    REFUSED(vsk_signals(BLOCKS, VSK_HARTS), VSK_NO_SUCH);
    /* no guest file 0: the number is the supervisor's file, which is there */
    DONE(vsk_top(BLOCKS, 0, VSK_GUEST_FILE(0)), 0);
}

static void addresses(void)
{
    start();
    REFUSED(vsk_domain_read(BLOCKS, 0, 2), VSK_BAD_ADDRESS);
    REFUSED(vsk_domain_read(BLOCKS, 1, VSK_REGION_BYTES), VSK_BAD_ADDRESS);
    REFUSED(vsk_domain_write(BLOCKS, 0, 1, 0), VSK_BAD_ADDRESS);
    REFUSED(vsk_domain_write(BLOCKS, 1, FAR, 0), VSK_BAD_ADDRESS);
    REFUSED(vsk_page_read(BLOCKS, 0, 0, 3), VSK_BAD_ADDRESS);
    REFUSED(vsk_page_read(BLOCKS, 0, 0, VSK_PAGE_BYTES), VSK_BAD_ADDRESS);
    REFUSED(vsk_page_write(BLOCKS, 0, 0, 2, 1), VSK_BAD_ADDRESS);
    REFUSED(vsk_page_write(BLOCKS, 0, 0, FAR, 1), VSK_BAD_ADDRESS);
}

static void selects(void)
{
    start();
    for (uint64_t kind = VSK_READ; kind <= VSK_CLEAR; kind++) {
        REFUSED(vsk_register(BLOCKS, 0, 0, kind, 0x6F, 1), VSK_ILLEGAL_SELECT);
        REFUSED(vsk_register(BLOCKS, 0, 0, kind, 0x81, 1), VSK_ILLEGAL_SELECT);
        REFUSED(vsk_register(BLOCKS, 0, 0, kind, 0xFF, 1), VSK_ILLEGAL_SELECT);
        REFUSED(vsk_register(BLOCKS, 0, 0, kind, 0x100, 1), VSK_ILLEGAL_SELECT);
        REFUSED(vsk_register(BLOCKS, 0, 0, kind, FAR + VSK_EIP(0), 1), VSK_ILLEGAL_SELECT);
        REFUSED(vsk_register(BLOCKS, 0, 0, kind, 0x30, 1), VSK_ILLEGAL_SELECT);
    }
}

void test_refusals(void)
{
    memset(saved, 0, sizeof saved);
    lengths();
    rules();
    zeros();
    ranges();
    no_such();
    addresses();
    selects();
}
