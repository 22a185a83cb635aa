/* The board as a careful author would write it in C: it makes the promises of the proved library, on the same
 * block, in place, so that the benchmark shows what proof costs. One translation unit, as the library is. */
#include "plain.h"

#include <stdbool.h>

enum { HARTS = VSK_HARTS, FILES = 5, FIRST_GUEST = 2, SLOTS = VSK_SOURCES + 1, IDENTITIES = 255 };
/* Place 0 of sourcecfg and of target belongs to no source. */
enum { DOMAINCFG = 0, GENMSI = 0 };
enum { HART_AT = 18, GUEST_AT = 12 };

static const uint32_t FROM_WIRED = 0x40000000;
static const uint32_t HART_BITS = 3u << HART_AT, GUEST_BITS = 3u << GUEST_AT, NUMBER_BITS = 255;
static const uint32_t SENDS = VSK_DOMAINCFG_IE | VSK_DOMAINCFG_DM;

/* The block as docs/LAYOUT.md has it. Every member is made of words, so nothing is padded. */
struct file {
    uint32_t delivery, threshold, pending[8], enable[8];
};

struct structure {
    uint32_t idelivery, iforce, ithreshold;
};

struct domain {
    uint32_t sourcecfg[SLOTS], target[SLOTS], pending[2], enable[2];
    struct structure structure[HARTS];
};

struct wired {
    uint32_t wires[2];
    struct domain machine, child;
};

struct board {
    struct file file[HARTS][FILES];
    struct wired wired;
};

_Static_assert(sizeof(struct board) == VSK_STATE_WORDS * sizeof(uint32_t), "a board is the block");

static uint64_t joined(const uint32_t word[2])
{
    return (uint64_t)word[1] << 32 | word[0];
}

static bool has_bit(const uint32_t *words, uint32_t i)
{
    return words[i / 32] >> i % 32 & 1;
}

static void set_bit(uint32_t *words, uint32_t i)
{
    words[i / 32] |= 1u << i % 32;
}

static void clear_bit(uint32_t *words, uint32_t i)
{
    words[i / 32] &= ~(1u << i % 32);
}

static void put_bit(uint32_t *words, uint32_t i, bool on)
{
    if (on)
        set_bit(words, i);
    else
        clear_bit(words, i);
}

static uint32_t reversed(uint32_t value)
{
    return value << 24 | (value << 8 & 0xFF0000) | (value >> 8 & 0xFF00) | value >> 24;
}

/* The lowest of a set of sources that is not empty; the library's topi counts trailing zeros too. */
static uint32_t lowest(uint64_t sources)
{
    return (uint32_t)__builtin_ctzll(sources);
}

/* The parts, bottom up. */
#include "plain_file.c"
#include "plain_source.c"
#include "plain_domain.c"
#include "plain_rules.c"
#include "plain_calls.c"
