/* Checks that the proved library and plain.c agree, so that the benchmark compares like with like: random
 * calls on both, with answers, both blocks and the record compared after every call. agree [CALLS [SEED]] */
#include "calls.h"

#include <inttypes.h>
#include <stdio.h>
#include <stdlib.h>
#include <string.h>

static uint64_t seed = 20260709;

static uint64_t random_below(uint64_t end)
{
    return below(&seed, end);
}

/* A number below the end, or now and then one that names nothing, or one that only its low half would. */
static uint64_t named(uint64_t end)
{
    switch (random_below(120)) {
    case 0: return end;
    case 1: return next_random(&seed);
    case 2: return random_below(end) | UINT64_C(1) << 32;
    default: return random_below(end);
    }
}

static uint64_t random_address(void)
{
    static const uint64_t word[] = {
        0x1C00, 0x1C04, 0x1CDC, 0x1D00, 0x1D04, 0x1DDC, 0x1E00, 0x1E04, 0x1EDC, 0x1F00,
        0x1F04, 0x1FDC, 0x2000, 0x2004, 0x3000, 0x1C08, 0x1BC0, 0x3100, 0x4080,
    };
    static const uint64_t number[] = {0x00, 0x04, 0x08, 0x18, 0x1C, 0x0C};
    switch (random_below(16)) {
    case 0: return named(0x5000);
    case 1: return VSK_DOMAINCFG;
    case 2:
    case 3:
    case 4:
    case 5: return 4 * random_below(64);
    case 6:
    case 7: return VSK_TARGET(random_below(64));
    case 8:
    case 9: return VSK_IDELIVERY(random_below(4)) + number[random_below(6)];
    default: return word[random_below(sizeof word / sizeof *word)];
    }
}

/* A value that the register at the address can make something of, mostly. */
static uint32_t random_word(uint64_t address)
{
    uint32_t any = (uint32_t)next_random(&seed);
    if (random_below(16) == 0)
        return any;
    if (address == VSK_DOMAINCFG)
        return random_below(2) ? 0x104 : any & 0x104;
    if (address < 0x100)
        return random_below(3) ? any & 7 : VSK_SOURCE_DELEGATED | (any & 7);
    if (0x1C00 <= address && address < 0x2004 && address % 0x100 < 8)
        return any & (uint32_t)next_random(&seed) & (uint32_t)next_random(&seed);
    if (address == VSK_SETIPNUM_BE)
        return (any & 63) << 24;
    if (address < 0x3000)
        return any & 63;
    if (address < 0x4000)
        return any & (random_below(2) ? 0xC30FF : 0xC3003);
    return address % 32 == 8 ? any & 15 : any & 1;
}

static uint64_t random_select(void)
{
    switch (random_below(8)) {
    case 0: return named(0x100);
    case 1: return VSK_EIDELIVERY;
    case 2: return VSK_EITHRESHOLD;
    case 3: return 0x70 + random_below(0x90);
    default: return (random_below(2) ? VSK_EIP(0) : VSK_EIE(0)) + 2 * random_below(4);
    }
}

static uint64_t random_value(uint64_t select)
{
    uint64_t any = next_random(&seed);
    if (select == VSK_EIDELIVERY)
        return random_below(8) ? (any & 0x40000001) : any;
    return random_below(8) ? any & next_random(&seed) & next_random(&seed) : any;
}

static struct call random_domain_call(enum kind kind)
{
    uint64_t domain = named(2), address = random_address();
    return (struct call){{domain, address, kind == DOMAIN_WRITE ? random_word(address) : 0, 0, 0}, kind};
}

static struct call random_file_call(enum kind kind)
{
    struct call c = {{named(4), named(5), 0, 0, 0}, kind};
    if (kind == REGISTER) {
        c.number[2] = named(4);
        c.number[3] = random_select();
        c.number[4] = random_value(c.number[3]);
    } else if (kind == PAGE_READ || kind == PAGE_WRITE) {
        c.number[2] = random_below(4) ? 4 * random_below(2) : named(0x1000);
        c.number[3] = c.number[2] == VSK_SETEIPNUM_BE ? random_below(260) << 24 : random_below(260);
    }
    return c;
}

/* How often of a hundred each call is made; reset is rare, so that boards grow full. */
static const struct {
    unsigned of_hundred;
    enum kind kind;
} share[] = {{38, DOMAIN_WRITE}, {9, DOMAIN_READ}, {16, WIRE}, {6, PAGE_WRITE}, {1, PAGE_READ},
             {10, REGISTER},     {3, TOP},         {4, CLAIM}, {5, SIGNALS},    {8, MOVE}};

static struct call random_call(void)
{
    uint64_t k = 0, at = random_below(100);
    if (random_below(4000) == 0)
        return (struct call){{0, 0, 0, 0, 0}, RESET};
    while (at >= share[k].of_hundred)
        at -= share[k++].of_hundred;
    switch (share[k].kind) {
    case DOMAIN_READ:
    case DOMAIN_WRITE: return random_domain_call(share[k].kind);
    case WIRE: return (struct call){{named(64), named(2), 0, 0, 0}, WIRE};
    case SIGNALS: return (struct call){{named(4), 0, 0, 0, 0}, SIGNALS};
    case MOVE: return (struct call){{named(4), 2 + named(3), named(4), 2 + named(3), named(90)}, MOVE};
    default: return random_file_call(share[k].kind);
    }
}

/* The two boards, the last answers, and how often each refusal was given. */
static struct lent proved, plain;
static vsk_answer answer, plain_answer;
static unsigned long given[7], messages;

static int differs(void)
{
    return answer.value != plain_answer.value || answer.count != plain_answer.count ||
           answer.refusal != plain_answer.refusal || memcmp(&proved, &plain, sizeof proved) != 0;
}

static void report(const struct call *c, unsigned long n)
{
    printf("agree: call %lu differs:\n", n);
    print_call(c);
    printf("proved: value 0x%" PRIX64 ", count %" PRIu32 ", refusal %" PRIu32 "\n", answer.value,
           answer.count, answer.refusal);
    printf("plain:  value 0x%" PRIX64 ", count %" PRIu32 ", refusal %" PRIu32 "\n", plain_answer.value,
           plain_answer.count, plain_answer.refusal);
    for (int i = 0; i < VSK_STATE_WORDS; i++)
        if (proved.state[i] != plain.state[i])
            printf("state word %d: 0x%" PRIX32 ", 0x%" PRIX32 "\n", i, proved.state[i], plain.state[i]);
    for (int i = 0; i < VSK_LOG_WORDS; i++)
        if (proved.log[i] != plain.log[i])
            printf("log word %d: 0x%" PRIX32 ", 0x%" PRIX32 "\n", i, proved.log[i], plain.log[i]);
    for (int i = 0; i < VSK_SAVED_NUMBERS; i++)
        if (proved.saved[i] != plain.saved[i])
            printf("record %d: 0x%" PRIX64 ", 0x%" PRIX64 "\n", i, proved.saved[i], plain.saved[i]);
}

static void make_both(const struct call *c)
{
    answer = make_proved(&proved, c);
    plain_answer = make_plain(&plain, c);
    given[answer.refusal % 7]++;
    messages += answer.count;
}

/* The same call with a bit turned over in the state: a rule may be broken then, and if so it is mended. */
static void make_with_turned_bit(const struct call *c)
{
    uint64_t at = random_below(VSK_STATE_WORDS);
    uint32_t bit = UINT32_C(1) << random_below(random_below(2) ? 32 : 1 + random_below(11));
    proved.state[at] ^= bit;
    plain.state[at] ^= bit;
    make_both(c);
    if (answer.refusal == VSK_BROKEN_RULE && plain_answer.refusal == VSK_BROKEN_RULE) {
        proved.state[at] ^= bit;
        plain.state[at] ^= bit;
    }
}

static void make_with_wrong_length(const struct call *c)
{
    size_t state_len = VSK_STATE_WORDS - random_below(2), log_len = VSK_LOG_WORDS + 1 - random_below(3);
    proved.state_len = plain.state_len = state_len;
    proved.log_len = plain.log_len = log_len;
    make_both(c);
    proved.state_len = plain.state_len = VSK_STATE_WORDS;
    proved.log_len = plain.log_len = VSK_LOG_WORDS;
}

static void start(void)
{
    start_board(&proved);
    for (int i = 0; i < VSK_LOG_WORDS; i++)
        proved.log[i] = (uint32_t)next_random(&seed);
    plain = proved;
}

int main(int argc, char **argv)
{
    unsigned long calls = argc > 1 ? strtoul(argv[1], NULL, 0) : 200000;
    if (argc > 2)
        seed = strtoull(argv[2], NULL, 0) | 1;
    start();
    for (unsigned long n = 1; n <= calls; n++) {
        struct call c = random_call();
        uint64_t how = random_below(100);
        if (how < 30)
            make_with_turned_bit(&c);
        else if (how < 31)
            make_with_wrong_length(&c);
        else
            make_both(&c);
        if (differs()) {
            report(&c, n);
            return 1;
        }
    }
    printf("agree: %lu calls, no difference; %lu messages; done %lu, refused 1 to 6:", calls, messages,
           given[0]);
    for (int r = 1; r < 7; r++)
        printf(" %lu", given[r]);
    printf("\n");
    return 0;
}
