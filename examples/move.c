/* A station is moved from one hart to another under load: between every two accesses a wire rises, a device
 * writes, and another station claims. Beside it stands a board with the same load and no move; at the end
 * both have the same file, and the other station has claimed the same.
 * `make example` builds it, runs it, and compares what it prints with move.expected. */
#include "varskumo.h"

#include <inttypes.h>
#include <stdio.h>
#include <string.h>

typedef struct board {
    uint32_t state[VSK_STATE_WORDS];
    uint32_t messages[VSK_LOG_WORDS];
} board;

#define BLOCKS(b) (b)->state, VSK_STATE_WORDS, (b)->messages, VSK_LOG_WORDS

/* The station is in guest file 1 of hart 0, and goes to guest file 2 of hart 3. */
#define OLD 0, VSK_GUEST_FILE(1)
#define NEW 3, VSK_GUEST_FILE(2)
/* Another station of hart 0, which goes on meanwhile. */
#define OTHER 0, VSK_GUEST_FILE(2)
/* Scanners are wires 1 to 12, with identities 101 to 112. A scale has changed over once access 40 is made. */
#define SCANNERS 12
#define IDENTITY(i) (100 + (i))
#define CHANGED_OVER 40

static board moved, still;
static uint64_t saved[VSK_SAVED_NUMBERS];
static unsigned calls, meanwhile;
static int wrong;

/* A call that must be done; its value. */
static uint64_t done(vsk_answer a)
{
    calls++;
    if (a.refusal != VSK_DONE) {
        printf("call %u: refusal %" PRIu32 "\n", calls, a.refusal);
        wrong = 1;
    }
    return a.value;
}

static void domain(board *b, uint64_t d, uint64_t address, uint32_t value)
{
    done(vsk_domain_write(BLOCKS(b), d, address, value));
}

/* The supervisor domain sends each scanner's wire to the old file, which takes every identity below 200. */
static void set_up(board *b)
{
    done(vsk_reset(BLOCKS(b)));
    domain(b, VSK_SUPERVISOR_DOMAIN, VSK_DOMAINCFG, VSK_DOMAINCFG_IE | VSK_DOMAINCFG_DM);
    for (uint32_t i = 1; i <= SCANNERS; i++) {
        domain(b, VSK_MACHINE_DOMAIN, VSK_SOURCECFG(i), VSK_SOURCE_DELEGATED);
        domain(b, VSK_SUPERVISOR_DOMAIN, VSK_SOURCECFG(i), VSK_SOURCE_EDGE1);
        domain(b, VSK_SUPERVISOR_DOMAIN, VSK_TARGET(i), VSK_TARGET_MESSAGE(0, 1, IDENTITY(i)));
        domain(b, VSK_SUPERVISOR_DOMAIN, VSK_SETIENUM, i);
    }
    for (uint64_t j = 0; j < 4; j++)
        done(vsk_register(BLOCKS(b), OLD, VSK_WRITE, VSK_EIE(j), ~UINT64_C(0)));
    done(vsk_register(BLOCKS(b), OLD, VSK_WRITE, VSK_EITHRESHOLD, 200));
    done(vsk_register(BLOCKS(b), OLD, VSK_WRITE, VSK_EIDELIVERY, VSK_DELIVERY_ON));
    done(vsk_register(BLOCKS(b), OTHER, VSK_WRITE, VSK_EIE(0), ~UINT64_C(0)));
}

/* What happens after n accesses, on both boards: a scanner's wire rises and falls, and the scale writes to
 * the station's page, which on the moved board is the new file's once it has changed over. */
static void load(unsigned n)
{
    const uint64_t scanner = 1 + n * 5 % SCANNERS;
    for (uint64_t level = 2; level-- > 0;) {
        done(vsk_wire(BLOCKS(&moved), scanner, level));
        done(vsk_wire(BLOCKS(&still), scanner, level));
    }
    if (n < CHANGED_OVER)
        done(vsk_page_write(BLOCKS(&moved), OLD, VSK_SETEIPNUM_LE, 1 + n));
    else
        done(vsk_page_write(BLOCKS(&moved), NEW, VSK_SETEIPNUM_LE, 1 + n));
    done(vsk_page_write(BLOCKS(&still), OLD, VSK_SETEIPNUM_LE, 1 + n));
}

/* The other station, meanwhile: a device of its own writes, and it claims, on both boards. */
static void go_on(unsigned n)
{
    done(vsk_page_write(BLOCKS(&moved), OTHER, VSK_SETEIPNUM_LE, 1 + n % 60));
    done(vsk_page_write(BLOCKS(&still), OTHER, VSK_SETEIPNUM_LE, 1 + n % 60));
    const uint64_t here = done(vsk_claim(BLOCKS(&moved), OTHER));
    wrong |= here != done(vsk_claim(BLOCKS(&still), OTHER));
    meanwhile += here != 0;
}

/* A register of the new file beside that of the old one on the board that did not move. */
static void beside(const char *name, uint64_t select)
{
    const uint64_t here = done(vsk_register(BLOCKS(&moved), NEW, VSK_READ, select, 0));
    const uint64_t there = done(vsk_register(BLOCKS(&still), OLD, VSK_READ, select, 0));
    printf("%-10s 0x%016" PRIX64 "   0x%016" PRIX64 "%s\n", name, here, there,
           here == there ? "" : "   DIFFERS");
    wrong |= here != there;
}

/* Claims until nothing is left: every scan once, in the same order on both boards. */
static unsigned claim_all(void)
{
    for (unsigned n = 0;; n++) {
        const uint64_t here = done(vsk_claim(BLOCKS(&moved), NEW));
        wrong |= here != done(vsk_claim(BLOCKS(&still), OLD));
        if (here == 0)
            return n;
    }
}

int main(void)
{
    static const char *const pending[] = {"eip 0", "eip 1", "eip 2", "eip 3"};
    static const char *const enable[] = {"eie 0", "eie 1", "eie 2", "eie 3"};
    set_up(&moved);
    set_up(&still);
    memset(saved, 0xFF, sizeof saved); /* any numbers */
    for (unsigned access = 1; access <= VSK_ACCESSES; access++) {
        load(access - 1);
        done(vsk_move(BLOCKS(&moved), OLD, NEW, access, saved));
        go_on(access);
    }
    load(VSK_ACCESSES);
    printf("%u accesses, a load before and after each\n", VSK_ACCESSES);
    printf("           the new file         the old file, not moved\n");
    beside("delivery", VSK_EIDELIVERY);
    beside("threshold", VSK_EITHRESHOLD);
    for (uint64_t j = 0; j < 4; j++)
        beside(pending[j], VSK_EIP(j));
    for (uint64_t j = 0; j < 4; j++)
        beside(enable[j], VSK_EIE(j));
    printf("claimed on both, in the same order: %u\n", claim_all());
    printf("claimed by another station meanwhile, the same on both: %u\n", meanwhile);
    printf("%s\n", wrong ? "WRONG" : "the same");
    return wrong;
}
