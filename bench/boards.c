/* Three boards: empty, half (20 sources, some files with something pending) and full (all sources and files
 * in use). On the last two nothing is found for hart 0, and something for the others. */
#include "boards.h"

#include <stdio.h>
#include <stdlib.h>
#include <string.h>

/* Where the calls that build a board are noted, if anywhere. */
static struct call *noted;

static void build(struct lent *l, struct call c)
{
    vsk_answer a = make_proved(l, &c);
    if (a.refusal != VSK_DONE) {
        fprintf(stderr, "bench: a call that builds a board is refused with %u\n", (unsigned)a.refusal);
        exit(1);
    }
    if (noted)
        *noted++ = c;
}

static void put(struct lent *l, uint64_t domain, uint64_t address, uint32_t value)
{
    build(l, (struct call){{domain, address, value}, DOMAIN_WRITE});
}

static void put_file(struct lent *l, uint64_t hart, uint64_t file, uint64_t select, uint64_t value)
{
    build(l, (struct call){{hart, file, VSK_WRITE, select, value}, REGISTER});
}

/* Odd sources stay with the machine domain, even ones go to the child. */
static void add_source(struct lent *l, unsigned i)
{
    static const uint32_t mode[] = {VSK_SOURCE_EDGE1, VSK_SOURCE_LEVEL1, VSK_SOURCE_DETACHED,
                                    VSK_SOURCE_EDGE0, VSK_SOURCE_LEVEL0, VSK_SOURCE_LEVEL1};
    unsigned child = i % 2 == 0, hart = 1 + i / 2 % 3;
    if (child)
        put(l, VSK_MACHINE_DOMAIN, VSK_SOURCECFG(i), VSK_SOURCE_DELEGATED);
    put(l, child, VSK_SOURCECFG(i), mode[i / 2 % 6]);
    put(l, child, VSK_TARGET(i),
        child ? VSK_TARGET_MESSAGE(hart, i / 8 % 4, 10 + i) : VSK_TARGET_DIRECT(hart, 1 + i % 7));
    put(l, child, VSK_SETIENUM, i);
    build(l, (struct call){{i, i % 5 == 0}, WIRE});
    if (!child)
        put(l, child, VSK_SETIPNUM, i);
}

static void add_sources(struct lent *l, unsigned count)
{
    put(l, VSK_MACHINE_DOMAIN, VSK_DOMAINCFG, VSK_DOMAINCFG_IE);
    put(l, VSK_SUPERVISOR_DOMAIN, VSK_DOMAINCFG, VSK_DOMAINCFG_IE | VSK_DOMAINCFG_DM);
    for (unsigned i = 1; i <= count; i++)
        add_source(l, i);
    /* this one names the file that the moves start from */
    put(l, VSK_SUPERVISOR_DOMAIN, VSK_TARGET(12), VSK_TARGET_MESSAGE(1, 1, 22));
    for (unsigned h = 0; h < VSK_HARTS; h++)
        put(l, VSK_MACHINE_DOMAIN, VSK_IDELIVERY(h), 1);
}

/* The guest files deliver by themselves, the others follow their domains; a few identities are enabled. One
 * is pending in each guest file, but for hart 0: enabled in one file, not enabled in the next. */
static void use_some_files(struct lent *l)
{
    for (unsigned h = 0; h < VSK_HARTS; h++) {
        for (unsigned f = VSK_GUEST_FILE(1); f <= VSK_GUEST_FILE(3); f++) {
            put_file(l, h, f, VSK_EIDELIVERY, VSK_DELIVERY_ON);
            put_file(l, h, f, VSK_EIE(1), UINT64_C(0x0000F00000F00000));
            put_file(l, h, f, VSK_EIP(1), h == 0 ? 0 : (h + f) % 2 == 1 ? 1u << 21 : 1u << 7);
            put_file(l, h, f, VSK_EIP(0), 0);
        }
    }
}

/* Every file delivers and has half of its identities pending and the other half enabled. What is both, if
 * anything, lies high in one file and low in the next. */
static void use_all_files(struct lent *l)
{
    for (unsigned h = 0; h < VSK_HARTS; h++) {
        for (unsigned f = 0; f < 5; f++) {
            put_file(l, h, f, VSK_EIDELIVERY, VSK_DELIVERY_ON);
            for (unsigned j = 0; j < 4; j++) {
                put_file(l, h, f, VSK_EIP(j), UINT64_C(0xAAAAAAAAAAAAAAAA));
                put_file(l, h, f, VSK_EIE(j), UINT64_C(0x5555555555555555));
            }
            if (h != 0)
                build(l, (struct call){{h, f, VSK_SETEIPNUM_LE, f % 2 == 0 ? 202 : 34}, PAGE_WRITE});
        }
    }
}

static void fill_record(struct lent *l)
{
    for (unsigned k = 0; k < VSK_SAVED_NUMBERS; k++)
        l->saved[k] = k < 2 ? 1 : UINT64_C(0x0101010101010101) * k;
}

static void build_half(struct lent *l)
{
    add_sources(l, 20);
    use_some_files(l);
}

/* Answers the number of the calls. */
static unsigned long note_half(struct call *calls)
{
    static struct lent l;
    noted = calls;
    start_board(&l);
    build(&l, (struct call){{0}, RESET});
    build_half(&l);
    unsigned long n = (unsigned long)(noted - calls);
    noted = NULL;
    return n;
}

void build_record(struct call record[RECORD_LINES])
{
    unsigned long n = note_half(record);
    build_shift(&record[n], RECORD_LINES - n);
}

void build_boards(struct lent board[BOARDS])
{
    for (unsigned k = 0; k < BOARDS; k++) {
        start_board(&board[k]);
        fill_record(&board[k]);
    }
    build_half(&board[1]);
    add_sources(&board[2], VSK_SOURCES);
    use_all_files(&board[2]);
}
