/* The move of a station: its record, what bars an access, and what the 89 accesses leave. */
#include "check.h"

#include <string.h>

#define OLD 1, VSK_GUEST_FILE(2)
#define NEW 2, VSK_GUEST_FILE(3)
#define S VSK_SUPERVISOR_DOMAIN

static uint64_t saved[VSK_SAVED_NUMBERS];
static uint64_t kept_saved[VSK_SAVED_NUMBERS];

/* Targets that do not name old: another hart, below and above it, and another guest of its hart. */
static const uint32_t beside[] = {
    VSK_TARGET_MESSAGE(0, 2, 201), VSK_TARGET_MESSAGE(3, 2, 202),
    VSK_TARGET_MESSAGE(1, 1, 203), VSK_TARGET_MESSAGE(1, 3, 204), VSK_TARGET_MESSAGE(1, 0, 205),
};

static int record_changed(void)
{
    return memcmp(saved, kept_saved, sizeof saved) != 0;
}

/* Source i of the child, with a target. */
static void targeted(unsigned i, uint32_t target)
{
    DONE(vsk_domain_write(BLOCKS, VSK_MACHINE_DOMAIN, VSK_SOURCECFG(i), VSK_SOURCE_DELEGATED), 0);
    DONE(vsk_domain_write(BLOCKS, S, VSK_SOURCECFG(i), VSK_SOURCE_EDGE1), 0);
    DONE(vsk_domain_write(BLOCKS, S, VSK_TARGET(i), target), 0);
}

/* A station in old, which wire 9 reaches with identity 200; other sources go to files beside it. The record
 * holds other numbers. */
static void station(void)
{
    start();
    DONE(vsk_domain_write(BLOCKS, S, VSK_DOMAINCFG, VSK_DOMAINCFG_IE | VSK_DOMAINCFG_DM), 0);
    targeted(9, VSK_TARGET_MESSAGE(1, 2, 200));
    DONE(vsk_domain_write(BLOCKS, S, VSK_SETIENUM, 9), 0);
    for (unsigned k = 0; k < sizeof beside / sizeof beside[0]; k++)
        targeted(10 + k, beside[k]);
    for (unsigned j = 0; j < 4; j++)
        DONE(vsk_register(BLOCKS, OLD, VSK_WRITE, VSK_EIE(j), UINT64_C(0x10) << j), 0);
    DONE(vsk_register(BLOCKS, OLD, VSK_WRITE, VSK_EITHRESHOLD, 222), 0);
    DONE(vsk_register(BLOCKS, OLD, VSK_WRITE, VSK_EIDELIVERY, VSK_DELIVERY_ON), 0);
    DONE(vsk_page_write(BLOCKS, OLD, VSK_SETEIPNUM_LE, 70), 0);
    memset(saved, 0xA5, sizeof saved);
    memcpy(kept_saved, saved, sizeof saved);
}

static void barred(void)
{
    const uint64_t far = UINT64_C(1) << 32;
    station();
    REFUSED(vsk_move(BLOCKS, OLD, NEW, 0, saved), VSK_NO_SUCH);
    REFUSED(vsk_move(BLOCKS, OLD, NEW, VSK_ACCESSES + 1, saved), VSK_NO_SUCH);
    REFUSED(vsk_move(BLOCKS, OLD, NEW, far + 1, saved), VSK_NO_SUCH);
    REFUSED(vsk_move(BLOCKS, OLD, OLD, 1, saved), VSK_NO_SUCH);
    REFUSED(vsk_move(BLOCKS, OLD, 3, VSK_SUPERVISOR_FILE, 1, saved), VSK_NO_SUCH);
    REFUSED(vsk_move(BLOCKS, VSK_HARTS, 2, NEW, 1, saved), VSK_NO_SUCH);
    REFUSED(vsk_move(BLOCKS, 0, VSK_FILES, NEW, 1, saved), VSK_NO_SUCH);
    DONE(vsk_domain_write(BLOCKS, S, VSK_DOMAINCFG, VSK_DOMAINCFG_IE), 0);
    REFUSED(vsk_move(BLOCKS, OLD, NEW, 1, saved), VSK_NO_SUCH); /* direct delivery */
    CHECK(!record_changed());
}

/* The record changes by accesses 1, 2 and 72 to 79, the state by no access that only reads. */
static void moved(void)
{
    station();
    for (unsigned access = 1; access <= VSK_ACCESSES; access++) {
        const int reads = access == 1 || access == 2 || (access >= 72 && access <= 79);
        keep();
        memcpy(kept_saved, saved, sizeof saved);
        DONE(vsk_move(BLOCKS, OLD, NEW, access, saved), 0);
        CHECK(record_changed() == reads);
        CHECK(!reads || state_changes() == 0);
        EQUAL(log_changes(), 0);
        if (access == 40)
            SENT(vsk_wire(BLOCKS, 9, 1), 0, 1); /* its target is rewritten already */
    }
    EQUAL(messages[0], VSK_LOGGED(2, VSK_GUEST_FILE(3), 200));
    EQUAL(saved[0], VSK_DELIVERY_ON);
    EQUAL(saved[1], 222);
    EQUAL(saved[3], VSK_IDENTITY_BIT(70));
    for (unsigned j = 0; j < 4; j++)
        EQUAL(saved[6 + j], UINT64_C(0x10) << j);
    DONE(vsk_register(BLOCKS, NEW, VSK_READ, VSK_EIDELIVERY, 0), VSK_DELIVERY_ON);
    DONE(vsk_register(BLOCKS, NEW, VSK_READ, VSK_EITHRESHOLD, 0), 222);
    DONE(vsk_register(BLOCKS, NEW, VSK_READ, VSK_EIP(1), 0), VSK_IDENTITY_BIT(70));
    DONE(vsk_register(BLOCKS, NEW, VSK_READ, VSK_EIP(3), 0), VSK_IDENTITY_BIT(200));
    for (unsigned j = 0; j < 4; j++)
        DONE(vsk_register(BLOCKS, NEW, VSK_READ, VSK_EIE(j), 0), UINT64_C(0x10) << j);
    DONE(vsk_domain_read(BLOCKS, S, VSK_TARGET(9)), VSK_TARGET_MESSAGE(2, 3, 200));
    for (unsigned k = 0; k < sizeof beside / sizeof beside[0]; k++)
        DONE(vsk_domain_read(BLOCKS, S, VSK_TARGET(10 + k)), beside[k]);
    DONE(vsk_register(BLOCKS, OLD, VSK_READ, VSK_EIDELIVERY, 0), VSK_DELIVERY_OFF);
}

/* A move that is given up before access 9: old is as it was once its delivery is written. */
static void given_up(void)
{
    for (unsigned last = 1; last < 9; last++) {
        station();
        keep();
        for (unsigned access = 1; access <= last; access++)
            DONE(vsk_move(BLOCKS, OLD, NEW, access, saved), 0);
        DONE(vsk_register(BLOCKS, OLD, VSK_WRITE, VSK_EIDELIVERY, saved[0]), 0);
        EQUAL(state_changes(), 0);
    }
}

void test_moves(void)
{
    barred();
    moved();
    given_up();
}
