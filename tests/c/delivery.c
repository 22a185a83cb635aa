/* Direct delivery: topi, claimi, iforce, thresholds and the signals of a hart, by what the header says. */
#include "check.h"

#define M VSK_MACHINE_DOMAIN
#define HART 3

static uint64_t word(uint64_t address)
{
    const vsk_answer a = vsk_domain_read(BLOCKS, M, address);
    CHECK(a.refusal == VSK_DONE);
    return a.value;
}

static void put(uint64_t address, uint32_t value)
{
    DONE(vsk_domain_write(BLOCKS, M, address, value), 0);
}

/* Sources 7 and 8, enabled, for the hart with priority 3. */
static void two_sources(uint32_t mode)
{
    start();
    for (unsigned i = 7; i <= 8; i++) {
        put(VSK_SOURCECFG(i), mode);
        put(VSK_TARGET(i), VSK_TARGET_DIRECT(HART, 3));
        put(VSK_SETIENUM, i);
        DONE(vsk_wire(BLOCKS, i, 1), 0);
    }
}

/* T6 and T7; neither IE nor idelivery plays a part. */
static void topi(void)
{
    two_sources(VSK_SOURCE_EDGE1);
    EQUAL(word(VSK_TOPI(HART)), 0x00070003);
    EQUAL(VSK_TOPI_SOURCE(word(VSK_TOPI(HART))), 7);
    EQUAL(VSK_TOPI_PRIORITY(word(VSK_TOPI(HART))), 3);
    put(VSK_TARGET(8), VSK_TARGET_DIRECT(HART, 2));
    EQUAL(word(VSK_TOPI(HART)), 0x00080002);
    EQUAL(word(VSK_TOPI(HART - 1)), 0);
    put(VSK_ITHRESHOLD(HART), 2);
    EQUAL(word(VSK_TOPI(HART)), 0);
    put(VSK_ITHRESHOLD(HART), 3);
    EQUAL(word(VSK_TOPI(HART)), 0x00080002);
    put(VSK_ITHRESHOLD(HART), 0x1FF);
    EQUAL(word(VSK_ITHRESHOLD(HART)), 255);
    put(VSK_ITHRESHOLD(HART), 256);
    EQUAL(word(VSK_ITHRESHOLD(HART)), 0);
    put(VSK_TOPI(HART), 1);
    put(VSK_CLAIMI(HART), 1);
    EQUAL(word(VSK_TOPI(HART)), 0x00080002);
}

/* A claimi takes an edge source, and a level source only once its level is gone. */
static void claimi(void)
{
    uint64_t claimed;
    two_sources(VSK_SOURCE_EDGE1);
    keep();
    claimed = word(VSK_CLAIMI(HART));
    EQUAL(VSK_CLAIMI_SOURCE(claimed), 7);
    EQUAL(VSK_CLAIMI_PRIORITY(claimed), 3);
    EQUAL(state_changes(), 1);
    EQUAL(word(VSK_SETIP(0)), VSK_SOURCE_BIT(8));
    EQUAL(word(VSK_CLAIMI(HART)), 0x00080003);
    EQUAL(word(VSK_CLAIMI(HART)), 0);
    two_sources(VSK_SOURCE_LEVEL1);
    keep();
    EQUAL(word(VSK_CLAIMI(HART)), 0x00070003);
    EQUAL(word(VSK_CLAIMI(HART)), 0x00070003);
    EQUAL(state_changes(), 0);
    DONE(vsk_wire(BLOCKS, 7, 0), 0);
    EQUAL(word(VSK_CLAIMI(HART)), 0x00080003);
}

/* A claimi of 0 clears iforce, one that is not 0 keeps it; topi never does. */
static void iforce(void)
{
    two_sources(VSK_SOURCE_LEVEL1);
    put(VSK_IFORCE(HART), 1);
    put(VSK_IFORCE(HART), 2); /* keeps the old value */
    EQUAL(word(VSK_CLAIMI(HART)), 0x00070003);
    EQUAL(word(VSK_IFORCE(HART)), 1);
    put(VSK_ITHRESHOLD(HART), 1);
    EQUAL(word(VSK_TOPI(HART)), 0);
    EQUAL(word(VSK_IFORCE(HART)), 1);
    EQUAL(word(VSK_CLAIMI(HART)), 0);
    EQUAL(word(VSK_IFORCE(HART)), 0);
}

/* By messages the whole structure reads 0 and keeps what it has. */
static void by_messages(void)
{
    start();
    put(VSK_IFORCE(HART), 1);
    put(VSK_ITHRESHOLD(HART), 9);
    put(VSK_DOMAINCFG, VSK_DOMAINCFG_DM);
    keep();
    EQUAL(word(VSK_IFORCE(HART)) | word(VSK_ITHRESHOLD(HART)) | word(VSK_IDELIVERY(HART)), 0);
    EQUAL(word(VSK_TOPI(HART)) | word(VSK_CLAIMI(HART)), 0);
    put(VSK_ITHRESHOLD(HART), 1);
    put(VSK_IDELIVERY(HART), 1);
    put(VSK_IFORCE(HART), 0);
    EQUAL(state_changes(), 0);
    put(VSK_DOMAINCFG, 0);
    EQUAL(word(VSK_IDELIVERY(HART)), 0);
    EQUAL(word(VSK_IFORCE(HART)), 1);
    EQUAL(word(VSK_ITHRESHOLD(HART)), 9);
}

/* The machine file follows its domain: DM clear, IE set, idelivery 1, and iforce or topi not 0. */
static void signals(void)
{
    const uint64_t wired = VSK_DELIVERY_WIRED;
    two_sources(VSK_SOURCE_LEVEL1);
    DONE(vsk_signals(BLOCKS, HART), 0);
    put(VSK_DOMAINCFG, VSK_DOMAINCFG_IE);
    DONE(vsk_signals(BLOCKS, HART), 0);
    put(VSK_IDELIVERY(HART), 1);
    put(VSK_IDELIVERY(HART), 2); /* keeps the old value */
    EQUAL(word(VSK_IDELIVERY(HART)), 1);
    EQUAL(word(VSK_IFORCE(HART)), 0);
    DONE(vsk_signals(BLOCKS, HART), VSK_SIGNAL(VSK_MACHINE_FILE));
    DONE(vsk_register(BLOCKS, HART, VSK_MACHINE_FILE, VSK_WRITE, VSK_EIDELIVERY, VSK_DELIVERY_ON), 0);
    DONE(vsk_signals(BLOCKS, HART), 0);
    DONE(vsk_register(BLOCKS, HART, VSK_MACHINE_FILE, VSK_WRITE, VSK_EIDELIVERY, wired), 0);
    put(VSK_ITHRESHOLD(HART), 3);
    DONE(vsk_signals(BLOCKS, HART), 0);
    put(VSK_IFORCE(HART), 1);
    DONE(vsk_signals(BLOCKS, HART), VSK_SIGNAL(VSK_MACHINE_FILE));
}

void test_delivery(void)
{
    topi();
    claimi();
    iforce();
    by_messages();
    signals();
}
