/* The message files: pages, registers, tops, claims and signals, by what the header says of them. */
#include "check.h"

/* Most of this is on guest file 2 of hart 1. */
#define HART 1
#define FILE_OF_GUEST VSK_GUEST_FILE(2)
#define HERE BLOCKS, HART, FILE_OF_GUEST

static uint64_t eip(unsigned j)
{
    return vsk_register(HERE, VSK_READ, VSK_EIP(j), 0).value;
}

/* A page takes an identity as it is at offset 0 and with its bytes reversed at offset 4. */
static void pages(void)
{
    start();
    keep();
    DONE(vsk_page_write(HERE, VSK_SETEIPNUM_LE, 5), 0);
    EQUAL(eip(0), VSK_IDENTITY_BIT(5));
    EQUAL(state_changes(), 1);
    DONE(vsk_page_write(HERE, VSK_SETEIPNUM_BE, 0x06000000), 0);
    EQUAL(eip(0), VSK_IDENTITY_BIT(5) | VSK_IDENTITY_BIT(6));
    DONE(vsk_page_write(HERE, VSK_SETEIPNUM_LE, VSK_IDENTITIES), 0);
    EQUAL(eip(VSK_IDENTITY_WORD(255)), VSK_IDENTITY_BIT(255));
    EQUAL(log_changes(), 0);
    keep();
    DONE(vsk_page_write(HERE, VSK_SETEIPNUM_LE, 0), 0);
    DONE(vsk_page_write(HERE, VSK_SETEIPNUM_LE, 256), 0);
    DONE(vsk_page_write(HERE, VSK_SETEIPNUM_LE, 0x107), 0);
    DONE(vsk_page_write(HERE, VSK_SETEIPNUM_LE, 0x05000000), 0);
    DONE(vsk_page_write(HERE, VSK_SETEIPNUM_BE, 7), 0);
    DONE(vsk_page_write(HERE, 8, 7), 0);
    DONE(vsk_page_write(HERE, VSK_PAGE_BYTES - 4, 7), 0);
    for (uint64_t offset = 0; offset < VSK_PAGE_BYTES; offset += 4)
        DONE(vsk_page_read(HERE, offset), 0);
    EQUAL(state_changes(), 0);
}

/* T5: 0x05000000 at offset 4 is identity 5. */
static void reversed(void)
{
    start();
    DONE(vsk_page_write(HERE, VSK_SETEIPNUM_BE, 0x05000000), 0);
    EQUAL(eip(0), VSK_IDENTITY_BIT(5));
}

/* After a reset files 0 and 1 follow their domains, and setting bits does not switch them on. */
static void deliveries(void)
{
    start();
    for (uint64_t file = 0; file < 2; file++) {
        DONE(vsk_register(BLOCKS, HART, file, VSK_SET, VSK_EIDELIVERY, VSK_DELIVERY_ON), VSK_DELIVERY_WIRED);
        DONE(vsk_register(BLOCKS, HART, file, VSK_READ, VSK_EIDELIVERY, 0), VSK_DELIVERY_WIRED);
        DONE(vsk_register(BLOCKS, HART, file, VSK_WRITE, VSK_EIDELIVERY, VSK_DELIVERY_ON), 0);
        DONE(vsk_register(BLOCKS, HART, file, VSK_READ, VSK_EIDELIVERY, 0), VSK_DELIVERY_ON);
        DONE(vsk_register(BLOCKS, HART, file, VSK_CLEAR, VSK_EIDELIVERY, VSK_DELIVERY_ON), VSK_DELIVERY_ON);
        DONE(vsk_register(BLOCKS, HART, file, VSK_WRITE, VSK_EIDELIVERY, VSK_DELIVERY_WIRED), 0);
        DONE(vsk_register(BLOCKS, HART, file, VSK_READ, VSK_EIDELIVERY, 0), VSK_DELIVERY_WIRED);
    }
    DONE(vsk_register(HERE, VSK_SET, VSK_EIDELIVERY, VSK_DELIVERY_ON), VSK_DELIVERY_OFF);
    DONE(vsk_register(HERE, VSK_WRITE, VSK_EIDELIVERY, VSK_DELIVERY_WIRED), 0);
    DONE(vsk_register(HERE, VSK_WRITE, VSK_EIDELIVERY, UINT64_C(0x100000000)), 0);
    DONE(vsk_register(HERE, VSK_READ, VSK_EIDELIVERY, 0), VSK_DELIVERY_ON);
}

static void registers(void)
{
    start();
    DONE(vsk_register(HERE, VSK_WRITE, VSK_EITHRESHOLD, 0x107), 0);
    DONE(vsk_register(HERE, VSK_READ, VSK_EITHRESHOLD, 0xFF), 7);
    DONE(vsk_register(HERE, VSK_WRITE, VSK_EIE(0), ~UINT64_C(0)), 0);
    DONE(vsk_register(HERE, VSK_CLEAR, VSK_EIE(0), VSK_IDENTITY_BIT(63)), ~UINT64_C(1));
    DONE(vsk_register(HERE, VSK_SET, VSK_EIE(0), 0), ~UINT64_C(1) & ~VSK_IDENTITY_BIT(63));
    DONE(vsk_register(HERE, VSK_SET, VSK_EIP(3), VSK_IDENTITY_BIT(255)), 0);
    DONE(vsk_register(HERE, VSK_READ, VSK_EIP(3), 0), VSK_IDENTITY_BIT(255));
    keep();
    DONE(vsk_register(HERE, VSK_READ, VSK_EIE(0), ~UINT64_C(0)), ~UINT64_C(1) & ~VSK_IDENTITY_BIT(63));
    for (uint64_t select = 0x70; select <= 0xFF; select += select < 0x80 ? 1 : 2)
        CHECK(vsk_register(HERE, VSK_READ, select, 1).refusal == VSK_DONE);
    DONE(vsk_register(HERE, VSK_SET, 0x71, 1), 0);
    DONE(vsk_register(HERE, VSK_WRITE, 0x73, 1), 0);
    DONE(vsk_register(HERE, VSK_WRITE, VSK_EIP(4), 1), 0);
    DONE(vsk_register(HERE, VSK_READ, VSK_EIP(4), 0), 0);
    DONE(vsk_register(HERE, VSK_READ, VSK_EIE(31), 0), 0);
    EQUAL(state_changes(), 0);
}

/* The top is the lowest that qualifies, whatever the delivery; threshold P shuts out P. */
static void tops(void)
{
    start();
    DONE(vsk_register(HERE, VSK_WRITE, VSK_EIP(0), VSK_IDENTITY_BIT(5) | VSK_IDENTITY_BIT(9)), 0);
    DONE(vsk_top(HERE), 0);
    DONE(vsk_register(HERE, VSK_WRITE, VSK_EIE(0), VSK_IDENTITY_BIT(5) | VSK_IDENTITY_BIT(9)), 0);
    DONE(vsk_top(HERE), 0x00050005);
    EQUAL(VSK_TOP_IDENTITY(vsk_top(HERE).value), 5);
    EQUAL(VSK_TOP_PRIORITY(vsk_top(HERE).value), 5);
    DONE(vsk_register(HERE, VSK_WRITE, VSK_EITHRESHOLD, 5), 0);
    DONE(vsk_top(HERE), 0);
    DONE(vsk_register(HERE, VSK_WRITE, VSK_EITHRESHOLD, 6), 0);
    DONE(vsk_top(HERE), 0x00050005);
}

/* A claim takes the top and that bit alone; with top 0 it changes no word. */
static void claims(void)
{
    tops();
    keep();
    DONE(vsk_claim(HERE), 0x00050005);
    EQUAL(state_changes(), 1);
    EQUAL(eip(0), VSK_IDENTITY_BIT(9));
    keep();
    DONE(vsk_claim(HERE), 0);
    DONE(vsk_claim(BLOCKS, 0, VSK_MACHINE_FILE), 0);
    EQUAL(state_changes(), 0);
    EQUAL(log_changes(), 0);
}

static void signals(void)
{
    tops();
    DONE(vsk_signals(BLOCKS, HART), 0);
    DONE(vsk_register(HERE, VSK_WRITE, VSK_EIDELIVERY, VSK_DELIVERY_ON), 0);
    DONE(vsk_signals(BLOCKS, HART), VSK_SIGNAL(FILE_OF_GUEST));
    DONE(vsk_signals(BLOCKS, HART + 1), 0);
    DONE(vsk_claim(HERE), 0x00050005);
    DONE(vsk_signals(BLOCKS, HART), 0);
}

void test_files(void)
{
    pages();
    reversed();
    deliveries();
    registers();
    tops();
    claims();
    signals();
}
