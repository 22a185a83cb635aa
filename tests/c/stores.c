/* What a call stores, and what it does not. The blocks that are const in a prototype are constants here,
 * which lie in memory that cannot be written: a store to one would end the program. */
#include "check.h"

/* A board after a reset, but that guest 1 of each hart delivers and has identity 5 pending and enabled. */
#define ZEROS7 0, 0, 0, 0, 0, 0, 0
#define WIRED_FILE 0x40000000, 0, 0, ZEROS7, 0, ZEROS7
#define ON_FILE 1, 0, 1u << 5, ZEROS7, 1u << 5, ZEROS7
#define OFF_FILE 0, 0, 0, ZEROS7, 0, ZEROS7
#define HART_FILES WIRED_FILE, WIRED_FILE, ON_FILE, OFF_FILE, OFF_FILE
static const uint32_t fixed_state[VSK_STATE_WORDS] = {HART_FILES, HART_FILES, HART_FILES, HART_FILES};
static const uint32_t fixed_log[VSK_LOG_WORDS] = {1, 2, 3};
#define FIXED fixed_state, VSK_STATE_WORDS, fixed_log, VSK_LOG_WORDS
#define SEND (VSK_DOMAINCFG_IE | VSK_DOMAINCFG_DM)
#define ON_FIXED_LOG state, VSK_STATE_WORDS, fixed_log, VSK_LOG_WORDS

/* The three calls that never store, done and refused. */
static void constant_state(void)
{
    for (uint64_t hart = 0; hart <= VSK_HARTS; hart++)
        for (uint64_t file = 0; file <= VSK_FILES; file++) {
            const int there = hart < VSK_HARTS && file < VSK_FILES;
            const uint64_t top = there && file == VSK_GUEST_FILE(1) ? 0x00050005 : 0;
            CHECK(vsk_top(FIXED, hart, file).value == top);
            CHECK(vsk_top(FIXED, hart, file).refusal == (there ? VSK_DONE : VSK_NO_SUCH));
            CHECK(vsk_page_read(FIXED, hart, file, 0).refusal == (there ? VSK_DONE : VSK_NO_SUCH));
            CHECK(vsk_page_read(FIXED, 0, 0, 4 * file + 2).refusal == VSK_BAD_ADDRESS);
        }
    for (uint64_t hart = 0; hart < VSK_HARTS; hart++)
        DONE(vsk_signals(FIXED, hart), VSK_SIGNAL(VSK_GUEST_FILE(1)));
    CHECK(vsk_signals(FIXED, VSK_HARTS).refusal == VSK_NO_SUCH);
    CHECK(vsk_signals(fixed_state, 649, fixed_log, VSK_LOG_WORDS, 0).refusal == VSK_STATE_LENGTH);
    CHECK(vsk_signals(fixed_state, VSK_STATE_WORDS, fixed_log, 62, 0).refusal == VSK_LOG_LENGTH);
}

/* Every call but a wire and a domain write, with a log that cannot be written. */
static void constant_log(void)
{
    uint64_t saved[VSK_SAVED_NUMBERS];
    const uint64_t guest = VSK_GUEST_FILE(1);
    DONE(vsk_reset(ON_FIXED_LOG), 0);
    DONE(vsk_page_write(ON_FIXED_LOG, 0, guest, VSK_SETEIPNUM_LE, 9), 0);
    DONE(vsk_register(ON_FIXED_LOG, 0, guest, VSK_WRITE, VSK_EIE(0), VSK_IDENTITY_BIT(9)), 0);
    DONE(vsk_claim(ON_FIXED_LOG, 0, guest), 0x00090009);
    DONE(vsk_domain_write(BLOCKS, VSK_SUPERVISOR_DOMAIN, VSK_DOMAINCFG, VSK_DOMAINCFG_DM), 0);
    for (uint64_t address = 0; address < VSK_REGION_BYTES; address += 4)
        CHECK(vsk_domain_read(ON_FIXED_LOG, VSK_MACHINE_DOMAIN, address).refusal == VSK_DONE);
    for (uint64_t access = 1; access <= VSK_ACCESSES; access++)
        DONE(vsk_move(ON_FIXED_LOG, 0, guest, 1, guest, access, saved), 0);
    DONE(vsk_register(ON_FIXED_LOG, 1, guest, VSK_READ, VSK_EIE(0), 0), VSK_IDENTITY_BIT(9));
}

/* A read of a domain stores nothing, but for a claimi. */
static void reads(void)
{
    start();
    DONE(vsk_domain_write(BLOCKS, 0, VSK_SOURCECFG(7), VSK_SOURCE_EDGE1), 0);
    DONE(vsk_domain_write(BLOCKS, 0, VSK_SETIENUM, 7), 0);
    DONE(vsk_domain_write(BLOCKS, 0, VSK_IFORCE(2), 1), 0);
    DONE(vsk_wire(BLOCKS, 7, 1), 0);
    keep();
    for (uint64_t domain = 0; domain < VSK_DOMAINS; domain++)
        for (uint64_t address = 0; address < VSK_REGION_BYTES; address += 4)
            if (address < VSK_CLAIMI(0) || address > VSK_CLAIMI(3) || address % 32 != VSK_CLAIMI(0) % 32)
                CHECK(vsk_domain_read(BLOCKS, domain, address).refusal == VSK_DONE);
    EQUAL(state_changes(), 0);
    DONE(vsk_domain_read(BLOCKS, 0, VSK_CLAIMI(2)), 0); /* clears iforce */
    EQUAL(state_changes(), 1);
    DONE(vsk_domain_read(BLOCKS, 0, VSK_CLAIMI(0)), 0x00070001);
    EQUAL(state_changes(), 2);
    EQUAL(log_changes(), 0);
}

/* The messages of a call stand first in the log, lowest source first, and the other words stay. */
static void sends(void)
{
    const uint64_t domain = VSK_SUPERVISOR_DOMAIN;
    start();
    DONE(vsk_domain_write(BLOCKS, domain, VSK_DOMAINCFG, VSK_DOMAINCFG_DM), 0);
    for (unsigned i = VSK_SOURCES; i >= 1; i--) {
        DONE(vsk_domain_write(BLOCKS, VSK_MACHINE_DOMAIN, VSK_SOURCECFG(i), VSK_SOURCE_DELEGATED), 0);
        DONE(vsk_domain_write(BLOCKS, domain, VSK_SOURCECFG(i), VSK_SOURCE_EDGE1), 0);
        DONE(vsk_domain_write(BLOCKS, domain, VSK_TARGET(i), VSK_TARGET_MESSAGE(i, i, 100 + i)), 0);
        DONE(vsk_domain_write(BLOCKS, domain, VSK_SETIENUM, i), 0);
        DONE(vsk_wire(BLOCKS, i, 1), 0);
    }
    keep();
    DONE(vsk_wire(BLOCKS, 63, 1), 0); /* the level that it has */
    EQUAL(state_changes(), 0);
    SENT(vsk_domain_write(BLOCKS, domain, VSK_DOMAINCFG, SEND), 0, VSK_SOURCES);
    for (unsigned i = 1; i <= VSK_SOURCES; i++)
        EQUAL(messages[i - 1], VSK_LOGGED(i % 4, VSK_GUEST_FILE(i % 4), 100 + i));
    keep();
    DONE(vsk_wire(BLOCKS, 5, 0), 0);
    EQUAL(log_changes(), 0);
    SENT(vsk_wire(BLOCKS, 5, 1), 0, 1);
    EQUAL(messages[0], VSK_LOGGED(1, VSK_GUEST_FILE(1), 105));
    EQUAL(log_changes(), 1);
}

void test_stores(void)
{
    constant_state();
    constant_log();
    reads();
    sends();
}
