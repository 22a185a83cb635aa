/* The wired controller: domaincfg, sources, inputs, targets and genmsi, by what the header says of them. */
#include "check.h"

#define M VSK_MACHINE_DOMAIN
#define S VSK_SUPERVISOR_DOMAIN
#define SEND (VSK_DOMAINCFG_IE | VSK_DOMAINCFG_DM)

static uint64_t word(uint64_t domain, uint64_t address)
{
    const vsk_answer a = vsk_domain_read(BLOCKS, domain, address);
    CHECK(a.refusal == VSK_DONE);
    return a.value;
}

static void put(uint64_t domain, uint64_t address, uint32_t value)
{
    DONE(vsk_domain_write(BLOCKS, domain, address, value), 0);
}

/* Source i, made active in a domain; the machine domain delegates it if that is the child. */
static void active(uint64_t domain, unsigned i, uint32_t mode)
{
    if (domain == S)
        put(M, VSK_SOURCECFG(i), VSK_SOURCE_DELEGATED);
    put(domain, VSK_SOURCECFG(i), mode);
    put(domain, VSK_SETIENUM, i);
}

static void domaincfg(void)
{
    start();
    for (uint64_t domain = 0; domain < VSK_DOMAINS; domain++) {
        EQUAL(word(domain, VSK_DOMAINCFG), 0x80000000u);
        put(domain, VSK_DOMAINCFG, SEND);
        EQUAL(word(domain, VSK_DOMAINCFG), 0x80000104u);
        put(domain, VSK_DOMAINCFG, 0xFFFFFFFF);
        EQUAL(word(domain, VSK_DOMAINCFG), VSK_DOMAINCFG_FIXED | SEND);
        put(domain, VSK_SOURCECFG(0), VSK_DOMAINCFG_IE); /* source 0 has no sourcecfg: it is domaincfg */
        EQUAL(word(domain, VSK_DOMAINCFG), VSK_DOMAINCFG_FIXED | VSK_DOMAINCFG_IE);
        EQUAL(word(domain, VSK_SOURCECFG(0)), word(domain, VSK_DOMAINCFG));
    }
}

static void sourcecfg(void)
{
    start();
    put(S, VSK_SOURCECFG(9), VSK_SOURCE_EDGE1); /* not delegated */
    EQUAL(word(S, VSK_SOURCECFG(9)), 0);
    put(M, VSK_SOURCECFG(9), VSK_SOURCE_DELEGATED | VSK_SOURCE_EDGE1);
    EQUAL(word(M, VSK_SOURCECFG(9)), VSK_SOURCE_DELEGATED);
    put(S, VSK_SOURCECFG(9), VSK_SOURCE_EDGE1);
    put(M, VSK_SOURCECFG(9), VSK_SOURCE_DELEGATED); /* again */
    EQUAL(word(S, VSK_SOURCECFG(9)), VSK_SOURCE_EDGE1);
    put(S, VSK_SOURCECFG(9), 2);
    EQUAL(word(S, VSK_SOURCECFG(9)), 0);
    put(S, VSK_SOURCECFG(9), VSK_SOURCE_EDGE1);
    put(S, VSK_SOURCECFG(9), VSK_SOURCE_DELEGATED | VSK_SOURCE_EDGE1);
    EQUAL(word(S, VSK_SOURCECFG(9)), 0);
    put(S, VSK_SOURCECFG(9), 0xFFFFF800 | VSK_SOURCE_EDGE0);
    EQUAL(word(S, VSK_SOURCECFG(9)), VSK_SOURCE_EDGE0);
    put(M, VSK_SOURCECFG(9), 3); /* taken back */
    EQUAL(word(M, VSK_SOURCECFG(9)), 0);
    EQUAL(word(S, VSK_SOURCECFG(9)), 0);
    put(M, VSK_SOURCECFG(9), VSK_SOURCE_DELEGATED);
    EQUAL(word(S, VSK_SOURCECFG(9)), 0);
}

/* A write that takes the rectified value from low to high sets the pending bit, and no other write does. */
static void rises(void)
{
    static const uint32_t inverted[] = {VSK_SOURCE_EDGE0, VSK_SOURCE_LEVEL0};
    static const uint32_t straight[] = {VSK_SOURCE_EDGE1, VSK_SOURCE_LEVEL1};
    for (unsigned n = 0; n < 2; n++) {
        start();
        put(M, VSK_SOURCECFG(6), inverted[n]); /* active low, and its wire is low */
        put(M, VSK_SOURCECFG(7), straight[n]);
        DONE(vsk_wire(BLOCKS, 8, 1), 0);
        put(M, VSK_SOURCECFG(8), inverted[n]); /* its wire was set before */
        EQUAL(word(M, VSK_SETIP(0)), VSK_SOURCE_BIT(6));
        put(M, VSK_SOURCECFG(6), VSK_SOURCE_DETACHED);
        put(M, VSK_CLRIPNUM, 6);
        EQUAL(word(M, VSK_SETIP(0)), 0);
        put(M, VSK_SOURCECFG(6), inverted[n]); /* detached counts as low */
        EQUAL(word(M, VSK_SETIP(0)), VSK_SOURCE_BIT(6));
    }
    put(M, VSK_SOURCECFG(6), VSK_SOURCE_EDGE0);
    put(M, VSK_CLRIPNUM, 6);
    put(M, VSK_SOURCECFG(6), VSK_SOURCE_EDGE0); /* the same once more: it stays high */
    EQUAL(word(M, VSK_SETIP(0)), 0);
    put(M, VSK_DOMAINCFG, SEND);
    put(M, VSK_SETIENUM, 8);
    SENT(vsk_domain_write(BLOCKS, M, VSK_SOURCECFG(8), VSK_SOURCE_EDGE1), 0, 1); /* sent at once */
}

/* in_clrip reads rectified values: what the mode makes of the wire. */
static void inputs(void)
{
    static const struct {
        uint32_t mode, with_low, with_high;
    } modes[] = {
        {VSK_SOURCE_INACTIVE, 0, 0}, {VSK_SOURCE_DETACHED, 0, 0}, {VSK_SOURCE_DELEGATED, 0, 0},
        {VSK_SOURCE_EDGE1, 0, 1},    {VSK_SOURCE_EDGE0, 1, 0},    {VSK_SOURCE_LEVEL1, 0, 1},
        {VSK_SOURCE_LEVEL0, 1, 0},
    };
    for (unsigned n = 0; n < sizeof modes / sizeof *modes; n++)
        for (unsigned i = 1; i <= VSK_SOURCES; i += 31) { /* 1, 32 and 63: both words, and their ends */
            const uint32_t bit = VSK_SOURCE_BIT(i), k = VSK_SOURCE_WORD(i);
            start();
            put(M, VSK_SOURCECFG(i), modes[n].mode);
            EQUAL(word(M, VSK_IN_CLRIP(k)), modes[n].with_low ? bit : 0); /* at once, by the wire that there was */
            DONE(vsk_wire(BLOCKS, i, 1), 0);
            EQUAL(word(M, VSK_IN_CLRIP(k)), modes[n].with_high ? bit : 0);
            EQUAL(word(M, VSK_IN_CLRIP(1 - k)), 0);
            EQUAL(word(S, VSK_IN_CLRIP(k)), 0);
        }
}

/* Each domain reads by its own modes: a delegated source has a value in the child alone. */
static void inputs_of_both(void)
{
    start();
    put(M, VSK_SOURCECFG(3), VSK_SOURCE_DELEGATED);
    put(S, VSK_SOURCECFG(3), VSK_SOURCE_LEVEL0);
    put(M, VSK_SOURCECFG(4), VSK_SOURCE_EDGE0);
    EQUAL(word(M, VSK_IN_CLRIP(0)), VSK_SOURCE_BIT(4));
    EQUAL(word(S, VSK_IN_CLRIP(0)), VSK_SOURCE_BIT(3));
    put(M, VSK_DOMAINCFG, VSK_DOMAINCFG_DM); /* 4, as Edge1 is; source 0 is none all the same */
    EQUAL(word(M, VSK_IN_CLRIP(0)), VSK_SOURCE_BIT(4));
    DONE(vsk_wire(BLOCKS, 3, 1), 0);
    EQUAL(word(S, VSK_IN_CLRIP(0)), 0);
}

/* What a handler of 4.9.2 relies on, with an active-low sensor: by messages its bit tells whether it is still
 * asserted, after the pending bit went with the message; directly it is the pending bit. */
static void still_asserted(void)
{
    const unsigned sensor = 40;
    start();
    put(M, VSK_DOMAINCFG, SEND);
    DONE(vsk_wire(BLOCKS, sensor, 1), 0); /* at rest */
    active(M, sensor, VSK_SOURCE_LEVEL0);
    SENT(vsk_wire(BLOCKS, sensor, 0), 0, 1);
    EQUAL(word(M, VSK_SETIP(1)), 0);
    EQUAL(word(M, VSK_IN_CLRIP(1)), VSK_SOURCE_BIT(sensor));
    DONE(vsk_wire(BLOCKS, sensor, 1), 0);
    EQUAL(word(M, VSK_IN_CLRIP(1)), 0);
    SENT(vsk_wire(BLOCKS, sensor, 0), 0, 1); /* the next one is sent anew */
    put(M, VSK_DOMAINCFG, 0);
    for (unsigned level = 0; level < 2; level++) {
        DONE(vsk_wire(BLOCKS, sensor, level), 0);
        EQUAL(word(M, VSK_IN_CLRIP(1)), level ? 0 : VSK_SOURCE_BIT(sensor));
        EQUAL(word(M, VSK_SETIP(1)), word(M, VSK_IN_CLRIP(1)));
    }
}

static void numbers(void)
{
    start();
    active(M, 5, VSK_SOURCE_EDGE1);
    put(M, VSK_SETIPNUM_BE, 5);
    EQUAL(word(M, VSK_SETIP(0)), 0);
    put(M, VSK_SETIPNUM_BE, 0x05000000);
    EQUAL(word(M, VSK_SETIP(0)), VSK_SOURCE_BIT(5));
    put(M, VSK_CLRIPNUM, 5);
    EQUAL(word(M, VSK_SETIP(0)), 0);
    put(M, VSK_SETIPNUM_LE, 5);
    put(M, VSK_IN_CLRIP(0), VSK_SOURCE_BIT(5));
    EQUAL(word(M, VSK_SETIP(0)), 0);
    EQUAL(word(M, VSK_SETIE(0)), VSK_SOURCE_BIT(5));
    put(M, VSK_CLRIENUM, 5);
    EQUAL(word(M, VSK_SETIE(0)), 0);
    put(M, VSK_SETIE(0), 0xFFFFFFFF);
    EQUAL(word(M, VSK_SETIE(0)), VSK_SOURCE_BIT(5));
    put(M, VSK_CLRIE(0), VSK_SOURCE_BIT(5));
    EQUAL(word(M, VSK_SETIE(0)), 0);
    put(M, VSK_SETIENUM, 5);
    EQUAL(word(M, VSK_SETIPNUM) | word(M, VSK_SETIPNUM_LE) | word(M, VSK_SETIPNUM_BE), 0);
    EQUAL(word(M, VSK_CLRIPNUM) | word(M, VSK_SETIENUM) | word(M, VSK_CLRIENUM) | word(M, VSK_CLRIE(0)), 0);
}

/* With IE, a change of DM sends at once what is pending and enabled, with identity 0: to the machine file of
 * hart 0, or to its supervisor file. */
static void changed_with_ie(uint64_t domain, uint32_t logged)
{
    start();
    active(domain, 6, VSK_SOURCE_DETACHED);
    put(domain, VSK_TARGET(6), VSK_TARGET_DIRECT(2, 9));
    put(domain, VSK_SETIPNUM, 6);
    keep();
    SENT(vsk_domain_write(BLOCKS, domain, VSK_DOMAINCFG, SEND), 0, 1);
    EQUAL(messages[0], logged);
    EQUAL(VSK_LOGGED_IDENTITY(messages[0]), 0);
    EQUAL(log_changes(), 1);
    EQUAL(word(domain, VSK_SETIP(0)), 0);
    EQUAL(word(domain, VSK_SETIE(0)), VSK_SOURCE_BIT(6));
    EQUAL(word(domain, VSK_TARGET(6)), 0);
    for (uint64_t file = 0; file < VSK_FILES; file++)
        DONE(vsk_register(BLOCKS, 0, file, VSK_READ, VSK_EIP(0), 0), 0);
    put(domain, VSK_DOMAINCFG, VSK_DOMAINCFG_DM);
    put(domain, VSK_SETIPNUM, 6);
    put(domain, VSK_DOMAINCFG, VSK_DOMAINCFG_IE); /* and to direct delivery: hart 0, priority 1 */
    EQUAL(word(domain, VSK_TARGET(6)), VSK_TARGET_DIRECT(0, 1));
    EQUAL(word(domain, VSK_TOPI(0)), 0x00060001);
}

/* A change of DM restarts every target and genmsi, and is no rise of a wire. */
static void changed_alone(void)
{
    start();
    for (unsigned i = 1; i <= VSK_SOURCES; i++) {
        active(M, i, VSK_SOURCE_EDGE1);
        put(M, VSK_TARGET(i), VSK_TARGET_DIRECT(i, i));
        DONE(vsk_wire(BLOCKS, i, 1), 0);
        put(M, VSK_CLRIPNUM, i);
    }
    put(M, VSK_DOMAINCFG, VSK_DOMAINCFG_DM);
    for (unsigned i = 1; i <= VSK_SOURCES; i++) {
        EQUAL(word(M, VSK_TARGET(i)), 0);
        put(M, VSK_TARGET(i), VSK_TARGET_MESSAGE(i, 0, i));
    }
    put(M, VSK_DOMAINCFG, VSK_DOMAINCFG_DM); /* the same DM */
    EQUAL(word(M, VSK_TARGET(63)), VSK_TARGET_MESSAGE(63, 0, 63));
    put(M, VSK_DOMAINCFG, 0);
    for (unsigned i = 1; i <= VSK_SOURCES; i++)
        EQUAL(word(M, VSK_TARGET(i)), VSK_TARGET_DIRECT(0, 1));
    EQUAL(word(M, VSK_SETIP(0)) | word(M, VSK_SETIP(1)), 0);
    EQUAL(word(M, VSK_SETIE(0)), 0xFFFFFFFE);
    EQUAL(word(M, VSK_SETIE(1)), 0xFFFFFFFF);
}

/* Without IE nothing goes out before the targets are written. */
static void changed_without_ie(void)
{
    start();
    active(S, 6, VSK_SOURCE_DETACHED);
    put(S, VSK_SETIPNUM, 6);
    put(S, VSK_DOMAINCFG, VSK_DOMAINCFG_DM);
    put(S, VSK_TARGET(6), VSK_TARGET_MESSAGE(2, 1, 40));
    EQUAL(word(S, VSK_TARGET(6)), 0x00081028);
    SENT(vsk_domain_write(BLOCKS, S, VSK_DOMAINCFG, SEND), 0, 1);
    EQUAL(messages[0], 4648);
    DONE(vsk_register(BLOCKS, 2, VSK_GUEST_FILE(1), VSK_READ, VSK_EIP(0), 0), VSK_IDENTITY_BIT(40));
}

/* A number that is too large counts by its low bits in the registers as well. */
static void targets(void)
{
    start();
    put(S, VSK_DOMAINCFG, VSK_DOMAINCFG_DM);
    active(S, 8, VSK_SOURCE_EDGE1);
    put(S, VSK_TARGET(8), 5u << 18 | 4u << 12 | 256u | 7u);
    EQUAL(word(S, VSK_TARGET(8)), VSK_TARGET_MESSAGE(1, 0, 7));
    put(S, VSK_TARGET(9), VSK_TARGET_MESSAGE(1, 0, 7)); /* inactive */
    EQUAL(word(S, VSK_TARGET(9)), 0);
    active(M, 10, VSK_SOURCE_EDGE1);
    EQUAL(word(M, VSK_TARGET(10)), 1);
    put(M, VSK_TARGET(10), VSK_TARGET_DIRECT(5, 0));
    EQUAL(word(M, VSK_TARGET(10)), VSK_TARGET_DIRECT(1, 1));
    put(M, VSK_TARGET(10), VSK_TARGET_MESSAGE(3, 2, 9)); /* it has no guests */
    EQUAL(word(M, VSK_TARGET(10)), VSK_TARGET_DIRECT(3, 9));
    put(S, VSK_SOURCECFG(8), VSK_SOURCE_INACTIVE);
    put(S, VSK_SOURCECFG(8), VSK_SOURCE_EDGE1);
    EQUAL(word(S, VSK_TARGET(8)), 0);
}

/* Each domain in each mode keeps its own fields of a target. */
static void kept_fields(void)
{
    start();
    active(M, 10, VSK_SOURCE_EDGE1);
    active(S, 11, VSK_SOURCE_EDGE1);
    put(S, VSK_TARGET(11), VSK_TARGET_MESSAGE(2, 3, 0)); /* direct: no guest, and a priority */
    EQUAL(word(S, VSK_TARGET(11)), VSK_TARGET_DIRECT(2, 1));
    put(M, VSK_DOMAINCFG, VSK_DOMAINCFG_DM);
    put(S, VSK_DOMAINCFG, VSK_DOMAINCFG_DM);
    put(M, VSK_TARGET(10), VSK_TARGET_MESSAGE(2, 3, 0)); /* by messages: no guest, identity 0 stays */
    EQUAL(word(M, VSK_TARGET(10)), VSK_TARGET_MESSAGE(2, 0, 0));
    put(S, VSK_TARGET(11), VSK_TARGET_MESSAGE(2, 3, 0));
    EQUAL(word(S, VSK_TARGET(11)), VSK_TARGET_MESSAGE(2, 3, 0));
    put(M, VSK_TARGET(10), 0xFFFFFFFF);
    put(S, VSK_TARGET(11), 0xFFFFFFFF);
    EQUAL(word(M, VSK_TARGET(10)), VSK_TARGET_MESSAGE(3, 0, 255));
    EQUAL(word(S, VSK_TARGET(11)), VSK_TARGET_MESSAGE(3, 3, 255));
}

static void genmsi(void)
{
    start();
    put(M, VSK_GENMSI, VSK_GENMSI_MESSAGE(2, 77)); /* direct */
    EQUAL(word(M, VSK_GENMSI), 0);
    put(M, VSK_DOMAINCFG, VSK_DOMAINCFG_DM);
    put(S, VSK_DOMAINCFG, VSK_DOMAINCFG_DM);
    SENT(vsk_domain_write(BLOCKS, M, VSK_TARGET(0), VSK_GENMSI_MESSAGE(2, 77)), 0, 1); /* no target[0] */
    EQUAL(messages[0], VSK_LOGGED(2, VSK_MACHINE_FILE, 77));
    EQUAL(word(M, VSK_GENMSI), VSK_GENMSI_MESSAGE(2, 77));
    EQUAL(word(M, VSK_TARGET(0)), VSK_GENMSI_MESSAGE(2, 77));
    SENT(vsk_domain_write(BLOCKS, S, VSK_GENMSI, 5u << 18 | 3u << 12 | 77u), 0, 1);
    EQUAL(messages[0], VSK_LOGGED(1, VSK_SUPERVISOR_FILE, 77));
    EQUAL(word(S, VSK_GENMSI), VSK_GENMSI_MESSAGE(5, 77));
    put(M, VSK_DOMAINCFG, 0);
    EQUAL(word(M, VSK_GENMSI), 0);
}

/* A word with no name reads 0 and stores nothing, those of sources and harts that are not there included. */
static void unnamed(void)
{
    start();
    keep();
    put(M, VSK_SOURCECFG(64), 4);
    put(M, VSK_TARGET(64), 4);
    put(M, VSK_IDELIVERY(4), 1);
    put(M, 0x1BC0, 0xFFFFFFFF);
    put(M, VSK_SETIE(2), 0xFFFFFFFF);
    put(M, VSK_REGION_BYTES - 4, 1);
    EQUAL(word(M, VSK_SOURCECFG(64)) | word(M, VSK_TARGET(64)) | word(M, VSK_IDELIVERY(4)), 0);
    EQUAL(word(M, 0x1BC0) | word(M, VSK_SETIE(2)) | word(M, VSK_REGION_BYTES - 4), 0);
    EQUAL(state_changes(), 0);
}

void test_wired(void)
{
    domaincfg();
    sourcecfg();
    rises();
    inputs();
    inputs_of_both();
    still_asserted();
    numbers();
    changed_with_ie(M, 0);
    changed_with_ie(S, VSK_LOGGED(0, VSK_SUPERVISOR_FILE, 0));
    changed_alone();
    changed_without_ie();
    targets();
    kept_fields();
    genmsi();
    unnamed();
}
