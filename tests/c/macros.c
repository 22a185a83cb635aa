/* The macros of the header: their values, also of too large numbers and of arguments of several types. */
/* A program's own macros, which the header must not stumble over. */
#define none 0
#define read_only 0
#define write_only 0
#define read_write 0
#define nonnull 0
#include "check.h"

/* ---- constants, and macros in constant expressions ---- */

ASSERTED(version, VSK_VERSION_MAJOR == 2 && VSK_VERSION_MINOR == 0 && VSK_VERSION_PATCH == 0);
ASSERTED(lengths, VSK_STATE_WORDS == 650 && VSK_LOG_WORDS == 63 && VSK_SAVED_NUMBERS == 10);
ASSERTED(harts, VSK_HARTS == 4 && VSK_FILES == 5 && VSK_GUESTS == 3 && VSK_DOMAINS == 2);
ASSERTED(numbers, VSK_IDENTITIES == 255 && VSK_SOURCES == 63 && VSK_ACCESSES == 89);
ASSERTED(files, VSK_MACHINE_FILE == 0 && VSK_SUPERVISOR_FILE == 1 && VSK_GUEST_FILE(VSK_GUESTS) == 4);
ASSERTED(last_file, VSK_GUEST_FILE(VSK_GUESTS) + 1 == VSK_FILES);
ASSERTED(domains, VSK_MACHINE_DOMAIN == 0 && VSK_SUPERVISOR_DOMAIN == 1);
ASSERTED(kinds, VSK_READ == 0 && VSK_WRITE == 1 && VSK_SET == 2 && VSK_CLEAR == 3);
ASSERTED(deliveries, VSK_DELIVERY_OFF == 0 && VSK_DELIVERY_ON == 1 && VSK_DELIVERY_WIRED == 0x40000000);
ASSERTED(domaincfg, (VSK_DOMAINCFG_FIXED | VSK_DOMAINCFG_IE | VSK_DOMAINCFG_DM) == 0x80000104u);
ASSERTED(modes, VSK_SOURCE_INACTIVE == 0 && VSK_SOURCE_DETACHED == 1 && VSK_SOURCE_DELEGATED == 1024);
ASSERTED(edges, VSK_SOURCE_EDGE1 == 4 && VSK_SOURCE_EDGE0 == 5);
ASSERTED(levels, VSK_SOURCE_LEVEL1 == 6 && VSK_SOURCE_LEVEL0 == 7);
ASSERTED(sizes, VSK_REGION_BYTES == 0x5000 && VSK_PAGE_BYTES == 4096);
ASSERTED(page, VSK_SETEIPNUM_LE == 0 && VSK_SETEIPNUM_BE == 4);
ASSERTED(selects, VSK_EIDELIVERY == 0x70 && VSK_EITHRESHOLD == 0x72);
ASSERTED(plain_addresses, VSK_DOMAINCFG == 0 && VSK_GENMSI == 0x3000 && VSK_SETIPNUM == 0x1CDC);
ASSERTED(clear_addresses, VSK_CLRIPNUM == 0x1DDC && VSK_SETIENUM == 0x1EDC && VSK_CLRIENUM == 0x1FDC);
ASSERTED(order_addresses, VSK_SETIPNUM_LE == 0x2000 && VSK_SETIPNUM_BE == 0x2004);
ASSERTED(source_zero, VSK_SOURCECFG(0) == VSK_DOMAINCFG && VSK_TARGET(0) == VSK_GENMSI);
ASSERTED(t8, VSK_TARGET_MESSAGE(2, 1, 40) == 0x00081028u && VSK_LOGGED(2, VSK_GUEST_FILE(1), 40) == 4648u);
ASSERTED(t10, VSK_CLAIMI(3) == 0x407C);
ASSERTED(answer_size, sizeof(vsk_answer) == 16);
ASSERTED(answer_count, offsetof(vsk_answer, count) == 8 && offsetof(vsk_answer, refusal) == 12);
ASSERTED(refusals, VSK_DONE == 0 && VSK_STATE_LENGTH == 1 && VSK_LOG_LENGTH == 2 && VSK_BROKEN_RULE == 3);
ASSERTED(more_refusals, VSK_NO_SUCH == 4 && VSK_BAD_ADDRESS == 5 && VSK_ILLEGAL_SELECT == 6);

/* ---- arguments of every type; a macro in an expression, and an expression in a macro ---- */

#define ONE(M, n, wanted)                                      \
    do {                                                       \
        const int i = n;                                       \
        const unsigned u = n;                                  \
        const uint64_t w = n;                                  \
        EQUAL(M(i), wanted);                                   \
        EQUAL(M(u), wanted);                                   \
        EQUAL(M(w), wanted);                                   \
        EQUAL(M(checked ? i : -1), wanted);                    \
        EQUAL(UINT64_C(2) * M(i) * 2, UINT64_C(4) * (wanted)); \
    } while (0)

static int checked = 1;

static void addresses(void)
{
    ONE(VSK_GUEST_FILE, 3, 4);
    ONE(VSK_SOURCECFG, 63, 0xFC);
    ONE(VSK_SETIP, 1, 0x1C04);
    ONE(VSK_IN_CLRIP, 1, 0x1D04);
    ONE(VSK_SETIE, 1, 0x1E04);
    ONE(VSK_CLRIE, 1, 0x1F04);
    ONE(VSK_TARGET, 63, 0x30FC);
    ONE(VSK_IDELIVERY, 3, 0x4060);
    ONE(VSK_IFORCE, 3, 0x4064);
    ONE(VSK_ITHRESHOLD, 3, 0x4068);
    ONE(VSK_TOPI, 3, 0x4078);
    ONE(VSK_CLAIMI, 3, 0x407C);
    ONE(VSK_EIP, 3, 0x86);
    ONE(VSK_EIE, 3, 0xC6);
}

static void parts(void)
{
    ONE(VSK_LOGGED_HART, 0x7FFFF000, 2);
    ONE(VSK_LOGGED_HART, 4648, 2);
    ONE(VSK_LOGGED_FILE, 4648, 2);
    ONE(VSK_LOGGED_IDENTITY, 4648, 40);
    /* M-102 of paper 02 adds its answer above these fields */
    ONE(VSK_LOGGED_HART, 70184, 2);
    ONE(VSK_LOGGED_FILE, 70184, 2);
    ONE(VSK_LOGGED_IDENTITY, 70184, 40);
    ONE(VSK_TARGET_HART, 0x7FF81028, 2);
    ONE(VSK_TARGET_GUEST, 0x7FF81028, 1);
    ONE(VSK_TARGET_IDENTITY, 0x7FF81F28, 40);
    ONE(VSK_TARGET_PRIORITY, 0x7FF81F28, 40);
    ONE(VSK_GENMSI_HART, 0x7FF81028, 2);
    ONE(VSK_GENMSI_IDENTITY, 0x7FF81F28, 40);
    ONE(VSK_TOP_IDENTITY, 0x7F050006, 5);
    ONE(VSK_TOP_PRIORITY, 0x7F050605, 5);
    ONE(VSK_TOPI_SOURCE, 0x7F470003, 7);
    ONE(VSK_TOPI_PRIORITY, 0x00070F03, 3);
    ONE(VSK_CLAIMI_SOURCE, 0x7F470003, 7);
    ONE(VSK_CLAIMI_PRIORITY, 0x00070F03, 3);
}

static void places(void)
{
    ONE(VSK_SOURCE_WORD, 31, 0);
    ONE(VSK_SOURCE_WORD, 32, 1);
    ONE(VSK_SOURCE_BIT, 31, 0x80000000u);
    ONE(VSK_SOURCE_BIT, 32, 1);
    ONE(VSK_IDENTITY_WORD, 63, 0);
    ONE(VSK_IDENTITY_WORD, 255, 3);
    ONE(VSK_IDENTITY_BIT, 63, UINT64_C(1) << 63);
    ONE(VSK_IDENTITY_BIT, 64, 1);
    ONE(VSK_SIGNAL, 0, 1);
    ONE(VSK_SIGNAL, 4, 16);
    ONE(VSK_HGEIP, 31, 14);
    ONE(VSK_HGEIP, 4, 2);
    ONE(VSK_HGEIP, 3, 0);
}

/* ---- words that are made and taken apart again ---- */

static void logged_words(void)
{
    for (int hart = 0; hart < VSK_HARTS; hart++)
        for (unsigned file = 0; file < VSK_FILES; file++)
            for (uint64_t identity = 0; identity <= VSK_IDENTITIES; identity += 5) {
                const uint32_t word = VSK_LOGGED(hart, file, identity);
                EQUAL(word, (uint64_t)hart * 2048 + file * 256 + identity);
                EQUAL(VSK_LOGGED_HART(word), (uint64_t)hart);
                EQUAL(VSK_LOGGED_FILE(word), file);
                EQUAL(VSK_LOGGED_IDENTITY(word), identity);
            }
    EQUAL(VSK_LOGGED(5, 9, 257), VSK_LOGGED(1, 1, 1));
}

static void target_words(void)
{
    for (int hart = 0; hart < VSK_HARTS; hart++)
        for (unsigned guest = 0; guest <= VSK_GUESTS; guest++) {
            const uint64_t identity = 10 + 60 * guest;
            const uint32_t word = VSK_TARGET_MESSAGE(hart, guest, identity);
            EQUAL(VSK_TARGET_HART(word), (uint64_t)hart);
            EQUAL(VSK_TARGET_GUEST(word), guest);
            EQUAL(VSK_TARGET_IDENTITY(word), identity);
            EQUAL(VSK_TARGET_PRIORITY(VSK_TARGET_DIRECT(hart, identity)), identity);
            EQUAL(VSK_TARGET_HART(VSK_TARGET_DIRECT(hart, identity)), (uint64_t)hart);
            EQUAL(VSK_GENMSI_HART(VSK_GENMSI_MESSAGE(hart, identity)), (uint64_t)hart);
            EQUAL(VSK_GENMSI_IDENTITY(VSK_GENMSI_MESSAGE(hart, identity)), identity);
        }
}

/* Too large a number counts by its low bits, and spoils no other field. */
static void too_large(void)
{
    const int five = 5;
    EQUAL(VSK_TARGET_MESSAGE(five, 0, 1), VSK_TARGET_MESSAGE(1, 0, 1));
    EQUAL(VSK_TARGET_MESSAGE(0, 4u, 1), VSK_TARGET_MESSAGE(0, 0, 1));
    EQUAL(VSK_TARGET_MESSAGE(0, 0, UINT64_C(256)), 0);
    EQUAL(VSK_TARGET_MESSAGE(0, 0, -1), 255);
    EQUAL(VSK_TARGET_DIRECT(five, 0x40003), VSK_TARGET_DIRECT(1, 3));
    EQUAL(VSK_GENMSI_MESSAGE(five, 0x1028), VSK_GENMSI_MESSAGE(1, 40));
    EQUAL(VSK_TARGET_HART(VSK_TARGET_MESSAGE(five, 0, 1)), 1);
    EQUAL(VSK_SOURCE_WORD(65) + VSK_SOURCE_BIT(65), VSK_SOURCE_WORD(1) + VSK_SOURCE_BIT(1));
    EQUAL(VSK_IDENTITY_WORD(257) + VSK_IDENTITY_BIT(257), VSK_IDENTITY_WORD(1) + VSK_IDENTITY_BIT(1));
    EQUAL(VSK_SIGNAL(8), VSK_SIGNAL(VSK_MACHINE_FILE));
    EQUAL(VSK_HGEIP(UINT64_MAX), 14);
}

#define AS_TEXT(number) #number
#define VERSION_OF(major, minor, patch) AS_TEXT(major) "." AS_TEXT(minor) "." AS_TEXT(patch)

static void names(void)
{
    TEXT(VSK_VERSION, VERSION_OF(VSK_VERSION_MAJOR, VSK_VERSION_MINOR, VSK_VERSION_PATCH));
    TEXT(vsk_refusal_name(VSK_DONE), "VSK_DONE");
    TEXT(vsk_refusal_name(1), "VSK_STATE_LENGTH");
    TEXT(vsk_refusal_name(2), "VSK_LOG_LENGTH");
    TEXT(vsk_refusal_name(3), "VSK_BROKEN_RULE");
    TEXT(vsk_refusal_name(4), "VSK_NO_SUCH");
    TEXT(vsk_refusal_name(5), "VSK_BAD_ADDRESS");
    TEXT(vsk_refusal_name(VSK_ILLEGAL_SELECT), "VSK_ILLEGAL_SELECT");
    TEXT(vsk_refusal_name(7), "no refusal has this number");
}

void test_macros(void)
{
    addresses();
    parts();
    places();
    logged_words();
    target_words();
    too_large();
    names();
}
