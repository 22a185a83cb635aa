/* A packing station: a scanner that reaches a guest by messages, a door that reaches a hart directly, a scale
 * that writes to a page itself, and calls that are refused. `make example` builds it, runs it, and compares
 * what it prints with station.expected; each answer is compared here too. */
#include "varskumo.h"

#include <inttypes.h>
#include <stdio.h>

#define BLOCKS state, VSK_STATE_WORDS, messages, VSK_LOG_WORDS
#define SCANNER 5
#define DOOR 7
#define SCANNED 40
#define SCANNED_TOP (SCANNED * 65536 + SCANNED)
#define WEIGHED 9
#define OPENED (DOOR * 65536 + 3)

static uint32_t state[VSK_STATE_WORDS];
static uint32_t messages[VSK_LOG_WORDS];
static int wrong;

/* Prints an answer, and whether it is another than the expected one. */
static void is(const char *what, vsk_answer a, uint32_t refusal, uint64_t value, uint32_t count)
{
    if (a.refusal == VSK_DONE)
        printf("%-46s value 0x%08" PRIX64 ", count %" PRIu32 "\n", what, a.value, a.count);
    else
        printf("%-46s refusal %" PRIu32 "\n", what, a.refusal);
    if (a.refusal != refusal || a.value != value || a.count != count) {
        printf("WRONG: %" PRIu32 ", 0x%08" PRIX64 ", %" PRIu32 " was expected\n", refusal, value, count);
        wrong = 1;
    }
}

static void done(const char *what, vsk_answer a, uint64_t value)
{
    is(what, a, VSK_DONE, value, 0);
}

/* A write of a register of a domain that sends nothing. */
static void set(const char *what, uint64_t domain, uint64_t address, uint32_t value)
{
    done(what, vsk_domain_write(BLOCKS, domain, address, value), 0);
}

/* Source 5 belongs to the supervisor domain and is sent to guest file 1 of hart 2 as identity 40. */
static void scanner(void)
{
    const uint64_t domain = VSK_SUPERVISOR_DOMAIN, file = VSK_GUEST_FILE(1);
    set("scanner: delegate it to the supervisor", VSK_MACHINE_DOMAIN, VSK_SOURCECFG(SCANNER),
        VSK_SOURCE_DELEGATED);
    set("scanner: its domain sends messages", domain, VSK_DOMAINCFG, VSK_DOMAINCFG_IE | VSK_DOMAINCFG_DM);
    set("scanner: a rising wire counts", domain, VSK_SOURCECFG(SCANNER), VSK_SOURCE_EDGE1);
    set("scanner: to hart 2, guest 1, identity 40", domain, VSK_TARGET(SCANNER),
        VSK_TARGET_MESSAGE(2, 1, SCANNED));
    set("scanner: enable it", domain, VSK_SETIENUM, SCANNER);
    done("guest file: enable identity 40",
         vsk_register(BLOCKS, 2, file, VSK_WRITE, VSK_EIE(0), UINT64_C(1) << SCANNED), 0);
    done("guest file: delivery on",
         vsk_register(BLOCKS, 2, file, VSK_WRITE, VSK_EIDELIVERY, VSK_DELIVERY_ON), 0);

    is("scanner: its wire rises", vsk_wire(BLOCKS, SCANNER, 1), VSK_DONE, 0, 1);
    printf("  the log has %" PRIu32 ": hart %" PRIu32 ", file %" PRIu32 ", identity %" PRIu32 "\n",
           messages[0], VSK_LOGGED_HART(messages[0]), VSK_LOGGED_FILE(messages[0]),
           VSK_LOGGED_IDENTITY(messages[0]));
    done("hart 2: signals", vsk_signals(BLOCKS, 2), 1u << file);
    done("guest file: top", vsk_top(BLOCKS, 2, file), SCANNED_TOP);
    done("guest file: claim", vsk_claim(BLOCKS, 2, file), SCANNED_TOP);
    done("guest file: top after it", vsk_top(BLOCKS, 2, file), 0);
    done("hart 2: signals", vsk_signals(BLOCKS, 2), 0);
}

/* Source 7 stays in the machine domain, which signals hart 3 without a message. */
static void door(void)
{
    const uint64_t domain = VSK_MACHINE_DOMAIN;
    set("door: its domain delivers directly", domain, VSK_DOMAINCFG, VSK_DOMAINCFG_IE);
    set("door: a high wire counts", domain, VSK_SOURCECFG(DOOR), VSK_SOURCE_LEVEL1);
    set("door: to hart 3, priority 3", domain, VSK_TARGET(DOOR), VSK_TARGET_DIRECT(3, 3));
    set("door: enable it", domain, VSK_SETIENUM, DOOR);
    set("hart 3: deliver to it", domain, VSK_IDELIVERY(3), 1);

    done("door: its wire rises", vsk_wire(BLOCKS, DOOR, 1), 0);
    done("hart 3: signals", vsk_signals(BLOCKS, 3), 1u << VSK_MACHINE_FILE);
    done("hart 3: claimi", vsk_domain_read(BLOCKS, domain, VSK_CLAIMI(3)), OPENED);
    done("hart 3: claimi while the door is open", vsk_domain_read(BLOCKS, domain, VSK_CLAIMI(3)), OPENED);
    done("door: its wire falls", vsk_wire(BLOCKS, DOOR, 0), 0);
    done("hart 3: claimi", vsk_domain_read(BLOCKS, domain, VSK_CLAIMI(3)), 0);
}

/* A scale on the bus sends its own messages: it writes to the page of hart 0's supervisor file. */
static void scale(void)
{
    const uint64_t file = VSK_SUPERVISOR_FILE;
    done("scale: writes its identity", vsk_page_write(BLOCKS, 0, file, VSK_SETEIPNUM_LE, WEIGHED), 0);
    done("the page reads 0", vsk_page_read(BLOCKS, 0, file, VSK_SETEIPNUM_LE), 0);
    done("supervisor file: pending", vsk_register(BLOCKS, 0, file, VSK_READ, VSK_EIP(0), 0), 1u << WEIGHED);
}

static void refusals(void)
{
    is("wire 64", vsk_wire(BLOCKS, 64, 1), VSK_NO_SUCH, 0, 0);
    is("address 0x5000", vsk_domain_read(BLOCKS, 0, VSK_REGION_BYTES), VSK_BAD_ADDRESS, 0, 0);
    is("select 0x81", vsk_register(BLOCKS, 0, 0, VSK_READ, 0x81, 0), VSK_ILLEGAL_SELECT, 0, 0);
    is("a log of 62 words", vsk_signals(state, VSK_STATE_WORDS, messages, 62, 0), VSK_LOG_LENGTH, 0, 0);
    state[1] = 256; /* a threshold has 8 bits */
    is("a state that breaks a rule", vsk_signals(BLOCKS, 0), VSK_BROKEN_RULE, 0, 0);
}

int main(void)
{
    done("reset", vsk_reset(BLOCKS), 0);
    scanner();
    door();
    scale();
    refusals();
    return wrong;
}
