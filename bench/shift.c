/* A mixed shift: events, each at an exit of some hart, after which the monitor reads that hart's signals. */
#include "boards.h"

static uint64_t seed = 7;

static uint64_t random_below(uint64_t end)
{
    return below(&seed, end);
}

static struct call wire_event(void)
{
    return (struct call){{1 + random_below(24), random_below(2), 0, 0, 0}, WIRE};
}

static struct call page_event(uint64_t hart)
{
    return (struct call){{hart, random_below(5), VSK_SETEIPNUM_LE, 1 + random_below(120), 0}, PAGE_WRITE};
}

/* What is read: registers of files, and of domains, among them claimi. */
static struct call read_event(uint64_t hart)
{
    static const uint64_t address[] = {VSK_SETIP(0), VSK_SETIE(0), VSK_IN_CLRIP(0), VSK_DOMAINCFG};
    switch (random_below(6)) {
    case 0: return (struct call){{hart, random_below(5), VSK_READ, VSK_EIP(random_below(4)), 0}, REGISTER};
    case 1: return (struct call){{hart, random_below(5), VSK_READ, VSK_EIDELIVERY, 0}, REGISTER};
    case 2: return (struct call){{random_below(2), address[random_below(4)], 0, 0, 0}, DOMAIN_READ};
    case 3: return (struct call){{0, VSK_TOPI(hart), 0, 0, 0}, DOMAIN_READ};
    default: return (struct call){{0, VSK_CLAIMI(hart), 0, 0, 0}, DOMAIN_READ};
    }
}

/* What is written: no delivery mode, so that the child goes on sending and moves are not barred. */
static struct call write_event(uint64_t hart)
{
    uint64_t i = 1 + random_below(24), domain = i % 2 == 0, guest = random_below(4);
    switch (random_below(6)) {
    case 0: return (struct call){{domain, VSK_SETIPNUM, i, 0, 0}, DOMAIN_WRITE};
    case 1: return (struct call){{domain, VSK_SETIENUM, i, 0, 0}, DOMAIN_WRITE};
    case 2: return (struct call){{domain, VSK_CLRIENUM, i, 0, 0}, DOMAIN_WRITE};
    case 3:
        return (struct call){{1, VSK_TARGET(i), VSK_TARGET_MESSAGE(hart, guest, 10 + i), 0, 0}, DOMAIN_WRITE};
    case 4: return (struct call){{domain, VSK_SOURCECFG(i), 4 + random_below(4), 0, 0}, DOMAIN_WRITE};
    default:
        return (struct call){{hart, random_below(5), VSK_SET, VSK_EIE(random_below(2)), 0xF0F0}, REGISTER};
    }
}

static struct call event(uint64_t hart)
{
    uint64_t at = random_below(100);
    if (at < 30)
        return wire_event();
    if (at < 55)
        return page_event(hart);
    if (at < 75)
        return (struct call){{hart, random_below(5), 0, 0, 0}, CLAIM};
    if (at < 80)
        return (struct call){{hart, random_below(5), 0, 0, 0}, TOP};
    return at < 90 ? read_event(hart) : write_event(hart);
}

/* A move between two guest files, with a wire or a message after some of its accesses. Then another station
 * starts in the old file, so that the shift goes on as it began. */
static unsigned long add_move(struct call *shift, unsigned long n, unsigned long end)
{
    uint64_t old_hart = random_below(4), new_hart = (old_hart + 1 + random_below(3)) % 4;
    uint64_t old_file = 2 + random_below(3), new_file = 2 + random_below(3);
    for (uint64_t access = 1; access <= VSK_ACCESSES && n < end; access++) {
        shift[n++] = (struct call){{old_hart, old_file, new_hart, new_file, access}, MOVE};
        if (n < end && random_below(8) == 0)
            shift[n++] = random_below(2) ? wire_event() : page_event(old_hart);
    }
    if (n < end)
        shift[n++] = (struct call){{old_hart, old_file, VSK_WRITE, VSK_EIDELIVERY, 1}, REGISTER};
    return n;
}

void build_shift(struct call *shift, unsigned long calls)
{
    unsigned long n = 0;
    while (n < calls) {
        uint64_t hart = random_below(4);
        if (random_below(4000) == 0)
            n = add_move(shift, n, calls);
        if (n < calls)
            shift[n++] = event(hart);
        if (n < calls)
            shift[n++] = (struct call){{hart, 0, 0, 0, 0}, SIGNALS};
    }
}
