/* One domain: its registers by address, its delivery structures, what it sends. A part of plain.c. */

/* The hart's top in direct mode: the source with the least priority number, of several the lowest. */
static uint32_t topi(const struct domain *d, uint32_t hart)
{
    uint32_t threshold = d->structure[hart].ithreshold;
    uint32_t best = 0, limit = threshold ? threshold : NUMBER_BITS + 1;
    for (uint64_t rest = joined(d->pending) & joined(d->enable); rest; rest &= rest - 1) {
        uint32_t i = lowest(rest), priority = d->target[i] & NUMBER_BITS;
        if (d->target[i] >> HART_AT == hart && priority < limit) {
            best = i;
            limit = priority;
        }
    }
    return best ? best << 16 | limit : 0;
}

static uint32_t claimi(struct domain *d, uint32_t hart)
{
    uint32_t top = topi(d, hart);
    if (top)
        unpend(d, top >> 16);
    else
        d->structure[hart].iforce = 0;
    return top;
}

/* The signal to a file that follows its domain. */
static bool domain_signals(const struct domain *d, uint32_t hart)
{
    const struct structure *s = &d->structure[hart];
    if ((d->sourcecfg[DOMAINCFG] & SENDS) != VSK_DOMAINCFG_IE || !s->idelivery)
        return false;
    return s->iforce || topi(d, hart);
}

static uint32_t read_structure(struct domain *d, uint32_t offset)
{
    uint32_t hart = offset / 32;
    const struct structure *s = &d->structure[hart];
    if (by_messages(d))
        return 0;
    switch (offset % 32) {
    case 0x00: return s->idelivery;
    case 0x04: return s->iforce;
    case 0x08: return s->ithreshold;
    case 0x18: return topi(d, hart);
    case 0x1C: return claimi(d, hart);
    default: return 0;
    }
}

static void write_structure(struct domain *d, uint32_t offset, uint32_t value)
{
    struct structure *s = &d->structure[offset / 32];
    if (by_messages(d))
        return;
    switch (offset % 32) {
    case 0x00: s->idelivery = value <= 1 ? value : s->idelivery; break;
    case 0x04: s->iforce = value <= 1 ? value : s->iforce; break;
    case 0x08: s->ithreshold = value & 255; break;
    }
}

/* Word k of the rectified values. By the state rules bit 2 of a mode says that it reads the wire, and bit 0 that it
   reads it inverted; slot 0 holds domaincfg, which is no mode. */
static uint32_t read_in_clrip(const struct wired *w, const struct domain *d, uint32_t k)
{
    uint32_t reads = 0, inverted = 0;
    for (uint32_t i = 0; i < 32; i++) {
        uint32_t mode = d->sourcecfg[32 * k + i];
        reads |= (mode >> 2 & 1) << i;
        inverted |= (mode & 1) << i;
    }
    return (w->wires[k] ^ inverted) & (k ? reads : reads & ~1u);
}

static uint32_t read_word(struct wired *w, struct domain *d, uint32_t address)
{
    if (address == VSK_DOMAINCFG)
        return 0x80000000 | d->sourcecfg[DOMAINCFG];
    if (address < 4 * SLOTS)
        return d->sourcecfg[address / 4];
    /* genmsi is 0 in direct mode, by the state rules */
    if (VSK_GENMSI <= address && address < VSK_TARGET(SLOTS))
        return d->target[(address - VSK_GENMSI) / 4];
    if (VSK_IDELIVERY(0) <= address && address < VSK_IDELIVERY(HARTS))
        return read_structure(d, address - VSK_IDELIVERY(0));
    switch (address) {
    case VSK_SETIP(0): return d->pending[0];
    case VSK_SETIP(1): return d->pending[1];
    case VSK_SETIE(0): return d->enable[0];
    case VSK_SETIE(1): return d->enable[1];
    case VSK_IN_CLRIP(0): return read_in_clrip(w, d, 0);
    case VSK_IN_CLRIP(1): return read_in_clrip(w, d, 1);
    default: return 0;
    }
}

static void write_domaincfg(const struct wired *w, struct domain *d, uint32_t value)
{
    uint32_t old = d->sourcecfg[DOMAINCFG];
    d->sourcecfg[DOMAINCFG] = value & SENDS;
    if (((old ^ value) & VSK_DOMAINCFG_DM) == 0)
        return;
    bool messages = by_messages(d);
    d->target[GENMSI] = 0;
    for (uint32_t i = 1; i < SLOTS; i++) {
        uint32_t mode = d->sourcecfg[i];
        if (!is_active(mode))
            continue;
        d->target[i] = start_target(messages);
        /* towards messages the bit stays: in direct mode it was the rectified value */
        if (is_level(mode) && !messages)
            put_bit(d->pending, i, rectified(mode, has_bit(w->wires, i)));
    }
}

enum family { PEND, UNPEND, ENABLE, DISABLE };

static void change_source(const struct wired *w, struct domain *d, enum family family, uint32_t i)
{
    switch (family) {
    case PEND: pend(d, i, has_bit(w->wires, i)); break;
    case UNPEND: unpend(d, i); break;
    case ENABLE:
        if (is_active(d->sourcecfg[i]))
            set_bit(d->enable, i);
        break;
    case DISABLE: clear_bit(d->enable, i); break;
    }
}

static void change_number(const struct wired *w, struct domain *d, enum family family, uint32_t i)
{
    if (1 <= i && i < SLOTS)
        change_source(w, d, family, i);
}

/* The sources of word k whose bits are set in the value; bit 0 of word 0 is no source's. */
static void change_word(const struct wired *w, struct domain *d, enum family family, uint32_t k,
                        uint32_t value)
{
    for (uint64_t rest = (uint64_t)value << 32 * k & ~UINT64_C(1); rest; rest &= rest - 1)
        change_source(w, d, family, lowest(rest));
}

/* The registers between sourcecfg and target. */
static void write_family(const struct wired *w, struct domain *d, uint32_t address, uint32_t value)
{
    switch (address) {
    case VSK_SETIP(0): change_word(w, d, PEND, 0, value); break;
    case VSK_SETIP(1): change_word(w, d, PEND, 1, value); break;
    case VSK_IN_CLRIP(0): change_word(w, d, UNPEND, 0, value); break;
    case VSK_IN_CLRIP(1): change_word(w, d, UNPEND, 1, value); break;
    case VSK_SETIE(0): change_word(w, d, ENABLE, 0, value); break;
    case VSK_SETIE(1): change_word(w, d, ENABLE, 1, value); break;
    case VSK_CLRIE(0): change_word(w, d, DISABLE, 0, value); break;
    case VSK_CLRIE(1): change_word(w, d, DISABLE, 1, value); break;
    case VSK_SETIPNUM:
    case VSK_SETIPNUM_LE: change_number(w, d, PEND, value); break;
    case VSK_SETIPNUM_BE: change_number(w, d, PEND, reversed(value)); break;
    case VSK_CLRIPNUM: change_number(w, d, UNPEND, value); break;
    case VSK_SETIENUM: change_number(w, d, ENABLE, value); break;
    case VSK_CLRIENUM: change_number(w, d, DISABLE, value); break;
    }
}

static void write_target(struct domain *d, bool child, uint32_t i, uint32_t value)
{
    if (is_active(d->sourcecfg[i]))
        d->target[i] = kept_target(child, by_messages(d), value);
}

/* Every register but genmsi, before anything is sent. */
static void write_word(struct wired *w, bool child, uint32_t address, uint32_t value)
{
    struct domain *d = child ? &w->child : &w->machine;
    if (address == VSK_DOMAINCFG)
        write_domaincfg(w, d, value);
    else if (address < 4 * SLOTS && child)
        write_child_source(w, address / 4, value);
    else if (address < 4 * SLOTS)
        write_root_source(w, address / 4, value);
    else if (address < VSK_GENMSI)
        write_family(w, d, address, value);
    else if (address < VSK_TARGET(SLOTS))
        write_target(d, child, (uint32_t)(address - VSK_GENMSI) / 4, value);
    else if (VSK_IDELIVERY(0) <= address && address < VSK_IDELIVERY(HARTS))
        write_structure(d, address - VSK_IDELIVERY(0), value);
}

/* A message is logged as number n and reaches its file. */
static void send_one(struct board *b, uint32_t *log, uint32_t n, uint32_t target, uint32_t file)
{
    uint32_t hart = target >> HART_AT & 3, identity = target & NUMBER_BITS;
    log[n] = hart << 11 | file << 8 | identity;
    arrive(&b->file[hart][file], identity);
}

/* Sends what is to be sent of one domain, lowest source first: the number of messages. */
static uint32_t send_all(struct board *b, bool child, uint32_t *log)
{
    struct domain *d = child ? &b->wired.child : &b->wired.machine;
    if ((d->sourcecfg[DOMAINCFG] & SENDS) != SENDS)
        return 0;
    uint32_t n = 0;
    for (uint64_t rest = joined(d->pending) & joined(d->enable); rest; rest &= rest - 1) {
        uint32_t i = lowest(rest), target = d->target[i];
        send_one(b, log, n++, target, child ? VSK_GUEST_FILE(target >> GUEST_AT & 3) : VSK_MACHINE_FILE);
        clear_bit(d->pending, i);
    }
    return n;
}

/* genmsi: kept and sent at once, in message mode only; the number of messages. */
static uint32_t generate(struct board *b, bool child, uint32_t *log, uint32_t value)
{
    struct domain *d = child ? &b->wired.child : &b->wired.machine;
    if (!by_messages(d))
        return 0;
    d->target[GENMSI] = value & (HART_BITS | NUMBER_BITS);
    send_one(b, log, 0, value, child ? VSK_SUPERVISOR_FILE : VSK_MACHINE_FILE);
    return 1;
}
