/* The state rules. Faults are gathered in a word and nothing leaves early. A part of plain.c. */

static uint32_t file_faults(const struct file *f, bool guest)
{
    uint32_t faults = f->threshold >> 8 | ((f->pending[0] | f->enable[0]) & 1);
    return faults | !delivery_legal(guest, f->delivery);
}

static uint32_t files_faults(const struct board *b)
{
    uint32_t faults = 0;
    for (uint32_t h = 0; h < HARTS; h++)
        for (uint32_t f = 0; f < FILES; f++)
            faults |= file_faults(&b->file[h][f], f >= FIRST_GUEST);
    return faults;
}

static uint32_t structure_faults(const struct domain *d)
{
    uint32_t faults = 0;
    for (uint32_t h = 0; h < HARTS; h++) {
        const struct structure *s = &d->structure[h];
        faults |= s->idelivery >> 1 | s->iforce >> 1 | s->ithreshold >> 8;
    }
    return faults;
}

/* What is wrong with a source that is active, but for what whole words tell. */
static uint32_t active_faults(const struct domain *d, uint64_t wires, bool messages, uint32_t stray,
                              uint32_t i)
{
    uint32_t mode = d->sourcecfg[i], target = d->target[i];
    uint32_t faults = (target & stray) | (mode > VSK_SOURCE_LEVEL0) | (mode == 2) | (mode == 3);
    if (!messages)
        faults |= (target & NUMBER_BITS) == 0;
    if (is_level(mode)) {
        uint32_t high = (wires >> i & 1) ^ (mode & 1), pending = has_bit(d->pending, i);
        faults |= messages ? pending & ~high : pending ^ high;
    }
    return faults;
}

/* The bits of a domain's sources, by whole words. */
static uint32_t bits_faults(const struct domain *d, uint64_t active)
{
    uint64_t pending = joined(d->pending), enable = joined(d->enable);
    bool sends = (d->sourcecfg[DOMAINCFG] & SENDS) == SENDS;
    return ((pending | enable) & ~active) != 0 || (sends && (pending & enable) != 0);
}

/* One pass over the sources; `machine` is the machine domain for the child, and null for itself. */
static inline uint32_t domain_faults(const struct domain *d, const struct domain *machine, uint64_t wires)
{
    uint32_t config = d->sourcecfg[DOMAINCFG], faults = (config & ~SENDS) | structure_faults(d);
    bool messages = config & VSK_DOMAINCFG_DM;
    uint32_t stray = ~(HART_BITS | NUMBER_BITS | (machine && messages ? GUEST_BITS : 0));
    uint64_t active = 0;
    faults |= messages ? d->target[GENMSI] & ~(HART_BITS | NUMBER_BITS) : d->target[GENMSI];
    for (uint32_t i = 1; i < SLOTS; i++) {
        uint32_t mode = d->sourcecfg[i];
        if (mode == VSK_SOURCE_INACTIVE || (!machine && mode == VSK_SOURCE_DELEGATED)) {
            faults |= d->target[i];
            continue;
        }
        active |= UINT64_C(1) << i;
        faults |= active_faults(d, wires, messages, stray, i);
        if (machine)
            faults |= machine->sourcecfg[i] ^ VSK_SOURCE_DELEGATED;
    }
    return faults | bits_faults(d, active);
}

static bool keeps_rules(const struct board *b)
{
    const struct wired *w = &b->wired;
    uint64_t wires = joined(w->wires);
    uint32_t faults = files_faults(b) | (wires & 1);
    faults |= domain_faults(&w->machine, NULL, wires);
    faults |= domain_faults(&w->child, &w->machine, wires);
    return faults == 0;
}
