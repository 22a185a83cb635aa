/* One source of a domain: its mode, its target, its pending and enable bits. A part of plain.c. */

static bool by_messages(const struct domain *d)
{
    return d->sourcecfg[DOMAINCFG] & VSK_DOMAINCFG_DM;
}

static bool is_active(uint32_t mode)
{
    return mode != VSK_SOURCE_INACTIVE && mode != VSK_SOURCE_DELEGATED;
}

static bool is_level(uint32_t mode)
{
    return mode == VSK_SOURCE_LEVEL1 || mode == VSK_SOURCE_LEVEL0;
}

/* The rectified value: modes 4 and 6 take the wire, 5 and 7 its opposite, the others are low. */
static bool rectified(uint32_t mode, bool wire)
{
    return VSK_SOURCE_EDGE1 <= mode && mode <= VSK_SOURCE_LEVEL0 && wire != (mode & 1);
}

static uint32_t start_target(bool messages)
{
    return messages ? 0 : 1;
}

static uint32_t kept_target(bool child, bool messages, uint32_t value)
{
    if (messages)
        return value & (HART_BITS | NUMBER_BITS | (child ? GUEST_BITS : 0));
    uint32_t priority = value & NUMBER_BITS;
    return (value & HART_BITS) | (priority ? priority : 1);
}

/* The wire of a source changed, and is now `wire`. */
static void wire_changed(struct domain *d, uint32_t i, bool wire)
{
    uint32_t mode = d->sourcecfg[i];
    if (rectified(mode, wire))
        set_bit(d->pending, i);
    else if (is_level(mode))
        clear_bit(d->pending, i);
}

/* A write of the setip family. */
static void pend(struct domain *d, uint32_t i, bool wire)
{
    uint32_t mode = d->sourcecfg[i];
    if (!is_active(mode))
        return;
    if (!is_level(mode) || (by_messages(d) && rectified(mode, wire)))
        set_bit(d->pending, i);
}

/* A write of the in_clrip family, or a claim: in direct mode a level source keeps its bit. */
static void unpend(struct domain *d, uint32_t i)
{
    if (by_messages(d) || !is_level(d->sourcecfg[i]))
        clear_bit(d->pending, i);
}

static void make_inactive(struct domain *d, uint32_t i, uint32_t mode)
{
    d->sourcecfg[i] = mode;
    d->target[i] = 0;
    clear_bit(d->pending, i);
    clear_bit(d->enable, i);
}

/* An active mode is written. A source that was inactive has its bits clear, by the state rules. */
static void make_active(struct domain *d, uint32_t i, uint32_t mode, bool wire)
{
    uint32_t old = d->sourcecfg[i];
    bool messages = by_messages(d), high = rectified(mode, wire), rose = high && !rectified(old, wire);
    if (!is_active(old))
        d->target[i] = start_target(messages);
    d->sourcecfg[i] = mode;
    if (is_level(mode) && !messages)
        put_bit(d->pending, i, high);
    else if (rose)
        set_bit(d->pending, i);
    else if (is_level(mode) && !high)
        clear_bit(d->pending, i);
}

static void put_mode(struct domain *d, uint32_t i, uint32_t mode, bool wire)
{
    if (is_active(mode))
        make_active(d, i, mode, wire);
    else
        make_inactive(d, i, mode);
}

static uint32_t kept_mode(uint32_t value)
{
    uint32_t mode = value & 7;
    return mode == 2 || mode == 3 ? VSK_SOURCE_INACTIVE : mode;
}

static void write_root_source(struct wired *w, uint32_t i, uint32_t value)
{
    bool had = w->machine.sourcecfg[i] == VSK_SOURCE_DELEGATED, has = value & VSK_SOURCE_DELEGATED;
    if (had && has)
        return;
    put_mode(&w->machine, i, has ? VSK_SOURCE_DELEGATED : kept_mode(value), has_bit(w->wires, i));
    if (had != has)
        make_inactive(&w->child, i, VSK_SOURCE_INACTIVE);
}

static void write_child_source(struct wired *w, uint32_t i, uint32_t value)
{
    bool has = w->machine.sourcecfg[i] == VSK_SOURCE_DELEGATED && !(value & VSK_SOURCE_DELEGATED);
    put_mode(&w->child, i, has ? kept_mode(value) : VSK_SOURCE_INACTIVE, has_bit(w->wires, i));
}
