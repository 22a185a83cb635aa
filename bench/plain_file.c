/* One message file: its page, its registers, its top. A part of plain.c. */

static void arrive(struct file *f, uint32_t identity)
{
    if (1 <= identity && identity <= IDENTITIES)
        set_bit(f->pending, identity);
}

/* The lowest identity that is pending, enabled and let through, or 0: the same search as the library's, bit after
 * bit of what both words share while a bit is left, and the threshold asked once. Identity 0 is clear. */
static uint32_t top_identity(const struct file *f)
{
    for (uint32_t k = 0; k < sizeof f->pending / sizeof f->pending[0]; k++) {
        uint32_t i = 32 * k;
        for (uint32_t rest = f->pending[k] & f->enable[k]; rest; rest >>= 1, i++)
            if (rest & 1)
                return f->threshold == 0 || i < f->threshold ? i : 0;
    }
    return 0;
}

static bool select_legal(uint64_t select)
{
    return 0x70 <= select && select <= 0xFF && (select < 0x80 || select % 2 == 0);
}

static bool delivery_legal(bool guest, uint64_t value)
{
    return value <= 1 || (!guest && value == FROM_WIRED);
}

/* The first of the two words that a register of pending or enable bits shows, or null. */
static uint32_t *words_at(struct file *f, uint64_t select)
{
    if (VSK_EIP(0) <= select && select <= VSK_EIP(3))
        return &f->pending[select - VSK_EIP(0)];
    if (VSK_EIE(0) <= select && select <= VSK_EIE(3))
        return &f->enable[select - VSK_EIE(0)];
    return NULL;
}

static uint64_t register_value(struct file *f, uint64_t select)
{
    if (select == VSK_EIDELIVERY)
        return f->delivery;
    if (select == VSK_EITHRESHOLD)
        return f->threshold;
    const uint32_t *word = words_at(f, select);
    return word ? joined(word) : 0;
}

static void put_register(struct file *f, bool guest, uint64_t select, uint64_t value)
{
    if (select == VSK_EIDELIVERY) {
        if (delivery_legal(guest, value))
            f->delivery = (uint32_t)value;
        return;
    }
    if (select == VSK_EITHRESHOLD) {
        f->threshold = value & 255;
        return;
    }
    uint32_t *word = words_at(f, select);
    if (!word)
        return;
    /* identity 0 has no bit */
    if (select == VSK_EIP(0) || select == VSK_EIE(0))
        value &= ~UINT64_C(1);
    word[0] = (uint32_t)value;
    word[1] = (uint32_t)(value >> 32);
}

/* One access to a legal register: what it answers. */
static uint64_t access_register(struct file *f, bool guest, uint64_t kind, uint64_t select, uint64_t value)
{
    if (kind == VSK_WRITE) {
        put_register(f, guest, select, value);
        return 0;
    }
    uint64_t old = register_value(f, select);
    if (kind == VSK_SET)
        put_register(f, guest, select, old | value);
    else if (kind == VSK_CLEAR)
        put_register(f, guest, select, old & ~value);
    return old;
}
