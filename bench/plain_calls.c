/* The calls, each with its refusals in their order. A part of plain.c. */

static vsk_answer refused(uint32_t refusal)
{
    return (vsk_answer){0, 0, refusal};
}

static vsk_answer done(uint64_t value, uint32_t count)
{
    return (vsk_answer){value, count, VSK_DONE};
}

static uint32_t wrong_length(size_t state_len, size_t log_len)
{
    if (state_len != VSK_STATE_WORDS)
        return VSK_STATE_LENGTH;
    return log_len != VSK_LOG_WORDS ? VSK_LOG_LENGTH : VSK_DONE;
}

/* Refusals 1 to 3, which every call tests but reset. */
static uint32_t wrong_blocks(const uint32_t *state, size_t state_len, size_t log_len)
{
    uint32_t refusal = wrong_length(state_len, log_len);
    if (refusal)
        return refusal;
    return keeps_rules((const struct board *)state) ? VSK_DONE : VSK_BROKEN_RULE;
}

static bool is_file(uint64_t hart, uint64_t file)
{
    return hart < HARTS && file < FILES;
}

static bool is_guest_file(uint64_t hart, uint64_t file)
{
    return is_file(hart, file) && file >= FIRST_GUEST;
}

static struct file *file_of(uint32_t *state, uint64_t hart, uint64_t file)
{
    return &((struct board *)state)->file[hart][file];
}

vsk_answer plain_reset(PLAIN_BLOCKS)
{
    (void)log;
    uint32_t refusal = wrong_length(state_len, log_len);
    if (refusal)
        return refused(refusal);
    for (uint32_t i = 0; i < VSK_STATE_WORDS; i++)
        state[i] = 0;
    for (uint32_t h = 0; h < HARTS; h++) {
        file_of(state, h, VSK_MACHINE_FILE)->delivery = FROM_WIRED;
        file_of(state, h, VSK_SUPERVISOR_FILE)->delivery = FROM_WIRED;
    }
    return done(0, 0);
}

vsk_answer plain_wire(PLAIN_BLOCKS, uint64_t wire, uint64_t level)
{
    struct board *b = (struct board *)state;
    uint32_t refusal = wrong_blocks(state, state_len, log_len), i = (uint32_t)wire;
    if (refusal)
        return refused(refusal);
    if (wire < 1 || wire > VSK_SOURCES || level > 1)
        return refused(VSK_NO_SUCH);
    if (has_bit(b->wired.wires, i) == level)
        return done(0, 0);
    put_bit(b->wired.wires, i, level);
    bool child = b->wired.machine.sourcecfg[i] == VSK_SOURCE_DELEGATED;
    wire_changed(child ? &b->wired.child : &b->wired.machine, i, level);
    return done(0, send_all(b, child, log));
}

static uint32_t wrong_address(uint64_t domain, uint64_t address)
{
    if (domain > VSK_SUPERVISOR_DOMAIN)
        return VSK_NO_SUCH;
    return address % 4 != 0 || address >= VSK_REGION_BYTES ? VSK_BAD_ADDRESS : VSK_DONE;
}

vsk_answer plain_domain_read(PLAIN_BLOCKS, uint64_t domain, uint64_t address)
{
    (void)log;
    struct wired *w = &((struct board *)state)->wired;
    uint32_t refusal = wrong_blocks(state, state_len, log_len);
    if (!refusal)
        refusal = wrong_address(domain, address);
    if (refusal)
        return refused(refusal);
    /* nothing is sent: a claim only clears */
    return done(read_word(w, domain ? &w->child : &w->machine, (uint32_t)address), 0);
}

vsk_answer plain_domain_write(PLAIN_BLOCKS, uint64_t domain, uint64_t address, uint32_t value)
{
    struct board *b = (struct board *)state;
    uint32_t refusal = wrong_blocks(state, state_len, log_len);
    if (!refusal)
        refusal = wrong_address(domain, address);
    if (refusal)
        return refused(refusal);
    /* only the domain written can have something to send */
    if (address == VSK_GENMSI)
        return done(0, generate(b, domain, log, value));
    write_word(&b->wired, domain, (uint32_t)address, value);
    return done(0, send_all(b, domain, log));
}

static uint32_t wrong_page(uint64_t hart, uint64_t file, uint64_t address)
{
    if (!is_file(hart, file))
        return VSK_NO_SUCH;
    return address % 4 != 0 || address >= VSK_PAGE_BYTES ? VSK_BAD_ADDRESS : VSK_DONE;
}

vsk_answer plain_page_read(PLAIN_BLOCKS, uint64_t hart, uint64_t file, uint64_t address)
{
    (void)log;
    uint32_t refusal = wrong_blocks(state, state_len, log_len);
    if (!refusal)
        refusal = wrong_page(hart, file, address);
    return refused(refusal);
}

vsk_answer plain_page_write(PLAIN_BLOCKS, uint64_t hart, uint64_t file, uint64_t address, uint32_t value)
{
    (void)log;
    uint32_t refusal = wrong_blocks(state, state_len, log_len);
    if (!refusal)
        refusal = wrong_page(hart, file, address);
    if (refusal)
        return refused(refusal);
    if (address == VSK_SETEIPNUM_LE)
        arrive(file_of(state, hart, file), value);
    else if (address == VSK_SETEIPNUM_BE)
        arrive(file_of(state, hart, file), reversed(value));
    return done(0, 0);
}

vsk_answer plain_register(PLAIN_BLOCKS, uint64_t hart, uint64_t file, uint64_t kind, uint64_t select,
                          uint64_t value)
{
    (void)log;
    uint32_t refusal = wrong_blocks(state, state_len, log_len);
    if (refusal)
        return refused(refusal);
    if (!is_file(hart, file) || kind > VSK_CLEAR)
        return refused(VSK_NO_SUCH);
    if (!select_legal(select))
        return refused(VSK_ILLEGAL_SELECT);
    return done(access_register(file_of(state, hart, file), file >= FIRST_GUEST, kind, select, value), 0);
}

vsk_answer plain_top(PLAIN_BLOCKS, uint64_t hart, uint64_t file)
{
    (void)log;
    uint32_t refusal = wrong_blocks(state, state_len, log_len);
    if (refusal)
        return refused(refusal);
    if (!is_file(hart, file))
        return refused(VSK_NO_SUCH);
    return done(top_identity(file_of(state, hart, file)) * 0x10001, 0);
}

vsk_answer plain_claim(PLAIN_BLOCKS, uint64_t hart, uint64_t file)
{
    (void)log;
    uint32_t refusal = wrong_blocks(state, state_len, log_len);
    if (refusal)
        return refused(refusal);
    if (!is_file(hart, file))
        return refused(VSK_NO_SUCH);
    struct file *f = file_of(state, hart, file);
    uint32_t i = top_identity(f);
    if (i)
        clear_bit(f->pending, i);
    return done(i * 0x10001, 0);
}

/* File 0 follows the machine domain and file 1 the child, where their delivery says so. */
static bool file_signals(const struct board *b, uint64_t hart, uint32_t file)
{
    const struct file *f = &b->file[hart][file];
    if (f->delivery == VSK_DELIVERY_ON)
        return top_identity(f) != 0;
    if (f->delivery != FROM_WIRED)
        return false;
    return domain_signals(file == VSK_MACHINE_FILE ? &b->wired.machine : &b->wired.child, (uint32_t)hart);
}

vsk_answer plain_signals(PLAIN_BLOCKS, uint64_t hart)
{
    (void)log;
    uint32_t refusal = wrong_blocks(state, state_len, log_len);
    if (refusal)
        return refused(refusal);
    if (hart >= HARTS)
        return refused(VSK_NO_SUCH);
    uint64_t signals = 0;
    for (uint32_t f = 0; f < FILES; f++)
        signals |= (uint64_t)file_signals((const struct board *)state, hart, f) << f;
    return done(signals, 0);
}

static bool is_move(uint64_t old_hart, uint64_t old_file, uint64_t new_hart, uint64_t new_file,
                    uint64_t access)
{
    return is_guest_file(old_hart, old_file) && is_guest_file(new_hart, new_file) &&
           (old_hart != new_hart || old_file != new_file) && 1 <= access && access <= VSK_ACCESSES;
}

/* Step 3 for one source: a target that names old names new from now on. */
static void retarget(uint32_t *target, uint64_t old_hart, uint64_t old_file, uint64_t new_hart,
                     uint64_t new_file)
{
    if (*target >> HART_AT == old_hart && VSK_GUEST_FILE(*target >> GUEST_AT & 3) == old_file)
        *target = (uint32_t)(new_hart << HART_AT | (new_file - 1) << GUEST_AT) | (*target & NUMBER_BITS);
}

/* The accesses to the registers of both files: all but step 3. */
static void move_register(struct file *old, struct file *new, uint64_t access, uint64_t *saved)
{
    if (access == 1)
        saved[0] = old->delivery;
    else if (access == 2)
        saved[1] = old->threshold;
    else if (access == 3)
        old->delivery = 0;
    else if (access == 4)
        new->delivery = 0;
    else if (access <= 8)
        put_register(new, true, VSK_EIP(access - 5), 0);
    else if (access <= 75)
        saved[2 + (access - 72)] = register_value(old, VSK_EIP(access - 72));
    else if (access <= 79)
        saved[6 + (access - 76)] = register_value(old, VSK_EIE(access - 76));
    else if (access <= 83)
        access_register(new, true, VSK_SET, VSK_EIP(access - 80), saved[2 + (access - 80)]);
    else if (access <= 87)
        put_register(new, true, VSK_EIE(access - 84), saved[6 + (access - 84)]);
    else if (access == 88)
        put_register(new, true, VSK_EITHRESHOLD, saved[1]);
    else
        put_register(new, true, VSK_EIDELIVERY, saved[0]);
}

vsk_answer plain_move(PLAIN_BLOCKS, uint64_t old_hart, uint64_t old_file, uint64_t new_hart,
                      uint64_t new_file, uint64_t access, uint64_t saved[VSK_SAVED_NUMBERS])
{
    (void)log;
    struct domain *child = &((struct board *)state)->wired.child;
    uint32_t refusal = wrong_blocks(state, state_len, log_len);
    if (refusal)
        return refused(refusal);
    if (!is_move(old_hart, old_file, new_hart, new_file, access) || !by_messages(child))
        return refused(VSK_NO_SUCH);
    if (9 <= access && access <= 71)
        retarget(&child->target[access - 8], old_hart, old_file, new_hart, new_file);
    else
        move_register(file_of(state, old_hart, old_file), file_of(state, new_hart, new_file), access, saved);
    return done(0, 0);
}
