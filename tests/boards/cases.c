/* Recorded calls, made through the C face of an archive: reads the lines of crates/cases/stdin and prints what
 * crates/cases/stdout has, which a second program wrote (second/README.md). The program crates/cases reads the
 * same lines; this one is there for machines that the toolchain writes no program for. */
#include "port.h"
#include "varskumo.h"

/* Some words lie beyond the block and the log: for lengths that are too large, and so that the digest sees a
 * call that writes there. */
#define STATE_ROOM (VSK_STATE_WORDS + 10)
#define LOG_ROOM (VSK_LOG_WORDS + 7)
#define LINE_ROOM 200
#define MOST_NUMBERS 5

static uint32_t state[STATE_ROOM], messages[LOG_ROOM];
static uint64_t saved[VSK_SAVED_NUMBERS];
static size_t state_length = VSK_STATE_WORDS, log_length = VSK_LOG_WORDS;

typedef struct fields {
    const char *name;
    size_t length;
    uint64_t n[MOST_NUMBERS];
    unsigned count;
} fields;

static void print(uint64_t number, char before)
{
    char digits[24];
    size_t at = sizeof digits;
    do
        digits[--at] = (char)('0' + number % 10);
    while ((number /= 10) > 0);
    if (before)
        digits[--at] = before;
    port_write(digits + at, sizeof digits - at);
}

/* A name, then decimal numbers, each after one tab; 0 if a number cannot be read. */
static int parse(const char *line, size_t length, fields *f)
{
    size_t i = 0;
    while (i < length && line[i] != '\t')
        i++;
    f->name = line;
    f->length = i;
    f->count = 0;
    while (i < length) {
        uint64_t value = 0;
        if (f->count == MOST_NUMBERS || ++i == length || line[i] == '\t')
            return 0;
        for (; i < length && line[i] != '\t'; i++) {
            const uint64_t digit = (uint64_t)line[i] - '0';
            if (digit > 9 || value > (UINT64_MAX - digit) / 10)
                return 0;
            value = value * 10 + digit;
        }
        f->n[f->count++] = value;
    }
    return 1;
}

static int is(const fields *f, const char *name, unsigned count)
{
    size_t i = 0;
    while (i < f->length && name[i] && name[i] == f->name[i])
        i++;
    return i == f->length && !name[i] && f->count == count;
}

static uint32_t digest(void)
{
    uint32_t d = 0;
    for (size_t i = 0; i < STATE_ROOM; i++)
        d = d * 31u + state[i];
    for (size_t i = 0; i < LOG_ROOM; i++)
        d = d * 31u + messages[i];
    for (size_t i = 0; i < VSK_SAVED_NUMBERS; i++)
        d = (d * 31u + (uint32_t)saved[i]) * 31u + (uint32_t)(saved[i] >> 32);
    return d;
}

static void show(uint64_t line, vsk_answer a)
{
    print(line, 0);
    print(a.refusal, '\t');
    print(a.value, '\t');
    print(a.count, '\t');
    print(digest(), '\t');
    for (uint32_t i = 0; i < a.count && i < LOG_ROOM; i++)
        print(messages[i], '\t');
    port_write("\n", 1);
}

#define LENT state, state_length, messages, log_length

/* Makes the call that a line says; 0 if it says none. */
static int call(const fields *f, vsk_answer *a)
{
    const uint64_t *n = f->n;
    const int word = f->count == 0 || n[f->count - 1] <= UINT32_MAX;
    if (is(f, "reset", 0))
        *a = vsk_reset(LENT);
    else if (is(f, "wire", 2))
        *a = vsk_wire(LENT, n[0], n[1]);
    else if (is(f, "domain_read", 2))
        *a = vsk_domain_read(LENT, n[0], n[1]);
    else if (is(f, "domain_write", 3) && word)
        *a = vsk_domain_write(LENT, n[0], n[1], (uint32_t)n[2]);
    else if (is(f, "page_read", 3))
        *a = vsk_page_read(LENT, n[0], n[1], n[2]);
    else if (is(f, "page_write", 4) && word)
        *a = vsk_page_write(LENT, n[0], n[1], n[2], (uint32_t)n[3]);
    else if (is(f, "register", 5))
        *a = vsk_register(LENT, n[0], n[1], n[2], n[3], n[4]);
    else if (is(f, "top", 2))
        *a = vsk_top(LENT, n[0], n[1]);
    else if (is(f, "claim", 2))
        *a = vsk_claim(LENT, n[0], n[1]);
    else if (is(f, "signals", 1))
        *a = vsk_signals(LENT, n[0]);
    else if (is(f, "move", 5))
        *a = vsk_move(LENT, n[0], n[1], n[2], n[3], n[4], saved);
    else
        return 0;
    return 1;
}

/* Changes what the calls are lent; 0 if the line does not say that. */
static int prepare(const fields *f)
{
    if (is(f, "poke", 2) && f->n[0] < VSK_STATE_WORDS && f->n[1] <= UINT32_MAX) {
        state[f->n[0]] = (uint32_t)f->n[1];
        return 1;
    }
    if (is(f, "lengths", 2) && f->n[0] <= STATE_ROOM && f->n[1] <= LOG_ROOM) {
        state_length = (size_t)f->n[0];
        log_length = (size_t)f->n[1];
        return 1;
    }
    return 0;
}

static void take_line(const char *line, size_t length, uint64_t number)
{
    fields f;
    vsk_answer a;
    const int read = length <= LINE_ROOM && parse(line, length, &f);
    if (read && call(&f, &a)) {
        show(number, a);
    } else if (!read || !prepare(&f)) {
        print(number, 0);
        port_write("\n", 1);
    }
}

int cases(void)
{
    static char line[LINE_ROOM + 1], chunk[4096];
    size_t length = 0;
    uint64_t number = 0;
    for (size_t n; (n = port_read(chunk, sizeof chunk)) > 0;)
        for (size_t i = 0; i < n; i++)
            if (chunk[i] == '\n') {
                take_line(line, length, ++number);
                length = 0;
            } else if (length <= LINE_ROOM) {
                line[length++] = chunk[i];
            }
    if (length > 0)
        take_line(line, length, ++number);
    return 0;
}
