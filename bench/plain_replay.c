/* The replay of a record as a careful author would write it in C, on plain.c's calls: the same lines are read
 * and the same answers printed as by the proved program (docs/RECORD.md), in constant memory, whatever the
 * pieces that the input comes in. One translation unit with the calls, as the proved program is. */
#include "plain.c"

#include <string.h>
#include <unistd.h>

enum { LONGEST_LINE = 200, MOST_NUMBERS = 5, PIECE = 65536 };
/* The line's number, refusal, value, count and the log, each with the byte behind it. */
enum { LONGEST_ANSWER = 21 + 2 + 21 + 3 + 11 * VSK_LOG_WORDS };

enum kind {
    RESET, WIRE, DOMAIN_READ, DOMAIN_WRITE, PAGE_READ, PAGE_WRITE, REGISTER, TOP, CLAIM, SIGNALS, MOVE,
    NO_CALL
};

/* What every call is lent. */
static uint32_t state[VSK_STATE_WORDS], messages[VSK_LOG_WORDS];
static uint64_t saved[VSK_SAVED_NUMBERS];

/* The lines that have ended; the bytes of the next one that came in earlier pieces, one more than there is
 * room for if it is too long already; and the answers that are still to be written. */
static uint64_t line_number;
static char kept[LONGEST_LINE];
static size_t kept_length;
static char answers[PIECE];
static size_t answers_length;

/* ---- reading a line ---- */

#define IS(name, text) (memcmp(name, text, sizeof text - 1) == 0)

/* The call of a name: its length leaves one or two. */
static enum kind kind_of(const char *name, size_t length)
{
    switch (length) {
    case 3: return IS(name, "top") ? TOP : NO_CALL;
    case 4: return IS(name, "wire") ? WIRE : IS(name, "move") ? MOVE : NO_CALL;
    case 5: return IS(name, "claim") ? CLAIM : IS(name, "reset") ? RESET : NO_CALL;
    case 7: return IS(name, "signals") ? SIGNALS : NO_CALL;
    case 8: return IS(name, "register") ? REGISTER : NO_CALL;
    case 9: return IS(name, "page_read") ? PAGE_READ : NO_CALL;
    case 10: return IS(name, "page_write") ? PAGE_WRITE : NO_CALL;
    case 11: return IS(name, "domain_read") ? DOMAIN_READ : NO_CALL;
    case 12: return IS(name, "domain_write") ? DOMAIN_WRITE : NO_CALL;
    default: return NO_CALL;
    }
}

/* Whether a call has so many numbers, and the one that is a word of 32 bits fits. */
static bool has_form(enum kind kind, const uint64_t *number, unsigned count)
{
    static const unsigned char numbers[] = {0, 2, 2, 3, 3, 4, 5, 2, 2, 1, 5};
    if (kind == NO_CALL || count != numbers[kind])
        return false;
    return (kind != DOMAIN_WRITE && kind != PAGE_WRITE) || number[count - 1] <= UINT32_MAX;
}

/* Reads digits, at least one, up to a tab or the end, and answers where they stop; or null. */
static const char *read_number(const char *at, const char *end, uint64_t *number)
{
    const uint64_t most = UINT64_MAX / 10, last = UINT64_MAX % 10;
    uint64_t value = 0;
    if (at == end || *at == '\t')
        return NULL;
    for (; at < end && *at != '\t'; at++) {
        uint64_t digit = (uint64_t)(unsigned char)*at - '0';
        if (digit > 9 || (value >= most && (value > most || digit > last)))
            return NULL;
        value = 10 * value + digit;
    }
    *number = value;
    return at;
}

/* The call that a line makes, with its numbers, or NO_CALL if it cannot be read. */
static enum kind read_line(const char *line, size_t length, uint64_t number[MOST_NUMBERS])
{
    const char *at = line, *end = line + length;
    unsigned count = 0;
    while (at < end && *at != '\t')
        at++;
    enum kind kind = kind_of(line, (size_t)(at - line));
    while (at < end) {
        if (count == MOST_NUMBERS)
            return NO_CALL;
        at = read_number(at + 1, end, &number[count++]);
        if (!at)
            return NO_CALL;
    }
    return has_form(kind, number, count) ? kind : NO_CALL;
}

/* ---- the call ---- */

#define BLOCKS state, VSK_STATE_WORDS, messages, VSK_LOG_WORDS

static vsk_answer make(enum kind kind, const uint64_t *n)
{
    switch (kind) {
    case RESET: return plain_reset(BLOCKS);
    case WIRE: return plain_wire(BLOCKS, n[0], n[1]);
    case DOMAIN_READ: return plain_domain_read(BLOCKS, n[0], n[1]);
    case DOMAIN_WRITE: return plain_domain_write(BLOCKS, n[0], n[1], (uint32_t)n[2]);
    case PAGE_READ: return plain_page_read(BLOCKS, n[0], n[1], n[2]);
    case PAGE_WRITE: return plain_page_write(BLOCKS, n[0], n[1], n[2], (uint32_t)n[3]);
    case REGISTER: return plain_register(BLOCKS, n[0], n[1], n[2], n[3], n[4]);
    case TOP: return plain_top(BLOCKS, n[0], n[1]);
    case CLAIM: return plain_claim(BLOCKS, n[0], n[1]);
    case SIGNALS: return plain_signals(BLOCKS, n[0]);
    case MOVE: return plain_move(BLOCKS, n[0], n[1], n[2], n[3], n[4], saved);
    case NO_CALL: break;
    }
    return (vsk_answer){0, 0, 0};
}

/* ---- printing its answer ---- */

static bool write_all(int to, const char *bytes, size_t length)
{
    while (length) {
        ssize_t written = write(to, bytes, length);
        if (written <= 0)
            return false;
        bytes += written;
        length -= (size_t)written;
    }
    return true;
}

static bool write_answers(void)
{
    size_t length = answers_length;
    answers_length = 0;
    return write_all(STDOUT_FILENO, answers, length);
}

/* Most numbers of an answer have one digit. */
static char *put_number(char *at, uint64_t number)
{
    char digits[20];
    unsigned count = 0;
    if (number < 10) {
        *at = (char)('0' + number);
        return at + 1;
    }
    do
        digits[count++] = (char)('0' + number % 10);
    while (number /= 10);
    while (count)
        *at++ = digits[--count];
    return at;
}

static char *put_field(char *at, uint64_t number)
{
    *at++ = '\t';
    return put_number(at, number);
}

/* Makes the call of the line that has ended. Answers whether the answers could be written, if it had to. */
static bool end_line(const char *line, size_t length)
{
    uint64_t number[MOST_NUMBERS];
    enum kind kind = length <= LONGEST_LINE ? read_line(line, length, number) : NO_CALL;
    if (sizeof answers - answers_length < LONGEST_ANSWER && !write_answers())
        return false;
    char *at = put_number(answers + answers_length, ++line_number);
    if (kind != NO_CALL) {
        vsk_answer a = make(kind, number);
        at = put_field(put_field(put_field(at, a.refusal), a.value), a.count);
        for (uint32_t k = 0; k < a.count; k++)
            at = put_field(at, messages[k]);
    }
    *at++ = '\n';
    answers_length = (size_t)(at - answers);
    return true;
}

/* ---- the input ---- */

/* Keeps a part of a line for the next piece. */
static void keep(const char *part, size_t length)
{
    if (length > LONGEST_LINE - kept_length || kept_length > LONGEST_LINE) {
        kept_length = LONGEST_LINE + 1;
        return;
    }
    memcpy(kept + kept_length, part, length);
    kept_length += length;
}

static bool end_kept(void)
{
    size_t length = kept_length;
    kept_length = 0;
    return end_line(kept, length);
}

/* The lines that end in a piece, and then their answers, so that these come as the lines do. */
static bool take(const char *at, const char *end)
{
    while (at < end) {
        const char *stop = at;
        while (stop < end && *stop != '\n')
            stop++;
        if (stop == end || kept_length)
            keep(at, (size_t)(stop - at));
        if (stop == end)
            break;
        if (!(kept_length ? end_kept() : end_line(at, (size_t)(stop - at))))
            return false;
        at = stop + 1;
    }
    return write_answers();
}

/* A fault is told in a line; there is no exit status for it, as the proved program has none. */
static int fault(const char *what)
{
    char text[128], *at = text;
    size_t length = strlen(what);
    memcpy(at, what, length);
    at = put_number(at + length, line_number);
    *at++ = '\n';
    (void)!write_all(STDERR_FILENO, text, (size_t)(at - text));
    return 0;
}

int main(void)
{
    static char piece[PIECE];
    ssize_t length;
    bool written = true;
    (void)make(RESET, NULL);
    while (written && (length = read(STDIN_FILENO, piece, sizeof piece)) > 0)
        written = take(piece, piece + length);
    if (written && length < 0)
        return fault("replay: standard input cannot be read, after line ");
    if (written && kept_length)
        written = end_kept() && write_answers();
    return written ? 0 : fault("replay: standard output cannot be written, after line ");
}
