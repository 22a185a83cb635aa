/* Runs the tests of the C face, and says how many checks there were. `scripts/ctest` builds it. */
#include "check.h"

#include <inttypes.h>
#include <stdio.h>
#include <string.h>

uint32_t state[VSK_STATE_WORDS];
uint32_t messages[VSK_LOG_WORDS];
static uint32_t kept_state[VSK_STATE_WORDS];
static uint32_t kept_messages[VSK_LOG_WORDS];
static unsigned checks, failed;

void check(int truth, const char *what, const char *file, int line)
{
    checks++;
    if (truth)
        return;
    failed++;
    printf("%s:%d: not so: %s\n", file, line, what);
}

void equal(uint64_t got, uint64_t wanted, const char *what, const char *file, int line)
{
    check(got == wanted, what, file, line);
    if (got != wanted)
        printf("  it is 0x%" PRIX64 ", wanted 0x%" PRIX64 "\n", got, wanted);
}

void same_text(const char *got, const char *wanted, const char *file, int line)
{
    check(strcmp(got, wanted) == 0, wanted, file, line);
}

void answered(vsk_answer got, uint32_t refusal, uint64_t value, uint32_t count, const char *what,
              const char *file, int line)
{
    const int right = got.refusal == refusal && got.value == value && got.count == count;
    check(right, what, file, line);
    if (!right)
        printf("  it is %s, 0x%" PRIX64 ", %" PRIu32 ", wanted %s, 0x%" PRIX64 ", %" PRIu32 "\n",
               vsk_refusal_name(got.refusal), got.value, got.count, vsk_refusal_name(refusal), value, count);
}

void keep(void)
{
    memcpy(kept_state, state, sizeof state);
    memcpy(kept_messages, messages, sizeof messages);
}

static unsigned changes(const uint32_t *now, const uint32_t *then, unsigned words)
{
    unsigned n = 0;
    for (unsigned i = 0; i < words; i++)
        n += now[i] != then[i];
    return n;
}

unsigned state_changes(void)
{
    return changes(state, kept_state, VSK_STATE_WORDS);
}

unsigned log_changes(void)
{
    return changes(messages, kept_messages, VSK_LOG_WORDS);
}

void start(void)
{
    memset(state, 0xA5, sizeof state);
    memset(messages, 0x5A, sizeof messages);
    keep();
    DONE(vsk_reset(BLOCKS), 0);
    EQUAL(log_changes(), 0);
}

int main(void)
{
    test_macros();
    test_files();
    test_wired();
    test_delivery();
    test_refusals();
    test_stores();
    test_moves();
    printf("c tests: %u checks, %u failed\n", checks, failed);
    return failed != 0;
}
