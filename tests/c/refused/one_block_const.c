/* -Wrestrict: one block lent as the state, which is stored to, and as the log, which is not. */
#include "varskumo.h"

static uint32_t state[VSK_STATE_WORDS];
#ifdef MENDED
static uint32_t messages[VSK_LOG_WORDS];
#else
#define messages state
#endif

uint64_t claimed(uint64_t hart, uint64_t file)
{
    return vsk_claim(state, VSK_STATE_WORDS, messages, VSK_LOG_WORDS, hart, file).value;
}
