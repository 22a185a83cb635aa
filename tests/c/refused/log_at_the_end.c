/* -Wstringop-overflow: a log that is said to lie at the end of the state, where 63 words are not left. */
#include "varskumo.h"

#ifdef MENDED
static uint32_t state[VSK_STATE_WORDS + VSK_LOG_WORDS];
#define messages (state + VSK_STATE_WORDS)
#else
static uint32_t state[VSK_STATE_WORDS];
#define messages (state + VSK_STATE_WORDS - VSK_LOG_WORDS + 1)
#endif

uint32_t raise_wire(void)
{
    return vsk_wire(state, VSK_STATE_WORDS, messages, VSK_LOG_WORDS, 1, 1).refusal;
}
