/* -Wstringop-overflow: a log that is shorter than its length says, lent to a call that sends. */
#include "varskumo.h"

#ifdef MENDED
#define WORDS VSK_LOG_WORDS
#else
#define WORDS (VSK_LOG_WORDS - 1)
#endif
static uint32_t state[VSK_STATE_WORDS], messages[WORDS];

uint32_t raise_wire(void)
{
    return vsk_wire(state, VSK_STATE_WORDS, messages, VSK_LOG_WORDS, 1, 1).refusal;
}
