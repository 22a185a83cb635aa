/* -Wstringop-overflow: a state that is shorter than its length says. */
#include "varskumo.h"

#ifdef MENDED
#define WORDS VSK_STATE_WORDS
#else
#define WORDS (VSK_STATE_WORDS - 1)
#endif
static uint32_t state[WORDS], messages[VSK_LOG_WORDS];

uint32_t raise_wire(void)
{
    return vsk_wire(state, VSK_STATE_WORDS, messages, VSK_LOG_WORDS, 1, 1).refusal;
}
