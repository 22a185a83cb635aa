/* -Wstringop-overread: a state that a call only reads, and that is shorter than its length says. */
#include "varskumo.h"

#ifdef MENDED
#define WORDS VSK_STATE_WORDS
#else
#define WORDS (VSK_STATE_WORDS - 1)
#endif
static uint32_t state[WORDS], messages[VSK_LOG_WORDS];

uint64_t signals_of(uint64_t hart)
{
    return vsk_signals(state, VSK_STATE_WORDS, messages, VSK_LOG_WORDS, hart).value;
}
