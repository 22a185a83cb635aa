/* -Wdiscarded-qualifiers: a state that must not change, lent to a call that stores. */
#include "varskumo.h"

uint64_t taken(const uint32_t *state, const uint32_t *messages)
{
#ifdef MENDED
    return vsk_top(state, VSK_STATE_WORDS, messages, VSK_LOG_WORDS, 0, 0).value;
#else
    return vsk_claim(state, VSK_STATE_WORDS, messages, VSK_LOG_WORDS, 0, 0).value;
#endif
}
