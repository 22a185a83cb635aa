/* -Wdiscarded-qualifiers: a log that must not change, lent to a call that sends. */
#include "varskumo.h"

uint32_t changed(uint32_t *state, const uint32_t *messages)
{
#ifdef MENDED
    return vsk_page_write(state, VSK_STATE_WORDS, messages, VSK_LOG_WORDS, 0, 0, VSK_SETEIPNUM_LE, 1).refusal;
#else
    return vsk_wire(state, VSK_STATE_WORDS, messages, VSK_LOG_WORDS, 1, 1).refusal;
#endif
}
