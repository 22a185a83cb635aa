/* -Wnonnull: an access of a move with no record. */
#include "varskumo.h"

static uint32_t state[VSK_STATE_WORDS], messages[VSK_LOG_WORDS];
#ifdef MENDED
static uint64_t saved[VSK_SAVED_NUMBERS];
#else
#define saved NULL
#endif

uint32_t access_made(uint64_t access)
{
    return vsk_move(state, VSK_STATE_WORDS, messages, VSK_LOG_WORDS, 0, 2, 1, 2, access, saved).refusal;
}
