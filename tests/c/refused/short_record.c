/* -Wstringop-overflow: a record of a move with too few numbers. */
#include "varskumo.h"

#ifdef MENDED
#define NUMBERS VSK_SAVED_NUMBERS
#else
#define NUMBERS (VSK_SAVED_NUMBERS - 1)
#endif
static uint32_t state[VSK_STATE_WORDS], messages[VSK_LOG_WORDS];
static uint64_t saved[NUMBERS];

uint32_t access_made(uint64_t access)
{
    return vsk_move(state, VSK_STATE_WORDS, messages, VSK_LOG_WORDS, 0, 2, 1, 2, access, saved).refusal;
}
