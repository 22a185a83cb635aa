/* -Wrestrict: one block lent as the state and as the log. */
#include "varskumo.h"

static uint32_t state[VSK_STATE_WORDS];
#ifdef MENDED
static uint32_t messages[VSK_LOG_WORDS];
#else
#define messages state
#endif

uint32_t raise_wire(void)
{
    return vsk_wire(state, VSK_STATE_WORDS, messages, VSK_LOG_WORDS, 1, 1).refusal;
}
