/* -Wunused-result: an answer that nobody looks at, so that a refusal would go unseen. */
#include "varskumo.h"

static uint32_t state[VSK_STATE_WORDS], messages[VSK_LOG_WORDS];

uint32_t raise_wire(void)
{
    uint32_t refusal = VSK_DONE;
#ifdef MENDED
    refusal =
        vsk_wire(state, VSK_STATE_WORDS, messages, VSK_LOG_WORDS, 1, 1).refusal;
#else
    vsk_wire(state, VSK_STATE_WORDS, messages, VSK_LOG_WORDS, 1, 1);
#endif
    return refusal;
}
