/* -Wuninitialized: a state that was never set. The log need not be, nor need either before a reset. */
#include "varskumo.h"

uint64_t top_of(uint64_t hart, uint64_t file)
{
    uint32_t state[VSK_STATE_WORDS], messages[VSK_LOG_WORDS];
#ifdef MENDED
    if (vsk_reset(state, VSK_STATE_WORDS, messages, VSK_LOG_WORDS).refusal != VSK_DONE)
        return 0;
#endif
    return vsk_top(state, VSK_STATE_WORDS, messages, VSK_LOG_WORDS, hart, file).value;
}
