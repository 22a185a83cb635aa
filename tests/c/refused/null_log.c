/* -Wnonnull: no log, for a call that does not send. A null pointer is not asked for its length. */
#include "varskumo.h"

static uint32_t state[VSK_STATE_WORDS];
#ifdef MENDED
static uint32_t messages[VSK_LOG_WORDS];
#else
#define messages NULL
#endif

uint64_t top_of(uint64_t hart, uint64_t file)
{
    return vsk_top(state, VSK_STATE_WORDS, messages, VSK_LOG_WORDS, hart, file).value;
}
