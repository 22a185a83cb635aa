/* -Wstringop-overread: a log that is shorter than its length says, lent to a call that does not send. */
#include "varskumo.h"

#ifdef MENDED
#define WORDS VSK_LOG_WORDS
#else
#define WORDS (VSK_LOG_WORDS - 1)
#endif
static uint32_t state[VSK_STATE_WORDS], messages[WORDS];

uint64_t claimed(uint64_t hart, uint64_t file)
{
    return vsk_claim(state, VSK_STATE_WORDS, messages, VSK_LOG_WORDS, hart, file).value;
}
