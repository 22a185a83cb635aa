/* What the tests of the C face share: the two blocks, a count of checks, and a few words to write them with.
 * Every file here is compiled as C and as C++. */
#ifndef CHECK_H
#define CHECK_H

#include "varskumo.h"

/* One board and its log, and what they were when keep() was called. */
extern uint32_t state[VSK_STATE_WORDS];
extern uint32_t messages[VSK_LOG_WORDS];
#define BLOCKS state, VSK_STATE_WORDS, messages, VSK_LOG_WORDS
#define LOG messages, VSK_LOG_WORDS

/* A reset on blocks that held other words. */
void start(void);
void keep(void);
/* How many words of the state, and of the log, are not what they were. */
unsigned state_changes(void);
unsigned log_changes(void);

void check(int truth, const char *what, const char *file, int line);
void equal(uint64_t got, uint64_t wanted, const char *what, const char *file, int line);
void same_text(const char *got, const char *wanted, const char *file, int line);
void answered(vsk_answer got, uint32_t refusal, uint64_t value, uint32_t count, const char *what,
              const char *file, int line);

#define CHECK(truth) check((truth) ? 1 : 0, #truth, __FILE__, __LINE__)
#define EQUAL(got, wanted) equal(got, wanted, #got, __FILE__, __LINE__)
#define TEXT(got, wanted) same_text(got, wanted, __FILE__, __LINE__)
/* A call that is done, with its value, and with the number of its messages. */
#define SENT(call, value, count) answered(call, VSK_DONE, value, count, #call, __FILE__, __LINE__)
#define DONE(call, value) SENT(call, value, 0)
/* A call that is refused, and changes neither block. */
#define REFUSED(call, number)                                           \
    do {                                                                \
        keep();                                                         \
        answered(call, number, 0, 0, #call, __FILE__, __LINE__);        \
        EQUAL(state_changes(), 0);                                      \
        EQUAL(log_changes(), 0);                                        \
    } while (0)
/* At compile time, in C99 too. */
#define ASSERTED(name, truth) typedef char asserted_##name[(truth) ? 1 : -1]

/* The topics, one file each. */
void test_macros(void);
void test_files(void);
void test_wired(void);
void test_delivery(void);
void test_refusals(void);
void test_stores(void);
void test_moves(void);

#endif
