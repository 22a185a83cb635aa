/* The boards that the benchmark starts from, the calls that it measures on them, the mixed shift,
 * and the record of its beginning. */
#ifndef BOARDS_H
#define BOARDS_H

#include "calls.h"

enum { BOARDS = 3, MAX_ITEMS = 128, SHIFT_CALLS = 1000000, RECORD_LINES = 20000 };

/* A call on a board, with the words that it changes, so that each time it meets the same board. */
struct item {
    char name[40];
    struct call call;
    const struct lent *board;
    unsigned changed;
    struct {
        uint16_t place;
        uint32_t word;
    } undo[VSK_STATE_WORDS];
};

/* Fills the boards: empty, half, full. Ends the program if a call on the way is refused. */
void build_boards(struct lent board[BOARDS]);

/* Fills the items and answers their number. Ends the program if the two sides do not agree on one. */
unsigned build_items(const struct lent board[BOARDS], struct item *items);

/* A list of calls as a monitor makes them in a shift, the same for every run. It starts on the half board. */
void build_shift(struct call *shift, unsigned long calls);

/* The calls of bench/shift.record: a reset, those that build the half board, and the first of the shift, so
 * many that there are RECORD_LINES in all. Left out is what the half board has and no call made, its record
 * of a move: the shift's moves save before they restore. */
void build_record(struct call record[RECORD_LINES]);

#endif
