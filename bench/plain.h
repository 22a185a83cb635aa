/* The board in plain C: the calls of varskumo.h under other names, with the same promises and no proof. */
#ifndef PLAIN_H
#define PLAIN_H

#include "varskumo.h"

#define PLAIN_BLOCKS uint32_t *state, size_t state_len, uint32_t *log, size_t log_len

vsk_answer plain_reset(PLAIN_BLOCKS);
vsk_answer plain_wire(PLAIN_BLOCKS, uint64_t wire, uint64_t level);
vsk_answer plain_domain_read(PLAIN_BLOCKS, uint64_t domain, uint64_t address);
vsk_answer plain_domain_write(PLAIN_BLOCKS, uint64_t domain, uint64_t address, uint32_t value);
vsk_answer plain_page_read(PLAIN_BLOCKS, uint64_t hart, uint64_t file, uint64_t address);
vsk_answer plain_page_write(PLAIN_BLOCKS, uint64_t hart, uint64_t file, uint64_t address, uint32_t value);
vsk_answer plain_register(PLAIN_BLOCKS, uint64_t hart, uint64_t file, uint64_t kind, uint64_t select,
                          uint64_t value);
vsk_answer plain_top(PLAIN_BLOCKS, uint64_t hart, uint64_t file);
vsk_answer plain_claim(PLAIN_BLOCKS, uint64_t hart, uint64_t file);
vsk_answer plain_signals(PLAIN_BLOCKS, uint64_t hart);
vsk_answer plain_move(PLAIN_BLOCKS, uint64_t old_hart, uint64_t old_file, uint64_t new_hart,
                      uint64_t new_file, uint64_t access, uint64_t saved[VSK_SAVED_NUMBERS]);

#endif
