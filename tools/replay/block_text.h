/* A block's calls and answers as lines; a refused block in a sentence. */

#ifndef BLOCK_TEXT_H
#define BLOCK_TEXT_H

#include "grimholdi.h"

#include "../words/fault.h"

/* A line for each call; `answers` is what the library wrote. */
void print_block(uint32_t place, const uint8_t block[GRIMHOLDI_BLOCK_LENGTH],
                 const uint8_t *answers);

/* `refusal` is the library's: its word, and what is wrong. */
void block_fault(unsigned refusal, uint32_t place, const uint8_t *block,
                 size_t length, char fault[FAULT_LENGTH]);

#endif
