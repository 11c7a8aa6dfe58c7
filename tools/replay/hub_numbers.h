/* The five numbers of a new hub. */

#ifndef HUB_NUMBERS_H
#define HUB_NUMBERS_H

#include "grimholdi.h"

#include "../words/fault.h"

typedef enum {
    HUB_PORTS, HUB_BUFFERS, HUB_POWER_GOOD, HUB_CURRENT, HUB_REMOVABLE,
    HUB_NUMBERS
} hub_number;

/* "PORTS BUFFERS .." */
extern const char hub_number_words[];

/* A line for each number: its word, and what is permitted. */
void print_hub_numbers(void);

/* 1, or 0 and the fault names the first word that is no number. */
int read_hub_numbers(char *const words[HUB_NUMBERS],
                     uint32_t numbers[HUB_NUMBERS], char fault[FAULT_LENGTH]);

/*
 * Writes the new hub.  Its area's length, or 0 and the fault names each number
 * that is outside the rules.
 */
size_t make_hub(const uint32_t numbers[HUB_NUMBERS],
                uint8_t area[GRIMHOLDI_AREA_LENGTH_MAX],
                char fault[FAULT_LENGTH]);

#endif
