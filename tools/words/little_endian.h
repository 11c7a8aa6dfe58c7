/* Numbers of several bytes, low byte first. */

#ifndef LITTLE_ENDIAN_H
#define LITTLE_ENDIAN_H

#include <stdint.h>

uint16_t word_at(const uint8_t *bytes);
uint32_t double_word_at(const uint8_t *bytes);

#endif
