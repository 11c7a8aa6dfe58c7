#include "little_endian.h"

uint16_t word_at(const uint8_t *bytes)
{
    return (uint16_t)(bytes[0] | bytes[1] << 8);
}

uint32_t double_word_at(const uint8_t *bytes)
{
    return word_at(bytes) | (uint32_t)word_at(bytes + 2) << 16;
}
