/* Numbers drawn at random, by SplitMix64, which takes any seed. */

#ifndef DRAW_H
#define DRAW_H

#include <stddef.h>
#include <stdint.h>

/* The seed, before the first is drawn. */
static uint64_t drawn;

static inline uint64_t draw_word(void)
{
    uint64_t word = drawn += UINT64_C(0x9E3779B97F4A7C15);

    word = (word ^ word >> 30) * UINT64_C(0xBF58476D1CE4E5B9);
    word = (word ^ word >> 27) * UINT64_C(0x94D049BB133111EB);
    return word ^ word >> 31;
}

static inline uint32_t draw(uint32_t below)
{
    return (uint32_t)(draw_word() >> 32) % below;
}

static inline int one_in(uint32_t count)
{
    return draw(count) == 0;
}

static inline void draw_bytes(uint8_t *bytes, size_t length)
{
    uint64_t word = 0;
    size_t i;

    for (i = 0; i < length; i++, word >>= 8) {
        if (i % 8 == 0)
            word = draw_word();
        bytes[i] = (uint8_t)word;
    }
}

#endif
