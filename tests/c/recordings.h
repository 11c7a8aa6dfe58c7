/*
 * Recordings by docs/CALLS.md: blocks made by hand, a reader of records and
 * blocks, and a replay that makes the calls one by one.
 */

#ifndef RECORDINGS_H
#define RECORDINGS_H

#include "bench_hub.h"
#include "grimholdi_record.h"

enum { BLOCK = 512, USED_MAX = 506, ANSWERS = 37444 };

/* Blocks by hand. */

/* The sum of the first words, low byte first, modulo 65,536. */
static inline uint32_t word_sum(const uint8_t *bytes, size_t words)
{
    uint32_t sum = 0;
    size_t i;

    for (i = 0; i < words; i++)
        sum = (sum + bytes[2 * i] + 256u * bytes[2 * i + 1]) % 65536;
    return sum;
}

static inline void put_two(uint8_t *bytes, uint32_t number)
{
    bytes[0] = (uint8_t)(number % 256);
    bytes[1] = (uint8_t)(number / 256);
}

static inline void put_check(uint8_t *block)
{
    put_two(block + 510, (65536 - word_sum(block, 255)) % 65536);
}

static inline void put_records(uint8_t *block, const uint8_t *records,
                               size_t length)
{
    memset(block, 0, BLOCK);
    put_two(block + 2, (uint32_t)length);
    if (length > 0)
        memcpy(block + 4, records, length);
}

static inline void put_under_way(uint8_t *block, uint32_t number,
                                 const uint8_t *records, size_t length)
{
    put_records(block, records, length);
    put_two(block + 510, number);
}

static inline void put_finished(uint8_t *block, uint32_t number,
                                const uint8_t *records, size_t length)
{
    put_records(block, records, length);
    put_two(block, number);
    put_check(block);
}

/* The reader. */

/* The table's length of a record without its bytes n, or 0 for no call. */
static inline size_t table_length(uint8_t tag)
{
    static const uint8_t lengths[] = {0, 11, 9, 31, 21, 5, 7, 9, 1, 1};

    return tag < sizeof lengths ? lengths[tag] : 0;
}

static inline int has_bytes(uint8_t tag)
{
    return tag == 1 || tag == 3 || tag == 6;
}

/* The length of the record that the bytes begin with, or 0. */
static inline size_t read_record(const uint8_t *bytes, size_t length)
{
    size_t due = length > 0 ? table_length(bytes[0]) : 0;

    if (due == 0 || due > length)
        return 0;
    if (has_bytes(bytes[0]))
        due += bytes[due - 2] + 256u * bytes[due - 1];
    return due > length ? 0 : due;
}

static inline int are_records(const uint8_t *bytes, size_t length)
{
    while (length > 0) {
        size_t first = read_record(bytes, length);

        if (first == 0)
            return 0;
        bytes += first;
        length -= first;
    }
    return 1;
}

/* What a block of 512 bytes is refused for, as a number of grimholdi.h. */
static inline uint8_t read_block(const uint8_t *block, uint32_t place)
{
    const uint32_t count = block[2] + 256u * block[3];
    uint32_t i;

    if (word_sum(block, 256) != 0)
        return 2;
    if (place < 1 || place > 65535 || block[0] + 256u * block[1] != place)
        return 3;
    if (count > USED_MAX)
        return 4;
    for (i = 4 + count; i <= 509; i++)
        if (block[i] != 0)
            return 4;
    return are_records(block + 4, count) ? 0 : 5;
}

/* The calls of a block, one by one. */

static uint8_t twin[GRIMHOLDI_AREA_LENGTH_MAX]; /* as long as the area */
static uint8_t due_answers[ANSWERS];
static grimholdi_replayed due; /* what the replay should give */

static inline uint32_t number_of(const uint8_t *record, int which)
{
    const uint8_t *bytes = record + 1 + 4 * which;

    return bytes[0] + 256u * bytes[1] + 65536u * bytes[2]
           + 16777216u * bytes[3];
}

/* Any length of 64 or more gets the same answer. */
static inline size_t reply_len_of(const uint8_t *record, int which)
{
    uint32_t length = number_of(record, which);

    return length < 64 ? length : 64;
}

static inline grimholdi_answer make_call(const uint8_t *record, size_t length)
{
    uint32_t n[7] = {0};
    int i;

    for (i = 0; i < 7 && 5 + 4 * (size_t)i <= table_length(record[0]); i++)
        n[i] = number_of(record, i);
    switch (record[0]) {
    case 1:
        return grimholdi_control(twin, area_len, n[0], record + 11,
                                 length - 11, reply, reply_len_of(record, 1));
    case 2:
        return grimholdi_poll(twin, area_len, n[0], reply,
                              reply_len_of(record, 1));
    case 3:
        return grimholdi_start_split(twin, area_len, n[0], n[1], n[2], n[3],
                                     n[4], n[5], n[6], record + 31,
                                     length - 31);
    case 4:
        return grimholdi_complete_split(twin, area_len, n[0], n[1], n[2], n[3],
                                        reply, reply_len_of(record, 4));
    case 5:
        return grimholdi_launch(twin, area_len, reply,
                                reply_len_of(record, 0));
    case 6:
        return grimholdi_deliver(twin, area_len, n[0], record + 7, length - 7);
    case 7:
        return grimholdi_line_event(twin, area_len, n[0], n[1]);
    case 8:
        return grimholdi_tick(twin, area_len);
    default:
        return grimholdi_bus_reset(twin, area_len);
    }
}

static inline void keep_due_answer(grimholdi_answer answer)
{
    uint8_t *to = due_answers + due.length;

    to[0] = answer.number;
    to[1] = answer.length;
    to[2] = answer.pid;
    to[3] = answer.transfer;
    to[4] = answer.lane;
    to[5] = answer.address;
    to[6] = answer.endpoint;
    to[7] = answer.direction;
    to[8] = answer.low_speed;
    to[9] = answer.toggle;
    memcpy(to + 10, reply, answer.length);
    due.length += 10u + answer.length;
}

/* What became of each buffer: 0 empty, 1 pending, 2 ready, 3 old. */
static inline void count_moves(const uint8_t *before)
{
    size_t at;

    due.active = 0;
    for (at = 8 + 4u * twin[0]; at < area_len; at += 72) {
        const uint8_t from = before[at];
        const uint8_t to = twin[at];

        due.stored += (from == 0 || from == 3) && to == 1;
        due.answered += from == 2 && to == 3;
        due.emptied += (from == 1 || from == 2) && to == 0;
        due.active = (uint8_t)(due.active + (to == 1 || to == 2));
    }
}

/* Makes the calls of a good block on the twin, a copy of the area. */
static inline void make_calls(const uint8_t *block)
{
    const uint8_t *at = block + 4;
    size_t left = block[2] + 256u * block[3];

    memset(&due, 0, sizeof due);
    memcpy(twin, area, area_len);
    count_moves(area);
    while (left > 0) {
        size_t length = read_record(at, left);
        uint8_t before[GRIMHOLDI_AREA_LENGTH_MAX];

        memcpy(before, twin, area_len);
        keep_due_answer(make_call(at, length));
        count_moves(before);
        at += length;
        left -= length;
    }
}

#endif
