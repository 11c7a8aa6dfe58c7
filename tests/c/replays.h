/*
 * Blocks of calls, put together with the builders, and their replay compared
 * with the calls made one by one.
 */

#ifndef REPLAYS_H
#define REPLAYS_H

#include "recordings.h"

static uint8_t *block;
static uint8_t *answers;

/* The records of the next block. */
static uint8_t records[USED_MAX];
static size_t used;

/* Builders, at the end of the records. */

#define ADD(name, ...)                                                   \
    add_built(grimholdi_record_##name(records + used, USED_MAX - used,   \
                                      __VA_ARGS__))

/* A record that doesn't fit has no length. */
static inline void add_built(size_t length)
{
    CHECK(length != 0);
    used += length;
}

static inline void add_one_byte(uint8_t tag)
{
    records[used++] = tag;
}

static inline void add_start_in(uint32_t lane, uint32_t address)
{
    ADD(start_split, lane, GRIMHOLDI_PID_IN, GRIMHOLDI_TRANSFER_BULK, 0, 0,
        address, 1, NULL, 0);
}

static inline void add_launch(void)
{
    ADD(launch, 64);
}

static inline void add_deliver(const char *text)
{
    ADD(deliver, GRIMHOLDI_RESULT_DATA0, (const uint8_t *)text, strlen(text));
}

static inline void add_complete(uint32_t lane, uint32_t address)
{
    ADD(complete_split, lane, address, 1, GRIMHOLDI_DIRECTION_IN, 64);
}

static inline void add_request(uint32_t lane, uint8_t type, uint8_t code,
                               uint16_t value, uint16_t index)
{
    uint8_t setup[GRIMHOLDI_SETUP_LENGTH];

    put_setup(setup, type, code, value, index, 0);
    ADD(control, lane, setup, sizeof setup, 64);
}

static inline void add_configure(uint16_t value)
{
    add_request(0, GRIMHOLDI_TYPE_SET_CONFIGURATION,
                GRIMHOLDI_REQUEST_SET_CONFIGURATION, value, 0);
}

static inline void add_reset_tt(uint32_t lane)
{
    add_request(lane, GRIMHOLDI_TYPE_SET_PORT, GRIMHOLDI_REQUEST_RESET_TT, 0,
                1);
}

static inline void add_clear_tt(uint32_t lane, uint16_t address)
{
    add_request(lane, GRIMHOLDI_TYPE_SET_PORT,
                GRIMHOLDI_REQUEST_CLEAR_TT_BUFFER,
                tt_value(address, 1, GRIMHOLDI_DIRECTION_IN), 1);
}

/* Replays. */

static inline grimholdi_replayed replay(uint32_t place)
{
    return grimholdi_replay_block(area, area_len, place, block, BLOCK, answers,
                                  ANSWERS);
}

static inline int is_result(grimholdi_replayed r, uint8_t number,
                            uint8_t refusal, uint8_t active, uint32_t length)
{
    return r.number == number && r.refusal == refusal && r.active == active
           && r.length == length;
}

static inline int is_tally(grimholdi_replayed r, uint32_t stored,
                           uint32_t answered, uint32_t emptied)
{
    return r.stored == stored && r.answered == answered
           && r.emptied == emptied;
}

/* Replays the good block, and compares all with the calls made one by one. */
static inline grimholdi_replayed check_replay(uint32_t place)
{
    grimholdi_replayed r;

    make_calls(block);
    memset(answers, 0xEE, due.length + 100);
    r = replay(place);
    CHECK(is_result(r, GRIMHOLDI_ANSWER_DONE, GRIMHOLDI_REFUSED_NOT,
                    due.active, due.length));
    CHECK(is_tally(r, due.stored, due.answered, due.emptied));
    CHECK(memcmp(answers, due_answers, due.length) == 0);
    CHECK(answers[due.length] == 0xEE && answers[due.length + 99] == 0xEE);
    CHECK(memcmp(area, twin, area_len) == 0);
    return r;
}

static inline void lend_memory(void)
{
    block = allocate(BLOCK);
    answers = allocate(ANSWERS);
}

static inline void free_memory(void)
{
    free(block);
    free(answers);
    free_hub();
}

#endif
