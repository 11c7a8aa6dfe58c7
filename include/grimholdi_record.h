/*
 * grimholdi_record.h - records of calls, and a recorder for a firmware
 *
 * docs/CALLS.md lays down the bytes.  All is static inline: nothing is linked
 * but the block calls of grimholdi.h, and those only where a recorder is used.
 *
 * To record its session, a firmware starts a recorder when it makes the hub,
 * hands it the record of each call, in the order of the calls, and finishes
 * it at the end:
 *
 *   uint8_t record[GRIMHOLDI_RECORD_SPACE];
 *
 *   grimholdi_recorder_add(&recorder, record,
 *                          grimholdi_record_poll(record, sizeof record,
 *                                                lane, reply_len));
 *   answer = grimholdi_poll(area, area_len, lane, reply, reply_len);
 *
 * The five numbers of the hub are not recorded: a replay is given them.  Nor
 * is grimholdi_new, which makes another hub: it begins another recording.
 */

#ifndef GRIMHOLDI_RECORD_H
#define GRIMHOLDI_RECORD_H

#include "grimholdi.h"

#ifdef __cplusplus
extern "C" {
#endif

/* Tags: the first byte of a record. */

#define GRIMHOLDI_RECORD_CONTROL         1
#define GRIMHOLDI_RECORD_POLL            2
#define GRIMHOLDI_RECORD_START_SPLIT     3
#define GRIMHOLDI_RECORD_COMPLETE_SPLIT  4
#define GRIMHOLDI_RECORD_LAUNCH          5
#define GRIMHOLDI_RECORD_DELIVER         6
#define GRIMHOLDI_RECORD_LINE_EVENT      7
#define GRIMHOLDI_RECORD_TICK            8
#define GRIMHOLDI_RECORD_BUS_RESET       9

/* Space for every record that fits a block. */
#define GRIMHOLDI_RECORD_SPACE           GRIMHOLDI_BLOCK_USED_MAX

/*
 * Writes a record: the tag, the numbers, and, if `counted`, the count of bytes
 * and the bytes.  Used by the functions below.
 */
static inline size_t grimholdi_record_put(uint8_t *record, size_t record_len,
                                          uint8_t tag, const uint32_t *numbers,
                                          size_t numbers_len, int counted,
                                          const uint8_t *bytes,
                                          size_t bytes_len)
{
    const size_t fixed = 1 + 4 * numbers_len + (counted ? 2 : 0);
    const uint16_t count = (uint16_t)bytes_len;
    size_t at = 0;
    size_t i;

    if (count != bytes_len || record_len < fixed
        || record_len - fixed < bytes_len)
        return 0;
    record[at++] = tag;
    for (i = 0; i < 4 * numbers_len; i++)
        record[at++] = (uint8_t)(numbers[i / 4] >> 8 * (i % 4));
    if (counted) {
        record[at++] = (uint8_t)count;
        record[at++] = (uint8_t)(count >> 8);
    }
    for (i = 0; i < bytes_len; i++)
        record[at++] = bytes[i];
    return at;
}

/* The length of a reply space as a record has it. */
static inline uint32_t grimholdi_record_reply_len(size_t reply_len)
{
    const uint32_t written = (uint32_t)reply_len;

    return written == reply_len ? written : 0xFFFFFFFFu;
}

/*
 * The record of a call: takes the call's own numbers and bytes, any at all,
 * and of its reply space the length.  Writes the record and returns its
 * length.  Where the record is longer than record_len, or has more than 65,535
 * setup or payload bytes, nothing is written, and 0 is returned.  `record`
 * must not overlap the setup or payload bytes.
 */

static inline size_t grimholdi_record_control(uint8_t *record,
                                              size_t record_len,
                                              uint32_t lane,
                                              const uint8_t *setup,
                                              size_t setup_len,
                                              size_t reply_len)
{
    const uint32_t numbers[] = {lane, grimholdi_record_reply_len(reply_len)};

    return grimholdi_record_put(record, record_len, GRIMHOLDI_RECORD_CONTROL,
                                numbers, 2, 1, setup, setup_len);
}

static inline size_t grimholdi_record_poll(uint8_t *record, size_t record_len,
                                           uint32_t lane, size_t reply_len)
{
    const uint32_t numbers[] = {lane, grimholdi_record_reply_len(reply_len)};

    return grimholdi_record_put(record, record_len, GRIMHOLDI_RECORD_POLL,
                                numbers, 2, 0, NULL, 0);
}

static inline size_t grimholdi_record_start_split(uint8_t *record,
                                                  size_t record_len,
                                                  uint32_t lane, uint32_t pid,
                                                  uint32_t transfer,
                                                  uint32_t low_speed,
                                                  uint32_t toggle,
                                                  uint32_t address,
                                                  uint32_t endpoint,
                                                  const uint8_t *payload,
                                                  size_t payload_len)
{
    const uint32_t numbers[] = {lane, pid, transfer, low_speed, toggle,
                                address, endpoint};

    return grimholdi_record_put(record, record_len,
                                GRIMHOLDI_RECORD_START_SPLIT, numbers, 7, 1,
                                payload, payload_len);
}

static inline size_t grimholdi_record_complete_split(uint8_t *record,
                                                     size_t record_len,
                                                     uint32_t lane,
                                                     uint32_t address,
                                                     uint32_t endpoint,
                                                     uint32_t direction,
                                                     size_t reply_len)
{
    const uint32_t numbers[] = {lane, address, endpoint, direction,
                                grimholdi_record_reply_len(reply_len)};

    return grimholdi_record_put(record, record_len,
                                GRIMHOLDI_RECORD_COMPLETE_SPLIT, numbers, 5, 0,
                                NULL, 0);
}

static inline size_t grimholdi_record_launch(uint8_t *record,
                                             size_t record_len,
                                             size_t reply_len)
{
    const uint32_t numbers[] = {grimholdi_record_reply_len(reply_len)};

    return grimholdi_record_put(record, record_len, GRIMHOLDI_RECORD_LAUNCH,
                                numbers, 1, 0, NULL, 0);
}

static inline size_t grimholdi_record_deliver(uint8_t *record,
                                              size_t record_len,
                                              uint32_t result,
                                              const uint8_t *payload,
                                              size_t payload_len)
{
    return grimholdi_record_put(record, record_len, GRIMHOLDI_RECORD_DELIVER,
                                &result, 1, 1, payload, payload_len);
}

static inline size_t grimholdi_record_line_event(uint8_t *record,
                                                 size_t record_len,
                                                 uint32_t event, uint32_t port)
{
    const uint32_t numbers[] = {event, port};

    return grimholdi_record_put(record, record_len,
                                GRIMHOLDI_RECORD_LINE_EVENT, numbers, 2, 0,
                                NULL, 0);
}

static inline size_t grimholdi_record_tick(uint8_t *record, size_t record_len)
{
    return grimholdi_record_put(record, record_len, GRIMHOLDI_RECORD_TICK,
                                NULL, 0, 0, NULL, 0);
}

static inline size_t grimholdi_record_bus_reset(uint8_t *record,
                                                size_t record_len)
{
    return grimholdi_record_put(record, record_len, GRIMHOLDI_RECORD_BUS_RESET,
                                NULL, 0, 0, NULL, 0);
}

/*
 * A recorder: puts records into blocks and hands each finished block, of
 * GRIMHOLDI_BLOCK_LENGTH bytes, to a function of the firmware.  That function
 * answers GRIMHOLDI_ANSWER_DONE once the block is kept, and any other number
 * if it can't be.  The blocks that were kept, one behind the other, are the
 * recording.
 *
 * Once a call that could change the hub is missing, so are all later ones:
 * recording stops, and `number` becomes 0, when
 *
 *   - a block can't be kept,
 *   - block 65,535 is full and a further call comes,
 *   - the bytes handed in are not a record, or the block was damaged.
 *
 * Only a call whose record fits no block is left out without a stop.  It has
 * 476 setup or payload bytes at least: the hub refuses it in every state with
 * GRIMHOLDI_ANSWER_OUTSIDE and changes nothing, so that the calls behind it
 * are answered as if it had not been made.
 *
 * A recorder of zeros records nothing: a firmware that is not asked to record
 * needs no test of its own before grimholdi_recorder_add.  Two calls on one
 * recorder must not run at the same time.
 */

typedef uint8_t grimholdi_keep_block(void *context, const uint8_t *block);

typedef struct {
    uint8_t block[GRIMHOLDI_BLOCK_LENGTH]; /* the block under way */
    uint32_t number;  /* its number, or 0: nothing is recorded */
    uint32_t records; /* records in it */
    uint32_t missed;  /* calls that are in no block: those left out, those of a
                         block that was not kept, and those behind the stop */
    grimholdi_keep_block *keep;
    void *context;    /* handed to `keep` */
} grimholdi_recorder;

/* Starts a recording.  What the recorder held before does not matter. */
static inline void grimholdi_recorder_start(grimholdi_recorder *recorder,
                                            grimholdi_keep_block *keep,
                                            void *context)
{
    recorder->number = 1;
    recorder->records = 0;
    recorder->missed = 0;
    recorder->keep = keep;
    recorder->context = context;
    grimholdi_block_start(recorder->block, GRIMHOLDI_BLOCK_LENGTH, 1);
}

/* Counts missed calls.  The count stays at its highest number. */
static inline void grimholdi_recorder_miss(grimholdi_recorder *recorder,
                                           uint32_t calls)
{
    const uint32_t room = 0xFFFFFFFFu - recorder->missed;

    recorder->missed += calls < room ? calls : room;
}

/* Hands out the block under way and begins the next, or stops. */
static inline void grimholdi_recorder_next(grimholdi_recorder *recorder)
{
    if (grimholdi_block_finish(recorder->block, GRIMHOLDI_BLOCK_LENGTH)
            != GRIMHOLDI_ANSWER_DONE
        || recorder->keep(recorder->context, recorder->block)
            != GRIMHOLDI_ANSWER_DONE) {
        grimholdi_recorder_miss(recorder, recorder->records);
        recorder->number = 0;
    } else if (grimholdi_block_start(recorder->block, GRIMHOLDI_BLOCK_LENGTH,
                                     recorder->number + 1)
               == GRIMHOLDI_ANSWER_DONE)
        recorder->number++;
    else
        recorder->number = 0;
    recorder->records = 0;
}

/*
 * Ends the recording: hands out the last block, if it has a record.  Whether
 * all calls are recorded, `missed` tells now.  Read `number` before: it is 0
 * if recording had stopped.  If it is not, the calls missed so far were left
 * out, and those that are missed now are of a last block that was not kept.
 */
static inline void grimholdi_recorder_finish(grimholdi_recorder *recorder)
{
    if (recorder->number != 0 && recorder->records != 0)
        grimholdi_recorder_next(recorder);
    recorder->number = 0;
}

/*
 * Records a call, or counts it as missed.
 *
 *   record       as a function above wrote it into GRIMHOLDI_RECORD_SPACE
 *                bytes, with the length it returned; 0 is a record that is
 *                longer
 */
static inline void grimholdi_recorder_add(grimholdi_recorder *recorder,
                                          const uint8_t *record,
                                          size_t record_len)
{
    uint8_t added = GRIMHOLDI_ANSWER_NAK;

    if (recorder->number != 0 && record_len != 0
        && record_len <= GRIMHOLDI_RECORD_SPACE) {
        added = grimholdi_block_add(recorder->block, GRIMHOLDI_BLOCK_LENGTH,
                                    record, record_len);
        if (added == GRIMHOLDI_ANSWER_NAK) {
            grimholdi_recorder_next(recorder);
            if (recorder->number != 0)
                added = grimholdi_block_add(recorder->block,
                                            GRIMHOLDI_BLOCK_LENGTH, record,
                                            record_len);
        }
        if (added == GRIMHOLDI_ANSWER_OUTSIDE)
            grimholdi_recorder_finish(recorder);
    }
    if (added == GRIMHOLDI_ANSWER_DONE)
        recorder->records++;
    else
        grimholdi_recorder_miss(recorder, 1);
}

#ifdef __cplusplus
}
#endif

#endif
