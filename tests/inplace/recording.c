/*
 * The blocks of a recording and their replay in plain C, by docs/CALLS.md.
 * The replay makes the calls of inplace.c.
 */

#include "inplace.h"

#include "grimholdi_record.h"

#include <string.h>

enum { /* bytes of a block */
    NUMBER = 0,
    COUNT = 2,
    RECORDS = 4,
    CHECK = 510
};

static uint32_t word_at(const uint8_t *bytes)
{
    return bytes[0] | (uint32_t)bytes[1] << 8;
}

static void put_word(uint8_t *bytes, uint32_t word)
{
    bytes[0] = (uint8_t)word;
    bytes[1] = (uint8_t)(word >> 8);
}

/* Records. */

enum { NUMBERS_MAX = 7 };

/* What follows the tag: numbers of four bytes, then counted bytes. */
static const struct {
    uint8_t numbers;
    uint8_t counted;
} forms[] = {
    [GRIMHOLDI_RECORD_CONTROL] = {2, 1},
    [GRIMHOLDI_RECORD_POLL] = {2, 0},
    [GRIMHOLDI_RECORD_START_SPLIT] = {7, 1},
    [GRIMHOLDI_RECORD_COMPLETE_SPLIT] = {5, 0},
    [GRIMHOLDI_RECORD_LAUNCH] = {1, 0},
    [GRIMHOLDI_RECORD_DELIVER] = {1, 1},
    [GRIMHOLDI_RECORD_LINE_EVENT] = {2, 0},
    [GRIMHOLDI_RECORD_TICK] = {0, 0},
    [GRIMHOLDI_RECORD_BUS_RESET] = {0, 0}
};

/* The length of a record without its setup or payload bytes. */
static size_t fixed_length(uint8_t tag)
{
    return 1u + 4u * forms[tag].numbers + 2u * forms[tag].counted;
}

/* The length of the record at the beginning of the bytes; 0 is none. */
static size_t record_length(const uint8_t *bytes, size_t length)
{
    size_t fixed, counted;

    if (length == 0 || bytes[0] < GRIMHOLDI_RECORD_CONTROL
        || bytes[0] > GRIMHOLDI_RECORD_BUS_RESET)
        return 0;
    fixed = fixed_length(bytes[0]);
    if (fixed > length)
        return 0;
    counted = forms[bytes[0]].counted ? word_at(bytes + fixed - 2) : 0;
    return counted > length - fixed ? 0 : fixed + counted;
}

typedef struct {
    uint8_t tag;
    uint32_t numbers[NUMBERS_MAX]; /* in the order of the C function */
    const uint8_t *bytes;          /* setup or payload */
    size_t length;
} call;

/* The record is one. */
static call call_of(const uint8_t *record, size_t length)
{
    call c = {0};
    uint32_t i;

    c.tag = record[0];
    for (i = 0; i < forms[c.tag].numbers; i++)
        c.numbers[i] = word_at(record + 1 + 4 * i)
                       | word_at(record + 3 + 4 * i) << 16;
    c.bytes = record + fixed_length(c.tag);
    c.length = length - fixed_length(c.tag);
    return c;
}

/* Blocks. */

static uint16_t sum(const uint8_t *block)
{
    uint32_t words = 0;
    size_t i;

    for (i = 0; i < GRIMHOLDI_BLOCK_LENGTH; i += 2)
        words += word_at(block + i);
    return (uint16_t)words;
}

/* The count is at most 506, and the bytes behind it are zero. */
static int count_ok(const uint8_t *block)
{
    size_t i;

    if (word_at(block + COUNT) > GRIMHOLDI_BLOCK_USED_MAX)
        return 0;
    for (i = RECORDS + word_at(block + COUNT); i < CHECK; i++)
        if (block[i] != 0)
            return 0;
    return 1;
}

/* The bytes used are records, one behind the other. */
static int records_ok(const uint8_t *block)
{
    const size_t end = RECORDS + word_at(block + COUNT);
    size_t at = RECORDS;

    while (at < end) {
        size_t length = record_length(block + at, end - at);

        if (length == 0)
            return 0;
        at += length;
    }
    return 1;
}

/* The number waits in the place of the check. */
static int under_way(const uint8_t *block, size_t block_len)
{
    return block_len == GRIMHOLDI_BLOCK_LENGTH && word_at(block + NUMBER) == 0
           && word_at(block + CHECK) != 0
           && word_at(block + COUNT) <= GRIMHOLDI_BLOCK_USED_MAX;
}

static uint8_t refusal(const uint8_t *block, size_t block_len, uint32_t place)
{
    if (block_len != GRIMHOLDI_BLOCK_LENGTH)
        return GRIMHOLDI_REFUSED_LENGTH;
    if (sum(block) != 0)
        return GRIMHOLDI_REFUSED_CHECK;
    if (place == 0 || word_at(block + NUMBER) != place)
        return GRIMHOLDI_REFUSED_NUMBER;
    if (!count_ok(block))
        return GRIMHOLDI_REFUSED_COUNT;
    return records_ok(block) ? GRIMHOLDI_REFUSED_NOT
                             : GRIMHOLDI_REFUSED_RECORD;
}

uint8_t INPLACE(block_start)(uint8_t *block, size_t block_len, uint32_t number)
{
    if (block_len != GRIMHOLDI_BLOCK_LENGTH || number == 0
        || number > GRIMHOLDI_BLOCK_NUMBER_MAX)
        return GRIMHOLDI_ANSWER_OUTSIDE;
    memset(block, 0, block_len);
    put_word(block + CHECK, number);
    return GRIMHOLDI_ANSWER_DONE;
}

uint8_t INPLACE(block_add)(uint8_t *block, size_t block_len,
                           const uint8_t *record, size_t record_len)
{
    uint32_t used;

    if (!under_way(block, block_len) || record_len == 0
        || record_length(record, record_len) != record_len)
        return GRIMHOLDI_ANSWER_OUTSIDE;
    used = word_at(block + COUNT);
    if (record_len > GRIMHOLDI_BLOCK_USED_MAX - used)
        return GRIMHOLDI_ANSWER_NAK;
    memcpy(block + RECORDS + used, record, record_len);
    put_word(block + COUNT, used + (uint32_t)record_len);
    return GRIMHOLDI_ANSWER_DONE;
}

uint8_t INPLACE(block_finish)(uint8_t *block, size_t block_len)
{
    if (!under_way(block, block_len) || !count_ok(block) || !records_ok(block))
        return GRIMHOLDI_ANSWER_OUTSIDE;
    put_word(block + NUMBER, word_at(block + CHECK));
    put_word(block + CHECK, 0);
    put_word(block + CHECK, 0u - sum(block));
    return GRIMHOLDI_ANSWER_DONE;
}

/* Replay. */

/* The recorded length, as far as it matters. */
static size_t space(uint32_t reply_len)
{
    return reply_len < GRIMHOLDI_REPLY_LENGTH ? reply_len
                                              : GRIMHOLDI_REPLY_LENGTH;
}

static grimholdi_answer make(uint8_t *area, size_t area_len, const call *c,
                             uint8_t reply[GRIMHOLDI_REPLY_LENGTH])
{
    const uint32_t *n = c->numbers;

    switch (c->tag) {
    case GRIMHOLDI_RECORD_CONTROL:
        return INPLACE(control)(area, area_len, n[0], c->bytes, c->length,
                                reply, space(n[1]));
    case GRIMHOLDI_RECORD_POLL:
        return INPLACE(poll)(area, area_len, n[0], reply, space(n[1]));
    case GRIMHOLDI_RECORD_START_SPLIT:
        return INPLACE(start_split)(area, area_len, n[0], n[1], n[2], n[3],
                                    n[4], n[5], n[6], c->bytes, c->length);
    case GRIMHOLDI_RECORD_COMPLETE_SPLIT:
        return INPLACE(complete_split)(area, area_len, n[0], n[1], n[2], n[3],
                                       reply, space(n[4]));
    case GRIMHOLDI_RECORD_LAUNCH:
        return INPLACE(launch)(area, area_len, reply, space(n[0]));
    case GRIMHOLDI_RECORD_DELIVER:
        return INPLACE(deliver)(area, area_len, n[0], c->bytes, c->length);
    case GRIMHOLDI_RECORD_LINE_EVENT:
        return INPLACE(line_event)(area, area_len, n[0], n[1]);
    case GRIMHOLDI_RECORD_TICK:
        return INPLACE(tick)(area, area_len);
    default:
        return INPLACE(bus_reset)(area, area_len);
    }
}

/* Writes an answer whole; returns its length. */
static uint32_t put_answer(uint8_t *answers, grimholdi_answer a,
                           const uint8_t *reply)
{
    const uint8_t fields[] = {
        a.number, a.length, a.pid, a.transfer, a.lane, a.address, a.endpoint,
        a.direction, a.low_speed, a.toggle
    };

    memcpy(answers, fields, sizeof fields);
    memcpy(answers + sizeof fields, reply, a.length);
    return (uint32_t)sizeof fields + a.length;
}

/* By how many buffers were pending or ready before the call, and are now. */
static void tally(grimholdi_replayed *r, uint8_t tag, uint8_t active)
{
    if (active > r->active)
        r->stored += (uint32_t)(active - r->active);
    else if (tag == GRIMHOLDI_RECORD_COMPLETE_SPLIT)
        r->answered += (uint32_t)(r->active - active);
    else
        r->emptied += (uint32_t)(r->active - active);
    r->active = active;
}

/* The block is good. */
static void replay(uint8_t *area, size_t area_len, const uint8_t *block,
                   uint8_t *answers, grimholdi_replayed *r)
{
    const size_t end = RECORDS + word_at(block + COUNT);
    size_t at = RECORDS;

    while (at < end) {
        uint8_t reply[GRIMHOLDI_REPLY_LENGTH];
        size_t length = record_length(block + at, end - at);
        call c = call_of(block + at, length);

        r->length += put_answer(answers + r->length,
                                make(area, area_len, &c, reply), reply);
        tally(r, c.tag, INPLACE(active)(area));
        at += length;
    }
}

grimholdi_replayed INPLACE(replay_block)(uint8_t *area, size_t area_len,
                                         uint32_t place, const uint8_t *block,
                                         size_t block_len, uint8_t *answers,
                                         size_t answers_len)
{
    grimholdi_replayed r = {0};

    if (INPLACE(why_tick)(area, area_len).kind != GRIMHOLDI_WHY_NONE)
        r.number = GRIMHOLDI_ANSWER_OUTSIDE;
    else if (answers_len < GRIMHOLDI_ANSWERS_LENGTH)
        r.number = GRIMHOLDI_ANSWER_NO_SPACE;
    else {
        r.number = GRIMHOLDI_ANSWER_DONE;
        r.refusal = refusal(block, block_len, place);
        r.active = INPLACE(active)(area);
        if (r.refusal == GRIMHOLDI_REFUSED_NOT)
            replay(area, area_len, block, answers, &r);
    }
    return r;
}
