/*
 * Makes one kind of call in a loop, for an instruction count.
 *
 * Usage: speed library|inplace WHAT PORTS BUFFERS LOOPS
 *
 *   in, out             one 64-byte bulk transaction through its four calls
 *   in-start, in-launch, in-deliver, in-complete, and the same with out-
 *                       one of the four calls, after the area is restored
 *   restore             restoring the area alone
 *   poll, status, tick  that call; status is GetPortStatus
 *   why_start           the reason of a start-split of lane 1: the limit
 *   why_poll            the reason of a poll: the change bits
 *   block_add           a start-split's record, into a block that holds one
 *   replay_block        a block of ten calls: two 64-byte bulk transactions IN
 *                       of four calls each, a poll and a tick
 *
 * All ports are enabled with change bits set.  The calls that are measured are
 * made in lane 0, which holds the first buffer.  All others hold a ready
 * 64-byte result of lane 1, as many as the limit permits.
 */

#include "inplace.h"

#include "grimholdi_record.h"

#include <stdio.h>
#include <stdlib.h>
#include <string.h>

enum { START, LAUNCH, DELIVER, COMPLETE, STAGES };

enum { LANE = 0, OTHER_LANE = 1 };

enum { ADDRESS = 5, OTHER_ADDRESS = 6, ENDPOINT = 1 };

typedef struct {
    size_t (*area_length)(uint32_t, uint32_t);
    grimholdi_answer (*new_hub)(uint8_t *, size_t, uint32_t, uint32_t,
                                uint32_t, uint32_t, uint32_t);
    grimholdi_answer (*control)(uint8_t *, size_t, uint32_t, const uint8_t *,
                                size_t, uint8_t *, size_t);
    grimholdi_answer (*poll)(const uint8_t *, size_t, uint32_t, uint8_t *,
                             size_t);
    grimholdi_answer (*start_split)(uint8_t *, size_t, uint32_t, uint32_t,
                                    uint32_t, uint32_t, uint32_t, uint32_t,
                                    uint32_t, const uint8_t *, size_t);
    grimholdi_answer (*complete_split)(uint8_t *, size_t, uint32_t, uint32_t,
                                       uint32_t, uint32_t, uint8_t *, size_t);
    grimholdi_answer (*launch)(uint8_t *, size_t, uint8_t *, size_t);
    grimholdi_answer (*deliver)(uint8_t *, size_t, uint32_t, const uint8_t *,
                                size_t);
    grimholdi_answer (*line_event)(uint8_t *, size_t, uint32_t, uint32_t);
    grimholdi_answer (*tick)(uint8_t *, size_t);
    grimholdi_reason (*why_start_split)(const uint8_t *, size_t, uint32_t,
                                            uint32_t, uint32_t, uint32_t,
                                            uint32_t, uint32_t, uint32_t,
                                            const uint8_t *, size_t);
    grimholdi_reason (*why_poll)(const uint8_t *, size_t, uint32_t,
                                     size_t);
    uint8_t (*block_start)(uint8_t *, size_t, uint32_t);
    uint8_t (*block_add)(uint8_t *, size_t, const uint8_t *, size_t);
    uint8_t (*block_finish)(uint8_t *, size_t);
    grimholdi_replayed (*replay_block)(uint8_t *, size_t, uint32_t,
                                       const uint8_t *, size_t, uint8_t *,
                                       size_t);
} hub_calls;

static const hub_calls library_calls = {
    grimholdi_area_length, grimholdi_new, grimholdi_control, grimholdi_poll,
    grimholdi_start_split, grimholdi_complete_split, grimholdi_launch,
    grimholdi_deliver, grimholdi_line_event, grimholdi_tick,
    grimholdi_why_start_split, grimholdi_why_poll,
    grimholdi_block_start, grimholdi_block_add, grimholdi_block_finish,
    grimholdi_replay_block
};

static const hub_calls inplace_calls = {
    inplace_area_length, inplace_new, inplace_control, inplace_poll,
    inplace_start_split, inplace_complete_split, inplace_launch,
    inplace_deliver, inplace_line_event, inplace_tick,
    inplace_why_start_split, inplace_why_poll,
    inplace_block_start, inplace_block_add, inplace_block_finish,
    inplace_replay_block
};

static const hub_calls *calls;
static uint8_t area[GRIMHOLDI_AREA_LENGTH_MAX];
static size_t area_len;
static uint8_t reply[GRIMHOLDI_REPLY_LENGTH];
static uint8_t payload[GRIMHOLDI_PAYLOAD_MAX];
static uint8_t block[GRIMHOLDI_BLOCK_LENGTH];
static uint8_t record[GRIMHOLDI_RECORD_SPACE];
static uint8_t answers[GRIMHOLDI_ANSWERS_LENGTH];
static uint32_t ports;
static uint32_t buffers;

static void expect(grimholdi_answer answer, uint8_t number)
{
    if (answer.number != number) {
        fprintf(stderr, "speed: answer %d instead of %d\n", answer.number,
                number);
        exit(1);
    }
}

static void expect_kind(grimholdi_reason reason, uint8_t kind)
{
    if (reason.kind != kind) {
        fprintf(stderr, "speed: reason %d instead of %d\n", reason.kind, kind);
        exit(1);
    }
}

static void expect_done(uint8_t number)
{
    if (number != GRIMHOLDI_ANSWER_DONE) {
        fprintf(stderr, "speed: block call answered %d\n", number);
        exit(1);
    }
}

static grimholdi_answer request(uint8_t type, uint8_t code, uint8_t value,
                                uint8_t index, uint8_t length)
{
    const uint8_t setup[GRIMHOLDI_SETUP_LENGTH] = {type, code, value, 0,
                                                   index, 0, length, 0};

    return calls->control(area, area_len, LANE, setup, sizeof setup,
                          reply, sizeof reply);
}

/* One of the four calls of a transaction; launch and deliver name no key. */
static void stage(int which, int out, uint32_t lane, uint32_t address)
{
    switch (which) {
    case START:
        expect(calls->start_split(area, area_len, lane,
                                  out ? GRIMHOLDI_PID_OUT : GRIMHOLDI_PID_IN,
                                  GRIMHOLDI_TRANSFER_BULK, 0, 0, address,
                                  ENDPOINT, payload, out ? sizeof payload : 0),
               GRIMHOLDI_ANSWER_DONE);
        break;
    case LAUNCH:
        expect(calls->launch(area, area_len, reply, sizeof reply),
               GRIMHOLDI_ANSWER_DATA);
        break;
    case DELIVER:
        expect(calls->deliver(area, area_len,
                              out ? GRIMHOLDI_RESULT_ACK
                                  : GRIMHOLDI_RESULT_DATA0,
                              payload, out ? 0 : sizeof payload),
               GRIMHOLDI_ANSWER_DONE);
        break;
    case COMPLETE:
        expect(calls->complete_split(area, area_len, lane, address, ENDPOINT,
                                     out ? GRIMHOLDI_DIRECTION_OUT
                                         : GRIMHOLDI_DIRECTION_IN,
                                     reply, sizeof reply),
               out ? GRIMHOLDI_ANSWER_HANDSHAKE : GRIMHOLDI_ANSWER_DATA);
        break;
    }
}

static void set_up(int out)
{
    uint32_t i;
    int which;

    area_len = calls->area_length(ports, buffers);
    expect(calls->new_hub(area, area_len, ports, buffers, 50, 100, 0),
           GRIMHOLDI_ANSWER_DONE);
    expect(request(GRIMHOLDI_TYPE_SET_CONFIGURATION,
                   GRIMHOLDI_REQUEST_SET_CONFIGURATION, 1, 0, 0),
           GRIMHOLDI_ANSWER_DONE);
    for (i = 1; i <= ports; i++) {
        expect(request(GRIMHOLDI_TYPE_SET_PORT, GRIMHOLDI_REQUEST_SET_FEATURE,
                       GRIMHOLDI_PORT_POWER, (uint8_t)i, 0),
               GRIMHOLDI_ANSWER_DONE);
        expect(calls->line_event(area, area_len, GRIMHOLDI_EVENT_ATTACH_FULL,
                                 i), GRIMHOLDI_ANSWER_DONE);
        expect(request(GRIMHOLDI_TYPE_SET_PORT, GRIMHOLDI_REQUEST_SET_FEATURE,
                       GRIMHOLDI_PORT_RESET, (uint8_t)i, 0),
               GRIMHOLDI_ANSWER_DONE);
    }
    for (i = 0; i < GRIMHOLDI_RESET_TICKS; i++)
        expect(calls->tick(area, area_len), GRIMHOLDI_ANSWER_DONE);

    /* One whole transaction in buffer 0, then results in the others. */
    memset(payload, 0x5A, sizeof payload);
    for (which = START; which < STAGES; which++) {
        if (which == LAUNCH)
            for (i = 1; i < buffers; i++)
                stage(START, 0, OTHER_LANE, OTHER_ADDRESS + i);
        stage(which, out, LANE, ADDRESS);
    }
    for (i = 1; i < buffers; i++) {
        stage(LAUNCH, 0, OTHER_LANE, OTHER_ADDRESS + i);
        stage(DELIVER, 0, OTHER_LANE, OTHER_ADDRESS + i);
    }
}

static int is(const char *word, const char *other)
{
    return strcmp(word, other) == 0;
}

/* What to measure: one of the stages, or one of these. */
enum {
    TRANSACTION = STAGES, RESTORE, POLL, STATUS, TICK, EXPLAIN_START,
    EXPLAIN_POLL, ADD, REPLAY, UNKNOWN
};

static int named(const char *what)
{
    static const struct {
        const char *name;
        int kind;
    } names[] = {
        {"in", TRANSACTION},      {"out", TRANSACTION},
        {"in-start", START},      {"out-start", START},
        {"in-launch", LAUNCH},    {"out-launch", LAUNCH},
        {"in-deliver", DELIVER},  {"out-deliver", DELIVER},
        {"in-complete", COMPLETE}, {"out-complete", COMPLETE},
        {"restore", RESTORE},     {"poll", POLL},
        {"status", STATUS},       {"tick", TICK},
        {"why_start", EXPLAIN_START}, {"why_poll", EXPLAIN_POLL},
        {"block_add", ADD},       {"replay_block", REPLAY}
    };
    size_t i;

    for (i = 0; i < sizeof names / sizeof *names; i++)
        if (is(what, names[i].name))
            return names[i].kind;
    return UNKNOWN;
}

static void measure(int kind, int out, long loops)
{
    uint8_t saved[GRIMHOLDI_AREA_LENGTH_MAX];
    int which;

    if (kind < STAGES)
        for (which = START; which < kind; which++)
            stage(which, out, LANE, ADDRESS);
    memcpy(saved, area, area_len);

    while (loops-- > 0) {
        switch (kind) {
        case TRANSACTION:
            for (which = START; which < STAGES; which++)
                stage(which, out, LANE, ADDRESS);
            break;
        case RESTORE:
            memcpy(area, saved, area_len);
            break;
        case POLL:
            expect(calls->poll(area, area_len, LANE, reply, sizeof reply),
                   GRIMHOLDI_ANSWER_DATA);
            break;
        case STATUS:
            expect(request(GRIMHOLDI_TYPE_GET_PORT,
                           GRIMHOLDI_REQUEST_GET_STATUS, 0, (uint8_t)ports, 4),
                   GRIMHOLDI_ANSWER_DATA);
            break;
        case TICK:
            expect(calls->tick(area, area_len), GRIMHOLDI_ANSWER_DONE);
            break;
        default:
            memcpy(area, saved, area_len);
            stage(kind, out, LANE, ADDRESS);
            break;
        }
    }
}

/* The other lane holds all buffers but one, and none with its key. */
static void explain_starts(long loops)
{
    while (loops-- > 0)
        expect_kind(calls->why_start_split(area, area_len, OTHER_LANE,
                                               GRIMHOLDI_PID_IN,
                                               GRIMHOLDI_TRANSFER_BULK, 0, 0,
                                               OTHER_ADDRESS, ENDPOINT,
                                               payload, 0),
                    GRIMHOLDI_WHY_LIMIT);
}

static void explain_polls(long loops)
{
    while (loops-- > 0)
        expect_kind(calls->why_poll(area, area_len, LANE, sizeof reply),
                    GRIMHOLDI_WHY_CHANGES);
}

/* The record of one of the four calls of a transaction IN. */
static size_t record_stage(int which)
{
    switch (which) {
    case START:
        return grimholdi_record_start_split(record, sizeof record, LANE,
                                            GRIMHOLDI_PID_IN,
                                            GRIMHOLDI_TRANSFER_BULK, 0, 0,
                                            ADDRESS, ENDPOINT, NULL, 0);
    case LAUNCH:
        return grimholdi_record_launch(record, sizeof record, sizeof reply);
    case DELIVER:
        return grimholdi_record_deliver(record, sizeof record,
                                        GRIMHOLDI_RESULT_DATA0, payload,
                                        sizeof payload);
    default:
        return grimholdi_record_complete_split(record, sizeof record, LANE,
                                               ADDRESS, ENDPOINT,
                                               GRIMHOLDI_DIRECTION_IN,
                                               sizeof reply);
    }
}

static void add(size_t record_len)
{
    expect_done(calls->block_add(block, sizeof block, record, record_len));
}

/* Bytes 2 and 3 of the block are the count. */
static void add_records(long loops)
{
    const size_t length = record_stage(START);

    expect_done(calls->block_start(block, sizeof block, 1));
    add(length);
    while (loops-- > 0) {
        block[2] = (uint8_t)length;
        add(length);
    }
}

static void replay_blocks(long loops)
{
    int i;

    expect_done(calls->block_start(block, sizeof block, 1));
    for (i = 0; i < 2 * STAGES; i++)
        add(record_stage(i % STAGES));
    add(grimholdi_record_poll(record, sizeof record, LANE, sizeof reply));
    add(grimholdi_record_tick(record, sizeof record));
    expect_done(calls->block_finish(block, sizeof block));
    while (loops-- > 0)
        if (calls->replay_block(area, area_len, 1, block, sizeof block,
                                answers, sizeof answers).answered != 2) {
            fprintf(stderr, "speed: not replayed\n");
            exit(1);
        }
}

int main(int argc, char **argv)
{
    const int kind = argc == 6 ? named(argv[2]) : UNKNOWN;
    long loops;
    int out;

    if (kind == UNKNOWN
        || !(is(argv[1], "library") || is(argv[1], "inplace"))) {
        fprintf(stderr,
                "usage: speed library|inplace WHAT PORTS BUFFERS LOOPS\n");
        return 2;
    }
    calls = is(argv[1], "library") ? &library_calls : &inplace_calls;
    ports = (uint32_t)atoi(argv[3]);
    buffers = (uint32_t)atoi(argv[4]);
    out = strncmp(argv[2], "out", 3) == 0;
    loops = atol(argv[5]);
    set_up(out);
    if (kind == EXPLAIN_START)
        explain_starts(loops);
    else if (kind == EXPLAIN_POLL)
        explain_polls(loops);
    else if (kind == ADD)
        add_records(loops);
    else if (kind == REPLAY)
        replay_blocks(loops);
    else
        measure(kind, out, loops);
    return 0;
}
