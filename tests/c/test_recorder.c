/* The recorder of grimholdi_record.h: what is kept, and what is missed. */

#include "recordings.h"

enum { KEPT_MAX = 8 };

static grimholdi_recorder recorder;

static struct {
    uint8_t blocks[KEPT_MAX][BLOCK];
    uint32_t count;    /* of blocks kept */
    uint32_t asked;    /* how often a block was handed out */
    uint32_t refused;  /* the one that is not kept, counted from 1; 0: none */
} kept;

static uint8_t keep(void *context, const uint8_t *block)
{
    CHECK(context == &kept);
    if (++kept.asked == kept.refused || kept.count == KEPT_MAX)
        return GRIMHOLDI_ANSWER_NO_SPACE;
    memcpy(kept.blocks[kept.count++], block, BLOCK);
    return GRIMHOLDI_ANSWER_DONE;
}

static void start(uint32_t refused)
{
    memset(&recorder, 0xEE, sizeof recorder);
    memset(&kept, 0, sizeof kept);
    kept.refused = refused;
    grimholdi_recorder_start(&recorder, keep, &kept);
}

static void add_ticks(uint32_t count)
{
    while (count-- > 0)
        grimholdi_recorder_add(&recorder, (const uint8_t *)"\x08", 1);
}

/* A deliver of a payload that makes the record that long. */
static void add_long(size_t length)
{
    uint8_t record[BLOCK + 100] = {6};

    put_two(record + 5, (uint32_t)(length - 7));
    grimholdi_recorder_add(&recorder, record, length);
}

/* The kept block, counted from 1, holds that many ticks. */
static int holds_ticks(uint32_t number, size_t count)
{
    uint8_t records[USED_MAX];
    uint8_t due_block[BLOCK];

    memset(records, 8, sizeof records);
    put_finished(due_block, number, records, count);
    return number <= kept.count
           && memcmp(kept.blocks[number - 1], due_block, BLOCK) == 0;
}

static void nothing_recorded(void)
{
    memset(&recorder, 0, sizeof recorder);
    memset(&kept, 0, sizeof kept);
    add_ticks(3);
    grimholdi_recorder_finish(&recorder);
    CHECK(recorder.missed == 3);

    start(0);
    grimholdi_recorder_finish(&recorder);
    CHECK(kept.asked == 0 && recorder.missed == 0);
}

static void full_blocks(void)
{
    start(0);
    add_ticks(506);
    CHECK(kept.count == 0);
    add_ticks(1);
    CHECK(kept.count == 1 && holds_ticks(1, 506));
    add_ticks(506);
    CHECK(kept.count == 2 && holds_ticks(2, 506));
    add_ticks(1);
    grimholdi_recorder_finish(&recorder);
    CHECK(kept.count == 3 && holds_ticks(3, 2));
    CHECK(recorder.missed == 0);

    /* Nothing is handed out twice, and a finished recording takes no more. */
    grimholdi_recorder_finish(&recorder);
    add_ticks(2);
    grimholdi_recorder_finish(&recorder);
    CHECK(kept.asked == 3 && recorder.missed == 2);
}

/* One that does not fit begins the next block; one that fits none is left. */
static void long_ones(void)
{
    start(0);
    add_ticks(1);
    add_long(506);
    CHECK(kept.count == 1 && holds_ticks(1, 1));
    add_long(507);
    grimholdi_recorder_add(&recorder, NULL, 0);
    CHECK(recorder.missed == 2 && kept.count == 1);
    add_ticks(1);
    CHECK(kept.count == 2 && kept.blocks[1][4] == 6
          && read_block(kept.blocks[1], 2) == 0);
    grimholdi_recorder_finish(&recorder);
    CHECK(kept.count == 3 && holds_ticks(3, 1));
    CHECK(recorder.missed == 2);
}

/* The records of a block that isn't kept are missed, and all behind it. */
static void not_kept(void)
{
    start(2);
    add_ticks(506 + 506);
    CHECK(recorder.missed == 0 && kept.asked == 1);
    add_ticks(1);
    CHECK(recorder.missed == 507 && recorder.number == 0);
    add_ticks(1000);
    add_long(507);
    grimholdi_recorder_finish(&recorder);
    CHECK(kept.asked == 2 && kept.count == 1 && holds_ticks(1, 506));
    CHECK(recorder.missed == 507 + 1000 + 1);

    start(1);
    add_ticks(5);
    grimholdi_recorder_finish(&recorder);
    CHECK(kept.asked == 1 && kept.count == 0 && recorder.missed == 5);
}

/* Bytes that are not a record end the recording with what came before. */
static void bad_record(void)
{
    start(0);
    add_ticks(4);
    grimholdi_recorder_add(&recorder, (const uint8_t *)"\x00", 1);
    CHECK(kept.count == 1 && holds_ticks(1, 4));
    add_ticks(2);
    grimholdi_recorder_finish(&recorder);
    CHECK(kept.asked == 1 && recorder.missed == 3);

    start(0);
    grimholdi_recorder_add(&recorder, (const uint8_t *)"\x08\x08", 2);
    add_ticks(1);
    CHECK(kept.asked == 0 && recorder.missed == 2);
}

static void damaged_block(void)
{
    start(0);
    add_ticks(4);
    recorder.block[0] = 1;
    add_ticks(1);
    CHECK(kept.asked == 0 && recorder.missed == 5 && recorder.number == 0);

    start(0);
    add_ticks(4);
    recorder.block[300] = 1;
    grimholdi_recorder_finish(&recorder);
    CHECK(kept.asked == 0 && recorder.missed == 4);
}

/* As if 65,533 blocks had been kept. */
static void last_block(void)
{
    start(0);
    recorder.number = 65534;
    CHECK(grimholdi_block_start(recorder.block, BLOCK, 65534)
          == GRIMHOLDI_ANSWER_DONE);
    add_ticks(506 + 506);
    CHECK(kept.count == 1 && recorder.number == 65535);
    add_ticks(1);
    CHECK(kept.count == 2 && recorder.number == 0 && recorder.missed == 1);
    CHECK(read_block(kept.blocks[0], 65534) == 0);
    CHECK(read_block(kept.blocks[1], 65535) == 0);
    add_ticks(600);
    grimholdi_recorder_finish(&recorder);
    CHECK(kept.asked == 2 && recorder.missed == 601);
}

static void count_of_missed_stays(void)
{
    start(1);
    add_ticks(506);
    recorder.missed = UINT32_MAX - 100;
    add_ticks(1);
    CHECK(recorder.missed == UINT32_MAX);
    add_ticks(1);
    CHECK(recorder.missed == UINT32_MAX);
}

/* The least lengths of bytes whose record fits no block. */
enum { LONG_SETUP = 496, LONG_START = 476, LONG_DELIVERY = 500 };

/* The call is refused and leaves all as it was. */
static int is_refused(grimholdi_answer answer)
{
    return answer.number == GRIMHOLDI_ANSWER_OUTSIDE && is_bare(answer)
           && area_is_saved() && reply_is_saved();
}

/* Space for the records that are tried. */
static uint8_t space[GRIMHOLDI_RECORD_SPACE];

static void check_long_control(const uint8_t *setup)
{
    CHECK(grimholdi_record_control(space, sizeof space, 0, setup,
                                   LONG_SETUP - 1, 64) == USED_MAX);
    CHECK(grimholdi_record_control(space, sizeof space, 0, setup, LONG_SETUP,
                                   64) == 0);
    CHECK(is_refused(grimholdi_control(area, area_len, 0, setup, LONG_SETUP,
                                       reply, GRIMHOLDI_REPLY_LENGTH)));
}

static void check_long_start(uint32_t pid, const uint8_t *payload)
{
    CHECK(grimholdi_record_start_split(space, sizeof space, 0, pid, 0, 0, 0, 5,
                                       1, payload, LONG_START - 1)
          == USED_MAX);
    CHECK(grimholdi_record_start_split(space, sizeof space, 0, pid, 0, 0, 0, 5,
                                       1, payload, LONG_START) == 0);
    CHECK(is_refused(grimholdi_start_split(area, area_len, 0, pid, 0, 0, 0, 5,
                                           1, payload, LONG_START)));
}

static void check_long_delivery(uint32_t result, const uint8_t *payload)
{
    CHECK(grimholdi_record_deliver(space, sizeof space, result, payload,
                                   LONG_DELIVERY - 1) == USED_MAX);
    CHECK(grimholdi_record_deliver(space, sizeof space, result, payload,
                                   LONG_DELIVERY) == 0);
    CHECK(is_refused(grimholdi_deliver(area, area_len, result, payload,
                                       LONG_DELIVERY)));
}

/* What is left out is refused in this state of the hub. */
static void check_left_out(void)
{
    static const uint32_t pids[] = {
        GRIMHOLDI_PID_OUT, GRIMHOLDI_PID_IN, GRIMHOLDI_PID_SETUP
    };
    static const uint32_t results[] = {
        GRIMHOLDI_RESULT_FAILURE, GRIMHOLDI_RESULT_ACK, GRIMHOLDI_RESULT_DATA0,
        GRIMHOLDI_RESULT_NAK, GRIMHOLDI_RESULT_DATA1, GRIMHOLDI_RESULT_STALL
    };
    uint8_t *bytes = allocate(LONG_DELIVERY);
    size_t i;

    put_setup(bytes, GRIMHOLDI_TYPE_SET_CONFIGURATION,
              GRIMHOLDI_REQUEST_SET_CONFIGURATION, 1, 0, 0);
    save();
    check_long_control(bytes);
    for (i = 0; i < sizeof pids / sizeof *pids; i++)
        check_long_start(pids[i], bytes);
    for (i = 0; i < sizeof results / sizeof *results; i++)
        check_long_delivery(results[i], bytes);
    free(bytes);
}

static void left_out(void)
{
    new_hub(4, 3);
    check_left_out();
    configured_hub(4, 3);
    check_left_out();
    CHECK(start_in(5, 1) == GRIMHOLDI_ANSWER_DONE);
    CHECK(launches(0, 5));
    check_left_out();
    free_hub();
}

int main(void)
{
    nothing_recorded();
    full_blocks();
    long_ones();
    not_kept();
    bad_record();
    damaged_block();
    last_block();
    count_of_missed_stays();
    left_out();
    return check_summary("recorder");
}
