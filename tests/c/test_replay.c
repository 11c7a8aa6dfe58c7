/* The replay of blocks: refusals, answers, the tally. */

#include "replays.h"

static void fill_answers(void)
{
    memset(answers, 0xEE, ANSWERS);
}

/* From this byte on, the answers' space is as it was filled. */
static int answers_are_filled(size_t from)
{
    while (from < ANSWERS)
        if (answers[from++] != 0xEE)
            return 0;
    return 1;
}

/* Replays the records as block 1, and begins anew. */
static grimholdi_replayed check_records(void)
{
    put_finished(block, 1, records, used);
    used = 0;
    return check_replay(1);
}

/* DONE with this refusal; the area and the answers' space are kept. */
static int refuses(uint32_t place, size_t block_len, uint8_t refusal)
{
    grimholdi_replayed r;

    save();
    fill_answers();
    r = grimholdi_replay_block(area, area_len, place, block, block_len,
                               answers, ANSWERS);
    return is_result(r, GRIMHOLDI_ANSWER_DONE, refusal,
                     (uint8_t)(held_by(0) + held_by(1)), 0)
           && is_tally(r, 0, 0, 0) && area_is_saved() && answers_are_filled(0);
}

/* The refusals. */

/* One buffer pending, one ready, one old; a port that a tick changes. */
static void busy_hub(void)
{
    configured_hub(4, 3);
    CHECK(set_feature(GRIMHOLDI_PORT_POWER, 1) == GRIMHOLDI_ANSWER_DONE);
    CHECK(event(GRIMHOLDI_EVENT_ATTACH_FULL, 1) == GRIMHOLDI_ANSWER_DONE);
    CHECK(set_feature(GRIMHOLDI_PORT_RESET, 1) == GRIMHOLDI_ANSWER_DONE);
    make_ready(0, 5, "ready");
    make_old(1, 6, "old");
    CHECK(start_in_from(1, 7, 1) == GRIMHOLDI_ANSWER_DONE);
}

enum { BAD_CHECK = 1, BAD_NUMBER = 2, BAD_COUNT = 4, BAD_RECORD = 8 };

/* Good at place 5, but for what is bad. */
static void put_bad(unsigned bad, uint32_t count, uint8_t unused)
{
    put_finished(block, bad & BAD_NUMBER ? 6 : 5,
                 (const uint8_t *)"\x08\x09\x08", 3);
    if (bad & BAD_RECORD)
        block[6] = 2; /* cut off */
    if (bad & BAD_COUNT) {
        put_two(block + 2, count);
        block[509] = unused;
    }
    put_check(block);
    if (bad & BAD_CHECK)
        block[511] ^= 0x80;
}

static uint8_t first_word(unsigned bad)
{
    if (bad & BAD_CHECK)
        return GRIMHOLDI_REFUSED_CHECK;
    if (bad & BAD_NUMBER)
        return GRIMHOLDI_REFUSED_NUMBER;
    return bad & BAD_COUNT ? GRIMHOLDI_REFUSED_COUNT
                           : GRIMHOLDI_REFUSED_RECORD;
}

static void first_of_several(void)
{
    unsigned bad;

    free(block);
    block = allocate(BLOCK + 1);
    busy_hub();
    for (bad = 0; bad < 16; bad++) {
        put_bad(bad, 3, 1); /* a byte behind those used */
        block[BLOCK] = 0;
        CHECK(refuses(5, 511, GRIMHOLDI_REFUSED_LENGTH));
        CHECK(refuses(5, 513, GRIMHOLDI_REFUSED_LENGTH));
        CHECK(refuses(5, 0, GRIMHOLDI_REFUSED_LENGTH));
        if (bad == 0)
            continue;
        CHECK(refuses(5, BLOCK, first_word(bad)));
        put_bad(bad, 507, 0);
        CHECK(refuses(5, BLOCK, first_word(bad)));
        put_bad(bad, 65535, 0);
        CHECK(refuses(5, BLOCK, first_word(bad)));
    }
    free(block);
    block = allocate(BLOCK);
    put_bad(0, 0, 0);
    CHECK(is_result(replay(5), GRIMHOLDI_ANSWER_DONE, GRIMHOLDI_REFUSED_NOT,
                    0, 30));
}

/* No block at all. */
static void no_block(void)
{
    grimholdi_replayed r;

    busy_hub();
    r = grimholdi_replay_block(area, area_len, 1, NULL, 0, answers, ANSWERS);
    CHECK(is_result(r, GRIMHOLDI_ANSWER_DONE, GRIMHOLDI_REFUSED_LENGTH, 2, 0));
}

static void places(void)
{
    static const struct {
        uint32_t number, place;
    } wrong[] = {
        {0, 0}, {0, 65536}, {0, 131072}, {1, 0}, {1, 2}, {2, 1}, {1, 65536},
        {1, 65537}, {65535, 0}, {65535, 65534}, {65535, 65536},
        {65535, 131071}, {65535, UINT32_MAX}, {0, 1}, {256, 1}, {1, 256}
    };
    static const uint32_t right[] = {1, 2, 255, 256, 4660, 65534, 65535};
    size_t i;

    busy_hub();
    for (i = 0; i < sizeof wrong / sizeof *wrong; i++) {
        put_finished(block, wrong[i].number, NULL, 0);
        CHECK(refuses(wrong[i].place, BLOCK, GRIMHOLDI_REFUSED_NUMBER));
    }
    for (i = 0; i < sizeof right / sizeof *right; i++) {
        put_finished(block, right[i], NULL, 0);
        CHECK(is_result(check_replay(right[i]), GRIMHOLDI_ANSWER_DONE,
                        GRIMHOLDI_REFUSED_NOT, 2, 0));
    }
    /* Under way: never good. */
    put_under_way(block, 1, (const uint8_t *)"\x08", 1);
    CHECK(refuses(1, BLOCK, GRIMHOLDI_REFUSED_CHECK));
    put_under_way(block, 65536 - 1 - 8, (const uint8_t *)"\x08", 1);
    CHECK(refuses(65536 - 1 - 8, BLOCK, GRIMHOLDI_REFUSED_NUMBER));
}

/* 6 before 7, and 7 before what the block is refused for. */
static void area_and_space(void)
{
    size_t length;
    int good;

    busy_hub();
    fill_answers();
    for (good = 0; good < 2; good++) {
        put_finished(block, 1, (const uint8_t *)"\x08", good ? 1 : 0);
        block[300] = good ? 0 : 1;
        save();
        for (length = 0; length < ANSWERS; length += length < 3 ? 1 : 1440)
            CHECK(is_result(grimholdi_replay_block(area, area_len, 1, block,
                                                   BLOCK, answers, length),
                            GRIMHOLDI_ANSWER_NO_SPACE, 0, 0, 0));
        CHECK(is_result(grimholdi_replay_block(area, area_len, 1, block, BLOCK,
                                               NULL, 0),
                        GRIMHOLDI_ANSWER_NO_SPACE, 0, 0, 0));
        CHECK(is_result(grimholdi_replay_block(area, area_len, 1, block, BLOCK,
                                               answers, 37443),
                        GRIMHOLDI_ANSWER_NO_SPACE, 0, 0, 0));
        CHECK(is_result(grimholdi_replay_block(area, area_len - 1, 1, block,
                                               BLOCK, answers, ANSWERS),
                        GRIMHOLDI_ANSWER_OUTSIDE, 0, 0, 0));
        CHECK(is_result(grimholdi_replay_block(NULL, 0, 1, block, BLOCK,
                                               answers, 37443),
                        GRIMHOLDI_ANSWER_OUTSIDE, 0, 0, 0));
        area[5] = 2;
        save();
        CHECK(is_result(replay(1), GRIMHOLDI_ANSWER_OUTSIDE, 0, 0, 0));
        CHECK(is_tally(replay(1), 0, 0, 0));
        CHECK(area_is_saved() && answers_are_filled(0));
        area[5] = 1;
    }
    CHECK(is_result(replay(1), GRIMHOLDI_ANSWER_DONE, 0, 2, 10));
}

/* One bad record refuses the calls before it too. */
static void last_record_bad(void)
{
    busy_hub();
    used = 0;
    add_configure(0);
    add_one_byte(9);
    add_launch();
    put_finished(block, 1, records, used);
    CHECK(read_block(block, 1) == GRIMHOLDI_REFUSED_NOT);
    put_finished(block, 1, records, used - 1);
    CHECK(refuses(1, BLOCK, GRIMHOLDI_REFUSED_RECORD));
    records[used] = 0;
    put_finished(block, 1, records, used + 1);
    CHECK(refuses(1, BLOCK, GRIMHOLDI_REFUSED_RECORD));
    records[used] = 10;
    put_finished(block, 1, records, used + 1);
    CHECK(refuses(1, BLOCK, GRIMHOLDI_REFUSED_RECORD));
    used = 0;
    ADD(deliver, 3, (const uint8_t *)"abc", 3);
    records[5] = 4; /* bytes that the count would take from the zeros */
    put_finished(block, 1, records, used);
    CHECK(refuses(1, BLOCK, GRIMHOLDI_REFUSED_RECORD));
    used = 0;
}

/* The answers. */

/* These bytes stand in the answers' space, and nothing behind them. */
#define CHECK_ANSWERS(replayed, bytes)                                   \
    do {                                                                 \
        grimholdi_replayed replayed_ = (replayed);                       \
                                                                         \
        CHECK(replayed_.length == sizeof bytes - 1);                     \
        CHECK(memcmp(answers, bytes, sizeof bytes - 1) == 0);            \
        CHECK(answers[sizeof bytes - 1] == 0xEE);                        \
    } while (0)

#define BARE(number) number "\0\0\0\0\0\0\0\0\0"

static void answers_in_full(void)
{
    new_hub(4, 3);
    used = 0;
    ADD(poll, 0, 64);                                   /* SILENT */
    add_configure(1);
    ADD(poll, 0, 64);                                   /* NAK */
    ADD(poll, 2, 64);                                   /* OUTSIDE */
    ADD(poll, 0, 63);                                   /* NO_SPACE */
    ADD(line_event, GRIMHOLDI_EVENT_CHIRP, 1);          /* NOT_NOW */
    add_start_in(0, 5);
    add_complete(0, 5);                                 /* NYET */
    add_complete(1, 5);                                 /* STALL */
    add_launch();
    add_deliver("\x11\x22\x33");
    add_complete(0, 5);
    CHECK_ANSWERS(check_records(),
                  BARE("\5") BARE("\0") BARE("\3") BARE("\6") BARE("\7")
                  BARE("\x8") BARE("\0") BARE("\4") BARE("\2")
                  "\1\0\x9\2\0\5\1\1\0\0" BARE("\0")
                  "\1\3\3\0\0\0\0\0\0\0\x11\x22\x33");
    add_complete(0, 5);
    ADD(start_split, 1, GRIMHOLDI_PID_SETUP, GRIMHOLDI_TRANSFER_CONTROL, 1, 0,
        6, 4, (const uint8_t *)"setup123", 8);
    ADD(launch, UINT32_MAX);
    ADD(deliver, GRIMHOLDI_RESULT_FAILURE, NULL, 0);
    ADD(complete_split, 1, 6, 4, GRIMHOLDI_DIRECTION_OUT, UINT32_MAX);
    ADD(line_event, GRIMHOLDI_EVENT_OVER_CURRENT_ON, 3);
    ADD(poll, 1, 64);
    ADD(start_split, 0, GRIMHOLDI_PID_OUT, GRIMHOLDI_TRANSFER_BULK, 0, 1, 127,
        15, NULL, 0);
    add_launch();
    CHECK_ANSWERS(check_records(),
                  "\1\3\3\0\0\0\0\0\0\0\x11\x22\x33" BARE("\0")
                  "\1\x8\xD\0\1\6\4\0\1\0setup123" BARE("\0")
                  "\x9\0\xE\0\0\0\0\0\0\0" BARE("\0")
                  "\1\1\0\0\0\0\0\0\0\0\x8" BARE("\0")
                  "\1\0\1\2\0\x7F\xF\0\0\1");
}

/* Calls that the hub refuses, of any numbers and lengths. */
static void refused_calls(void)
{
    uint8_t bytes[USED_MAX] = {0};

    busy_hub();
    used = 0;
    ADD(control, 0, bytes, 7, 64);
    ADD(control, 0, bytes, 0, 64);
    ADD(control, FAR_NUMBER, bytes, 8, UINT32_MAX);
    ADD(start_split, 0, 1, 2, 0, 0, 5, 1, bytes, 65);
    ADD(start_split, 0, 1, 2, 0, 0, 200, 1, bytes, 64);
    ADD(deliver, FAR_NUMBER, NULL, 0);
    ADD(line_event, 8, 0);
    ADD(complete_split, 0, 5, 1, 2, 64);
    CHECK_ANSWERS(check_records(),
                  BARE("\6") BARE("\6") BARE("\6") BARE("\6") BARE("\6")
                  BARE("\6") BARE("\6") BARE("\6"));
    ADD(start_split, 0, 1, 2, 0, 0, 5, 1, bytes, 475);
    CHECK(used == USED_MAX);
    CHECK_ANSWERS(check_records(), BARE("\6"));
}

static void many_answers(void)
{
    char text[65];
    int i;

    configured_hub(7, 4);
    memset(text, 'x', 64);
    text[64] = '\0';
    make_ready(1, 9, text);
    used = 0;
    for (i = 0; i < 24; i++)
        add_complete(1, 9);
    CHECK(is_tally(check_records(), 0, 1, 0));
    CHECK(due.length == 24 * 74);
    for (i = 0; i < USED_MAX; i++)
        add_one_byte(i % 2 == 0 ? 8 : 9);
    fill_answers();
    CHECK(check_records().length == 5060);
    CHECK(answers_are_filled(5060));
}

/* The tally. */

static void answered_once(void)
{
    configured_hub(4, 3);
    used = 0;
    add_start_in(0, 5);
    add_start_in(0, 5); /* a repeat */
    add_launch();
    add_complete(0, 5); /* NYET */
    add_deliver("abc");
    add_start_in(0, 5); /* a repeat */
    add_complete(0, 5);
    add_complete(0, 5);
    CHECK(is_tally(check_records(), 1, 1, 0));
    add_complete(0, 5);
    CHECK(is_tally(check_records(), 0, 0, 0));
    add_start_in(0, 5); /* in the old buffer */
    CHECK(is_tally(check_records(), 1, 0, 0));
    CHECK(due.active == 1);
}

/* Of three buffers: ready, old and pending, in both lanes. */
static void check_emptied(uint32_t emptied, uint8_t active)
{
    busy_hub();
    CHECK(is_tally(check_records(), 0, 0, emptied));
    CHECK(due.active == active);
}

static void emptied(void)
{
    used = 0;
    add_clear_tt(0, 5);
    check_emptied(1, 1);
    add_clear_tt(1, 7);
    check_emptied(1, 1);
    add_clear_tt(1, 6); /* the old one */
    check_emptied(0, 2);
    add_clear_tt(0, 6); /* none */
    check_emptied(0, 2);
    add_reset_tt(0);
    check_emptied(1, 1);
    add_reset_tt(1);
    check_emptied(1, 1);
    add_reset_tt(0);
    add_reset_tt(1);
    check_emptied(2, 0);
    add_configure(0);
    check_emptied(2, 0);
    add_configure(1);
    check_emptied(2, 0);
    add_one_byte(9);
    check_emptied(2, 0);
    add_one_byte(8);
    check_emptied(0, 2);
    add_launch();
    add_clear_tt(1, 7); /* while it runs */
    add_deliver("thrown away");
    add_complete(1, 7);
    check_emptied(1, 1);
}

/* Stored, answered and emptied within one block. */
static void all_in_one(void)
{
    configured_hub(4, 4);
    used = 0;
    add_start_in(0, 1);
    add_start_in(1, 2);
    add_start_in(0, 3);
    add_launch();
    add_deliver("1");
    add_launch();
    add_deliver("2");
    add_complete(1, 2);
    add_clear_tt(0, 3);
    CHECK(is_tally(check_records(), 3, 1, 1));
    CHECK(due.active == 1);
    add_complete(0, 1);
    CHECK(is_tally(check_records(), 0, 1, 0));
}

int main(void)
{
    lend_memory();
    first_of_several();
    no_block();
    places();
    area_and_space();
    last_record_bad();
    answers_in_full();
    refused_calls();
    many_answers();
    answered_once();
    emptied();
    all_in_one();
    free_memory();
    return check_summary("replay");
}
