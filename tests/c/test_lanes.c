/* Two lanes: keys, the limit, ResetTT, and what both lanes share. */

#include "bench_hub.h"

enum { ENDPOINT = 1 };

/* IN transactions of (address, 1). */

static uint8_t start(uint32_t lane, uint32_t address)
{
    return start_in_from(lane, address, ENDPOINT);
}

static grimholdi_answer result_of(uint32_t lane, uint32_t address)
{
    return complete_from(lane, address, ENDPOINT, GRIMHOLDI_DIRECTION_IN);
}

static uint8_t clear(uint32_t lane, uint16_t address)
{
    return clear_tt_buffer_from(lane, address, ENDPOINT,
                                GRIMHOLDI_DIRECTION_IN);
}

/* Keys. */

static void each_lane_gets_its_own_bytes(void)
{
    configured_hub(4, 3);
    CHECK(start(0, 5) == GRIMHOLDI_ANSWER_DONE);
    CHECK(start(1, 5) == GRIMHOLDI_ANSWER_DONE);
    CHECK(launches(0, 5));
    CHECK(deliver_text("first") == GRIMHOLDI_ANSWER_DONE);
    CHECK(result_of(1, 5).number == GRIMHOLDI_ANSWER_NYET);
    CHECK(launches(1, 5));
    CHECK(deliver_text("second take") == GRIMHOLDI_ANSWER_DONE);
    CHECK(launch().number == GRIMHOLDI_ANSWER_NAK);
    CHECK(has_text(1, 5, "second take"));
    CHECK(has_text(0, 5, "first"));
    CHECK(has_text(1, 5, "second take"));
}

static void each_lane_sends_its_own_bytes(void)
{
    configured_hub(4, 3);
    CHECK(start_out_from(1, 5, 2, (const uint8_t *)"one", 3)
          == GRIMHOLDI_ANSWER_DONE);
    CHECK(start_out_from(0, 5, 2, (const uint8_t *)"zero", 4)
          == GRIMHOLDI_ANSWER_DONE);
    CHECK(gives(launch(), "one", 3));
    CHECK(deliver(GRIMHOLDI_RESULT_ACK, NULL, 0) == GRIMHOLDI_ANSWER_DONE);
    CHECK(gives(launch(), "zero", 4));
    CHECK(deliver(GRIMHOLDI_RESULT_STALL, NULL, 0) == GRIMHOLDI_ANSWER_DONE);
    CHECK(complete_from(0, 5, 2, GRIMHOLDI_DIRECTION_OUT).pid
          == GRIMHOLDI_RESULT_STALL);
    CHECK(complete_from(1, 5, 2, GRIMHOLDI_DIRECTION_OUT).pid
          == GRIMHOLDI_RESULT_ACK);
}

/* In whatever state a lane's buffer is, the other has no such key. */
static void data_stays_in_its_lane(uint32_t lane)
{
    uint32_t other = 1 - lane;

    configured_hub(4, 3);
    CHECK(start(lane, 5) == GRIMHOLDI_ANSWER_DONE);
    CHECK(result_of(other, 5).number == GRIMHOLDI_ANSWER_STALL);
    CHECK(launches(lane, 5));
    CHECK(result_of(other, 5).number == GRIMHOLDI_ANSWER_STALL);
    CHECK(deliver_text("mine") == GRIMHOLDI_ANSWER_DONE);
    memset(reply, 0xEE, GRIMHOLDI_REPLY_LENGTH);
    save();
    CHECK(result_of(other, 5).number == GRIMHOLDI_ANSWER_STALL);
    CHECK(area_is_saved() && reply[0] == 0xEE);
    CHECK(has_text(lane, 5, "mine"));
    CHECK(result_of(other, 5).number == GRIMHOLDI_ANSWER_STALL);
}

/* Buffer 0 is old; the other lane takes it though 1 and 2 are empty. */
static void other_lane_takes_an_old_one(uint32_t lane)
{
    uint32_t other = 1 - lane;

    configured_hub(4, 3);
    make_old(lane, 5, "mine");
    CHECK(start(other, 5) == GRIMHOLDI_ANSWER_DONE);
    CHECK(result_of(lane, 5).number == GRIMHOLDI_ANSWER_STALL);
    CHECK(result_of(other, 5).number == GRIMHOLDI_ANSWER_NYET);
    CHECK(launches(other, 5));
    CHECK(deliver_text("its") == GRIMHOLDI_ANSWER_DONE);
    CHECK(has_text(other, 5, "its"));
    CHECK(result_of(lane, 5).number == GRIMHOLDI_ANSWER_STALL);
}

/* The limit. */

/* A lane fills its share of B buffers; the other always finds one. */
static void limit_leaves_one(uint32_t buffers, uint32_t lane)
{
    uint32_t other = 1 - lane;
    uint32_t i;

    configured_hub(4, buffers);
    for (i = 1; i < buffers; i++)
        CHECK(start(lane, 10 + i) == GRIMHOLDI_ANSWER_DONE);
    save();
    CHECK(start(lane, 20) == GRIMHOLDI_ANSWER_NAK);
    CHECK(area_is_saved());
    CHECK(start(other, 20) == GRIMHOLDI_ANSWER_DONE);
    CHECK(result_of(other, 20).number == GRIMHOLDI_ANSWER_NYET);
    CHECK(result_of(lane, 20).number == GRIMHOLDI_ANSWER_STALL);
    save();
    CHECK(start(lane, 21) == GRIMHOLDI_ANSWER_NAK);
    CHECK(start(other, 21) == GRIMHOLDI_ANSWER_NAK);
    CHECK(area_is_saved());
}

/* Lane 1 is below its limit, but lane 0 holds the rest. */
static void other_lane_holds_the_rest(void)
{
    configured_hub(4, 3);
    CHECK(start(0, 5) == GRIMHOLDI_ANSWER_DONE);
    CHECK(start(0, 6) == GRIMHOLDI_ANSWER_DONE);
    CHECK(start(1, 7) == GRIMHOLDI_ANSWER_DONE);
    save();
    CHECK(start(1, 8) == GRIMHOLDI_ANSWER_NAK);
    CHECK(area_is_saved());

    /* Ready is held as pending is; old is free. */
    CHECK(launches(0, 5));
    CHECK(deliver_text("five") == GRIMHOLDI_ANSWER_DONE);
    CHECK(start(1, 8) == GRIMHOLDI_ANSWER_NAK);
    CHECK(has_text(0, 5, "five"));
    CHECK(start(1, 8) == GRIMHOLDI_ANSWER_DONE);
    CHECK(result_of(0, 5).number == GRIMHOLDI_ANSWER_STALL);
    CHECK(start(1, 9) == GRIMHOLDI_ANSWER_NAK);
}

/* Two of four each: the limit is not the share of one half. */
static void lanes_share_four(void)
{
    configured_hub(4, 4);
    CHECK(start(0, 5) == GRIMHOLDI_ANSWER_DONE);
    CHECK(start(1, 5) == GRIMHOLDI_ANSWER_DONE);
    CHECK(start(0, 6) == GRIMHOLDI_ANSWER_DONE);
    CHECK(start(1, 6) == GRIMHOLDI_ANSWER_DONE);
    CHECK(start(0, 7) == GRIMHOLDI_ANSWER_NAK);
    CHECK(start(1, 7) == GRIMHOLDI_ANSWER_NAK);
    CHECK(clear(1, 5) == GRIMHOLDI_ANSWER_DONE);
    CHECK(start(0, 7) == GRIMHOLDI_ANSWER_DONE);
    CHECK(clear(1, 6) == GRIMHOLDI_ANSWER_DONE);
    CHECK(start(0, 8) == GRIMHOLDI_ANSWER_NAK);
}

/* One ready, one pending, a third buffer empty. */
static void repeat_at_the_limit(uint32_t lane)
{
    configured_hub(4, 3);
    make_ready(lane, 5, "five");
    CHECK(start(lane, 6) == GRIMHOLDI_ANSWER_DONE);
    save();
    CHECK(start(lane, 5) == GRIMHOLDI_ANSWER_DONE);
    CHECK(start(lane, 6) == GRIMHOLDI_ANSWER_DONE);
    CHECK(start(lane, 7) == GRIMHOLDI_ANSWER_NAK);
    CHECK(area_is_saved());
    CHECK(has_text(lane, 5, "five"));
    CHECK(result_of(lane, 6).number == GRIMHOLDI_ANSWER_NYET);
}

/* Buffer 0 ready with (5, 1), 1 pending with (8, 1), 2 old with (7, 1). */
static void own_old_one_at_the_limit(uint32_t lane)
{
    uint32_t other = 1 - lane;

    configured_hub(4, 3);
    make_ready(lane, 5, "five");
    make_ready(other, 6, "six");
    make_old(lane, 7, "seven");
    CHECK(has_text(other, 6, "six"));
    CHECK(start(lane, 8) == GRIMHOLDI_ANSWER_DONE);
    CHECK(result_of(other, 6).number == GRIMHOLDI_ANSWER_STALL);

    save();
    CHECK(start(lane, 7) == GRIMHOLDI_ANSWER_NAK);
    CHECK(area_is_saved());
    CHECK(has_text(lane, 7, "seven"));

    /* Below the limit it is reused, though buffer 0 is old too. */
    CHECK(has_text(lane, 5, "five"));
    CHECK(start(lane, 7) == GRIMHOLDI_ANSWER_DONE);
    CHECK(result_of(lane, 7).number == GRIMHOLDI_ANSWER_NYET);
    CHECK(has_text(lane, 5, "five"));
}

/* Two old buffers, and still two may be held. */
static void old_ones_do_not_count(uint32_t lane)
{
    configured_hub(4, 3);
    make_ready(lane, 5, "five");
    make_ready(lane, 6, "six");
    CHECK(start(lane, 7) == GRIMHOLDI_ANSWER_NAK);
    CHECK(has_text(lane, 5, "five"));
    CHECK(has_text(lane, 6, "six"));
    CHECK(start(1 - lane, 6) == GRIMHOLDI_ANSWER_DONE); /* in buffer 0 */
    CHECK(start(lane, 6) == GRIMHOLDI_ANSWER_DONE); /* in buffer 1, its own */
    CHECK(start(lane, 7) == GRIMHOLDI_ANSWER_DONE);     /* in buffer 2 */
    CHECK(start(lane, 8) == GRIMHOLDI_ANSWER_NAK);
}

/* Launches. */

/* Buffers 0 to 2 hold the third, first and second accepted. */
static void order_of_acceptance_over_both(void)
{
    configured_hub(4, 3);
    CHECK(start(1, 5) == GRIMHOLDI_ANSWER_DONE);
    CHECK(start(0, 5) == GRIMHOLDI_ANSWER_DONE);
    CHECK(start(1, 6) == GRIMHOLDI_ANSWER_DONE);
    CHECK(clear(1, 5) == GRIMHOLDI_ANSWER_DONE);
    CHECK(start(0, 6) == GRIMHOLDI_ANSWER_DONE);
    CHECK(launches(0, 5));
    CHECK(deliver_text("a") == GRIMHOLDI_ANSWER_DONE);
    CHECK(launches(1, 6));
    CHECK(deliver_text("b") == GRIMHOLDI_ANSWER_DONE);
    CHECK(launches(0, 6));
    CHECK(deliver_text("c") == GRIMHOLDI_ANSWER_DONE);
    CHECK(launch().number == GRIMHOLDI_ANSWER_NAK);
    CHECK(has_text(0, 5, "a"));
    CHECK(has_text(1, 6, "b"));
    CHECK(has_text(0, 6, "c"));
}

/* Only a launch names a lane, on lane 1 too. */
static void lane_is_in_launches_alone(void)
{
    grimholdi_answer answer;

    configured_hub(4, 3);
    answer = request_from(1, 0x80, 0x08, 0, 0, 1);
    CHECK(gives(answer, "\x01", 1) && answer.pid == 0
          && launches_nothing(answer));
    CHECK(is_bare(request_from(1, 0x23, 0x03, GRIMHOLDI_PORT_POWER, 1, 0)));
    CHECK(is_bare(request_from(1, 0x23, 0x09, 0, 1, 0)));
    CHECK(is_bare(poll_from(1)));
    CHECK(event(GRIMHOLDI_EVENT_ATTACH_FULL, 1) == GRIMHOLDI_ANSWER_DONE);
    answer = poll_from(1);
    CHECK(gives(answer, "\x02", 1) && answer.pid == 0
          && launches_nothing(answer));
    answer = grimholdi_start_split(area, area_len, 1, GRIMHOLDI_PID_IN,
                                   GRIMHOLDI_TRANSFER_BULK, 1, 1, 5, ENDPOINT,
                                   NULL, 0);
    CHECK(answer.number == GRIMHOLDI_ANSWER_DONE && is_bare(answer));
    CHECK(is_bare(result_of(1, 5)));

    answer = launch();
    CHECK(gives(answer, "", 0) && answer.pid == GRIMHOLDI_PID_IN
          && answer.transfer == GRIMHOLDI_TRANSFER_BULK && answer.lane == 1
          && answer.address == 5 && answer.endpoint == ENDPOINT
          && answer.direction == GRIMHOLDI_DIRECTION_IN
          && answer.low_speed == 1 && answer.toggle == 1);
    CHECK(is_bare(launch()));
    answer = grimholdi_deliver(area, area_len, GRIMHOLDI_RESULT_DATA1,
                               (const uint8_t *)"d", 1);
    CHECK(answer.number == GRIMHOLDI_ANSWER_DONE && is_bare(answer));
    answer = result_of(1, 5);
    CHECK(gives(answer, "d", 1) && answer.pid == GRIMHOLDI_RESULT_DATA1
          && launches_nothing(answer));

    CHECK(start(1, 6) == GRIMHOLDI_ANSWER_DONE);
    CHECK(launches(1, 6));
    CHECK(deliver(GRIMHOLDI_RESULT_NAK, NULL, 0) == GRIMHOLDI_ANSWER_DONE);
    answer = result_of(1, 6);
    CHECK(answer.number == GRIMHOLDI_ANSWER_HANDSHAKE
          && answer.pid == GRIMHOLDI_RESULT_NAK && answer.length == 0
          && launches_nothing(answer));
    CHECK(is_bare(grimholdi_tick(area, area_len)));
    CHECK(is_bare(grimholdi_line_event(area, area_len,
                                       GRIMHOLDI_EVENT_DETACH, 1)));
    CHECK(is_bare(grimholdi_bus_reset(area, area_len)));
}

/* ResetTT. */

/* The caller's transaction runs: its result is thrown away. */
static void reset_abandons_its_own(uint32_t lane)
{
    uint32_t other = 1 - lane;

    configured_hub(4, 3);
    CHECK(start(lane, 5) == GRIMHOLDI_ANSWER_DONE);
    CHECK(start(other, 5) == GRIMHOLDI_ANSWER_DONE);
    CHECK(start(lane, 6) == GRIMHOLDI_ANSWER_DONE);
    CHECK(launches(lane, 5));
    CHECK(reset_tt_from(lane) == GRIMHOLDI_ANSWER_DONE);
    CHECK(result_of(lane, 5).number == GRIMHOLDI_ANSWER_STALL);
    CHECK(result_of(lane, 6).number == GRIMHOLDI_ANSWER_STALL);
    CHECK(result_of(other, 5).number == GRIMHOLDI_ANSWER_NYET);
    CHECK(launch().number == GRIMHOLDI_ANSWER_NOT_NOW);

    /* The key is stored again; the late result is not its own. */
    CHECK(start(lane, 5) == GRIMHOLDI_ANSWER_DONE);
    CHECK(deliver_text("late") == GRIMHOLDI_ANSWER_DONE);
    CHECK(deliver_text("late") == GRIMHOLDI_ANSWER_NOT_NOW);
    CHECK(result_of(lane, 5).number == GRIMHOLDI_ANSWER_NYET);
    CHECK(result_of(other, 5).number == GRIMHOLDI_ANSWER_NYET);
    CHECK(launches(other, 5));
    CHECK(deliver_text("other") == GRIMHOLDI_ANSWER_DONE);
    CHECK(launches(lane, 5));
    CHECK(deliver_text("own") == GRIMHOLDI_ANSWER_DONE);
    CHECK(has_text(other, 5, "other"));
    CHECK(has_text(lane, 5, "own"));
}

/* A result that would not suit is thrown away as well. */
static void reset_throws_any_result_away(void)
{
    configured_hub(4, 3);
    CHECK(start(1, 5) == GRIMHOLDI_ANSWER_DONE);
    CHECK(launches(1, 5));
    CHECK(reset_tt_from(1) == GRIMHOLDI_ANSWER_DONE);
    CHECK(deliver(GRIMHOLDI_RESULT_ACK, (const uint8_t *)"a", 1)
          == GRIMHOLDI_ANSWER_OUTSIDE);
    CHECK(launch().number == GRIMHOLDI_ANSWER_NOT_NOW);
    CHECK(deliver(GRIMHOLDI_RESULT_ACK, NULL, 0) == GRIMHOLDI_ANSWER_DONE);
    CHECK(launch().number == GRIMHOLDI_ANSWER_NAK);
}

/* The other lane's transaction runs: it runs on and is answered. */
static void reset_leaves_the_other(uint32_t lane)
{
    uint32_t other = 1 - lane;

    configured_hub(4, 3);
    CHECK(start(other, 5) == GRIMHOLDI_ANSWER_DONE);
    CHECK(start(lane, 5) == GRIMHOLDI_ANSWER_DONE);
    CHECK(start(lane, 6) == GRIMHOLDI_ANSWER_DONE);
    CHECK(launches(other, 5));
    CHECK(reset_tt_from(lane) == GRIMHOLDI_ANSWER_DONE);
    CHECK(result_of(lane, 5).number == GRIMHOLDI_ANSWER_STALL);
    CHECK(result_of(lane, 6).number == GRIMHOLDI_ANSWER_STALL);
    CHECK(result_of(other, 5).number == GRIMHOLDI_ANSWER_NYET);

    /* It is not abandoned: a result that does not suit is refused. */
    CHECK(launch().number == GRIMHOLDI_ANSWER_NOT_NOW);
    CHECK(deliver(GRIMHOLDI_RESULT_ACK, NULL, 0) == GRIMHOLDI_ANSWER_NOT_NOW);
    CHECK(deliver_text("on time") == GRIMHOLDI_ANSWER_DONE);
    CHECK(has_text(other, 5, "on time"));
    CHECK(launch().number == GRIMHOLDI_ANSWER_NAK);
}

/* One delivery is thrown away, however many resets come before it. */
static void abandoned_stays_abandoned(uint32_t lane)
{
    uint32_t other = 1 - lane;

    configured_hub(4, 3);
    CHECK(start(lane, 5) == GRIMHOLDI_ANSWER_DONE);
    CHECK(launches(lane, 5));
    CHECK(clear(lane, 5) == GRIMHOLDI_ANSWER_DONE);
    CHECK(start(other, 5) == GRIMHOLDI_ANSWER_DONE);
    CHECK(start(lane, 5) == GRIMHOLDI_ANSWER_DONE);
    CHECK(reset_tt_from(lane) == GRIMHOLDI_ANSWER_DONE);
    CHECK(launch().number == GRIMHOLDI_ANSWER_NOT_NOW);
    CHECK(reset_tt_from(other) == GRIMHOLDI_ANSWER_DONE);
    CHECK(launch().number == GRIMHOLDI_ANSWER_NOT_NOW);
    CHECK(start(other, 5) == GRIMHOLDI_ANSWER_DONE);
    CHECK(deliver_text("late") == GRIMHOLDI_ANSWER_DONE);
    CHECK(result_of(other, 5).number == GRIMHOLDI_ANSWER_NYET);
    CHECK(launches(other, 5));
    CHECK(deliver_text("new") == GRIMHOLDI_ANSWER_DONE);
    CHECK(has_text(other, 5, "new"));
}

/* Ready and old buffers are emptied, the other lane's kept; nothing runs. */
static void reset_empties_old_ones(uint32_t lane)
{
    uint32_t other = 1 - lane;

    configured_hub(4, 4);
    make_ready(lane, 5, "own ready");
    make_ready(other, 5, "other ready");
    make_ready(lane, 6, "own old");
    make_ready(other, 6, "other old");
    CHECK(has_text(lane, 6, "own old"));
    CHECK(has_text(other, 6, "other old"));
    CHECK(reset_tt_from(lane) == GRIMHOLDI_ANSWER_DONE);
    CHECK(result_of(lane, 5).number == GRIMHOLDI_ANSWER_STALL);
    CHECK(result_of(lane, 6).number == GRIMHOLDI_ANSWER_STALL);
    CHECK(has_text(other, 5, "other ready"));
    CHECK(has_text(other, 6, "other old"));
    CHECK(launch().number == GRIMHOLDI_ANSWER_NAK);
}

/*
 * The whole area after a reset: 4 ports end at byte 24, buffers of 72 bytes
 * follow.  Buffers 0 and 2 are the caller's, 1 and 3 the other's.
 */
static void reset_in_the_area(uint32_t lane, uint32_t running)
{
    uint32_t i;

    configured_hub(4, 4);
    for (i = 0; i < 4; i++)
        CHECK(start(i % 2 == 0 ? lane : 1 - lane, 5 + i)
              == GRIMHOLDI_ANSWER_DONE);
    for (i = 0; i < running; i++) {
        CHECK(launch().address == 5 + i);
        CHECK(deliver_text("ready") == GRIMHOLDI_ANSWER_DONE);
    }
    CHECK(launch().address == 5 + running);
    save();
    CHECK(saved_area[6] == 1 && saved_area[7] == running);
    if (running % 2 == 0) {
        saved_area[6] = 2;
        saved_area[7] = 0;
    }
    memset(saved_area + 24, 0, 72);
    memset(saved_area + 24 + 2 * 72, 0, 72);
    CHECK(reset_tt_from(lane) == GRIMHOLDI_ANSWER_DONE);
    CHECK(area_is_saved());
}

/* ClearTTBuffer, SetConfiguration and bus reset. */

static void clear_acts_on_its_own_lane(uint32_t lane)
{
    uint32_t other = 1 - lane;

    configured_hub(4, 3);
    CHECK(start(other, 5) == GRIMHOLDI_ANSWER_DONE);
    CHECK(launches(other, 5));
    save();
    CHECK(clear(lane, 5) == GRIMHOLDI_ANSWER_DONE);
    CHECK(area_is_saved());
    CHECK(start(lane, 5) == GRIMHOLDI_ANSWER_DONE);
    CHECK(clear(lane, 5) == GRIMHOLDI_ANSWER_DONE);
    CHECK(area_is_saved());
    CHECK(result_of(lane, 5).number == GRIMHOLDI_ANSWER_STALL);
    CHECK(deliver_text("on time") == GRIMHOLDI_ANSWER_DONE);
    CHECK(has_text(other, 5, "on time"));

    /* The caller's runs: the other's with the same numbers stays pending. */
    CHECK(start(lane, 5) == GRIMHOLDI_ANSWER_DONE);
    CHECK(start(other, 5) == GRIMHOLDI_ANSWER_DONE);
    CHECK(launches(lane, 5));
    CHECK(clear(lane, 5) == GRIMHOLDI_ANSWER_DONE);
    CHECK(deliver_text("late") == GRIMHOLDI_ANSWER_DONE);
    CHECK(result_of(other, 5).number == GRIMHOLDI_ANSWER_NYET);
    CHECK(launches(other, 5));
}

/* Pending, ready and old in either lane, and one running. */
static void filled_hub(uint32_t running_lane)
{
    configured_hub(4, 4);
    make_ready(1 - running_lane, 5, "ready");
    make_old(running_lane, 6, "old");
    CHECK(start(running_lane, 6) == GRIMHOLDI_ANSWER_DONE);
    CHECK(start(1 - running_lane, 7) == GRIMHOLDI_ANSWER_DONE);
    CHECK(launches(running_lane, 6));
}

static void configuration_empties_both(uint32_t lane, uint16_t value)
{
    uint32_t running_lane;

    for (running_lane = 0; running_lane < 2; running_lane++) {
        configured_hub(4, 4);
        CHECK(set_configuration_from(lane, value) == GRIMHOLDI_ANSWER_DONE);
        save();
        filled_hub(running_lane);
        CHECK(set_configuration_from(lane, value) == GRIMHOLDI_ANSWER_DONE);
        CHECK(area_is_saved());
        CHECK(deliver_text("late")
              == (value == 0 ? GRIMHOLDI_ANSWER_SILENT
                             : GRIMHOLDI_ANSWER_NOT_NOW));
    }
}

static void bus_reset_empties_both(void)
{
    uint32_t running_lane;

    for (running_lane = 0; running_lane < 2; running_lane++) {
        new_hub(4, 4);
        save();
        filled_hub(running_lane);
        CHECK(bus_reset() == GRIMHOLDI_ANSWER_DONE);
        CHECK(area_is_saved());
    }
}

/* Ports. */

static void lanes_share_the_ports(uint32_t lane)
{
    uint32_t other = 1 - lane;

    new_hub(4, 3);
    CHECK(set_configuration_from(lane, 1) == GRIMHOLDI_ANSWER_DONE);
    CHECK(gives(request_from(other, 0x80, 0x08, 0, 0, 1), "\x01", 1));
    CHECK(set_feature_from(lane, GRIMHOLDI_PORT_POWER, 2)
          == GRIMHOLDI_ANSWER_DONE);
    CHECK(status_is_from(other, 2, "\x00\x01\x00\x00"));
    CHECK(event(GRIMHOLDI_EVENT_ATTACH_FULL, 2) == GRIMHOLDI_ANSWER_DONE);
    CHECK(gives(poll_from(lane), "\x04", 1));
    CHECK(gives(poll_from(other), "\x04", 1));
    CHECK(set_feature_from(other, GRIMHOLDI_PORT_RESET, 2)
          == GRIMHOLDI_ANSWER_DONE);
    CHECK(status_is_from(lane, 2, "\x11\x01\x01\x00"));

    /* A change that one lane clears is gone for both. */
    CHECK(clear_feature_from(lane, GRIMHOLDI_C_PORT_CONNECTION, 2)
          == GRIMHOLDI_ANSWER_DONE);
    CHECK(poll_from(other).number == GRIMHOLDI_ANSWER_NAK);
    CHECK(status_is_from(other, 2, "\x11\x01\x00\x00"));

    /* ResetTT leaves the ports alone; SetConfiguration does not. */
    CHECK(reset_tt_from(other) == GRIMHOLDI_ANSWER_DONE);
    CHECK(status_is_from(lane, 2, "\x11\x01\x00\x00"));
    CHECK(set_configuration_from(other, 0) == GRIMHOLDI_ANSWER_DONE);
    CHECK(poll_from(lane).number == GRIMHOLDI_ANSWER_SILENT);
    CHECK(start(lane, 5) == GRIMHOLDI_ANSWER_SILENT);
}

/* The cases that hold for either lane. */
static void cases_of(uint32_t lane)
{
    uint32_t i;

    data_stays_in_its_lane(lane);
    other_lane_takes_an_old_one(lane);
    for (i = GRIMHOLDI_BUFFERS_MIN; i <= GRIMHOLDI_BUFFERS_MAX; i++)
        limit_leaves_one(i, lane);
    repeat_at_the_limit(lane);
    own_old_one_at_the_limit(lane);
    old_ones_do_not_count(lane);
    reset_abandons_its_own(lane);
    reset_leaves_the_other(lane);
    abandoned_stays_abandoned(lane);
    reset_empties_old_ones(lane);
    for (i = 0; i < 4; i++)
        reset_in_the_area(lane, i);
    clear_acts_on_its_own_lane(lane);
    configuration_empties_both(lane, 0);
    configuration_empties_both(lane, 1);
    lanes_share_the_ports(lane);
}

int main(void)
{
    each_lane_gets_its_own_bytes();
    each_lane_sends_its_own_bytes();
    other_lane_holds_the_rest();
    lanes_share_four();
    order_of_acceptance_over_both();
    lane_is_in_launches_alone();
    reset_throws_any_result_away();
    bus_reset_empties_both();
    cases_of(0);
    cases_of(1);
    free_hub();
    return check_summary("lanes");
}
