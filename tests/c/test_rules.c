/* Rules that are easily got wrong, each shown by its own calls. */

#include "bench_hub.h"

enum { PORT = 1 };

/* Brings the port from Powered-off through the first so many steps. */
static void port_after(int steps, uint32_t buffers)
{
    new_hub(3, buffers);
    CHECK(set_configuration(1) == GRIMHOLDI_ANSWER_DONE);
    if (steps >= 1)
        CHECK(set_feature(GRIMHOLDI_PORT_POWER, PORT)
              == GRIMHOLDI_ANSWER_DONE);
    if (steps >= 2)
        CHECK(event(GRIMHOLDI_EVENT_ATTACH_FULL, PORT)
              == GRIMHOLDI_ANSWER_DONE);
    if (steps >= 3)
        CHECK(set_feature(GRIMHOLDI_PORT_RESET, PORT)
              == GRIMHOLDI_ANSWER_DONE);
    if (steps >= 4)
        ticks(GRIMHOLDI_RESET_TICKS);
    if (steps >= 5)
        CHECK(set_feature(GRIMHOLDI_PORT_SUSPEND, PORT)
              == GRIMHOLDI_ANSWER_DONE);
    if (steps >= 6)
        CHECK(event(GRIMHOLDI_EVENT_WAKE, PORT) == GRIMHOLDI_ANSWER_DONE);
}

static void enabled_hub(uint32_t buffers)
{
    port_after(4, buffers);
}

/* Whether the event takes place, for no reason, or is NOT_NOW. */
static int event_is(int taken, uint32_t number)
{
    grimholdi_reason reason = grimholdi_why_line_event(area, area_len,
                                                       number, PORT);

    if (taken)
        return is_reason(reason, GRIMHOLDI_WHY_NONE, 0)
               && event(number, PORT) == GRIMHOLDI_ANSWER_DONE;
    return is_reason(reason, GRIMHOLDI_WHY_NUMBER, GRIMHOLDI_ANSWER_NOT_NOW)
           && event(number, PORT) == GRIMHOLDI_ANSWER_NOT_NOW;
}

/* Which events each state takes; the others answer NOT_NOW. */
static void events_by_state(void)
{
    static const char *const taken[] = {
        "00000011", /* Powered-off */
        "11000011", /* Disconnected */
        "00100011", /* Disabled */
        "00010011", /* Resetting */
        "00100111", /* Enabled */
        "00101011", /* Suspended */
        "00000011"  /* Resuming */
    };
    int state;
    uint32_t number;

    for (state = 0; state < 7; state++)
        for (number = 0; number < 8; number++) {
            port_after(state, 3);
            CHECK(event_is(taken[state][number] == '1', number));
        }
}

static void direction_is_part_of_the_key(void)
{
    enabled_hub(3);
    CHECK(start_out(5, 1, (const uint8_t *)"abc", 3) == GRIMHOLDI_ANSWER_DONE);
    CHECK(complete(5, 1, GRIMHOLDI_DIRECTION_IN).number
          == GRIMHOLDI_ANSWER_STALL);
    CHECK(start_in(5, 1) == GRIMHOLDI_ANSWER_DONE);
    CHECK(launch().pid == GRIMHOLDI_PID_OUT);
    CHECK(deliver(GRIMHOLDI_RESULT_ACK, NULL, 0) == GRIMHOLDI_ANSWER_DONE);
    CHECK(launch().pid == GRIMHOLDI_PID_IN);
    CHECK(deliver(GRIMHOLDI_RESULT_NAK, NULL, 0) == GRIMHOLDI_ANSWER_DONE);
    CHECK(complete(5, 1, GRIMHOLDI_DIRECTION_OUT).pid == GRIMHOLDI_RESULT_ACK);
    CHECK(complete(5, 1, GRIMHOLDI_DIRECTION_IN).pid == GRIMHOLDI_RESULT_NAK);
}

static void short_result_has_no_older_tail(void)
{
    uint8_t bytes[64];

    memset(bytes, 0x55, sizeof bytes);
    enabled_hub(3);
    CHECK(start_in(5, 1) == GRIMHOLDI_ANSWER_DONE);
    CHECK(launch().number == GRIMHOLDI_ANSWER_DATA);
    CHECK(deliver(GRIMHOLDI_RESULT_DATA0, bytes, 64) == GRIMHOLDI_ANSWER_DONE);
    CHECK(complete(5, 1, GRIMHOLDI_DIRECTION_IN).length == 64);
    CHECK(start_in(5, 1) == GRIMHOLDI_ANSWER_DONE);
    CHECK(launch().number == GRIMHOLDI_ANSWER_DATA);
    CHECK(deliver(GRIMHOLDI_RESULT_DATA1, (const uint8_t *)"ab", 2)
          == GRIMHOLDI_ANSWER_DONE);
    memset(reply, 0xEE, GRIMHOLDI_REPLY_LENGTH);
    CHECK(gives(complete(5, 1, GRIMHOLDI_DIRECTION_IN), "ab", 2));
    CHECK(reply[2] == 0xEE && reply[63] == 0xEE);
}

static void late_result_is_thrown_away(void)
{
    enabled_hub(3);
    CHECK(start_in(5, 1) == GRIMHOLDI_ANSWER_DONE);
    CHECK(launch().number == GRIMHOLDI_ANSWER_DATA);
    CHECK(clear_tt_buffer(5, 1, GRIMHOLDI_DIRECTION_IN)
          == GRIMHOLDI_ANSWER_DONE);
    CHECK(start_in(5, 1) == GRIMHOLDI_ANSWER_DONE);
    CHECK(launch().number == GRIMHOLDI_ANSWER_NOT_NOW);

    /* A second clear of the refilled key leaves one delivery to come. */
    CHECK(clear_tt_buffer(5, 1, GRIMHOLDI_DIRECTION_IN)
          == GRIMHOLDI_ANSWER_DONE);
    CHECK(start_in(5, 1) == GRIMHOLDI_ANSWER_DONE);

    /* Numbers outside the rules leave the low side occupied. */
    CHECK(deliver(GRIMHOLDI_RESULT_ACK, (const uint8_t *)"a", 1)
          == GRIMHOLDI_ANSWER_OUTSIDE);
    CHECK(launch().number == GRIMHOLDI_ANSWER_NOT_NOW);

    /* ACK would not suit IN; it is thrown away all the same. */
    CHECK(deliver(GRIMHOLDI_RESULT_ACK, NULL, 0) == GRIMHOLDI_ANSWER_DONE);
    CHECK(complete(5, 1, GRIMHOLDI_DIRECTION_IN).number
          == GRIMHOLDI_ANSWER_NYET);
    CHECK(deliver(GRIMHOLDI_RESULT_NAK, NULL, 0) == GRIMHOLDI_ANSWER_NOT_NOW);
    CHECK(launch().address == 5);
}

static void late_result_after_a_stop(void)
{
    enabled_hub(3);
    CHECK(start_in(5, 1) == GRIMHOLDI_ANSWER_DONE);
    CHECK(launch().number == GRIMHOLDI_ANSWER_DATA);
    CHECK(set_configuration(1) == GRIMHOLDI_ANSWER_DONE);
    CHECK(deliver(GRIMHOLDI_RESULT_NAK, NULL, 0) == GRIMHOLDI_ANSWER_NOT_NOW);
    CHECK(start_in(5, 1) == GRIMHOLDI_ANSWER_DONE);
    CHECK(launch().number == GRIMHOLDI_ANSWER_DATA);
    CHECK(bus_reset() == GRIMHOLDI_ANSWER_DONE);
    CHECK(deliver(GRIMHOLDI_RESULT_NAK, NULL, 0) == GRIMHOLDI_ANSWER_SILENT);
}

static void second_reset_keeps_the_timer(void)
{
    enabled_hub(3);
    CHECK(set_feature(GRIMHOLDI_PORT_RESET, PORT) == GRIMHOLDI_ANSWER_DONE);
    CHECK(event(GRIMHOLDI_EVENT_CHIRP, PORT) == GRIMHOLDI_ANSWER_DONE);
    ticks(14);
    CHECK(set_feature(GRIMHOLDI_PORT_RESET, PORT) == GRIMHOLDI_ANSWER_DONE);
    ticks(1);
    CHECK(status_is(PORT, "\x03\x05\x11\x00"));
}

static void chirp_is_for_full_speed(void)
{
    enabled_hub(3);
    CHECK(set_feature(GRIMHOLDI_PORT_RESET, PORT) == GRIMHOLDI_ANSWER_DONE);
    CHECK(event(GRIMHOLDI_EVENT_CHIRP, PORT) == GRIMHOLDI_ANSWER_DONE);
    CHECK(event(GRIMHOLDI_EVENT_CHIRP, PORT) == GRIMHOLDI_ANSWER_NOT_NOW);
    CHECK(set_feature(GRIMHOLDI_PORT_POWER, 2) == GRIMHOLDI_ANSWER_DONE);
    CHECK(event(GRIMHOLDI_EVENT_ATTACH_LOW, 2) == GRIMHOLDI_ANSWER_DONE);
    CHECK(set_feature(GRIMHOLDI_PORT_RESET, 2) == GRIMHOLDI_ANSWER_DONE);
    CHECK(event(GRIMHOLDI_EVENT_CHIRP, 2) == GRIMHOLDI_ANSWER_NOT_NOW);
}

static void power_off_keeps_change_bits(void)
{
    enabled_hub(3);
    CHECK(clear_feature(GRIMHOLDI_PORT_POWER, PORT) == GRIMHOLDI_ANSWER_DONE);
    CHECK(status_is(PORT, "\x00\x00\x11\x00"));
    CHECK(clear_feature(GRIMHOLDI_C_PORT_CONNECTION, PORT)
          == GRIMHOLDI_ANSWER_DONE);
    CHECK(clear_feature(GRIMHOLDI_C_PORT_RESET, PORT)
          == GRIMHOLDI_ANSWER_DONE);
    CHECK(poll().number == GRIMHOLDI_ANSWER_NAK);
}

static void resume_takes_22_ticks(void)
{
    enabled_hub(3);
    CHECK(set_feature(GRIMHOLDI_PORT_SUSPEND, PORT) == GRIMHOLDI_ANSWER_DONE);
    CHECK(event(GRIMHOLDI_EVENT_WAKE, PORT) == GRIMHOLDI_ANSWER_DONE);
    ticks(21);
    CHECK(clear_feature(GRIMHOLDI_PORT_SUSPEND, PORT)
          == GRIMHOLDI_ANSWER_DONE);
    CHECK(status_is(PORT, "\x07\x01\x11\x00"));
    ticks(1);
    CHECK(status_is(PORT, "\x03\x01\x15\x00"));
}

static void speed_is_kept_while_disabled(void)
{
    enabled_hub(3);
    CHECK(set_feature(GRIMHOLDI_PORT_RESET, PORT) == GRIMHOLDI_ANSWER_DONE);
    CHECK(event(GRIMHOLDI_EVENT_CHIRP, PORT) == GRIMHOLDI_ANSWER_DONE);
    ticks(GRIMHOLDI_RESET_TICKS);
    CHECK(clear_feature(GRIMHOLDI_PORT_ENABLE, PORT) == GRIMHOLDI_ANSWER_DONE);
    CHECK(status_is(PORT, "\x01\x05\x11\x00"));
    CHECK(set_feature(GRIMHOLDI_PORT_RESET, PORT) == GRIMHOLDI_ANSWER_DONE);
    CHECK(status_is(PORT, "\x11\x01\x11\x00"));
}

/*
 * What each input but a port error leaves of a port that it takes out of
 * PORT_ENABLE, or unplugs: C_PORT_ENABLE, bit 17, is in no status on the way.
 */
static void enable_change_is_for_port_errors(void)
{
    enum { DISABLED = 2, ENABLED = 4, SUSPENDED = 5, RESUMING = 6 };
    static const struct {
        int state;
        uint32_t event;
        const char *status;
    } ends[] = {
        {DISABLED, GRIMHOLDI_EVENT_DETACH, "\x00\x01\x01\x00"},
        {ENABLED, GRIMHOLDI_EVENT_DETACH, "\x00\x01\x11\x00"},
        {SUSPENDED, GRIMHOLDI_EVENT_DETACH, "\x00\x01\x11\x00"},
        {ENABLED, GRIMHOLDI_EVENT_OVER_CURRENT_ON, "\x08\x00\x19\x00"},
        {SUSPENDED, GRIMHOLDI_EVENT_OVER_CURRENT_ON, "\x08\x00\x19\x00"},
        {RESUMING, GRIMHOLDI_EVENT_OVER_CURRENT_ON, "\x08\x00\x19\x00"}
    };
    size_t i;
    int steps;

    for (i = 0; i < sizeof ends / sizeof *ends; i++) {
        for (steps = 0; steps <= ends[i].state; steps++) {
            port_after(steps, 3);
            CHECK(!(port_changes(PORT) & GRIMHOLDI_CHANGE_ENABLE));
        }
        CHECK(event(ends[i].event, PORT) == GRIMHOLDI_ANSWER_DONE);
        CHECK(status_is(PORT, ends[i].status));
    }

    enabled_hub(3);
    CHECK(clear_feature(GRIMHOLDI_PORT_ENABLE, PORT) == GRIMHOLDI_ANSWER_DONE);
    CHECK(status_is(PORT, "\x01\x01\x11\x00"));
    enabled_hub(3);
    CHECK(set_feature(GRIMHOLDI_PORT_RESET, PORT) == GRIMHOLDI_ANSWER_DONE);
    CHECK(status_is(PORT, "\x11\x01\x11\x00"));
    enabled_hub(3);
    CHECK(set_configuration(1) == GRIMHOLDI_ANSWER_DONE);
    CHECK(status_is(PORT, "\x00\x00\x11\x00"));
}

static void enable_change_stays_until_cleared(void)
{
    enabled_hub(3);
    CHECK(event(GRIMHOLDI_EVENT_PORT_ERROR, PORT) == GRIMHOLDI_ANSWER_DONE);
    CHECK(status_is(PORT, "\x01\x01\x13\x00"));
    CHECK(event(GRIMHOLDI_EVENT_PORT_ERROR, PORT) == GRIMHOLDI_ANSWER_NOT_NOW);
    CHECK(event(GRIMHOLDI_EVENT_DETACH, PORT) == GRIMHOLDI_ANSWER_DONE);
    CHECK(status_is(PORT, "\x00\x01\x13\x00"));
    CHECK(event(GRIMHOLDI_EVENT_OVER_CURRENT_ON, PORT)
          == GRIMHOLDI_ANSWER_DONE);
    CHECK(status_is(PORT, "\x08\x00\x1B\x00"));
    CHECK(clear_feature(GRIMHOLDI_C_PORT_ENABLE, PORT)
          == GRIMHOLDI_ANSWER_DONE);
    CHECK(status_is(PORT, "\x08\x00\x19\x00"));

    enabled_hub(3);
    CHECK(event(GRIMHOLDI_EVENT_PORT_ERROR, PORT) == GRIMHOLDI_ANSWER_DONE);
    CHECK(bus_reset() == GRIMHOLDI_ANSWER_DONE);
    CHECK(set_configuration(1) == GRIMHOLDI_ANSWER_DONE);
    CHECK(status_is(PORT, "\x00\x00\x00\x00"));
}

static void over_current_levels(void)
{
    enabled_hub(3);
    CHECK(event(GRIMHOLDI_EVENT_OVER_CURRENT_ON, 2) == GRIMHOLDI_ANSWER_DONE);
    CHECK(set_feature(GRIMHOLDI_PORT_POWER, 2) == GRIMHOLDI_ANSWER_DONE);
    CHECK(status_is(2, "\x08\x00\x08\x00"));
    CHECK(clear_feature(GRIMHOLDI_C_PORT_OVER_CURRENT, 2)
          == GRIMHOLDI_ANSWER_DONE);
    CHECK(event(GRIMHOLDI_EVENT_OVER_CURRENT_ON, 2) == GRIMHOLDI_ANSWER_DONE);
    CHECK(status_is(2, "\x08\x00\x00\x00"));

    CHECK(set_configuration(1) == GRIMHOLDI_ANSWER_DONE);
    CHECK(status_is(2, "\x08\x00\x00\x00"));
    CHECK(status_is(PORT, "\x00\x00\x11\x00"));
    CHECK(set_configuration(0) == GRIMHOLDI_ANSWER_DONE);
    CHECK(set_configuration(1) == GRIMHOLDI_ANSWER_DONE);
    CHECK(status_is(2, "\x00\x00\x00\x00"));
    CHECK(status_is(PORT, "\x00\x00\x11\x00"));
}

static void unconfigured_hub(void)
{
    new_hub(3, 3);
    CHECK(grimholdi_tick(area, area_len).number == GRIMHOLDI_ANSWER_DONE);
    CHECK(event(GRIMHOLDI_EVENT_OVER_CURRENT_ON, 1)
          == GRIMHOLDI_ANSWER_NOT_NOW);
    CHECK(gives(request(GRIMHOLDI_TYPE_GET_CONFIGURATION,
                        GRIMHOLDI_REQUEST_GET_CONFIGURATION, 0, 0, 1),
                "\x00", 1));
    CHECK(set_configuration(1) == GRIMHOLDI_ANSWER_DONE);
    CHECK(gives(request(GRIMHOLDI_TYPE_GET_CONFIGURATION,
                        GRIMHOLDI_REQUEST_GET_CONFIGURATION, 0, 0, 1),
                "\x01", 1));
    CHECK(gives(request(GRIMHOLDI_TYPE_GET_HUB, GRIMHOLDI_REQUEST_GET_STATUS,
                        0, 0, 4), "\x00\x00\x00\x00", 4));
    CHECK(request(GRIMHOLDI_TYPE_SET_HUB, GRIMHOLDI_REQUEST_CLEAR_FEATURE,
                  GRIMHOLDI_C_HUB_OVER_CURRENT, 0, 0).number
          == GRIMHOLDI_ANSWER_DONE);
}

static void bus_reset_gives_the_new_hub(void)
{
    uint8_t fresh[GRIMHOLDI_AREA_LENGTH_MAX];

    new_hub(3, 3);
    memcpy(fresh, area, area_len);
    enabled_hub(3);
    CHECK(start_in(5, 1) == GRIMHOLDI_ANSWER_DONE);
    CHECK(event(GRIMHOLDI_EVENT_OVER_CURRENT_ON, 2) == GRIMHOLDI_ANSWER_DONE);
    CHECK(bus_reset() == GRIMHOLDI_ANSWER_DONE);
    CHECK(memcmp(area, fresh, area_len) == 0);
}

static void own_old_buffer_comes_first(void)
{
    enabled_hub(3);
    CHECK(start_in(5, 1) == GRIMHOLDI_ANSWER_DONE);
    CHECK(start_in(6, 1) == GRIMHOLDI_ANSWER_DONE);
    CHECK(launch().address == 5);
    CHECK(deliver(GRIMHOLDI_RESULT_NAK, NULL, 0) == GRIMHOLDI_ANSWER_DONE);
    CHECK(launch().address == 6);
    CHECK(deliver(GRIMHOLDI_RESULT_NAK, NULL, 0) == GRIMHOLDI_ANSWER_DONE);
    CHECK(complete(5, 1, GRIMHOLDI_DIRECTION_IN).pid == GRIMHOLDI_RESULT_NAK);
    CHECK(complete(6, 1, GRIMHOLDI_DIRECTION_IN).pid == GRIMHOLDI_RESULT_NAK);

    /* Buffer 0 is old too, but its key is another. */
    CHECK(start_in(6, 1) == GRIMHOLDI_ANSWER_DONE);
    CHECK(complete(5, 1, GRIMHOLDI_DIRECTION_IN).pid == GRIMHOLDI_RESULT_NAK);
}

static void repeats_and_reuse(void)
{
    grimholdi_answer answer;

    enabled_hub(4);

    /* SETUP and OUT share a key; the repeat is acknowledged, not stored. */
    CHECK(grimholdi_start_split(area, area_len, 0, GRIMHOLDI_PID_SETUP,
                                GRIMHOLDI_TRANSFER_CONTROL, 1, 1, 5, 0,
                                (const uint8_t *)"12345678", 8).number
          == GRIMHOLDI_ANSWER_DONE);
    CHECK(start_out(5, 0, (const uint8_t *)"x", 1) == GRIMHOLDI_ANSWER_DONE);
    answer = launch();
    CHECK(gives(answer, "12345678", 8));
    CHECK(answer.pid == GRIMHOLDI_PID_SETUP
          && answer.transfer == GRIMHOLDI_TRANSFER_CONTROL
          && answer.address == 5 && answer.endpoint == 0
          && answer.direction == GRIMHOLDI_DIRECTION_OUT
          && answer.low_speed == 1 && answer.toggle == 1);
    CHECK(deliver(GRIMHOLDI_RESULT_STALL, NULL, 0)
          == GRIMHOLDI_ANSWER_NOT_NOW);
    CHECK(deliver(GRIMHOLDI_RESULT_FAILURE, NULL, 0) == GRIMHOLDI_ANSWER_DONE);
    answer = complete(5, 0, GRIMHOLDI_DIRECTION_OUT);
    CHECK(answer.number == GRIMHOLDI_ANSWER_HANDSHAKE
          && answer.pid == GRIMHOLDI_RESULT_STALL && answer.length == 0);

    /* The old buffer is reused; a lane holds three of four. */
    CHECK(start_out(5, 0, (const uint8_t *)"y", 1) == GRIMHOLDI_ANSWER_DONE);
    CHECK(start_in(6, 1) == GRIMHOLDI_ANSWER_DONE);
    CHECK(start_in(7, 1) == GRIMHOLDI_ANSWER_DONE);
    CHECK(start_in(8, 1) == GRIMHOLDI_ANSWER_NAK);

    /* Launches follow the order of acceptance, not that of the buffers. */
    CHECK(clear_tt_buffer(5, 0, GRIMHOLDI_DIRECTION_OUT)
          == GRIMHOLDI_ANSWER_DONE);
    CHECK(start_in(8, 1) == GRIMHOLDI_ANSWER_DONE);
    CHECK(launch().address == 6);
    CHECK(deliver(GRIMHOLDI_RESULT_NAK, NULL, 0) == GRIMHOLDI_ANSWER_DONE);
    CHECK(launch().address == 7);
    CHECK(deliver(GRIMHOLDI_RESULT_NAK, NULL, 0) == GRIMHOLDI_ANSWER_DONE);
    CHECK(launch().address == 8);

    /* A clear without a buffer is done, and empties ready buffers too. */
    CHECK(clear_tt_buffer(9, 1, GRIMHOLDI_DIRECTION_IN)
          == GRIMHOLDI_ANSWER_DONE);
    CHECK(clear_tt_buffer(6, 1, GRIMHOLDI_DIRECTION_IN)
          == GRIMHOLDI_ANSWER_DONE);
    CHECK(complete(6, 1, GRIMHOLDI_DIRECTION_IN).number
          == GRIMHOLDI_ANSWER_STALL);
}

static uint8_t start_toggled(uint32_t pid, uint32_t toggle)
{
    static const uint8_t payload[8] = {0};
    int is_in = pid == GRIMHOLDI_PID_IN;

    return grimholdi_start_split(area, area_len, 0, pid,
                                 GRIMHOLDI_TRANSFER_CONTROL, 0, toggle, 5, 0,
                                 is_in ? NULL : payload,
                                 is_in ? 0 : sizeof payload).number;
}

/* It is stored and launched; a repeat's is dropped; none is compared. */
static void toggles(void)
{
    static const uint32_t pids[] = {GRIMHOLDI_PID_OUT, GRIMHOLDI_PID_IN,
                                    GRIMHOLDI_PID_SETUP};
    uint32_t toggle;
    size_t i;

    for (i = 0; i < 3; i++)
        for (toggle = 0; toggle < 2; toggle++) {
            configured_hub(2, 2);
            CHECK(start_toggled(pids[i], toggle) == GRIMHOLDI_ANSWER_DONE);
            CHECK(start_toggled(pids[i], !toggle) == GRIMHOLDI_ANSWER_DONE);
            CHECK(launch().toggle == toggle);
        }
    for (toggle = 0; toggle < 2; toggle++) {
        configured_hub(2, 2);
        CHECK(start_toggled(GRIMHOLDI_PID_IN, toggle)
              == GRIMHOLDI_ANSWER_DONE);
        CHECK(launch().number == GRIMHOLDI_ANSWER_DATA);
        CHECK(deliver(GRIMHOLDI_RESULT_DATA1, NULL, 0)
              == GRIMHOLDI_ANSWER_DONE);
        CHECK(complete(5, 0, GRIMHOLDI_DIRECTION_IN).pid
              == GRIMHOLDI_RESULT_DATA1);
    }
}

/* What runs, waits and is ready for the device stays till it is emptied. */
static void detach_leaves_the_translator(void)
{
    enabled_hub(4);
    CHECK(start_in(7, 1) == GRIMHOLDI_ANSWER_DONE);
    CHECK(launches(0, 7));
    CHECK(deliver_text("abc") == GRIMHOLDI_ANSWER_DONE);
    CHECK(start_in(5, 1) == GRIMHOLDI_ANSWER_DONE);
    CHECK(start_in(6, 1) == GRIMHOLDI_ANSWER_DONE);
    CHECK(launches(0, 5));
    CHECK(event(GRIMHOLDI_EVENT_DETACH, PORT) == GRIMHOLDI_ANSWER_DONE);
    CHECK(has_text(0, 7, "abc"));
    CHECK(launch().number == GRIMHOLDI_ANSWER_NOT_NOW);
    CHECK(deliver(GRIMHOLDI_RESULT_FAILURE, NULL, 0) == GRIMHOLDI_ANSWER_DONE);
    CHECK(complete(5, 1, GRIMHOLDI_DIRECTION_IN).pid
          == GRIMHOLDI_RESULT_STALL);
    CHECK(launches(0, 6));
    CHECK(clear_tt_buffer(6, 1, GRIMHOLDI_DIRECTION_IN)
          == GRIMHOLDI_ANSWER_DONE);
    CHECK(complete(6, 1, GRIMHOLDI_DIRECTION_IN).number
          == GRIMHOLDI_ANSWER_STALL);
}

int main(void)
{
    events_by_state();
    direction_is_part_of_the_key();
    short_result_has_no_older_tail();
    late_result_is_thrown_away();
    late_result_after_a_stop();
    second_reset_keeps_the_timer();
    chirp_is_for_full_speed();
    power_off_keeps_change_bits();
    resume_takes_22_ticks();
    speed_is_kept_while_disabled();
    enable_change_is_for_port_errors();
    enable_change_stays_until_cleared();
    over_current_levels();
    unconfigured_hub();
    bus_reset_gives_the_new_hub();
    own_old_buffer_comes_first();
    repeats_and_reuse();
    toggles();
    detach_leaves_the_translator();
    free_hub();
    return check_summary("rules");
}
