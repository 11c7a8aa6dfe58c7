/*
 * Explained calls: each reason, that the area keeps every byte, and that the
 * call is then answered as the reason says.
 */

#include "bench_hub.h"

/* A reason and the answer that stands behind it. */

typedef struct {
    grimholdi_reason reason;
    uint8_t answer;
} why;

static why because(uint8_t kind, uint8_t value, uint8_t answer)
{
    why w = {{0, 0, {0}}, 0};

    w.reason.kind = kind;
    w.reason.value = value;
    w.answer = answer;
    return w;
}

static why none(uint8_t answer)
{
    return because(GRIMHOLDI_WHY_NONE, 0, answer);
}

static why number(uint8_t value)
{
    return because(GRIMHOLDI_WHY_NUMBER, value, value);
}

static why held(uint32_t buffer)
{
    return because(GRIMHOLDI_WHY_HELD, (uint8_t)buffer, GRIMHOLDI_ANSWER_DONE);
}

static why reused(uint32_t buffer)
{
    return because(GRIMHOLDI_WHY_REUSED, (uint8_t)buffer,
                   GRIMHOLDI_ANSWER_DONE);
}

static why took_free(uint32_t buffer)
{
    return because(GRIMHOLDI_WHY_TOOK_FREE, (uint8_t)buffer,
                   GRIMHOLDI_ANSWER_DONE);
}

static why limit(void)
{
    return because(GRIMHOLDI_WHY_LIMIT, 0, GRIMHOLDI_ANSWER_NAK);
}

static why no_room(void)
{
    return because(GRIMHOLDI_WHY_NO_ROOM, 0, GRIMHOLDI_ANSWER_NAK);
}

static why wrong(uint8_t what)
{
    return because(GRIMHOLDI_WHY_WRONG, what, GRIMHOLDI_ANSWER_STALL);
}

/* Seven bytes, port 1 first. */
static why changes(const char *bits)
{
    why w = because(GRIMHOLDI_WHY_CHANGES, 0, GRIMHOLDI_ANSWER_DATA);

    memcpy(w.reason.changes, bits, GRIMHOLDI_PORTS_MAX);
    return w;
}

/* The reason is the expected one, and the area is as saved. */
static int is_told(why expected, grimholdi_reason reason)
{
    return memcmp(&reason, &expected.reason, sizeof reason) == 0
           && area_is_saved();
}

/* The byte of a poll that the change bits make. */
static uint8_t byte_of(const uint8_t bits[GRIMHOLDI_PORTS_MAX])
{
    uint8_t byte = 0;
    int port;

    for (port = 1; port <= GRIMHOLDI_PORTS_MAX; port++)
        if (bits[port - 1] != 0)
            byte |= (uint8_t)(1 << port);
    return byte;
}

static int is_answered(why expected, grimholdi_answer answer)
{
    if (answer.number != expected.answer)
        return 0;
    return expected.reason.kind != GRIMHOLDI_WHY_CHANGES
           || (answer.length == 1
               && reply[0] == byte_of(expected.reason.changes));
}

/*
 * Each call explained, then made, then taken back.  The reply space has 64
 * bytes, so that reply_len is at most 64.
 */

static uint8_t *space(size_t reply_len)
{
    return reply_len == 0 ? NULL : reply;
}

static int control_of(uint32_t lane, const uint8_t *setup, size_t length,
                      size_t reply_len, why expected)
{
    int told, answered;

    save();
    told = is_told(expected, grimholdi_why_control(area, area_len, lane,
                                                   setup, length,
                                                   reply_len));
    answered = is_answered(expected, grimholdi_control(area, area_len, lane,
                                                       setup, length,
                                                       space(reply_len),
                                                       reply_len));
    restore();
    return told && answered;
}

static int poll_of(uint32_t lane, size_t reply_len, why expected)
{
    int told, answered;

    save();
    told = is_told(expected, grimholdi_why_poll(area, area_len, lane,
                                                reply_len));
    answered = is_answered(expected, grimholdi_poll(area, area_len, lane,
                                                    space(reply_len),
                                                    reply_len));
    restore();
    return told && answered;
}

/* What a start-split left: the key is where the reason says. */
static int is_stored(why expected, uint32_t lane, uint32_t pid,
                     uint32_t address, uint32_t endpoint)
{
    switch (expected.reason.kind) {
    case GRIMHOLDI_WHY_HELD:
        return area_is_saved() && has_key(expected.reason.value, lane, pid,
                                          address, endpoint);
    case GRIMHOLDI_WHY_REUSED:
    case GRIMHOLDI_WHY_TOOK_FREE:
        return buffer_bytes(expected.reason.value)[0] == 1
               && has_key(expected.reason.value, lane, pid, address, endpoint);
    default:
        return area_is_saved();
    }
}

static int start_of(uint32_t lane, uint32_t pid, uint32_t transfer,
                    uint32_t low_speed, uint32_t toggle, uint32_t address,
                    uint32_t endpoint, size_t length, why expected)
{
    uint8_t *payload = length == 0 ? NULL : allocate(length);
    int told, answered;

    save();
    told = is_told(expected,
                   grimholdi_why_start_split(area, area_len, lane, pid,
                                             transfer, low_speed, toggle,
                                             address, endpoint, payload,
                                             length));
    answered = is_answered(expected,
                           grimholdi_start_split(area, area_len, lane, pid,
                                                 transfer, low_speed, toggle,
                                                 address, endpoint, payload,
                                                 length))
               && is_stored(expected, lane, pid, address, endpoint);
    restore();
    free(payload);
    return told && answered;
}

static int complete_of(uint32_t lane, uint32_t address, uint32_t endpoint,
                       uint32_t direction, size_t reply_len, why expected)
{
    int told, answered;

    save();
    told = is_told(expected,
                   grimholdi_why_complete_split(area, area_len, lane,
                                                address, endpoint,
                                                direction, reply_len));
    answered = is_answered(expected,
                           grimholdi_complete_split(area, area_len, lane,
                                                    address, endpoint,
                                                    direction,
                                                    space(reply_len),
                                                    reply_len));
    restore();
    return told && answered;
}

static int launch_of(size_t reply_len, why expected)
{
    int told, answered;

    save();
    told = is_told(expected, grimholdi_why_launch(area, area_len,
                                                  reply_len));
    answered = is_answered(expected, grimholdi_launch(area, area_len,
                                                      space(reply_len),
                                                      reply_len));
    restore();
    return told && answered;
}

static int deliver_of(uint32_t result, size_t length, why expected)
{
    uint8_t *payload = length == 0 ? NULL : allocate(length);
    int told, answered;

    save();
    told = is_told(expected, grimholdi_why_deliver(area, area_len, result,
                                                   payload, length));
    answered = is_answered(expected, grimholdi_deliver(area, area_len, result,
                                                       payload, length));
    restore();
    free(payload);
    return told && answered;
}

static int event_of(uint32_t event, uint32_t port, why expected)
{
    int told, answered;

    save();
    told = is_told(expected, grimholdi_why_line_event(area, area_len,
                                                      event, port));
    answered = is_answered(expected, grimholdi_line_event(area, area_len,
                                                          event, port));
    restore();
    return told && answered;
}

static int tick_of(why expected)
{
    int told, answered;

    save();
    told = is_told(expected, grimholdi_why_tick(area, area_len));
    answered = is_answered(expected, grimholdi_tick(area, area_len));
    restore();
    return told && answered;
}

static int bus_reset_of(why expected)
{
    int told, answered;

    save();
    told = is_told(expected, grimholdi_why_bus_reset(area, area_len));
    answered = is_answered(expected, grimholdi_bus_reset(area, area_len));
    restore();
    return told && answered;
}

/* Bulk IN start-split of (address, 1). */
static int in_of(uint32_t lane, uint32_t address, why expected)
{
    return start_of(lane, GRIMHOLDI_PID_IN, GRIMHOLDI_TRANSFER_BULK, 0, 0,
                    address, 1, 0, expected);
}

static int request_of(uint8_t type, uint8_t code, uint16_t value,
                      uint16_t index, uint16_t length, why expected)
{
    uint8_t setup[GRIMHOLDI_SETUP_LENGTH];

    put_setup(setup, type, code, value, index, length);
    return control_of(0, setup, sizeof setup, 64, expected)
           && control_of(1, setup, sizeof setup, 64, expected);
}

/* The struct. */

static void layout(void)
{
    CHECK(sizeof(grimholdi_reason) == 9);
    CHECK(offsetof(grimholdi_reason, kind) == 0);
    CHECK(offsetof(grimholdi_reason, value) == 1);
    CHECK(offsetof(grimholdi_reason, changes) == 2);
}

/* Start-splits. */

static void held_pending_and_ready(uint32_t lane)
{
    uint32_t other = 1 - lane;

    configured_hub(4, 4);
    make_ready(lane, 5, "five");
    make_ready(other, 6, "six");
    CHECK(start_in_from(lane, 7, 1) == GRIMHOLDI_ANSWER_DONE);
    CHECK(in_of(lane, 5, held(0)));
    CHECK(in_of(other, 6, held(1)));
    CHECK(in_of(lane, 7, held(2)));
    CHECK(launches(lane, 7));
    CHECK(in_of(lane, 7, held(2)));

    /* In the other lane these are other keys. */
    CHECK(in_of(other, 5, took_free(3)));
    CHECK(in_of(lane, 6, took_free(3)));
    CHECK(in_of(other, 7, took_free(3)));
}

/* The key alone makes a repeat: SETUP and OUT have the same direction. */
static void held_whatever_it_says(void)
{
    configured_hub(4, 3);
    CHECK(start_out(5, 1, (const uint8_t *)"abc", 3) == GRIMHOLDI_ANSWER_DONE);
    CHECK(start_of(0, 1, 2, 0, 0, 5, 1, 3, held(0)));
    CHECK(start_of(0, 1, 0, 1, 1, 5, 1, 64, held(0)));
    CHECK(start_of(0, 13, 0, 0, 0, 5, 1, 8, held(0)));
    CHECK(start_of(0, 9, 2, 0, 0, 5, 1, 0, took_free(1)));
    CHECK(start_of(0, 1, 2, 0, 0, 5, 2, 3, took_free(1)));
    CHECK(start_of(0, 1, 2, 0, 0, 6, 1, 3, took_free(1)));
    CHECK(start_of(1, 1, 2, 0, 0, 5, 1, 3, took_free(1)));
}

/* Buffer 1 is old; 0 is empty, then pending. */
static void reused_before_lower_ones(uint32_t lane)
{
    uint32_t other = 1 - lane;

    configured_hub(4, 3);
    make_ready(lane, 4, "four");
    make_old(lane, 5, "five");
    CHECK(clear_tt_buffer_from(lane, 4, 1, GRIMHOLDI_DIRECTION_IN)
          == GRIMHOLDI_ANSWER_DONE);
    CHECK(in_of(lane, 5, reused(1)));
    CHECK(in_of(lane, 6, took_free(0)));
    CHECK(in_of(other, 5, took_free(0)));
    CHECK(start_in_from(other, 6, 1) == GRIMHOLDI_ANSWER_DONE);
    CHECK(in_of(lane, 5, reused(1)));

    /* An old one of another key, or another lane, is free. */
    CHECK(in_of(lane, 6, took_free(1)));
    CHECK(in_of(other, 5, took_free(1)));
    CHECK(in_of(other, 7, took_free(1)));
    CHECK(in_of(other, 6, held(0)));
}

static void free_from_the_lowest(uint32_t buffers, uint32_t lane)
{
    uint32_t i;

    configured_hub(4, buffers);
    for (i = 0; i + 1 < buffers; i++) {
        CHECK(in_of(lane, 10 + i, took_free(i)));
        CHECK(start_in_from(lane, 10 + i, 1) == GRIMHOLDI_ANSWER_DONE);
        CHECK(in_of(lane, 10 + i, held(i)));
    }
    CHECK(in_of(1 - lane, 10, took_free(i)));
    CHECK(clear_tt_buffer_from(lane, 10, 1, GRIMHOLDI_DIRECTION_IN)
          == GRIMHOLDI_ANSWER_DONE);
    CHECK(in_of(lane, 10, took_free(0)));
    CHECK(in_of(1 - lane, 10, took_free(0)));
}

/* The lane holds all but one, which is empty, then the other lane's. */
static void limit_before_no_room(uint32_t buffers, uint32_t lane)
{
    uint32_t other = 1 - lane;
    uint32_t i;

    configured_hub(4, buffers);
    for (i = 0; i + 1 < buffers; i++)
        CHECK(start_in_from(lane, 10 + i, 1) == GRIMHOLDI_ANSWER_DONE);
    CHECK(in_of(lane, 20, limit()));
    CHECK(in_of(lane, 10, held(0)));
    CHECK(in_of(lane, 10 + i - 1, held(i - 1)));
    CHECK(start_in_from(other, 20, 1) == GRIMHOLDI_ANSWER_DONE);
    CHECK(in_of(lane, 20, limit()));
    CHECK(in_of(lane, 10, held(0)));
    CHECK(in_of(other, 20, held(i)));

    /* With two buffers the other lane is at its limit too. */
    CHECK(in_of(other, 10, buffers == 2 ? limit() : no_room()));
}

/* Buffer 0 ready, 1 pending, 2 old, all of one lane. */
static void limit_in_its_own_old_one(uint32_t lane)
{
    configured_hub(4, 3);
    make_ready(lane, 5, "five");
    make_ready(1 - lane, 6, "six");
    make_old(lane, 7, "seven");
    CHECK(has_text(1 - lane, 6, "six"));
    CHECK(in_of(lane, 7, reused(2)));
    CHECK(start_in_from(lane, 8, 1) == GRIMHOLDI_ANSWER_DONE);
    CHECK(in_of(lane, 7, limit()));
    CHECK(in_of(lane, 9, limit()));
    CHECK(in_of(lane, 5, held(0)));
    CHECK(in_of(lane, 8, held(1)));
    CHECK(in_of(1 - lane, 7, took_free(2)));
}

/* Two of four each: both lanes are below their limit. */
static void no_room_in_both_lanes(void)
{
    uint32_t lane;

    configured_hub(4, 4);
    make_ready(0, 5, "five");
    make_ready(1, 5, "cinq");
    CHECK(start_in_from(0, 6, 1) == GRIMHOLDI_ANSWER_DONE);
    CHECK(start_in_from(1, 6, 1) == GRIMHOLDI_ANSWER_DONE);
    for (lane = 0; lane < 2; lane++) {
        CHECK(in_of(lane, 7, no_room()));
        CHECK(in_of(lane, 5, held(lane)));
        CHECK(in_of(lane, 6, held(2 + lane)));
    }

    /* A result that was read leaves room for either. */
    CHECK(has_text(1, 5, "cinq"));
    CHECK(in_of(0, 7, took_free(1)));
    CHECK(in_of(1, 7, took_free(1)));
    CHECK(in_of(1, 5, reused(1)));
}

/* Whether a reason is true of an IN start-split of (address, 0). */
static int is_true(why w, uint32_t lane, uint32_t address)
{
    const uint32_t b = w.reason.value;
    const int below = held_by(lane) + 1 < area[1];
    int held_key = 0, any_key = 0, lower_free = 0, all_held = 1;
    uint32_t i;

    for (i = 0; i < area[1]; i++) {
        int own = has_key(i, lane, GRIMHOLDI_PID_IN, address, 0);

        any_key |= own;
        held_key |= own && is_held(i);
        all_held &= is_held(i);
        lower_free |= i < b && !is_held(i);
    }
    switch (w.reason.kind) {
    case GRIMHOLDI_WHY_HELD:
        return is_held(b) && has_key(b, lane, GRIMHOLDI_PID_IN, address, 0);
    case GRIMHOLDI_WHY_REUSED:
        return below && !is_held(b)
               && has_key(b, lane, GRIMHOLDI_PID_IN, address, 0);
    case GRIMHOLDI_WHY_TOOK_FREE:
        return below && !any_key && !is_held(b) && !lower_free;
    case GRIMHOLDI_WHY_LIMIT:
        return !below && !held_key;
    default:
        return below && all_held && !any_key;
    }
}

/* The one reason that is true, and how many are. */
static why true_reason(uint32_t lane, uint32_t address, int *count)
{
    why choices[3 * GRIMHOLDI_BUFFERS_MAX + 2];
    why found = none(GRIMHOLDI_ANSWER_DONE);
    uint32_t n = 0;
    uint32_t i;

    for (i = 0; i < area[1]; i++) {
        choices[n++] = held(i);
        choices[n++] = reused(i);
        choices[n++] = took_free(i);
    }
    choices[n++] = limit();
    choices[n++] = no_room();
    *count = 0;
    for (i = 0; i < n; i++)
        if (is_true(choices[i], lane, address)) {
            found = choices[i];
            ++*count;
        }
    return found;
}

/*
 * Every choice of status and lane for each buffer, and every key of them and
 * a new one: exactly one reason is true, and it is told.
 */
static void one_reason_is_true(uint32_t buffers)
{
    uint32_t choices = 1;
    uint32_t choice, i;

    configured_hub(1, buffers);
    for (i = 0; i < buffers; i++)
        choices *= 7;
    for (choice = 0; choice < choices; choice++) {
        put_buffers(choice);
        if (held_by(0) == buffers || held_by(1) == buffers)
            continue; /* refused */
        for (i = 0; i < 2 * (buffers + 1); i++) {
            int count;
            why expected = true_reason(i % 2, 10 + i / 2, &count);

            CHECK(count == 1);
            CHECK(start_of(i % 2, GRIMHOLDI_PID_IN, GRIMHOLDI_TRANSFER_BULK, 0,
                           0, 10 + i / 2, 0, 0, expected));
        }
    }
}

static void start_numbers(void)
{
    const why outside = number(GRIMHOLDI_ANSWER_OUTSIDE);

    CHECK(start_of(2, 9, 2, 0, 0, 5, 1, 0, outside));
    CHECK(start_of(256, 9, 2, 0, 0, 5, 1, 0, outside));
    CHECK(start_of(FAR_NUMBER, 9, 2, 0, 0, 5, 1, 0, outside));
    CHECK(start_of(0, 2, 2, 0, 0, 5, 1, 0, outside));
    CHECK(start_of(0, 256 + 9, 2, 0, 0, 5, 1, 0, outside));
    CHECK(start_of(0, 9, 1, 0, 0, 5, 1, 0, outside));
    CHECK(start_of(0, 9, 256, 0, 0, 5, 1, 0, outside));
    CHECK(start_of(0, 13, 2, 0, 0, 5, 1, 8, outside));
    CHECK(start_of(0, 9, 2, 2, 0, 5, 1, 0, outside));
    CHECK(start_of(0, 9, 2, 0, 2, 5, 1, 0, outside));
    CHECK(start_of(0, 9, 2, 0, 0, 128, 1, 0, outside));
    CHECK(start_of(0, 9, 2, 0, 0, 5, 16, 0, outside));
    CHECK(start_of(0, 9, 2, 0, 0, 5, 1, 1, outside));
    CHECK(start_of(0, 1, 2, 0, 0, 5, 1, 65, outside));
    CHECK(start_of(0, 1, 2, 0, 0, 5, 1, 256, outside));
    CHECK(start_of(0, 13, 0, 0, 0, 5, 1, 7, outside));
    CHECK(start_of(0, 13, 0, 0, 0, 5, 1, 264, outside));
}

static void start_refusals(void)
{
    new_hub(4, 2);
    start_numbers();
    CHECK(in_of(0, 5, number(GRIMHOLDI_ANSWER_SILENT)));
    CHECK(in_of(1, 5, number(GRIMHOLDI_ANSWER_SILENT)));
    put_buffer(0, 1, 0);
    CHECK(start_of(0, 9, 2, 0, 0, 10, 0, 0, number(GRIMHOLDI_ANSWER_SILENT)));
    CHECK(in_of(0, 5, number(GRIMHOLDI_ANSWER_SILENT)));
    configured_hub(4, 2);
    start_numbers();

    /* A number outside the rules comes before a repeat and the limit. */
    CHECK(start_in(5, 1) == GRIMHOLDI_ANSWER_DONE);
    start_numbers();
    CHECK(in_of(0, 5, held(0)));
    CHECK(in_of(0, 6, limit()));
}

/* Polls. */

/* Every set of change bits at one port, with and without over-current. */
static void every_change_bit(uint32_t ports)
{
    uint32_t port, marks;

    configured_hub(ports, 2);
    for (port = 1; port <= ports; port++)
        for (marks = 0; marks < 64; marks++) {
            char bits[GRIMHOLDI_PORTS_MAX] = {0};

            bits[port - 1] = (char)(marks & 31);
            port_bytes(port)[3] = (uint8_t)marks;
            CHECK(poll_of(marks & 1, 64,
                          (marks & 31) == 0 ? none(GRIMHOLDI_ANSWER_NAK)
                                            : changes(bits)));
            port_bytes(port)[3] = 0;
        }
}

/* The same bits by calls. */
static void changes_by_calls(void)
{
    configured_hub(4, 3);
    CHECK(poll_of(0, 64, none(GRIMHOLDI_ANSWER_NAK)));
    CHECK(set_feature(GRIMHOLDI_PORT_POWER, 1) == GRIMHOLDI_ANSWER_DONE);
    CHECK(set_feature(GRIMHOLDI_PORT_POWER, 3) == GRIMHOLDI_ANSWER_DONE);
    CHECK(event(GRIMHOLDI_EVENT_ATTACH_FULL, 3) == GRIMHOLDI_ANSWER_DONE);
    CHECK(poll_of(0, 64, changes("\0\0\x01\0\0\0\0")));
    CHECK(set_feature(GRIMHOLDI_PORT_RESET, 3) == GRIMHOLDI_ANSWER_DONE);
    ticks(GRIMHOLDI_RESET_TICKS);
    CHECK(poll_of(1, 64, changes("\0\0\x11\0\0\0\0")));
    CHECK(set_feature(GRIMHOLDI_PORT_SUSPEND, 3) == GRIMHOLDI_ANSWER_DONE);
    CHECK(event(GRIMHOLDI_EVENT_WAKE, 3) == GRIMHOLDI_ANSWER_DONE);
    ticks(GRIMHOLDI_RESUME_TICKS);
    CHECK(event(GRIMHOLDI_EVENT_PORT_ERROR, 3) == GRIMHOLDI_ANSWER_DONE);
    CHECK(event(GRIMHOLDI_EVENT_OVER_CURRENT_ON, 1) == GRIMHOLDI_ANSWER_DONE);
    CHECK(event(GRIMHOLDI_EVENT_OVER_CURRENT_ON, 4) == GRIMHOLDI_ANSWER_DONE);
    CHECK(poll_of(0, 64, changes("\x08\0\x17\x08\0\0\0")));
    CHECK(clear_feature(GRIMHOLDI_C_PORT_CONNECTION, 3)
          == GRIMHOLDI_ANSWER_DONE);
    CHECK(clear_feature(GRIMHOLDI_C_PORT_OVER_CURRENT, 1)
          == GRIMHOLDI_ANSWER_DONE);
    CHECK(poll_of(1, 64, changes("\0\0\x16\x08\0\0\0")));
}

static void changes_at_all_ports(void)
{
    uint32_t port;

    configured_hub(7, 4);
    for (port = 1; port <= 7; port++)
        port_bytes(port)[3] = 0x3F;
    CHECK(poll_of(0, 64, changes("\x1F\x1F\x1F\x1F\x1F\x1F\x1F")));
    for (port = 1; port <= 7; port++)
        port_bytes(port)[3] = (uint8_t)(port << 1);
    CHECK(poll_of(1, 64, changes("\x02\x04\x06\x08\x0A\x0C\x0E")));
}

/* Behind the last port come buffers that are not empty. */
static void nothing_above_the_last_port(void)
{
    static const uint8_t payload[64] = {
        1, 2, 3, 4, 5, 6, 7, 8, 9, 10, 11, 12, 13, 14, 15, 16
    };
    uint32_t ports;

    for (ports = 1; ports < 7; ports++) {
        char bits[GRIMHOLDI_PORTS_MAX] = {0};

        configured_hub(ports, 2);
        CHECK(grimholdi_start_split(area, area_len, 1, GRIMHOLDI_PID_OUT,
                                    GRIMHOLDI_TRANSFER_BULK, 1, 1, 15, 15,
                                    payload, 64).number
              == GRIMHOLDI_ANSWER_DONE);
        CHECK(poll_of(0, 64, none(GRIMHOLDI_ANSWER_NAK)));
        bits[ports - 1] = 0x08;
        CHECK(event(GRIMHOLDI_EVENT_OVER_CURRENT_ON, ports)
              == GRIMHOLDI_ANSWER_DONE);
        CHECK(poll_of(0, 64, changes(bits)));
    }
}

static void poll_refusals(void)
{
    new_hub(4, 3);
    port_bytes(2)[3] = 0x01;
    CHECK(poll_of(0, 64, number(GRIMHOLDI_ANSWER_SILENT)));
    CHECK(poll_of(1, 64, number(GRIMHOLDI_ANSWER_SILENT)));
    CHECK(poll_of(0, 63, number(GRIMHOLDI_ANSWER_NO_SPACE)));
    CHECK(poll_of(0, 0, number(GRIMHOLDI_ANSWER_NO_SPACE)));
    CHECK(poll_of(2, 64, number(GRIMHOLDI_ANSWER_OUTSIDE)));
    CHECK(poll_of(2, 63, number(GRIMHOLDI_ANSWER_OUTSIDE)));
    configured_hub(4, 3);
    CHECK(poll_of(1, 63, number(GRIMHOLDI_ANSWER_NO_SPACE)));
    port_bytes(2)[3] = 0x01;
    CHECK(poll_of(1, 63, number(GRIMHOLDI_ANSWER_NO_SPACE)));
    CHECK(poll_of(FAR_NUMBER, 0, number(GRIMHOLDI_ANSWER_OUTSIDE)));
    CHECK(poll_of(1, 64, changes("\0\x01\0\0\0\0\0")));
}

/* Control requests. */

/* Each request, and a wrong value for each field that can be wrong. */
static const struct {
    uint8_t type, code, served_unconfigured;
    uint16_t value, index, length;
    uint16_t wrong_value, wrong_index, wrong_length;
    uint8_t answer;
} requests[] = { /* for a hub of 4 ports; any wLength suits a descriptor */
    {0x00, 0x09, 1, 1, 0, 0,      2, 1, 1,      GRIMHOLDI_ANSWER_DONE},
    {0x80, 0x08, 1, 0, 0, 1,      1, 1, 0,      GRIMHOLDI_ANSWER_DATA},
    {0xA0, 0x06, 1, 0x2900, 0, 9, 0x2901, 1, 9, GRIMHOLDI_ANSWER_DATA},
    {0xA0, 0x00, 0, 0, 0, 4,      1, 1, 3,      GRIMHOLDI_ANSWER_DATA},
    {0xA3, 0x00, 0, 0, 4, 4,      1, 5, 5,      GRIMHOLDI_ANSWER_DATA},
    {0x20, 0x01, 0, 1, 0, 0,      2, 1, 1,      GRIMHOLDI_ANSWER_DONE},
    {0x23, 0x01, 0, 8, 1, 0,      4, 0, 1,      GRIMHOLDI_ANSWER_DONE},
    {0x23, 0x03, 0, 4, 4, 0,      1, 5, 1,      GRIMHOLDI_ANSWER_DONE},
    {0x23, 0x08, 0, 0x9051, 1, 0, 0x0851, 2, 1, GRIMHOLDI_ANSWER_DONE},
    {0x23, 0x09, 0, 0, 1, 0,      1, 0, 1,      GRIMHOLDI_ANSWER_DONE}
};

enum { REQUESTS = sizeof requests / sizeof *requests };

/* The fields of the mask are wrong; the first of them is told. */
static void first_wrong_field(int configured, size_t i, int mask)
{
    const uint16_t value = mask & 1 ? requests[i].wrong_value
                                    : requests[i].value;
    const uint16_t index = mask & 2 ? requests[i].wrong_index
                                    : requests[i].index;
    const uint16_t length = mask & 4 ? requests[i].wrong_length
                                     : requests[i].length;
    why expected = none(requests[i].answer);

    if (!configured && !requests[i].served_unconfigured)
        expected = wrong(GRIMHOLDI_WRONG_UNCONFIGURED);
    else if (mask & 1)
        expected = wrong(GRIMHOLDI_WRONG_VALUE);
    else if (mask & 2)
        expected = wrong(GRIMHOLDI_WRONG_INDEX);
    else if (mask & 4 && length != requests[i].length)
        expected = wrong(GRIMHOLDI_WRONG_LENGTH);
    CHECK(request_of(requests[i].type, requests[i].code, value, index, length,
                     expected));
}

static void first_wrong_fields(int configured)
{
    size_t i;
    int mask;

    for (i = 0; i < REQUESTS; i++)
        for (mask = 0; mask < 8; mask++)
            first_wrong_field(configured, i, mask);
}

static int is_known(uint32_t type, uint32_t code)
{
    size_t i;

    for (i = 0; i < REQUESTS; i++)
        if (requests[i].type == type && requests[i].code == code)
            return 1;
    return 0;
}

/* Other types and codes come before whatever else is wrong. */
static void other_types_and_codes(void)
{
    uint32_t type, code;

    for (type = 0; type < 256; type++)
        for (code = 0; code < 16; code++)
            if (!is_known(type, code))
                CHECK(request_of((uint8_t)type, (uint8_t)code, code & 1,
                                 type & 1, (uint16_t)(type << 8),
                                 wrong(GRIMHOLDI_WRONG_TYPE_OR_CODE)));
    CHECK(request_of(0xFF, 0xFF, 0xFFFF, 0xFFFF, 0xFFFF,
                     wrong(GRIMHOLDI_WRONG_TYPE_OR_CODE)));
    CHECK(request_of(0x23, 0x13, 8, 1, 0,
                     wrong(GRIMHOLDI_WRONG_TYPE_OR_CODE)));
}

/* Single values next to those that are served. */
static void edges_of_fields(void)
{
    static const struct {
        uint8_t type, code;
        uint16_t value, index, length;
        uint8_t what;
    } edges[] = {
        {0x00, 0x09, 0x0101, 0, 0, GRIMHOLDI_WRONG_VALUE},
        {0x00, 0x09, 0x0100, 0, 0, GRIMHOLDI_WRONG_VALUE},
        {0x00, 0x09, 0, 0x0100, 0, GRIMHOLDI_WRONG_INDEX},
        {0x00, 0x09, 0, 0, 0x0100, GRIMHOLDI_WRONG_LENGTH},
        {0x80, 0x08, 0, 0, 0x0101, GRIMHOLDI_WRONG_LENGTH},
        {0x80, 0x08, 0, 0, 2,      GRIMHOLDI_WRONG_LENGTH},
        {0xA0, 0x06, 0, 0, 9,      GRIMHOLDI_WRONG_VALUE},
        {0xA0, 0x06, 0x0029, 0, 0, GRIMHOLDI_WRONG_VALUE},
        {0xA0, 0x00, 0, 0, 0x0104, GRIMHOLDI_WRONG_LENGTH},
        {0xA3, 0x00, 0, 0, 4,      GRIMHOLDI_WRONG_INDEX},
        {0xA3, 0x00, 0, 0x0101, 4, GRIMHOLDI_WRONG_INDEX},
        {0x23, 0x01, 0, 1, 0,      GRIMHOLDI_WRONG_VALUE},
        {0x23, 0x01, 3, 1, 0,      GRIMHOLDI_WRONG_VALUE},
        {0x23, 0x01, 15, 1, 0,     GRIMHOLDI_WRONG_VALUE},
        {0x23, 0x01, 21, 1, 0,     GRIMHOLDI_WRONG_VALUE},
        {0x23, 0x01, 0x0108, 1, 0, GRIMHOLDI_WRONG_VALUE},
        {0x23, 0x03, 16, 1, 0,     GRIMHOLDI_WRONG_VALUE},
        {0x23, 0x03, 8, 0x0104, 0, GRIMHOLDI_WRONG_INDEX},
        {0x23, 0x08, 0x1800, 1, 0, GRIMHOLDI_WRONG_VALUE},
        {0x23, 0x08, 0x2000, 1, 0, GRIMHOLDI_WRONG_VALUE},
        {0x23, 0x08, 0x4000, 1, 0, GRIMHOLDI_WRONG_VALUE},
        {0x23, 0x08, 0, 0, 0,      GRIMHOLDI_WRONG_INDEX},
        {0x23, 0x08, 0, 0x0101, 0, GRIMHOLDI_WRONG_INDEX},
        {0x23, 0x09, 0, 2, 0,      GRIMHOLDI_WRONG_INDEX},
        {0x23, 0x09, 0, 1, 0x0100, GRIMHOLDI_WRONG_LENGTH}
    };
    size_t i;

    for (i = 0; i < sizeof edges / sizeof *edges; i++)
        CHECK(request_of(edges[i].type, edges[i].code, edges[i].value,
                         edges[i].index, edges[i].length,
                         wrong(edges[i].what)));
}

static void served_requests(void)
{
    uint16_t feature;

    CHECK(request_of(0x00, 0x09, 0, 0, 0, none(GRIMHOLDI_ANSWER_DONE)));
    CHECK(request_of(0xA0, 0x06, 0x2900, 0, 0, none(GRIMHOLDI_ANSWER_DATA)));
    CHECK(request_of(0xA0, 0x06, 0x2900, 0, 0xFFFF,
                     none(GRIMHOLDI_ANSWER_DATA)));
    CHECK(request_of(0x20, 0x01, 0, 0, 0, none(GRIMHOLDI_ANSWER_DONE)));
    CHECK(request_of(0x23, 0x01, 1, 4, 0, none(GRIMHOLDI_ANSWER_DONE)));
    CHECK(request_of(0x23, 0x01, 2, 4, 0, none(GRIMHOLDI_ANSWER_DONE)));
    for (feature = 16; feature <= 20; feature++)
        CHECK(request_of(0x23, 0x01, feature, 4, 0,
                         none(GRIMHOLDI_ANSWER_DONE)));
    CHECK(request_of(0x23, 0x03, 2, 1, 0, none(GRIMHOLDI_ANSWER_DONE)));
    CHECK(request_of(0x23, 0x03, 8, 1, 0, none(GRIMHOLDI_ANSWER_DONE)));
    CHECK(request_of(0x23, 0x08, 0x97FF, 1, 0, none(GRIMHOLDI_ANSWER_DONE)));
}

/* The numbers come before whatever the setup bytes say. */
static void control_numbers(const uint8_t *setup)
{
    const why outside = number(GRIMHOLDI_ANSWER_OUTSIDE);
    const why no_space = number(GRIMHOLDI_ANSWER_NO_SPACE);

    CHECK(control_of(0, setup, 8, 63, no_space));
    CHECK(control_of(1, setup, 8, 0, no_space));
    CHECK(control_of(0, setup, 7, 64, outside));
    CHECK(control_of(0, setup, 9, 64, outside));
    CHECK(control_of(1, setup, 264, 64, outside));
    CHECK(control_of(0, NULL, 0, 64, outside));
    CHECK(control_of(0, NULL, 0, 0, outside));
    CHECK(control_of(0, setup, 7, 63, outside));
    CHECK(control_of(2, setup, 8, 64, outside));
    CHECK(control_of(2, setup, 8, 63, outside));
    CHECK(control_of(FAR_NUMBER, setup, 7, 0, outside));
}

static void control_refusals(void)
{
    uint8_t *setup = allocate(264);

    put_setup(setup, 0xFF, 0xFF, 0, 0, 0);
    control_numbers(setup);
    put_setup(setup, 0xA0, 0x00, 1, 1, 0); /* GetHubStatus, all wrong */
    control_numbers(setup);
    put_setup(setup, 0x00, 0x09, 1, 0, 0); /* SetConfiguration */
    control_numbers(setup);
    free(setup);
}

static void control_reasons(void)
{
    new_hub(4, 3);
    first_wrong_fields(0);
    other_types_and_codes();
    control_refusals();
    configured_hub(4, 3);
    CHECK(start_in(5, 1) == GRIMHOLDI_ANSWER_DONE);
    CHECK(launches(0, 5));
    first_wrong_fields(1);
    other_types_and_codes();
    edges_of_fields();
    served_requests();
    control_refusals();

    /* The number of ports is the hub's own. */
    configured_hub(1, 2);
    CHECK(request_of(0xA3, 0x00, 0, 1, 4, none(GRIMHOLDI_ANSWER_DATA)));
    CHECK(request_of(0xA3, 0x00, 0, 2, 4, wrong(GRIMHOLDI_WRONG_INDEX)));
    configured_hub(7, 2);
    CHECK(request_of(0x23, 0x03, 8, 7, 0, none(GRIMHOLDI_ANSWER_DONE)));
    CHECK(request_of(0x23, 0x03, 8, 8, 0, wrong(GRIMHOLDI_WRONG_INDEX)));
}

/* Calls whose only reason is a number. */

static void complete_split_reasons(void)
{
    const why outside = number(GRIMHOLDI_ANSWER_OUTSIDE);

    new_hub(4, 3);
    CHECK(complete_of(0, 5, 1, 1, 64, number(GRIMHOLDI_ANSWER_SILENT)));
    CHECK(complete_of(1, 5, 1, 1, 63, number(GRIMHOLDI_ANSWER_NO_SPACE)));
    CHECK(complete_of(0, 128, 1, 1, 63, outside));
    configured_hub(4, 3);
    CHECK(complete_of(2, 5, 1, 1, 64, outside));
    CHECK(complete_of(0, 128, 1, 1, 64, outside));
    CHECK(complete_of(0, 5, 16, 1, 64, outside));
    CHECK(complete_of(0, 5, 1, 2, 64, outside));
    CHECK(complete_of(0, 5, 1, FAR_NUMBER, 0, outside));
    CHECK(complete_of(0, 5, 1, 1, 64, none(GRIMHOLDI_ANSWER_STALL)));
    CHECK(complete_of(0, 5, 1, 1, 0, number(GRIMHOLDI_ANSWER_NO_SPACE)));
    CHECK(start_in(5, 1) == GRIMHOLDI_ANSWER_DONE);
    CHECK(complete_of(0, 5, 1, 1, 64, none(GRIMHOLDI_ANSWER_NYET)));
    CHECK(complete_of(0, 5, 1, 1, 63, number(GRIMHOLDI_ANSWER_NO_SPACE)));
    CHECK(complete_of(1, 5, 1, 1, 64, none(GRIMHOLDI_ANSWER_STALL)));
    CHECK(complete_of(0, 5, 1, 0, 64, none(GRIMHOLDI_ANSWER_STALL)));
    CHECK(launches(0, 5));
    CHECK(deliver_text("five") == GRIMHOLDI_ANSWER_DONE);
    CHECK(complete_of(0, 5, 1, 1, 64, none(GRIMHOLDI_ANSWER_DATA)));
    make_ready(1, 6, "");
    CHECK(complete_of(1, 6, 1, 1, 64, none(GRIMHOLDI_ANSWER_DATA)));
    CHECK(start_in_from(1, 7, 1) == GRIMHOLDI_ANSWER_DONE);
    CHECK(launches(1, 7));
    CHECK(deliver(GRIMHOLDI_RESULT_STALL, NULL, 0) == GRIMHOLDI_ANSWER_DONE);
    CHECK(complete_of(1, 7, 1, 1, 64, none(GRIMHOLDI_ANSWER_HANDSHAKE)));
}

static void launch_reasons(void)
{
    new_hub(4, 3);
    CHECK(launch_of(64, number(GRIMHOLDI_ANSWER_SILENT)));
    CHECK(launch_of(63, number(GRIMHOLDI_ANSWER_NO_SPACE)));
    area[6] = 2; /* the low side is occupied */
    CHECK(launch_of(64, number(GRIMHOLDI_ANSWER_SILENT)));
    configured_hub(4, 3);
    CHECK(launch_of(64, none(GRIMHOLDI_ANSWER_NAK)));
    CHECK(launch_of(0, number(GRIMHOLDI_ANSWER_NO_SPACE)));
    CHECK(start_in(5, 1) == GRIMHOLDI_ANSWER_DONE);
    CHECK(launch_of(64, none(GRIMHOLDI_ANSWER_DATA)));
    CHECK(launches(0, 5));
    CHECK(launch_of(64, number(GRIMHOLDI_ANSWER_NOT_NOW)));
    CHECK(launch_of(63, number(GRIMHOLDI_ANSWER_NO_SPACE)));
    CHECK(clear_tt_buffer(5, 1, GRIMHOLDI_DIRECTION_IN)
          == GRIMHOLDI_ANSWER_DONE);
    CHECK(launch_of(64, number(GRIMHOLDI_ANSWER_NOT_NOW)));
    CHECK(deliver(GRIMHOLDI_RESULT_ACK, NULL, 0) == GRIMHOLDI_ANSWER_DONE);
    CHECK(launch_of(64, none(GRIMHOLDI_ANSWER_NAK)));
}

static void deliver_numbers(void)
{
    CHECK(deliver_of(1, 0, number(GRIMHOLDI_ANSWER_OUTSIDE)));
    CHECK(deliver_of(256, 0, number(GRIMHOLDI_ANSWER_OUTSIDE)));
    CHECK(deliver_of(FAR_NUMBER, 0, number(GRIMHOLDI_ANSWER_OUTSIDE)));
    CHECK(deliver_of(3, 65, number(GRIMHOLDI_ANSWER_OUTSIDE)));
    CHECK(deliver_of(11, 256, number(GRIMHOLDI_ANSWER_OUTSIDE)));
    CHECK(deliver_of(2, 1, number(GRIMHOLDI_ANSWER_OUTSIDE)));
}

/* Runs a transaction to (5, 1); its result is still to come. */
static void run(uint32_t pid, uint32_t transfer, size_t length)
{
    static const uint8_t payload[8] = {0};

    configured_hub(4, 3);
    CHECK(grimholdi_start_split(area, area_len, 0, pid, transfer, 0, 0, 5, 1,
                                payload, length).number
          == GRIMHOLDI_ANSWER_DONE);
    CHECK(launch().pid == pid);
}

/* The results FAILURE, ACK, DATA0, NAK, DATA1 and STALL, by letters. */
static void results_that_suit(const char *taken)
{
    static const uint8_t results[] = {0, 2, 3, 10, 11, 14};
    size_t i;

    for (i = 0; i < sizeof results; i++)
        CHECK(deliver_of(results[i], 0,
                         taken[i] == '1' ? none(GRIMHOLDI_ANSWER_DONE)
                                         : number(GRIMHOLDI_ANSWER_NOT_NOW)));
}

static void deliver_reasons(void)
{
    new_hub(4, 3);
    deliver_numbers();
    CHECK(deliver_of(10, 0, number(GRIMHOLDI_ANSWER_SILENT)));
    configured_hub(4, 3);
    deliver_numbers();
    results_that_suit("000000"); /* nothing runs */
    run(GRIMHOLDI_PID_IN, GRIMHOLDI_TRANSFER_BULK, 0);
    deliver_numbers();
    results_that_suit("101111");
    CHECK(deliver_of(3, 64, none(GRIMHOLDI_ANSWER_DONE)));
    run(GRIMHOLDI_PID_OUT, GRIMHOLDI_TRANSFER_BULK, 3);
    results_that_suit("110101");
    CHECK(deliver_of(11, 64, number(GRIMHOLDI_ANSWER_NOT_NOW)));
    run(GRIMHOLDI_PID_SETUP, GRIMHOLDI_TRANSFER_CONTROL, 8);
    results_that_suit("110000");

    /* Thrown away, whatever it is. */
    CHECK(reset_tt_from(0) == GRIMHOLDI_ANSWER_DONE);
    deliver_numbers();
    results_that_suit("111111");
}

/* test_rules.c has the events of each state. */
static void line_event_reasons(void)
{
    const why outside = number(GRIMHOLDI_ANSWER_OUTSIDE);
    uint32_t event;

    new_hub(4, 3);
    CHECK(event_of(8, 1, outside));
    CHECK(event_of(6, 5, outside));
    for (event = 0; event < 8; event++)
        CHECK(event_of(event, 1, number(GRIMHOLDI_ANSWER_NOT_NOW)));
    configured_hub(4, 3);
    CHECK(event_of(8, 1, outside));
    CHECK(event_of(256 + 6, 1, outside));
    CHECK(event_of(FAR_NUMBER, 1, outside));
    CHECK(event_of(6, 0, outside));
    CHECK(event_of(6, 5, outside));
    CHECK(event_of(6, 256 + 1, outside));
    CHECK(event_of(6, FAR_NUMBER, outside));
    CHECK(event_of(0, 4, number(GRIMHOLDI_ANSWER_NOT_NOW)));
    CHECK(set_feature(GRIMHOLDI_PORT_POWER, 4) == GRIMHOLDI_ANSWER_DONE);
    CHECK(event_of(0, 4, none(GRIMHOLDI_ANSWER_DONE)));
    CHECK(event_of(0, 3, number(GRIMHOLDI_ANSWER_NOT_NOW)));
    CHECK(event_of(6, 4, none(GRIMHOLDI_ANSWER_DONE)));
    CHECK(event_of(7, 4, none(GRIMHOLDI_ANSWER_DONE)));
}

/* Neither refuses anything but an area. */
static void tick_and_bus_reset_reasons(void)
{
    new_hub(4, 3);
    CHECK(tick_of(none(GRIMHOLDI_ANSWER_DONE)));
    CHECK(bus_reset_of(none(GRIMHOLDI_ANSWER_DONE)));
    run(GRIMHOLDI_PID_IN, GRIMHOLDI_TRANSFER_BULK, 0);
    CHECK(set_feature(GRIMHOLDI_PORT_POWER, 1) == GRIMHOLDI_ANSWER_DONE);
    CHECK(event(GRIMHOLDI_EVENT_ATTACH_LOW, 1) == GRIMHOLDI_ANSWER_DONE);
    CHECK(set_feature(GRIMHOLDI_PORT_RESET, 1) == GRIMHOLDI_ANSWER_DONE);
    ticks(14);
    CHECK(tick_of(none(GRIMHOLDI_ANSWER_DONE)));
    CHECK(bus_reset_of(none(GRIMHOLDI_ANSWER_DONE)));
}

/* Areas; test_area.c has more that are refused, and (NULL, 0). */

/* OUTSIDE, whatever else the call would be answered. */
static void all_outside(void)
{
    static const uint8_t setup[8] = {0xFF, 0xFF, 1, 1, 1, 1, 1, 1};
    const why outside = number(GRIMHOLDI_ANSWER_OUTSIDE);

    CHECK(control_of(0, setup, 8, 64, outside));
    CHECK(control_of(2, setup, 7, 0, outside));
    CHECK(poll_of(0, 64, outside));
    CHECK(poll_of(1, 63, outside));
    CHECK(in_of(0, 5, outside));
    CHECK(in_of(1, 128, outside));
    CHECK(complete_of(0, 5, 1, 1, 64, outside));
    CHECK(complete_of(1, 5, 1, 1, 0, outside));
    CHECK(launch_of(64, outside));
    CHECK(launch_of(0, outside));
    CHECK(deliver_of(10, 0, outside));
    CHECK(event_of(6, 1, outside));
    CHECK(tick_of(outside));
    CHECK(bus_reset_of(outside));
}

static void refused_areas(void)
{
    uint8_t *whole;
    size_t length;

    configured_hub(2, 2);
    port_bytes(1)[3] = 0x40;
    all_outside();
    port_bytes(1)[3] = 0;
    put_buffer(0, 1, 1);
    put_buffer(1, 2, 1); /* lane 1 holds both */
    all_outside();

    configured_hub(2, 2);
    length = area_len;
    whole = area;
    area_len = length - 1;
    all_outside();
    area_len = 7;
    all_outside();
    area_len = 0;
    all_outside();
    area = allocate(length + 1);
    memcpy(area, whole, length);
    area_len = length + 1;
    all_outside();
    free(whole);
}

/* An area that cannot be written: 1 port, 2 buffers, configured. */
static void constant_area(void)
{
    static const uint8_t fixed[156] = {1, 2, 0, 0, 0, 1, 0, 0, 1, 0, 0, 9};
    static const uint8_t setup[8] = {0x00, 0x09, 0, 0, 0, 0, 0, 0};
    const size_t length = sizeof fixed;
    grimholdi_reason reason;

    reason = grimholdi_why_control(fixed, length, 0, setup, 8, 64);
    CHECK(is_reason(reason, GRIMHOLDI_WHY_NONE, 0));
    reason = grimholdi_why_poll(fixed, length, 0, 64);
    CHECK(reason.kind == GRIMHOLDI_WHY_CHANGES && reason.changes[0] == 9);
    reason = grimholdi_why_start_split(fixed, length, 0, GRIMHOLDI_PID_IN,
                                       GRIMHOLDI_TRANSFER_BULK, 0, 0, 5, 1,
                                       NULL, 0);
    CHECK(is_reason(reason, GRIMHOLDI_WHY_TOOK_FREE, 0));
    reason = grimholdi_why_complete_split(fixed, length, 0, 5, 1, 1, 64);
    CHECK(is_reason(reason, GRIMHOLDI_WHY_NONE, 0));
    reason = grimholdi_why_launch(fixed, length, 64);
    CHECK(is_reason(reason, GRIMHOLDI_WHY_NONE, 0));
    reason = grimholdi_why_deliver(fixed, length, 10, NULL, 0);
    CHECK(is_reason(reason, GRIMHOLDI_WHY_NUMBER, GRIMHOLDI_ANSWER_NOT_NOW));
    reason = grimholdi_why_line_event(fixed, length, 6, 1);
    CHECK(is_reason(reason, GRIMHOLDI_WHY_NONE, 0));
    CHECK(is_reason(grimholdi_why_tick(fixed, length),
                    GRIMHOLDI_WHY_NONE, 0));
    CHECK(is_reason(grimholdi_why_bus_reset(fixed, length),
                    GRIMHOLDI_WHY_NONE, 0));
}

/* Nothing is written to a reply space, however long it is said to be. */
static void long_reply_spaces(void)
{
    static const size_t lengths[] = {65, 256, SIZE_MAX - 255, SIZE_MAX};
    static const uint8_t setup[8] = {0x80, 0x08, 0, 0, 0, 0, 1, 0};
    size_t i;

    configured_hub(4, 3);
    CHECK(start_in(5, 1) == GRIMHOLDI_ANSWER_DONE);
    for (i = 0; i < sizeof lengths / sizeof *lengths; i++) {
        CHECK(is_reason(grimholdi_why_control(area, area_len, 0, setup, 8,
                                              lengths[i]),
                        GRIMHOLDI_WHY_NONE, 0));
        CHECK(is_reason(grimholdi_why_poll(area, area_len, 0, lengths[i]),
                        GRIMHOLDI_WHY_NONE, 0));
        CHECK(is_reason(grimholdi_why_complete_split(area, area_len, 0, 5,
                                                     1, 1, lengths[i]),
                        GRIMHOLDI_WHY_NONE, 0));
        CHECK(is_reason(grimholdi_why_launch(area, area_len, lengths[i]),
                        GRIMHOLDI_WHY_NONE, 0));
    }
}

static void start_split_reasons(void)
{
    uint32_t buffers, lane;

    for (lane = 0; lane < 2; lane++) {
        held_pending_and_ready(lane);
        reused_before_lower_ones(lane);
        limit_in_its_own_old_one(lane);
        for (buffers = 2; buffers <= 4; buffers++) {
            free_from_the_lowest(buffers, lane);
            limit_before_no_room(buffers, lane);
        }
    }
    held_whatever_it_says();
    no_room_in_both_lanes();
    for (buffers = 2; buffers <= 4; buffers++)
        one_reason_is_true(buffers);
    start_refusals();
}

static void poll_reasons(void)
{
    every_change_bit(1);
    every_change_bit(7);
    changes_by_calls();
    changes_at_all_ports();
    nothing_above_the_last_port();
    poll_refusals();
}

int main(void)
{
    layout();
    start_split_reasons();
    poll_reasons();
    control_reasons();
    complete_split_reasons();
    launch_reasons();
    deliver_reasons();
    line_event_reasons();
    tick_and_bus_reset_reasons();
    refused_areas();
    constant_area();
    long_reply_spaces();
    free_hub();
    return check_summary("explain");
}
