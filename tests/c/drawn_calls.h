/*
 * Calls drawn at random.  Most suit the hub under test, so that its ports and
 * its translator move; now and then one is wrong.
 */

#ifndef DRAWN_CALLS_H
#define DRAWN_CALLS_H

#include "calls.h"
#include "draw.h"

#include "../../tools/why/area_layout.h"
#include "../../tools/why/area_view.h"

/* The largest reply space that is lent. */
enum { REPLY_MAX = GRIMHOLDI_REPLY_LENGTH + 8 };

/* The port that is picked, one of the hub's. */
static uint32_t picked;

/* Above the number: the next one, or any. */
static inline uint32_t draw_above(uint32_t most)
{
    return most + 1 + (one_in(2) ? 0 : draw(FAR_NUMBER - most));
}

/* Any number, where those up to this one may be listed. */
static inline uint32_t draw_any(uint32_t most)
{
    return one_in(3) ? draw(most + 1) : draw_above(most);
}

static inline uint32_t draw_port(void)
{
    return 1 + draw(area[HEAD_PORTS]);
}

/* No port of the hub; some look like the picked one. */
static inline uint32_t draw_no_port(void)
{
    switch (draw(4)) {
    case 0:
        return 0;
    case 1:
        return picked + 0x100u * (1 + draw(255));
    case 2:
        return draw_above(area[HEAD_PORTS]);
    default:
        return area[HEAD_PORTS] + 1u;
    }
}

/* Calls by kind. */

static inline call plain(enum call_kind kind)
{
    call c;

    memset(&c, 0, sizeof c);
    c.kind = kind;
    c.lane = draw(2);
    c.reply_len = one_in(16) ? REPLY_MAX - draw(8) : GRIMHOLDI_REPLY_LENGTH;
    return c;
}

static inline call event_at(uint32_t event, uint32_t port)
{
    call c = plain(LINE_EVENT);

    c.event = event;
    c.port = port;
    return c;
}

static inline call request_of(uint8_t type, uint8_t code, uint16_t value,
                              uint16_t index, uint16_t length)
{
    call c = plain(CONTROL);

    put_setup(c.bytes, type, code, value, index, length);
    c.length = GRIMHOLDI_SETUP_LENGTH;
    return c;
}

static inline call port_request_of(const port_row *row, uint32_t port)
{
    call c = plain(CONTROL);

    put_port_row(c.bytes, row, port);
    c.length = GRIMHOLDI_SETUP_LENGTH;
    return c;
}

static inline call status_of(uint32_t port)
{
    return port_request_of(&port_rows[0], port);
}

static inline call feature_of(uint8_t code, uint16_t feature, uint32_t port)
{
    return request_of(GRIMHOLDI_TYPE_SET_PORT, code, feature, (uint16_t)port,
                      0);
}

static inline call setting(uint16_t feature, uint32_t port)
{
    return feature_of(GRIMHOLDI_REQUEST_SET_FEATURE, feature, port);
}

static inline call clearing(uint16_t feature, uint32_t port)
{
    return feature_of(GRIMHOLDI_REQUEST_CLEAR_FEATURE, feature, port);
}

static inline call configuring(uint16_t value)
{
    return request_of(GRIMHOLDI_TYPE_SET_CONFIGURATION,
                      GRIMHOLDI_REQUEST_SET_CONFIGURATION, value, 0, 0);
}

/* Calls that name a port. */

/* ClearPortFeature of the port's lowest change bit, if it has one. */
static inline call clearing_change(uint32_t port)
{
    uint8_t marks = port_bytes(port)[PORT_MARKS];
    uint16_t bit = 0;

    while (bit < 4 && (marks >> bit & 1) == 0)
        bit++;
    return clearing((uint16_t)(GRIMHOLDI_C_PORT_CONNECTION + bit), port);
}

static inline call moving_enabled(uint32_t port)
{
    switch (draw(5)) {
    case 0:
        return event_at(GRIMHOLDI_EVENT_DETACH, port);
    case 1:
        return event_at(GRIMHOLDI_EVENT_PORT_ERROR, port);
    default:
        return setting(GRIMHOLDI_PORT_SUSPEND, port);
    }
}

static inline call moving_suspended(uint32_t port)
{
    switch (draw(4)) {
    case 0:
        return event_at(GRIMHOLDI_EVENT_WAKE, port);
    case 1:
        return clearing(GRIMHOLDI_PORT_SUSPEND, port);
    default:
        return status_of(port);
    }
}

/* Takes the port on from the state that it is in, or looks at it. */
static inline call moving(uint32_t port)
{
    const uint8_t *bytes = port_bytes(port);

    switch (bytes[PORT_STATE]) {
    case GRIMHOLDI_STATE_POWERED_OFF: /* over-current may hold */
        return one_in(4) ? event_at(GRIMHOLDI_EVENT_OVER_CURRENT_OFF, port)
                         : setting(GRIMHOLDI_PORT_POWER, port);
    case GRIMHOLDI_STATE_DISCONNECTED:
        return event_at(draw(2) ? GRIMHOLDI_EVENT_ATTACH_LOW
                                : GRIMHOLDI_EVENT_ATTACH_FULL, port);
    case GRIMHOLDI_STATE_RESETTING:
        return bytes[PORT_SPEED] == GRIMHOLDI_SPEED_FULL || one_in(4)
                   ? event_at(GRIMHOLDI_EVENT_CHIRP, port) : status_of(port);
    case GRIMHOLDI_STATE_ENABLED:
        return moving_enabled(port);
    case GRIMHOLDI_STATE_SUSPENDED:
        return moving_suspended(port);
    case GRIMHOLDI_STATE_RESUMING:
        return status_of(port);
    default: /* Disabled; no effect in Not Configured */
        return setting(GRIMHOLDI_PORT_RESET, port);
    }
}

/* Any event, any request, or one that suits the port. */
static inline call draw_naming(uint32_t port)
{
    switch (draw(12)) {
    case 0:
        return event_at(draw(GRIMHOLDI_EVENT_OVER_CURRENT_OFF + 1), port);
    case 1:
        return port_request_of(&port_rows[draw(PORT_ROWS)], port);
    case 2:
        return status_of(port);
    case 3:
    case 4:
        return clearing_change(port);
    default:
        return moving(port);
    }
}

/* Calls in both histories, one in each function. */

static inline call draw_tick(void)
{
    return plain(TICK);
}

/* With too little reply space, one in so many. */
static inline call short_of_space(enum call_kind kind, uint32_t count)
{
    call c = plain(kind);

    if (one_in(count))
        c.reply_len = draw(GRIMHOLDI_REPLY_LENGTH);
    return c;
}

static inline call draw_poll(void)
{
    return short_of_space(POLL, 8);
}

static inline call draw_at_port(void)
{
    return draw_naming(draw_port());
}

/* The next port that has a change bit, from a drawn one on. */
static inline call draw_clearing(void)
{
    uint32_t port = draw_port();
    uint32_t looks = 1;

    while (looks < area[HEAD_PORTS]
           && (port_bytes(port)[PORT_MARKS] & MARK_CHANGES) == 0) {
        port = port % area[HEAD_PORTS] + 1;
        looks++;
    }
    return clearing_change(port);
}

/* Mostly the key of a buffer; each call with a key takes part of it. */
static inline void draw_key(call *c)
{
    const uint8_t *buffer = buffer_bytes(draw(area[HEAD_BUFFERS]));

    c->address = 5 + draw(2);
    c->endpoint = 1 + draw(2);
    c->direction = draw(2);
    if (buffer[BUFFER_STATUS] == STATUS_EMPTY || one_in(4))
        return;
    c->lane = (buffer[BUFFER_FLAGS] & FLAG_LANE) != 0;
    c->address = buffer[BUFFER_ADDRESS];
    c->endpoint = buffer[BUFFER_ENDPOINT];
    c->direction = buffer[BUFFER_PID] == GRIMHOLDI_PID_IN;
}

static inline void draw_payload(call *c, size_t length)
{
    c->length = length;
    draw_bytes(c->bytes, length);
}

static inline size_t draw_length(void)
{
    return one_in(8) ? GRIMHOLDI_PAYLOAD_MAX : draw(12);
}

static inline call draw_start_split(void)
{
    static const uint8_t pids[] = {GRIMHOLDI_PID_IN, GRIMHOLDI_PID_OUT,
                                   GRIMHOLDI_PID_SETUP};
    call c = plain(START_SPLIT);

    draw_key(&c);
    c.lane = draw(2);
    c.pid = pids[draw(sizeof pids)];
    c.low_speed = draw(2);
    c.toggle = draw(2);
    c.transfer = c.pid != GRIMHOLDI_PID_SETUP && draw(2)
                     ? GRIMHOLDI_TRANSFER_BULK : GRIMHOLDI_TRANSFER_CONTROL;
    if (c.pid != GRIMHOLDI_PID_IN)
        draw_payload(&c, c.pid == GRIMHOLDI_PID_SETUP ? GRIMHOLDI_SETUP_LENGTH
                                                      : draw_length());
    return c;
}

static inline call draw_complete_split(void)
{
    call c = short_of_space(COMPLETE_SPLIT, 24);

    draw_key(&c);
    return c;
}

static inline call draw_launch(void)
{
    return short_of_space(LAUNCH, 12);
}

/* Mostly one that suits the running transaction's PID, if one runs. */
static inline uint8_t draw_result(void)
{
    /* IN: the first five.  OUT: the last four.  SETUP: the last two. */
    static const uint8_t results[] = {
        GRIMHOLDI_RESULT_DATA0, GRIMHOLDI_RESULT_DATA1, GRIMHOLDI_RESULT_NAK,
        GRIMHOLDI_RESULT_STALL, GRIMHOLDI_RESULT_FAILURE, GRIMHOLDI_RESULT_ACK
    };

    if (area[HEAD_LOW_SIDE] != LOW_SIDE_RUNNING || one_in(6))
        return results[draw(sizeof results)];
    switch (buffer_bytes(area[HEAD_RUNNING])[BUFFER_PID]) {
    case GRIMHOLDI_PID_IN:
        return results[draw(5)];
    case GRIMHOLDI_PID_OUT:
        return results[2 + draw(4)];
    default:
        return results[4 + draw(2)];
    }
}

static inline call draw_deliver(void)
{
    call c = plain(DELIVER);

    c.result = draw_result();
    if (c.result == GRIMHOLDI_RESULT_DATA0
        || c.result == GRIMHOLDI_RESULT_DATA1)
        draw_payload(&c, draw_length());
    return c;
}

static inline call draw_clear_tt_buffer(void)
{
    call c = plain(CONTROL);

    draw_key(&c);
    put_setup(c.bytes, GRIMHOLDI_TYPE_SET_PORT,
              GRIMHOLDI_REQUEST_CLEAR_TT_BUFFER,
              tt_value(c.address, c.endpoint, c.direction), 1, 0);
    c.length = GRIMHOLDI_SETUP_LENGTH;
    return c;
}

/* A request that names no port. */
static inline call draw_request(void)
{
    switch (draw(8)) {
    case 0:
        return request_of(GRIMHOLDI_TYPE_GET_CONFIGURATION,
                          GRIMHOLDI_REQUEST_GET_CONFIGURATION, 0, 0, 1);
    case 1:
        return request_of(GRIMHOLDI_TYPE_GET_HUB,
                          GRIMHOLDI_REQUEST_GET_DESCRIPTOR,
                          GRIMHOLDI_HUB_DESCRIPTOR, 0, (uint16_t)draw(12));
    case 2:
        return request_of(GRIMHOLDI_TYPE_GET_HUB,
                          GRIMHOLDI_REQUEST_GET_STATUS, 0, 0, 4);
    case 3:
        return request_of(GRIMHOLDI_TYPE_SET_HUB,
                          GRIMHOLDI_REQUEST_CLEAR_FEATURE, (uint16_t)draw(2),
                          0, 0);
    case 4:
        return request_of(GRIMHOLDI_TYPE_SET_PORT, GRIMHOLDI_REQUEST_RESET_TT,
                          0, 1, 0);
    default:
        return draw_clear_tt_buffer();
    }
}

/* A port request of the picked port, with one bit wrong. */
static inline call draw_malformed(void)
{
    static const uint8_t places[] = { /* all but the index's low byte */
        0, 1, 2, 3, 5, 6, 7
    };
    call c = port_request_of(&port_rows[draw(PORT_ROWS)], picked);
    uint8_t place = places[draw(sizeof places)];

    c.bytes[place] ^= (uint8_t)(1u << draw(8));
    return c;
}

/* A call that looks as if it named a port; few of them name one. */
static inline call draw_nowhere(void)
{
    uint32_t port = draw_no_port();

    switch (draw(4)) {
    case 0:
        return event_at(draw(GRIMHOLDI_EVENT_OVER_CURRENT_OFF + 1), port);
    case 1:
        return port_request_of(&port_rows[draw(PORT_ROWS)], port);
    default:
        return draw_malformed();
    }
}

/* Ends what the ports and the translator were at. */
static inline call draw_ending(void)
{
    return one_in(3) ? plain(BUS_RESET) : configuring((uint16_t)draw(2));
}

/* Each way as often as its weight says. */
static inline call draw_weighted(void)
{
    static const struct {
        call (*way)(void);
        uint32_t weight;
    } ways[] = {
        {draw_tick, 13},       {draw_at_port, 8}, {draw_clearing, 2},
        {draw_poll, 4},        {draw_launch, 3},  {draw_deliver, 3},
        {draw_start_split, 3}, {draw_complete_split, 3},
        {draw_request, 2},     {draw_nowhere, 1}
    };
    uint32_t total = 0;
    size_t drawn_way = 0;
    size_t i;

    for (i = 0; i < sizeof ways / sizeof ways[0]; i++) {
        total += ways[i].weight;
        if (draw(total) < ways[i].weight)
            drawn_way = i;
    }
    return ways[drawn_way].way();
}

/* A call that need not name the picked port. */
static inline call draw_call(void)
{
    if (area[HEAD_CONFIGURED] == 0 && one_in(8))
        return configuring(1);
    return one_in(200) ? draw_ending() : draw_weighted();
}

/*
 * One number or length drawn anew, mostly a wrong one.  It has no effect where
 * the kind doesn't take it.
 */
static inline void spoil(call *c)
{
    uint32_t *const numbers[] = {
        &c->lane, &c->pid, &c->transfer, &c->low_speed, &c->toggle,
        &c->address, &c->endpoint, &c->direction, &c->result, &c->event
    };
    static const uint32_t most[] = {
        GRIMHOLDI_LANE_MAX, GRIMHOLDI_PID_SETUP, GRIMHOLDI_TRANSFER_BULK, 1, 1,
        GRIMHOLDI_ADDRESS_MAX, GRIMHOLDI_ENDPOINT_MAX, GRIMHOLDI_DIRECTION_IN,
        GRIMHOLDI_RESULT_STALL, GRIMHOLDI_EVENT_OVER_CURRENT_OFF
    };
    const uint32_t count = sizeof most / sizeof most[0];
    uint32_t which = draw(count + 2);

    if (which < count)
        *numbers[which] = draw_any(most[which]);
    else if (which == count)
        c->reply_len = draw(GRIMHOLDI_REPLY_LENGTH);
    else if (c->kind == CONTROL)
        c->length = GRIMHOLDI_SETUP_LENGTH - 1 + 2 * draw(2);
    else
        c->length = GRIMHOLDI_PAYLOAD_MAX + 1;
}

#endif
