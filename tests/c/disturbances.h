/*
 * Disturbances, planted behind a call of the library: what a hub would do in
 * which one port disturbs another, the translator or an answer.  Each changes
 * the area of the hub under test, to one that is still taken, the answer or
 * the reply space.  poll_disturbances.h has those of polls.
 */

#ifndef DISTURBANCES_H
#define DISTURBANCES_H

#include "drawn_calls.h"

/* What the reply space of the hub under test held before the last call. */
static const uint8_t *lent;

typedef void disturbance(const call *c, grimholdi_answer *answer);

static inline int is_done_event(const call *c, const grimholdi_answer *answer,
                                uint32_t event)
{
    return c->kind == LINE_EVENT && c->event == event
           && answer->number == GRIMHOLDI_ANSWER_DONE;
}

static inline int is_attach(const call *c, const grimholdi_answer *answer)
{
    return is_done_event(c, answer, GRIMHOLDI_EVENT_ATTACH_LOW)
           || is_done_event(c, answer, GRIMHOLDI_EVENT_ATTACH_FULL);
}

static inline int is_served(const call *c, const grimholdi_answer *answer,
                            uint8_t type, uint8_t code)
{
    return c->kind == CONTROL && c->bytes[0] == type && c->bytes[1] == code
           && answer->number <= GRIMHOLDI_ANSWER_DATA;
}

static inline int is_launched(const call *c, const grimholdi_answer *answer)
{
    return c->kind == LAUNCH && answer->number == GRIMHOLDI_ANSWER_DATA;
}

static inline int port_1_is(uint8_t state)
{
    return port_bytes(1)[PORT_STATE] == state;
}

/* In the area. */

/* Over-current on powers every other port off. */
static inline void spread_over_current(const call *c, grimholdi_answer *answer)
{
    uint32_t port;

    if (!is_done_event(c, answer, GRIMHOLDI_EVENT_OVER_CURRENT_ON))
        return;
    for (port = 1; port <= area[HEAD_PORTS]; port++) {
        uint8_t *bytes = port_bytes(port);

        if (port == c->port)
            continue;
        bytes[PORT_STATE] = GRIMHOLDI_STATE_POWERED_OFF;
        bytes[PORT_SPEED] = 0;
        bytes[PORT_TICKS] = 0;
    }
}

/* A detach empties the translator. */
static inline void empty_at_detach(const call *c, grimholdi_answer *answer)
{
    if (!is_done_event(c, answer, GRIMHOLDI_EVENT_DETACH))
        return;
    area[HEAD_LOW_SIDE] = LOW_SIDE_FREE;
    area[HEAD_RUNNING] = 0;
    memset(buffer_bytes(0), 0, (size_t)BUFFER_LENGTH * area[HEAD_BUFFERS]);
}

/* Set PORT_RESET restarts the timer of every other port in Resetting. */
static inline void restart_resets(const call *c, grimholdi_answer *answer)
{
    uint32_t port;

    if (!is_served(c, answer, GRIMHOLDI_TYPE_SET_PORT,
                   GRIMHOLDI_REQUEST_SET_FEATURE)
        || c->bytes[2] != GRIMHOLDI_PORT_RESET)
        return;
    for (port = 1; port <= area[HEAD_PORTS]; port++)
        if (port != c->bytes[4]
            && port_bytes(port)[PORT_STATE] == GRIMHOLDI_STATE_RESETTING)
            port_bytes(port)[PORT_TICKS] = 0;
}

/* Over-current on frees a running low side; the buffer stays pending. */
static inline void free_low_side(const call *c, grimholdi_answer *answer)
{
    if (!is_done_event(c, answer, GRIMHOLDI_EVENT_OVER_CURRENT_ON)
        || area[HEAD_LOW_SIDE] != LOW_SIDE_RUNNING)
        return;
    area[HEAD_LOW_SIDE] = LOW_SIDE_FREE;
    area[HEAD_RUNNING] = 0;
}

/* An attach clears C_PORT_CONNECTION of the port before. */
static inline void clear_before(const call *c, grimholdi_answer *answer)
{
    if (is_attach(c, answer) && c->port > 1)
        port_bytes(c->port - 1)[PORT_MARKS] &=
            (uint8_t)~GRIMHOLDI_CHANGE_CONNECTION;
}

/* While port 1 is Suspended, a tick takes back the timers behind it. */
static inline void take_timers_back(const call *c, grimholdi_answer *answer)
{
    uint32_t port;

    (void)answer;
    if (c->kind != TICK || !port_1_is(GRIMHOLDI_STATE_SUSPENDED))
        return;
    for (port = 2; port <= area[HEAD_PORTS]; port++)
        port_bytes(port)[PORT_TICKS] = 0;
}

/* A port error swaps the toggle of buffer 0. */
static inline void swap_toggle(const call *c, grimholdi_answer *answer)
{
    if (is_done_event(c, answer, GRIMHOLDI_EVENT_PORT_ERROR)
        && buffer_bytes(0)[BUFFER_STATUS] != STATUS_EMPTY)
        buffer_bytes(0)[BUFFER_FLAGS] ^= FLAG_TOGGLE;
}

/* An attach writes the device's speed to every other Disabled port. */
static inline void spread_speed(const call *c, grimholdi_answer *answer)
{
    uint32_t port;

    if (!is_attach(c, answer))
        return;
    for (port = 1; port <= area[HEAD_PORTS]; port++)
        if (port != c->port
            && port_bytes(port)[PORT_STATE] == GRIMHOLDI_STATE_DISABLED)
            port_bytes(port)[PORT_SPEED] = port_bytes(c->port)[PORT_SPEED];
}

/* In answers alone. */

/* GetPortStatus gives port 1's, whichever port it names. */
static inline void give_status_of_1(const call *c, grimholdi_answer *answer)
{
    call of_1 = *c;

    if (!is_served(c, answer, GRIMHOLDI_TYPE_GET_PORT,
                   GRIMHOLDI_REQUEST_GET_STATUS))
        return;
    of_1.bytes[4] = 1;
    *answer = make(&of_1);
}

/* While port 1 is Resuming, a launch gives the other speed. */
static inline void launch_other_speed(const call *c, grimholdi_answer *answer)
{
    if (is_launched(c, answer) && port_1_is(GRIMHOLDI_STATE_RESUMING))
        answer->low_speed ^= 1;
}

/* By state outside the area. */

static uint32_t last_port; /* where an event was done */

static inline void note_event(const call *c, const grimholdi_answer *answer)
{
    if (c->kind == LINE_EVENT && answer->number == GRIMHOLDI_ANSWER_DONE)
        last_port = c->port;
}

/* GetPortStatus of another port than the last gives no change bits. */
static inline void forget_changes(const call *c, grimholdi_answer *answer)
{
    note_event(c, answer);
    if (is_served(c, answer, GRIMHOLDI_TYPE_GET_PORT,
                  GRIMHOLDI_REQUEST_GET_STATUS) && c->bytes[4] != last_port)
        memset(reply + 2, 0, 2);
}

/* After an event at port 1, until another, a launch gives the other toggle. */
static inline void launch_other_toggle(const call *c, grimholdi_answer *answer)
{
    note_event(c, answer);
    if (is_launched(c, answer) && last_port == 1)
        answer->toggle ^= 1;
}

/* A tick gives each old buffer toggle 1 if the last port is odd, else 0. */
static inline void set_old_toggles(const call *c, grimholdi_answer *answer)
{
    uint32_t i;

    note_event(c, answer);
    for (i = 0; c->kind == TICK && i < area[HEAD_BUFFERS]; i++) {
        uint8_t *buffer = buffer_bytes(i);

        if (buffer[BUFFER_STATUS] != STATUS_OLD)
            continue;
        buffer[BUFFER_FLAGS] &= (uint8_t)~FLAG_TOGGLE;
        buffer[BUFFER_FLAGS] |= last_port % 2 != 0 ? FLAG_TOGGLE : 0;
    }
}

#endif
