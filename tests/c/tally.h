/* What two histories met, counted; and what they have to meet. */

#ifndef TALLY_H
#define TALLY_H

#include "comparisons.h"

enum { KINDS = BUS_RESET + 1 };

/* How the polls of both histories were answered: left, then right. */
enum {
    SAME_BITS, BITS_APART, DATA_NAK, NAK_DATA, NAK_NAK, REFUSED,
    POLL_WAYS
};

/* How a call looks as if it named a port, though it names none. */
enum {
    EVENT_AT_NO_PORT, REQUEST_OF_NO_PORT, REQUEST_MALFORMED,
    REQUEST_MISSIZED, /* not eight bytes */
    NO_LOOK,
    LOOKS
};

/* Arrays of 256 go by the byte itself. */
typedef struct {
    const char *last;                 /* call */
    unsigned long hubs;
    unsigned long both;               /* calls in both histories */
    unsigned long alone;              /* calls naming the picked port */
    unsigned long points;             /* matching points */
    unsigned long apart;              /* those where the picked port differs */
    unsigned long ports[GRIMHOLDI_PORTS_MAX + 1];
    unsigned long buffers[GRIMHOLDI_BUFFERS_MAX + 1];
    unsigned long picked[GRIMHOLDI_PORTS_MAX + 1];
    unsigned long lanes[KINDS][GRIMHOLDI_LANE_MAX + 1]; /* in both */
    unsigned long numbers[KINDS][256]; /* answered to calls in both */
    unsigned long named_numbers[256]; /* answered to the others */
    unsigned long looks[LOOKS];       /* of calls in both */
    unsigned long states[256];        /* of other ports, where it is apart */
    unsigned long low_sides[256];     /* where it is apart */
    unsigned long polls[POLL_WAYS];
} tally;

/* Counting. */

static inline void count_hub(tally *t)
{
    t->last = "new hub";
    t->hubs++;
    t->ports[made_from.ports]++;
    t->buffers[made_from.buffers]++;
    t->picked[picked]++;
}

static inline void count_states(tally *t)
{
    uint32_t port;

    for (port = 1; port <= area[HEAD_PORTS]; port++)
        if (port != picked)
            t->states[port_bytes(port)[PORT_STATE]]++;
}

/* Either hub may be under test, since they agree in what is counted. */
static inline void count_point(tally *t)
{
    t->points++;
    if (!picked_is_apart())
        return;
    t->apart++;
    t->low_sides[area[HEAD_LOW_SIDE]]++;
    count_states(t);
}

static inline int poll_way(void)
{
    uint8_t left = histories[LEFT].answer.number;
    uint8_t right = histories[RIGHT].answer.number;

    if (left == GRIMHOLDI_ANSWER_NAK)
        return right == GRIMHOLDI_ANSWER_NAK ? NAK_NAK : NAK_DATA;
    if (right == GRIMHOLDI_ANSWER_NAK)
        return DATA_NAK;
    if (left != GRIMHOLDI_ANSWER_DATA)
        return REFUSED;
    return reply_of(LEFT)[0] == reply_of(RIGHT)[0] ? SAME_BITS : BITS_APART;
}

static inline int has_port_code(const uint8_t *bytes)
{
    size_t i = 0;

    while (i < PORT_ROWS && (bytes[0] != port_rows[i].type
                             || bytes[1] != port_rows[i].code))
        i++;
    return i < PORT_ROWS;
}

/* Of a call in both. */
static inline int look_of(const call *c)
{
    uint32_t index = c->bytes[4] + 256u * c->bytes[5];

    if (c->kind == LINE_EVENT)
        return c->port < 1 || c->port > area[HEAD_PORTS] ? EVENT_AT_NO_PORT
                                                         : NO_LOOK;
    if (c->kind != CONTROL)
        return NO_LOOK;
    if (is_port_request(c->bytes, picked))
        return REQUEST_MISSIZED;
    if (is_port_request(c->bytes, index))
        return index < 1 || index > area[HEAD_PORTS] ? REQUEST_OF_NO_PORT
                                                     : NO_LOOK;
    return c->bytes[4] == picked && has_port_code(c->bytes) ? REQUEST_MALFORMED
                                                            : NO_LOOK;
}

static inline void count_both(tally *t, const call *c)
{
    t->both++;
    t->numbers[c->kind][histories[LEFT].answer.number]++;
    t->looks[look_of(c)]++;
    if (c->lane <= GRIMHOLDI_LANE_MAX)
        t->lanes[c->kind][c->lane]++;
    if (c->kind == POLL)
        t->polls[poll_way()]++;
}

static inline void count_alone(tally *t, int side)
{
    t->alone++;
    t->named_numbers[histories[side].answer.number]++;
}

/* Something was compared only where the histories met what they should. */

static inline int all_met(const unsigned long *counts, size_t from, size_t to)
{
    while (from <= to && counts[from] > 0)
        from++;
    return from > to;
}

/* By the digits: all of them. */
static inline int numbers_met(const unsigned long *counts, const char *digits)
{
    while (*digits != '\0' && counts[*digits - '0'] > 0)
        digits++;
    return *digits == '\0';
}

/* What each kind of call can answer, grimholdi.h. */
static inline void check_numbers(const tally *t)
{
    static const char *const numbers[KINDS] = {
        "01267",   /* control request */
        "13567",   /* poll */
        "0356",    /* start-split */
        "1245679", /* complete-split */
        "13578",   /* launch */
        "0568",    /* deliver */
        "068",     /* line event */
        "0",       /* tick */
        "0"        /* bus reset */
    };
    size_t kind;

    for (kind = CONTROL; kind < KINDS; kind++)
        CHECK(numbers_met(t->numbers[kind], numbers[kind]));
    CHECK(numbers_met(t->named_numbers, "012678"));
}

static inline void check_met(const tally *t)
{
    size_t kind;

    CHECK(t->apart > t->points / 2);
    CHECK(all_met(t->ports, GRIMHOLDI_PORTS_MIN, GRIMHOLDI_PORTS_MAX));
    CHECK(all_met(t->buffers, GRIMHOLDI_BUFFERS_MIN, GRIMHOLDI_BUFFERS_MAX));
    CHECK(all_met(t->picked, GRIMHOLDI_PORTS_MIN, GRIMHOLDI_PORTS_MAX));
    for (kind = CONTROL; kind <= COMPLETE_SPLIT; kind++)
        CHECK(all_met(t->lanes[kind], 0, GRIMHOLDI_LANE_MAX));
    check_numbers(t);
    CHECK(all_met(t->looks, EVENT_AT_NO_PORT, REQUEST_MISSIZED));
    CHECK(all_met(t->states, GRIMHOLDI_STATE_NOT_CONFIGURED,
                  GRIMHOLDI_STATE_RESUMING));
    CHECK(all_met(t->low_sides, LOW_SIDE_FREE, LOW_SIDE_ABANDONED));
    CHECK(all_met(t->polls, SAME_BITS, REFUSED));
}

#endif
