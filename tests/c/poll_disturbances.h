/* Disturbances of polls, which change the answer or the reply space. */

#ifndef POLL_DISTURBANCES_H
#define POLL_DISTURBANCES_H

#include "disturbances.h"

static inline int is_poll(const call *c, const grimholdi_answer *answer,
                          uint8_t number)
{
    return c->kind == POLL && answer->number == number;
}

/* Gives 3 in place of the byte. */
static inline void hold_back(grimholdi_answer *answer)
{
    reply[0] = lent[0];
    answer->number = GRIMHOLDI_ANSWER_NAK;
    answer->length = 0;
}

/* A poll that gives a bit gives every port's. */
static inline void give_every_bit(const call *c, grimholdi_answer *answer)
{
    if (is_poll(c, answer, GRIMHOLDI_ANSWER_DATA))
        reply[0] = (uint8_t)((2u << area[HEAD_PORTS]) - 2);
}

/* Port 1's bit, with one of a port from 3 on, brings port 2's. */
static inline void bring_port_2(const call *c, grimholdi_answer *answer)
{
    if (is_poll(c, answer, GRIMHOLDI_ANSWER_DATA) && (reply[0] & 0x02) != 0
        && (reply[0] & 0xF8) != 0)
        reply[0] |= 0x04;
}

/* A poll that gives a bit gives bit 0 too. */
static inline void give_bit_0(const call *c, grimholdi_answer *answer)
{
    if (is_poll(c, answer, GRIMHOLDI_ANSWER_DATA))
        reply[0] |= 0x01;
}

/* A poll leaves port 1 out. */
static inline void leave_out_port_1(const call *c, grimholdi_answer *answer)
{
    if (!is_poll(c, answer, GRIMHOLDI_ANSWER_DATA))
        return;
    reply[0] &= 0xFC;
    if (reply[0] == 0)
        hold_back(answer);
}

/* A poll is 3 where one port alone has a change bit. */
static inline void hold_one_back(const call *c, grimholdi_answer *answer)
{
    if (is_poll(c, answer, GRIMHOLDI_ANSWER_DATA)
        && (reply[0] & (reply[0] - 1)) == 0)
        hold_back(answer);
}

/* A poll of a hub with one port writes the byte and is 3. */
static inline void hold_only_back(const call *c, grimholdi_answer *answer)
{
    if (!is_poll(c, answer, GRIMHOLDI_ANSWER_DATA) || area[HEAD_PORTS] != 1)
        return;
    answer->number = GRIMHOLDI_ANSWER_NAK;
    answer->length = 0;
}

/* While port 1 is Disconnected, a poll gives a byte without bits for 3. */
static inline void give_no_bit(const call *c, grimholdi_answer *answer)
{
    if (!is_poll(c, answer, GRIMHOLDI_ANSWER_NAK)
        || !port_1_is(GRIMHOLDI_STATE_DISCONNECTED))
        return;
    answer->number = GRIMHOLDI_ANSWER_DATA;
    answer->length = 1;
    reply[0] = 0;
}

/* While port 1 is Resuming, the byte of a poll comes with a PID. */
static inline void give_pid(const call *c, grimholdi_answer *answer)
{
    if (is_poll(c, answer, GRIMHOLDI_ANSWER_DATA)
        && port_1_is(GRIMHOLDI_STATE_RESUMING))
        answer->pid = GRIMHOLDI_RESULT_DATA0;
}

/* While port 1 is Disconnected, a poll's 3 comes with a PID. */
static inline void give_nak_pid(const call *c, grimholdi_answer *answer)
{
    if (is_poll(c, answer, GRIMHOLDI_ANSWER_NAK)
        && port_1_is(GRIMHOLDI_STATE_DISCONNECTED))
        answer->pid = GRIMHOLDI_RESULT_NAK;
}

/* A poll with too little space is answered 5 if port 1 has a change bit. */
static inline void refuse_as_silent(const call *c, grimholdi_answer *answer)
{
    if (is_poll(c, answer, GRIMHOLDI_ANSWER_NO_SPACE)
        && (port_bytes(1)[PORT_MARKS] & MARK_CHANGES) != 0)
        answer->number = GRIMHOLDI_ANSWER_SILENT;
}

/* A poll writes another byte behind the one that it gives. */
static inline void write_behind(const call *c, grimholdi_answer *answer)
{
    if (is_poll(c, answer, GRIMHOLDI_ANSWER_DATA))
        reply[1] = (uint8_t)~lent[1];
}

#endif
