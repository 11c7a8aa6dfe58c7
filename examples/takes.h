/*
 * The takes that the microphones send, and what arrived of each.  A take is
 * text: every 32 bytes say whose it is.  A computer asks for as many bytes as
 * a take has, so that one of whole packets ends with the last of them.
 */

#ifndef TAKES_H
#define TAKES_H

#include "computers.h"

enum {
    PACKET = GRIMHOLDI_PAYLOAD_MAX,
    LONG_TAKE = 3 * PACKET,
    SHORT_TAKE = 30
};

/* The microphone has a take, and its computer reads it. */
void begin_take(const computer *of, size_t length);

/* The computer reads no more of it. */
void end_take(const computer *of, const char *how);

/* The microphone replies NAK to its next INs, so many. */
void keep_busy(const computer *of, unsigned ins);

/* What the microphone replies to an IN: a packet of the take, or NAK. */
outcome next_packet(const computer *of);

/* A complete-split.  The bytes that are due have to arrive, and no others. */
void receive(const computer *of, outcome due);

/* A packet of each take that is being read, 1 ms later. */
void read_packets(void);

/* All packets that are left. */
void read_takes(void);

/* Which take arrived where. */
void print_takes(void);

#endif
