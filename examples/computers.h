/*
 * Two recording computers, simulated with the front end of the hub.  Each has
 * a lane of its own and a microphone at its port, and both have given their
 * microphone the same address.
 *
 * Every function makes its call on the hub, writes it into the log and checks
 * what it answers.  What is due is worked out from document 01, here and in
 * the scenes; the hub is not asked for it.
 */

#ifndef COMPUTERS_H
#define COMPUTERS_H

#include "log.h"

enum {
    COMPUTERS = 2,
    ADDRESS = 5,  /* of both microphones */
    TAKE = 1,     /* endpoints: IN, the take; OUT, the gain */
    BUTTONS = 2,
    METER = 3
};

typedef struct {
    uint8_t lane;
    uint8_t port;
    const char *microphone; /* where it stands */
} computer;

extern const computer computers[COMPUTERS];

/* Ports. */

void wait_ms(unsigned ms);
void line_event(uint32_t event, uint32_t port);
void set_configuration(const computer *from);
void set_port_feature(const computer *from, uint32_t feature, uint32_t port);
void clear_port_feature(const computer *from, uint32_t feature, uint32_t port);

/* The bitmap; 0 is a NAK, which is not shown. */
void poll_changes(const computer *from, uint8_t bitmap);

/*
 * GetPortStatus: the port is in that state, with these status bits beside
 * those of the state, and with these change bits.
 */
void port_shows(const computer *from, uint32_t port, uint8_t state,
                unsigned beside, unsigned changes);

/* Poll and GetPortStatus; then the changes are cleared one by one. */
void serve_changes(const computer *from, uint32_t port, uint8_t bitmap,
                   uint8_t state, unsigned beside, unsigned changes);

/* The translator: bulk transactions at full speed with toggle 0. */

void clear_tt_buffer(const computer *from, uint8_t endpoint);
void reset_tt(const computer *from);
void start_in(const computer *from, uint8_t endpoint, uint8_t number);
void start_out(const computer *from, uint8_t endpoint, const char *text);
void launch(outcome due);
void deliver(const computer *to, uint8_t endpoint, uint8_t direction,
             outcome result);
outcome complete(const computer *from, uint8_t endpoint, uint8_t direction,
                 outcome due);

/* ResetTT of both lanes, not shown. */
void empty_buffers(void);

/* What a launch of these start-splits answers. */
outcome launched_in(const computer *of, uint8_t endpoint);
outcome launched_out(const computer *of, uint8_t endpoint, const char *text);

#endif
