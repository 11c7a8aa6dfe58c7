/*
 * The hub as this firmware has it: its area, its reply space and the calls
 * that it makes.  Each call is recorded before it is made; without a
 * recording, the recorder does nothing.
 */

#ifndef CALLS_H
#define CALLS_H

#include "grimholdi.h"

enum { /* the hub's five numbers, which a replay is given: 4 3 50 100 0 */
    PORTS = 4,
    BUFFERS = 3,         /* a lane may hold two */
    POWER_GOOD = 50,     /* 100 ms */
    CURRENT = 100,       /* mA */
    REMOVABLE = 0
};

/* Names of files that are written, or NULL. */
typedef struct {
    const char *nak_area; /* the area, by hub_dump_area */
    const char *record;   /* all calls */
    const char *answers;  /* all answers, as a replay writes them */
} file_names;

/* The bytes of the last call that was answered DATA. */
extern uint8_t reply[GRIMHOLDI_REPLY_LENGTH];

/* Opens and closes the files.  If not all is written, they say so: 0. */
int open_files(const file_names *names);
int close_files(void);

/* Makes the hub, and begins the recording. */
grimholdi_answer hub_new(void);

/* Writes the area as it stands: all that `why` needs of the hub. */
void hub_dump_area(void);

/* The port's state, GRIMHOLDI_STATE_.. */
uint8_t hub_port_state(uint32_t port);

grimholdi_answer hub_control(uint32_t lane, const uint8_t *setup);
grimholdi_answer hub_poll(uint32_t lane);
grimholdi_answer hub_start_split(uint32_t lane, uint32_t pid,
                                 uint32_t transfer, uint32_t low_speed,
                                 uint32_t toggle, uint32_t address,
                                 uint32_t endpoint, const uint8_t *payload,
                                 size_t payload_len);
grimholdi_answer hub_complete_split(uint32_t lane, uint32_t address,
                                    uint32_t endpoint, uint32_t direction);
grimholdi_answer hub_launch(void);
grimholdi_answer hub_deliver(uint32_t result, const uint8_t *payload,
                             size_t payload_len);
grimholdi_answer hub_line_event(uint32_t event, uint32_t port);
grimholdi_answer hub_tick(void);

#endif
