/* The state of a hub, in short. */

#ifndef STATE_TEXT_H
#define STATE_TEXT_H

#include "area_view.h"

/* A line for the hub, for each port and for each buffer. */
void print_state(const area_view *view);

/* "Enabled, full speed": of a connected port the speed too. */
void print_port_state(const port_view *port);

/* "C_PORT_CONNECTION, C_PORT_RESET", by bit. */
void print_changes(unsigned changes);

/* "the low side is free", or by what it is occupied. */
void print_low_side(const area_view *view);

#endif
