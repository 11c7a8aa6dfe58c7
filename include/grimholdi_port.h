/*
 * grimholdi_port.h - a port's state and speed, for the front end
 *
 * A front end that drives the lines has to know the state of each port.
 * GetPortStatus does not tell it: Suspended and Resuming give the same bytes
 * there, and on the lines they differ.  The state stands in the port's bytes
 * of the area (docs/AREA.md), as the last call left it.
 *
 * All is static inline: nothing is linked.  The area is only read.  A call
 * that may change it must not run at the same time.
 */

#ifndef GRIMHOLDI_PORT_H
#define GRIMHOLDI_PORT_H

#include "grimholdi.h"

#ifdef __cplusplus
extern "C" {
#endif

/* States: those that stand in an area, and NONE. */

#define GRIMHOLDI_STATE_NOT_CONFIGURED  0
#define GRIMHOLDI_STATE_POWERED_OFF     1
#define GRIMHOLDI_STATE_DISCONNECTED    2
#define GRIMHOLDI_STATE_DISABLED        3
#define GRIMHOLDI_STATE_RESETTING       4
#define GRIMHOLDI_STATE_ENABLED         5
#define GRIMHOLDI_STATE_SUSPENDED       6
#define GRIMHOLDI_STATE_RESUMING        7
#define GRIMHOLDI_STATE_NONE            255 /* no such port */

/* Speeds: those that stand in an area, and NONE. */

#define GRIMHOLDI_SPEED_LOW             0
#define GRIMHOLDI_SPEED_FULL            1
#define GRIMHOLDI_SPEED_HIGH            2
#define GRIMHOLDI_SPEED_NONE            255 /* no such port, or no device */

/* Port p's four bytes, from 8 + 4 (p - 1) on, or NULL: no such port. */
static inline const uint8_t *grimholdi_port_bytes(const uint8_t *area,
                                                  size_t area_len,
                                                  uint32_t port)
{
    if (area_len == 0 || area[0] > GRIMHOLDI_PORTS_MAX || port == 0
        || port > area[0] || area_len < 8 + 4 * (size_t)port)
        return NULL;
    return area + 8 + 4 * (size_t)(port - 1);
}

/*
 * The state of a port, GRIMHOLDI_STATE_..; NONE where the hub has no such
 * port.  Any bytes and numbers may be handed in, and no byte behind area_len
 * is read.  Whether the bytes are an area is not tested: see "A stored area"
 * in grimholdi.h.
 */
static inline uint8_t grimholdi_port_state(const uint8_t *area,
                                           size_t area_len, uint32_t port)
{
    const uint8_t *bytes = grimholdi_port_bytes(area, area_len, port);

    if (bytes == NULL || bytes[0] > GRIMHOLDI_STATE_RESUMING)
        return GRIMHOLDI_STATE_NONE;
    return bytes[0];
}

/*
 * The speed of the device at a port, GRIMHOLDI_SPEED_..; NONE where there is
 * no device, in Not Configured, Powered-off and Disconnected, and where the
 * hub has no such port.
 */
static inline uint8_t grimholdi_port_speed(const uint8_t *area,
                                           size_t area_len, uint32_t port)
{
    const uint8_t *bytes = grimholdi_port_bytes(area, area_len, port);

    if (bytes == NULL || bytes[0] < GRIMHOLDI_STATE_DISABLED
        || bytes[0] > GRIMHOLDI_STATE_RESUMING
        || bytes[1] > GRIMHOLDI_SPEED_HIGH)
        return GRIMHOLDI_SPEED_NONE;
    return bytes[1];
}

#ifdef __cplusplus
}
#endif

#endif
