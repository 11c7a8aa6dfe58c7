/* An area as numbers with names. */

#ifndef AREA_VIEW_H
#define AREA_VIEW_H

#include "grimholdi.h"
#include "grimholdi_port.h"

#include "../words/names.h"

enum { LOW_SIDE_FREE, LOW_SIDE_RUNNING, LOW_SIDE_ABANDONED };

enum { STATUS_EMPTY, STATUS_PENDING, STATUS_READY, STATUS_OLD };

/* Of a buffer, STATUS_.. */
const char *status_name(uint32_t status);

typedef struct {
    uint8_t state;        /* GRIMHOLDI_STATE_.. */
    uint8_t speed;        /* GRIMHOLDI_SPEED_..; 0 without a device */
    uint8_t ticks;
    uint8_t changes;      /* GRIMHOLDI_CHANGE_.. */
    uint8_t over_current; /* the level, 0 or 1 */
} port_view;

typedef struct {
    uint8_t status;         /* STATUS_.. */
    uint8_t pid;
    uint8_t transfer;
    uint8_t low_speed;
    uint8_t toggle;
    uint8_t lane;           /* lane, address, endpoint, direction: the key */
    uint8_t address;
    uint8_t endpoint;
    uint8_t direction;
    uint8_t place;          /* of a pending one */
    uint8_t result;         /* of a ready or old one */
    uint8_t payload_length;
    const uint8_t *payload; /* in the area */
} buffer_view;

typedef struct {
    uint8_t ports;
    uint8_t buffers;
    uint8_t power_good;
    uint8_t current;
    uint8_t removable;
    uint8_t configured;
    uint8_t low_side;                         /* LOW_SIDE_.. */
    uint8_t running;                          /* a buffer, if one runs */
    port_view port[GRIMHOLDI_PORTS_MAX];      /* port 1 first */
    buffer_view buffer[GRIMHOLDI_BUFFERS_MAX];
} area_view;

/* The area has the length that its own first two bytes ask for. */
area_view view_area(const uint8_t *area);

/* Pending or ready. */
int buffer_is_held(const buffer_view *buffer);

#endif
