/* Where the bytes of an area are, docs/AREA.md. */

#ifndef AREA_LAYOUT_H
#define AREA_LAYOUT_H

enum { /* the head */
    HEAD_PORTS, HEAD_BUFFERS, HEAD_POWER_GOOD, HEAD_CURRENT, HEAD_REMOVABLE,
    HEAD_CONFIGURED, HEAD_LOW_SIDE, HEAD_RUNNING,
    HEAD_LENGTH
};

enum { /* a port */
    PORT_STATE, PORT_SPEED, PORT_TICKS, PORT_MARKS,
    PORT_LENGTH
};

enum { /* bits of PORT_MARKS: the change bits, then the level */
    MARK_CHANGES = 0x1F,
    MARK_OVER_CURRENT = 0x20,
    MARKS = 0x3F
};

enum { /* a buffer */
    BUFFER_STATUS, BUFFER_PID, BUFFER_TRANSFER, BUFFER_FLAGS, BUFFER_ADDRESS,
    BUFFER_ENDPOINT,
    BUFFER_PLACE,                 /* of a pending one */
    BUFFER_RESULT = BUFFER_PLACE, /* of a ready or old one */
    BUFFER_PAYLOAD_LENGTH, BUFFER_PAYLOAD,
    BUFFER_LENGTH = 72
};

enum { /* bits of BUFFER_FLAGS */
    FLAG_LOW_SPEED = 1,
    FLAG_TOGGLE = 2,
    FLAG_LANE = 4,
    FLAGS = 7
};

#endif
