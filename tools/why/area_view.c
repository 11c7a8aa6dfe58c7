#include "area_view.h"

#include <string.h>

#include "area_layout.h"

const char *status_name(uint32_t status)
{
    static const char *const names[] = {
        [STATUS_EMPTY] = "empty",
        [STATUS_PENDING] = "pending",
        [STATUS_READY] = "ready",
        [STATUS_OLD] = "old"
    };

    return names[status];
}

static port_view view_port(const uint8_t *bytes)
{
    port_view view;

    view.state = bytes[PORT_STATE];
    view.speed = bytes[PORT_SPEED];
    view.ticks = bytes[PORT_TICKS];
    view.changes = bytes[PORT_MARKS] & MARK_CHANGES;
    view.over_current = (bytes[PORT_MARKS] & MARK_OVER_CURRENT) != 0;
    return view;
}

static buffer_view view_buffer(const uint8_t *bytes)
{
    uint8_t flags = bytes[BUFFER_FLAGS];
    buffer_view view;

    view.status = bytes[BUFFER_STATUS];
    view.pid = bytes[BUFFER_PID];
    view.transfer = bytes[BUFFER_TRANSFER];
    view.low_speed = (flags & FLAG_LOW_SPEED) != 0;
    view.toggle = (flags & FLAG_TOGGLE) != 0;
    view.lane = (flags & FLAG_LANE) != 0;
    view.address = bytes[BUFFER_ADDRESS];
    view.endpoint = bytes[BUFFER_ENDPOINT];
    view.direction = (uint8_t)direction_of_pid(view.pid);
    view.place = bytes[BUFFER_PLACE];
    view.result = bytes[BUFFER_RESULT];
    view.payload_length = bytes[BUFFER_PAYLOAD_LENGTH];
    view.payload = bytes + BUFFER_PAYLOAD;
    return view;
}

area_view view_area(const uint8_t *area)
{
    area_view view;
    unsigned i;

    memset(&view, 0, sizeof view);
    view.ports = area[HEAD_PORTS];
    view.buffers = area[HEAD_BUFFERS];
    view.power_good = area[HEAD_POWER_GOOD];
    view.current = area[HEAD_CURRENT];
    view.removable = area[HEAD_REMOVABLE];
    view.configured = area[HEAD_CONFIGURED];
    view.low_side = area[HEAD_LOW_SIDE];
    view.running = area[HEAD_RUNNING];
    for (i = 0; i < view.ports; i++)
        view.port[i] = view_port(area + HEAD_LENGTH + PORT_LENGTH * i);
    for (i = 0; i < view.buffers; i++)
        view.buffer[i] = view_buffer(area + HEAD_LENGTH
                                     + PORT_LENGTH * view.ports
                                     + BUFFER_LENGTH * i);
    return view;
}

int buffer_is_held(const buffer_view *buffer)
{
    return buffer->status == STATUS_PENDING
           || buffer->status == STATUS_READY;
}
