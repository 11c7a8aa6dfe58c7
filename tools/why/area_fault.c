#include "area_fault.h"

#include "../words/text.h"
#include "area_layout.h"
#include "area_view.h"
#include "transactions.h"

/* The first two bytes and the length. */
static int size_fault(const uint8_t *area, size_t length,
                      char fault[FAULT_LENGTH])
{
    unsigned given = (unsigned)length;
    unsigned ports, buffers, due;

    if (length <= HEAD_BUFFERS)
        return fault_says(fault, BYTE_COUNT "; an area has 156 to 324",
                          BYTE_COUNT_OF(length));
    ports = area[HEAD_PORTS];
    buffers = area[HEAD_BUFFERS];
    if (ports < GRIMHOLDI_PORTS_MIN || ports > GRIMHOLDI_PORTS_MAX)
        return fault_says(fault, "byte %u: the hub has %u ports; 1 to 7 are "
                          "permitted", HEAD_PORTS, ports);
    if (buffers < GRIMHOLDI_BUFFERS_MIN || buffers > GRIMHOLDI_BUFFERS_MAX)
        return fault_says(fault, "byte %u: the hub has %u buffer%s; 2 to 4 "
                          "are permitted", HEAD_BUFFERS, buffers,
                          plural(buffers));
    due = HEAD_LENGTH + PORT_LENGTH * ports + BUFFER_LENGTH * buffers;
    if (given != due)
        return fault_says(fault, "%u bytes; an area of %u port%s and %u "
                          "buffers has %u", given, ports, plural(ports),
                          buffers, due);
    return 0;
}

/* The rest of the head; whether the running buffer is pending comes last. */
static int head_fault(const uint8_t *area, char fault[FAULT_LENGTH])
{
    unsigned ports = area[HEAD_PORTS];
    unsigned removable = area[HEAD_REMOVABLE];
    unsigned running = area[HEAD_RUNNING];

    if (removable & 1 || removable >> (ports + 1) != 0)
        return fault_says(fault, "byte %u: removable is 0x%02x; bit 0 and the "
                          "bits above %u have to be 0", HEAD_REMOVABLE,
                          removable, ports);
    if (area[HEAD_CONFIGURED] > 1)
        return fault_says(fault, "byte %u: configured is %u; 0 and 1 are "
                          "permitted", HEAD_CONFIGURED, area[HEAD_CONFIGURED]);
    if (area[HEAD_LOW_SIDE] > LOW_SIDE_ABANDONED)
        return fault_says(fault, "byte %u: the low side is %u; 0 to 2 are "
                          "permitted", HEAD_LOW_SIDE, area[HEAD_LOW_SIDE]);
    if (area[HEAD_LOW_SIDE] != LOW_SIDE_RUNNING && running != 0)
        return fault_says(fault, "byte %u: buffer %u is named and no "
                          "transaction runs; 0 is permitted", HEAD_RUNNING,
                          running);
    if (running >= area[HEAD_BUFFERS])
        return fault_says(fault, "byte %u: buffer %u runs; 0 to %u are "
                          "permitted", HEAD_RUNNING, running,
                          area[HEAD_BUFFERS] - 1u);
    return 0;
}

static int ticks_fault(const uint8_t *port, unsigned number, unsigned at,
                       char fault[FAULT_LENGTH])
{
    unsigned state = port[PORT_STATE];
    unsigned ticks = port[PORT_TICKS];
    unsigned most = 0;

    if (state == GRIMHOLDI_STATE_RESETTING)
        most = GRIMHOLDI_RESET_TICKS - 1;
    if (state == GRIMHOLDI_STATE_RESUMING)
        most = GRIMHOLDI_RESUME_TICKS - 1;
    if (ticks <= most)
        return 0;
    if (most == 0)
        return fault_says(fault, "byte %u: port %u has %u tick%s; %s has 0",
                          at + PORT_TICKS, number, ticks, plural(ticks),
                          grimholdi_state_name(state));
    return fault_says(fault, "byte %u: port %u has %u tick%s; %s has 0 to %u",
                      at + PORT_TICKS, number, ticks, plural(ticks),
                      grimholdi_state_name(state), most);
}

static int port_fault(const uint8_t *area, unsigned number,
                      char fault[FAULT_LENGTH])
{
    unsigned at = HEAD_LENGTH + PORT_LENGTH * (number - 1);
    const uint8_t *port = area + at;
    unsigned state = port[PORT_STATE];
    unsigned speed = port[PORT_SPEED];

    if (state > GRIMHOLDI_STATE_RESUMING)
        return fault_says(fault, "byte %u: port %u is in state %u; 0 to 7 are "
                          "permitted", at + PORT_STATE, number, state);
    if (area[HEAD_CONFIGURED] && state == GRIMHOLDI_STATE_NOT_CONFIGURED)
        return fault_says(fault, "byte %u: port %u is in state 0; the hub is "
                          "configured, 1 to 7 are permitted", at + PORT_STATE,
                          number);
    if (!area[HEAD_CONFIGURED] && state != GRIMHOLDI_STATE_NOT_CONFIGURED)
        return fault_says(fault, "byte %u: port %u is in state %u; the hub is "
                          "unconfigured, 0 is permitted", at + PORT_STATE,
                          number, state);
    if (speed > GRIMHOLDI_SPEED_HIGH)
        return fault_says(fault, "byte %u: port %u has speed %u; 0 to 2 are "
                          "permitted", at + PORT_SPEED, number, speed);
    if (state < GRIMHOLDI_STATE_DISABLED && speed != 0)
        return fault_says(fault, "byte %u: port %u has speed %u; %s has 0",
                          at + PORT_SPEED, number, speed,
                          grimholdi_state_name(state));
    if (ticks_fault(port, number, at, fault))
        return 1;
    if (port[PORT_MARKS] > MARKS)
        return fault_says(fault, "byte %u: port %u has 0x%02x; bits 6 and 7 "
                          "are 0", at + PORT_MARKS, number, port[PORT_MARKS]);
    return 0;
}

/* Bytes from `first` on are 0. */
static int tail_fault(const uint8_t *buffer, unsigned number, unsigned at,
                      unsigned first, const char *why_zero,
                      char fault[FAULT_LENGTH])
{
    unsigned i;

    for (i = first; i < BUFFER_LENGTH; i++)
        if (buffer[i] != 0)
            return fault_says(fault, "byte %u: buffer %u has %u %s; 0 is "
                              "permitted", at + i, number, buffer[i],
                              why_zero);
    return 0;
}

/* PID, type, flags, address and endpoint. */
static int token_fault(const uint8_t *buffer, unsigned number, unsigned at,
                       char fault[FAULT_LENGTH])
{
    unsigned pid = buffer[BUFFER_PID];
    unsigned transfer = buffer[BUFFER_TRANSFER];

    if (name_of(grimholdi_pid_name, pid) == NULL)
        return fault_says(fault, "byte %u: buffer %u has PID %u; OUT 1, IN 9 "
                          "and SETUP 13 are permitted", at + BUFFER_PID,
                          number, pid);
    if (name_of(grimholdi_transfer_name, transfer) == NULL)
        return fault_says(fault, "byte %u: buffer %u has type %u; control 0 "
                          "and bulk 2 are permitted", at + BUFFER_TRANSFER,
                          number, transfer);
    if (pid == GRIMHOLDI_PID_SETUP && transfer != GRIMHOLDI_TRANSFER_CONTROL)
        return fault_says(fault, "byte %u: buffer %u has type bulk; SETUP is "
                          "control", at + BUFFER_TRANSFER, number);
    if (buffer[BUFFER_FLAGS] > FLAGS)
        return fault_says(fault, "byte %u: buffer %u has flags 0x%02x; bits 3 "
                          "to 7 are 0", at + BUFFER_FLAGS, number,
                          buffer[BUFFER_FLAGS]);
    if (buffer[BUFFER_ADDRESS] > GRIMHOLDI_ADDRESS_MAX)
        return fault_says(fault, "byte %u: buffer %u has address %u; 0 to 127 "
                          "are permitted", at + BUFFER_ADDRESS, number,
                          buffer[BUFFER_ADDRESS]);
    if (buffer[BUFFER_ENDPOINT] > GRIMHOLDI_ENDPOINT_MAX)
        return fault_says(fault, "byte %u: buffer %u has endpoint %u; 0 to 15 "
                          "are permitted", at + BUFFER_ENDPOINT, number,
                          buffer[BUFFER_ENDPOINT]);
    return 0;
}

/* The result of a ready or old buffer, and the length of the payload. */
static int result_fault(const uint8_t *buffer, unsigned number, unsigned at,
                        char fault[FAULT_LENGTH])
{
    unsigned pid = buffer[BUFFER_PID];
    unsigned result = buffer[BUFFER_RESULT];
    unsigned length = buffer[BUFFER_PAYLOAD_LENGTH];
    int is_pending = buffer[BUFFER_STATUS] == STATUS_PENDING;
    const length_rule *lengths = is_pending ? start_lengths(pid)
                                            : result_lengths(result);

    if (lengths == NULL)
        return fault_says(fault, "byte %u: buffer %u has result %u; failure "
                          "0, ACK 2, DATA0 3, NAK 10, DATA1 11 and STALL 14 "
                          "are permitted", at + BUFFER_RESULT, number, result);
    if (length < lengths->least || length > lengths->most)
        return fault_says(fault, "byte %u: buffer %u has a payload of "
                          BYTE_COUNT "; %s has %s",
                          at + BUFFER_PAYLOAD_LENGTH, number,
                          BYTE_COUNT_OF(length),
                          is_pending ? grimholdi_pid_name(pid)
                                     : grimholdi_result_name(result),
                          lengths->text);
    return 0;
}

static int buffer_fault(const uint8_t *area, unsigned number,
                        char fault[FAULT_LENGTH])
{
    unsigned at = HEAD_LENGTH + PORT_LENGTH * area[HEAD_PORTS]
                  + BUFFER_LENGTH * number;
    const uint8_t *buffer = area + at;

    if (buffer[BUFFER_STATUS] > STATUS_OLD)
        return fault_says(fault, "byte %u: buffer %u has status %u; 0 to 3 "
                          "are permitted", at + BUFFER_STATUS, number,
                          buffer[BUFFER_STATUS]);
    if (buffer[BUFFER_STATUS] == STATUS_EMPTY)
        return tail_fault(buffer, number, at, BUFFER_PID, "and is empty",
                          fault);
    return token_fault(buffer, number, at, fault)
           || result_fault(buffer, number, at, fault)
           || tail_fault(buffer, number, at,
                         BUFFER_PAYLOAD + buffer[BUFFER_PAYLOAD_LENGTH],
                         "behind its payload", fault);
}

static int same_key(const buffer_view *one, const buffer_view *other)
{
    return one->lane == other->lane && one->address == other->address
           && one->endpoint == other->endpoint
           && one->direction == other->direction;
}

/* Keys and places that two buffers have. */
static int pair_fault(const area_view *view, unsigned number,
                      char fault[FAULT_LENGTH])
{
    const buffer_view *buffer = &view->buffer[number];
    unsigned i;

    for (i = 0; i < number; i++) {
        const buffer_view *other = &view->buffer[i];

        if (buffer->status != STATUS_EMPTY && other->status != STATUS_EMPTY
            && same_key(buffer, other))
            return fault_says(fault, "buffers %u and %u have the same key, "
                              "lane %u (%u,%u %s)", i, number, buffer->lane,
                              buffer->address, buffer->endpoint,
                              grimholdi_direction_name(buffer->direction));
        if (buffer->status == STATUS_PENDING
            && other->status == STATUS_PENDING
            && buffer->place == other->place)
            return fault_says(fault, "buffers %u and %u are pending at the "
                              "same place, %u", i, number, buffer->place);
    }
    return 0;
}

/* A lane over its limit, a running buffer that isn't pending. */
static int hub_fault(const area_view *view, char fault[FAULT_LENGTH])
{
    unsigned held[GRIMHOLDI_LANE_MAX + 1] = {0, 0};
    const buffer_view *running = &view->buffer[view->running];
    unsigned i;

    for (i = 0; i < view->buffers; i++)
        if (buffer_is_held(&view->buffer[i]))
            held[view->buffer[i].lane]++;
    for (i = 0; i <= GRIMHOLDI_LANE_MAX; i++)
        if (held[i] >= view->buffers)
            return fault_says(fault, "lane %u holds %u buffers pending or "
                              "ready; its limit is %u", i, held[i],
                              view->buffers - 1u);
    if (view->low_side == LOW_SIDE_RUNNING
        && running->status != STATUS_PENDING)
        return fault_says(fault, "byte %u: buffer %u runs and is %s; a "
                          "running one is pending", HEAD_RUNNING,
                          view->running, status_name(running->status));
    return 0;
}

int area_fault(const uint8_t *area, size_t length, char fault[FAULT_LENGTH])
{
    area_view view;
    unsigned i;

    if (size_fault(area, length, fault) || head_fault(area, fault))
        return 1;
    view = view_area(area);
    for (i = 1; i <= view.ports; i++)
        if (port_fault(area, i, fault))
            return 1;
    for (i = 0; i < view.buffers; i++)
        if (buffer_fault(area, i, fault) || pair_fault(&view, i, fault))
            return 1;
    return hub_fault(&view, fault);
}
