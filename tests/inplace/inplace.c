/*
 * The hub rules in plain C, worked out directly on the bytes of the lent area.
 * The speed comparison measures the library against it.
 */

#include "inplace.h"

#include <string.h>

/* The layout of the area, see docs/AREA.md. */

enum {
    HEADER_LENGTH = 8,
    PORT_LENGTH = 4,
    BUFFER_LENGTH = 72
};

enum { /* bytes of the header */
    PORTS, BUFFERS, POWER_GOOD, CURRENT, REMOVABLE, CONFIGURED, LOW_SIDE,
    RUNNING_BUFFER
};

enum { LOW_IDLE, LOW_RUNNING, LOW_ABANDONED };

enum { /* bytes of a port */
    STATE, SPEED, TICKS, MARKS
};

enum {
    NOT_CONFIGURED, POWERED_OFF, DISCONNECTED, DISABLED, RESETTING, ENABLED,
    SUSPENDED, RESUMING
};

enum { SPEED_LOW, SPEED_FULL, SPEED_HIGH };

enum { /* marks: change bits as in GetPortStatus, then the level */
    CHANGES = 0x1F,
    OVER_CURRENT = 0x20,
    ALL_MARKS = 0x3F
};

enum { /* bytes of a buffer */
    STATUS, PID, TRANSFER, FLAGS, ADDRESS, ENDPOINT,
    PLACE,           /* while pending */
    RESULT = PLACE,  /* while ready or old */
    LENGTH,
    BYTES
};

enum { EMPTY, PENDING, READY, OLD };

enum {
    FLAG_LOW_SPEED = 1,
    FLAG_TOGGLE = 2,
    FLAG_LANE = 4,
    ALL_FLAGS = 7
};

/* Where a port or a buffer begins. */

static size_t port_at(uint32_t number)
{
    return (size_t)HEADER_LENGTH + PORT_LENGTH * (number - 1);
}

static size_t buffer_at(const uint8_t *area, uint32_t number)
{
    return (size_t)HEADER_LENGTH + PORT_LENGTH * area[PORTS]
           + BUFFER_LENGTH * number;
}

static size_t buffers_length(const uint8_t *area)
{
    return (size_t)BUFFER_LENGTH * area[BUFFERS];
}

static grimholdi_answer answer(uint8_t number)
{
    grimholdi_answer a = {0};

    a.number = number;
    return a;
}

static grimholdi_answer data(uint8_t *reply, const uint8_t *bytes,
                             uint8_t length)
{
    grimholdi_answer a = answer(GRIMHOLDI_ANSWER_DATA);

    memcpy(reply, bytes, length);
    a.length = length;
    return a;
}

/* Number tests, for arguments and for held values. */

static int removable_ok(uint32_t ports, uint32_t removable)
{
    return (removable & 1) == 0 && removable >> (ports + 1) == 0;
}

static int lane_ok(uint32_t lane)
{
    return lane <= GRIMHOLDI_LANE_MAX;
}

/* The numbers of a key beside its lane. */
static int target_ok(uint32_t address, uint32_t endpoint)
{
    return address <= GRIMHOLDI_ADDRESS_MAX
           && endpoint <= GRIMHOLDI_ENDPOINT_MAX;
}

static int token_ok(uint32_t pid, uint32_t transfer)
{
    switch (pid) {
    case GRIMHOLDI_PID_OUT:
    case GRIMHOLDI_PID_IN:
        return transfer == GRIMHOLDI_TRANSFER_CONTROL
               || transfer == GRIMHOLDI_TRANSFER_BULK;
    case GRIMHOLDI_PID_SETUP:
        return transfer == GRIMHOLDI_TRANSFER_CONTROL;
    default:
        return 0;
    }
}

static int start_length_ok(uint32_t pid, size_t length)
{
    switch (pid) {
    case GRIMHOLDI_PID_IN:
        return length == 0;
    case GRIMHOLDI_PID_SETUP:
        return length == GRIMHOLDI_SETUP_LENGTH;
    default:
        return length <= GRIMHOLDI_PAYLOAD_MAX;
    }
}

static int is_data(uint32_t result)
{
    return result == GRIMHOLDI_RESULT_DATA0
           || result == GRIMHOLDI_RESULT_DATA1;
}

static int result_ok(uint32_t result, size_t length)
{
    switch (result) {
    case GRIMHOLDI_RESULT_DATA0:
    case GRIMHOLDI_RESULT_DATA1:
        return length <= GRIMHOLDI_PAYLOAD_MAX;
    case GRIMHOLDI_RESULT_FAILURE:
    case GRIMHOLDI_RESULT_ACK:
    case GRIMHOLDI_RESULT_NAK:
    case GRIMHOLDI_RESULT_STALL:
        return length == 0;
    default:
        return 0;
    }
}

/* The result is one of the named ones. */
static int result_suits(uint32_t pid, uint32_t result)
{
    switch (pid) {
    case GRIMHOLDI_PID_IN:
        return result != GRIMHOLDI_RESULT_ACK;
    case GRIMHOLDI_PID_OUT:
        return !is_data(result);
    default:
        return result == GRIMHOLDI_RESULT_ACK
               || result == GRIMHOLDI_RESULT_FAILURE;
    }
}

/* Keys. */

static uint8_t direction_of(uint32_t pid)
{
    return pid == GRIMHOLDI_PID_IN ? GRIMHOLDI_DIRECTION_IN
                                   : GRIMHOLDI_DIRECTION_OUT;
}

static uint8_t lane_of(const uint8_t *buffer)
{
    return (buffer[FLAGS] & FLAG_LANE) != 0;
}

static int has_key(const uint8_t *buffer, uint32_t lane, uint32_t address,
                   uint32_t endpoint, uint32_t direction)
{
    return buffer[STATUS] != EMPTY && lane_of(buffer) == lane
           && buffer[ADDRESS] == address && buffer[ENDPOINT] == endpoint
           && direction_of(buffer[PID]) == direction;
}

/* The number of the buffer with the key, or the number of buffers. */
static uint32_t find(const uint8_t *area, uint32_t lane, uint32_t address,
                     uint32_t endpoint, uint32_t direction)
{
    uint32_t i;

    for (i = 0; i < area[BUFFERS]; i++)
        if (has_key(area + buffer_at(area, i), lane, address, endpoint,
                    direction))
            break;
    return i;
}

/* Pending or ready: counted for its lane, and not free. */
static int is_held(const uint8_t *buffer)
{
    return buffer[STATUS] == PENDING || buffer[STATUS] == READY;
}

uint8_t INPLACE(active)(const uint8_t *area)
{
    uint8_t active = 0;
    uint32_t i;

    for (i = 0; i < area[BUFFERS]; i++)
        active += is_held(area + buffer_at(area, i)) ? 1 : 0;
    return active;
}

/* How many buffers one lane may hold. */
static uint32_t limit(const uint8_t *area)
{
    return area[BUFFERS] - 1u;
}

/* Validity of the area. */

static int header_ok(const uint8_t *area, size_t length)
{
    if (length < HEADER_LENGTH
        || length != INPLACE(area_length)(area[PORTS], area[BUFFERS])
        || !removable_ok(area[PORTS], area[REMOVABLE])
        || area[CONFIGURED] > 1 || area[LOW_SIDE] > LOW_ABANDONED)
        return 0;
    if (area[LOW_SIDE] == LOW_RUNNING)
        return area[RUNNING_BUFFER] < area[BUFFERS];
    return area[RUNNING_BUFFER] == 0;
}

static int port_ok(const uint8_t *port, uint8_t configured)
{
    if (port[STATE] > RESUMING || port[SPEED] > SPEED_HIGH
        || port[MARKS] > ALL_MARKS
        || (port[STATE] != NOT_CONFIGURED) != configured
        || (port[STATE] < DISABLED && port[SPEED] != 0))
        return 0;
    switch (port[STATE]) {
    case RESETTING:
        return port[TICKS] < GRIMHOLDI_RESET_TICKS;
    case RESUMING:
        return port[TICKS] < GRIMHOLDI_RESUME_TICKS;
    default:
        return port[TICKS] == 0;
    }
}

static int zero(const uint8_t *bytes, size_t length)
{
    size_t i;

    for (i = 0; i < length; i++)
        if (bytes[i] != 0)
            return 0;
    return 1;
}

static int buffer_ok(const uint8_t *buffer)
{
    uint8_t length = buffer[LENGTH];

    switch (buffer[STATUS]) {
    case EMPTY:
        return zero(buffer, BUFFER_LENGTH);
    case PENDING:
        if (!start_length_ok(buffer[PID], length))
            return 0;
        break;
    case READY:
    case OLD:
        if (!result_ok(buffer[RESULT], length))
            return 0;
        break;
    default:
        return 0;
    }
    return token_ok(buffer[PID], buffer[TRANSFER])
           && buffer[FLAGS] <= ALL_FLAGS
           && target_ok(buffer[ADDRESS], buffer[ENDPOINT])
           && zero(buffer + BYTES + length, GRIMHOLDI_PAYLOAD_MAX - length);
}

/* No earlier buffer has this one's key or place. */
static int buffer_differs(const uint8_t *area, uint32_t number)
{
    const uint8_t *buffer = area + buffer_at(area, number);
    uint32_t i;

    if (buffer[STATUS] == EMPTY)
        return 1;
    for (i = 0; i < number; i++) {
        const uint8_t *other = area + buffer_at(area, i);

        if (has_key(other, lane_of(buffer), buffer[ADDRESS],
                    buffer[ENDPOINT], direction_of(buffer[PID])))
            return 0;
        if (buffer[STATUS] == PENDING && other[STATUS] == PENDING
            && buffer[PLACE] == other[PLACE])
            return 0;
    }
    return 1;
}

/* Each buffer for itself, and no lane beyond its limit. */
static int buffers_ok(const uint8_t *area)
{
    uint32_t held[GRIMHOLDI_LANE_MAX + 1] = {0};
    uint32_t i;

    for (i = 0; i < area[BUFFERS]; i++) {
        const uint8_t *buffer = area + buffer_at(area, i);

        if (!buffer_ok(buffer) || !buffer_differs(area, i))
            return 0;
        if (is_held(buffer))
            held[lane_of(buffer)]++;
    }
    return held[0] <= limit(area) && held[1] <= limit(area);
}

static int area_ok(const uint8_t *area, size_t length)
{
    uint32_t i;

    if (!header_ok(area, length))
        return 0;
    for (i = 1; i <= area[PORTS]; i++)
        if (!port_ok(area + port_at(i), area[CONFIGURED]))
            return 0;
    if (!buffers_ok(area))
        return 0;
    return area[LOW_SIDE] != LOW_RUNNING
           || area[buffer_at(area, area[RUNNING_BUFFER]) + STATUS] == PENDING;
}

/* Changes to a whole part of the hub. */

static void set_low_side(uint8_t *area, uint8_t low_side, uint8_t running)
{
    area[LOW_SIDE] = low_side;
    area[RUNNING_BUFFER] = running;
}

static void empty_translator(uint8_t *area)
{
    memset(area + buffer_at(area, 0), 0, buffers_length(area));
    set_low_side(area, LOW_IDLE, 0);
}

static void set_bytes(uint8_t *buffer, const uint8_t *bytes, size_t length)
{
    buffer[LENGTH] = (uint8_t)length;
    if (length > 0)
        memcpy(buffer + BYTES, bytes, length);
    memset(buffer + BYTES + length, 0, GRIMHOLDI_PAYLOAD_MAX - length);
}

/* Ports. */

static void go(uint8_t *port, uint8_t state)
{
    port[STATE] = state;
    port[TICKS] = 0;
    if (state < DISABLED)
        port[SPEED] = 0;
}

/* PORT_ENABLE reads 1. */
static int is_enabled(const uint8_t *port)
{
    return port[STATE] >= ENABLED;
}

static void set_port_feature(uint8_t *port, uint16_t feature)
{
    uint8_t state = port[STATE];

    switch (feature) {
    case GRIMHOLDI_PORT_SUSPEND:
        if (state == ENABLED)
            go(port, SUSPENDED);
        break;
    case GRIMHOLDI_PORT_RESET:
        if (state == DISABLED || is_enabled(port)) {
            go(port, RESETTING);
            if (port[SPEED] == SPEED_HIGH)
                port[SPEED] = SPEED_FULL;
        }
        break;
    case GRIMHOLDI_PORT_POWER:
        if (state == POWERED_OFF && !(port[MARKS] & OVER_CURRENT))
            go(port, DISCONNECTED);
        break;
    }
}

static void clear_port_feature(uint8_t *port, uint16_t feature)
{
    switch (feature) {
    case GRIMHOLDI_PORT_ENABLE:
        if (port[STATE] >= DISABLED)
            go(port, DISABLED);
        break;
    case GRIMHOLDI_PORT_SUSPEND:
        if (port[STATE] == SUSPENDED)
            go(port, RESUMING);
        break;
    case GRIMHOLDI_PORT_POWER:
        go(port, POWERED_OFF);
        break;
    default: /* a change bit */
        port[MARKS] &= (uint8_t)~(1u << (feature
                                         - GRIMHOLDI_C_PORT_CONNECTION));
        break;
    }
}

static void port_status(const uint8_t *port, uint8_t bytes[4])
{
    uint16_t status = 0;

    if (port[STATE] >= DISCONNECTED)
        status |= GRIMHOLDI_STATUS_POWER;
    if (port[STATE] >= DISABLED) {
        status |= GRIMHOLDI_STATUS_CONNECTION;
        if (port[SPEED] == SPEED_LOW)
            status |= GRIMHOLDI_STATUS_LOW_SPEED;
        if (port[SPEED] == SPEED_HIGH)
            status |= GRIMHOLDI_STATUS_HIGH_SPEED;
    }
    if (is_enabled(port))
        status |= GRIMHOLDI_STATUS_ENABLE;
    if (port[STATE] >= SUSPENDED)
        status |= GRIMHOLDI_STATUS_SUSPEND;
    if (port[STATE] == RESETTING)
        status |= GRIMHOLDI_STATUS_RESET;
    if (port[MARKS] & OVER_CURRENT)
        status |= GRIMHOLDI_STATUS_OVER_CURRENT;
    bytes[0] = (uint8_t)status;
    bytes[1] = (uint8_t)(status >> 8);
    bytes[2] = port[MARKS] & CHANGES;
    bytes[3] = 0;
}

static uint8_t changes_of(const uint8_t *area, uint32_t port)
{
    return area[port_at(port) + MARKS] & CHANGES;
}

/* The status change bitmap. */
static uint8_t bitmap(const uint8_t *area)
{
    uint8_t bits = 0;
    uint32_t i;

    for (i = 1; i <= area[PORTS]; i++)
        if (changes_of(area, i) != 0)
            bits |= (uint8_t)(1u << i);
    return bits;
}

/* Whether the event can take place; over-current can in each state. */
static int event_suits(const uint8_t *port, uint32_t event)
{
    uint8_t state = port[STATE];

    switch (event) {
    case GRIMHOLDI_EVENT_ATTACH_LOW:
    case GRIMHOLDI_EVENT_ATTACH_FULL:
        return state == DISCONNECTED;
    case GRIMHOLDI_EVENT_DETACH:
        return state == DISABLED || state == ENABLED || state == SUSPENDED;
    case GRIMHOLDI_EVENT_CHIRP:
        return state == RESETTING && port[SPEED] == SPEED_FULL;
    case GRIMHOLDI_EVENT_WAKE:
        return state == SUSPENDED;
    case GRIMHOLDI_EVENT_PORT_ERROR:
        return state == ENABLED;
    default:
        return 1;
    }
}

/* The event suits the port. */
static void port_event(uint8_t *port, uint32_t event)
{
    switch (event) {
    case GRIMHOLDI_EVENT_ATTACH_LOW:
    case GRIMHOLDI_EVENT_ATTACH_FULL:
        go(port, DISABLED);
        port[SPEED] = event == GRIMHOLDI_EVENT_ATTACH_LOW ? SPEED_LOW
                                                          : SPEED_FULL;
        port[MARKS] |= GRIMHOLDI_CHANGE_CONNECTION;
        break;
    case GRIMHOLDI_EVENT_DETACH:
        go(port, DISCONNECTED);
        port[MARKS] |= GRIMHOLDI_CHANGE_CONNECTION;
        break;
    case GRIMHOLDI_EVENT_CHIRP:
        port[SPEED] = SPEED_HIGH;
        break;
    case GRIMHOLDI_EVENT_WAKE:
        go(port, RESUMING);
        break;
    case GRIMHOLDI_EVENT_PORT_ERROR:
        go(port, DISABLED);
        port[MARKS] |= GRIMHOLDI_CHANGE_ENABLE;
        break;
    case GRIMHOLDI_EVENT_OVER_CURRENT_ON:
        if (!(port[MARKS] & OVER_CURRENT)) {
            go(port, POWERED_OFF);
            port[MARKS] |= OVER_CURRENT | GRIMHOLDI_CHANGE_OVER_CURRENT;
        }
        break;
    case GRIMHOLDI_EVENT_OVER_CURRENT_OFF:
        if (port[MARKS] & OVER_CURRENT) {
            port[MARKS] &= (uint8_t)~OVER_CURRENT;
            port[MARKS] |= GRIMHOLDI_CHANGE_OVER_CURRENT;
        }
        break;
    }
}

static void port_tick(uint8_t *port)
{
    switch (port[STATE]) {
    case RESETTING:
        if (++port[TICKS] == GRIMHOLDI_RESET_TICKS) {
            go(port, ENABLED);
            port[MARKS] |= GRIMHOLDI_CHANGE_RESET;
        }
        break;
    case RESUMING:
        if (++port[TICKS] == GRIMHOLDI_RESUME_TICKS) {
            go(port, ENABLED);
            port[MARKS] |= GRIMHOLDI_CHANGE_SUSPEND;
        }
        break;
    }
}

/* Control requests. */

static void set_configuration(uint8_t *area, uint8_t value)
{
    uint32_t i;

    area[CONFIGURED] = value;
    for (i = 1; i <= area[PORTS]; i++) {
        uint8_t *port = area + port_at(i);

        go(port, value ? POWERED_OFF : NOT_CONFIGURED);
        if (!value)
            port[MARKS] &= CHANGES;
    }
    empty_translator(area);
}

/* Empties one buffer; a running transaction is abandoned with it. */
static void empty_buffer(uint8_t *area, uint32_t number)
{
    memset(area + buffer_at(area, number), 0, BUFFER_LENGTH);
    if (area[LOW_SIDE] == LOW_RUNNING && area[RUNNING_BUFFER] == number)
        set_low_side(area, LOW_ABANDONED, 0);
}

static void clear_tt_buffer(uint8_t *area, uint32_t lane, uint16_t value)
{
    uint32_t i = find(area, lane, value >> GRIMHOLDI_TT_ADDRESS_SHIFT & 0x7F,
                      value >> GRIMHOLDI_TT_ENDPOINT_SHIFT & 0x0F,
                      value >> GRIMHOLDI_TT_DIRECTION_SHIFT);

    if (i < area[BUFFERS])
        empty_buffer(area, i);
}

static void reset_tt(uint8_t *area, uint32_t lane)
{
    uint32_t i;

    for (i = 0; i < area[BUFFERS]; i++) {
        const uint8_t *buffer = area + buffer_at(area, i);

        if (buffer[STATUS] != EMPTY && lane_of(buffer) == lane)
            empty_buffer(area, i);
    }
}

static int tt_value_ok(uint16_t value)
{
    uint16_t transfer = value >> GRIMHOLDI_TT_TRANSFER_SHIFT & 3;

    return (value & 0x6000) == 0
           && (transfer == GRIMHOLDI_TRANSFER_CONTROL
               || transfer == GRIMHOLDI_TRANSFER_BULK);
}

static int clearable(uint16_t feature)
{
    return feature == GRIMHOLDI_PORT_ENABLE
           || feature == GRIMHOLDI_PORT_SUSPEND
           || feature == GRIMHOLDI_PORT_POWER
           || (feature >= GRIMHOLDI_C_PORT_CONNECTION
               && feature <= GRIMHOLDI_C_PORT_RESET);
}

static int settable(uint16_t feature)
{
    return feature == GRIMHOLDI_PORT_SUSPEND || feature == GRIMHOLDI_PORT_RESET
           || feature == GRIMHOLDI_PORT_POWER;
}

#define REQUEST(type, code) ((uint16_t)((type) << 8 | (code)))

enum { /* type and code */
    SET_CONFIGURATION = REQUEST(GRIMHOLDI_TYPE_SET_CONFIGURATION,
                                GRIMHOLDI_REQUEST_SET_CONFIGURATION),
    GET_CONFIGURATION = REQUEST(GRIMHOLDI_TYPE_GET_CONFIGURATION,
                                GRIMHOLDI_REQUEST_GET_CONFIGURATION),
    GET_HUB_DESCRIPTOR = REQUEST(GRIMHOLDI_TYPE_GET_HUB,
                                 GRIMHOLDI_REQUEST_GET_DESCRIPTOR),
    GET_HUB_STATUS = REQUEST(GRIMHOLDI_TYPE_GET_HUB,
                             GRIMHOLDI_REQUEST_GET_STATUS),
    GET_PORT_STATUS = REQUEST(GRIMHOLDI_TYPE_GET_PORT,
                              GRIMHOLDI_REQUEST_GET_STATUS),
    CLEAR_HUB_FEATURE = REQUEST(GRIMHOLDI_TYPE_SET_HUB,
                                GRIMHOLDI_REQUEST_CLEAR_FEATURE),
    CLEAR_PORT_FEATURE = REQUEST(GRIMHOLDI_TYPE_SET_PORT,
                                 GRIMHOLDI_REQUEST_CLEAR_FEATURE),
    SET_PORT_FEATURE = REQUEST(GRIMHOLDI_TYPE_SET_PORT,
                               GRIMHOLDI_REQUEST_SET_FEATURE),
    CLEAR_TT_BUFFER = REQUEST(GRIMHOLDI_TYPE_SET_PORT,
                              GRIMHOLDI_REQUEST_CLEAR_TT_BUFFER),
    RESET_TT = REQUEST(GRIMHOLDI_TYPE_SET_PORT, GRIMHOLDI_REQUEST_RESET_TT)
};

typedef struct {
    uint16_t request, value, index, length;
} packet;

static packet packet_of(const uint8_t *setup)
{
    packet p;

    p.request = REQUEST(setup[0], setup[1]);
    p.value = (uint16_t)(setup[2] | setup[3] << 8);
    p.index = (uint16_t)(setup[4] | setup[5] << 8);
    p.length = (uint16_t)(setup[6] | setup[7] << 8);
    return p;
}

enum { NOTHING_WRONG = GRIMHOLDI_WRONG_LENGTH + 1 };

static uint8_t fields(int value_ok, int index_ok, int length_ok)
{
    if (!value_ok)
        return GRIMHOLDI_WRONG_VALUE;
    if (!index_ok)
        return GRIMHOLDI_WRONG_INDEX;
    return length_ok ? NOTHING_WRONG : GRIMHOLDI_WRONG_LENGTH;
}

/* The first thing that is wrong with a request to a configured hub. */
static uint8_t wrong_configured(const uint8_t *area, packet p)
{
    const int port_named = p.index >= 1 && p.index <= area[PORTS];

    switch (p.request) {
    case SET_CONFIGURATION:
        return fields(p.value <= 1, p.index == 0, p.length == 0);
    case GET_CONFIGURATION:
        return fields(p.value == 0, p.index == 0, p.length == 1);
    case GET_HUB_DESCRIPTOR:
        return fields(p.value == GRIMHOLDI_HUB_DESCRIPTOR, p.index == 0, 1);
    case GET_HUB_STATUS:
        return fields(p.value == 0, p.index == 0, p.length == 4);
    case GET_PORT_STATUS:
        return fields(p.value == 0, port_named, p.length == 4);
    case CLEAR_HUB_FEATURE:
        return fields(p.value <= GRIMHOLDI_C_HUB_OVER_CURRENT, p.index == 0,
                      p.length == 0);
    case CLEAR_PORT_FEATURE:
        return fields(clearable(p.value), port_named, p.length == 0);
    case SET_PORT_FEATURE:
        return fields(settable(p.value), port_named, p.length == 0);
    case CLEAR_TT_BUFFER:
        return fields(tt_value_ok(p.value), p.index == 1, p.length == 0);
    case RESET_TT:
        return fields(p.value == 0, p.index == 1, p.length == 0);
    default:
        return GRIMHOLDI_WRONG_TYPE_OR_CODE;
    }
}

static int served_unconfigured(uint16_t request)
{
    return request == SET_CONFIGURATION || request == GET_CONFIGURATION
           || request == GET_HUB_DESCRIPTOR;
}

/* The first thing that is wrong with a request. */
static uint8_t wrong(const uint8_t *area, packet p)
{
    uint8_t what = wrong_configured(area, p);

    if (what != GRIMHOLDI_WRONG_TYPE_OR_CODE && !area[CONFIGURED]
        && !served_unconfigured(p.request))
        return GRIMHOLDI_WRONG_UNCONFIGURED;
    return what;
}

static grimholdi_answer hub_descriptor(const uint8_t *area, uint16_t length,
                                       uint8_t *reply)
{
    const uint8_t bytes[GRIMHOLDI_HUB_DESCRIPTOR_LENGTH] = {
        GRIMHOLDI_HUB_DESCRIPTOR_LENGTH, GRIMHOLDI_HUB_DESCRIPTOR >> 8,
        area[PORTS], 0x09, 0x00, area[POWER_GOOD], area[CURRENT],
        area[REMOVABLE], 0xFF
    };

    return data(reply, bytes,
                length < sizeof bytes ? (uint8_t)length : sizeof bytes);
}

/* Nothing is wrong with the request. */
static grimholdi_answer serve(uint8_t *area, uint32_t lane, packet p,
                              uint8_t *reply)
{
    uint8_t bytes[4] = {0};

    switch (p.request) {
    case SET_CONFIGURATION:
        set_configuration(area, (uint8_t)p.value);
        break;
    case GET_CONFIGURATION:
        return data(reply, &area[CONFIGURED], 1);
    case GET_HUB_DESCRIPTOR:
        return hub_descriptor(area, p.length, reply);
    case GET_HUB_STATUS:
        return data(reply, bytes, sizeof bytes);
    case GET_PORT_STATUS:
        port_status(area + port_at(p.index), bytes);
        return data(reply, bytes, sizeof bytes);
    case CLEAR_PORT_FEATURE:
        clear_port_feature(area + port_at(p.index), p.value);
        break;
    case SET_PORT_FEATURE:
        set_port_feature(area + port_at(p.index), p.value);
        break;
    case CLEAR_TT_BUFFER:
        clear_tt_buffer(area, lane, p.value);
        break;
    case RESET_TT:
        reset_tt(area, lane);
        break;
    }
    return answer(GRIMHOLDI_ANSWER_DONE);
}

/* Order of acceptance. */

/* How many pending buffers have a smaller place. */
static uint8_t rank(const uint8_t *area, uint8_t place)
{
    uint8_t smaller = 0;
    uint32_t i;

    for (i = 0; i < area[BUFFERS]; i++) {
        const uint8_t *buffer = area + buffer_at(area, i);

        if (buffer[STATUS] == PENDING && buffer[PLACE] < place)
            smaller++;
    }
    return smaller;
}

/* Gives each pending buffer its rank as place; returns their number. */
static uint8_t renumber(uint8_t *area)
{
    uint8_t ranks[GRIMHOLDI_BUFFERS_MAX];
    uint8_t pending = 0;
    uint32_t i;

    for (i = 0; i < area[BUFFERS]; i++)
        ranks[i] = rank(area, area[buffer_at(area, i) + PLACE]);
    for (i = 0; i < area[BUFFERS]; i++) {
        uint8_t *buffer = area + buffer_at(area, i);

        if (buffer[STATUS] == PENDING) {
            buffer[PLACE] = ranks[i];
            pending++;
        }
    }
    return pending;
}

/* The pending buffer with the smallest place, or the number of buffers. */
static uint32_t earliest(const uint8_t *area)
{
    uint32_t best = area[BUFFERS];
    uint32_t i;

    for (i = 0; i < area[BUFFERS]; i++) {
        const uint8_t *buffer = area + buffer_at(area, i);

        if (buffer[STATUS] == PENDING
            && (best == area[BUFFERS]
                || buffer[PLACE] < area[buffer_at(area, best) + PLACE]))
            best = i;
    }
    return best;
}

/* The choice of a start-split. */

typedef struct {
    uint8_t kind;   /* HELD to NO_ROOM, as a reason has it */
    uint8_t buffer; /* the one it names, or 0 */
} choice;

static choice chosen(uint8_t kind, uint32_t buffer)
{
    choice c;

    c.kind = kind;
    c.buffer = (uint8_t)buffer;
    return c;
}

/*
 * Looks at each buffer at most once, in rising number.  A repeat comes before
 * the limit, the limit before the own old buffer; nothing behind a repeat
 * counts.
 */
static inline choice choose(const uint8_t *area, uint32_t lane,
                            uint32_t address, uint32_t endpoint,
                            uint32_t direction)
{
    const uint32_t none = area[BUFFERS];
    uint32_t own_old = none;     /* the old one with the key */
    uint32_t lowest_free = none; /* the first that is empty or old */
    uint32_t held = 0;           /* how many the lane holds */
    uint32_t i;

    for (i = 0; i < area[BUFFERS]; i++) {
        const uint8_t *buffer = area + buffer_at(area, i);
        int is_own = has_key(buffer, lane, address, endpoint, direction);

        if (is_held(buffer)) {
            if (is_own)
                return chosen(GRIMHOLDI_WHY_HELD, i);
            held += lane_of(buffer) == lane;
            continue;
        }
        if (is_own)
            own_old = i;
        if (lowest_free == none)
            lowest_free = i;
    }
    if (held == limit(area))
        return chosen(GRIMHOLDI_WHY_LIMIT, 0);
    if (own_old != none)
        return chosen(GRIMHOLDI_WHY_REUSED, own_old);
    if (lowest_free != none)
        return chosen(GRIMHOLDI_WHY_TOOK_FREE, lowest_free);
    return chosen(GRIMHOLDI_WHY_NO_ROOM, 0);
}

/*
 * Which of 5 to 8 each call is answered, or 0 for another answer.  Inline, as
 * the choice is: both the call and its explanation ask.
 */

static inline uint8_t area_refusal(const uint8_t *area, size_t area_len)
{
    return area_ok(area, area_len) ? 0 : GRIMHOLDI_ANSWER_OUTSIDE;
}

static inline uint8_t control_refusal(const uint8_t *area, size_t area_len,
                                      uint32_t lane, size_t setup_len,
                                      size_t reply_len)
{
    if (!area_ok(area, area_len) || !lane_ok(lane)
        || setup_len != GRIMHOLDI_SETUP_LENGTH)
        return GRIMHOLDI_ANSWER_OUTSIDE;
    return reply_len < GRIMHOLDI_REPLY_LENGTH ? GRIMHOLDI_ANSWER_NO_SPACE : 0;
}

static inline uint8_t poll_refusal(const uint8_t *area, size_t area_len,
                                   uint32_t lane, size_t reply_len)
{
    if (!area_ok(area, area_len) || !lane_ok(lane))
        return GRIMHOLDI_ANSWER_OUTSIDE;
    if (reply_len < GRIMHOLDI_REPLY_LENGTH)
        return GRIMHOLDI_ANSWER_NO_SPACE;
    return area[CONFIGURED] ? 0 : GRIMHOLDI_ANSWER_SILENT;
}

static inline uint8_t start_split_refusal(const uint8_t *area,
                                          size_t area_len, uint32_t lane,
                                          uint32_t pid, uint32_t transfer,
                                          uint32_t low_speed, uint32_t toggle,
                                          uint32_t address, uint32_t endpoint,
                                          size_t payload_len)
{
    if (!area_ok(area, area_len) || !lane_ok(lane) || !token_ok(pid, transfer)
        || low_speed > 1 || toggle > 1 || !target_ok(address, endpoint)
        || !start_length_ok(pid, payload_len))
        return GRIMHOLDI_ANSWER_OUTSIDE;
    return area[CONFIGURED] ? 0 : GRIMHOLDI_ANSWER_SILENT;
}

static inline uint8_t complete_split_refusal(const uint8_t *area,
                                             size_t area_len, uint32_t lane,
                                             uint32_t address,
                                             uint32_t endpoint,
                                             uint32_t direction,
                                             size_t reply_len)
{
    if (!area_ok(area, area_len) || !lane_ok(lane)
        || !target_ok(address, endpoint)
        || direction > GRIMHOLDI_DIRECTION_IN)
        return GRIMHOLDI_ANSWER_OUTSIDE;
    if (reply_len < GRIMHOLDI_REPLY_LENGTH)
        return GRIMHOLDI_ANSWER_NO_SPACE;
    return area[CONFIGURED] ? 0 : GRIMHOLDI_ANSWER_SILENT;
}

static inline uint8_t launch_refusal(const uint8_t *area, size_t area_len,
                                     size_t reply_len)
{
    if (!area_ok(area, area_len))
        return GRIMHOLDI_ANSWER_OUTSIDE;
    if (reply_len < GRIMHOLDI_REPLY_LENGTH)
        return GRIMHOLDI_ANSWER_NO_SPACE;
    if (!area[CONFIGURED])
        return GRIMHOLDI_ANSWER_SILENT;
    return area[LOW_SIDE] == LOW_IDLE ? 0 : GRIMHOLDI_ANSWER_NOT_NOW;
}

/* An abandoned transaction takes any result. */
static inline uint8_t deliver_refusal(const uint8_t *area, size_t area_len,
                                      uint32_t result, size_t payload_len)
{
    if (!area_ok(area, area_len) || !result_ok(result, payload_len))
        return GRIMHOLDI_ANSWER_OUTSIDE;
    if (!area[CONFIGURED])
        return GRIMHOLDI_ANSWER_SILENT;
    if (area[LOW_SIDE] == LOW_IDLE)
        return GRIMHOLDI_ANSWER_NOT_NOW;
    if (area[LOW_SIDE] == LOW_RUNNING
        && !result_suits(area[buffer_at(area, area[RUNNING_BUFFER]) + PID],
                         result))
        return GRIMHOLDI_ANSWER_NOT_NOW;
    return 0;
}

static inline uint8_t line_event_refusal(const uint8_t *area, size_t area_len,
                                         uint32_t event, uint32_t port)
{
    if (!area_ok(area, area_len) || event > GRIMHOLDI_EVENT_OVER_CURRENT_OFF
        || port == 0 || port > area[PORTS])
        return GRIMHOLDI_ANSWER_OUTSIDE;
    if (!area[CONFIGURED] || !event_suits(area + port_at(port), event))
        return GRIMHOLDI_ANSWER_NOT_NOW;
    return 0;
}

/* The calls. */

uint32_t INPLACE(version)(void)
{
    return GRIMHOLDI_VERSION_NUMBER;
}

size_t INPLACE(area_length)(uint32_t ports, uint32_t buffers)
{
    if (ports < GRIMHOLDI_PORTS_MIN || ports > GRIMHOLDI_PORTS_MAX
        || buffers < GRIMHOLDI_BUFFERS_MIN || buffers > GRIMHOLDI_BUFFERS_MAX)
        return 0;
    return HEADER_LENGTH + PORT_LENGTH * ports + BUFFER_LENGTH * buffers;
}

grimholdi_answer INPLACE(new)(uint8_t *area, size_t area_len,
                              uint32_t ports, uint32_t buffers,
                              uint32_t power_good, uint32_t current,
                              uint32_t removable)
{
    size_t length = INPLACE(area_length)(ports, buffers);

    if (length == 0 || area_len != length || power_good > 255 || current > 255
        || !removable_ok(ports, removable))
        return answer(GRIMHOLDI_ANSWER_OUTSIDE);
    memset(area, 0, area_len);
    area[PORTS] = (uint8_t)ports;
    area[BUFFERS] = (uint8_t)buffers;
    area[POWER_GOOD] = (uint8_t)power_good;
    area[CURRENT] = (uint8_t)current;
    area[REMOVABLE] = (uint8_t)removable;
    return answer(GRIMHOLDI_ANSWER_DONE);
}

grimholdi_answer INPLACE(control)(uint8_t *area, size_t area_len,
                                  uint32_t lane,
                                  const uint8_t *setup, size_t setup_len,
                                  uint8_t *reply, size_t reply_len)
{
    uint8_t refusal = control_refusal(area, area_len, lane, setup_len,
                                      reply_len);
    packet p;

    if (refusal != 0)
        return answer(refusal);
    p = packet_of(setup);
    if (wrong(area, p) != NOTHING_WRONG)
        return answer(GRIMHOLDI_ANSWER_STALL);
    return serve(area, lane, p, reply);
}

grimholdi_answer INPLACE(poll)(const uint8_t *area, size_t area_len,
                               uint32_t lane,
                               uint8_t *reply, size_t reply_len)
{
    uint8_t refusal = poll_refusal(area, area_len, lane, reply_len);
    uint8_t bytes[1];

    if (refusal != 0)
        return answer(refusal);
    bytes[0] = bitmap(area);
    if (bytes[0] == 0)
        return answer(GRIMHOLDI_ANSWER_NAK);
    return data(reply, bytes, sizeof bytes);
}

grimholdi_answer INPLACE(start_split)(uint8_t *area, size_t area_len,
                                      uint32_t lane,
                                      uint32_t pid, uint32_t transfer,
                                      uint32_t low_speed, uint32_t toggle,
                                      uint32_t address, uint32_t endpoint,
                                      const uint8_t *payload,
                                      size_t payload_len)
{
    uint8_t refusal = start_split_refusal(area, area_len, lane, pid, transfer,
                                          low_speed, toggle, address, endpoint,
                                          payload_len);
    choice c;
    uint8_t *buffer;

    if (refusal != 0)
        return answer(refusal);
    c = choose(area, lane, address, endpoint, direction_of(pid));
    if (c.kind == GRIMHOLDI_WHY_HELD)
        return answer(GRIMHOLDI_ANSWER_DONE);
    if (c.kind == GRIMHOLDI_WHY_LIMIT || c.kind == GRIMHOLDI_WHY_NO_ROOM)
        return answer(GRIMHOLDI_ANSWER_NAK);

    buffer = area + buffer_at(area, c.buffer);
    buffer[PLACE] = renumber(area);
    buffer[STATUS] = PENDING;
    buffer[PID] = (uint8_t)pid;
    buffer[TRANSFER] = (uint8_t)transfer;
    buffer[FLAGS] = (uint8_t)((low_speed ? FLAG_LOW_SPEED : 0)
                              | (toggle ? FLAG_TOGGLE : 0)
                              | (lane ? FLAG_LANE : 0));
    buffer[ADDRESS] = (uint8_t)address;
    buffer[ENDPOINT] = (uint8_t)endpoint;
    set_bytes(buffer, payload, payload_len);
    return answer(GRIMHOLDI_ANSWER_DONE);
}

grimholdi_answer INPLACE(complete_split)(uint8_t *area, size_t area_len,
                                         uint32_t lane,
                                         uint32_t address, uint32_t endpoint,
                                         uint32_t direction,
                                         uint8_t *reply, size_t reply_len)
{
    uint8_t refusal = complete_split_refusal(area, area_len, lane, address,
                                             endpoint, direction, reply_len);
    grimholdi_answer a;
    uint8_t *buffer;
    uint32_t i;

    if (refusal != 0)
        return answer(refusal);
    i = find(area, lane, address, endpoint, direction);
    if (i == area[BUFFERS])
        return answer(GRIMHOLDI_ANSWER_STALL);
    buffer = area + buffer_at(area, i);
    if (buffer[STATUS] == PENDING)
        return answer(GRIMHOLDI_ANSWER_NYET);
    buffer[STATUS] = OLD;
    if (is_data(buffer[RESULT]))
        a = data(reply, buffer + BYTES, buffer[LENGTH]);
    else
        a = answer(GRIMHOLDI_ANSWER_HANDSHAKE);
    a.pid = buffer[RESULT] == GRIMHOLDI_RESULT_FAILURE ? GRIMHOLDI_RESULT_STALL
                                                       : buffer[RESULT];
    return a;
}

grimholdi_answer INPLACE(launch)(uint8_t *area, size_t area_len,
                                 uint8_t *reply, size_t reply_len)
{
    uint8_t refusal = launch_refusal(area, area_len, reply_len);
    grimholdi_answer a;
    const uint8_t *buffer;
    uint32_t i;

    if (refusal != 0)
        return answer(refusal);
    i = earliest(area);
    if (i == area[BUFFERS])
        return answer(GRIMHOLDI_ANSWER_NAK);
    set_low_side(area, LOW_RUNNING, (uint8_t)i);
    buffer = area + buffer_at(area, i);
    a = data(reply, buffer + BYTES, buffer[LENGTH]);
    a.pid = buffer[PID];
    a.transfer = buffer[TRANSFER];
    a.lane = lane_of(buffer);
    a.address = buffer[ADDRESS];
    a.endpoint = buffer[ENDPOINT];
    a.direction = direction_of(buffer[PID]);
    a.low_speed = (buffer[FLAGS] & FLAG_LOW_SPEED) != 0;
    a.toggle = (buffer[FLAGS] & FLAG_TOGGLE) != 0;
    return a;
}

grimholdi_answer INPLACE(deliver)(uint8_t *area, size_t area_len,
                                  uint32_t result,
                                  const uint8_t *payload, size_t payload_len)
{
    uint8_t refusal = deliver_refusal(area, area_len, result, payload_len);

    if (refusal != 0)
        return answer(refusal);
    if (area[LOW_SIDE] == LOW_RUNNING) {
        uint8_t *buffer = area + buffer_at(area, area[RUNNING_BUFFER]);

        buffer[STATUS] = READY;
        buffer[RESULT] = (uint8_t)result;
        set_bytes(buffer, payload, payload_len);
    }
    set_low_side(area, LOW_IDLE, 0);
    return answer(GRIMHOLDI_ANSWER_DONE);
}

grimholdi_answer INPLACE(line_event)(uint8_t *area, size_t area_len,
                                     uint32_t event, uint32_t port)
{
    uint8_t refusal = line_event_refusal(area, area_len, event, port);

    if (refusal != 0)
        return answer(refusal);
    port_event(area + port_at(port), event);
    return answer(GRIMHOLDI_ANSWER_DONE);
}

grimholdi_answer INPLACE(tick)(uint8_t *area, size_t area_len)
{
    uint8_t refusal = area_refusal(area, area_len);
    uint32_t i;

    if (refusal != 0)
        return answer(refusal);
    for (i = 1; i <= area[PORTS]; i++)
        port_tick(area + port_at(i));
    return answer(GRIMHOLDI_ANSWER_DONE);
}

grimholdi_answer INPLACE(bus_reset)(uint8_t *area, size_t area_len)
{
    uint8_t refusal = area_refusal(area, area_len);

    if (refusal != 0)
        return answer(refusal);
    memset(area + CONFIGURED, 0, area_len - CONFIGURED);
    return answer(GRIMHOLDI_ANSWER_DONE);
}

/* The explained calls. */

static grimholdi_reason reason(uint8_t kind, uint8_t value)
{
    grimholdi_reason r = {0};

    r.kind = kind;
    r.value = value;
    return r;
}

/* The number that a call is answered, or no reason. */
static grimholdi_reason refusal_reason(uint8_t refusal)
{
    return reason(refusal != 0 ? GRIMHOLDI_WHY_NUMBER : GRIMHOLDI_WHY_NONE,
                  refusal);
}

grimholdi_reason INPLACE(why_control)(const uint8_t *area, size_t area_len,
                                      uint32_t lane, const uint8_t *setup,
                                      size_t setup_len, size_t reply_len)
{
    uint8_t refusal = control_refusal(area, area_len, lane, setup_len,
                                      reply_len);
    uint8_t what;

    if (refusal != 0)
        return refusal_reason(refusal);
    what = wrong(area, packet_of(setup));
    if (what == NOTHING_WRONG)
        return reason(GRIMHOLDI_WHY_NONE, 0);
    return reason(GRIMHOLDI_WHY_WRONG, what);
}

grimholdi_reason INPLACE(why_poll)(const uint8_t *area, size_t area_len,
                                   uint32_t lane, size_t reply_len)
{
    uint8_t refusal = poll_refusal(area, area_len, lane, reply_len);
    grimholdi_reason r;
    uint32_t i;

    if (refusal != 0 || bitmap(area) == 0)
        return refusal_reason(refusal);
    r = reason(GRIMHOLDI_WHY_CHANGES, 0);
    for (i = 1; i <= area[PORTS]; i++)
        r.changes[i - 1] = changes_of(area, i);
    return r;
}

grimholdi_reason INPLACE(why_start_split)(const uint8_t *area, size_t area_len,
                                          uint32_t lane, uint32_t pid,
                                          uint32_t transfer,
                                          uint32_t low_speed, uint32_t toggle,
                                          uint32_t address, uint32_t endpoint,
                                          const uint8_t *payload,
                                          size_t payload_len)
{
    uint8_t refusal = start_split_refusal(area, area_len, lane, pid, transfer,
                                          low_speed, toggle, address, endpoint,
                                          payload_len);
    choice c;

    (void)payload;
    if (refusal != 0)
        return refusal_reason(refusal);
    c = choose(area, lane, address, endpoint, direction_of(pid));
    return reason(c.kind, c.buffer);
}

grimholdi_reason INPLACE(why_complete_split)(const uint8_t *area,
                                             size_t area_len, uint32_t lane,
                                             uint32_t address,
                                             uint32_t endpoint,
                                             uint32_t direction,
                                             size_t reply_len)
{
    return refusal_reason(complete_split_refusal(area, area_len, lane, address,
                                                 endpoint, direction,
                                                 reply_len));
}

grimholdi_reason INPLACE(why_launch)(const uint8_t *area, size_t area_len,
                                     size_t reply_len)
{
    return refusal_reason(launch_refusal(area, area_len, reply_len));
}

grimholdi_reason INPLACE(why_deliver)(const uint8_t *area, size_t area_len,
                                      uint32_t result, const uint8_t *payload,
                                      size_t payload_len)
{
    (void)payload;
    return refusal_reason(deliver_refusal(area, area_len, result,
                                          payload_len));
}

grimholdi_reason INPLACE(why_line_event)(const uint8_t *area, size_t area_len,
                                         uint32_t event, uint32_t port)
{
    return refusal_reason(line_event_refusal(area, area_len, event, port));
}

grimholdi_reason INPLACE(why_tick)(const uint8_t *area, size_t area_len)
{
    return refusal_reason(area_refusal(area, area_len));
}

grimholdi_reason INPLACE(why_bus_reset)(const uint8_t *area, size_t area_len)
{
    return refusal_reason(area_refusal(area, area_len));
}
