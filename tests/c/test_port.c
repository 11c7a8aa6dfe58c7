/*
 * grimholdi_port.h: each port of several hubs is walked by calls through every
 * state and speed, beside neighbours that stand still.  States and speeds are
 * those that document 01's rules give.
 */

#include "bench_hub.h"
#include "grimholdi_port.h"

/* Numbers as in docs/AREA.md; 255 is the header's own. */

enum {
    NOT_CONFIGURED, POWERED_OFF, DISCONNECTED, DISABLED, RESETTING, ENABLED,
    SUSPENDED, RESUMING,
    STATES,
    NO_STATE = 255
};

enum { LOW, FULL, HIGH, SPEEDS, NO_SPEED = 255 };

typedef enum { SET, CLEAR, EVENT, TICKS, CONFIGURE, BUS_RESET } step_kind;

/* A call, and what the port that it is for is then. */
typedef struct {
    step_kind kind;
    uint32_t number; /* feature, event, ticks or configuration */
    uint8_t state;
    uint8_t speed;
} step;

#define POWER      {SET, GRIMHOLDI_PORT_POWER, DISCONNECTED, NO_SPEED}
#define PLUG_LOW   {EVENT, GRIMHOLDI_EVENT_ATTACH_LOW, DISABLED, LOW}
#define PLUG_FULL  {EVENT, GRIMHOLDI_EVENT_ATTACH_FULL, DISABLED, FULL}

/* Of a configured hub. */
static const step walk[] = {
    POWER,
    PLUG_LOW,
    {SET, GRIMHOLDI_PORT_RESET, RESETTING, LOW},
    {TICKS, 14, RESETTING, LOW},
    {TICKS, 1, ENABLED, LOW},
    {SET, GRIMHOLDI_PORT_SUSPEND, SUSPENDED, LOW},
    {CLEAR, GRIMHOLDI_PORT_SUSPEND, RESUMING, LOW},
    {TICKS, 21, RESUMING, LOW},
    {TICKS, 1, ENABLED, LOW},
    {EVENT, GRIMHOLDI_EVENT_DETACH, DISCONNECTED, NO_SPEED},
    PLUG_FULL,
    {SET, GRIMHOLDI_PORT_RESET, RESETTING, FULL},
    {TICKS, 15, ENABLED, FULL},
    {SET, GRIMHOLDI_PORT_SUSPEND, SUSPENDED, FULL},
    {EVENT, GRIMHOLDI_EVENT_WAKE, RESUMING, FULL},
    {TICKS, 22, ENABLED, FULL},
    {SET, GRIMHOLDI_PORT_RESET, RESETTING, FULL},
    {EVENT, GRIMHOLDI_EVENT_CHIRP, RESETTING, HIGH},
    {TICKS, 15, ENABLED, HIGH},
    {SET, GRIMHOLDI_PORT_SUSPEND, SUSPENDED, HIGH},
    {CLEAR, GRIMHOLDI_PORT_SUSPEND, RESUMING, HIGH},
    {TICKS, 22, ENABLED, HIGH},
    {EVENT, GRIMHOLDI_EVENT_PORT_ERROR, DISABLED, HIGH},
    {SET, GRIMHOLDI_PORT_RESET, RESETTING, FULL},
    {TICKS, 15, ENABLED, FULL},
    {CLEAR, GRIMHOLDI_PORT_ENABLE, DISABLED, FULL},
    {EVENT, GRIMHOLDI_EVENT_OVER_CURRENT_ON, POWERED_OFF, NO_SPEED},
    {SET, GRIMHOLDI_PORT_POWER, POWERED_OFF, NO_SPEED},
    {EVENT, GRIMHOLDI_EVENT_OVER_CURRENT_OFF, POWERED_OFF, NO_SPEED},
    POWER,
    PLUG_FULL,
    {CLEAR, GRIMHOLDI_PORT_POWER, POWERED_OFF, NO_SPEED}
};

/* Of all ports alike. */
static const step whole_hub[] = {
    {CONFIGURE, 1, POWERED_OFF, NO_SPEED},
    {CONFIGURE, 0, NOT_CONFIGURED, NO_SPEED},
    {CONFIGURE, 1, POWERED_OFF, NO_SPEED},
    {BUS_RESET, 0, NOT_CONFIGURED, NO_SPEED}
};

/* To states that a tick leaves alone. */

static const step to_disabled_low[] = {POWER, PLUG_LOW};

static const step to_enabled_full[] = {
    POWER, PLUG_FULL,
    {SET, GRIMHOLDI_PORT_RESET, RESETTING, FULL},
    {TICKS, 15, ENABLED, FULL}
};

static const step to_suspended_high[] = {
    POWER, PLUG_FULL,
    {SET, GRIMHOLDI_PORT_RESET, RESETTING, FULL},
    {EVENT, GRIMHOLDI_EVENT_CHIRP, RESETTING, HIGH},
    {TICKS, 15, ENABLED, HIGH},
    {SET, GRIMHOLDI_PORT_SUSPEND, SUSPENDED, HIGH}
};

#define COUNT(steps) (sizeof (steps) / sizeof *(steps))

/* What each port is to be, port 1 first. */
static uint8_t due_state[GRIMHOLDI_PORTS_MAX];
static uint8_t due_speed[GRIMHOLDI_PORTS_MAX];

/* What each port was; the last column is without a speed. */
static int met[GRIMHOLDI_PORTS_MAX][STATES][SPEEDS + 1];

static void set_due(uint32_t port, uint8_t state, uint8_t speed)
{
    due_state[port - 1] = state;
    due_speed[port - 1] = speed;
}

static void set_all_due(uint8_t state)
{
    uint32_t port;

    for (port = 1; port <= area[0]; port++)
        set_due(port, state, NO_SPEED);
}

static void check_ports(void)
{
    uint32_t i;

    for (i = 0; i < area[0]; i++) {
        CHECK(grimholdi_port_state(area, area_len, i + 1) == due_state[i]);
        CHECK(grimholdi_port_speed(area, area_len, i + 1) == due_speed[i]);
        met[i][due_state[i]][due_speed[i] == NO_SPEED ? SPEEDS
                                                      : due_speed[i]] = 1;
    }
}

static void make_step(uint16_t port, const step *made)
{
    const uint16_t number = (uint16_t)made->number;
    uint8_t answer = GRIMHOLDI_ANSWER_DONE;

    switch (made->kind) {
    case SET:
        answer = set_feature(number, port);
        break;
    case CLEAR:
        answer = clear_feature(number, port);
        break;
    case EVENT:
        answer = event(number, port);
        break;
    case TICKS:
        ticks(number);
        break;
    case CONFIGURE:
        answer = set_configuration(number);
        break;
    case BUS_RESET:
        answer = bus_reset();
        break;
    }
    CHECK(answer == GRIMHOLDI_ANSWER_DONE);
    set_due(port, made->state, made->speed);
}

static void make_steps(uint16_t port, const step *steps, size_t count)
{
    size_t i;

    for (i = 0; i < count; i++)
        make_step(port, &steps[i]);
}

static void place_neighbour(uint16_t port, uint32_t choice)
{
    switch (choice % 5) {
    case 0: /* Powered-off */
        break;
    case 1: /* Disconnected */
        make_steps(port, walk, 1);
        break;
    case 2:
        make_steps(port, to_disabled_low, COUNT(to_disabled_low));
        break;
    case 3:
        make_steps(port, to_enabled_full, COUNT(to_enabled_full));
        break;
    default:
        make_steps(port, to_suspended_high, COUNT(to_suspended_high));
        break;
    }
}

static void walk_port(uint16_t port, uint32_t choice)
{
    size_t i;

    set_all_due(NOT_CONFIGURED);
    check_ports();
    CHECK(set_configuration(1) == GRIMHOLDI_ANSWER_DONE);
    set_all_due(POWERED_OFF);
    for (i = 1; i <= area[0]; i++)
        if (i != port)
            place_neighbour((uint16_t)i, (uint32_t)i + choice);
    check_ports();
    for (i = 0; i < COUNT(walk); i++) {
        make_step(port, &walk[i]);
        check_ports();
    }
    for (i = 0; i < COUNT(whole_hub); i++) {
        make_step(port, &whole_hub[i]);
        set_all_due(whole_hub[i].state);
        check_ports();
    }
}

static void every_walk(void)
{
    static const uint32_t sizes[][2] = {{1, 2}, {4, 3}, {7, 4}};
    uint32_t choice;
    uint16_t port;
    size_t i;

    for (i = 0; i < COUNT(sizes); i++)
        for (port = 1; port <= sizes[i][0]; port++)
            for (choice = 0; choice < 5; choice++) {
                new_hub(sizes[i][0], sizes[i][1]);
                walk_port(port, choice);
            }
}

/* Each port was in each state, with a device at each speed. */
static void all_met(void)
{
    int port, state, speed;

    for (port = 0; port < GRIMHOLDI_PORTS_MAX; port++)
        for (state = 0; state < STATES; state++)
            for (speed = 0; speed <= SPEEDS; speed++)
                CHECK(met[port][state][speed]
                      == ((state < DISABLED) == (speed == SPEEDS)));
}

/* What the header is for: GetPortStatus doesn't tell these two apart. */
static void suspended_and_resuming(void)
{
    configured_hub(2, 2);
    make_steps(2, to_suspended_high, COUNT(to_suspended_high));
    CHECK(status_is(2, "\x07\x05\x11\x00"));
    CHECK(grimholdi_port_state(area, area_len, 2) == SUSPENDED);
    CHECK(clear_feature(GRIMHOLDI_PORT_SUSPEND, 2) == GRIMHOLDI_ANSWER_DONE);
    CHECK(status_is(2, "\x07\x05\x11\x00"));
    CHECK(grimholdi_port_state(area, area_len, 2) == RESUMING);
}

/* Port 4 of 4 is Suspended at high speed, the others are Powered-off. */
static void last_port_suspended(void)
{
    configured_hub(4, 2);
    make_steps(4, to_suspended_high, COUNT(to_suspended_high));
}

static int is_no_port(const uint8_t *bytes, size_t length, uint32_t port)
{
    return grimholdi_port_state(bytes, length, port) == NO_STATE
           && grimholdi_port_speed(bytes, length, port) == NO_SPEED;
}

/* Some of these are 4 if they, or four times them, are cut. */
static void bad_ports(void)
{
    static const uint32_t bad[] = {
        0, 5, 6, 7, 8, 255, 256, 260, 65536, 65540, 0x40000004, 0x80000004,
        0xC0000004, FAR_NUMBER - 1, FAR_NUMBER
    };
    size_t i;

    last_port_suspended();
    for (i = 0; i < COUNT(bad); i++)
        CHECK(is_no_port(area, area_len, bad[i]));
}

/* A port is told only if the area has its bytes. */
static void short_areas(void)
{
    uint32_t port;
    size_t length;

    last_port_suspended();
    for (length = 0; length <= area_len; length++) {
        uint8_t *copy = allocate(length + (length == 0));

        memcpy(copy, area, length);
        for (port = 1; port <= 4; port++) {
            if (length < 8 + 4 * port) {
                CHECK(is_no_port(copy, length, port));
                continue;
            }
            CHECK(grimholdi_port_state(copy, length, port)
                  == (port == 4 ? SUSPENDED : POWERED_OFF));
            CHECK(grimholdi_port_speed(copy, length, port)
                  == (port == 4 ? HIGH : NO_SPEED));
        }
        free(copy);
    }
    for (port = 0; port <= 8; port++)
        CHECK(is_no_port(NULL, 0, port));
    CHECK(is_no_port(NULL, 0, FAR_NUMBER));
}

/* Bytes that stand in no area. */
static void bad_bytes(void)
{
    uint32_t port;
    int value;

    last_port_suspended();
    for (value = 0; value < 256; value++) {
        area[0] = (uint8_t)value;
        for (port = 1; port < 256; port++)
            CHECK(is_no_port(area, area_len, port)
                  == (value > 7 || port > (uint32_t)value));
    }
    area[0] = 4;
    for (value = 0; value < 256; value++) {
        port_bytes(4)[0] = (uint8_t)value;
        CHECK(grimholdi_port_state(area, area_len, 4)
              == (value < STATES ? value : NO_STATE));
        CHECK(grimholdi_port_speed(area, area_len, 4)
              == (value >= DISABLED && value < STATES ? HIGH : NO_SPEED));
    }
    port_bytes(4)[0] = SUSPENDED;
    for (value = 0; value < 256; value++) {
        port_bytes(4)[1] = (uint8_t)value;
        CHECK(grimholdi_port_state(area, area_len, 4) == SUSPENDED);
        CHECK(grimholdi_port_speed(area, area_len, 4)
              == (value < SPEEDS ? value : NO_SPEED));
    }
}

int main(void)
{
    every_walk();
    all_met();
    suspended_and_resuming();
    bad_ports();
    short_areas();
    bad_bytes();
    free_hub();
    return check_summary("port states");
}
