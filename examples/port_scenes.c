/* Scenes of the ports. */

#include "scenes.h"

#include "computers.h"
#include "grimholdi_port.h"

enum {
    SPARE_PORT = 3,
    SECOND_AFTER = 10 /* ms between the two resets */
};

static const computer *const first = &computers[0];
static const computer *const second = &computers[1];

/* Bit p of the bitmap is for port p. */
static uint8_t bit_of(uint32_t port)
{
    return (uint8_t)(1u << port);
}

/* Up to the reset of the port, which is Powered-off. */
static void plug_in(const computer *of)
{
    set_port_feature(of, GRIMHOLDI_PORT_POWER, of->port);
    line_event(GRIMHOLDI_EVENT_ATTACH_FULL, of->port);
    serve_changes(of, of->port, bit_of(of->port), GRIMHOLDI_STATE_DISABLED, 0,
                  GRIMHOLDI_CHANGE_CONNECTION);
    set_port_feature(of, GRIMHOLDI_PORT_RESET, of->port);
}

void plugged_in(void)
{
    set_configuration(first);
    plug_in(first);
    plug_in(second);
    wait_ms(GRIMHOLDI_RESET_TICKS);
    serve_changes(first, first->port,
                  bit_of(first->port) | bit_of(second->port),
                  GRIMHOLDI_STATE_ENABLED, 0, GRIMHOLDI_CHANGE_RESET);
    serve_changes(second, second->port, bit_of(second->port),
                  GRIMHOLDI_STATE_ENABLED, 0, GRIMHOLDI_CHANGE_RESET);
}

/* It has no effect: the 15th tick after the first ends the reset. */
void second_reset(void)
{
    set_port_feature(first, GRIMHOLDI_PORT_RESET, first->port);
    wait_ms(SECOND_AFTER);
    say("Computer 1, which sees the port too, resets it once more.");
    set_port_feature(second, GRIMHOLDI_PORT_RESET, first->port);
    wait_ms(GRIMHOLDI_RESET_TICKS - SECOND_AFTER - 1);
    port_shows(first, first->port, GRIMHOLDI_STATE_RESETTING, 0, 0);
    wait_ms(1);
    serve_changes(first, first->port, bit_of(first->port),
                  GRIMHOLDI_STATE_ENABLED, 0, GRIMHOLDI_CHANGE_RESET);
}

/* By a request: C_PORT_CONNECTION stays. */
static void switch_off(void)
{
    say("The studio's microphone is unplugged, and computer 0 switches the"
        " port off.");
    line_event(GRIMHOLDI_EVENT_DETACH, second->port);
    clear_port_feature(first, GRIMHOLDI_PORT_POWER, second->port);
    serve_changes(second, second->port, bit_of(second->port),
                  GRIMHOLDI_STATE_POWERED_OFF, 0, GRIMHOLDI_CHANGE_CONNECTION);
}

/* By over-current: C_PORT_OVER_CURRENT comes to C_PORT_CONNECTION. */
static void short_circuit(void)
{
    say("A device with a short circuit is plugged in at a spare port.");
    set_port_feature(first, GRIMHOLDI_PORT_POWER, SPARE_PORT);
    line_event(GRIMHOLDI_EVENT_ATTACH_FULL, SPARE_PORT);
    line_event(GRIMHOLDI_EVENT_OVER_CURRENT_ON, SPARE_PORT);
    serve_changes(first, SPARE_PORT, bit_of(SPARE_PORT),
                  GRIMHOLDI_STATE_POWERED_OFF, GRIMHOLDI_STATUS_OVER_CURRENT,
                  GRIMHOLDI_CHANGE_CONNECTION | GRIMHOLDI_CHANGE_OVER_CURRENT);
    line_event(GRIMHOLDI_EVENT_OVER_CURRENT_OFF, SPARE_PORT);
    serve_changes(first, SPARE_PORT, bit_of(SPARE_PORT),
                  GRIMHOLDI_STATE_POWERED_OFF, 0,
                  GRIMHOLDI_CHANGE_OVER_CURRENT);
}

void power_off(void)
{
    switch_off();
    short_circuit();
    say("The studio's microphone is plugged in again.");
    plug_in(second);
    wait_ms(GRIMHOLDI_RESET_TICKS);
    serve_changes(second, second->port, bit_of(second->port),
                  GRIMHOLDI_STATE_ENABLED, 0, GRIMHOLDI_CHANGE_RESET);
}
