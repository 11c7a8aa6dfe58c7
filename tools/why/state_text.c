#include "state_text.h"

#include <stdio.h>

#include "../words/phrases.h"
#include "../words/text.h"

void print_port_state(const port_view *port)
{
    printf("%s", grimholdi_state_name(port->state));
    if (port->state >= GRIMHOLDI_STATE_DISABLED)
        printf(", %s speed", grimholdi_speed_name(port->speed));
}

void print_changes(unsigned changes)
{
    const char *before = "";
    unsigned bit;

    for (bit = 1; bit <= changes; bit <<= 1)
        if (changes & bit) {
            printf("%s%s", before, grimholdi_change_name(bit));
            before = ", ";
        }
}

void print_low_side(const area_view *view)
{
    switch (view->low_side) {
    case LOW_SIDE_FREE:
        printf("the low side is free");
        break;
    case LOW_SIDE_RUNNING:
        printf("the low side is occupied by buffer %u", view->running);
        break;
    default:
        printf("the low side is occupied by an emptied transaction");
        break;
    }
}

static void print_port(const port_view *port, unsigned number)
{
    printf("port %u: ", number);
    print_port_state(port);
    if (port->state == GRIMHOLDI_STATE_RESETTING
        || port->state == GRIMHOLDI_STATE_RESUMING)
        printf(", %u tick%s", port->ticks, plural(port->ticks));
    if (port->over_current)
        printf(", over-current");
    if (port->changes != 0) {
        printf(", ");
        print_changes(port->changes);
    }
    printf("\n");
}

static void print_buffer(const buffer_view *buffer, unsigned number)
{
    printf("buffer %u: %s", number, status_name(buffer->status));
    if (buffer->status == STATUS_EMPTY) {
        printf("\n");
        return;
    }
    if (buffer->status == STATUS_PENDING)
        printf(" at place %u", buffer->place);
    else
        printf(" with %s", grimholdi_result_name(buffer->result));
    printf(", lane %u ", buffer->lane);
    print_key(buffer->address, buffer->endpoint, buffer->direction);
    printf(", %s %s, %s speed, toggle %u, ",
           grimholdi_pid_name(buffer->pid),
           grimholdi_transfer_name(buffer->transfer),
           grimholdi_low_speed_name(buffer->low_speed), buffer->toggle);
    print_count("payload", buffer->payload_length);
    printf("\n");
}

void print_state(const area_view *view)
{
    unsigned i;

    printf("hub: %u port%s, %u buffers, %s, ", view->ports,
           plural(view->ports), view->buffers,
           view->configured ? "configured" : "unconfigured");
    print_low_side(view);
    printf("\n");
    for (i = 1; i <= view->ports; i++)
        print_port(&view->port[i - 1], i);
    for (i = 0; i < view->buffers; i++)
        print_buffer(&view->buffer[i], i);
}
