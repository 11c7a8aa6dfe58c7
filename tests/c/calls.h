/*
 * A call as a value: made on the hub under test, and the port it names.
 *
 * It stands apart from tools/words/call.h, whose calls point to bytes that
 * others own: these hold their bytes, so that a call can be kept and made
 * again, and lend reply space of the exact length.
 */

#ifndef CALLS_H
#define CALLS_H

#include "bench_hub.h"

enum call_kind {
    CONTROL, POLL, START_SPLIT, COMPLETE_SPLIT, LAUNCH, DELIVER, LINE_EVENT,
    TICK, BUS_RESET
};

static const char *const call_names[] = {
    "control request", "poll", "start-split", "complete-split", "launch",
    "deliver", "line event", "tick", "bus reset"
};

/* Any numbers and lengths; those that the kind doesn't take are unused. */
typedef struct {
    enum call_kind kind;
    uint32_t lane;
    uint32_t pid;
    uint32_t transfer;
    uint32_t low_speed;
    uint32_t toggle;
    uint32_t address;
    uint32_t endpoint;
    uint32_t direction;
    uint32_t result;
    uint32_t event;
    uint32_t port;
    uint8_t bytes[GRIMHOLDI_PAYLOAD_MAX + 1]; /* setup bytes or payload */
    size_t length;                            /* of these bytes */
    size_t reply_len;
} call;

static inline grimholdi_answer make(const call *c)
{
    switch (c->kind) {
    case CONTROL:
        return grimholdi_control(area, area_len, c->lane, c->bytes, c->length,
                                 reply, c->reply_len);
    case POLL:
        return grimholdi_poll(area, area_len, c->lane, reply, c->reply_len);
    case START_SPLIT:
        return grimholdi_start_split(area, area_len, c->lane, c->pid,
                                     c->transfer, c->low_speed, c->toggle,
                                     c->address, c->endpoint, c->bytes,
                                     c->length);
    case COMPLETE_SPLIT:
        return grimholdi_complete_split(area, area_len, c->lane, c->address,
                                        c->endpoint, c->direction, reply,
                                        c->reply_len);
    case LAUNCH:
        return grimholdi_launch(area, area_len, reply, c->reply_len);
    case DELIVER:
        return grimholdi_deliver(area, area_len, c->result, c->bytes,
                                 c->length);
    case LINE_EVENT:
        return grimholdi_line_event(area, area_len, c->event, c->port);
    case TICK:
        return grimholdi_tick(area, area_len);
    default:
        return grimholdi_bus_reset(area, area_len);
    }
}

/* Document 01's table of requests, the rows with "index port". */

typedef struct {
    uint8_t type, code, value, length;
} port_row;

static const port_row port_rows[] = {
    {0xA3, 0x00, 0, 4},                                       /* status */
    {0x23, 0x01, 1, 0},  {0x23, 0x01, 2, 0},  {0x23, 0x01, 8, 0}, /* clear */
    {0x23, 0x01, 16, 0}, {0x23, 0x01, 17, 0}, {0x23, 0x01, 18, 0},
    {0x23, 0x01, 19, 0}, {0x23, 0x01, 20, 0},
    {0x23, 0x03, 2, 0},  {0x23, 0x03, 4, 0},  {0x23, 0x03, 8, 0}  /* set */
};

enum { PORT_ROWS = sizeof port_rows / sizeof port_rows[0] };

static inline void put_port_row(uint8_t setup[GRIMHOLDI_SETUP_LENGTH],
                                const port_row *row, uint32_t port)
{
    put_setup(setup, row->type, row->code, row->value, (uint16_t)port,
              row->length);
}

/* The eight bytes are one of the table's port requests, with this index. */
static inline int is_port_request(const uint8_t *bytes, uint32_t port)
{
    uint8_t setup[GRIMHOLDI_SETUP_LENGTH];
    int found = 0;
    size_t i;

    for (i = 0; i < PORT_ROWS && !found; i++) {
        put_port_row(setup, &port_rows[i], port);
        found = memcmp(setup, bytes, sizeof setup) == 0;
    }
    return found;
}

/*
 * The call names the port, one of the hub's: an event at it, whatever its
 * number, or a port request, from whatever lane and with whatever reply space.
 */
static inline int names_port(const call *c, uint32_t port)
{
    if (c->kind == LINE_EVENT)
        return c->port == port;
    return c->kind == CONTROL && c->length == GRIMHOLDI_SETUP_LENGTH
           && is_port_request(c->bytes, port);
}

#endif
