/*
 * A hub beside the chart: inputs made on the hub under test, and what the
 * chart makes of the bytes of its area (docs/AREA.md).
 */

#ifndef CHART_HUB_H
#define CHART_HUB_H

#include "bench_hub.h"
#include "chart.h"
#include "grimholdi_setup.h"

static chart the_chart;

static inline int names_a_port(int input)
{
    return inputs[input].kind == EVENT || inputs[input].kind == SET
           || inputs[input].kind == CLEAR;
}

/* The input as a call of the library. */
static inline grimholdi_answer make_input(int input, uint32_t lane,
                                          uint32_t port)
{
    const uint32_t number = inputs[input].number;
    uint8_t setup[GRIMHOLDI_SETUP_LENGTH];

    switch (inputs[input].kind) {
    case EVENT:
        return grimholdi_line_event(area, area_len, number, port);
    case TICK:
        return grimholdi_tick(area, area_len);
    case BUS_RESET:
        return grimholdi_bus_reset(area, area_len);
    case SET:
        grimholdi_setup_set_port_feature(setup, number, port);
        break;
    case CLEAR:
        grimholdi_setup_clear_port_feature(setup, number, port);
        break;
    case CONFIGURE:
        grimholdi_setup_set_configuration(setup, number);
        break;
    }
    return grimholdi_control(area, area_len, lane, setup, sizeof setup, reply,
                             GRIMHOLDI_REPLY_LENGTH);
}

/* The four bytes of a port: state, speed, ticks so far, bits. */

static inline void put_port(uint8_t *port, int level, int line, int ticks,
                            int changes)
{
    port[0] = lines[line].state;
    port[1] = lines[line].speed;
    port[2] = (uint8_t)ticks;
    port[3] = (uint8_t)(level << 5 | changes);
}

static inline int level_of(const uint8_t *port)
{
    return port[3] >> 5;
}

static inline int line_of(const uint8_t *port)
{
    int line;

    for (line = 0; line < LINES; line++)
        if (lines[line].state == port[0] && lines[line].speed == port[1]
            && lines[line].first <= port[2] && port[2] <= lines[line].last)
            return line;
    abort();
}

static inline const cell *cell_of(const uint8_t *port, int input)
{
    return &the_chart.cells[level_of(port)][line_of(port)][input];
}

/* Makes the port's bytes those that the chart says. */
static inline void follow(uint8_t *port, int input)
{
    const cell *c = cell_of(port, input);

    if (c->state != port[0])
        port[2] = 0;
    else if (inputs[input].kind == TICK
             && (c->state == RESETTING || c->state == RESUMING))
        port[2]++;
    port[0] = c->state;
    port[1] = c->speed;
    port[3] = (uint8_t)((port[3] & ALL_CHANGES & ~c->cleared) | c->set
                        | c->level << 5);
}

/*
 * Makes the saved area the one that is due after the input.  All ports go by
 * the chart where it names none; the rest is document 01's: SetConfiguration
 * and bus reset empty the translator, and nothing else changes.
 */
static inline void follow_in_saved(int input, uint32_t port)
{
    const input_kind kind = inputs[input].kind;
    uint8_t *const buffers = saved_area + port_place(saved_area[0] + 1u);
    uint32_t i;

    if (names_a_port(input)) {
        follow(saved_area + port_place(port), input);
        return;
    }
    for (i = 1; i <= saved_area[0]; i++)
        follow(saved_area + port_place(i), input);
    if (kind == TICK)
        return;
    saved_area[5] = kind == CONFIGURE ? (uint8_t)inputs[input].number : 0;
    saved_area[6] = 0;
    saved_area[7] = 0;
    memset(buffers, 0, area_len - (size_t)(buffers - saved_area));
}

/* The four bytes of GetPortStatus, by document 01. */
static inline void put_status(uint8_t *status, const uint8_t *port)
{
    const uint8_t state = port[0];
    const int connected = state >= DISABLED;

    status[0] = (uint8_t)(connected | (state >= ENABLED) << 1
                          | (state >= SUSPENDED) << 2 | level_of(port) << 3
                          | (state == RESETTING) << 4);
    status[1] = (uint8_t)((state >= DISCONNECTED)
                          | (connected && port[1] == LOW) << 1
                          | (connected && port[1] == HIGH) << 2);
    status[2] = port[3] & ALL_CHANGES;
    status[3] = 0;
}

/* GetPortStatus gives what the saved area says; unconfigured, it is 2. */
static inline int status_is_due(uint32_t lane, uint32_t port)
{
    uint8_t setup[GRIMHOLDI_SETUP_LENGTH];
    uint8_t status[4];
    grimholdi_answer answer;

    grimholdi_setup_get_port_status(setup, port);
    answer = grimholdi_control(area, area_len, lane, setup, sizeof setup,
                               reply, GRIMHOLDI_REPLY_LENGTH);
    if (saved_area[5] == 0)
        return answer.number == GRIMHOLDI_ANSWER_STALL;
    put_status(status, saved_area + port_place(port));
    return gives(answer, (const char *)status, sizeof status);
}

#endif
