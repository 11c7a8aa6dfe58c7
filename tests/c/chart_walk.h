/* Drawn inputs, made on a new hub, and followed by the chart alone. */

#ifndef CHART_WALK_H
#define CHART_WALK_H

#include "chart_cells.h"
#include "draw.h"

/* How often a port met each cell. */
static unsigned long met[LEVELS][LINES][INPUTS];

static inline unsigned long cells_met(void)
{
    unsigned long cells = 0;
    int i;

    for (i = 0; i < CELLS; i++) {
        const comparison c = comparison_of(i);

        cells += met[c.level][c.line][c.input] != 0;
    }
    return cells;
}

/* For each port that the input is for. */
static inline void count_met(int input, uint32_t named)
{
    uint32_t port;

    for (port = 1; port <= saved_area[0]; port++) {
        const uint8_t *bytes = saved_area + port_place(port);

        if (port == named || !names_a_port(input))
            met[level_of(bytes)][line_of(bytes)][input]++;
    }
}

static inline int tick_input(void)
{
    int input = 0;

    while (inputs[input].kind != TICK)
        input++;
    return input;
}

/* To a later state, or sometimes to a higher speed. */
static inline int leads_on(const uint8_t *port, const cell *c)
{
    return c->state > port[0] || (c->speed > port[1] && one_in(16));
}

/*
 * Half of the time one that the line has not had, as long as there is one.
 * Else one in 16 is any, and the others lead on, or are ticks where none does:
 * a resume takes 22 ticks, which few other inputs may interrupt.
 */
static inline int draw_input(const uint8_t *port)
{
    const int level = level_of(port);
    const int line = line_of(port);
    int unmet[INPUTS], onward[INPUTS];
    uint32_t unmet_count = 0, onward_count = 0;
    int i;

    for (i = 0; i < INPUTS; i++) {
        if (met[level][line][i] == 0)
            unmet[unmet_count++] = i;
        if (leads_on(port, &the_chart.cells[level][line][i]))
            onward[onward_count++] = i;
    }
    if (unmet_count > 0 && one_in(2))
        return unmet[draw(unmet_count)];
    if (one_in(16))
        return (int)draw(INPUTS);
    return onward_count > 0 ? onward[draw(onward_count)] : tick_input();
}

/* The area of a new hub, by document 01 and docs/AREA.md. */
static inline void save_new_hub(int hub)
{
    memset(saved_area, 0, sizeof saved_area);
    saved_area[0] = (uint8_t)hubs[hub].ports;
    saved_area[1] = (uint8_t)hubs[hub].buffers;
    saved_area[2] = 0x32;
    saved_area[3] = 0x64;
}

/* The chart alone moves the saved area: nothing is taken from the hub. */
static inline void make_step(int input, uint32_t port)
{
    const uint32_t lane = draw(2);
    const uint8_t due = cell_of(saved_area + port_place(port), input)->answer;

    count_met(input, port);
    follow_in_saved(input, port);
    CHECK(make_input(input, lane, port).number == due);
    CHECK(area_is_saved());
    CHECK(status_is_due(lane, port));
}

/* At one port for a while, then at another; up to the first failure. */
static inline void walk(int hub, unsigned long count)
{
    const unsigned long failed = failures;
    uint32_t port = hubs[hub].port;
    unsigned long i;

    new_hub(hubs[hub].ports, hubs[hub].buffers);
    save_new_hub(hub);
    CHECK(area_is_saved());
    for (i = 0; i < count && failures == failed; i++) {
        if (one_in(32))
            port = 1 + draw(saved_area[0]);
        make_step(draw_input(saved_area + port_place(port)), port);
    }
    if (failures != failed)
        printf("chart: a walk with %u ports fails at input %lu, port %u\n",
               saved_area[0], i, (unsigned)port);
}

#endif
