/*
 * A cell of the chart, compared with what the library does in the situations
 * that the cell covers.
 */

#ifndef CHART_CELLS_H
#define CHART_CELLS_H

#include "chart_hub.h"

static const struct {
    uint32_t ports, buffers;
    uint32_t port, lane; /* of the input */
} hubs[] = {{4, 2, 2, 0}, {7, 4, 7, 1}};

enum { HUBS = sizeof hubs / sizeof hubs[0] };

/* A cell, and where it was compared last. */
typedef struct {
    int level, line, input;
    int hub;
    int ticks, changes; /* of the port, before */
    uint8_t answer, due;
} comparison;

static unsigned long compared;

/*
 * The hub before the input.  The other ports are in several lines; buffer 0 is
 * pending in lane 0 and runs, buffer 1 is ready in lane 1.
 */
static inline void place_hub(int hub, int line)
{
    const int configured = lines[line].state != NOT_CONFIGURED;
    uint32_t port;

    new_hub(hubs[hub].ports, hubs[hub].buffers);
    if (configured)
        CHECK(set_configuration(1) == GRIMHOLDI_ANSWER_DONE);
    for (port = 1; port <= area[0]; port++) {
        const int other = configured ? (int)(1 + 7 * port % (LINES - 1)) : 0;

        put_port(port_bytes(port), port % 2, other, lines[other].first,
                 (int)(5 * port) & ALL_CHANGES);
    }
    put_buffers(1 + 5 * 7);
    area[6] = 1;
}

/* The answer, the reply space and every byte of the area are as due. */
static inline int is_as_due(comparison *c)
{
    const uint32_t port = hubs[c->hub].port;
    grimholdi_answer answer;

    compared++;
    c->due = cell_of(port_bytes(port), c->input)->answer;
    save();
    follow_in_saved(c->input, port);
    answer = make_input(c->input, hubs[c->hub].lane, port);
    c->answer = answer.number;
    return answer.number == c->due && is_bare(answer) && area_is_saved()
           && reply_is_saved();
}

/*
 * With each value of the timer and each of the 32 sets of change bits, up to
 * the first difference.
 */
static inline int differs_in_hub(comparison *c)
{
    uint8_t before[GRIMHOLDI_AREA_LENGTH_MAX];
    uint8_t *const port = before + port_place(hubs[c->hub].port);

    place_hub(c->hub, c->line);
    memcpy(before, area, area_len);
    for (c->ticks = lines[c->line].first; c->ticks <= lines[c->line].last;
         c->ticks++)
        for (c->changes = 0; c->changes <= ALL_CHANGES; c->changes++) {
            put_port(port, c->level, c->line, c->ticks, c->changes);
            memcpy(area, before, area_len);
            if (!is_as_due(c))
                return 1;
        }
    return 0;
}

static inline int differs(comparison *c)
{
    for (c->hub = 0; c->hub < HUBS; c->hub++)
        if (differs_in_hub(c))
            return 1;
    return 0;
}

/* Of the cell with this number, line by line. */
static inline comparison comparison_of(int number)
{
    comparison c = {0, 0, 0, 0, 0, 0, 0, 0};

    c.level = number / (LINES * INPUTS);
    c.line = number / INPUTS % LINES;
    c.input = number % INPUTS;
    return c;
}

static inline void report_cell(const comparison *c)
{
    printf("chart: %s, %s, %s", level_titles[c->level], lines[c->line].label,
           inputs[c->input].heading);
}

static inline void report_difference(const comparison *c)
{
    size_t i = 0;

    report_cell(c);
    printf(": %u ports, ticks %d, changes %02x: answer %u, due %u",
           (unsigned)hubs[c->hub].ports, c->ticks, (unsigned)c->changes,
           c->answer, c->due);
    while (i < area_len && area[i] == saved_area[i])
        i++;
    if (i < area_len)
        printf("; byte %lu of the area is %02x, due %02x", (unsigned long)i,
               area[i], saved_area[i]);
    printf("\n");
}

#endif
