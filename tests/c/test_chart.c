/*
 * The printed chart of one port against the library: what the chart says of a
 * port is what the calls do to a port of a hub.
 *
 * Each of the 1,104 cells is compared in the situations that it covers.  Drawn
 * inputs are made on a hub beside the chart.  A chart that is damaged has to
 * be refused, and a cell that is changed, in any of its fields, to be noticed.
 */

#include "chart_cells.h"
#include "chart_damage.h"
#include "chart_reader.h"
#include "chart_walk.h"

#define CHART_FILE "crates/port_chart/stdout"

/* The chart's text. */

static char text[TEXT_MAX + 1];

static int read_file(size_t *length)
{
    FILE *file = fopen(CHART_FILE, "rb");

    if (file == NULL)
        return 0;
    *length = fread(text, 1, TEXT_MAX, file);
    text[*length] = '\0';
    fclose(file);
    return 1;
}

static int chart_is_read(void)
{
    reader r = {text, 0, "a file that can be opened"};
    size_t length;

    if (read_file(&length) && read_chart(&r, &the_chart, length))
        return 1;
    printf(CHART_FILE ":%lu:%lu: missing: %s\n", line_at(&r), column_at(&r),
           r.missed);
    return 0;
}

/* Every cell. */

static void every_cell(void)
{
    int i;

    CHECK(the_chart.count == 1104);
    for (i = 0; i < CELLS; i++) {
        comparison c = comparison_of(i);
        const int differs_here = differs(&c);

        CHECK(!differs_here);
        if (differs_here)
            report_difference(&c);
    }
    printf("chart: %d cells, %lu calls compared\n", CELLS, compared);
}

/* Every cell, changed in each of its fields. */

enum { STATE, SPEED, LEVEL, BITS_SET, BITS_CLEARED, ANSWER, FIELDS };

static const char *const field_names[] = {
    "state", "speed", "level", "bits set", "bits cleared", "answer"
};

/* A bit that is set as well can't be seen to be cleared: then the next. */
static void change_field(cell *c, int field, int number)
{
    const unsigned bit = 1u << number % 5;
    const unsigned next = 1u << (number + 1) % 5;

    switch (field) {
    case STATE:
        c->state = (uint8_t)((c->state + 1) % STATES);
        break;
    case SPEED:
        c->speed = (uint8_t)((c->speed + 1) % SPEEDS);
        break;
    case LEVEL:
        c->level = !c->level;
        break;
    case BITS_SET:
        c->set ^= (uint8_t)bit;
        break;
    case BITS_CLEARED:
        c->cleared ^= (uint8_t)(c->set == bit ? next : bit);
        break;
    case ANSWER:
        c->answer = c->answer == GRIMHOLDI_ANSWER_DONE
                    ? GRIMHOLDI_ANSWER_NOT_NOW : GRIMHOLDI_ANSWER_DONE;
        break;
    }
}

static int is_noticed(int number, int field)
{
    comparison c = comparison_of(number);
    cell *const changed = &the_chart.cells[c.level][c.line][c.input];
    const cell printed = *changed;
    int noticed;

    change_field(changed, field, number);
    noticed = differs(&c);
    *changed = printed;
    if (!noticed) {
        report_cell(&c);
        printf(": another %s is not noticed\n", field_names[field]);
    }
    return noticed;
}

static void every_change(void)
{
    int cells = 0;
    int i;

    for (i = 0; i < CELLS; i++) {
        int noticed = 0;
        int field;

        for (field = 0; field < FIELDS; field++)
            noticed += is_noticed(i, field);
        CHECK(noticed == FIELDS);
        cells += noticed == FIELDS;
    }
    printf("chart: %d of %d cells noticed, changed in each of %d fields\n",
           cells, CELLS, FIELDS);
}

/* Walks. */

enum { WALK_INPUTS = 50000 };

/*
 * What can be reached: every cell of 25 lines, the 24 without over-current and
 * Powered-off with it.  Over-current on leads there; while it holds set
 * PORT_POWER has no effect; and what unconfigures the hub ends it.
 */
enum { REACHABLE = 25 * INPUTS };

static void walks(void)
{
    unsigned long reached;
    int hub;

    for (hub = 0; hub < HUBS; hub++)
        walk(hub, WALK_INPUTS);
    reached = cells_met();
    CHECK(reached == REACHABLE);
    printf("chart: %d drawn inputs, %lu cells reached of %d that can be\n",
           HUBS * WALK_INPUTS, reached, REACHABLE);
}

/* A chart with a failure is not followed. */
int main(void)
{
    const int is_read = chart_is_read();

    CHECK(is_read);
    if (is_read) {
        damage_chart(text);
        every_cell();
    }
    if (failures == 0) {
        every_change();
        walks();
    }
    free_hub();
    return check_summary("chart");
}
