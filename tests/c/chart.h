/*
 * The chart of one port, as port_chart prints it for field engineers: what
 * each of 23 inputs does in each of 24 lines, without over-current and with
 * it.
 */

#ifndef CHART_H
#define CHART_H

#include "grimholdi.h"

#include <string.h>

/* Numbers as in docs/AREA.md. */

enum {
    NOT_CONFIGURED, POWERED_OFF, DISCONNECTED, DISABLED, RESETTING, ENABLED,
    SUSPENDED, RESUMING,
    STATES
};

enum { LOW, FULL, HIGH, SPEEDS };

enum { ALL_CHANGES = 0x1F };

static const char *const state_letters[] = {
    "NCfg", "POff", "Disc", "Dsbl", "Rset", "Enbl", "Susp", "Rsum"
};

static const char *const speed_letters[] = {".l", ".f", ".h"};

static const char change_letters[] = "CESOR"; /* bit 0 first */

/* What stands above the lines; its line breaks are free. */
static const char legend[] =
    "The rules of one port as a chart: states down, inputs across. "
    "A cell says what changes: the next state with its speed; ^ or v where "
    "the over-current level begins or ends; the change bits that are set (+) "
    "or cleared (-). A dot: nothing changes. All of these are answered 0. "
    "A number is a refusal, and nothing changes: 8, not in this state; 2, a "
    "request to an unconfigured hub. "
    "States NCfg Not Configured POff Powered-off Disc Disconnected "
    "Dsbl Disabled Rset Resetting Enbl Enabled Susp Suspended Rsum Resuming "
    "Speeds .l low .f full .h high "
    "Timer runs on, or ends at the next tick: the 15th in Resetting, the 22nd "
    "in Resuming. It starts at 0 where such a state is entered, and counts "
    "ticks alone. "
    "Change bits C connection E enable S suspend O over-current R reset "
    "all five";

enum { LEVELS = 2, LINES = 24, INPUTS = 23, PARTS = 3 };

enum { CELLS = LEVELS * LINES * INPUTS };

static const char *const level_titles[] = {"No over-current", "Over-current"};

/* The ticks so far that belong to a line are first to last. */
static const struct {
    const char *label;
    uint8_t state, speed, first, last;
} lines[LINES] = {
    {"NCfg", NOT_CONFIGURED, 0, 0, 0},
    {"POff", POWERED_OFF, 0, 0, 0},
    {"Disc", DISCONNECTED, 0, 0, 0},
    {"Dsbl.l", DISABLED, LOW, 0, 0},
    {"Dsbl.f", DISABLED, FULL, 0, 0},
    {"Dsbl.h", DISABLED, HIGH, 0, 0},
    {"Rset.l runs", RESETTING, LOW, 0, 13},
    {"Rset.l ends", RESETTING, LOW, 14, 14},
    {"Rset.f runs", RESETTING, FULL, 0, 13},
    {"Rset.f ends", RESETTING, FULL, 14, 14},
    {"Rset.h runs", RESETTING, HIGH, 0, 13},
    {"Rset.h ends", RESETTING, HIGH, 14, 14},
    {"Enbl.l", ENABLED, LOW, 0, 0},
    {"Enbl.f", ENABLED, FULL, 0, 0},
    {"Enbl.h", ENABLED, HIGH, 0, 0},
    {"Susp.l", SUSPENDED, LOW, 0, 0},
    {"Susp.f", SUSPENDED, FULL, 0, 0},
    {"Susp.h", SUSPENDED, HIGH, 0, 0},
    {"Rsum.l runs", RESUMING, LOW, 0, 20},
    {"Rsum.l ends", RESUMING, LOW, 21, 21},
    {"Rsum.f runs", RESUMING, FULL, 0, 20},
    {"Rsum.f ends", RESUMING, FULL, 21, 21},
    {"Rsum.h runs", RESUMING, HIGH, 0, 20},
    {"Rsum.h ends", RESUMING, HIGH, 21, 21}
};

typedef enum { EVENT, TICK, SET, CLEAR, CONFIGURE, BUS_RESET } input_kind;

static const struct {
    const char *heading;
    input_kind kind;
    uint32_t number; /* event, feature or configuration */
} inputs[INPUTS] = {
    {"attach low", EVENT, GRIMHOLDI_EVENT_ATTACH_LOW},
    {"attach full", EVENT, GRIMHOLDI_EVENT_ATTACH_FULL},
    {"detach", EVENT, GRIMHOLDI_EVENT_DETACH},
    {"chirp", EVENT, GRIMHOLDI_EVENT_CHIRP},
    {"wake", EVENT, GRIMHOLDI_EVENT_WAKE},
    {"port error", EVENT, GRIMHOLDI_EVENT_PORT_ERROR},
    {"over-cur on", EVENT, GRIMHOLDI_EVENT_OVER_CURRENT_ON},
    {"over-cur off", EVENT, GRIMHOLDI_EVENT_OVER_CURRENT_OFF},
    {"tick", TICK, 0},
    {"set SUSPEND", SET, GRIMHOLDI_PORT_SUSPEND},
    {"set RESET", SET, GRIMHOLDI_PORT_RESET},
    {"set POWER", SET, GRIMHOLDI_PORT_POWER},
    {"clr ENABLE", CLEAR, GRIMHOLDI_PORT_ENABLE},
    {"clr SUSPEND", CLEAR, GRIMHOLDI_PORT_SUSPEND},
    {"clr POWER", CLEAR, GRIMHOLDI_PORT_POWER},
    {"clr C_CONN", CLEAR, GRIMHOLDI_C_PORT_CONNECTION},
    {"clr C_ENABLE", CLEAR, GRIMHOLDI_C_PORT_ENABLE},
    {"clr C_SUSP", CLEAR, GRIMHOLDI_C_PORT_SUSPEND},
    {"clr C_OVERC", CLEAR, GRIMHOLDI_C_PORT_OVER_CURRENT},
    {"clr C_RESET", CLEAR, GRIMHOLDI_C_PORT_RESET},
    {"SetConfig. 0", CONFIGURE, 0},
    {"SetConfig. 1", CONFIGURE, 1},
    {"bus reset", BUS_RESET, 0}
};

/* The first input of each part, and the end. */
static const int parts[PARTS + 1] = {0, 8, 15, INPUTS};

/* All bytes, so that two cells can be compared as memory. */
typedef struct {
    uint8_t state, speed, level; /* afterwards */
    uint8_t set, cleared;        /* change bits */
    uint8_t answer;
} cell;

typedef struct {
    cell cells[LEVELS][LINES][INPUTS];
    unsigned long count; /* of cells read */
} chart;

#endif
