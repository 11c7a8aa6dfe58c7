/*
 * grimholdi_names.h: each number of the interface has its name, no other has
 * one, and two of a kind have different names.  Numbers and words are those of
 * document 01, docs/AREA.md and docs/WHY.md; reasons those of grimholdi.h.
 */

#include "grimholdi_names.h"

#include <string.h>

#include "check.h"

typedef struct {
    uint32_t number;
    const char *name; /* NULL ends a table */
} named;

static const named answers[] = {
    {0, "DONE"}, {1, "DATA"}, {2, "STALL"}, {3, "NAK"}, {4, "NYET"},
    {5, "SILENT"}, {6, "OUTSIDE"}, {7, "NO_SPACE"}, {8, "NOT_NOW"},
    {9, "HANDSHAKE"}, {0, NULL}
};

static const named results[] = {
    {0, "failure"}, {2, "ACK"}, {3, "DATA0"}, {10, "NAK"}, {11, "DATA1"},
    {14, "STALL"}, {0, NULL}
};

static const named pids[] = {{1, "OUT"}, {9, "IN"}, {13, "SETUP"}, {0, NULL}};

static const named transfers[] = {{0, "control"}, {2, "bulk"}, {0, NULL}};

static const named directions[] = {{0, "OUT"}, {1, "IN"}, {0, NULL}};

static const named events[] = {
    {0, "attach-low"}, {1, "attach-full"}, {2, "detach"}, {3, "chirp"},
    {4, "wake"}, {5, "port-error"}, {6, "over-current-on"},
    {7, "over-current-off"}, {0, NULL}
};

static const named states[] = {
    {0, "Not Configured"}, {1, "Powered-off"}, {2, "Disconnected"},
    {3, "Disabled"}, {4, "Resetting"}, {5, "Enabled"}, {6, "Suspended"},
    {7, "Resuming"}, {0, NULL}
};

static const named low_speeds[] = {{0, "full"}, {1, "low"}, {0, NULL}};

static const named speeds[] = {
    {0, "low"}, {1, "full"}, {2, "high"}, {0, NULL}
};

static const named changes[] = {
    {1, "C_PORT_CONNECTION"}, {2, "C_PORT_ENABLE"}, {4, "C_PORT_SUSPEND"},
    {8, "C_PORT_OVER_CURRENT"}, {16, "C_PORT_RESET"}, {0, NULL}
};

static const named reasons[] = {
    {0, "NONE"}, {1, "NUMBER"}, {2, "HELD"}, {3, "REUSED"}, {4, "TOOK_FREE"},
    {5, "LIMIT"}, {6, "NO_ROOM"}, {7, "CHANGES"}, {8, "WRONG"}, {0, NULL}
};

static const struct {
    const char *(*name_of)(uint32_t number);
    const named *names;
} kinds[] = {
    {grimholdi_answer_name, answers},
    {grimholdi_result_name, results},
    {grimholdi_pid_name, pids},
    {grimholdi_transfer_name, transfers},
    {grimholdi_direction_name, directions},
    {grimholdi_event_name, events},
    {grimholdi_state_name, states},
    {grimholdi_low_speed_name, low_speeds},
    {grimholdi_speed_name, speeds},
    {grimholdi_change_name, changes},
    {grimholdi_why_name, reasons}
};

/* The name that the number is to have. */
static const char *due_name(const named *names, uint32_t number)
{
    for (; names->name != NULL; names++)
        if (names->number == number)
            return names->name;
    return "unknown";
}

static void different_names(const named *names)
{
    const named *other;

    for (; names->name != NULL; names++) {
        CHECK(strcmp(names->name, "unknown") != 0);
        for (other = names + 1; other->name != NULL; other++)
            CHECK(strcmp(names->name, other->name) != 0);
    }
}

int main(void)
{
    /* NONE of grimholdi_port.h is among the first. */
    static const uint32_t far_numbers[] = {
        65535, 65536, 65537, 0x01000000, 0x80000000, UINT32_MAX - 1, UINT32_MAX
    };
    uint32_t number;
    size_t i, j;

    for (i = 0; i < sizeof kinds / sizeof *kinds; i++) {
        for (number = 0; number < 1000; number++)
            CHECK(strcmp(kinds[i].name_of(number),
                         due_name(kinds[i].names, number)) == 0);
        for (j = 0; j < sizeof far_numbers / sizeof *far_numbers; j++)
            CHECK(strcmp(kinds[i].name_of(far_numbers[j]), "unknown") == 0);
        different_names(kinds[i].names);
    }
    return check_summary("names");
}
