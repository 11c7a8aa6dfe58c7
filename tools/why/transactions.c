#include "transactions.h"

#include <stddef.h>

#include "grimholdi.h"

#include "../words/names.h"

typedef struct {
    uint32_t pid;
    length_rule lengths;
    const char *results;
} pid_rule;

static const pid_rule pid_rules[] = {
    {GRIMHOLDI_PID_OUT, {0, GRIMHOLDI_PAYLOAD_MAX, "0 to 64"},
     "ACK, NAK, STALL and failure"},
    {GRIMHOLDI_PID_IN, {0, 0, "none"},
     "DATA0, DATA1, NAK, STALL and failure"},
    {GRIMHOLDI_PID_SETUP,
     {GRIMHOLDI_SETUP_LENGTH, GRIMHOLDI_SETUP_LENGTH, "8"},
     "ACK and failure"}
};

static const pid_rule *rule_of(uint32_t pid)
{
    size_t i;

    for (i = 0; i < sizeof pid_rules / sizeof *pid_rules; i++)
        if (pid_rules[i].pid == pid)
            return &pid_rules[i];
    return NULL;
}

const length_rule *start_lengths(uint32_t pid)
{
    const pid_rule *rule = rule_of(pid);

    return rule == NULL ? NULL : &rule->lengths;
}

const length_rule *result_lengths(uint32_t result)
{
    static const length_rule data = {0, GRIMHOLDI_PAYLOAD_MAX, "0 to 64"};
    static const length_rule handshake = {0, 0, "none"};

    if (name_of(grimholdi_result_name, result) == NULL)
        return NULL;
    return result == GRIMHOLDI_RESULT_DATA0 || result == GRIMHOLDI_RESULT_DATA1
           ? &data : &handshake;
}

const char *suiting_results(uint32_t pid)
{
    return rule_of(pid)->results;
}
