#include "refusal_text.h"

#include <stdio.h>

#include "../words/text.h"
#include "state_text.h"
#include "transactions.h"

/* Numbers and lengths: each prints its line and returns 1 if outside. */

static int number_outside(call_field field, uint32_t number, unsigned ports)
{
    const field_form *form = &field_forms[field];
    unsigned long given = number;

    if (field == FIELD_PORT) {
        if (number >= 1 && number <= ports)
            return 0;
        printf("OUTSIDE: port is %lu; this hub has ", given);
        if (ports == 1)
            printf("port 1 alone\n");
        else
            printf("ports 1 to %u\n", ports);
        return 1;
    }
    if (form->names != NULL ? name_of(form->names, number) != NULL
                            : number <= form->most)
        return 0;
    printf("OUTSIDE: %s is %lu; %s are permitted\n", form->name, given,
           form->permitted);
    return 1;
}

static int length_outside(const length_rule *rule, const char *of,
                          size_t length)
{
    if (rule == NULL || (length >= rule->least && length <= rule->most))
        return 0;
    printf("OUTSIDE: the payload has " BYTE_COUNT "; %s has %s\n",
           BYTE_COUNT_OF(length), of, rule->text);
    return 1;
}

static int start_split_outside(const call *call_of)
{
    uint32_t pid = call_of->numbers[FIELD_PID];
    int setup_is_bulk = pid == GRIMHOLDI_PID_SETUP
        && call_of->numbers[FIELD_TYPE] == GRIMHOLDI_TRANSFER_BULK;

    if (setup_is_bulk)
        printf("OUTSIDE: type is bulk; SETUP is control\n");
    return length_outside(start_lengths(pid), grimholdi_pid_name(pid),
                          call_of->bytes_len)
           | setup_is_bulk;
}

static int setup_outside(size_t length)
{
    if (length == GRIMHOLDI_SETUP_LENGTH)
        return 0;
    printf("OUTSIDE: the setup has " BYTE_COUNT "; it takes 8\n",
           BYTE_COUNT_OF(length));
    return 1;
}

static void print_outside(const area_view *view, const call *call_of)
{
    const call_form *form = &call_forms[call_of->kind];
    uint32_t result = call_of->numbers[FIELD_RESULT];
    int found = 0;
    unsigned i;

    for (i = 0; i < form->field_count; i++)
        found |= number_outside(form->fields[i],
                                call_of->numbers[form->fields[i]],
                                view->ports);
    if (call_of->kind == CALL_START_SPLIT)
        found |= start_split_outside(call_of);
    if (call_of->kind == CALL_DELIVER)
        found |= length_outside(result_lengths(result),
                                grimholdi_result_name(result),
                                call_of->bytes_len);
    if (call_of->kind == CALL_CONTROL)
        found |= setup_outside(call_of->bytes_len);
    if (!found)
        printf("OUTSIDE: a number or a length is outside the rules\n");
}

/* Where each event is taken, by its number. */
static const char *const event_states[] = {
    [GRIMHOLDI_EVENT_ATTACH_LOW] = "Disconnected",
    [GRIMHOLDI_EVENT_ATTACH_FULL] = "Disconnected",
    [GRIMHOLDI_EVENT_DETACH] = "Disabled, Enabled and Suspended",
    [GRIMHOLDI_EVENT_CHIRP] = "Resetting, full speed",
    [GRIMHOLDI_EVENT_WAKE] = "Suspended",
    [GRIMHOLDI_EVENT_PORT_ERROR] = "Enabled",
    [GRIMHOLDI_EVENT_OVER_CURRENT_ON] = "any configured state",
    [GRIMHOLDI_EVENT_OVER_CURRENT_OFF] = "any configured state"
};

static void print_event_not_now(const area_view *view, uint32_t event,
                                uint32_t port)
{
    if (!view->configured) {
        printf("the hub is unconfigured");
        return;
    }
    printf("port %lu is ", (unsigned long)port);
    print_port_state(&view->port[port - 1]);
    printf("; %s is taken in %s", grimholdi_event_name(event),
           event_states[event]);
}

static void print_result_not_now(const area_view *view, uint32_t result)
{
    uint32_t pid = view->buffer[view->running].pid;

    if (view->low_side != LOW_SIDE_RUNNING)
        print_low_side(view);
    else
        printf("buffer %u runs %s; %s does not suit it, %s do",
               view->running, grimholdi_pid_name(pid),
               grimholdi_result_name(result), suiting_results(pid));
}

static void print_not_now(const area_view *view, const call *call_of)
{
    const uint32_t *numbers = call_of->numbers;

    printf("NOT_NOW: ");
    if (call_of->kind == CALL_LINE_EVENT)
        print_event_not_now(view, numbers[FIELD_EVENT], numbers[FIELD_PORT]);
    else if (call_of->kind == CALL_DELIVER)
        print_result_not_now(view, numbers[FIELD_RESULT]);
    else
        print_low_side(view);
    printf("\n");
}

void print_refusal(unsigned number, const area_view *view, const call *call_of)
{
    switch (number) {
    case GRIMHOLDI_ANSWER_SILENT:
        printf("SILENT: the hub is unconfigured\n");
        break;
    case GRIMHOLDI_ANSWER_OUTSIDE:
        print_outside(view, call_of);
        break;
    case GRIMHOLDI_ANSWER_NO_SPACE:
        printf("NO_SPACE: the reply space has " BYTE_COUNT "; 64 are "
               "needed\n", BYTE_COUNT_OF(call_of->room));
        break;
    default:
        print_not_now(view, call_of);
        break;
    }
}
