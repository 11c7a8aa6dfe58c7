#include "reason_text.h"

#include <stdio.h>

#include "../words/phrases.h"
#include "../words/requests.h"
#include "../words/text.h"
#include "refusal_text.h"
#include "state_text.h"

static unsigned limit_of(const area_view *view)
{
    return view->buffers - 1u;
}

/* "buffer 0 pending (5,1 IN), buffer 2 ready (6,1 IN)" */
static void print_held(const area_view *view, int of_all_lanes, uint32_t lane)
{
    const char *before = "";
    unsigned i;

    for (i = 0; i < view->buffers; i++) {
        const buffer_view *buffer = &view->buffer[i];

        if (!buffer_is_held(buffer) || !(of_all_lanes || buffer->lane == lane))
            continue;
        printf("%sbuffer %u %s ", before, i,
               status_name(buffer->status));
        if (of_all_lanes)
            printf("lane %u ", buffer->lane);
        print_key(buffer->address, buffer->endpoint, buffer->direction);
        before = ", ";
    }
}

static void print_own_key(const call *call_of)
{
    print_key(call_of->numbers[FIELD_ADDRESS],
              call_of->numbers[FIELD_ENDPOINT],
              direction_of_pid(call_of->numbers[FIELD_PID]));
}

static void print_below_limit(const area_view *view, const call *call_of)
{
    printf("lane %u is below its limit of %u",
           (unsigned)call_of->numbers[FIELD_LANE], limit_of(view));
}

static void print_took_free(const area_view *view, const call *call_of,
                            unsigned number)
{
    const buffer_view *buffer = &view->buffer[number];

    print_below_limit(view, call_of);
    printf(", no buffer has this key ");
    print_own_key(call_of);
    printf(", and buffer %u is %s", number,
           status_name(buffer->status));
    if (buffer->status != STATUS_EMPTY) {
        printf(" lane %u ", buffer->lane);
        print_key(buffer->address, buffer->endpoint, buffer->direction);
    }
    printf(", the lowest that is empty or old: stored there");
}

static void print_start_split(const area_view *view, const call *call_of,
                              const grimholdi_reason *reason)
{
    unsigned lane = (unsigned)call_of->numbers[FIELD_LANE];
    unsigned number = reason->value;

    switch (reason->kind) {
    case GRIMHOLDI_WHY_HELD:
        printf("buffer %u is %s with this key ", number,
               status_name(view->buffer[number].status));
        print_own_key(call_of);
        printf(": a repeat, nothing is stored");
        break;
    case GRIMHOLDI_WHY_REUSED:
        print_below_limit(view, call_of);
        printf(", and buffer %u is old with this key ", number);
        print_own_key(call_of);
        printf(": stored there");
        break;
    case GRIMHOLDI_WHY_TOOK_FREE:
        print_took_free(view, call_of, number);
        break;
    case GRIMHOLDI_WHY_LIMIT:
        printf("lane %u is at its limit of %u: ", lane, limit_of(view));
        print_held(view, 0, lane);
        break;
    default:
        print_below_limit(view, call_of);
        printf(", and every buffer is pending or ready under another key: ");
        print_held(view, 1, lane);
        break;
    }
}

static void print_ports(const grimholdi_reason *reason)
{
    const char *before = "";
    unsigned i;

    for (i = 0; i < GRIMHOLDI_PORTS_MAX; i++)
        if (reason->changes[i] != 0) {
            printf("%sport %u: ", before, i + 1);
            print_changes(reason->changes[i]);
            before = "; ";
        }
}

/* The answer in words, where its name alone doesn't say it. */
static void print_answer(const call *call_of, const grimholdi_answer *answer)
{
    if (answer->number == GRIMHOLDI_ANSWER_DONE)
        printf("done (ACK); ");
    if (answer->number == GRIMHOLDI_ANSWER_NAK)
        printf("nothing to give; ");
    if (answer->number == GRIMHOLDI_ANSWER_HANDSHAKE)
        printf("the device's handshake is %s; ",
               grimholdi_result_name(answer->pid));
    if (answer->number != GRIMHOLDI_ANSWER_DATA)
        return;
    if (call_of->kind == CALL_COMPLETE_SPLIT)
        printf("%s, ", grimholdi_result_name(answer->pid));
    if (call_of->kind == CALL_LAUNCH) {
        print_launched(answer);
        printf(", ");
    }
    printf(BYTE_COUNT "; ", BYTE_COUNT_OF(answer->length));
}

void print_reason(const area_view *view, const call *call_of,
                  const grimholdi_answer *answer,
                  const grimholdi_reason *reason)
{
    request wrong;

    if (reason->kind == GRIMHOLDI_WHY_NUMBER) {
        print_refusal(reason->value, view, call_of);
        return;
    }
    printf("%s: ", grimholdi_answer_name(answer->number));
    switch (reason->kind) {
    case GRIMHOLDI_WHY_NONE:
        print_answer(call_of, answer);
        printf("no reason is given for this answer");
        break;
    case GRIMHOLDI_WHY_CHANGES:
        print_ports(reason);
        break;
    case GRIMHOLDI_WHY_WRONG:
        wrong = read_request(call_of->bytes);
        print_wrong(&wrong, reason->value, view->ports);
        break;
    default:
        print_start_split(view, call_of, reason);
        break;
    }
    printf("\n");
}
