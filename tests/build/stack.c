/*
 * The stack that each call is seen to use.  It is made on a stack of its own,
 * which is painted first; what changed there was used.  Prints a line for each
 * call: its name, and the most bytes of its uses, less those around
 * grimholdi_version, which needs none.
 */

#define _XOPEN_SOURCE 700

#include "grimholdi_record.h"
#include "grimholdi_setup.h"

#include <stdio.h>
#include <stdlib.h>
#include <string.h>
#include <ucontext.h>

enum { PORTS = 7, BUFFERS = 4, PAINT = 0xA5, SPACE = 65536 };

static uint8_t stack[SPACE];
static ucontext_t caller;
static ucontext_t callee;

static uint8_t area[GRIMHOLDI_AREA_LENGTH_MAX];
static uint8_t reply[GRIMHOLDI_REPLY_LENGTH];
static uint8_t setup[GRIMHOLDI_SETUP_LENGTH];
static uint8_t payload[GRIMHOLDI_PAYLOAD_MAX];
static uint8_t block[GRIMHOLDI_BLOCK_LENGTH];
static uint8_t record[GRIMHOLDI_RECORD_SPACE];
static uint8_t answers[GRIMHOLDI_ANSWERS_LENGTH];
static size_t record_len;
static uint32_t event, port, pid, result, direction;
static size_t payload_len;
static int answered;

#define AREA area, sizeof area
#define REPLY reply, sizeof reply
#define START AREA, 0, pid, 0, 0, 0, 5, 1, payload, payload_len

/* Each call with the numbers above, and its number or kind. */
#define CALLS(call) \
    call(version, grimholdi_version() != GRIMHOLDI_VERSION_NUMBER) \
    call(area_length, \
         grimholdi_area_length(PORTS, BUFFERS) != sizeof area) \
    call(new, grimholdi_new(AREA, PORTS, BUFFERS, 50, 100, 0).number) \
    call(control, \
         grimholdi_control(AREA, 0, setup, sizeof setup, REPLY).number) \
    call(poll, grimholdi_poll(AREA, 0, REPLY).number) \
    call(start_split, grimholdi_start_split(START).number) \
    call(complete_split, \
         grimholdi_complete_split(AREA, 0, 5, 1, direction, REPLY).number) \
    call(launch, grimholdi_launch(AREA, REPLY).number) \
    call(deliver, \
         grimholdi_deliver(AREA, result, payload, payload_len).number) \
    call(line_event, grimholdi_line_event(AREA, event, port).number) \
    call(tick, grimholdi_tick(AREA).number) \
    call(bus_reset, grimholdi_bus_reset(AREA).number) \
    call(why_control, grimholdi_why_control(AREA, 0, setup, sizeof setup, \
                                            sizeof reply).kind) \
    call(why_poll, grimholdi_why_poll(AREA, 0, sizeof reply).kind) \
    call(why_start_split, grimholdi_why_start_split(START).kind) \
    call(why_complete_split, \
         grimholdi_why_complete_split(AREA, 0, 5, 1, direction, \
                                      sizeof reply).kind) \
    call(why_launch, grimholdi_why_launch(AREA, sizeof reply).kind) \
    call(why_deliver, \
         grimholdi_why_deliver(AREA, result, payload, payload_len).kind) \
    call(why_line_event, grimholdi_why_line_event(AREA, event, port).kind) \
    call(why_tick, grimholdi_why_tick(AREA).kind) \
    call(why_bus_reset, grimholdi_why_bus_reset(AREA).kind) \
    call(block_start, grimholdi_block_start(block, sizeof block, 1)) \
    call(block_add, \
         grimholdi_block_add(block, sizeof block, record, record_len)) \
    call(block_finish, grimholdi_block_finish(block, sizeof block)) \
    call(replay_block, \
         grimholdi_replay_block(AREA, 1, block, sizeof block, answers, \
                                sizeof answers).number)

#define MADE(name, call) static void make_##name(void) { answered = call; }
#define NAMED(name, call) CALL_##name,
#define LISTED(name, call) {"grimholdi_" #name, make_##name},

CALLS(MADE)

enum { CALLS(NAMED) COUNT };

static const struct {
    const char *name;
    void (*make)(void);
} calls[] = { CALLS(LISTED) };

static size_t most[COUNT];

static void make(int which, int expected)
{
    size_t untouched = 0;

    memset(stack, PAINT, sizeof stack);
    getcontext(&callee);
    callee.uc_stack.ss_sp = stack;
    callee.uc_stack.ss_size = sizeof stack;
    callee.uc_link = &caller;
    makecontext(&callee, calls[which].make, 0);
    swapcontext(&caller, &callee);
    if (answered != expected) {
        fprintf(stderr, "stack: %s answered %d instead of %d\n",
                calls[which].name, answered, expected);
        exit(1);
    }
    while (untouched < sizeof stack && stack[untouched] == PAINT)
        untouched++;
    if (sizeof stack - untouched > most[which])
        most[which] = sizeof stack - untouched;
}

/* A call, explained and made. */
#define BOTH(name, kind, number) \
    (make(CALL_why_##name, GRIMHOLDI_WHY_##kind), \
     make(CALL_##name, GRIMHOLDI_ANSWER_##number))

static void set_up(void)
{
    int ticks;

    make(CALL_version, 0);
    make(CALL_area_length, 0);
    make(CALL_new, GRIMHOLDI_ANSWER_DONE);
    grimholdi_setup_set_configuration(setup, 1);
    BOTH(control, NONE, DONE);
    event = GRIMHOLDI_EVENT_ATTACH_FULL;
    for (port = 1; port <= PORTS; port++) {
        grimholdi_setup_set_port_feature(setup, GRIMHOLDI_PORT_POWER, port);
        BOTH(control, NONE, DONE);
        BOTH(line_event, NONE, DONE);
        BOTH(line_event, NUMBER, NOT_NOW);
        grimholdi_setup_set_port_feature(setup, GRIMHOLDI_PORT_RESET, port);
        BOTH(control, NONE, DONE);
    }
    for (ticks = 0; ticks < GRIMHOLDI_RESET_TICKS; ticks++)
        BOTH(tick, NONE, DONE);
    BOTH(poll, CHANGES, DATA);
    grimholdi_setup_get_port_status(setup, PORTS);
    BOTH(control, NONE, DATA);
    grimholdi_setup_get_port_status(setup, PORTS + 1);
    BOTH(control, WRONG, STALL);
    grimholdi_setup_get_hub_descriptor(setup, 9);
    BOTH(control, NONE, DATA);
}

/* One transaction IN, a repeat and a reuse of its buffer, and one OUT. */
static void transactions(void)
{
    int turn;

    direction = GRIMHOLDI_DIRECTION_IN;
    pid = GRIMHOLDI_PID_IN;
    result = GRIMHOLDI_RESULT_DATA0;
    for (turn = 0; turn < 2; turn++) {
        payload_len = 0;
        make(CALL_why_start_split, turn == 0 ? GRIMHOLDI_WHY_TOOK_FREE
                                             : GRIMHOLDI_WHY_REUSED);
        make(CALL_start_split, GRIMHOLDI_ANSWER_DONE);
        BOTH(start_split, HELD, DONE);
        BOTH(launch, NONE, DATA);
        payload_len = sizeof payload;
        BOTH(deliver, NONE, DONE);
        BOTH(complete_split, NONE, DATA);
    }
    direction = GRIMHOLDI_DIRECTION_OUT;
    pid = GRIMHOLDI_PID_OUT;
    result = GRIMHOLDI_RESULT_ACK;
    BOTH(start_split, TOOK_FREE, DONE);
    BOTH(launch, NONE, DATA);
    payload_len = 0;
    BOTH(deliver, NONE, DONE);
    BOTH(complete_split, NONE, HANDSHAKE);
    grimholdi_setup_clear_tt_buffer(setup, 5, 1, direction, 0);
    BOTH(control, NONE, DONE);
    grimholdi_setup_reset_tt(setup);
    BOTH(control, NONE, DONE);
}

static void add(size_t written)
{
    record_len = written;
    make(CALL_block_add, GRIMHOLDI_ANSWER_DONE);
}

/* The same calls in a block that is replayed. */
static void recorded(void)
{
    make(CALL_block_start, GRIMHOLDI_ANSWER_DONE);
    add(grimholdi_record_start_split(record, sizeof record, 0,
                                     GRIMHOLDI_PID_IN, 0, 0, 0, 5, 1, NULL,
                                     0));
    add(grimholdi_record_launch(record, sizeof record, sizeof reply));
    add(grimholdi_record_deliver(record, sizeof record,
                                 GRIMHOLDI_RESULT_DATA0, payload,
                                 sizeof payload));
    add(grimholdi_record_complete_split(record, sizeof record, 0, 5, 1,
                                        GRIMHOLDI_DIRECTION_IN,
                                        sizeof reply));
    add(grimholdi_record_control(record, sizeof record, 0, setup,
                                 sizeof setup, sizeof reply));
    add(grimholdi_record_poll(record, sizeof record, 0, sizeof reply));
    add(grimholdi_record_line_event(record, sizeof record,
                                    GRIMHOLDI_EVENT_DETACH, 1));
    add(grimholdi_record_tick(record, sizeof record));
    add(grimholdi_record_bus_reset(record, sizeof record));
    make(CALL_block_finish, GRIMHOLDI_ANSWER_DONE);
    make(CALL_replay_block, GRIMHOLDI_ANSWER_DONE);
}

int main(void)
{
    int which;

    set_up();
    transactions();
    recorded();
    BOTH(bus_reset, NONE, DONE);
    for (which = 0; which < COUNT; which++)
        printf("%s %zu\n", calls[which].name,
               most[which] - most[CALL_version]);
    return 0;
}
