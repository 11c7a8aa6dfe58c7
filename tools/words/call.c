#include "call.h"

#include "grimholdi_record.h"

const field_form field_forms[FIELDS] = {
    [FIELD_LANE] = {"LANE", "lane", NULL, GRIMHOLDI_LANE_MAX, "0 and 1"},
    [FIELD_PID] = {"PID", "PID", grimholdi_pid_name, 0,
                   "OUT 1, IN 9 and SETUP 13"},
    [FIELD_TYPE] = {"TYPE", "type", grimholdi_transfer_name, 0,
                    "control 0 and bulk 2"},
    [FIELD_SPEED] = {"SPEED", "speed", grimholdi_low_speed_name, 0,
                     "full 0 and low 1"},
    [FIELD_TOGGLE] = {"TOGGLE", "toggle", NULL, 1, "0 and 1"},
    [FIELD_ADDRESS] = {"ADDRESS", "address", NULL, GRIMHOLDI_ADDRESS_MAX,
                       "0 to 127"},
    [FIELD_ENDPOINT] = {"ENDPOINT", "endpoint", NULL, GRIMHOLDI_ENDPOINT_MAX,
                        "0 to 15"},
    [FIELD_DIRECTION] = {"DIRECTION", "direction",
                         grimholdi_direction_name, 0, "OUT 0 and IN 1"},
    [FIELD_RESULT] = {"RESULT", "result", grimholdi_result_name, 0,
                      "failure 0, ACK 2, DATA0 3, NAK 10, DATA1 11 and "
                      "STALL 14"},
    [FIELD_EVENT] = {"EVENT", "event", grimholdi_event_name, 0, "0 to 7"},
    [FIELD_PORT] = {"PORT", "port", NULL, 0, NULL}
};

const call_form call_forms[CALLS] = {
    [CALL_CONTROL] = {GRIMHOLDI_RECORD_CONTROL, "control", 1, {FIELD_LANE},
                      BYTES_SETUP, 1},
    [CALL_POLL] = {GRIMHOLDI_RECORD_POLL, "poll", 1, {FIELD_LANE},
                   BYTES_NONE, 1},
    [CALL_START_SPLIT] = {GRIMHOLDI_RECORD_START_SPLIT, "start-split", 7,
                          {FIELD_LANE, FIELD_PID, FIELD_TYPE, FIELD_SPEED,
                           FIELD_TOGGLE, FIELD_ADDRESS, FIELD_ENDPOINT},
                          BYTES_PAYLOAD, 0},
    [CALL_COMPLETE_SPLIT] = {GRIMHOLDI_RECORD_COMPLETE_SPLIT,
                             "complete-split", 4,
                             {FIELD_LANE, FIELD_ADDRESS, FIELD_ENDPOINT,
                              FIELD_DIRECTION},
                             BYTES_NONE, 1},
    [CALL_LAUNCH] = {.tag = GRIMHOLDI_RECORD_LAUNCH, .name = "launch",
                     .has_room = 1},
    [CALL_DELIVER] = {GRIMHOLDI_RECORD_DELIVER, "deliver", 1, {FIELD_RESULT},
                      BYTES_PAYLOAD, 0},
    [CALL_LINE_EVENT] = {GRIMHOLDI_RECORD_LINE_EVENT, "line-event", 2,
                         {FIELD_EVENT, FIELD_PORT}, BYTES_NONE, 0},
    [CALL_TICK] = {.tag = GRIMHOLDI_RECORD_TICK, .name = "tick"},
    [CALL_BUS_RESET] = {.tag = GRIMHOLDI_RECORD_BUS_RESET,
                        .name = "bus-reset"}
};
