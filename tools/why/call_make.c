#include "call_make.h"

grimholdi_answer call_make(const call *call_of, uint8_t *area,
                           size_t area_len, uint8_t reply[CALL_ROOM_MAX])
{
    const uint32_t *n = call_of->numbers;
    size_t room = call_of->room < CALL_ROOM_MAX ? call_of->room
                                                : CALL_ROOM_MAX;

    switch (call_of->kind) {
    case CALL_CONTROL:
        return grimholdi_control(area, area_len, n[FIELD_LANE],
                                 call_of->bytes, call_of->bytes_len,
                                 reply, room);
    case CALL_POLL:
        return grimholdi_poll(area, area_len, n[FIELD_LANE], reply, room);
    case CALL_START_SPLIT:
        return grimholdi_start_split(area, area_len, n[FIELD_LANE],
                                     n[FIELD_PID], n[FIELD_TYPE],
                                     n[FIELD_SPEED], n[FIELD_TOGGLE],
                                     n[FIELD_ADDRESS], n[FIELD_ENDPOINT],
                                     call_of->bytes, call_of->bytes_len);
    case CALL_COMPLETE_SPLIT:
        return grimholdi_complete_split(area, area_len, n[FIELD_LANE],
                                        n[FIELD_ADDRESS], n[FIELD_ENDPOINT],
                                        n[FIELD_DIRECTION], reply, room);
    case CALL_LAUNCH:
        return grimholdi_launch(area, area_len, reply, room);
    case CALL_DELIVER:
        return grimholdi_deliver(area, area_len, n[FIELD_RESULT],
                                 call_of->bytes, call_of->bytes_len);
    case CALL_LINE_EVENT:
        return grimholdi_line_event(area, area_len, n[FIELD_EVENT],
                                    n[FIELD_PORT]);
    case CALL_TICK:
        return grimholdi_tick(area, area_len);
    default:
        return grimholdi_bus_reset(area, area_len);
    }
}

grimholdi_reason call_explain(const call *call_of, const uint8_t *area,
                              size_t area_len)
{
    const uint32_t *n = call_of->numbers;

    switch (call_of->kind) {
    case CALL_CONTROL:
        return grimholdi_why_control(area, area_len, n[FIELD_LANE],
                                     call_of->bytes, call_of->bytes_len,
                                     call_of->room);
    case CALL_POLL:
        return grimholdi_why_poll(area, area_len, n[FIELD_LANE],
                                  call_of->room);
    case CALL_START_SPLIT:
        return grimholdi_why_start_split(
            area, area_len, n[FIELD_LANE], n[FIELD_PID], n[FIELD_TYPE],
            n[FIELD_SPEED], n[FIELD_TOGGLE], n[FIELD_ADDRESS],
            n[FIELD_ENDPOINT], call_of->bytes, call_of->bytes_len);
    case CALL_COMPLETE_SPLIT:
        return grimholdi_why_complete_split(
            area, area_len, n[FIELD_LANE], n[FIELD_ADDRESS],
            n[FIELD_ENDPOINT], n[FIELD_DIRECTION], call_of->room);
    case CALL_LAUNCH:
        return grimholdi_why_launch(area, area_len, call_of->room);
    case CALL_DELIVER:
        return grimholdi_why_deliver(area, area_len, n[FIELD_RESULT],
                                     call_of->bytes, call_of->bytes_len);
    case CALL_LINE_EVENT:
        return grimholdi_why_line_event(area, area_len, n[FIELD_EVENT],
                                        n[FIELD_PORT]);
    case CALL_TICK:
        return grimholdi_why_tick(area, area_len);
    default:
        return grimholdi_why_bus_reset(area, area_len);
    }
}
