/* Each refusal of each call, and the order of checks. */

#include "bench_hub.h"

static const uint8_t *none = NULL;

/* The answer is bare; area and reply space are as saved. */
static int leaves_all(grimholdi_answer answer, uint8_t number)
{
    return answer.number == number && is_bare(answer)
           && area_is_saved() && reply_is_saved();
}

#define LEAVES_ALL(expected, call) \
    (save(), CHECK(leaves_all((call), expected)))

/* Short forms with the arguments that the checks vary. */

static grimholdi_answer setup_of(size_t length, size_t reply_len)
{
    static const uint8_t setup[9] = {GRIMHOLDI_TYPE_GET_CONFIGURATION,
                                     GRIMHOLDI_REQUEST_GET_CONFIGURATION,
                                     0, 0, 0, 0, 1, 0, 0};

    return grimholdi_control(area, area_len, 0, length == 0 ? none : setup,
                             length, reply_len == 0 ? NULL : reply, reply_len);
}

static grimholdi_answer poll_in(uint32_t lane, size_t reply_len)
{
    return grimholdi_poll(area, area_len, lane, reply_len == 0 ? NULL : reply,
                          reply_len);
}

static grimholdi_answer launch_into(size_t reply_len)
{
    return grimholdi_launch(area, area_len, reply_len == 0 ? NULL : reply,
                            reply_len);
}

static grimholdi_answer start(uint32_t pid, uint32_t transfer,
                              uint32_t low_speed, uint32_t toggle,
                              uint32_t address, uint32_t endpoint,
                              size_t length)
{
    uint8_t *payload = length == 0 ? NULL : allocate(length);
    grimholdi_answer answer = grimholdi_start_split(area, area_len, 0, pid,
                                                    transfer, low_speed,
                                                    toggle, address, endpoint,
                                                    payload, length);

    free(payload);
    return answer;
}

static grimholdi_answer complete_in(uint32_t address, uint32_t endpoint,
                                    uint32_t direction, size_t reply_len)
{
    return grimholdi_complete_split(area, area_len, 0, address, endpoint,
                                    direction, reply_len == 0 ? NULL : reply,
                                    reply_len);
}

static grimholdi_answer result(uint32_t number, size_t length)
{
    uint8_t *payload = length == 0 ? NULL : allocate(length);
    grimholdi_answer answer = grimholdi_deliver(area, area_len, number,
                                                payload, length);

    free(payload);
    return answer;
}

static void control_refusals(void)
{
    static const struct {
        uint8_t type, code;
        uint16_t value, index, length;
    } stalled[] = {
        {0x00, 0x09, 2, 0, 0},      {0x00, 0x09, 0x0101, 0, 0},
        {0x00, 0x09, 1, 1, 0},      {0x00, 0x09, 1, 0, 1},
        {0x80, 0x08, 1, 0, 1},      {0x80, 0x08, 0, 1, 1},
        {0x80, 0x08, 0, 0, 0},      {0x80, 0x08, 0, 0, 2},
        {0x80, 0x08, 0, 0, 0x0101}, {0xA3, 0x00, 0, 1, 0x0104},
        {0xA0, 0x06, 0x2901, 0, 9}, {0xA0, 0x06, 0x2800, 0, 9},
        {0xA0, 0x06, 0x2900, 1, 9}, {0xA0, 0x00, 0, 0, 3},
        {0xA0, 0x00, 1, 0, 4},      {0xA0, 0x00, 0, 1, 4},
        {0xA3, 0x00, 0, 0, 4},      {0xA3, 0x00, 0, 5, 4},
        {0xA3, 0x00, 0, 0x0101, 4}, {0xA3, 0x00, 0, 1, 5},
        {0xA3, 0x00, 1, 1, 4},      {0x20, 0x01, 2, 0, 0},
        {0x20, 0x01, 0, 1, 0},      {0x20, 0x01, 0, 0, 1},
        {0x23, 0x01, 0, 1, 0},      {0x23, 0x01, 3, 1, 0},
        {0x23, 0x01, 4, 1, 0},      {0x23, 0x01, 15, 1, 0},
        {0x23, 0x01, 21, 1, 0},     {0x23, 0x01, 8, 0, 0},
        {0x23, 0x01, 8, 5, 0},      {0x23, 0x01, 8, 0x0101, 0},
        {0x23, 0x01, 8, 1, 1},      {0x23, 0x01, 0x0108, 1, 0},
        {0x23, 0x03, 1, 1, 0},      {0x23, 0x03, 16, 1, 0},
        {0x23, 0x03, 8, 0, 0},      {0x23, 0x03, 8, 5, 0},
        {0x23, 0x03, 8, 0x0101, 0}, {0x23, 0x03, 8, 1, 1},
        {0x23, 0x03, 0x0108, 1, 0}, {0x23, 0x08, 0x0800, 1, 0},
        {0x23, 0x08, 0x1800, 1, 0}, {0x23, 0x08, 0x2000, 1, 0},
        {0x23, 0x08, 0x4000, 1, 0}, {0x23, 0x08, 0, 0, 0},
        {0x23, 0x08, 0, 2, 0},      {0x23, 0x08, 0, 1, 1},
        {0x23, 0x09, 1, 1, 0},      {0x23, 0x09, 0, 0, 0},
        {0x23, 0x09, 0, 2, 0},      {0x23, 0x09, 0, 1, 1},
        {0x00, 0x05, 1, 0, 0},      {0x20, 0x03, 0, 0, 0},
        {0x23, 0x0A, 0, 1, 4},      {0x23, 0x0B, 0, 1, 0},
        {0xFF, 0xFF, 0xFFFF, 0xFFFF, 0xFFFF}
    };
    static const struct {
        uint8_t type, code;
        uint16_t value, index, length;
    } configured_only[] = {
        {0xA0, 0x00, 0, 0, 4}, {0xA3, 0x00, 0, 1, 4}, {0x20, 0x01, 0, 0, 0},
        {0x23, 0x01, 8, 1, 0}, {0x23, 0x03, 8, 1, 0}, {0x23, 0x08, 0, 1, 0},
        {0x23, 0x09, 0, 1, 0}
    };
    size_t i;

    configured_hub(4, 3);
    CHECK(start_in(5, 1) == GRIMHOLDI_ANSWER_DONE);
    for (i = 0; i < sizeof stalled / sizeof *stalled; i++)
        LEAVES_ALL(GRIMHOLDI_ANSWER_STALL,
                request(stalled[i].type, stalled[i].code, stalled[i].value,
                        stalled[i].index, stalled[i].length));
    LEAVES_ALL(GRIMHOLDI_ANSWER_OUTSIDE, setup_of(0, 64));
    LEAVES_ALL(GRIMHOLDI_ANSWER_OUTSIDE, setup_of(7, 64));
    LEAVES_ALL(GRIMHOLDI_ANSWER_OUTSIDE, setup_of(9, 64));
    LEAVES_ALL(GRIMHOLDI_ANSWER_NO_SPACE, setup_of(8, 63));
    LEAVES_ALL(GRIMHOLDI_ANSWER_NO_SPACE, setup_of(8, 0));
    LEAVES_ALL(GRIMHOLDI_ANSWER_OUTSIDE, setup_of(7, 0));

    new_hub(4, 3);
    for (i = 0; i < sizeof configured_only / sizeof *configured_only; i++)
        LEAVES_ALL(GRIMHOLDI_ANSWER_STALL,
                request(configured_only[i].type, configured_only[i].code,
                        configured_only[i].value, configured_only[i].index,
                        configured_only[i].length));
    LEAVES_ALL(GRIMHOLDI_ANSWER_NO_SPACE, setup_of(8, 63));
}

/* Standard requests that the firmware answers itself, as a host sends them. */
static void firmware_requests(void)
{
    static const struct {
        uint8_t type, code;
        uint16_t value, index, length;
    } own[] = {
        {0x00, 0x05, 9, 0, 0},          /* SetAddress */
        {0x80, 0x06, 0x0100, 0, 18},    /* GetDescriptor: device, */
        {0x80, 0x06, 0x0200, 0, 9},     /* configuration, */
        {0x80, 0x06, 0x0300, 0, 255},   /* string, */
        {0x80, 0x06, 0x0600, 0, 10},    /* device qualifier, */
        {0x80, 0x06, 0x0700, 0, 9},     /* other speed configuration */
        {0x80, 0x00, 0, 0, 2},          /* GetStatus: device, */
        {0x81, 0x00, 0, 0, 2},          /* interface, */
        {0x82, 0x00, 0, 0x0081, 2},     /* endpoint */
        {0x00, 0x03, 1, 0, 0},          /* SetFeature: remote wakeup, */
        {0x02, 0x03, 0, 0x0081, 0},     /* halt */
        {0x00, 0x01, 1, 0, 0},          /* ClearFeature: remote wakeup, */
        {0x02, 0x01, 0, 0x0081, 0},     /* halt */
        {0x81, 0x0A, 0, 0, 1},          /* GetInterface */
        {0x01, 0x0B, 0, 0, 0}           /* SetInterface */
    };
    size_t i;

    for (i = 0; i < sizeof own / sizeof *own; i++) {
        new_hub(4, 3);
        LEAVES_ALL(GRIMHOLDI_ANSWER_STALL,
                   request(own[i].type, own[i].code, own[i].value,
                           own[i].index, own[i].length));
        configured_hub(4, 3);
        LEAVES_ALL(GRIMHOLDI_ANSWER_STALL,
                   request(own[i].type, own[i].code, own[i].value,
                           own[i].index, own[i].length));
    }
}

static void poll_refusals(void)
{
    new_hub(4, 3);
    LEAVES_ALL(GRIMHOLDI_ANSWER_SILENT, poll());
    LEAVES_ALL(GRIMHOLDI_ANSWER_NO_SPACE, poll_in(0, 63));
    LEAVES_ALL(GRIMHOLDI_ANSWER_NO_SPACE, poll_in(0, 0));
    configured_hub(4, 3);
    LEAVES_ALL(GRIMHOLDI_ANSWER_NAK, poll());
    LEAVES_ALL(GRIMHOLDI_ANSWER_NO_SPACE, poll_in(0, 63));
}

static void start_split_numbers(void)
{
    LEAVES_ALL(GRIMHOLDI_ANSWER_OUTSIDE, start(0, 2, 0, 0, 5, 1, 0));
    LEAVES_ALL(GRIMHOLDI_ANSWER_OUTSIDE, start(2, 2, 0, 0, 5, 1, 0));
    LEAVES_ALL(GRIMHOLDI_ANSWER_OUTSIDE, start(265, 2, 0, 0, 5, 1, 0));
    LEAVES_ALL(GRIMHOLDI_ANSWER_OUTSIDE, start(FAR_NUMBER, 2, 0, 0, 5, 1, 0));
    LEAVES_ALL(GRIMHOLDI_ANSWER_OUTSIDE, start(9, 1, 0, 0, 5, 1, 0));
    LEAVES_ALL(GRIMHOLDI_ANSWER_OUTSIDE, start(9, 3, 0, 0, 5, 1, 0));
    LEAVES_ALL(GRIMHOLDI_ANSWER_OUTSIDE, start(9, 256, 0, 0, 5, 1, 0));
    LEAVES_ALL(GRIMHOLDI_ANSWER_OUTSIDE, start(9, FAR_NUMBER, 0, 0, 5, 1, 0));
    LEAVES_ALL(GRIMHOLDI_ANSWER_OUTSIDE, start(9, 2, 2, 0, 5, 1, 0));
    LEAVES_ALL(GRIMHOLDI_ANSWER_OUTSIDE, start(9, 2, FAR_NUMBER, 0, 5, 1, 0));
    LEAVES_ALL(GRIMHOLDI_ANSWER_OUTSIDE, start(9, 2, 0, 2, 5, 1, 0));
    LEAVES_ALL(GRIMHOLDI_ANSWER_OUTSIDE, start(9, 2, 0, FAR_NUMBER, 5, 1, 0));
    LEAVES_ALL(GRIMHOLDI_ANSWER_OUTSIDE, start(9, 2, 0, 0, 128, 1, 0));
    LEAVES_ALL(GRIMHOLDI_ANSWER_OUTSIDE, start(9, 2, 0, 0, 256, 1, 0));
    LEAVES_ALL(GRIMHOLDI_ANSWER_OUTSIDE, start(9, 2, 0, 0, FAR_NUMBER, 1, 0));
    LEAVES_ALL(GRIMHOLDI_ANSWER_OUTSIDE, start(9, 2, 0, 0, 5, 16, 0));
    LEAVES_ALL(GRIMHOLDI_ANSWER_OUTSIDE, start(9, 2, 0, 0, 5, FAR_NUMBER, 0));
    LEAVES_ALL(GRIMHOLDI_ANSWER_OUTSIDE, start(9, 2, 0, 0, 5, 1, 1));
    LEAVES_ALL(GRIMHOLDI_ANSWER_OUTSIDE, start(1, 2, 0, 0, 5, 1, 65));
    LEAVES_ALL(GRIMHOLDI_ANSWER_OUTSIDE, start(1, 2, 0, 0, 5, 1, 256));
    LEAVES_ALL(GRIMHOLDI_ANSWER_OUTSIDE, start(13, 0, 0, 0, 5, 1, 7));
    LEAVES_ALL(GRIMHOLDI_ANSWER_OUTSIDE, start(13, 0, 0, 0, 5, 1, 9));
    LEAVES_ALL(GRIMHOLDI_ANSWER_OUTSIDE, start(13, 0, 0, 0, 5, 1, 264));
    LEAVES_ALL(GRIMHOLDI_ANSWER_OUTSIDE, start(13, 2, 0, 0, 5, 1, 8));
}

static void start_split_refusals(void)
{
    new_hub(4, 3);
    start_split_numbers();
    LEAVES_ALL(GRIMHOLDI_ANSWER_SILENT, start(9, 2, 0, 0, 5, 1, 0));
    configured_hub(4, 3);
    start_split_numbers();
    CHECK(start(1, 2, 0, 0, 127, 15, 64).number == GRIMHOLDI_ANSWER_DONE);
    CHECK(start(1, 0, 1, 1, 0, 0, 0).number == GRIMHOLDI_ANSWER_DONE);
    start_split_numbers();
    LEAVES_ALL(GRIMHOLDI_ANSWER_NAK, start(9, 2, 0, 0, 5, 1, 0));
    LEAVES_ALL(GRIMHOLDI_ANSWER_DONE, start(1, 2, 0, 0, 127, 15, 3));
}

static void complete_split_refusals(void)
{
    new_hub(4, 3);
    LEAVES_ALL(GRIMHOLDI_ANSWER_OUTSIDE, complete_in(128, 1, 1, 0));
    LEAVES_ALL(GRIMHOLDI_ANSWER_NO_SPACE, complete_in(5, 1, 1, 63));
    LEAVES_ALL(GRIMHOLDI_ANSWER_NO_SPACE, complete_in(5, 1, 1, 0));
    LEAVES_ALL(GRIMHOLDI_ANSWER_SILENT, complete_in(5, 1, 1, 64));
    configured_hub(4, 3);
    LEAVES_ALL(GRIMHOLDI_ANSWER_OUTSIDE, complete_in(128, 1, 1, 64));
    LEAVES_ALL(GRIMHOLDI_ANSWER_OUTSIDE, complete_in(FAR_NUMBER, 1, 1, 64));
    LEAVES_ALL(GRIMHOLDI_ANSWER_OUTSIDE, complete_in(5, 16, 1, 64));
    LEAVES_ALL(GRIMHOLDI_ANSWER_OUTSIDE, complete_in(5, FAR_NUMBER, 1, 64));
    LEAVES_ALL(GRIMHOLDI_ANSWER_OUTSIDE, complete_in(5, 1, 2, 64));
    LEAVES_ALL(GRIMHOLDI_ANSWER_OUTSIDE, complete_in(5, 1, FAR_NUMBER, 63));
    LEAVES_ALL(GRIMHOLDI_ANSWER_STALL, complete_in(5, 1, 1, 64));
    CHECK(start_in(5, 1) == GRIMHOLDI_ANSWER_DONE);
    LEAVES_ALL(GRIMHOLDI_ANSWER_NYET, complete_in(5, 1, 1, 64));
    LEAVES_ALL(GRIMHOLDI_ANSWER_NO_SPACE, complete_in(5, 1, 1, 63));
    LEAVES_ALL(GRIMHOLDI_ANSWER_STALL, complete_in(5, 1, 0, 64));
}

static void launch_refusals(void)
{
    new_hub(4, 3);
    LEAVES_ALL(GRIMHOLDI_ANSWER_NO_SPACE, launch_into(63));
    LEAVES_ALL(GRIMHOLDI_ANSWER_SILENT, launch());
    configured_hub(4, 3);
    LEAVES_ALL(GRIMHOLDI_ANSWER_NAK, launch());
    CHECK(start_in(5, 1) == GRIMHOLDI_ANSWER_DONE);
    LEAVES_ALL(GRIMHOLDI_ANSWER_NO_SPACE, launch_into(0));
    CHECK(launch().number == GRIMHOLDI_ANSWER_DATA);
    LEAVES_ALL(GRIMHOLDI_ANSWER_NOT_NOW, launch());
    LEAVES_ALL(GRIMHOLDI_ANSWER_NO_SPACE, launch_into(63));
}

static void deliver_numbers(void)
{
    static const uint32_t without_data[] = {0, 2, 10, 14};
    size_t i;

    LEAVES_ALL(GRIMHOLDI_ANSWER_OUTSIDE, result(1, 0));
    LEAVES_ALL(GRIMHOLDI_ANSWER_OUTSIDE, result(4, 0));
    LEAVES_ALL(GRIMHOLDI_ANSWER_OUTSIDE, result(9, 0));
    LEAVES_ALL(GRIMHOLDI_ANSWER_OUTSIDE, result(256, 0));
    LEAVES_ALL(GRIMHOLDI_ANSWER_OUTSIDE, result(259, 0));
    LEAVES_ALL(GRIMHOLDI_ANSWER_OUTSIDE, result(FAR_NUMBER, 0));
    LEAVES_ALL(GRIMHOLDI_ANSWER_OUTSIDE, result(3, 65));
    LEAVES_ALL(GRIMHOLDI_ANSWER_OUTSIDE, result(11, 256));
    for (i = 0; i < sizeof without_data / sizeof *without_data; i++) {
        LEAVES_ALL(GRIMHOLDI_ANSWER_OUTSIDE, result(without_data[i], 1));
        LEAVES_ALL(GRIMHOLDI_ANSWER_OUTSIDE, result(without_data[i], 256));
    }
}

static void deliver_refusals(void)
{
    new_hub(4, 3);
    deliver_numbers();
    LEAVES_ALL(GRIMHOLDI_ANSWER_SILENT, result(10, 0));
    configured_hub(4, 3);
    deliver_numbers();
    LEAVES_ALL(GRIMHOLDI_ANSWER_NOT_NOW, result(10, 0));

    CHECK(start_in(5, 1) == GRIMHOLDI_ANSWER_DONE);
    CHECK(launch().number == GRIMHOLDI_ANSWER_DATA);
    deliver_numbers();
    LEAVES_ALL(GRIMHOLDI_ANSWER_NOT_NOW, result(2, 0));
    CHECK(result(3, 64).number == GRIMHOLDI_ANSWER_DONE);

    CHECK(start_out(5, 1, none, 0) == GRIMHOLDI_ANSWER_DONE);
    CHECK(launch().number == GRIMHOLDI_ANSWER_DATA);
    LEAVES_ALL(GRIMHOLDI_ANSWER_NOT_NOW, result(3, 0));
    LEAVES_ALL(GRIMHOLDI_ANSWER_NOT_NOW, result(11, 64));
    CHECK(result(14, 0).number == GRIMHOLDI_ANSWER_DONE);

    configured_hub(4, 3);
    CHECK(start(13, 0, 0, 0, 5, 0, 8).number == GRIMHOLDI_ANSWER_DONE);
    CHECK(launch().number == GRIMHOLDI_ANSWER_DATA);
    LEAVES_ALL(GRIMHOLDI_ANSWER_NOT_NOW, result(3, 0));
    LEAVES_ALL(GRIMHOLDI_ANSWER_NOT_NOW, result(11, 0));
    LEAVES_ALL(GRIMHOLDI_ANSWER_NOT_NOW, result(10, 0));
    LEAVES_ALL(GRIMHOLDI_ANSWER_NOT_NOW, result(14, 0));
    CHECK(result(2, 0).number == GRIMHOLDI_ANSWER_DONE);
}

static grimholdi_answer line_event(uint32_t number, uint32_t port)
{
    return grimholdi_line_event(area, area_len, number, port);
}

static void line_event_refusals(void)
{
    uint32_t number;

    new_hub(4, 3);
    LEAVES_ALL(GRIMHOLDI_ANSWER_OUTSIDE, line_event(8, 1));
    LEAVES_ALL(GRIMHOLDI_ANSWER_OUTSIDE, line_event(0, 0));
    LEAVES_ALL(GRIMHOLDI_ANSWER_OUTSIDE, line_event(0, 5));
    for (number = 0; number < 8; number++)
        LEAVES_ALL(GRIMHOLDI_ANSWER_NOT_NOW, line_event(number, 1));
    configured_hub(4, 3);
    LEAVES_ALL(GRIMHOLDI_ANSWER_OUTSIDE, line_event(8, 1));
    LEAVES_ALL(GRIMHOLDI_ANSWER_OUTSIDE, line_event(256 + 6, 1));
    LEAVES_ALL(GRIMHOLDI_ANSWER_OUTSIDE, line_event(FAR_NUMBER, 1));
    LEAVES_ALL(GRIMHOLDI_ANSWER_OUTSIDE, line_event(6, 0));
    LEAVES_ALL(GRIMHOLDI_ANSWER_OUTSIDE, line_event(6, 5));
    LEAVES_ALL(GRIMHOLDI_ANSWER_OUTSIDE, line_event(6, 256 + 1));
    LEAVES_ALL(GRIMHOLDI_ANSWER_OUTSIDE, line_event(6, FAR_NUMBER));
    for (number = 0; number < 6; number++)
        LEAVES_ALL(GRIMHOLDI_ANSWER_NOT_NOW, line_event(number, 1));
    LEAVES_ALL(GRIMHOLDI_ANSWER_DONE, line_event(7, 1));
}

/* Lanes: the four calls that name one. */

static grimholdi_answer control_in(uint32_t lane, const uint8_t *setup,
                                   size_t length, size_t reply_len)
{
    return grimholdi_control(area, area_len, lane, setup, length,
                             reply_len == 0 ? NULL : reply, reply_len);
}

static grimholdi_answer start_in_lane(uint32_t lane, uint32_t address)
{
    return grimholdi_start_split(area, area_len, lane, GRIMHOLDI_PID_IN,
                                 GRIMHOLDI_TRANSFER_BULK, 0, 0, address, 1,
                                 NULL, 0);
}

static grimholdi_answer complete_in_lane(uint32_t lane, uint32_t address,
                                         uint32_t direction, size_t reply_len)
{
    return grimholdi_complete_split(area, area_len, lane, address, 1,
                                    direction, reply_len == 0 ? NULL : reply,
                                    reply_len);
}

/* Requests that would be served, then with something else wrong as well. */
static void control_lanes(uint32_t lane)
{
    static const uint8_t configure[9] = {0x00, 0x09, 1, 0, 0, 0, 0, 0, 0};
    static const uint8_t reset[8] = {0x23, 0x09, 0, 0, 1, 0, 0, 0};
    static const uint8_t describe[8] = {0xA0, 0x06, 0x00, 0x29, 0, 0, 9, 0};
    static const uint8_t wrong[8] = {0xFF, 0xFF, 0xFF, 0xFF,
                                     0xFF, 0xFF, 0xFF, 0xFF};

    LEAVES_ALL(GRIMHOLDI_ANSWER_OUTSIDE, control_in(lane, configure, 8, 64));
    LEAVES_ALL(GRIMHOLDI_ANSWER_OUTSIDE, control_in(lane, reset, 8, 64));
    LEAVES_ALL(GRIMHOLDI_ANSWER_OUTSIDE, control_in(lane, describe, 8, 64));
    LEAVES_ALL(GRIMHOLDI_ANSWER_OUTSIDE, control_in(lane, wrong, 8, 64));
    LEAVES_ALL(GRIMHOLDI_ANSWER_OUTSIDE, control_in(lane, configure, 7, 64));
    LEAVES_ALL(GRIMHOLDI_ANSWER_OUTSIDE, control_in(lane, configure, 9, 64));
    LEAVES_ALL(GRIMHOLDI_ANSWER_OUTSIDE, control_in(lane, none, 0, 64));
    LEAVES_ALL(GRIMHOLDI_ANSWER_OUTSIDE, control_in(lane, describe, 8, 63));
    LEAVES_ALL(GRIMHOLDI_ANSWER_OUTSIDE, control_in(lane, wrong, 8, 0));
}

/* (5, 1) is held where anything is; (7, 1) never; 128 is no address. */
static void other_lanes(uint32_t lane)
{
    LEAVES_ALL(GRIMHOLDI_ANSWER_OUTSIDE, poll_in(lane, 64));
    LEAVES_ALL(GRIMHOLDI_ANSWER_OUTSIDE, poll_in(lane, 63));
    LEAVES_ALL(GRIMHOLDI_ANSWER_OUTSIDE, poll_in(lane, 0));
    LEAVES_ALL(GRIMHOLDI_ANSWER_OUTSIDE, start_in_lane(lane, 5));
    LEAVES_ALL(GRIMHOLDI_ANSWER_OUTSIDE, start_in_lane(lane, 7));
    LEAVES_ALL(GRIMHOLDI_ANSWER_OUTSIDE, start_in_lane(lane, 128));
    LEAVES_ALL(GRIMHOLDI_ANSWER_OUTSIDE, complete_in_lane(lane, 5, 1, 64));
    LEAVES_ALL(GRIMHOLDI_ANSWER_OUTSIDE, complete_in_lane(lane, 7, 1, 64));
    LEAVES_ALL(GRIMHOLDI_ANSWER_OUTSIDE, complete_in_lane(lane, 5, 1, 63));
    LEAVES_ALL(GRIMHOLDI_ANSWER_OUTSIDE, complete_in_lane(lane, 5, 2, 0));
}

static void lane_numbers(void)
{
    static const uint32_t outside[] = {2, 255, 0x100, 0x101, 0x10000,
                                       FAR_NUMBER};
    size_t i;

    for (i = 0; i < sizeof outside / sizeof *outside; i++) {
        control_lanes(outside[i]);
        other_lanes(outside[i]);
    }
}

/* Both lanes hold (5, 1) ready with data; port 2 has a change bit. */
static void busy_hub(void)
{
    uint32_t lane;

    configured_hub(4, 3);
    CHECK(set_feature(GRIMHOLDI_PORT_POWER, 2) == GRIMHOLDI_ANSWER_DONE);
    CHECK(event(GRIMHOLDI_EVENT_ATTACH_FULL, 2) == GRIMHOLDI_ANSWER_DONE);
    for (lane = 0; lane <= GRIMHOLDI_LANE_MAX; lane++) {
        CHECK(start_in_from(lane, 5, 1) == GRIMHOLDI_ANSWER_DONE);
        CHECK(launch().number == GRIMHOLDI_ANSWER_DATA);
        CHECK(deliver(GRIMHOLDI_RESULT_DATA0, (const uint8_t *)"abc", 3)
              == GRIMHOLDI_ANSWER_DONE);
    }
}

static void lane_refusals(void)
{
    uint32_t lane;

    new_hub(4, 3);
    lane_numbers();
    configured_hub(4, 3);
    lane_numbers();
    busy_hub();
    lane_numbers();

    /* Lanes 0 and 1 are served. */
    for (lane = 0; lane <= GRIMHOLDI_LANE_MAX; lane++) {
        CHECK(gives(poll_from(lane), "\x04", 1));
        CHECK(gives(complete_from(lane, 5, 1, GRIMHOLDI_DIRECTION_IN),
                    "abc", 3));
    }
}

int main(void)
{
    control_refusals();
    firmware_requests();
    poll_refusals();
    start_split_refusals();
    complete_split_refusals();
    launch_refusals();
    deliver_refusals();
    line_event_refusals();
    lane_refusals();
    free_hub();
    return check_summary("refusals");
}
