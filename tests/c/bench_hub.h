/*
 * A hub under test: its area, its reply space, and short forms of the calls.
 * A form that ends in _from names the lane; the others are in lane 0.
 */

#ifndef BENCH_HUB_H
#define BENCH_HUB_H

#include "grimholdi.h"

#include <stdlib.h>
#include <string.h>

#include "check.h"

#define FAR_NUMBER UINT32_MAX

/* Allocated with their exact lengths, so that valgrind sees any overrun. */
static uint8_t *area;
static size_t area_len;
static uint8_t *reply;

static uint8_t saved_area[GRIMHOLDI_AREA_LENGTH_MAX];
static uint8_t saved_reply[GRIMHOLDI_REPLY_LENGTH];

static inline void free_hub(void)
{
    free(area);
    free(reply);
    area = NULL;
    reply = NULL;
}

static inline uint8_t *allocate(size_t length)
{
    uint8_t *bytes = (uint8_t *)malloc(length);

    if (bytes == NULL)
        abort();
    memset(bytes, 0xEE, length);
    return bytes;
}

/* A new hub with power-good 32h, current 64h and removable 00. */
static inline void new_hub(uint32_t ports, uint32_t buffers)
{
    free_hub();
    area_len = grimholdi_area_length(ports, buffers);
    area = allocate(area_len);
    reply = allocate(GRIMHOLDI_REPLY_LENGTH);
    CHECK(grimholdi_new(area, area_len, ports, buffers, 0x32, 0x64, 0).number
          == GRIMHOLDI_ANSWER_DONE);
}

static inline void save(void)
{
    memcpy(saved_area, area, area_len);
    memcpy(saved_reply, reply, sizeof saved_reply);
}

static inline void restore(void)
{
    memcpy(area, saved_area, area_len);
    memcpy(reply, saved_reply, sizeof saved_reply);
}

static inline int area_is_saved(void)
{
    return memcmp(saved_area, area, area_len) == 0;
}

static inline int reply_is_saved(void)
{
    return memcmp(saved_reply, reply, sizeof saved_reply) == 0;
}

static inline void put_setup(uint8_t setup[GRIMHOLDI_SETUP_LENGTH],
                             uint8_t type, uint8_t code, uint16_t value,
                             uint16_t index, uint16_t length)
{
    setup[0] = type;
    setup[1] = code;
    setup[2] = (uint8_t)value;
    setup[3] = (uint8_t)(value >> 8);
    setup[4] = (uint8_t)index;
    setup[5] = (uint8_t)(index >> 8);
    setup[6] = (uint8_t)length;
    setup[7] = (uint8_t)(length >> 8);
}

static inline grimholdi_answer request_from(uint32_t lane, uint8_t type,
                                            uint8_t code, uint16_t value,
                                            uint16_t index, uint16_t length)
{
    uint8_t setup[GRIMHOLDI_SETUP_LENGTH];

    put_setup(setup, type, code, value, index, length);
    return grimholdi_control(area, area_len, lane, setup, sizeof setup,
                             reply, GRIMHOLDI_REPLY_LENGTH);
}

static inline grimholdi_answer request(uint8_t type, uint8_t code,
                                       uint16_t value, uint16_t index,
                                       uint16_t length)
{
    return request_from(0, type, code, value, index, length);
}

static inline uint8_t set_configuration_from(uint32_t lane, uint16_t value)
{
    return request_from(lane, GRIMHOLDI_TYPE_SET_CONFIGURATION,
                        GRIMHOLDI_REQUEST_SET_CONFIGURATION, value, 0,
                        0).number;
}

static inline uint8_t set_configuration(uint16_t value)
{
    return set_configuration_from(0, value);
}

static inline void configured_hub(uint32_t ports, uint32_t buffers)
{
    new_hub(ports, buffers);
    CHECK(set_configuration(1) == GRIMHOLDI_ANSWER_DONE);
}

static inline uint8_t set_feature_from(uint32_t lane, uint16_t feature,
                                       uint16_t port)
{
    return request_from(lane, GRIMHOLDI_TYPE_SET_PORT,
                        GRIMHOLDI_REQUEST_SET_FEATURE, feature, port,
                        0).number;
}

static inline uint8_t set_feature(uint16_t feature, uint16_t port)
{
    return set_feature_from(0, feature, port);
}

static inline uint8_t clear_feature_from(uint32_t lane, uint16_t feature,
                                         uint16_t port)
{
    return request_from(lane, GRIMHOLDI_TYPE_SET_PORT,
                        GRIMHOLDI_REQUEST_CLEAR_FEATURE, feature, port,
                        0).number;
}

static inline uint8_t clear_feature(uint16_t feature, uint16_t port)
{
    return clear_feature_from(0, feature, port);
}

/* wValue of ClearTTBuffer, with type control. */
static inline uint16_t tt_value(uint32_t address, uint32_t endpoint,
                                uint32_t direction)
{
    return (uint16_t)(endpoint << GRIMHOLDI_TT_ENDPOINT_SHIFT
                      | address << GRIMHOLDI_TT_ADDRESS_SHIFT
                      | direction << GRIMHOLDI_TT_DIRECTION_SHIFT);
}

static inline uint8_t clear_tt_buffer_from(uint32_t lane, uint16_t address,
                                           uint16_t endpoint,
                                           uint16_t direction)
{
    return request_from(lane, GRIMHOLDI_TYPE_SET_PORT,
                        GRIMHOLDI_REQUEST_CLEAR_TT_BUFFER,
                        tt_value(address, endpoint, direction), 1, 0).number;
}

static inline uint8_t clear_tt_buffer(uint16_t address, uint16_t endpoint,
                                      uint16_t direction)
{
    return clear_tt_buffer_from(0, address, endpoint, direction);
}

static inline uint8_t reset_tt_from(uint32_t lane)
{
    return request_from(lane, GRIMHOLDI_TYPE_SET_PORT,
                        GRIMHOLDI_REQUEST_RESET_TT, 0, 1, 0).number;
}

static inline uint8_t bus_reset(void)
{
    return grimholdi_bus_reset(area, area_len).number;
}

static inline uint8_t event(uint32_t number, uint32_t port)
{
    return grimholdi_line_event(area, area_len, number, port).number;
}

static inline void ticks(int count)
{
    while (count-- > 0)
        CHECK(grimholdi_tick(area, area_len).number == GRIMHOLDI_ANSWER_DONE);
}

static inline grimholdi_answer poll_from(uint32_t lane)
{
    return grimholdi_poll(area, area_len, lane, reply, GRIMHOLDI_REPLY_LENGTH);
}

static inline grimholdi_answer poll(void)
{
    return poll_from(0);
}

static inline grimholdi_answer launch(void)
{
    return grimholdi_launch(area, area_len, reply, GRIMHOLDI_REPLY_LENGTH);
}

static inline uint8_t start_in_from(uint32_t lane, uint32_t address,
                                    uint32_t endpoint)
{
    return grimholdi_start_split(area, area_len, lane, GRIMHOLDI_PID_IN,
                                 GRIMHOLDI_TRANSFER_BULK, 0, 0,
                                 address, endpoint, NULL, 0).number;
}

static inline uint8_t start_in(uint32_t address, uint32_t endpoint)
{
    return start_in_from(0, address, endpoint);
}

static inline uint8_t start_out_from(uint32_t lane, uint32_t address,
                                     uint32_t endpoint,
                                     const uint8_t *payload, size_t length)
{
    return grimholdi_start_split(area, area_len, lane, GRIMHOLDI_PID_OUT,
                                 GRIMHOLDI_TRANSFER_BULK, 0, 0,
                                 address, endpoint, payload, length).number;
}

static inline uint8_t start_out(uint32_t address, uint32_t endpoint,
                                const uint8_t *payload, size_t length)
{
    return start_out_from(0, address, endpoint, payload, length);
}

static inline uint8_t deliver(uint32_t result, const uint8_t *payload,
                              size_t length)
{
    return grimholdi_deliver(area, area_len, result, payload, length).number;
}

static inline grimholdi_answer complete_from(uint32_t lane, uint32_t address,
                                             uint32_t endpoint,
                                             uint32_t direction)
{
    return grimholdi_complete_split(area, area_len, lane, address, endpoint,
                                    direction, reply,
                                    GRIMHOLDI_REPLY_LENGTH);
}

static inline grimholdi_answer complete(uint32_t address, uint32_t endpoint,
                                        uint32_t direction)
{
    return complete_from(0, address, endpoint, direction);
}

/* The answer is data with exactly these bytes in the reply space. */
static inline int gives(grimholdi_answer answer, const char *bytes,
                        uint8_t length)
{
    return answer.number == GRIMHOLDI_ANSWER_DATA && answer.length == length
           && memcmp(reply, bytes, length) == 0;
}

/* IN transactions of (address, 1). */

/* The launched transaction is the one of this lane and address. */
static inline int launches(uint32_t lane, uint32_t address)
{
    grimholdi_answer answer = launch();

    return answer.number == GRIMHOLDI_ANSWER_DATA && answer.lane == lane
           && answer.address == address;
}

static inline uint8_t deliver_text(const char *text)
{
    return deliver(GRIMHOLDI_RESULT_DATA0, (const uint8_t *)text,
                   strlen(text));
}

/* The result of the transaction is data with these bytes. */
static inline int has_text(uint32_t lane, uint32_t address,
                           const char *text)
{
    return gives(complete_from(lane, address, 1, GRIMHOLDI_DIRECTION_IN), text,
                 (uint8_t)strlen(text));
}

/* A ready buffer with these bytes; nothing else may be pending. */
static inline void make_ready(uint32_t lane, uint32_t address,
                              const char *text)
{
    CHECK(start_in_from(lane, address, 1) == GRIMHOLDI_ANSWER_DONE);
    CHECK(launches(lane, address));
    CHECK(deliver_text(text) == GRIMHOLDI_ANSWER_DONE);
}

static inline void make_old(uint32_t lane, uint32_t address,
                            const char *text)
{
    make_ready(lane, address, text);
    CHECK(has_text(lane, address, text));
}

/* GetPortStatus gives these four bytes. */
static inline int status_is_from(uint32_t lane, uint16_t port,
                                 const char *bytes)
{
    return gives(request_from(lane, GRIMHOLDI_TYPE_GET_PORT,
                              GRIMHOLDI_REQUEST_GET_STATUS, 0, port, 4),
                 bytes, 4);
}

static inline int status_is(uint16_t port, const char *bytes)
{
    return status_is_from(0, port, bytes);
}

/* The change bits that GetPortStatus gives. */
static inline uint16_t port_changes(uint16_t port)
{
    CHECK(request(GRIMHOLDI_TYPE_GET_PORT, GRIMHOLDI_REQUEST_GET_STATUS,
                  0, port, 4).number == GRIMHOLDI_ANSWER_DATA);
    return (uint16_t)(reply[2] | reply[3] << 8);
}

/* The area's own bytes, docs/AREA.md. */

static inline size_t port_place(uint32_t port)
{
    return 8 + 4 * (size_t)(port - 1);
}

static inline uint8_t *port_bytes(uint32_t port)
{
    return area + port_place(port);
}

static inline uint8_t *buffer_bytes(uint32_t number)
{
    return area + 8 + 4 * area[0] + 72 * number;
}

/* A buffer's bytes: bulk IN from an address of its own, without payload. */
static inline void put_buffer(uint32_t number, uint8_t status, uint8_t lane)
{
    uint8_t *buffer = buffer_bytes(number);

    memset(buffer, 0, 72);
    if (status == 0)
        return;
    buffer[0] = status;
    buffer[1] = GRIMHOLDI_PID_IN;
    buffer[2] = GRIMHOLDI_TRANSFER_BULK;
    buffer[3] = (uint8_t)(lane << 2);
    buffer[4] = (uint8_t)(10 + number);
    buffer[6] = status == 1 ? (uint8_t)number : GRIMHOLDI_RESULT_NAK;
}

/* One of 7 to the power of B choices of status and lane for each buffer. */
static inline void put_buffers(uint32_t choice)
{
    static const uint8_t kinds[][2] = { /* status, lane */
        {0, 0}, {1, 0}, {2, 0}, {3, 0}, {1, 1}, {2, 1}, {3, 1}
    };
    uint32_t i;

    for (i = 0; i < area[1]; i++, choice /= 7)
        put_buffer(i, kinds[choice % 7][0], kinds[choice % 7][1]);
}

/* Pending or ready. */
static inline int is_held(uint32_t number)
{
    uint8_t status = buffer_bytes(number)[0];

    return status == 1 || status == 2;
}

static inline int is_of_lane(uint32_t number, uint32_t lane)
{
    return buffer_bytes(number)[3] >> 2 == (uint8_t)lane;
}

/* How many buffers the lane holds. */
static inline uint32_t held_by(uint32_t lane)
{
    uint32_t held = 0;
    uint32_t i;

    for (i = 0; i < area[1]; i++)
        held += is_held(i) && is_of_lane(i, lane);
    return held;
}

/* The buffer has this key, and is not empty. */
static inline int has_key(uint32_t buffer, uint32_t lane, uint32_t pid,
                          uint32_t address, uint32_t endpoint)
{
    const uint8_t *bytes = buffer_bytes(buffer);

    return bytes[0] != 0 && is_of_lane(buffer, lane) && bytes[4] == address
           && bytes[5] == endpoint
           && (bytes[1] == GRIMHOLDI_PID_IN) == (pid == GRIMHOLDI_PID_IN);
}

/* The fields that only a launch gives are 0. */
static inline int launches_nothing(grimholdi_answer answer)
{
    return answer.transfer == 0 && answer.lane == 0 && answer.address == 0
           && answer.endpoint == 0 && answer.direction == 0
           && answer.low_speed == 0 && answer.toggle == 0;
}

/* The reason has this kind and value, and no change bits. */
static inline int is_reason(grimholdi_reason reason, uint8_t kind,
                            uint8_t value)
{
    static const uint8_t no_changes[GRIMHOLDI_PORTS_MAX] = {0};

    return reason.kind == kind && reason.value == value
           && memcmp(reason.changes, no_changes, sizeof no_changes) == 0;
}

/* All fields but the number are 0. */
static inline int is_bare(grimholdi_answer answer)
{
    return answer.length == 0 && answer.pid == 0 && launches_nothing(answer);
}

#endif
