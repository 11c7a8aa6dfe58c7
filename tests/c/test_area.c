/* Lengths, new hubs, and areas that are refused or taken. */

#include "bench_hub.h"

/* The layout of the area of a hub with 2 ports and 3 buffers, docs/AREA.md. */
enum {
    PORT_1 = 8, PORT_2 = 12,
    BUFFER_0 = 16, BUFFER_1 = 88, BUFFER_2 = 160,
    LENGTH = 232
};

static const uint8_t setup[8] = {GRIMHOLDI_TYPE_GET_CONFIGURATION,
                                 GRIMHOLDI_REQUEST_GET_CONFIGURATION,
                                 0, 0, 0, 0, 1, 0};

/* Whether the reason of each call is OUTSIDE. */
static int all_explain(const uint8_t *bytes, size_t length)
{
    grimholdi_reason reasons[13];
    grimholdi_reason *next = reasons;
    uint32_t lane;
    int i;

    for (lane = 0; lane <= GRIMHOLDI_LANE_MAX; lane++) {
        *next++ = grimholdi_why_control(bytes, length, lane, setup, 8, 64);
        *next++ = grimholdi_why_poll(bytes, length, lane, 64);
        *next++ = grimholdi_why_start_split(bytes, length, lane,
                                            GRIMHOLDI_PID_IN,
                                            GRIMHOLDI_TRANSFER_BULK, 0, 0,
                                            9, 1, NULL, 0);
        *next++ = grimholdi_why_complete_split(bytes, length, lane, 9, 1,
                                               1, 64);
    }
    *next++ = grimholdi_why_launch(bytes, length, 0);
    *next++ = grimholdi_why_deliver(bytes, length, GRIMHOLDI_RESULT_NAK,
                                    NULL, 0);
    *next++ = grimholdi_why_line_event(bytes, length,
                                       GRIMHOLDI_EVENT_OVER_CURRENT_ON, 1);
    *next++ = grimholdi_why_tick(bytes, length);
    *next = grimholdi_why_bus_reset(bytes, length);
    for (i = 0; i < 13; i++)
        if (!is_reason(reasons[i], GRIMHOLDI_WHY_NUMBER,
                       GRIMHOLDI_ANSWER_OUTSIDE))
            return 0;
    return 1;
}

/*
 * Whether each call refuses the area with OUTSIDE, which is its reason too,
 * and keeps its bytes.
 */
static int all_refuse(uint8_t *bytes, size_t length)
{
    uint8_t kept[GRIMHOLDI_AREA_LENGTH_MAX + 1];
    grimholdi_answer answers[13];
    grimholdi_answer *next = answers;
    uint32_t lane;
    int i;

    if (length > 0)
        memcpy(kept, bytes, length);
    for (lane = 0; lane <= GRIMHOLDI_LANE_MAX; lane++) {
        *next++ = grimholdi_control(bytes, length, lane, setup, 8, reply, 64);
        *next++ = grimholdi_poll(bytes, length, lane, reply, 64);
        *next++ = grimholdi_start_split(bytes, length, lane, GRIMHOLDI_PID_IN,
                                        GRIMHOLDI_TRANSFER_BULK, 0, 0, 9, 1,
                                        NULL, 0);
        *next++ = grimholdi_complete_split(bytes, length, lane, 9, 1, 1,
                                           reply, 64);
    }
    *next++ = grimholdi_launch(bytes, length, NULL, 0);
    *next++ = grimholdi_deliver(bytes, length, GRIMHOLDI_RESULT_NAK, NULL, 0);
    *next++ = grimholdi_line_event(bytes, length,
                                   GRIMHOLDI_EVENT_OVER_CURRENT_ON, 1);
    *next++ = grimholdi_tick(bytes, length);
    *next = grimholdi_bus_reset(bytes, length);
    for (i = 0; i < 13; i++)
        if (answers[i].number != GRIMHOLDI_ANSWER_OUTSIDE
            || !is_bare(answers[i]))
            return 0;
    return all_explain(bytes, length)
           && (length == 0 || memcmp(kept, bytes, length) == 0);
}

/* Whether the area is taken: GetConfiguration is served, for no reason. */
static int is_taken(void)
{
    return request(GRIMHOLDI_TYPE_GET_CONFIGURATION,
                   GRIMHOLDI_REQUEST_GET_CONFIGURATION, 0, 0, 1).number
           == GRIMHOLDI_ANSWER_DATA
           && is_reason(grimholdi_why_control(area, area_len, 0, setup, 8,
                                              64),
                        GRIMHOLDI_WHY_NONE, 0);
}

static int refused_with(size_t place, uint8_t value)
{
    uint8_t kept = area[place];
    int refused;

    area[place] = value;
    refused = all_refuse(area, area_len);
    area[place] = kept;
    return refused;
}

static int taken_with(size_t place, uint8_t value)
{
    uint8_t kept = area[place];
    int taken;

    area[place] = value;
    taken = is_taken();
    area[place] = kept;
    return taken;
}

/*
 * 2 ports: Resetting after 3 ticks, Disconnected.  3 buffers: lane 0's OUT to
 * (5, 1) with "abc" running; lane 1's IN from (6, 1) ready with "de" and IN
 * from (7, 1) pending.
 */
static void sample_hub(void)
{
    new_hub(2, 3);
    CHECK(area_len == LENGTH);
    CHECK(set_configuration(1) == GRIMHOLDI_ANSWER_DONE);
    CHECK(set_feature(GRIMHOLDI_PORT_POWER, 1) == GRIMHOLDI_ANSWER_DONE);
    CHECK(set_feature(GRIMHOLDI_PORT_POWER, 2) == GRIMHOLDI_ANSWER_DONE);
    CHECK(event(GRIMHOLDI_EVENT_ATTACH_FULL, 1) == GRIMHOLDI_ANSWER_DONE);
    CHECK(set_feature(GRIMHOLDI_PORT_RESET, 1) == GRIMHOLDI_ANSWER_DONE);
    ticks(3);
    CHECK(start_out(4, 1, NULL, 0) == GRIMHOLDI_ANSWER_DONE);
    CHECK(start_in_from(1, 6, 1) == GRIMHOLDI_ANSWER_DONE);
    CHECK(launch().address == 4);
    CHECK(deliver(GRIMHOLDI_RESULT_NAK, NULL, 0) == GRIMHOLDI_ANSWER_DONE);
    CHECK(launch().address == 6);
    CHECK(deliver(GRIMHOLDI_RESULT_DATA1, (const uint8_t *)"de", 2)
          == GRIMHOLDI_ANSWER_DONE);
    CHECK(complete(4, 1, GRIMHOLDI_DIRECTION_OUT).number
          == GRIMHOLDI_ANSWER_HANDSHAKE);
    CHECK(start_out(5, 1, (const uint8_t *)"abc", 3) == GRIMHOLDI_ANSWER_DONE);
    CHECK(start_in_from(1, 7, 1) == GRIMHOLDI_ANSWER_DONE);
    CHECK(launch().address == 5);
}

static void written_form(void)
{
    static const uint8_t head[] = {
        2, 3, 0x32, 0x64, 0, 1, 1, 0,
        4, 1, 3, 0x01,
        2, 0, 0, 0x00,
        1, 1, 2, 0, 5, 1, 0, 3, 'a', 'b', 'c', 0
    };
    static const uint8_t ready[] = {2, 9, 2, 4, 6, 1, 11, 2, 'd', 'e', 0};
    static const uint8_t pending[] = {1, 9, 2, 4, 7, 1, 1, 0, 0};

    sample_hub();
    CHECK(memcmp(area, head, sizeof head) == 0);
    CHECK(memcmp(area + BUFFER_1, ready, sizeof ready) == 0);
    CHECK(memcmp(area + BUFFER_2, pending, sizeof pending) == 0);
}

/* Byte 3 of a buffer: bit 0 low speed, bit 1 toggle, bit 2 lane. */
static void flags_byte(void)
{
    uint32_t flags;

    for (flags = 0; flags < 8; flags++) {
        uint32_t low_speed = flags & 1;
        uint32_t toggle = flags >> 1 & 1;
        uint32_t lane = flags >> 2;
        grimholdi_answer answer;

        new_hub(2, 3);
        CHECK(set_configuration(1) == GRIMHOLDI_ANSWER_DONE);
        CHECK(grimholdi_start_split(area, area_len, lane, GRIMHOLDI_PID_IN,
                                    GRIMHOLDI_TRANSFER_BULK, low_speed, toggle,
                                    5, 1, NULL, 0).number
              == GRIMHOLDI_ANSWER_DONE);
        CHECK(area[BUFFER_0 + 3] == flags);
        answer = launch();
        CHECK(answer.low_speed == low_speed && answer.toggle == toggle
              && answer.lane == lane);
        CHECK(deliver(GRIMHOLDI_RESULT_NAK, NULL, 0) == GRIMHOLDI_ANSWER_DONE);
        CHECK(area[BUFFER_0 + 3] == flags);
    }
}

/*
 * The worked example of docs/AREA.md: bench case P12 before and after the
 * delivery, with a start-split of lane 1 in the third buffer.
 */
static void worked_example(void)
{
    static const uint8_t taken[] = {0x11, 0x22, 0x33};
    uint8_t expected[240] = {
        0x04, 0x03, 0x32, 0x64, 0x00, 0x01, 0x01, 0x00,
        0x01, 0x00, 0x00, 0x00, 0x01, 0x00, 0x00, 0x00,
        0x01, 0x00, 0x00, 0x00, 0x01, 0x00, 0x00, 0x00,
        0x01, 0x09, 0x02, 0x00, 0x05, 0x01, 0x00, 0x00
    };
    static const uint8_t ready[] = {0x02, 0x09, 0x02, 0x00, 0x05, 0x01,
                                    0x03, 0x03, 0x11, 0x22, 0x33};
    static const uint8_t pending[] = {0x01, 0x09, 0x02, 0x00, 0x06, 0x01,
                                      0x01, 0x00};
    static const uint8_t lane_1[] = {0x01, 0x09, 0x02, 0x04, 0x05, 0x01,
                                     0x02, 0x00};

    new_hub(4, 3);
    CHECK(area_len == sizeof expected);
    CHECK(set_configuration(1) == GRIMHOLDI_ANSWER_DONE);
    CHECK(start_in(5, 1) == GRIMHOLDI_ANSWER_DONE);
    CHECK(start_in(6, 1) == GRIMHOLDI_ANSWER_DONE);
    CHECK(start_in_from(1, 5, 1) == GRIMHOLDI_ANSWER_DONE);
    CHECK(launch().address == 5);
    memcpy(expected + 96, pending, sizeof pending);
    memcpy(expected + 168, lane_1, sizeof lane_1);
    CHECK(memcmp(area, expected, sizeof expected) == 0);
    CHECK(deliver(GRIMHOLDI_RESULT_DATA0, taken, sizeof taken)
          == GRIMHOLDI_ANSWER_DONE);
    expected[6] = 0x00;
    memcpy(expected + 24, ready, sizeof ready);
    CHECK(memcmp(area, expected, sizeof expected) == 0);
}

static void lengths(void)
{
    uint32_t ports, buffers;

    CHECK(grimholdi_area_length(7, 4) == GRIMHOLDI_AREA_LENGTH_MAX);
    for (ports = 0; ports < 10; ports++)
        for (buffers = 0; buffers < 7; buffers++) {
            int known = ports >= 1 && ports <= 7 && buffers >= 2
                        && buffers <= 4;

            CHECK(grimholdi_area_length(ports, buffers)
                  == (known ? 8 + 4 * ports + 72 * buffers : 0));
        }
    CHECK(grimholdi_area_length(FAR_NUMBER, 2) == 0);
    CHECK(grimholdi_area_length(1, FAR_NUMBER) == 0);
    CHECK(grimholdi_area_length(257, 258) == 0);
}

static int new_refused(size_t length, uint32_t ports, uint32_t buffers,
                       uint32_t power_good, uint32_t current,
                       uint32_t removable)
{
    uint8_t *bytes = length == 0 ? NULL : allocate(length);
    grimholdi_answer answer = grimholdi_new(bytes, length, ports, buffers,
                                            power_good, current, removable);
    int kept = 1;
    size_t i;

    for (i = 0; i < length; i++)
        kept = kept && bytes[i] == 0xEE;
    free(bytes);
    return kept && answer.number == GRIMHOLDI_ANSWER_OUTSIDE
           && is_bare(answer);
}

static void new_hubs(void)
{
    uint32_t ports, buffers;

    for (ports = 1; ports <= 7; ports++)
        for (buffers = 2; buffers <= 4; buffers++) {
            uint32_t length = (uint32_t)grimholdi_area_length(ports, buffers);
            uint32_t removable = (2u << ports) - 2;

            new_hub(ports, buffers);
            CHECK(is_taken());
            CHECK(grimholdi_new(area, area_len, ports, buffers, 255, 255,
                                removable).number == GRIMHOLDI_ANSWER_DONE);
            CHECK(is_taken());
            CHECK(new_refused(0, ports, buffers, 0, 0, 0));
            CHECK(new_refused(length - 1, ports, buffers, 0, 0, 0));
            CHECK(new_refused(length + 1, ports, buffers, 0, 0, 0));
            CHECK(new_refused(length, ports, buffers, 256, 0, 0));
            CHECK(new_refused(length, ports, buffers, FAR_NUMBER, 0, 0));
            CHECK(new_refused(length, ports, buffers, 0, 256, 0));
            CHECK(new_refused(length, ports, buffers, 0, FAR_NUMBER, 0));
            CHECK(new_refused(length, ports, buffers, 0, 0, 1));
            CHECK(new_refused(length, ports, buffers, 0, 0, 2u << ports));
            CHECK(new_refused(length, ports, buffers, 0, 0, 256));
            CHECK(new_refused(length, ports, buffers, 0, 0, FAR_NUMBER));
            CHECK(new_refused(length, ports + 256, buffers, 0, 0, 0));
            CHECK(new_refused(length, ports, buffers + 256, 0, 0, 0));
        }
    CHECK(new_refused(0, 0, 0, 0, 0, 0));
    CHECK(new_refused(152, 0, 2, 0, 0, 0));
    CHECK(new_refused(184, 8, 2, 0, 0, 0));
    CHECK(new_refused(84, 1, 1, 0, 0, 0));
    CHECK(new_refused(372, 1, 5, 0, 0, 0));
    CHECK(new_refused(156, FAR_NUMBER, 2, 0, 0, 0));
    CHECK(new_refused(156, 1, FAR_NUMBER, 0, 0, 0));
}

static void wrong_lengths(void)
{
    size_t length;

    sample_hub();
    for (length = 0; length <= LENGTH + 1; length++) {
        uint8_t *copy;

        if (length == LENGTH)
            continue;
        copy = allocate(length + (length == 0));
        memcpy(copy, area, length < LENGTH ? length : LENGTH);
        CHECK(all_refuse(copy, length));
        free(copy);
    }
    CHECK(all_refuse(NULL, 0));
}

static void refused_headers(void)
{
    int value;

    for (value = 0; value < 256; value++) {
        CHECK(value == 2 || refused_with(0, (uint8_t)value));
        CHECK(value == 3 || refused_with(1, (uint8_t)value));
        CHECK(taken_with(2, (uint8_t)value));
        CHECK(taken_with(3, (uint8_t)value));
        CHECK((value & ~6) == 0 ? taken_with(4, (uint8_t)value)
                                : refused_with(4, (uint8_t)value));
        CHECK(value == 1 || refused_with(5, (uint8_t)value));
        CHECK(value <= 2 ? taken_with(6, (uint8_t)value)
                         : refused_with(6, (uint8_t)value));

        /* Buffers 0 and 2 are pending, 1 is ready. */
        CHECK(value == 0 || value == 2 ? taken_with(7, (uint8_t)value)
                                       : refused_with(7, (uint8_t)value));
    }

    /* No running buffer is named unless one runs. */
    area[7] = 2;
    CHECK(refused_with(6, 0));
    CHECK(refused_with(6, 2));
    area[7] = 0;
}

static void refused_ports(void)
{
    int value;

    for (value = 0; value < 256; value++) {
        /* Only Resetting and Resuming have ticks. */
        CHECK(value == 4 || value == 7
              ? taken_with(PORT_1, (uint8_t)value)
              : refused_with(PORT_1, (uint8_t)value));
        CHECK(value <= 2 ? taken_with(PORT_1 + 1, (uint8_t)value)
                         : refused_with(PORT_1 + 1, (uint8_t)value));
        CHECK(value < 15 ? taken_with(PORT_1 + 2, (uint8_t)value)
                         : refused_with(PORT_1 + 2, (uint8_t)value));
        CHECK(value < 64 ? taken_with(PORT_1 + 3, (uint8_t)value)
                         : refused_with(PORT_1 + 3, (uint8_t)value));

        /* Disconnected has neither speed nor ticks. */
        CHECK(value == 0 || refused_with(PORT_2 + 1, (uint8_t)value));
        CHECK(value == 0 || refused_with(PORT_2 + 2, (uint8_t)value));
    }
    area[PORT_1] = 7;
    CHECK(taken_with(PORT_1 + 2, 21));
    CHECK(refused_with(PORT_1 + 2, 22));
    area[PORT_1] = 4;
}

static void refused_buffers(void)
{
    int value;
    int i;

    for (value = 0; value < 256; value++) {
        /* A ready buffer may be old; a pending one is only pending. */
        CHECK(value == 1 || refused_with(BUFFER_0, (uint8_t)value));
        CHECK(value == 2 || value == 3
              ? taken_with(BUFFER_1, (uint8_t)value)
              : refused_with(BUFFER_1, (uint8_t)value));

        /* Pending with "abc" is OUT; a bulk result is not SETUP's. */
        CHECK(value == 1 || refused_with(BUFFER_0 + 1, (uint8_t)value));
        CHECK(value == 1 || value == 9
              ? taken_with(BUFFER_1 + 1, (uint8_t)value)
              : refused_with(BUFFER_1 + 1, (uint8_t)value));
        CHECK(value == 0 || value == 2
              ? taken_with(BUFFER_0 + 2, (uint8_t)value)
              : refused_with(BUFFER_0 + 2, (uint8_t)value));

        /* Low speed, toggle and lane; but lane 1 holds two of three. */
        CHECK(value <= 7 ? taken_with(BUFFER_2 + 3, (uint8_t)value)
                         : refused_with(BUFFER_2 + 3, (uint8_t)value));
        CHECK(value <= 3 ? taken_with(BUFFER_0 + 3, (uint8_t)value)
                         : refused_with(BUFFER_0 + 3, (uint8_t)value));

        /* Buffer 2 takes neither buffer 1's key nor buffer 0's place. */
        CHECK(value <= 127 && value != 6
              ? taken_with(BUFFER_2 + 4, (uint8_t)value)
              : refused_with(BUFFER_2 + 4, (uint8_t)value));
        CHECK(value <= 15 ? taken_with(BUFFER_2 + 5, (uint8_t)value)
                          : refused_with(BUFFER_2 + 5, (uint8_t)value));
        CHECK(value != 0 ? taken_with(BUFFER_2 + 6, (uint8_t)value)
                         : refused_with(BUFFER_2 + 6, (uint8_t)value));

        /* A result with two bytes is DATA0 or DATA1. */
        CHECK(value == 3 || value == 11
              ? taken_with(BUFFER_1 + 6, (uint8_t)value)
              : refused_with(BUFFER_1 + 6, (uint8_t)value));

        /* Bytes behind the length are zero. */
        CHECK(value >= 3 && value <= 64
              ? taken_with(BUFFER_0 + 7, (uint8_t)value)
              : refused_with(BUFFER_0 + 7, (uint8_t)value));
        CHECK(value >= 2 && value <= 64
              ? taken_with(BUFFER_1 + 7, (uint8_t)value)
              : refused_with(BUFFER_1 + 7, (uint8_t)value));
        CHECK(value == 0 || refused_with(BUFFER_2 + 7, (uint8_t)value));
    }
    CHECK(taken_with(BUFFER_0 + 10, 0xFF));
    for (i = 11; i < 72; i++)
        CHECK(refused_with(BUFFER_0 + (size_t)i, 1));

    /* An empty buffer is all zero. */
    CHECK(clear_tt_buffer_from(1, 6, 1, GRIMHOLDI_DIRECTION_IN)
          == GRIMHOLDI_ANSWER_DONE);
    CHECK(is_taken());
    for (i = 0; i < 72; i++)
        CHECK(refused_with(BUFFER_1 + (size_t)i, 1));
    CHECK(refused_with(BUFFER_1 + 3, 4));
}

/* Two buffers with one address, endpoint and direction are in two lanes. */
static void keys_by_lane(void)
{
    sample_hub();
    area[BUFFER_2 + 4] = 6; /* as buffer 1, in lane 1 */
    CHECK(taken_with(BUFFER_2 + 3, 0));
    CHECK(refused_with(BUFFER_2 + 3, 4));
    CHECK(refused_with(BUFFER_2 + 3, 7));

    /* The lanes exchanged. */
    area[BUFFER_0 + 3] = 4;
    area[BUFFER_1 + 3] = 0;
    CHECK(taken_with(BUFFER_2 + 3, 4));
    CHECK(refused_with(BUFFER_2 + 3, 0));

    /* An old buffer has a key too. */
    area[BUFFER_1] = 3;
    CHECK(taken_with(BUFFER_2 + 3, 4));
    CHECK(refused_with(BUFFER_2 + 3, 0));
}

/*
 * Every choice of status and lane for each buffer: refused exactly if one
 * lane holds all of them pending or ready.
 */
static void crowded_areas(uint32_t buffers)
{
    uint32_t choices = 1;
    uint32_t choice;
    uint32_t i;

    configured_hub(1, buffers);
    for (i = 0; i < buffers; i++)
        choices *= 7;
    for (choice = 0; choice < choices; choice++) {
        put_buffers(choice);
        CHECK(held_by(0) == buffers || held_by(1) == buffers
              ? all_refuse(area, area_len) : is_taken());
    }
}

static void refused_setups(void)
{
    /* A pending SETUP is control and has 8 bytes. */
    sample_hub();
    area[BUFFER_0 + 1] = GRIMHOLDI_PID_SETUP;
    area[BUFFER_0 + 2] = GRIMHOLDI_TRANSFER_CONTROL;
    area[BUFFER_0 + 7] = 8;
    CHECK(is_taken());
    CHECK(refused_with(BUFFER_0 + 2, GRIMHOLDI_TRANSFER_BULK));
    CHECK(refused_with(BUFFER_0 + 7, 7));
    CHECK(refused_with(BUFFER_0 + 7, 9));
}

/* A hub whose buffer 0, control to (5, 1), has this result. */
static void result_hub(uint8_t status, uint8_t pid, uint8_t result,
                       const char *payload)
{
    configured_hub(2, 3);
    area[BUFFER_0] = status;
    area[BUFFER_0 + 1] = pid;
    area[BUFFER_0 + 2] = GRIMHOLDI_TRANSFER_CONTROL;
    area[BUFFER_0 + 4] = 5;
    area[BUFFER_0 + 5] = 1;
    area[BUFFER_0 + 6] = result;
    area[BUFFER_0 + 7] = (uint8_t)strlen(payload);
    memcpy(area + BUFFER_0 + 8, payload, strlen(payload));
}

/* The six results, data with 0 to 64 bytes, the others with none. */
static int result_permits(int result, int length)
{
    switch (result) {
    case GRIMHOLDI_RESULT_DATA0:
    case GRIMHOLDI_RESULT_DATA1:
        return length <= 64;
    case GRIMHOLDI_RESULT_FAILURE:
    case GRIMHOLDI_RESULT_ACK:
    case GRIMHOLDI_RESULT_NAK:
    case GRIMHOLDI_RESULT_STALL:
        return length == 0;
    default:
        return 0;
    }
}

/* Ready or old: each result with each length, whatever the PID. */
static void results(uint8_t status, uint8_t pid)
{
    static const uint8_t lengths[] = {0, 1, 8, 64, 65, 255};
    int result;
    size_t i;

    result_hub(status, pid, GRIMHOLDI_RESULT_NAK, "");
    for (result = 0; result < 256; result++)
        for (i = 0; i < sizeof lengths; i++) {
            area[BUFFER_0 + 7] = lengths[i];
            CHECK(result_permits(result, lengths[i])
                  ? taken_with(BUFFER_0 + 6, (uint8_t)result)
                  : refused_with(BUFFER_0 + 6, (uint8_t)result));
        }
}

/* The buffer's handshake is given, and the buffer is old; no byte else. */
static int gives_handshake(uint8_t pid, uint32_t direction)
{
    grimholdi_answer answer;

    save();
    answer = complete(5, 1, direction);
    saved_area[BUFFER_0] = 3;
    return answer.number == GRIMHOLDI_ANSWER_HANDSHAKE && answer.pid == pid
           && answer.length == 0 && launches_nothing(answer)
           && area_is_saved() && reply_is_saved();
}

/* No delivery leaves these results, which an area may hold. */
static void unsuited_results(void)
{
    grimholdi_answer answer;

    result_hub(2, GRIMHOLDI_PID_IN, GRIMHOLDI_RESULT_ACK, "");
    CHECK(is_taken());
    CHECK(gives_handshake(2, GRIMHOLDI_DIRECTION_IN));
    CHECK(is_taken());

    result_hub(3, GRIMHOLDI_PID_OUT, GRIMHOLDI_RESULT_DATA0, "abc");
    CHECK(is_taken());
    save();
    answer = complete(5, 1, GRIMHOLDI_DIRECTION_OUT);
    CHECK(gives(answer, "abc", 3) && answer.pid == 3
          && launches_nothing(answer));
    CHECK(area_is_saved());
    CHECK(memcmp(reply + 3, saved_reply + 3, sizeof saved_reply - 3) == 0);

    result_hub(2, GRIMHOLDI_PID_SETUP, GRIMHOLDI_RESULT_NAK, "");
    CHECK(is_taken());
    CHECK(refused_with(BUFFER_0 + 2, GRIMHOLDI_TRANSFER_BULK));
    CHECK(gives_handshake(10, GRIMHOLDI_DIRECTION_OUT));

    /* A payload on a result that isn't data is outside the rules. */
    result_hub(2, GRIMHOLDI_PID_SETUP, GRIMHOLDI_RESULT_ACK, "a");
    CHECK(all_refuse(area, area_len));
    result_hub(2, GRIMHOLDI_PID_SETUP, GRIMHOLDI_RESULT_ACK, "12345678");
    CHECK(all_refuse(area, area_len));
}

static void refused_results(void)
{
    static const uint8_t pids[] = {GRIMHOLDI_PID_OUT, GRIMHOLDI_PID_IN,
                                   GRIMHOLDI_PID_SETUP};
    size_t i;

    for (i = 0; i < sizeof pids; i++) {
        results(2, pids[i]);
        results(3, pids[i]);
    }
}

static void unconfigured_areas(void)
{
    /* An unconfigured hub has every port Not Configured. */
    new_hub(2, 3);
    CHECK(refused_with(PORT_1, 1));
    CHECK(refused_with(PORT_2, 5));
    CHECK(refused_with(5, 1));
    CHECK(taken_with(PORT_1 + 3, 0x3F));
    CHECK(taken_with(6, 2));
}

/* States that no calls reach are taken and follow the rules. */
static void unreached_areas(void)
{
    sample_hub();

    /* Port 2 is powered under over-current. */
    area[PORT_2 + 3] = 0x20;
    CHECK(event(GRIMHOLDI_EVENT_OVER_CURRENT_ON, 2) == GRIMHOLDI_ANSWER_DONE);
    CHECK(status_is(2, "\x08\x01\x00\x00"));
    CHECK(event(GRIMHOLDI_EVENT_ATTACH_LOW, 2) == GRIMHOLDI_ANSWER_DONE);

    /* The running transaction is not the earliest. */
    area[BUFFER_0 + 6] = 255;
    area[BUFFER_2 + 6] = 254;
    CHECK(deliver(GRIMHOLDI_RESULT_ACK, NULL, 0) == GRIMHOLDI_ANSWER_DONE);
    CHECK(complete(5, 1, GRIMHOLDI_DIRECTION_OUT).pid == GRIMHOLDI_RESULT_ACK);
    CHECK(start_in(8, 1) == GRIMHOLDI_ANSWER_DONE);
    CHECK(area[BUFFER_0 + 6] == 1 && area[BUFFER_2 + 6] == 0);
    CHECK(launch().address == 7);
}

int main(void)
{
    lengths();
    new_hubs();
    written_form();
    flags_byte();
    worked_example();
    wrong_lengths();
    refused_headers();
    refused_ports();
    refused_buffers();
    keys_by_lane();
    crowded_areas(2);
    crowded_areas(3);
    crowded_areas(4);
    refused_setups();
    refused_results();
    unsuited_results();
    unconfigured_areas();
    unreached_areas();
    free_hub();
    return check_summary("area");
}
