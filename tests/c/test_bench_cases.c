/* The bench cases: four ports, three buffers, lane 0. */

#include "bench_hub.h"

enum { PORT = 2 };

static void powered_port(void)
{
    configured_hub(4, 3);
    CHECK(set_feature(GRIMHOLDI_PORT_POWER, PORT) == GRIMHOLDI_ANSWER_DONE);
}

static void attached_port(void)
{
    powered_port();
    CHECK(event(GRIMHOLDI_EVENT_ATTACH_FULL, PORT) == GRIMHOLDI_ANSWER_DONE);
}

static void resetting_port(void)
{
    attached_port();
    CHECK(set_feature(GRIMHOLDI_PORT_RESET, PORT) == GRIMHOLDI_ANSWER_DONE);
    ticks(14);
}

static void enabled_port(void)
{
    resetting_port();
    ticks(1);
}

static grimholdi_answer descriptor(uint16_t length)
{
    return request(GRIMHOLDI_TYPE_GET_HUB, GRIMHOLDI_REQUEST_GET_DESCRIPTOR,
                   GRIMHOLDI_HUB_DESCRIPTOR, 0, length);
}

static void new_hub_cases(void)
{
    new_hub(4, 3);
    CHECK(poll().number == GRIMHOLDI_ANSWER_SILENT); /* P1 */
    CHECK(gives(descriptor(9), "\x09\x29\x04\x09\x00\x32\x64\x00\xFF", /* P2 */
                9));
    CHECK(gives(descriptor(0), "", 0));
    CHECK(gives(descriptor(3), "\x09\x29\x04", 3));
    CHECK(descriptor(0x0100).length == 9);
}

static void port_cases(void)
{
    powered_port();
    CHECK(status_is(PORT, "\x00\x01\x00\x00"));                       /* P3 */

    attached_port();
    CHECK(status_is(PORT, "\x01\x01\x01\x00"));                       /* P4 */
    CHECK(gives(poll(), "\x04", 1));

    powered_port();
    CHECK(event(GRIMHOLDI_EVENT_ATTACH_LOW, PORT) == GRIMHOLDI_ANSWER_DONE);
    CHECK(status_is(PORT, "\x01\x03\x01\x00"));                       /* P5 */

    resetting_port();
    CHECK(status_is(PORT, "\x11\x01\x01\x00"));                       /* P6 */

    enabled_port();
    CHECK(status_is(PORT, "\x03\x01\x11\x00"));                       /* P7 */

    resetting_port();
    CHECK(event(GRIMHOLDI_EVENT_CHIRP, PORT) == GRIMHOLDI_ANSWER_DONE);
    ticks(1);
    CHECK(status_is(PORT, "\x03\x05\x11\x00"));                       /* P8 */

    enabled_port();
    CHECK(event(GRIMHOLDI_EVENT_OVER_CURRENT_ON, PORT)
          == GRIMHOLDI_ANSWER_DONE);
    CHECK(status_is(PORT, "\x08\x00\x19\x00"));                       /* P9 */

    enabled_port();
    CHECK(set_feature(GRIMHOLDI_PORT_SUSPEND, PORT) == GRIMHOLDI_ANSWER_DONE);
    CHECK(status_is(PORT, "\x07\x01\x11\x00"));                       /* P10 */
}

static void translator_cases(void)
{
    static const uint8_t bytes[] = {0x11, 0x22, 0x33};
    grimholdi_answer answer;
    int i;

    configured_hub(4, 3);
    CHECK(start_in(5, 1) == GRIMHOLDI_ANSWER_DONE); /* P11 */
    CHECK(start_in(6, 1) == GRIMHOLDI_ANSWER_DONE);
    CHECK(start_in(7, 1) == GRIMHOLDI_ANSWER_NAK);
    CHECK(complete(5, 1, GRIMHOLDI_DIRECTION_IN).number
          == GRIMHOLDI_ANSWER_NYET);

    answer = launch();                                                /* P12 */
    CHECK(gives(answer, "", 0));
    CHECK(answer.pid == GRIMHOLDI_PID_IN && answer.lane == 0
          && answer.address == 5);
    CHECK(deliver(GRIMHOLDI_RESULT_DATA0, bytes, sizeof bytes)
          == GRIMHOLDI_ANSWER_DONE);
    for (i = 0; i < 2; i++) {
        answer = complete(5, 1, GRIMHOLDI_DIRECTION_IN);
        CHECK(gives(answer, "\x11\x22\x33", 3));
        CHECK(answer.pid == GRIMHOLDI_RESULT_DATA0);
        CHECK(reply[3] == 0xEE);
    }

    CHECK(start_in(7, 1) == GRIMHOLDI_ANSWER_DONE); /* P13 */
    CHECK(complete(5, 1, GRIMHOLDI_DIRECTION_IN).number
          == GRIMHOLDI_ANSWER_STALL);
}

static void unmarked_cases(void)
{
    uint8_t payload[65] = {0};

    powered_port();
    CHECK(set_feature(GRIMHOLDI_PORT_POWER, 0) == GRIMHOLDI_ANSWER_STALL);
    CHECK(set_feature(GRIMHOLDI_PORT_POWER, 5) == GRIMHOLDI_ANSWER_STALL);
    CHECK(start_out(5, 1, payload, 65) == GRIMHOLDI_ANSWER_OUTSIDE);
    CHECK(start_out(5, 1, payload, 64) == GRIMHOLDI_ANSWER_DONE);
    CHECK(grimholdi_launch(area, area_len, reply, 63).number
          == GRIMHOLDI_ANSWER_NO_SPACE);
    CHECK(launch().length == 64);
}

int main(void)
{
    new_hub_cases();
    port_cases();
    translator_cases();
    unmarked_cases();
    free_hub();
    return check_summary("bench cases");
}
