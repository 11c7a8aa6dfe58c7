// The headers in C++: they compile, and their calls link.

#include "grimholdi.h"
#include "grimholdi_names.h"
#include "grimholdi_port.h"
#include "grimholdi_record.h"
#include "grimholdi_setup.h"

#include "check.h"

#include <cstdio>
#include <cstring>

static uint8_t recording[GRIMHOLDI_BLOCK_LENGTH];
static uint8_t answers[GRIMHOLDI_ANSWERS_LENGTH];

static uint8_t keep(void *context, const uint8_t *block)
{
    std::memcpy(context, block, GRIMHOLDI_BLOCK_LENGTH);
    return GRIMHOLDI_ANSWER_DONE;
}

// Records a tick and a poll, and replays them.
static void record_and_replay(uint8_t *area, size_t length)
{
    uint8_t record[GRIMHOLDI_RECORD_SPACE];
    grimholdi_recorder recorder;

    grimholdi_recorder_start(&recorder, keep, recording);
    grimholdi_recorder_add(&recorder, record,
                           grimholdi_record_tick(record, sizeof record));
    grimholdi_recorder_add(&recorder, record,
                           grimholdi_record_poll(record, sizeof record, 0,
                                                 GRIMHOLDI_REPLY_LENGTH));
    grimholdi_recorder_finish(&recorder);
    CHECK(recorder.missed == 0);

    const grimholdi_replayed replayed = grimholdi_replay_block(
        area, length, 1, recording, sizeof recording, answers, sizeof answers);

    CHECK(replayed.number == GRIMHOLDI_ANSWER_DONE);
    CHECK(replayed.refusal == GRIMHOLDI_REFUSED_NOT);
    CHECK(replayed.length == 20);
    CHECK(answers[0] == GRIMHOLDI_ANSWER_DONE && answers[10]
          == GRIMHOLDI_ANSWER_SILENT);
}

// The version as three numbers, one number and text, and the library's own.
static void check_version()
{
    char text[32];

    std::snprintf(text, sizeof text, "%d.%d.%d", GRIMHOLDI_VERSION_MAJOR,
                  GRIMHOLDI_VERSION_MINOR, GRIMHOLDI_VERSION_PATCH);
    CHECK(std::strcmp(text, GRIMHOLDI_VERSION) == 0);
    CHECK(GRIMHOLDI_VERSION_MINOR < 100 && GRIMHOLDI_VERSION_PATCH < 100);
    CHECK(grimholdi_version() == GRIMHOLDI_VERSION_NUMBER);
}

// Configures a new hub by a packet that is built, and names its first port.
static void build_and_name(uint8_t *area, size_t length)
{
    uint8_t reply[GRIMHOLDI_REPLY_LENGTH];
    uint8_t setup[GRIMHOLDI_SETUP_LENGTH];

    CHECK(grimholdi_port_state(area, length, 1)
          == GRIMHOLDI_STATE_NOT_CONFIGURED);
    grimholdi_setup_set_configuration(setup, 1);
    CHECK(grimholdi_control(area, length, 0, setup, sizeof setup, reply,
                            sizeof reply).number == GRIMHOLDI_ANSWER_DONE);
    CHECK(grimholdi_port_speed(area, length, 1) == GRIMHOLDI_SPEED_NONE);
    CHECK(std::strcmp(grimholdi_state_name(
                          grimholdi_port_state(area, length, 1)),
                      "Powered-off") == 0);
    CHECK(std::strcmp(grimholdi_answer_name(GRIMHOLDI_ANSWER_DONE),
                      "DONE") == 0);
    CHECK(grimholdi_tt_value(5, 1, GRIMHOLDI_DIRECTION_IN,
                             GRIMHOLDI_TRANSFER_BULK) == 0x9051);
}

int main()
{
    uint8_t area[GRIMHOLDI_AREA_LENGTH_MAX];
    uint8_t reply[GRIMHOLDI_REPLY_LENGTH];
    const uint8_t configure[GRIMHOLDI_SETUP_LENGTH] = {
        GRIMHOLDI_TYPE_SET_CONFIGURATION, GRIMHOLDI_REQUEST_SET_CONFIGURATION,
        1, 0, 0, 0, 0, 0};
    const size_t length = grimholdi_area_length(GRIMHOLDI_PORTS_MAX,
                                                GRIMHOLDI_BUFFERS_MAX);

    CHECK(sizeof(grimholdi_answer) == 10);
    CHECK(offsetof(grimholdi_answer, transfer) == 3);
    CHECK(offsetof(grimholdi_answer, lane) == 4);
    CHECK(offsetof(grimholdi_answer, address) == 5);
    CHECK(sizeof(grimholdi_reason) == 9);
    CHECK(offsetof(grimholdi_reason, changes) == 2);
    CHECK(sizeof(grimholdi_replayed) == 20);
    CHECK(offsetof(grimholdi_replayed, active) == 2);
    CHECK(offsetof(grimholdi_replayed, stored) == 4);
    CHECK(offsetof(grimholdi_replayed, length) == 16);
    CHECK(length == sizeof area);
    CHECK(grimholdi_new(area, length, 7, 4, 0, 0, 0).number
          == GRIMHOLDI_ANSWER_DONE);
    CHECK(grimholdi_control(area, length, GRIMHOLDI_LANE_MAX, configure,
                            sizeof configure, reply, sizeof reply).number
          == GRIMHOLDI_ANSWER_DONE);
    CHECK(grimholdi_poll(area, length, GRIMHOLDI_LANE_MAX, reply,
                         sizeof reply).number == GRIMHOLDI_ANSWER_NAK);
    CHECK(grimholdi_start_split(area, length, GRIMHOLDI_LANE_MAX,
                                GRIMHOLDI_PID_IN, GRIMHOLDI_TRANSFER_BULK,
                                0, 0, 1, 1, nullptr, 0).number
          == GRIMHOLDI_ANSWER_DONE);

    const grimholdi_reason reason = grimholdi_why_start_split(
        area, length, GRIMHOLDI_LANE_MAX, GRIMHOLDI_PID_IN,
        GRIMHOLDI_TRANSFER_BULK, 0, 0, 1, 1, nullptr, 0);

    CHECK(reason.kind == GRIMHOLDI_WHY_HELD && reason.value == 0);
    CHECK(grimholdi_launch(area, length, reply, sizeof reply).lane
          == GRIMHOLDI_LANE_MAX);
    CHECK(grimholdi_deliver(area, length, GRIMHOLDI_RESULT_DATA0, reply,
                            3).number == GRIMHOLDI_ANSWER_DONE);
    CHECK(grimholdi_complete_split(area, length, GRIMHOLDI_LANE_MAX, 1, 1,
                                   GRIMHOLDI_DIRECTION_IN, reply,
                                   sizeof reply).length == 3);
    CHECK(grimholdi_line_event(area, length, GRIMHOLDI_EVENT_WAKE, 1).number
          == GRIMHOLDI_ANSWER_NOT_NOW);
    CHECK(grimholdi_tick(area, length).number == GRIMHOLDI_ANSWER_DONE);
    CHECK(grimholdi_bus_reset(area, length).number == GRIMHOLDI_ANSWER_DONE);
    record_and_replay(area, length);
    build_and_name(area, length);
    check_version();
    return check_summary("headers in C++");
}
