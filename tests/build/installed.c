/*
 * A program of a user of the installed library, C99 and C++11.  install.py
 * builds it outside the source tree, with what pkg-config says and nothing
 * else.  It makes a hub, records its calls, explains one and replays them, so
 * that every object of the library is linked.
 *
 *   installed AREA RECORDING   writes both, for the installed programs
 */

#include <grimholdi.h>
#include <grimholdi_names.h>
#include <grimholdi_port.h>
#include <grimholdi_record.h>
#include <grimholdi_setup.h>

#include <stdio.h>
#include <stdlib.h>
#include <string.h>

enum { PORTS = 2, BUFFERS = 2, PORT = 1 };

static uint8_t area[GRIMHOLDI_AREA_LENGTH_MAX];
static uint8_t again[GRIMHOLDI_AREA_LENGTH_MAX];
static uint8_t recording[GRIMHOLDI_BLOCK_LENGTH];
static uint8_t answers[GRIMHOLDI_ANSWERS_LENGTH];
static uint8_t reply[GRIMHOLDI_REPLY_LENGTH];
static uint8_t setup[GRIMHOLDI_SETUP_LENGTH];
static uint8_t record[GRIMHOLDI_RECORD_SPACE];
static grimholdi_recorder recorder;
static size_t length;

static void demand(int holds, const char *what)
{
    if (!holds) {
        fprintf(stderr, "installed: FAILED, %s\n", what);
        exit(1);
    }
}

static uint8_t keep(void *context, const uint8_t *block)
{
    (void)context;
    memcpy(recording, block, sizeof recording);
    return GRIMHOLDI_ANSWER_DONE;
}

static void control(void)
{
    const size_t recorded = grimholdi_record_control(
        record, sizeof record, 0, setup, sizeof setup, sizeof reply);

    grimholdi_recorder_add(&recorder, record, recorded);
    demand(grimholdi_control(area, length, 0, setup, sizeof setup, reply,
                             sizeof reply).number == GRIMHOLDI_ANSWER_DONE,
           "a request is not done");
}

static void attach(void)
{
    const size_t recorded = grimholdi_record_line_event(
        record, sizeof record, GRIMHOLDI_EVENT_ATTACH_FULL, PORT);

    grimholdi_recorder_add(&recorder, record, recorded);
    demand(grimholdi_line_event(area, length, GRIMHOLDI_EVENT_ATTACH_FULL,
                                PORT).number == GRIMHOLDI_ANSWER_DONE,
           "the device is not attached");
}

static void poll(void)
{
    const grimholdi_reason reason = grimholdi_why_poll(area, length, 0,
                                                       sizeof reply);
    const size_t recorded = grimholdi_record_poll(record, sizeof record, 0,
                                                  sizeof reply);

    demand(reason.kind == GRIMHOLDI_WHY_CHANGES
               && reason.changes[PORT - 1] == GRIMHOLDI_CHANGE_CONNECTION,
           "the poll is not explained");
    grimholdi_recorder_add(&recorder, record, recorded);
    demand(grimholdi_poll(area, length, 0, reply, sizeof reply).number
               == GRIMHOLDI_ANSWER_DATA && reply[0] == 1 << PORT,
           "the poll has not the port's bit");
}

static void replay(void)
{
    grimholdi_replayed replayed;

    demand(recorder.missed == 0, "calls are not recorded");
    grimholdi_new(again, length, PORTS, BUFFERS, 0, 0, 0);
    replayed = grimholdi_replay_block(again, length, 1, recording,
                                      sizeof recording, answers,
                                      sizeof answers);
    demand(replayed.number == GRIMHOLDI_ANSWER_DONE
               && replayed.refusal == GRIMHOLDI_REFUSED_NOT
               && memcmp(area, again, length) == 0,
           "the replay leaves another hub");
}

static void write_file(const char *name, const uint8_t *bytes, size_t count)
{
    FILE *file = fopen(name, "wb");

    demand(file != NULL && fwrite(bytes, 1, count, file) == count
               && fclose(file) == 0, "a file is not written");
}

int main(int count, char **words)
{
    demand(count == 3, "usage: installed AREA RECORDING");
    demand(grimholdi_version() == GRIMHOLDI_VERSION_NUMBER,
           "header and library are of different versions");
    length = grimholdi_area_length(PORTS, BUFFERS);
    demand(grimholdi_new(area, length, PORTS, BUFFERS, 0, 0, 0).number
               == GRIMHOLDI_ANSWER_DONE, "there is no hub");
    grimholdi_recorder_start(&recorder, keep, NULL);
    grimholdi_setup_set_configuration(setup, 1);
    control();
    grimholdi_setup_set_port_feature(setup, GRIMHOLDI_PORT_POWER, PORT);
    control();
    attach();
    poll();
    grimholdi_recorder_finish(&recorder);
    replay();
    write_file(words[1], area, length);
    write_file(words[2], recording, sizeof recording);
    printf("%s: port %d is %s, %s speed\n", GRIMHOLDI_VERSION, PORT,
           grimholdi_state_name(grimholdi_port_state(area, length, PORT)),
           grimholdi_speed_name(grimholdi_port_speed(area, length, PORT)));
    return 0;
}
