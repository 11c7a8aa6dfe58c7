#include "calls.h"

#include "grimholdi_port.h"
#include "grimholdi_record.h"

#include <errno.h>
#include <stdio.h>
#include <string.h>

uint8_t reply[GRIMHOLDI_REPLY_LENGTH];

static uint8_t area[GRIMHOLDI_AREA_LENGTH_MAX];
static size_t area_len;

static grimholdi_recorder recorder;
static uint8_t record[GRIMHOLDI_RECORD_SPACE];

/* Files. */

static file_names files;
static FILE *record_file;
static FILE *answers_file;
static int not_written;

/* The first thing that is not written is said. */
static void complain(const char *name, const char *why)
{
    if (!not_written)
        fprintf(stderr, "firmware: %s: %s\n", name, why);
    not_written = 1;
}

static int check_file(int good, const char *name)
{
    if (!good)
        complain(name, strerror(errno));
    return good;
}

static FILE *open_file(const char *name)
{
    FILE *file = NULL;

    if (name != NULL) {
        file = fopen(name, "wb");
        check_file(file != NULL, name);
    }
    return file;
}

static void close_file(FILE *file, const char *name)
{
    if (file != NULL)
        check_file(fclose(file) == 0, name);
}

void hub_dump_area(void)
{
    FILE *file = open_file(files.nak_area);

    if (file != NULL)
        check_file(fwrite(area, 1, area_len, file) == area_len,
                   files.nak_area);
    close_file(file, files.nak_area);
}

/* The recording of the session. */

static uint8_t keep_block(void *file, const uint8_t *block)
{
    const int kept = fwrite(block, GRIMHOLDI_BLOCK_LENGTH, 1, (FILE *)file)
                     == 1 && fflush((FILE *)file) == 0;

    return check_file(kept, files.record) ? GRIMHOLDI_ANSWER_DONE
                                          : GRIMHOLDI_ANSWER_NAK;
}

static grimholdi_answer keep_answer(grimholdi_answer answer)
{
    if (answers_file != NULL)
        check_file(fwrite(&answer, sizeof answer, 1, answers_file) == 1
                   && fwrite(reply, 1, answer.length, answers_file)
                      == answer.length, files.answers);
    return answer;
}

int open_files(const file_names *names)
{
    files = *names;
    record_file = open_file(files.record);
    answers_file = open_file(files.answers);
    return !not_written;
}

int close_files(void)
{
    if (record_file != NULL) {
        grimholdi_recorder_finish(&recorder);
        if (recorder.missed != 0)
            complain(files.record, "calls are missing");
    }
    close_file(record_file, files.record);
    close_file(answers_file, files.answers);
    return !not_written;
}

/* The calls. */

grimholdi_answer hub_new(void)
{
    if (record_file != NULL)
        grimholdi_recorder_start(&recorder, keep_block, record_file);
    area_len = grimholdi_area_length(PORTS, BUFFERS);
    return grimholdi_new(area, area_len, PORTS, BUFFERS, POWER_GOOD, CURRENT,
                         REMOVABLE);
}

uint8_t hub_port_state(uint32_t port)
{
    return grimholdi_port_state(area, area_len, port);
}

grimholdi_answer hub_control(uint32_t lane, const uint8_t *setup)
{
    grimholdi_recorder_add(&recorder, record, grimholdi_record_control(
        record, sizeof record, lane, setup, GRIMHOLDI_SETUP_LENGTH,
        sizeof reply));
    return keep_answer(grimholdi_control(area, area_len, lane, setup,
                                         GRIMHOLDI_SETUP_LENGTH, reply,
                                         sizeof reply));
}

grimholdi_answer hub_poll(uint32_t lane)
{
    grimholdi_recorder_add(&recorder, record, grimholdi_record_poll(
        record, sizeof record, lane, sizeof reply));
    return keep_answer(grimholdi_poll(area, area_len, lane, reply,
                                      sizeof reply));
}

grimholdi_answer hub_start_split(uint32_t lane, uint32_t pid,
                                 uint32_t transfer, uint32_t low_speed,
                                 uint32_t toggle, uint32_t address,
                                 uint32_t endpoint, const uint8_t *payload,
                                 size_t payload_len)
{
    grimholdi_recorder_add(&recorder, record, grimholdi_record_start_split(
        record, sizeof record, lane, pid, transfer, low_speed, toggle, address,
        endpoint, payload, payload_len));
    return keep_answer(grimholdi_start_split(area, area_len, lane, pid,
                                             transfer, low_speed, toggle,
                                             address, endpoint, payload,
                                             payload_len));
}

grimholdi_answer hub_complete_split(uint32_t lane, uint32_t address,
                                    uint32_t endpoint, uint32_t direction)
{
    grimholdi_recorder_add(&recorder, record, grimholdi_record_complete_split(
        record, sizeof record, lane, address, endpoint, direction,
        sizeof reply));
    return keep_answer(grimholdi_complete_split(area, area_len, lane, address,
                                                endpoint, direction, reply,
                                                sizeof reply));
}

grimholdi_answer hub_launch(void)
{
    grimholdi_recorder_add(&recorder, record, grimholdi_record_launch(
        record, sizeof record, sizeof reply));
    return keep_answer(grimholdi_launch(area, area_len, reply, sizeof reply));
}

grimholdi_answer hub_deliver(uint32_t result, const uint8_t *payload,
                             size_t payload_len)
{
    grimholdi_recorder_add(&recorder, record, grimholdi_record_deliver(
        record, sizeof record, result, payload, payload_len));
    return keep_answer(grimholdi_deliver(area, area_len, result, payload,
                                         payload_len));
}

grimholdi_answer hub_line_event(uint32_t event, uint32_t port)
{
    grimholdi_recorder_add(&recorder, record, grimholdi_record_line_event(
        record, sizeof record, event, port));
    return keep_answer(grimholdi_line_event(area, area_len, event, port));
}

grimholdi_answer hub_tick(void)
{
    grimholdi_recorder_add(&recorder, record, grimholdi_record_tick(
        record, sizeof record));
    return keep_answer(grimholdi_tick(area, area_len));
}
