#include "takes.h"

#include <assert.h>
#include <stdio.h>
#include <string.h>

enum {
    LINE = 32,       /* bytes of a take that say whose it is */
    TAKES = 12,      /* of all scenes */
    ROOM = LONG_TAKE + 2 * PACKET
};

typedef struct {
    const computer *of;
    unsigned number;       /* counted for each microphone */
    uint8_t bytes[LONG_TAKE];
    size_t length;
    size_t sent;           /* by the microphone */
    size_t due;            /* what has to have arrived by now */
    uint8_t arrived[ROOM];
    size_t arrived_length;
    const char *ended;     /* how, or NULL */
} take;

static take takes[TAKES];
static size_t begun;

static struct {
    take *take;
    unsigned number;
    uint8_t next_data;
    unsigned busy;
} microphones[COMPUTERS]; /* by the lanes of their computers */

void begin_take(const computer *of, size_t length)
{
    char line[2 * LINE];
    take *made;
    size_t at;

    assert(begun < TAKES && length <= LONG_TAKE);
    made = &takes[begun++];
    microphones[of->lane].take = made;
    microphones[of->lane].next_data = GRIMHOLDI_RESULT_DATA0;
    made->of = of;
    made->number = ++microphones[of->lane].number;
    made->length = length;
    memset(made->bytes, ' ', length);
    for (at = 0; at < length; at += LINE) {
        size_t left = length - at;
        size_t words;

        snprintf(line, sizeof line, "%s, take %u, byte %03u", of->microphone,
                 made->number, (unsigned)at);
        words = strlen(line);
        memcpy(made->bytes + at, line, words < left ? words : left);
    }
}

void end_take(const computer *of, const char *how)
{
    microphones[of->lane].take->ended = how;
}

void keep_busy(const computer *of, unsigned ins)
{
    microphones[of->lane].busy = ins;
}

static int is_reading(const computer *of)
{
    const take *read = microphones[of->lane].take;

    return read != NULL && read->ended == NULL;
}

outcome next_packet(const computer *of)
{
    take *read = microphones[of->lane].take;
    const size_t at = read->sent;
    const size_t left = read->length - at;
    const uint8_t result = microphones[of->lane].next_data;

    if (microphones[of->lane].busy > 0) {
        microphones[of->lane].busy--;
        return handshake(GRIMHOLDI_RESULT_NAK);
    }
    read->sent += left < PACKET ? left : PACKET;
    microphones[of->lane].next_data = result == GRIMHOLDI_RESULT_DATA0
                                      ? GRIMHOLDI_RESULT_DATA1
                                      : GRIMHOLDI_RESULT_DATA0;
    return data(result, read->bytes + at, read->sent - at);
}

void receive(const computer *of, outcome due)
{
    take *read = microphones[of->lane].take;
    const outcome is = complete(of, TAKE, GRIMHOLDI_DIRECTION_IN, due);
    const size_t more = is.answer.length;

    if (is.answer.number == GRIMHOLDI_ANSWER_DATA
        && more <= ROOM - read->arrived_length) {
        memcpy(read->arrived + read->arrived_length, is.bytes, more);
        read->arrived_length += more;
    }
    read->due += due.answer.length;
    if (read->due == read->length)
        read->ended = "whole";
}

void read_packets(void)
{
    outcome due[COMPUTERS];
    int reading[COMPUTERS];
    int i;

    wait_ms(1);
    for (i = 0; i < COMPUTERS; i++) {
        reading[i] = is_reading(&computers[i]);
        due[i] = answered(GRIMHOLDI_ANSWER_NYET);
        if (reading[i])
            start_in(&computers[i], TAKE, GRIMHOLDI_ANSWER_DONE);
    }
    for (i = 0; i < COMPUTERS; i++)
        if (reading[i]) { /* the one stored earlier runs first */
            launch(launched_in(&computers[i], TAKE));
            due[i] = next_packet(&computers[i]);
            deliver(&computers[i], TAKE, GRIMHOLDI_DIRECTION_IN, due[i]);
        }
    for (i = 0; i < COMPUTERS; i++)
        if (reading[i])
            receive(&computers[i], due[i]);
}

void read_takes(void)
{
    while (is_reading(&computers[0]) || is_reading(&computers[1]))
        read_packets();
}

static int as_sent(const take *of)
{
    return of->arrived_length == of->due
           && memcmp(of->arrived, of->bytes, of->due) == 0;
}

static void print_take(const take *of)
{
    char name[2 * LINE];

    printf("%8u  %-12s  %4u  %5u of %-5u  %-10s  %s\n", of->of->lane,
           of->of->microphone, of->number, (unsigned)of->arrived_length,
           (unsigned)of->length, of->ended,
           !as_sent(of) ? "NOT AS SENT"
           : of->due > 0 ? "as sent" : "nothing was due");
    if (as_sent(of))
        return;
    snprintf(name, sizeof name, "%s, take %u", of->of->microphone, of->number);
    print_unexpected(name, "");
    printf("expected %u bytes as sent, got %u ", (unsigned)of->due,
           (unsigned)of->arrived_length);
    print_text(of->arrived, of->arrived_length);
    printf("\n");
}

void print_takes(void)
{
    size_t i;

    printf("computer  microphone    take  bytes arrived   ended\n");
    for (i = 0; i < begun; i++)
        print_take(&takes[i]);
}
