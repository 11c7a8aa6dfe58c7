/*
 * All bytes of each struct that the library returns, compared with bytes that
 * are written by hand from document 01, docs/CALLS.md and the headers.  Valid
 * C99 and C++11: compilers.py builds it with each compiler, since the caller's
 * side of a call is the compiler's.
 *
 * Then each compared byte is changed in turn, and each change must be found.
 */

#include "grimholdi.h"
#include "grimholdi_record.h"

#include <stdio.h>
#include <string.h>

/* Sizes and places, for the compiler. */

#define STATIC_CHECK(name, condition) \
    typedef char static_check_##name[(condition) ? 1 : -1]
#define FIELD(type, field, at) \
    STATIC_CHECK(type##_##field, offsetof(grimholdi_##type, field) == (at))

STATIC_CHECK(answer, sizeof(grimholdi_answer) == 10);
FIELD(answer, number, 0);
FIELD(answer, length, 1);
FIELD(answer, pid, 2);
FIELD(answer, transfer, 3);
FIELD(answer, lane, 4);
FIELD(answer, address, 5);
FIELD(answer, endpoint, 6);
FIELD(answer, direction, 7);
FIELD(answer, low_speed, 8);
FIELD(answer, toggle, 9);

STATIC_CHECK(reason, sizeof(grimholdi_reason) == 9);
FIELD(reason, kind, 0);
FIELD(reason, value, 1);
FIELD(reason, changes, 2);

/* Byte 3 is padding. */
STATIC_CHECK(replayed, sizeof(grimholdi_replayed) == 20);
FIELD(replayed, number, 0);
FIELD(replayed, refusal, 1);
FIELD(replayed, active, 2);
FIELD(replayed, stored, 4);
FIELD(replayed, answered, 8);
FIELD(replayed, emptied, 12);
FIELD(replayed, length, 16);

/* Comparing. */

enum { BYTES_MAX = 20 };

static unsigned long compared; /* bytes, in this round */
static unsigned long planted;  /* the one that is changed, from 1; 0: none */
static unsigned long failures;

static void fail(const char *what)
{
    failures++;
    if (planted == 0)
        printf("returned: %s\n", what);
}

static void expect(int holds, const char *what)
{
    if (!holds)
        fail(what);
}

static unsigned digit(char hex)
{
    return (unsigned)(hex <= '9' ? hex - '0' : hex - 'A' + 10);
}

/*
 * `expected` has two hex digits and a space for each byte, low bytes first;
 * -- is padding, of which nothing is promised.
 */
static void compare(const char *what, const void *returned, size_t length,
                    const char *expected)
{
    unsigned char bytes[BYTES_MAX];
    size_t i;

    memcpy(bytes, returned, length);
    if (strlen(expected) != 3 * length - 1) {
        fail("an expected row has the wrong length");
        return;
    }
    for (i = 0; i < length; i++, expected += 3) {
        if (*expected == '-')
            continue;
        if (++compared == planted)
            bytes[i] = (unsigned char)(bytes[i] ^ 0x80u);
        if (bytes[i] != 16 * digit(expected[0]) + digit(expected[1])) {
            fail(what);
            if (planted == 0)
                printf("  byte %u is %02X, not %.2s\n", (unsigned)i, bytes[i],
                       expected);
        }
    }
}

static void answer(const char *what, grimholdi_answer returned,
                   const char *expected)
{
    compare(what, &returned, sizeof returned, expected);
}

static void reason(const char *what, grimholdi_reason returned,
                   const char *expected)
{
    compare(what, &returned, sizeof returned, expected);
}

static void replayed(const char *what, grimholdi_replayed returned,
                     const char *expected)
{
    compare(what, &returned, sizeof returned, expected);
}

/* Answers and reasons of a number alone. */

#define PLAIN(number) number " 00 00 00 00 00 00 00 00 00"
#define DONE PLAIN("00")
#define NOTHING "00 00 00 00 00 00 00 00 00"
#define SAYS(kind, value) kind " " value " 00 00 00 00 00 00 00"

/* The hub: 7 ports, 4 buffers. */

enum { LENGTH = 324, ROOM = 64 };

static uint8_t area[LENGTH];
static uint8_t bad_area[LENGTH]; /* zeros: no hub has no ports */
static uint8_t reply[ROOM];
static uint8_t setup[8];
static uint8_t payload[ROOM];
static uint8_t block[512];
static uint8_t answers[37444];

/* Setup bytes: type, request, wValue, wIndex, wLength, of one byte each. */
static const uint8_t *packet(uint8_t type, uint8_t request, uint8_t value,
                             uint8_t index, uint8_t length)
{
    setup[0] = type;
    setup[1] = request;
    setup[2] = value;
    setup[3] = 0;
    setup[4] = index;
    setup[5] = 0;
    setup[6] = length;
    setup[7] = 0;
    return setup;
}

static grimholdi_answer request(uint32_t lane, uint8_t type, uint8_t code,
                                uint8_t value, uint8_t index, uint8_t length)
{
    return grimholdi_control(area, LENGTH, lane,
                             packet(type, code, value, index, length), 8,
                             reply, ROOM);
}

static void ticks(int count)
{
    while (count-- > 0)
        answer("tick", grimholdi_tick(area, LENGTH), DONE);
}

static void event(uint32_t number, uint32_t port)
{
    answer("line event", grimholdi_line_event(area, LENGTH, number, port),
           DONE);
}

/* SetPortFeature */
static void set(uint8_t feature, uint8_t port)
{
    answer("SetPortFeature", request(0, 0x23, 3, feature, port, 0), DONE);
}

static void new_hub(void)
{
    answer("new, eight ports", grimholdi_new(area, LENGTH, 8, 4, 50, 100, 0),
           PLAIN("06"));
    answer("new", grimholdi_new(area, LENGTH, 7, 4, 50, 100, 0), DONE);
}

static void unconfigured(void)
{
    answer("poll, unconfigured", grimholdi_poll(area, LENGTH, 1, reply, ROOM),
           PLAIN("05"));
    answer("start-split, unconfigured",
           grimholdi_start_split(area, LENGTH, 0, 9, 2, 0, 0, 5, 3, NULL, 0),
           PLAIN("05"));
    reason("why start-split, unconfigured",
           grimholdi_why_start_split(area, LENGTH, 0, 9, 2, 0, 0, 5, 3, NULL,
                                     0), SAYS("01", "05"));
    answer("complete-split, unconfigured",
           grimholdi_complete_split(area, LENGTH, 0, 5, 3, 1, reply, ROOM),
           PLAIN("05"));
    reason("why complete-split, unconfigured",
           grimholdi_why_complete_split(area, LENGTH, 0, 5, 3, 1, ROOM),
           SAYS("01", "05"));
    answer("launch, unconfigured",
           grimholdi_launch(area, LENGTH, reply, ROOM), PLAIN("05"));
    reason("why launch, unconfigured",
           grimholdi_why_launch(area, LENGTH, ROOM), SAYS("01", "05"));
    answer("deliver, unconfigured",
           grimholdi_deliver(area, LENGTH, 2, NULL, 0), PLAIN("05"));
    reason("why deliver, unconfigured",
           grimholdi_why_deliver(area, LENGTH, 2, NULL, 0), SAYS("01", "05"));
    answer("line event, unconfigured",
           grimholdi_line_event(area, LENGTH, 1, 1), PLAIN("08"));
    reason("why line event, unconfigured",
           grimholdi_why_line_event(area, LENGTH, 1, 1), SAYS("01", "08"));
}

static void requests(void)
{
    answer("GetHubDescriptor",
           grimholdi_control(area, LENGTH, 0,
                             (const uint8_t *)"\xA0\x06\x00\x29\0\0\x09\0", 8,
                             reply, ROOM), "01 09 00 00 00 00 00 00 00 00");
    expect(memcmp(reply, "\x09\x29\x07\x09\x00\x32\x64\x00\xFF", 9) == 0,
           "the hub descriptor");
    answer("GetHubStatus, unconfigured", request(0, 0xA0, 0, 0, 0, 4),
           PLAIN("02"));
    reason("why GetHubStatus, unconfigured",
           grimholdi_why_control(area, LENGTH, 0, packet(0xA0, 0, 0, 0, 4), 8,
                                 ROOM), SAYS("08", "01"));
    answer("SetConfiguration 1", request(1, 0x00, 9, 1, 0, 0), DONE);
    answer("SetConfiguration 2", request(1, 0x00, 9, 2, 0, 0), PLAIN("02"));
    reason("why SetConfiguration 2",
           grimholdi_why_control(area, LENGTH, 1, packet(0x00, 9, 2, 0, 0), 8,
                                 ROOM), SAYS("08", "02"));
    reason("why SetPortFeature of port 8",
           grimholdi_why_control(area, LENGTH, 1, packet(0x23, 3, 8, 8, 0), 8,
                                 ROOM), SAYS("08", "03"));
    reason("why GetConfiguration, wLength 2",
           grimholdi_why_control(area, LENGTH, 1, packet(0x80, 8, 0, 0, 2), 8,
                                 ROOM), SAYS("08", "04"));
    reason("why SetConfiguration 1",
           grimholdi_why_control(area, LENGTH, 1, packet(0x00, 9, 1, 0, 0), 8,
                                 ROOM), NOTHING);
    answer("control, seven setup bytes",
           grimholdi_control(area, LENGTH, 0, setup, 7, reply, ROOM),
           PLAIN("06"));
    answer("control, short reply space",
           grimholdi_control(area, LENGTH, 0, setup, 8, reply, ROOM - 1),
           PLAIN("07"));
}

/* Change bits at each port: 01 08 11 13 09 15 1B. */
static void ports(void)
{
    uint8_t port;

    answer("poll, no change", grimholdi_poll(area, LENGTH, 0, reply, ROOM),
           PLAIN("03"));
    reason("why poll, no change", grimholdi_why_poll(area, LENGTH, 0, ROOM),
           NOTHING);
    for (port = 1; port <= 7; port++)
        set(8, port);                     /* power */
    for (port = 1; port <= 7; port++)
        event(port == 2 ? 6 : 1, port);   /* over-current on, attach full */
    set(4, 3);                            /* reset */
    set(4, 4);
    set(4, 6);
    set(4, 7);
    ticks(15);
    event(5, 4);                          /* port error */
    event(6, 5);
    set(2, 6);                            /* suspend */
    event(4, 6);                          /* wake */
    event(5, 7);
    event(6, 7);
    ticks(22);
    answer("line event, port error where none is enabled",
           grimholdi_line_event(area, LENGTH, 5, 1), PLAIN("08"));
    answer("line event, port 8", grimholdi_line_event(area, LENGTH, 1, 8),
           PLAIN("06"));
    reason("why line event, port 8",
           grimholdi_why_line_event(area, LENGTH, 1, 8), SAYS("01", "06"));
    reason("why line event", grimholdi_why_line_event(area, LENGTH, 2, 1),
           NOTHING);
    answer("poll", grimholdi_poll(area, LENGTH, 0, reply, ROOM),
           "01 01 00 00 00 00 00 00 00 00");
    expect(reply[0] == 0xFE, "the bitmap");
    reason("why poll", grimholdi_why_poll(area, LENGTH, 0, ROOM),
           "07 00 01 08 11 13 09 15 1B");
    reason("why poll, short reply space",
           grimholdi_why_poll(area, LENGTH, 0, ROOM - 1), SAYS("01", "07"));
    answer("GetPortStatus", request(0, 0xA3, 0, 0, 6, 4),
           "01 04 00 00 00 00 00 00 00 00");
    expect(memcmp(reply, "\x03\x01\x15\x00", 4) == 0, "the status of port 6");
}

static grimholdi_answer start(uint32_t lane, uint32_t pid, uint32_t transfer,
                              uint32_t low_speed, uint32_t toggle,
                              uint32_t address, uint32_t endpoint,
                              size_t length)
{
    return grimholdi_start_split(area, LENGTH, lane, pid, transfer, low_speed,
                                 toggle, address, endpoint, payload, length);
}

static grimholdi_reason why_in(uint32_t lane, uint32_t address)
{
    return grimholdi_why_start_split(area, LENGTH, lane, 9, 2, 0, 0, address,
                                     3, NULL, 0);
}

static grimholdi_answer complete(uint32_t lane, uint32_t address,
                                 uint32_t endpoint, uint32_t direction)
{
    return grimholdi_complete_split(area, LENGTH, lane, address, endpoint,
                                    direction, reply, ROOM);
}

/* Lane 1: OUT to (127,15), SETUP to (86,10), IN from (64,8); lane 0: IN. */
static void starts(void)
{
    reason("why start-split, free", why_in(0, 5), SAYS("04", "00"));
    answer("start-split OUT", start(1, 1, 2, 1, 1, 127, 15, 64), DONE);
    answer("start-split SETUP", start(1, 13, 0, 1, 0, 86, 10, 8), DONE);
    answer("start-split IN", start(1, 9, 2, 0, 1, 64, 8, 0), DONE);
    reason("why start-split, limit", why_in(1, 5), SAYS("05", "00"));
    answer("start-split, limit", start(1, 9, 2, 0, 0, 5, 3, 0), PLAIN("03"));
    reason("why start-split, buffer 3", why_in(0, 5), SAYS("04", "03"));
    answer("start-split IN, lane 0", start(0, 9, 2, 0, 0, 5, 3, 0), DONE);
    reason("why start-split, repeat", why_in(0, 5), SAYS("02", "03"));
    reason("why start-split, no room", why_in(0, 6), SAYS("06", "00"));
    answer("start-split, no room", start(0, 9, 2, 0, 0, 6, 3, 0), PLAIN("03"));
    answer("start-split, address 128", start(0, 9, 2, 0, 0, 128, 3, 0),
           PLAIN("06"));
    answer("complete-split, pending", complete(0, 5, 3, 1), PLAIN("04"));
    answer("complete-split, no match", complete(0, 6, 3, 1), PLAIN("02"));
    reason("why complete-split, no match",
           grimholdi_why_complete_split(area, LENGTH, 0, 6, 3, 1, ROOM),
           NOTHING);
}

static void launch(const char *expected)
{
    answer("launch", grimholdi_launch(area, LENGTH, reply, ROOM), expected);
}

static void deliver(uint32_t result, size_t length)
{
    answer("deliver",
           grimholdi_deliver(area, LENGTH, result, payload, length), DONE);
}

/* number length pid transfer lane address endpoint direction low toggle */
static void transactions(void)
{
    answer("deliver, nothing runs", grimholdi_deliver(area, LENGTH, 2, NULL,
                                                      0), PLAIN("08"));
    launch("01 40 01 02 01 7F 0F 00 01 01");
    expect(memcmp(reply, payload, 64) == 0, "the payload of OUT");
    launch(PLAIN("08"));
    reason("why launch, occupied", grimholdi_why_launch(area, LENGTH, ROOM),
           SAYS("01", "08"));
    answer("launch, short reply space",
           grimholdi_launch(area, LENGTH, reply, ROOM - 1), PLAIN("07"));
    answer("deliver, no result", grimholdi_deliver(area, LENGTH, 1, NULL, 0),
           PLAIN("06"));
    reason("why deliver, no result",
           grimholdi_why_deliver(area, LENGTH, 1, NULL, 0), SAYS("01", "06"));
    reason("why deliver", grimholdi_why_deliver(area, LENGTH, 2, NULL, 0),
           NOTHING);
    deliver(2, 0);                        /* ACK */
    reason("why launch", grimholdi_why_launch(area, LENGTH, ROOM), NOTHING);
    launch("01 08 0D 00 01 56 0A 00 01 00");
    deliver(0, 0);                        /* failure */
    launch("01 00 09 02 01 40 08 01 00 01");
    deliver(10, 0);                       /* NAK */
    launch("01 00 09 02 00 05 03 01 00 00");
    deliver(11, 3);                       /* DATA1 */
    launch(PLAIN("03"));
    answer("complete-split OUT", complete(1, 127, 15, 0),
           "09 00 02 00 00 00 00 00 00 00");
    answer("complete-split SETUP", complete(1, 86, 10, 0),
           "09 00 0E 00 00 00 00 00 00 00");
    answer("complete-split IN", complete(1, 64, 8, 1),
           "09 00 0A 00 00 00 00 00 00 00");
    answer("complete-split IN, lane 0", complete(0, 5, 3, 1),
           "01 03 0B 00 00 00 00 00 00 00");
    expect(memcmp(reply, payload, 3) == 0, "the payload of IN");
    answer("complete-split, short reply space",
           grimholdi_complete_split(area, LENGTH, 0, 5, 3, 1, reply, ROOM - 1),
           PLAIN("07"));
    reason("why start-split, own old buffer", why_in(0, 5), SAYS("03", "03"));
}

/* The area is refused. */
static void bad_areas(void)
{
    answer("tick, bad area", grimholdi_tick(bad_area, LENGTH), PLAIN("06"));
    reason("why tick, bad area", grimholdi_why_tick(bad_area, LENGTH),
           SAYS("01", "06"));
    reason("why tick", grimholdi_why_tick(area, LENGTH), NOTHING);
    answer("bus reset, bad area", grimholdi_bus_reset(bad_area, LENGTH),
           PLAIN("06"));
    reason("why bus reset, bad area",
           grimholdi_why_bus_reset(bad_area, LENGTH), SAYS("01", "06"));
    reason("why bus reset", grimholdi_why_bus_reset(area, LENGTH), NOTHING);
    answer("bus reset", grimholdi_bus_reset(area, LENGTH), DONE);
}

static uint8_t record[GRIMHOLDI_RECORD_SPACE];

static void add(size_t length)
{
    expect(grimholdi_block_add(block, sizeof block, record, length) == 0,
           "a record is added");
}

static void add_start(uint32_t lane, uint32_t address)
{
    add(grimholdi_record_start_split(record, sizeof record, lane, 9, 2, 0, 0,
                                     address, 1, NULL, 0));
}

/*
 * Four start-splits are stored.  One is answered, 64 bytes, and asked for four
 * times; those of lane 1 are emptied by ResetTT.
 */
static void write_block(void)
{
    int i;

    expect(grimholdi_block_start(block, sizeof block, 0) == 6,
           "no block has the number 0");
    expect(grimholdi_block_start(block, sizeof block, 1) == 0,
           "block 1 is started");
    add(grimholdi_record_control(record, sizeof record, 0,
                                 packet(0x00, 9, 1, 0, 0), 8, ROOM));
    add_start(0, 5);
    add_start(0, 6);
    add_start(1, 5);
    add_start(1, 6);
    add(grimholdi_record_launch(record, sizeof record, ROOM));
    add(grimholdi_record_deliver(record, sizeof record, 3, payload, 64));
    for (i = 0; i < 4; i++)
        add(grimholdi_record_complete_split(record, sizeof record, 0, 5, 1, 1,
                                            ROOM));
    add(grimholdi_record_control(record, sizeof record, 1,
                                 packet(0x23, 9, 0, 1, 0), 8, ROOM));
    expect(grimholdi_block_finish(block, sizeof block) == 0,
           "block 1 is finished");
}

/* number refusal active padding, then stored, answered, emptied, length */
static void replays(void)
{
    replayed("replay, bad area",
             grimholdi_replay_block(bad_area, LENGTH, 1, block, 512, answers,
                                    sizeof answers),
             "06 00 00 -- 00 00 00 00 00 00 00 00 00 00 00 00 00 00 00 00");
    replayed("replay, short space",
             grimholdi_replay_block(area, LENGTH, 1, block, 512, answers,
                                    sizeof answers - 1),
             "07 00 00 -- 00 00 00 00 00 00 00 00 00 00 00 00 00 00 00 00");
    /* Twelve answers of 10 bytes, four of them with 64 more: 178h bytes. */
    replayed("replay",
             grimholdi_replay_block(area, LENGTH, 1, block, 512, answers,
                                    sizeof answers),
             "00 00 01 -- 04 00 00 00 01 00 00 00 02 00 00 00 78 01 00 00");
    replayed("replay, place 2",
             grimholdi_replay_block(area, LENGTH, 2, block, 512, answers,
                                    sizeof answers),
             "00 03 01 -- 00 00 00 00 00 00 00 00 00 00 00 00 00 00 00 00");
    replayed("replay, 511 bytes",
             grimholdi_replay_block(area, LENGTH, 1, block, 511, answers,
                                    sizeof answers),
             "00 01 01 -- 00 00 00 00 00 00 00 00 00 00 00 00 00 00 00 00");
}

#define TEXT(number) #number
#define DOTTED(major, minor, patch) TEXT(major) "." TEXT(minor) "." TEXT(patch)

static void versions(void)
{
    const uint32_t number = GRIMHOLDI_VERSION_NUMBER;

    expect(number == GRIMHOLDI_VERSION_MAJOR * 10000u
                         + GRIMHOLDI_VERSION_MINOR * 100u
                         + GRIMHOLDI_VERSION_PATCH,
           "GRIMHOLDI_VERSION_NUMBER");
    expect(strcmp(GRIMHOLDI_VERSION,
                  DOTTED(GRIMHOLDI_VERSION_MAJOR, GRIMHOLDI_VERSION_MINOR,
                         GRIMHOLDI_VERSION_PATCH)) == 0,
           "GRIMHOLDI_VERSION");
    expect(grimholdi_version() == number, "the library's version");
}

/* The whole, once; how many bytes differed. */
static unsigned long round_of(unsigned long plant)
{
    size_t i;

    compared = 0;
    planted = plant;
    failures = 0;
    for (i = 0; i < sizeof payload; i++)
        payload[i] = (uint8_t)(i + 1);
    versions();
    expect(grimholdi_area_length(7, 4) == LENGTH, "the area's length");
    expect(grimholdi_area_length(8, 4) == 0, "no area for eight ports");
    new_hub();
    unconfigured();
    requests();
    ports();
    starts();
    transactions();
    bad_areas();
    write_block();
    replays();
    return failures;
}

int main(void)
{
    const unsigned long failed = round_of(0);
    const unsigned long bytes = compared;
    unsigned long plant, missed = 0;

    for (plant = 1; plant <= bytes; plant++)
        if (round_of(plant) != failed + 1)
            missed++;
    printf("returned structs: %s, %lu bytes compared, %lu failed, %lu of %lu "
           "planted bytes not found\n",
           failed + missed == 0 ? "passed" : "FAILED", bytes, failed, missed,
           bytes);
    return failed + missed != 0;
}
