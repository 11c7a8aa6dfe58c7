/*
 * grimholdi.h - a USB 2.0 hub controller and transaction translator
 *
 * The hub has two upstream lanes, 1 to 7 downstream ports and one translator
 * with 2 to 4 buffers for bulk and control split transactions.  The firmware
 * hands over finished events, setup packets and payloads as numbers and bytes.
 * Each call returns one answer.  This text names answers DONE, DATA, .. for
 * GRIMHOLDI_ANSWER_DONE, GRIMHOLDI_ANSWER_DATA, ..
 *
 * Beside this header stand four that are all static inline:
 * grimholdi_port.h gives a port's state and speed, grimholdi_setup.h builds
 * setup packets, grimholdi_names.h names the numbers for a log, and
 * grimholdi_record.h records a session.
 *
 * An example
 *
 *   A hub of 4 ports and 2 buffers.  A host configures it and powers port 1, a
 *   full-speed device is attached there, and the host polls:
 *
 *     static const uint8_t configure[] = {0x00, 0x09, 1, 0, 0, 0, 0, 0};
 *     static const uint8_t power_1[] = {0x23, 0x03, 8, 0, 1, 0, 0, 0};
 *     uint8_t area[GRIMHOLDI_AREA_LENGTH_MAX], reply[GRIMHOLDI_REPLY_LENGTH];
 *     size_t area_len = grimholdi_area_length(4, 2);
 *     grimholdi_answer answer;
 *
 *     grimholdi_new(area, area_len, 4, 2, 50, 100, 0);
 *     grimholdi_control(area, area_len, 0, configure, 8, reply, sizeof reply);
 *     grimholdi_control(area, area_len, 0, power_1, 8, reply, sizeof reply);
 *     grimholdi_line_event(area, area_len, GRIMHOLDI_EVENT_ATTACH_FULL, 1);
 *     answer = grimholdi_poll(area, area_len, 0, reply, sizeof reply);
 *
 *   Every answer but the last is GRIMHOLDI_ANSWER_DONE.  The last is
 *   GRIMHOLDI_ANSWER_DATA with one byte, 0x02: port 1 has changed.
 *
 * The area
 *
 *   The caller keeps the hub in an area of bytes and lends it to each call.
 *   grimholdi_area_length gives its length, grimholdi_new writes a new hub
 *   into it, and every other call takes the area as the last call left it.
 *   The area needs no alignment and may be copied, stored and restored.  The
 *   library keeps nothing outside it.  docs/AREA.md gives its layout.
 *
 *   Each call but grimholdi_new tests the whole area first.  An area of the
 *   wrong length, or with bytes that are not the written form of a permitted
 *   hub, is refused with GRIMHOLDI_ANSWER_OUTSIDE.  What the calls themselves
 *   leave is always taken.
 *
 * A stored area
 *
 *   Bytes that were stored, or come over a line, are an area exactly if
 *
 *     grimholdi_poll(area, area_len, 0, NULL, 0).number
 *         != GRIMHOLDI_ANSWER_OUTSIDE
 *
 *   The poll only reads the area, and without reply space it does nothing
 *   else: a good area gets GRIMHOLDI_ANSWER_NO_SPACE.  A firmware that links
 *   the explaining calls, below, may as well ask whether
 *   grimholdi_why_tick(area, area_len).kind is GRIMHOLDI_WHY_NONE.
 *
 *   An area does not tell which version wrote it: store
 *   GRIMHOLDI_VERSION_NUMBER beside it.  Nor does it know what came after it
 *   was stored: if the host or the devices went on without it, make a new hub.
 *
 * The lanes
 *
 *   Two computers use the hub, each through a lane of its own, 0 or 1.
 *   Control requests, polls and both splits name the lane they come from.
 *   Both lanes act on the one set of ports and take from the same buffers.
 *   The lane is part of a key: the same address, endpoint and direction in
 *   both lanes are two keys, with a transaction and a result each.
 *
 *   A lane may hold all buffers but one pending or ready, and no more; old
 *   ones do not count.  A lane that holds none always finds one.
 *
 *   A lane may see of the other: NAK because the other holds the buffers,
 *   STALL because the other took an old one, the other's port requests in the
 *   status and the bitmap, and its SetConfiguration, which acts on both.  It
 *   never sees a payload byte of the other.
 *
 * The ports
 *
 *   One port cannot disturb another.  Line events at a port and the requests
 *   that name it (GetPortStatus, ClearPortFeature, SetPortFeature) change no
 *   byte of the area but that port's four.  If the other calls are the same,
 *   every other port, the translator and the answers to those calls are as if
 *   the port had never been named.  Only a poll may differ: in that port's
 *   bit, and where no other bit is set it is GRIMHOLDI_ANSWER_DATA in place of
 *   GRIMHOLDI_ANSWER_NAK, or the other way round.  (Its reason, below, tells
 *   the change bits of every port.)
 *
 * The order of checks
 *
 *   Where several answers apply, the first of this list is given:
 *
 *     1. OUTSIDE    the area, a number or a length is outside the rules; a
 *                   lane above 1 is such a number
 *     2. NO_SPACE   the call takes reply space and reply_len is below
 *                   GRIMHOLDI_REPLY_LENGTH, even if the call would write
 *                   nothing
 *     3. SILENT     the hub is unconfigured
 *     4. NOT_NOW    not in this state
 *     5. the rest, as each call below says
 *
 *   Each call lists its answers in this order.  It gives no others.
 *
 * What a call leaves
 *
 *   Answers 2 to 8 are refusals: the area and the reply space keep every byte.
 *   DATA writes the first `length` bytes of the reply space and keeps the
 *   rest.  DONE and HANDSHAKE write nothing but the area.  Polls and Get
 *   requests leave the area as it is.  Setup bytes and payloads are only read.
 *
 * What goes upstream
 *
 *   What the front end sends to the host for an answer to one of these calls:
 *
 *                control       poll         start-split  complete-split
 *     DONE       status stage  -            ACK          -
 *     DATA       data stage    data packet  -            data packet, `pid`
 *     STALL      STALL         -            -            STALL
 *     NAK        -             NAK          NAK          -
 *     NYET       -             -            -            NYET
 *     HANDSHAKE  -             -            -            `pid`
 *     SILENT     -             nothing      nothing      nothing
 *     OUTSIDE    nothing       nothing      nothing      nothing
 *     NO_SPACE   nothing       nothing      -            nothing
 *
 *   "-": the call never gives this answer.  "nothing": no packet, so that the
 *   host times out.  OUTSIDE and NO_SPACE are mistakes of the firmware, but
 *   for a start-split that the translator does not know: one of another type
 *   than control and bulk, or with another payload than its PID has.
 *
 *   A SETUP that is meant for the hub itself is always acknowledged, before
 *   its request is handed over; the request's answer shows in the stages
 *   behind it.  The data toggle of the status change endpoint, which polls
 *   use, is the firmware's: it starts with DATA0 at each SetConfiguration.
 *
 *   Launch, deliver, line events and ticks are between the hub and the front
 *   end, and nothing goes upstream for them.  NOT_NOW is answered there alone.
 *
 * Why a call is answered as it is
 *
 *   Beside each call that takes a hub stands grimholdi_why_..: it takes
 *   the area and the same numbers and bytes, and tells why the call would be
 *   answered as it would.  The call is not made: the area is only read, there
 *   is no reply space, and reply_len, any number, is the length of the one the
 *   call would get.  A firmware that explains nothing links none of them.
 *
 * Recordings
 *
 *   A session can be recorded and replayed.  A recording is a file of 0 to
 *   65,535 blocks of 512 bytes; a block holds records, and a record is the
 *   written form of one call, with any numbers and lengths, refused ones too.
 *   docs/CALLS.md lays down all bytes.  grimholdi_block_start, _add and
 *   _finish write a block in 512 bytes that the caller lends;
 *   grimholdi_record.h builds the records.  grimholdi_replay_block makes the
 *   calls of a block, in order, on the hub of an area.  A firmware that
 *   neither records nor replays links none of them.
 *
 * Interrupt handlers
 *
 *   A call never waits, allocates nothing, keeps nothing outside the memory
 *   that it is lent, and its work is bounded.  It needs at most 3,400 bytes of
 *   stack on x86-64, grimholdi_replay_block at most 6,800 (docs/SPEED.md has
 *   the instructions and the stack of each call).  So every call may be made
 *   in an interrupt handler.  But two calls with one area must not overlap:
 *   where a handler and other code use one area, mask the interrupt around the
 *   other code's calls, or queue in the handler what happened and make the
 *   call outside it.
 *
 * What nothing can check
 *
 *   Each pointer must hold as many bytes as its length says, and the area, the
 *   reply space, the answers' space and a block that is being written must be
 *   writable, but for an area that is only polled or explained.  (NULL, 0) is
 *   an empty slice; it is permitted for every pointer and length.  The area
 *   must overlap neither the reply space nor the setup or payload bytes, and
 *   the reply space must not overlap the setup bytes.  Area, block and
 *   answers' space of a replay must not overlap, nor a block and the record
 *   that is added to it.  Two calls with one area, one reply space, one
 *   answers' space or one block that is being written must not run at the
 *   same time, unless both only explain; calls with different ones may.
 */

#ifndef GRIMHOLDI_H
#define GRIMHOLDI_H

#include <stddef.h>
#include <stdint.h>

#ifdef __cplusplus
extern "C" {
#endif

/*
 * The version of this header.  Within one MINOR number what was compiled for
 * one PATCH runs with another; before 1.0 a new MINOR number may change names,
 * structs and the area.
 */

#define GRIMHOLDI_VERSION_MAJOR     0
#define GRIMHOLDI_VERSION_MINOR     5
#define GRIMHOLDI_VERSION_PATCH     0
#define GRIMHOLDI_VERSION           "0.5.0"
#define GRIMHOLDI_VERSION_NUMBER    (GRIMHOLDI_VERSION_MAJOR * 10000 \
                                     + GRIMHOLDI_VERSION_MINOR * 100 \
                                     + GRIMHOLDI_VERSION_PATCH)

/* Limits. */

#define GRIMHOLDI_PORTS_MIN         1   /* ports are numbered from 1 */
#define GRIMHOLDI_PORTS_MAX         7
#define GRIMHOLDI_BUFFERS_MIN       2
#define GRIMHOLDI_BUFFERS_MAX       4
#define GRIMHOLDI_LANE_MAX          1   /* lanes are numbered from 0 */
#define GRIMHOLDI_ADDRESS_MAX       127
#define GRIMHOLDI_ENDPOINT_MAX      15
#define GRIMHOLDI_PAYLOAD_MAX       64
#define GRIMHOLDI_SETUP_LENGTH      8
#define GRIMHOLDI_REPLY_LENGTH      64  /* least reply space */
#define GRIMHOLDI_AREA_LENGTH_MAX   324 /* area of 7 ports and 4 buffers */
#define GRIMHOLDI_BLOCK_LENGTH      512 /* block of a recording */
#define GRIMHOLDI_BLOCK_USED_MAX    506 /* bytes of records in a block */
#define GRIMHOLDI_BLOCK_NUMBER_MAX  65535 /* blocks are numbered from 1 */
#define GRIMHOLDI_ANSWERS_LENGTH    37444 /* least space for the answers of a
                                             block: 506 of 10 + 64 bytes */
#define GRIMHOLDI_RESET_TICKS       15  /* ticks that end a port reset */
#define GRIMHOLDI_RESUME_TICKS      22  /* ticks that end a resume */

/* Answers: the field `number`. */

#define GRIMHOLDI_ANSWER_DONE       0  /* done (ACK) */
#define GRIMHOLDI_ANSWER_DATA       1  /* `length` bytes in the reply space */
#define GRIMHOLDI_ANSWER_STALL      2  /* STALL */
#define GRIMHOLDI_ANSWER_NAK        3  /* nothing to give, or no buffer */
#define GRIMHOLDI_ANSWER_NYET       4  /* NYET */
#define GRIMHOLDI_ANSWER_SILENT     5  /* the hub is unconfigured */
#define GRIMHOLDI_ANSWER_OUTSIDE    6  /* area, number or length refused */
#define GRIMHOLDI_ANSWER_NO_SPACE   7  /* reply space under 64 bytes */
#define GRIMHOLDI_ANSWER_NOT_NOW    8  /* not in this state */
#define GRIMHOLDI_ANSWER_HANDSHAKE  9  /* the device's handshake, in `pid` */

/* PIDs of start-splits and launched transactions. */

#define GRIMHOLDI_PID_OUT           1
#define GRIMHOLDI_PID_IN            9
#define GRIMHOLDI_PID_SETUP         13

/*
 * Results of delivered transactions.  All but the failure are PIDs and also
 * stand in `pid` of a complete-split's answer.
 */

#define GRIMHOLDI_RESULT_FAILURE    0   /* no valid reply from the device */
#define GRIMHOLDI_RESULT_ACK        2
#define GRIMHOLDI_RESULT_DATA0      3
#define GRIMHOLDI_RESULT_NAK        10
#define GRIMHOLDI_RESULT_DATA1      11
#define GRIMHOLDI_RESULT_STALL      14

/* Transfer types. */

#define GRIMHOLDI_TRANSFER_CONTROL  0
#define GRIMHOLDI_TRANSFER_BULK     2

/* Directions.  A key is a lane, an address, an endpoint and a direction. */

#define GRIMHOLDI_DIRECTION_OUT     0   /* PIDs OUT and SETUP */
#define GRIMHOLDI_DIRECTION_IN      1   /* PID IN */

/* Line events. */

#define GRIMHOLDI_EVENT_ATTACH_LOW        0
#define GRIMHOLDI_EVENT_ATTACH_FULL       1 /* high-speed devices too */
#define GRIMHOLDI_EVENT_DETACH            2
#define GRIMHOLDI_EVENT_CHIRP             3
#define GRIMHOLDI_EVENT_WAKE              4
#define GRIMHOLDI_EVENT_PORT_ERROR        5
#define GRIMHOLDI_EVENT_OVER_CURRENT_ON   6
#define GRIMHOLDI_EVENT_OVER_CURRENT_OFF  7

/* Setup packets: bmRequestType (first byte) and bRequest (second byte). */

#define GRIMHOLDI_TYPE_SET_CONFIGURATION     0x00
#define GRIMHOLDI_TYPE_GET_CONFIGURATION     0x80
#define GRIMHOLDI_TYPE_GET_HUB               0xA0 /* descriptor, status */
#define GRIMHOLDI_TYPE_GET_PORT              0xA3
#define GRIMHOLDI_TYPE_SET_HUB               0x20
#define GRIMHOLDI_TYPE_SET_PORT              0x23 /* and the translator */

#define GRIMHOLDI_REQUEST_GET_STATUS         0x00
#define GRIMHOLDI_REQUEST_CLEAR_FEATURE      0x01
#define GRIMHOLDI_REQUEST_SET_FEATURE        0x03
#define GRIMHOLDI_REQUEST_GET_DESCRIPTOR     0x06
#define GRIMHOLDI_REQUEST_GET_CONFIGURATION  0x08
#define GRIMHOLDI_REQUEST_SET_CONFIGURATION  0x09
#define GRIMHOLDI_REQUEST_CLEAR_TT_BUFFER    0x08
#define GRIMHOLDI_REQUEST_RESET_TT           0x09

#define GRIMHOLDI_HUB_DESCRIPTOR             0x2900 /* wValue */
#define GRIMHOLDI_HUB_DESCRIPTOR_LENGTH      9

/* Hub features: wValue of ClearHubFeature. */

#define GRIMHOLDI_C_HUB_LOCAL_POWER     0
#define GRIMHOLDI_C_HUB_OVER_CURRENT    1

/* Port features: wValue of SetPortFeature and ClearPortFeature. */

#define GRIMHOLDI_PORT_ENABLE           1
#define GRIMHOLDI_PORT_SUSPEND          2
#define GRIMHOLDI_PORT_RESET            4
#define GRIMHOLDI_PORT_POWER            8
#define GRIMHOLDI_C_PORT_CONNECTION     16
#define GRIMHOLDI_C_PORT_ENABLE         17
#define GRIMHOLDI_C_PORT_SUSPEND        18
#define GRIMHOLDI_C_PORT_OVER_CURRENT   19
#define GRIMHOLDI_C_PORT_RESET          20

/* Status bits: first two bytes of GetPortStatus, little-endian. */

#define GRIMHOLDI_STATUS_CONNECTION     0x0001
#define GRIMHOLDI_STATUS_ENABLE         0x0002
#define GRIMHOLDI_STATUS_SUSPEND        0x0004
#define GRIMHOLDI_STATUS_OVER_CURRENT   0x0008
#define GRIMHOLDI_STATUS_RESET          0x0010
#define GRIMHOLDI_STATUS_POWER          0x0100
#define GRIMHOLDI_STATUS_LOW_SPEED      0x0200
#define GRIMHOLDI_STATUS_HIGH_SPEED     0x0400

/* Change bits: last two bytes of GetPortStatus, little-endian. */

#define GRIMHOLDI_CHANGE_CONNECTION     0x0001
#define GRIMHOLDI_CHANGE_ENABLE         0x0002 /* by a port error alone */
#define GRIMHOLDI_CHANGE_SUSPEND        0x0004
#define GRIMHOLDI_CHANGE_OVER_CURRENT   0x0008
#define GRIMHOLDI_CHANGE_RESET          0x0010

/* wValue of ClearTTBuffer. */

#define GRIMHOLDI_TT_ENDPOINT_SHIFT     0
#define GRIMHOLDI_TT_ADDRESS_SHIFT      4
#define GRIMHOLDI_TT_TRANSFER_SHIFT     11
#define GRIMHOLDI_TT_DIRECTION_SHIFT    15

/* What a call answers.  Fields that do not apply are 0. */

typedef struct {
    uint8_t number;    /* 0 to 9, see above */
    uint8_t length;    /* DATA: bytes written to the reply space */
    uint8_t pid;       /* complete-split: a result (not the failure);
                          launch: a PID */
    uint8_t transfer;  /* this and the following: launch only */
    uint8_t lane;      /* 0 or 1 */
    uint8_t address;
    uint8_t endpoint;
    uint8_t direction;
    uint8_t low_speed; /* 0 or 1 */
    uint8_t toggle;    /* 0 or 1 */
} grimholdi_answer;

/*
 * Why a call would be answered so: `kind`, `value` and `changes`.
 *
 *   NUMBER     SILENT, OUTSIDE, NO_SPACE or NOT_NOW is answered, and `value`
 *              is that number, 5 to 8.  An area that is refused gives OUTSIDE.
 *   NONE       any answer that is not named here: it gets no reason
 *
 * What the other reasons say of the area and the call is true, none of the
 * others is true of them, and it is enough by itself for the answer that is
 * named with it.
 *
 * A start-split answered DONE or NAK:
 *
 *   HELD       buffer `value` is pending or ready with this key: DONE, a
 *              repeat
 *   REUSED     the lane is below its limit, and buffer `value` is old with
 *              this key: DONE, stored there
 *   TOOK_FREE  the lane is below its limit, no buffer has this key, and buffer
 *              `value` is the lowest-numbered empty or old one: DONE, stored
 *              there
 *   LIMIT      the lane holds all buffers but one pending or ready, and none
 *              of them has this key: NAK.  It is named before NO_ROOM.
 *   NO_ROOM    the lane is below its limit, and every buffer is pending or
 *              ready under another key: NAK.  With two buffers each lane is
 *              at its limit then, and the reason is LIMIT.
 *
 * A poll answered DATA:
 *
 *   CHANGES    changes[p - 1] has the change bits GRIMHOLDI_CHANGE_.. that
 *              stand at port p, each of which makes bit p of the byte one
 *
 * A control request answered STALL:
 *
 *   WRONG      `value` is the first thing that is wrong, GRIMHOLDI_WRONG_..,
 *              in the order of their numbers
 *
 * `value` and `changes` are 0 where nothing is said of them.  No two reasons
 * have the same numbers.
 */

#define GRIMHOLDI_WHY_NONE          0
#define GRIMHOLDI_WHY_NUMBER        1
#define GRIMHOLDI_WHY_HELD          2
#define GRIMHOLDI_WHY_REUSED        3
#define GRIMHOLDI_WHY_TOOK_FREE     4
#define GRIMHOLDI_WHY_LIMIT         5
#define GRIMHOLDI_WHY_NO_ROOM       6
#define GRIMHOLDI_WHY_CHANGES       7
#define GRIMHOLDI_WHY_WRONG         8

#define GRIMHOLDI_WRONG_TYPE_OR_CODE  0 /* bmRequestType and bRequest */
#define GRIMHOLDI_WRONG_UNCONFIGURED  1 /* not served by such a hub */
#define GRIMHOLDI_WRONG_VALUE         2 /* wValue */
#define GRIMHOLDI_WRONG_INDEX         3 /* wIndex */
#define GRIMHOLDI_WRONG_LENGTH        4 /* wLength */

typedef struct {
    uint8_t kind;                         /* GRIMHOLDI_WHY_.. */
    uint8_t value;                        /* number, buffer or wrong thing */
    uint8_t changes[GRIMHOLDI_PORTS_MAX]; /* change bits, port 1 first */
} grimholdi_reason;

/*
 * Why a block of a recording is refused, in the order in which it is tested.
 * A block is taken exactly if it is the written form of some calls at its
 * place.
 */

#define GRIMHOLDI_REFUSED_NOT       0   /* the block is good */
#define GRIMHOLDI_REFUSED_LENGTH    1   /* not 512 bytes */
#define GRIMHOLDI_REFUSED_CHECK     2   /* its 256 words, little-endian, do not
                                           sum to zero modulo 65,536 */
#define GRIMHOLDI_REFUSED_NUMBER    3   /* its number is not its place; no
                                           number is right for place 0 or a
                                           place above 65,535 */
#define GRIMHOLDI_REFUSED_COUNT     4   /* more than 506 bytes used, or an
                                           unused one is not zero */
#define GRIMHOLDI_REFUSED_RECORD    5   /* the bytes used are not records, one
                                           behind the other */

/*
 * What became of a block.  Where `number` is not DONE, the rest is 0; of a
 * block that is refused, all but `refusal` and `active`.
 */

typedef struct {
    uint8_t number;     /* DONE, OUTSIDE or NO_SPACE */
    uint8_t refusal;    /* GRIMHOLDI_REFUSED_.. */
    uint8_t active;     /* buffers pending or ready, now */
    uint32_t stored;    /* by the block's calls: start-splits stored, */
    uint32_t answered;  /* start-splits for which a complete-split got DATA or
                           HANDSHAKE for the first time, */
    uint32_t emptied;   /* and start-splits emptied before that */
    uint32_t length;    /* bytes of the answers' space that were written */
} grimholdi_replayed;

/*
 * The version of the library that is linked, as GRIMHOLDI_VERSION_NUMBER.  A
 * firmware compares the two once.
 */
uint32_t grimholdi_version(void);

/*
 * The length of the area of a hub with that many ports and buffers, or 0 where
 * a number is outside the rules.
 */
size_t grimholdi_area_length(uint32_t ports, uint32_t buffers);

/*
 * Writes a new hub into the area: unconfigured, no change bits, no
 * over-current, all buffers empty, low side free.  What the area held before
 * does not matter.
 *
 *   ports       1 to 7
 *   buffers     2 to 4
 *   power_good  0 to 255, time from power on to power good, in 2 ms
 *   current     0 to 255, the hub's own current, in mA
 *   removable   a byte with bit p for port p, as in the hub descriptor
 *               (DeviceRemovable, USB 2.0, 11.23.2.1).  Mind the sense: a 1
 *               says that the device on port p is NOT removable.  0: every
 *               device can be unplugged.  Bit 0 and the bits above the last
 *               port are zero.
 *
 * OUTSIDE  a number is outside the rules, or area_len is not
 *          grimholdi_area_length(ports, buffers)
 * DONE     the area holds the new hub
 */
grimholdi_answer grimholdi_new(uint8_t *area, size_t area_len,
                               uint32_t ports, uint32_t buffers,
                               uint32_t power_good, uint32_t current,
                               uint32_t removable);

/*
 * A control request to the hub, as its eight setup bytes.
 *
 *   lane        0 or 1, where the request comes from.  Only ClearTTBuffer and
 *               ResetTT act on one lane.
 *
 * OUTSIDE   the area is refused, lane is above 1, or setup_len is not 8,
 *           whatever the setup bytes say
 * NO_SPACE  reply_len is below 64
 * STALL     not one of the requests below with exactly these fields, all other
 *           fields zero, or not served while the hub is unconfigured
 * DATA      a Get request: the bytes asked for
 * DONE      any other request
 *
 *   SetConfiguration   00 09  wValue 0 or 1; served while unconfigured.
 *                             Empties the buffers of both lanes, stops the
 *                             low side at once and keeps the change bits.
 *                             0: every port goes to Not Configured and
 *                             over-current levels are dropped.  1: every port
 *                             goes to Powered-off and over-current levels
 *                             stay.
 *   GetConfiguration   80 08  wLength 1; served while unconfigured.  One byte.
 *   GetHubDescriptor   A0 06  wValue 2900h, any wLength; served while
 *                             unconfigured.  Nine bytes cut to wLength:
 *                             09 29 ports 09 00 power_good current removable
 *                             FF.  wLength 0 is DATA with no bytes.
 *   GetHubStatus       A0 00  wLength 4.  Four zeros.
 *   GetPortStatus      A3 00  wIndex port, wLength 4.  Status bits, then
 *                             change bits, two bytes each, little-endian.
 *   ClearHubFeature    20 01  wValue 0 or 1.  No effect.
 *   ClearPortFeature   23 01  wValue a feature, wIndex port.
 *                             PORT_ENABLE: from any state but Powered-off and
 *                             Disconnected to Disabled; the speed stays.
 *                             PORT_SUSPEND: from Suspended to Resuming.
 *                             PORT_POWER: to Powered-off; change bits stay.
 *                             C_PORT_..: clears that change bit.
 *   SetPortFeature     23 03  wValue a feature, wIndex port.
 *                             PORT_SUSPEND: from Enabled to Suspended.
 *                             PORT_RESET: from Disabled, Enabled, Suspended
 *                             and Resuming to Resetting; high speed becomes
 *                             full speed.  PORT_POWER: from Powered-off to
 *                             Disconnected, unless over-current holds.
 *   ClearTTBuffer      23 08  wIndex 1; wValue: endpoint bits 0 to 3, address
 *                             4 to 10, transfer type 11 to 12, direction 15,
 *                             others zero.  Empties the buffer of that key in
 *                             the caller's lane, whatever its type.  If that
 *                             transaction is running, the low side stays
 *                             occupied until the next delivery, which is
 *                             thrown away.
 *   ResetTT            23 09  wIndex 1.  Empties all buffers of the caller's
 *                             lane, old ones too.  If one of them is running,
 *                             the low side stays occupied as after
 *                             ClearTTBuffer; if it is occupied so already, it
 *                             stays occupied.  The other lane's buffers and
 *                             its running transaction stay as they are.
 *
 * A port feature request that does not apply in the port's state is DONE with
 * no effect.
 *
 * The other requests that a host makes of every device are STALL here.  The
 * firmware sorts them out and answers them itself: the standard requests,
 * those with bits 5 and 6 of bmRequestType zero, but for SetConfiguration and
 * GetConfiguration.  docs/HOSTS.md tells what Linux asks.  Hosts use
 *
 *   SetAddress         00 05  The new address takes effect in the front end,
 *                             behind the status stage, and is 0 again after
 *                             a bus reset.  The hub has none and needs no
 *                             call.
 *   GetDescriptor      80 06  Device, device qualifier, configuration, other
 *                             speed configuration and string descriptors.
 *                             The status change endpoint, which polls use,
 *                             stands in the configuration descriptor.
 *   GetStatus          80 00  of the device; 81 00 of the interface, 82 00 of
 *                             an endpoint
 *   SetFeature         00 03  of the device, say remote wakeup; 02 03 of an
 *                             endpoint, halt
 *   ClearFeature       00 01  and 02 01 likewise
 *   GetInterface       81 0A  and SetInterface 01 0B
 */
grimholdi_answer grimholdi_control(uint8_t *area, size_t area_len,
                                   uint32_t lane,
                                   const uint8_t *setup, size_t setup_len,
                                   uint8_t *reply, size_t reply_len);

/* Its reason: WRONG, NUMBER or NONE. */
grimholdi_reason grimholdi_why_control(const uint8_t *area, size_t area_len,
                                       uint32_t lane, const uint8_t *setup,
                                       size_t setup_len, size_t reply_len);

/*
 * The status change bitmap, the same for both lanes.
 *
 *   lane        0 or 1
 *
 * OUTSIDE   the area is refused, or lane is above 1
 * NO_SPACE  reply_len is below 64
 * SILENT    the hub is unconfigured
 * NAK       no port has a change bit set
 * DATA      one byte; bit p is 1 if port p has a change bit set, bit 0 is 0
 */
grimholdi_answer grimholdi_poll(const uint8_t *area, size_t area_len,
                                uint32_t lane,
                                uint8_t *reply, size_t reply_len);

/* Its reason: CHANGES, NUMBER or NONE. */
grimholdi_reason grimholdi_why_poll(const uint8_t *area, size_t area_len,
                                    uint32_t lane, size_t reply_len);

/*
 * Offers a transaction to the translator.
 *
 *   lane         0 or 1
 *   pid          OUT, IN or SETUP
 *   transfer     control or bulk; SETUP is control
 *   low_speed    0 or 1
 *   toggle       0 or 1: OUT and SETUP: the payload's data packet is DATA0 or
 *                DATA1, and the low side sends it so; IN: no meaning.  It is
 *                stored and given back by the launch, and compared with
 *                nothing; nor is the DATA0 or DATA1 that is delivered.
 *   address      0 to 127
 *   endpoint     0 to 15
 *   payload      OUT: 0 to 64 bytes; IN: none; SETUP: 8 bytes
 *
 * OUTSIDE  the area is refused, or a number or the payload's length is outside
 *          the rules
 * SILENT   the hub is unconfigured
 * DONE     a pending or ready buffer has this key: this is a repeat, and
 *          nothing is stored, whatever its PID, type, toggle or payload
 * NAK      the limit: the lane holds all buffers but one pending or ready,
 *          even if the last one is free, or is old and has this key
 * NAK      no buffer has this key, and none is empty or old
 * DONE     the transaction is stored and pending: in the old buffer with this
 *          key if there is one, else in the lowest-numbered empty or old one,
 *          whichever lane an old one belonged to
 */
grimholdi_answer grimholdi_start_split(uint8_t *area, size_t area_len,
                                       uint32_t lane,
                                       uint32_t pid, uint32_t transfer,
                                       uint32_t low_speed, uint32_t toggle,
                                       uint32_t address, uint32_t endpoint,
                                       const uint8_t *payload,
                                       size_t payload_len);

/* Its reason: HELD, REUSED, TOOK_FREE, LIMIT, NO_ROOM or NUMBER. */
grimholdi_reason grimholdi_why_start_split(const uint8_t *area,
                                           size_t area_len, uint32_t lane,
                                           uint32_t pid, uint32_t transfer,
                                           uint32_t low_speed, uint32_t toggle,
                                           uint32_t address, uint32_t endpoint,
                                           const uint8_t *payload,
                                           size_t payload_len);

/*
 * Asks for the result of the transaction with this key.
 *
 *   lane         0 or 1
 *   address      0 to 127
 *   endpoint     0 to 15
 *   direction    OUT or IN
 *
 * OUTSIDE    the area is refused, or a number is outside the rules
 * NO_SPACE   reply_len is below 64
 * SILENT     the hub is unconfigured
 * STALL      no buffer has this key
 * NYET       the buffer with this key is pending
 * DATA       the bytes delivered, `pid` DATA0 or DATA1; the buffer is old
 * HANDSHAKE  `pid` is ACK, NAK or STALL; STALL also stands for a failure; the
 *            buffer is old
 *
 * An old buffer gives its result again until it is used for another
 * transaction, of either lane, or emptied.
 */
grimholdi_answer grimholdi_complete_split(uint8_t *area, size_t area_len,
                                          uint32_t lane,
                                          uint32_t address, uint32_t endpoint,
                                          uint32_t direction,
                                          uint8_t *reply, size_t reply_len);

/* Its reason: NUMBER or NONE. */
grimholdi_reason grimholdi_why_complete_split(const uint8_t *area,
                                              size_t area_len, uint32_t lane,
                                              uint32_t address,
                                              uint32_t endpoint,
                                              uint32_t direction,
                                              size_t reply_len);

/*
 * Takes the next transaction to run on the low side.
 *
 * OUTSIDE   the area is refused
 * NO_SPACE  reply_len is below 64
 * SILENT    the hub is unconfigured
 * NOT_NOW   the low side is occupied
 * NAK       no transaction is pending
 * DATA      the pending transaction stored earliest, of both lanes: its
 *           payload as data, its PID, type, key, low-speed flag and toggle in
 *           the answer.  It occupies the low side and stays pending.
 */
grimholdi_answer grimholdi_launch(uint8_t *area, size_t area_len,
                                  uint8_t *reply, size_t reply_len);

/* Its reason: NUMBER or NONE. */
grimholdi_reason grimholdi_why_launch(const uint8_t *area, size_t area_len,
                                      size_t reply_len);

/*
 * Gives the running transaction its result.
 *
 *   result       DATA0 or DATA1 with 0 to 64 payload bytes; ACK, NAK, STALL or
 *                FAILURE with none
 *
 * OUTSIDE  the area is refused, or the result or the payload's length is
 *          outside the rules
 * SILENT   the hub is unconfigured
 * NOT_NOW  the low side is free, or the result does not suit the running
 *          transaction's PID.  IN: DATA0, DATA1, NAK, STALL, FAILURE.
 *          OUT: ACK, NAK, STALL, FAILURE.  SETUP: ACK, FAILURE.
 * DONE     the transaction's buffer is ready and the low side is free.  If the
 *          running transaction was emptied by ClearTTBuffer or ResetTT, the
 *          result is thrown away, whatever it is, and the low side is free.
 */
grimholdi_answer grimholdi_deliver(uint8_t *area, size_t area_len,
                                   uint32_t result,
                                   const uint8_t *payload, size_t payload_len);

/* Its reason: NUMBER or NONE. */
grimholdi_reason grimholdi_why_deliver(const uint8_t *area, size_t area_len,
                                       uint32_t result, const uint8_t *payload,
                                       size_t payload_len);

/*
 * A finished event on the lines of one port.
 *
 *   event        attach low or full: from Disconnected to Disabled, sets
 *                  C_PORT_CONNECTION
 *                detach: from Disabled, Enabled and Suspended to Disconnected,
 *                  sets C_PORT_CONNECTION
 *                chirp: in Resetting at full speed, makes it high speed
 *                wake: from Suspended to Resuming
 *                port error: from Enabled to Disabled, sets C_PORT_ENABLE;
 *                  the speed stays
 *                over-current on: from any configured state to Powered-off,
 *                  sets C_PORT_OVER_CURRENT; no effect if it is on
 *                over-current off: in any configured state, sets
 *                  C_PORT_OVER_CURRENT; no effect if it is off
 *   port         1 to the hub's number of ports
 *
 * C_PORT_ENABLE reports a port error and nothing else (USB 2.0,
 * 11.24.2.7.2.2): no other event, no request, tick or configuration sets it,
 * also where it ends PORT_ENABLE.  Change bits stay until ClearPortFeature or
 * a bus reset clears them.  docs/PORTS.md shows what each event, request and
 * tick does in each state of a port, as a picture and as a chart.
 *
 * No event touches the translator, a detach neither: the hub does not know
 * which address is on which port.  What waits or runs for a device that is
 * unplugged stays.  The front end delivers FAILURE for what runs, as for any
 * device that does not reply, and the host empties the buffers with
 * ClearTTBuffer or ResetTT.
 *
 * OUTSIDE  the area is refused, or a number is outside the rules
 * NOT_NOW  the hub is unconfigured, or the port is in another state
 * DONE     the event took place, or the over-current level is the same
 */
grimholdi_answer grimholdi_line_event(uint8_t *area, size_t area_len,
                                      uint32_t event, uint32_t port);

/* Its reason: NUMBER or NONE. */
grimholdi_reason grimholdi_why_line_event(const uint8_t *area, size_t area_len,
                                          uint32_t event, uint32_t port);

/*
 * One millisecond has passed on all ports.  The 15th tick in Resetting gives
 * Enabled and sets C_PORT_RESET; the 22nd in Resuming gives Enabled and sets
 * C_PORT_SUSPEND.
 *
 * OUTSIDE  the area is refused
 * DONE     otherwise; no effect while the hub is unconfigured
 */
grimholdi_answer grimholdi_tick(uint8_t *area, size_t area_len);

/* Its reason: NUMBER, where the area is refused, or NONE. */
grimholdi_reason grimholdi_why_tick(const uint8_t *area, size_t area_len);

/*
 * A reset on the upstream bus, for both lanes.  The area holds the new hub
 * again, with the numbers given to grimholdi_new.
 *
 * OUTSIDE  the area is refused
 * DONE     otherwise
 */
grimholdi_answer grimholdi_bus_reset(uint8_t *area, size_t area_len);

/* Its reason: NUMBER, where the area is refused, or NONE. */
grimholdi_reason grimholdi_why_bus_reset(const uint8_t *area, size_t area_len);

/*
 * Begins a block of a recording, with no records.  What the memory held before
 * does not matter.  Until it is finished, the block is under way: its first
 * two bytes are zero, which is no block's number, and the number waits in the
 * last two.
 *
 *   number       1 to 65,535: the block's place in the recording
 *
 * OUTSIDE  block_len is not 512, or the number is outside the rules; no byte
 *          is changed
 * DONE     the block is under way
 */
uint8_t grimholdi_block_start(uint8_t *block, size_t block_len,
                              uint32_t number);

/*
 * Adds a record to the block under way.
 *
 *   record       the written form of one call, no byte more or less
 *
 * OUTSIDE  no block is under way in the memory (it is not 512 bytes, its
 *          first two bytes are not zero, its last two are, or its count is
 *          above 506), or the record is not the written form of a call
 * NAK      the record does not fit behind the others: finish this block and
 *          add it to the next.  One of more than 506 bytes fits none and is
 *          not recorded.
 * DONE     the record is the last of the block
 *
 * Other answers than DONE change no byte.
 */
uint8_t grimholdi_block_add(uint8_t *block, size_t block_len,
                            const uint8_t *record, size_t record_len);

/*
 * Finishes the block under way: writes its number and its check.
 *
 * OUTSIDE  no block is under way, or what stands in it are not records with
 *          zeros behind them; no byte is changed
 * DONE     the block is the written form of the calls that were added
 */
uint8_t grimholdi_block_finish(uint8_t *block, size_t block_len);

/*
 * Makes the calls of one block of a recording, in order, on the hub of the
 * area, and writes each answer whole: the ten bytes of grimholdi_answer, in
 * the order of its fields, then the `length` bytes of its reply.  Calls that
 * the hub refuses are made like any other.
 *
 *   place        the block's place in the recording, counted from 1
 *   answers      at least GRIMHOLDI_ANSWERS_LENGTH bytes
 *
 * OUTSIDE   the area is refused
 * NO_SPACE  answers_len is below GRIMHOLDI_ANSWERS_LENGTH
 * DONE      `refusal` says what is wrong with the block; then none of its
 *           calls is made, and area and answers keep every byte.  A block that
 *           is not refused leaves the area as its calls leave it, and writes
 *           the first `length` bytes of the answers' space.
 *
 * To replay a session, make the hub with grimholdi_new and hand in block
 * after block, with places 1, 2, .., up to the first that is refused.  Added
 * up over the blocks, `stored` is then `answered` plus `emptied` plus the
 * last `active`.
 */
grimholdi_replayed grimholdi_replay_block(uint8_t *area, size_t area_len,
                                          uint32_t place,
                                          const uint8_t *block,
                                          size_t block_len,
                                          uint8_t *answers,
                                          size_t answers_len);

#ifdef __cplusplus
}
#endif

#endif
