"""Start-splits, polls and control requests, and answers without a reason.

Written from documents 01 and 02 and include/grimholdi.h.
"""

from why_areas import (BENCH, BENCH_STATE, BUSY, BUSY_STATE, NEW, NEW_STATE,
                       changed)
from why_cases import (BENCHED, BUSIED, FRESH, NO_REASON, NOT_SUITED, ROOM,
                       SIXTEEN, SIXTY_FOUR, SMALLER, case, control,
                       start_split)

# Start-splits: each reason.

start_split(BENCHED, "0 IN bulk full 0 5 1",
            "lane 0, PID IN, type bulk, speed full, toggle 0, address 5, "
            "endpoint 1, no payload",
            "DONE: buffer 0 is ready with this key (5,1 IN): a repeat, "
            "nothing is stored", "0 2 0")
start_split(BENCHED, "1 in CONTROL Low 1 5 1",
            "lane 1, PID IN, type control, speed low, toggle 1, address 5, "
            "endpoint 1, no payload",
            "DONE: buffer 2 is pending with this key (5,1 IN): a repeat, "
            "nothing is stored", "0 2 2")
start_split(BUSIED, "1 OUT bulk full 0 9 0 01 0203",
            "lane 1, PID OUT, type bulk, speed full, toggle 0, address 9, "
            "endpoint 0, payload of 3 bytes 01 02 03",
            "DONE: buffer 3 is ready with this key (9,0 OUT): a repeat, "
            "nothing is stored", "0 2 3")
start_split(BUSIED, "0 IN bulk full 0 5 1",
            "lane 0, PID IN, type bulk, speed full, toggle 0, address 5, "
            "endpoint 1, no payload",
            "DONE: lane 0 is below its limit of 3, and buffer 2 is old with "
            "this key (5,1 IN): stored there", "0 3 2")
start_split(BUSIED, "0 OUT bulk full 0 5 1 " + SIXTY_FOUR,
            "lane 0, PID OUT, type bulk, speed full, toggle 0, address 5, "
            "endpoint 1, payload of 64 bytes " + SIXTEEN + " ..",
            "DONE: lane 0 is below its limit of 3, no buffer has this key "
            "(5,1 OUT), and buffer 0 is empty, the lowest that is empty or "
            "old: stored there", "0 4 0")
start_split(SMALLER, "1 0xD 0x0 0 1 0x7F 15 " + "00" * 8,
            "lane 1, PID SETUP, type control, speed full, toggle 1, "
            "address 127, endpoint 15, payload of 8 bytes "
            "00 00 00 00 00 00 00 00",
            "DONE: lane 1 is below its limit of 1, no buffer has this key "
            "(127,15 OUT), and buffer 1 is old lane 1 (6,1 IN), the lowest "
            "that is empty or old: stored there", "0 4 1")
start_split(BENCHED, "0 IN bulk full 0 7 1",
            "lane 0, PID IN, type bulk, speed full, toggle 0, address 7, "
            "endpoint 1, no payload",
            "NAK: lane 0 is at its limit of 2: buffer 0 ready (5,1 IN), "
            "buffer 1 pending (6,1 IN)", "3 5 0")
start_split((changed(BENCH, {24: 3, 171: 0, 172: 7}),
             BENCH_STATE.replace("0: ready", "0: old")
             .replace("lane 1 (5,1", "lane 0 (7,1")),
            "0 IN bulk full 0 5 1",
            "lane 0, PID IN, type bulk, speed full, toggle 0, address 5, "
            "endpoint 1, no payload",
            "NAK: lane 0 is at its limit of 2: buffer 1 pending (6,1 IN), "
            "buffer 2 pending (7,1 IN)", "3 5 0")
start_split(BENCHED, "1 OUT bulk full 0 5 1",
            "lane 1, PID OUT, type bulk, speed full, toggle 0, address 5, "
            "endpoint 1, no payload",
            "NAK: lane 1 is below its limit of 2, and every buffer is pending "
            "or ready under another key: buffer 0 ready lane 0 (5,1 IN), "
            "buffer 1 pending lane 0 (6,1 IN), "
            "buffer 2 pending lane 1 (5,1 IN)", "3 6 0")

# Polls.

case(BUSIED, "poll 1", "poll, lane 1, " + ROOM,
     ["reply: 8e",
      "DATA: port 1: C_PORT_OVER_CURRENT; port 2: C_PORT_CONNECTION; "
      "port 3: C_PORT_CONNECTION, C_PORT_ENABLE; port 7: C_PORT_CONNECTION, "
      "C_PORT_ENABLE, C_PORT_SUSPEND, C_PORT_OVER_CURRENT, C_PORT_RESET"],
     "1 7 0 8 1 3 0 0 0 31")
case((changed(BENCH, {15: 0x10}),
      BENCH_STATE.replace("port 2: Powered-off",
                          "port 2: Powered-off, C_PORT_RESET")),
     "POLL 0", "poll, lane 0, " + ROOM,
     ["reply: 04", "DATA: port 2: C_PORT_RESET"], "1 7 0 0 16 0 0 0 0 0")
case(BENCHED, "poll 0", "poll, lane 0, " + ROOM,
     ["NAK: nothing to give; " + NO_REASON], "3 0 0")

# Control requests: the first thing that is wrong.

ALL_REQUESTS = ("the hub has 00 09, 80 08, a0 06, a0 00, a3 00, 20 01, 23 01, "
                "23 03, 23 08 and 23 09")
SERVED_EARLY = ("the hub is unconfigured; it serves SetConfiguration, "
                "GetConfiguration and GetHubDescriptor, not ")
CLEARED = ("ClearPortFeature takes PORT_ENABLE 1, PORT_SUSPEND 2, "
           "PORT_POWER 8 or a change, 16 to 20")
SET = "SetPortFeature takes PORT_SUSPEND 2, PORT_RESET 4 or PORT_POWER 8"
HUB_CLEARED = ("ClearHubFeature takes C_HUB_LOCAL_POWER 0 or "
               "C_HUB_OVER_CURRENT 1")

WRONG = [
    # setup, its meaning, what is wrong, the number of that thing
    (BENCHED, "23 05 08 00 02 00 00 00", "",
     "bmRequestType and bRequest are 23 05; " + ALL_REQUESTS, 0),
    (FRESH, "a3 08 00 00 09 00 09 00", "",
     "bmRequestType and bRequest are a3 08; " + ALL_REQUESTS, 0),
    (FRESH, "23 03 63 00 09 00 01 00",
     "SetPortFeature, wValue 99, wIndex 9, wLength 1",
     SERVED_EARLY + "SetPortFeature", 1),
    (FRESH, "a0 00 00 00 00 00 04 00",
     "GetHubStatus, wValue 0, wIndex 0, wLength 4",
     SERVED_EARLY + "GetHubStatus", 1),
    (FRESH, "00 09 02 00 01 00 01 00",
     "SetConfiguration, wValue 2, wIndex 1, wLength 1",
     "wValue is 2: SetConfiguration takes 0 or 1", 2),
    (BENCHED, "80 08 01 00 00 00 01 00",
     "GetConfiguration, wValue 1, wIndex 0, wLength 1",
     "wValue is 1: GetConfiguration takes 0", 2),
    (FRESH, "a0 06 00 01 00 00 09 00",
     "GetHubDescriptor, wValue 0x0100, wIndex 0, wLength 9",
     "wValue is 0x0100: GetHubDescriptor takes 0x2900", 2),
    (BENCHED, "a0 00 ff 00 00 00 04 00",
     "GetHubStatus, wValue 255, wIndex 0, wLength 4",
     "wValue is 255: GetHubStatus takes 0", 2),
    (BENCHED, "a3 00 01 00 09 00 05 00",
     "GetPortStatus, wValue 1, wIndex 9, wLength 5",
     "wValue is 1: GetPortStatus takes 0", 2),
    (BENCHED, "20 01 02 00 00 00 00 00",
     "ClearHubFeature, wValue 2, wIndex 0, wLength 0",
     "wValue is 2: " + HUB_CLEARED, 2),
    (BENCHED, "23 01 15 00 01 00 00 00",
     "ClearPortFeature, wValue 21, wIndex 1, wLength 0",
     "wValue is 21: " + CLEARED, 2),
    (BENCHED, "23 03 01 00 05 00 00 00",
     "SetPortFeature, wValue 1, wIndex 5, wLength 0",
     "wValue is 1: " + SET, 2),
    (BENCHED, "23 08 51 08 01 00 00 00",
     "ClearTTBuffer, wValue 0x0851, wIndex 1, wLength 0",
     "wValue is 0x0851: ClearTTBuffer takes type 0 or 2 in bits 11 to 12, "
     "here 1, and 0 in bits 13 to 14, here 0", 2),
    (BENCHED, "23 08 51 50 01 00 00 00",
     "ClearTTBuffer, wValue 0x5051, wIndex 1, wLength 0",
     "wValue is 0x5051: ClearTTBuffer takes type 0 or 2 in bits 11 to 12, "
     "here 2, and 0 in bits 13 to 14, here 2", 2),
    (BENCHED, "23 09 01 00 02 00 00 00",
     "ResetTT, wValue 1, wIndex 2, wLength 0",
     "wValue is 1: ResetTT takes 0", 2),
    (BENCHED, "23 03 08 00 05 00 01 00",
     "SetPortFeature, wValue 8, wIndex 5, wLength 1",
     "wIndex is 5: this hub has ports 1 to 4", 3),
    (BENCHED, "23 01 14 00 00 00 00 00",
     "ClearPortFeature, wValue 20, wIndex 0, wLength 0",
     "wIndex is 0: this hub has ports 1 to 4", 3),
    (BUSIED, "a3 00 00 00 01 01 04 00",
     "GetPortStatus, wValue 0, wIndex 0x0101, wLength 4",
     "wIndex is 0x0101: this hub has ports 1 to 7", 3),
    (SMALLER, "a3 00 00 00 02 00 04 00",
     "GetPortStatus, wValue 0, wIndex 2, wLength 4",
     "wIndex is 2: this hub has port 1 alone", 3),
    (BENCHED, "00 09 00 00 01 00 00 00",
     "SetConfiguration, wValue 0, wIndex 1, wLength 0",
     "wIndex is 1: SetConfiguration takes 0", 3),
    (BENCHED, "80 08 00 00 02 00 01 00",
     "GetConfiguration, wValue 0, wIndex 2, wLength 1",
     "wIndex is 2: GetConfiguration takes 0", 3),
    (BENCHED, "a0 06 00 29 09 04 09 00",
     "GetHubDescriptor, wValue 0x2900, wIndex 0x0409, wLength 9",
     "wIndex is 0x0409: GetHubDescriptor takes 0", 3),
    (BENCHED, "a0 00 00 00 03 00 04 00",
     "GetHubStatus, wValue 0, wIndex 3, wLength 4",
     "wIndex is 3: GetHubStatus takes 0", 3),
    (BENCHED, "20 01 01 00 04 00 00 00",
     "ClearHubFeature, wValue 1, wIndex 4, wLength 0",
     "wIndex is 4: ClearHubFeature takes 0", 3),
    (BENCHED, "23 08 51 10 02 00 01 00",
     "ClearTTBuffer, wValue 0x1051, wIndex 2, wLength 1",
     "wIndex is 2: ClearTTBuffer takes 1", 3),
    (BENCHED, "23 09 00 00 00 00 00 00",
     "ResetTT, wValue 0, wIndex 0, wLength 0",
     "wIndex is 0: ResetTT takes 1", 3),
    (BENCHED, "00 09 01 00 00 00 01 00",
     "SetConfiguration, wValue 1, wIndex 0, wLength 1",
     "wLength is 1: SetConfiguration takes 0", 4),
    (BENCHED, "80 08 00 00 00 00 02 00",
     "GetConfiguration, wValue 0, wIndex 0, wLength 2",
     "wLength is 2: GetConfiguration takes 1", 4),
    (BENCHED, "a0 00 00 00 00 00 00 01",
     "GetHubStatus, wValue 0, wIndex 0, wLength 0x0100",
     "wLength is 0x0100: GetHubStatus takes 4", 4),
    (BENCHED, "a3 00 00 00 04 00 02 00",
     "GetPortStatus, wValue 0, wIndex 4, wLength 2",
     "wLength is 2: GetPortStatus takes 4", 4),
    (BENCHED, "20 01 00 00 00 00 03 00",
     "ClearHubFeature, wValue 0, wIndex 0, wLength 3",
     "wLength is 3: ClearHubFeature takes 0", 4),
    (BENCHED, "23 01 01 00 04 00 04 00",
     "ClearPortFeature, wValue 1, wIndex 4, wLength 4",
     "wLength is 4: ClearPortFeature takes 0", 4),
    (BENCHED, "23 03 04 00 01 00 05 00",
     "SetPortFeature, wValue 4, wIndex 1, wLength 5",
     "wLength is 5: SetPortFeature takes 0", 4),
    (BENCHED, "23 08 51 90 01 00 06 00",
     "ClearTTBuffer, wValue 0x9051, wIndex 1, wLength 6",
     "wLength is 6: ClearTTBuffer takes 0", 4),
    (BENCHED, "23 09 00 00 01 00 07 00",
     "ResetTT, wValue 0, wIndex 1, wLength 7",
     "wLength is 7: ResetTT takes 0", 4),
]
for hub, setup, meaning, sentence, thing in WRONG:
    control(hub, setup, meaning, ["STALL: " + sentence], "2 8 %d" % thing)

# Answers that get no reason.

control(BENCHED, "23 03 08 00 02 00 00 00",
        "SetPortFeature, wValue 8, wIndex 2, wLength 0",
        ["DONE: done (ACK); " + NO_REASON], "0 0 0")
control(FRESH, "a0 06 00 29 00 00 09 00",
        "GetHubDescriptor, wValue 0x2900, wIndex 0, wLength 9",
        ["reply: 09 29 02 09 00 32 64 00 ff",
         "DATA: 9 bytes; " + NO_REASON], "1 0 0")
control(FRESH, "a0 06 00 29 00 00 00 00",
        "GetHubDescriptor, wValue 0x2900, wIndex 0, wLength 0",
        ["DATA: 0 bytes; " + NO_REASON], "1 0 0")
control(BENCHED, "80 08 00 00 00 00 01 00",
        "GetConfiguration, wValue 0, wIndex 0, wLength 1",
        ["reply: 01", "DATA: 1 byte; " + NO_REASON], "1 0 0")
case(FRESH, "control 1 0009010000000000",
     "control, lane 1, " + ROOM + ", setup of 8 bytes 00 09 01 00 00 00 00 "
     "00: SetConfiguration, wValue 1, wIndex 0, wLength 0",
     ["DONE: done (ACK); " + NO_REASON], "0 0 0")
case(BENCHED, "complete-split 0 5 1 IN",
     "complete-split, lane 0, address 5, endpoint 1, direction IN, " + ROOM,
     ["reply: 11 22 33", "DATA: DATA0, 3 bytes; " + NO_REASON], "1 0 0")
case(SMALLER, "complete-split 1 6 1 in",
     "complete-split, lane 1, address 6, endpoint 1, direction IN, " + ROOM,
     ["reply: 00 01 02 03 04 05 06 07 08 09 0a 0b 0c 0d 0e 0f",
      "reply: 10 11 12 13", "DATA: DATA1, 20 bytes; " + NO_REASON], "1 0 0")
case(BENCHED, "complete-split 0 6 1 1",
     "complete-split, lane 0, address 6, endpoint 1, direction IN, " + ROOM,
     ["NYET: " + NO_REASON], "4 0 0")
case(BENCHED, "complete-split 0 5 1 OUT",
     "complete-split, lane 0, address 5, endpoint 1, direction OUT, " + ROOM,
     ["STALL: " + NO_REASON], "2 0 0")
case(BUSIED, "complete-split 1 9 0 OUT",
     "complete-split, lane 1, address 9, endpoint 0, direction OUT, " + ROOM,
     ["HANDSHAKE: the device's handshake is STALL; " + NO_REASON], "9 0 0")
case(BUSIED, "complete-split 0 5 1 IN",
     "complete-split, lane 0, address 5, endpoint 1, direction IN, " + ROOM,
     ["HANDSHAKE: the device's handshake is NAK; " + NO_REASON], "9 0 0")
case(NOT_SUITED, "complete-split 0 5 1 IN",
     "complete-split, lane 0, address 5, endpoint 1, direction IN, " + ROOM,
     ["HANDSHAKE: the device's handshake is ACK; " + NO_REASON], "9 0 0")
case(NOT_SUITED, "complete-split 1 6 1 OUT",
     "complete-split, lane 1, address 6, endpoint 1, direction OUT, " + ROOM,
     ["reply: 61 62 63", "DATA: DATA0, 3 bytes; " + NO_REASON], "1 0 0")
case(NOT_SUITED, "complete-split 0 7 0 OUT",
     "complete-split, lane 0, address 7, endpoint 0, direction OUT, " + ROOM,
     ["HANDSHAKE: the device's handshake is NAK; " + NO_REASON], "9 0 0")
case(BENCHED, "launch", "launch, " + ROOM,
     ["DATA: lane 0 (6,1 IN), IN bulk, full speed, toggle 0, 0 bytes; "
      + NO_REASON], "1 0 0")
case((changed(BUSY, {6: 0, 7: 0}),
      BUSY_STATE.replace("occupied by buffer 1", "free")),
     "launch", "launch, " + ROOM,
     ["reply: aa",
      "DATA: lane 0 (7,2 OUT), OUT bulk, low speed, toggle 1, 1 byte; "
      + NO_REASON], "1 0 0")
case((changed(NEW, {5: 1, 8: 1, 12: 1}),
      NEW_STATE.replace("unconfigured", "configured")
      .replace("Not Configured", "Powered-off")),
     "launch", "launch, " + ROOM,
     ["NAK: nothing to give; " + NO_REASON], "3 0 0")
case(BUSIED, "deliver ack", "deliver, result ACK, no payload",
     ["DONE: done (ACK); " + NO_REASON], "0 0 0")
case(SMALLER, "deliver data1 ff",
     "deliver, result DATA1, payload of 1 byte ff",
     ["DONE: done (ACK); " + NO_REASON], "0 0 0")
case(BUSIED, "line-event attach-full 2",
     "line-event, event attach-full, port 2",
     ["DONE: done (ACK); " + NO_REASON], "0 0 0")
case(BENCHED, "tick", "tick", ["DONE: done (ACK); " + NO_REASON], "0 0 0")
case(FRESH, "Bus-Reset", "bus-reset", ["DONE: done (ACK); " + NO_REASON],
     "0 0 0")
