"""Calls answered 5 to 8, with the sentence that fits the call.

Written from documents 01 and 02 and include/grimholdi.h.
"""

from why_cases import (BENCHED, BUSIED, CHIRPED, FRESH, IN_RUN, NO_REASON,
                       ROOM, SETUP_RUN, SIXTEEN, SMALLER, case, start_split)

# 5: the hub is unconfigured.

UNCONFIGURED = ["SILENT: the hub is unconfigured"]
case(FRESH, "poll 0", "poll, lane 0, " + ROOM, UNCONFIGURED, "5 1 5")
case(FRESH, "launch", "launch, " + ROOM, UNCONFIGURED, "5 1 5")
case(FRESH, "deliver failure", "deliver, result failure, no payload",
     UNCONFIGURED, "5 1 5")
case(FRESH, "complete-split 0 0 0 OUT",
     "complete-split, lane 0, address 0, endpoint 0, direction OUT, " + ROOM,
     UNCONFIGURED, "5 1 5")
start_split(FRESH, "0 OUT control low 0 0 0",
            "lane 0, PID OUT, type control, speed low, toggle 0, address 0, "
            "endpoint 0, no payload", UNCONFIGURED[0], "5 1 5")

# 6: each number and length.

START = "lane 0, PID IN, type bulk, speed full, toggle 0, address 5, " \
        "endpoint 1, no payload"
for words, old, new, line in [
        ("2 IN bulk full 0 5 1", "lane 0", "lane 2",
         "lane is 2; 0 and 1 are permitted"),
        ("0 5 bulk full 0 5 1", "PID IN", "PID 5",
         "PID is 5; OUT 1, IN 9 and SETUP 13 are permitted"),
        ("0 IN 1 full 0 5 1", "type bulk", "type 1",
         "type is 1; control 0 and bulk 2 are permitted"),
        ("0 IN bulk 2 0 5 1", "speed full", "speed 2",
         "speed is 2; full 0 and low 1 are permitted"),
        ("0 IN bulk full 2 5 1", "toggle 0", "toggle 2",
         "toggle is 2; 0 and 1 are permitted"),
        ("0 IN bulk full 0 200 1", "address 5", "address 200",
         "address is 200; 0 to 127 are permitted"),
        ("0 IN bulk full 0 5 16", "endpoint 1", "endpoint 16",
         "endpoint is 16; 0 to 15 are permitted"),
        ("0 IN bulk full 0 5 1 ab", "no payload", "payload of 1 byte ab",
         "the payload has 1 byte; IN has none"),
        ("0 OUT bulk full 0 5 1 " + "00" * 65, START,
         START.replace("IN", "OUT").replace(
             "no payload", "payload of 65 bytes " + SIXTEEN + " .."),
         "the payload has 65 bytes; OUT has 0 to 64"),
        ("0 SETUP control full 0 5 1 00010203040506", START,
         START.replace("IN", "SETUP").replace("bulk", "control").replace(
             "no payload", "payload of 7 bytes 00 01 02 03 04 05 06"),
         "the payload has 7 bytes; SETUP has 8"),
        ("0 SETUP bulk full 0 5 1 0001020304050607", START,
         START.replace("IN", "SETUP").replace(
             "no payload", "payload of 8 bytes 00 01 02 03 04 05 06 07"),
         "type is bulk; SETUP is control")]:
    start_split(BENCHED, words, START.replace(old, new), "OUTSIDE: " + line,
                "6 1 6")
case(FRESH, "start-split 4294967295 2 3 4 5 128 0xFfFfFfFf 00",
     "start-split, lane 4294967295, PID 2, type 3, speed 4, toggle 5, "
     "address 128, endpoint 4294967295, payload of 1 byte 00",
     ["OUTSIDE: lane is 4294967295; 0 and 1 are permitted",
      "OUTSIDE: PID is 2; OUT 1, IN 9 and SETUP 13 are permitted",
      "OUTSIDE: type is 3; control 0 and bulk 2 are permitted",
      "OUTSIDE: speed is 4; full 0 and low 1 are permitted",
      "OUTSIDE: toggle is 5; 0 and 1 are permitted",
      "OUTSIDE: address is 128; 0 to 127 are permitted",
      "OUTSIDE: endpoint is 4294967295; 0 to 15 are permitted"], "6 1 6")
case(BENCHED, "poll 2", "poll, lane 2, " + ROOM,
     ["OUTSIDE: lane is 2; 0 and 1 are permitted"], "6 1 6")
case(FRESH, "complete-split 3 128 16 2",
     "complete-split, lane 3, address 128, endpoint 16, direction 2, " + ROOM,
     ["OUTSIDE: lane is 3; 0 and 1 are permitted",
      "OUTSIDE: address is 128; 0 to 127 are permitted",
      "OUTSIDE: endpoint is 16; 0 to 15 are permitted",
      "OUTSIDE: direction is 2; OUT 0 and IN 1 are permitted"], "6 1 6")
case(BENCHED, "control 0 23 03 08 00 02 00 00",
     "control, lane 0, " + ROOM
     + ", setup of 7 bytes 23 03 08 00 02 00 00",
     ["OUTSIDE: the setup has 7 bytes; it takes 8"], "6 1 6")
case(BENCHED, "control 2 ff",
     "control, lane 2, " + ROOM + ", setup of 1 byte ff",
     ["OUTSIDE: lane is 2; 0 and 1 are permitted",
      "OUTSIDE: the setup has 1 byte; it takes 8"], "6 1 6")
case(BENCHED, "deliver 4", "deliver, result 4, no payload",
     ["OUTSIDE: result is 4; failure 0, ACK 2, DATA0 3, NAK 10, DATA1 11 and "
      "STALL 14 are permitted"], "6 1 6")
case(BENCHED, "deliver NAK 00", "deliver, result NAK, payload of 1 byte 00",
     ["OUTSIDE: the payload has 1 byte; NAK has none"], "6 1 6")
case(SMALLER, "deliver DATA0 " + "00" * 65,
     "deliver, result DATA0, payload of 65 bytes " + SIXTEEN + " ..",
     ["OUTSIDE: the payload has 65 bytes; DATA0 has 0 to 64"], "6 1 6")
case(BENCHED, "line-event 8 5", "line-event, event 8, port 5",
     ["OUTSIDE: event is 8; 0 to 7 are permitted",
      "OUTSIDE: port is 5; this hub has ports 1 to 4"], "6 1 6")
case(BENCHED, "line-event wake 0", "line-event, event wake, port 0",
     ["OUTSIDE: port is 0; this hub has ports 1 to 4"], "6 1 6")
case(SMALLER, "line-event wake 2", "line-event, event wake, port 2",
     ["OUTSIDE: port is 2; this hub has port 1 alone"], "6 1 6")

# 7: the reply space, before 5 and 8 and behind 6.

for of, words, call in [
        (BENCHED, "control 0 0000000000000000",
         "control, lane 0, %s, setup of 8 bytes 00 00 00 00 00 00 00 00"),
        (FRESH, "poll 0", "poll, lane 0, %s"),
        (BENCHED, "complete-split 0 5 1 IN",
         "complete-split, lane 0, address 5, endpoint 1, direction IN, %s"),
        (BUSIED, "launch", "launch, %s")]:
    case(of, words, call % "reply space of 63 bytes",
         ["NO_SPACE: the reply space has 63 bytes; 64 are needed"], "7 1 7",
         "63")
case(BENCHED, "launch", "launch, no reply space",
     ["NO_SPACE: the reply space has 0 bytes; 64 are needed"], "7 1 7", "0")
case(BENCHED, "launch", "launch, reply space of 1 byte",
     ["NO_SPACE: the reply space has 1 byte; 64 are needed"], "7 1 7", "1")
case(BENCHED, "poll 2", "poll, lane 2, reply space of 16 bytes",
     ["OUTSIDE: lane is 2; 0 and 1 are permitted"], "6 1 6", "0x10")
case(BENCHED, "poll 1", "poll, lane 1, reply space of 1024 bytes",
     ["NAK: nothing to give; " + NO_REASON], "3 0 0", "1024")
case(BENCHED, "tick", "tick", ["DONE: done (ACK); " + NO_REASON], "0 0 0", "0")

# 8: the low side, the result, the port's state.

for of, words, call, sentence in [
        (BUSIED, "launch", "launch, " + ROOM,
         "the low side is occupied by buffer 1"),
        (SMALLER, "launch", "launch, " + ROOM,
         "the low side is occupied by an emptied transaction"),
        (BENCHED, "deliver STALL", "deliver, result STALL, no payload",
         "the low side is free"),
        (BUSIED, "deliver DATA0 01 02",
         "deliver, result DATA0, payload of 2 bytes 01 02",
         "buffer 1 runs OUT; DATA0 does not suit it, ACK, NAK, STALL and "
         "failure do"),
        (IN_RUN, "deliver ACK", "deliver, result ACK, no payload",
         "buffer 1 runs IN; ACK does not suit it, DATA0, DATA1, NAK, STALL "
         "and failure do"),
        (SETUP_RUN, "deliver NAK", "deliver, result NAK, no payload",
         "buffer 0 runs SETUP; NAK does not suit it, ACK and failure do"),
        (FRESH, "line-event over-current-on 1",
         "line-event, event over-current-on, port 1",
         "the hub is unconfigured"),
        (BUSIED, "line-event attach-low 1",
         "line-event, event attach-low, port 1",
         "port 1 is Powered-off; attach-low is taken in Disconnected"),
        (BUSIED, "line-event Attach-Full 5",
         "line-event, event attach-full, port 5",
         "port 5 is Enabled, high speed; attach-full is taken in "
         "Disconnected"),
        (BUSIED, "line-event detach 2", "line-event, event detach, port 2",
         "port 2 is Disconnected; detach is taken in Disabled, Enabled and "
         "Suspended"),
        (SMALLER, "line-event chirp 1", "line-event, event chirp, port 1",
         "port 1 is Resetting, high speed; chirp is taken in Resetting, full "
         "speed"),
        (CHIRPED, "line-event chirp 1", "line-event, event chirp, port 1",
         "port 1 is Disabled, high speed; chirp is taken in Resetting, full "
         "speed"),
        (BUSIED, "line-event wake 7", "line-event, event wake, port 7",
         "port 7 is Resuming, full speed; wake is taken in Suspended"),
        (BUSIED, "line-event port-error 6",
         "line-event, event port-error, port 6",
         "port 6 is Suspended, full speed; port-error is taken in Enabled")]:
    case(of, words, call, ["NOT_NOW: " + sentence], "8 1 8")
