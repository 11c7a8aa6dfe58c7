"""Words and areas that are refused: what stands behind 'why: '."""

from why_areas import BENCH, SMALL, changed

CALLS = ("calls are control, poll, start-split, complete-split, launch, "
         "deliver, line-event, tick, bus-reset")
NUMBERS = "numbers are decimal or 0x and hex digits"
START_WORDS = ("its words are start-split LANE PID TYPE SPEED TOGGLE ADDRESS "
               "ENDPOINT [PAYLOAD]")
COMPLETE_WORDS = "its words are complete-split LANE ADDRESS ENDPOINT DIRECTION"
RESULTS = "it is a number or one of failure, ACK, DATA0, NAK, DATA1, STALL"
EVENTS = ("it is a number or one of attach-low, attach-full, detach, chirp, "
          "wake, port-error, over-current-on, over-current-off")

# Behind the file.
BAD_CALLS = [
    ([], "no call is given; " + CALLS),
    (["pool", "0"], "'pool' is no call; " + CALLS),
    (["--raw"], "'--raw' is no call; " + CALLS),
    ([""], "'' is no call; " + CALLS),
    (["control"], "control lacks LANE; its words are control LANE SETUP"),
    (["control", "0"],
     "control lacks SETUP; its words are control LANE SETUP"),
    (["control", "x", "00"], "'x' is no lane; " + NUMBERS),
    (["control", "0", "230"], "'230' has an odd number of digits; bytes are "
     "two hex digits each"),
    (["control", "0", "23", "0x3"],
     "'0x3' is no byte; bytes are two hex digits each"),
    (["poll"], "poll lacks LANE; its words are poll LANE"),
    (["poll", "0", "1"], "'1' is too much; the words are poll LANE"),
    (["poll", ""], "'' is no lane; " + NUMBERS),
    (["poll", "0x"], "'0x' is no lane; " + NUMBERS),
    (["poll", "0xg"], "'0xg' is no lane; " + NUMBERS),
    (["poll", "1a"], "'1a' is no lane; " + NUMBERS),
    (["poll", "-1"], "'-1' is no lane; " + NUMBERS),
    (["poll", " 1"], "' 1' is no lane; " + NUMBERS),
    (["poll", "4294967296"],
     "'4294967296' is no lane; it is above 4294967295"),
    (["poll", "0x100000000"],
     "'0x100000000' is no lane; it is above 4294967295"),
    (["poll", "9" * 99],
     "'%s' is no lane; it is above 4294967295" % ("9" * 60)),
    (["start-split"], "start-split lacks LANE; " + START_WORDS),
    (["start-split", "0", "IN", "bulk", "full", "0", "5"],
     "start-split lacks ENDPOINT; " + START_WORDS),
    (["start-split", "0", "PING", "bulk", "full", "0", "5", "1"],
     "'PING' is no PID; it is a number or one of OUT, IN, SETUP"),
    (["start-split", "0", "IN", "interrupt", "full", "0", "5", "1"],
     "'interrupt' is no type; it is a number or one of control, bulk"),
    (["start-split", "0", "IN", "bulk", "high", "0", "5", "1"],
     "'high' is no speed; it is a number or one of full, low"),
    (["start-split", "0", "IN", "2x", "full", "0", "5", "1"],
     "'2x' is no type; " + NUMBERS),
    (["start-split", "0", "IN", "bulk", "full", "DATA0", "5", "1"],
     "'DATA0' is no toggle; " + NUMBERS),
    (["start-split", "0", "IN", "bulk", "full", "0", "five", "1"],
     "'five' is no address; " + NUMBERS),
    (["start-split", "0", "IN", "bulk", "full", "0", "5", "1.0"],
     "'1.0' is no endpoint; " + NUMBERS),
    (["start-split", "0", "OUT", "bulk", "full", "0", "5", "1", "0g"],
     "'0g' is no byte; bytes are two hex digits each"),
    (["start-split", "0", "OUT", "bulk", "full", "0", "5", "1", "00" * 1025],
     "there are more than 1024 bytes"),
    (["complete-split", "0", "5", "1"],
     "complete-split lacks DIRECTION; " + COMPLETE_WORDS),
    (["complete-split", "0", "5", "1", "SETUP"],
     "'SETUP' is no direction; it is a number or one of OUT, IN"),
    (["launch", "0"], "'0' is too much; the words are launch"),
    (["deliver"],
     "deliver lacks RESULT; its words are deliver RESULT [PAYLOAD]"),
    (["deliver", "NYET"], "'NYET' is no result; " + RESULTS),
    (["line-event", "unplug", "1"], "'unplug' is no event; " + EVENTS),
    (["line-event", "unknown", "1"], "'unknown' is no event; " + EVENTS),
    (["line-event", "detach"],
     "line-event lacks PORT; its words are line-event EVENT PORT"),
    (["line-event", "detach", "one"], "'one' is no port; " + NUMBERS),
    (["tick", "tock"], "'tock' is too much; the words are tick"),
    (["bus-reset", "0"], "'0' is too much; the words are bus-reset"),
]

# Whole command lines.
BAD_LINES = [
    ([], "no file is given; why --help says more"),
    (["--raw"], "no file is given; why --help says more"),
    (["--state"], "no file is given; why --help says more"),
    (["--rwa", "hub.area", "tick"], "'--rwa' is no option; options are "
     "--room N, --record RECORD, --raw, --state, --help"),
    (["-r", "hub.area", "tick"], "'-r' is no option; options are "
     "--room N, --record RECORD, --raw, --state, --help"),
    (["--room"], "--room lacks its number"),
    (["--room", "hub.area", "tick"],
     "--room: 'hub.area' is no reply space; " + NUMBERS),
    (["--room", "-1", "hub.area", "tick"],
     "--room: '-1' is no reply space; " + NUMBERS),
    (["--room", "1025", "hub.area", "tick"], "--room: 1025 is above 1024"),
    (["--raw", "--state", "hub.area"],
     "--raw and --state exclude each other"),
    (["--state", "hub.area", "tick"],
     "'tick' is too much; --state takes no call"),
]


def at(places, sentence):
    return changed(BENCH, places), sentence


# Buffers of BENCH begin at bytes 24, 96 and 168; see docs/AREA.md.
BAD_AREAS = [
    (b"", "0 bytes; an area has 156 to 324"),
    (b"\x04", "1 byte; an area has 156 to 324"),
    (b"\x04\x03", "2 bytes; an area of 4 ports and 3 buffers has 240"),
    (BENCH[:239], "239 bytes; an area of 4 ports and 3 buffers has 240"),
    (BENCH + b"\0", "241 bytes; an area of 4 ports and 3 buffers has 240"),
    (SMALL[:155], "155 bytes; an area of 1 port and 2 buffers has 156"),
    (BENCH.ljust(324, b"\0"),
     "324 bytes; an area of 4 ports and 3 buffers has 240"),
    (BENCH.ljust(325, b"\0"), "more than 324 bytes; an area has 156 to 324"),
    (BENCH.ljust(9999, b"\0"), "more than 324 bytes; an area has 156 to 324"),

    at({0: 0}, "byte 0: the hub has 0 ports; 1 to 7 are permitted"),
    at({0: 8}, "byte 0: the hub has 8 ports; 1 to 7 are permitted"),
    at({0: 3}, "240 bytes; an area of 3 ports and 3 buffers has 236"),
    at({1: 1}, "byte 1: the hub has 1 buffer; 2 to 4 are permitted"),
    at({1: 5}, "byte 1: the hub has 5 buffers; 2 to 4 are permitted"),
    at({1: 4}, "240 bytes; an area of 4 ports and 4 buffers has 312"),
    at({4: 0x01},
       "byte 4: removable is 0x01; bit 0 and the bits above 4 have to be 0"),
    at({4: 0x20},
       "byte 4: removable is 0x20; bit 0 and the bits above 4 have to be 0"),
    at({5: 2}, "byte 5: configured is 2; 0 and 1 are permitted"),
    at({6: 3}, "byte 6: the low side is 3; 0 to 2 are permitted"),
    at({7: 1}, "byte 7: buffer 1 is named and no transaction runs; 0 is "
       "permitted"),
    at({6: 2, 7: 2}, "byte 7: buffer 2 is named and no transaction runs; 0 is "
       "permitted"),
    at({6: 1, 7: 3}, "byte 7: buffer 3 runs; 0 to 2 are permitted"),
    at({6: 1, 7: 0},
       "byte 7: buffer 0 runs and is ready; a running one is pending"),

    at({8: 9}, "byte 8: port 1 is in state 9; 0 to 7 are permitted"),
    at({20: 8}, "byte 20: port 4 is in state 8; 0 to 7 are permitted"),
    at({12: 0}, "byte 12: port 2 is in state 0; the hub is configured, 1 to 7 "
       "are permitted"),
    at({5: 0}, "byte 8: port 1 is in state 1; the hub is unconfigured, 0 is "
       "permitted"),
    at({8: 5, 9: 3}, "byte 9: port 1 has speed 3; 0 to 2 are permitted"),
    at({9: 1}, "byte 9: port 1 has speed 1; Powered-off has 0"),
    at({16: 2, 17: 2}, "byte 17: port 3 has speed 2; Disconnected has 0"),
    at({10: 1}, "byte 10: port 1 has 1 tick; Powered-off has 0"),
    at({12: 4, 14: 15}, "byte 14: port 2 has 15 ticks; Resetting has 0 to 14"),
    at({20: 7, 22: 22}, "byte 22: port 4 has 22 ticks; Resuming has 0 to 21"),
    at({11: 0x40}, "byte 11: port 1 has 0x40; bits 6 and 7 are 0"),
    at({23: 0x80}, "byte 23: port 4 has 0x80; bits 6 and 7 are 0"),

    at({24: 4}, "byte 24: buffer 0 has status 4; 0 to 3 are permitted"),
    at({168: 255}, "byte 168: buffer 2 has status 255; 0 to 3 are permitted"),
    at({24: 0}, "byte 25: buffer 0 has 9 and is empty; 0 is permitted"),
    at({97: 2}, "byte 97: buffer 1 has PID 2; OUT 1, IN 9 and SETUP 13 are "
       "permitted"),
    at({98: 1}, "byte 98: buffer 1 has type 1; control 0 and bulk 2 are "
       "permitted"),
    at({97: 13}, "byte 98: buffer 1 has type bulk; SETUP is control"),
    at({99: 8}, "byte 99: buffer 1 has flags 0x08; bits 3 to 7 are 0"),
    at({100: 128}, "byte 100: buffer 1 has address 128; 0 to 127 are "
       "permitted"),
    at({101: 16}, "byte 101: buffer 1 has endpoint 16; 0 to 15 are "
       "permitted"),
    at({30: 5}, "byte 30: buffer 0 has result 5; failure 0, ACK 2, DATA0 3, "
       "NAK 10, DATA1 11 and STALL 14 are permitted"),
    at({30: 2}, "byte 31: buffer 0 has a payload of 3 bytes; ACK has none"),
    at({24: 3, 30: 10},
       "byte 31: buffer 0 has a payload of 3 bytes; NAK has none"),
    at({25: 13}, "byte 26: buffer 0 has type bulk; SETUP is control"),
    at({25: 13, 26: 0, 30: 2, 31: 8},
       "byte 31: buffer 0 has a payload of 8 bytes; ACK has none"),
    at({31: 65},
       "byte 31: buffer 0 has a payload of 65 bytes; DATA0 has 0 to 64"),
    at({103: 1}, "byte 103: buffer 1 has a payload of 1 byte; IN has none"),
    at({97: 1, 103: 65},
       "byte 103: buffer 1 has a payload of 65 bytes; OUT has 0 to 64"),
    at({97: 13, 98: 0, 103: 7},
       "byte 103: buffer 1 has a payload of 7 bytes; SETUP has 8"),
    at({35: 1}, "byte 35: buffer 0 has 1 behind its payload; 0 is permitted"),
    at({31: 2},
       "byte 34: buffer 0 has 51 behind its payload; 0 is permitted"),
    at({239: 255},
       "byte 239: buffer 2 has 255 behind its payload; 0 is permitted"),

    at({100: 5}, "buffers 0 and 1 have the same key, lane 0 (5,1 IN)"),
    at({24: 3, 171: 0}, "buffers 0 and 2 have the same key, lane 0 (5,1 IN)"),
    at({174: 1}, "buffers 1 and 2 are pending at the same place, 1"),
    at({171: 0, 172: 7},
       "lane 0 holds 3 buffers pending or ready; its limit is 2"),
    at({27: 4, 99: 4, 172: 7},
       "lane 1 holds 3 buffers pending or ready; its limit is 2"),
]
