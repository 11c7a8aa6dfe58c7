"""Files for --record that don't hold exactly one record."""

from call_records import record_of  # puts the writer's folder on the path
from blocks import record

LANE_1 = record_of("start-split 1 IN bulk full 0 5 1".split())

BAD_RECORDS = [
    (b"", "no bytes; a record begins with its tag"),
    (b"\0", "tag 0 is no call; tags are 1 to 9"),
    (b"\x0A" * 30, "tag 10 is no call; tags are 1 to 9"),
    (b"tick\n", "tag 116 is no call; tags are 1 to 9"),
    (LANE_1[:1],
     "tag 3, start-split, ends inside its numbers: 1 byte of 31"),
    (LANE_1[:30],
     "tag 3, start-split, ends inside its numbers: 30 bytes of 31"),
    (record("launch", [64])[:4],
     "tag 5, launch, ends inside its numbers: 4 bytes of 5"),
    (record("deliver", [3], b"abc")[:-1],
     "tag 6, deliver, has 2 of its 3 payload bytes"),
    (record("control", [0, 64], bytes(8))[:11],
     "tag 1, control, has 0 of its 8 setup bytes"),
    (record("start-split", [0] * 7, bytes(65535))[:-1],
     "tag 3, start-split, has 65534 of its 65535 payload bytes"),
    (LANE_1 + b"\0", "tag 3, start-split, has 31 bytes, and more follow"),
    (b"\x08\x08", "tag 8, tick, has 1 byte, and more follow"),
    (record("start-split", [0] * 7, bytes(65535)) + b"\x08",
     "tag 3, start-split, has 65566 bytes, and more follow"),
    (bytes([8]) * 99999, "tag 8, tick, has 1 byte, and more follow"),
]

# Whole command lines; call.rec holds LANE_1.
BAD_RECORD_LINES = [
    (["--record"], "--record lacks its file"),
    (["--record", "call.rec"], "no file is given; why --help says more"),
    (["--record", "call.rec", "hub.area", "tick"],
     "'tick' is too much; --record gives the call"),
    (["--room", "64", "--record", "call.rec", "hub.area"],
     "--record and --room exclude each other: a record has its own reply "
     "space"),
    (["--record", "call.rec", "--room", "0", "hub.area"],
     "--record and --room exclude each other: a record has its own reply "
     "space"),
    (["--record", "-", "-"], "RECORD and FILE can't both be standard input"),
    (["--raw", "--record", "-", "-"],
     "RECORD and FILE can't both be standard input"),
    (["--state", "--record", "call.rec", "hub.area"],
     "--record and --state exclude each other"),
]
