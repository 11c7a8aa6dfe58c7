"""Blocks that are refused, each for its word, and command lines."""

from call_records import record_of  # puts the writer's folder on the path
from blocks import block, checked, record

HUB = (4, 3, 50, 100, 0)
NUMBERS = "4 3 50 100 0".split()


def calls(*texts):
    return b"".join(record_of(text.split()) for text in texts)


# A microphone is read; every kind of call stands in it.
FIRST = block(1, calls(
    "control 0 00 09 01 00 00 00 00 00", "control 0 23 03 08 00 01 00 00 00",
    "line-event attach-full 1", "poll 0", "start-split 0 IN bulk full 0 5 1",
    "launch"))
SECOND = block(2, calls(
    "deliver DATA0 11 22 33", "complete-split 0 5 1 IN", "tick",
    "control 1 a3 00 00 00 01 00 04 00", "poll 1",
    "start-split 1 OUT control low 1 7 0 41 42 43", "launch",
    "line-event detach 1", "start-split 0 IN bulk full 1 5 1", "deliver ACK",
    "complete-split 1 7 0 OUT", "complete-split 0 9 1 IN", "bus-reset",
    "control 0 00 09 01 00 00 00 00 00", "start-split 0 IN bulk full 0 5 1",
    "launch", "tick"))
THIRD = block(3, calls("deliver DATA1 44", "complete-split 0 5 1 IN"))
SHORT = FIRST + SECOND + THIRD


def at(block_of, places):
    """The block with other bytes at some places, its check made right."""
    new = bytearray(block_of)
    for place, value in places.items():
        new[place] = value
    return checked(bytes(new))


def under_way(number, records):
    """A block that isn't finished: its number waits where the check goes."""
    return b"\0\0" + block(number, records)[2:510] \
        + number.to_bytes(2, "little")


# Second blocks, with what is said of them.
SECOND_BLOCKS = [
    (SECOND[:1], "length: it has 1 byte; a block has 512"),
    (SECOND[:511], "length: it has 511 bytes; a block has 512"),
    (b"\xFF" * 200, "length: it has 200 bytes; a block has 512"),
    (SECOND[:100] + bytes(412), None),
    (b"\xFF" * 512, "check: the sum of its words is 0xff00; 0 is right"),
    (under_way(2, calls("tick")),
     "check: the sum of its words is 0x000b; 0 is right"),
    (under_way(2, b""), "check: the sum of its words is 0x0002; 0 is right"),
    (bytes(512), "number: it is 0; the block's place is 2"),
    (FIRST, "number: it is 1; the block's place is 2"),
    (THIRD, "number: it is 3; the block's place is 2"),
    (at(SECOND, {1: 1}), "number: it is 258; the block's place is 2"),
    (at(b"\xFF" * 512, {}), "number: it is 65535; the block's place is 2"),
    (at(b"\xFF" * 512, {0: 2, 1: 0}),
     "count: it is 65535; a block has 506 at most"),
    (at(b"\x08" * 512, {0: 2, 1: 0, 2: 251, 3: 1}),
     "count: it is 507; a block has 506 at most"),
    (at(bytes(512), {0: 2, 9: 1}),
     "count: it is 0, and byte 9 behind those used is 1; 0 is right"),
    (at(bytes(512), {0: 2, 2: 5, 509: 255}),
     "count: it is 5, and byte 509 behind those used is 255; 0 is right"),
    (at(block(2, b"\x08\x08\x08"), {2: 2, 20: 7}),
     "count: it is 2, and byte 6 behind those used is 8; 0 is right"),
    (block(2, b"\0"),
     "record: record 1, at byte 4: tag 0 is no call; tags are 1 to 9"),
    (block(2, b"\x08\x09\x08\x0A\x08"),
     "record: record 4, at byte 7: tag 10 is no call; tags are 1 to 9"),
    (block(2, calls("tick", "poll 0") + b"\xFF" * 496),
     "record: record 3, at byte 14: tag 255 is no call; tags are 1 to 9"),
    (block(2, b"\x08" * 505 + b"\x07"), "record: record 506, at byte 509: "
     "tag 7, line-event, ends inside its numbers: 1 byte of 9"),
    (block(2, calls("poll 1")[:8]), "record: record 1, at byte 4: tag 2, "
     "poll, ends inside its numbers: 8 bytes of 9"),
    (block(2, calls("tick", "deliver ACK")[:7]), "record: record 2, at byte "
     "5: tag 6, deliver, ends inside its numbers: 6 bytes of 7"),
    (block(2, calls("deliver DATA0 11 22 33")[:9]), "record: record 1, at "
     "byte 4: tag 6, deliver, has 2 of its 3 payload bytes"),
    (block(2, record("control", [0, 64], bytes(9))[:19]), "record: record 1, "
     "at byte 4: tag 1, control, has 8 of its 9 setup bytes"),
    (block(2, record("start-split", [0] * 7, bytes(476))[:506]), "record: "
     "record 1, at byte 4: tag 3, start-split, has 475 of its 476 payload "
     "bytes"),
    (block(2, b"\x06" + b"\0" * 4 + b"\xFF\xFF"), "record: record 1, at byte "
     "4: tag 6, deliver, has 0 of its 65535 payload bytes"),
]

# Blocks of the largest records and counts, which are taken.
FULL_BLOCKS = [
    block(1, b"\x08" * 506),
    block(1, record("start-split", [0, 1, 2, 0, 0, 5, 1], bytes(475))),
    block(1, record("control", [0, 64], bytes(495))),
    block(1, record("deliver", [3], bytes(499))),
    block(1, record("poll", [2 ** 32 - 1] * 2)),
    block(1, b""),
]

ALL = "PORTS BUFFERS POWER_GOOD CURRENT REMOVABLE"
WORDS = "the words are [FILE] " + ALL
DECIMAL = "numbers are decimal or 0x and hex digits; " + WORDS
NEEDED = "five numbers are needed, %s; replay --help says more" % ALL
OPTIONS = "options are --raw, --progress, --help"

BAD_LINES = [
    ([], NEEDED),
    (["--raw"], NEEDED),
    (["file.rec"], NEEDED),
    (["4", "3", "50", "100"], NEEDED),
    (["file.rec", "4", "3", "50", "100"],
     "'file.rec' is no number of ports; " + DECIMAL),
    (["file.rec"] + NUMBERS + ["1"],
     "'1' is too much; " + WORDS),
    (["--rwa"] + NUMBERS, "'--rwa' is no option; " + OPTIONS),
    (["-1", "3", "50", "100", "0"], "'-1' is no option; " + OPTIONS),
    (["4", "three", "50", "100", "0"],
     "'three' is no number of buffers; " + DECIMAL),
    (["4", "3", "-1", "100", "0"], "'-1' is no power-good time; " + DECIMAL),
    (["4", "3", "50", "", "0"], "'' is no current; " + DECIMAL),
    (["4", "3", "50", "100", "0x"], "'0x' is no removable byte; " + DECIMAL),
    (["4", "3", "50", "100", "4294967296"],
     "'4294967296' is no removable byte; it is above 4294967295; " + WORDS),
]

# Five numbers that give no hub.
BAD_HUBS = [
    ("0 3 50 100 0", "PORTS is 0, 1 to 7 are permitted"),
    ("8 3 50 100 0", "PORTS is 8, 1 to 7 are permitted"),
    ("4294967295 3 50 100 0", "PORTS is 4294967295, 1 to 7 are permitted"),
    ("4 1 50 100 0", "BUFFERS is 1, 2 to 4 are permitted"),
    ("4 5 50 100 0", "BUFFERS is 5, 2 to 4 are permitted"),
    ("4 3 256 100 0", "POWER_GOOD is 256, 0 to 255 are permitted"),
    ("4 3 50 256 0", "CURRENT is 256, 0 to 255 are permitted"),
    ("4 3 50 100 1",
     "REMOVABLE is 0x01, bit 0 and the bits above 4 have to be 0"),
    ("4 3 50 100 32",
     "REMOVABLE is 0x20, bit 0 and the bits above 4 have to be 0"),
    ("7 3 50 100 0x100",
     "REMOVABLE is 0x100, bit 0 and the bits above 7 have to be 0"),
    ("8 5 256 300 1", "PORTS is 8, 1 to 7 are permitted; BUFFERS is 5, 2 to 4 "
     "are permitted; POWER_GOOD is 256, 0 to 255 are permitted; CURRENT is "
     "300, 0 to 255 are permitted; REMOVABLE is 0x01, bit 0 and the bits "
     "above 7 have to be 0"),
]

# The least and the largest numbers that give one.
GOOD_HUBS = ["1 2 0 0 0", "1 2 0 0 2", "7 4 255 255 254", "4 3 50 100 0x1e",
             "0x7 0X4 0xFF 0xff 0xFE"]
