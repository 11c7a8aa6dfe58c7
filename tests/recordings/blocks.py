"""Records and blocks of a recording, written by docs/CALLS.md."""

import struct

BLOCK_LENGTH = 512
USED_MAX = 506
COUNTED = {"control", "start-split", "deliver"}
TAGS = {"control": 1, "poll": 2, "start-split": 3, "complete-split": 4,
        "launch": 5, "deliver": 6, "line-event": 7, "tick": 8, "bus-reset": 9}


def record(kind, numbers=(), payload=b""):
    """The numbers in the order of the table, the reply space among them."""
    written = bytes([TAGS[kind]])
    for number in numbers:
        written += number.to_bytes(4, "little")
    if kind in COUNTED:
        written += len(payload).to_bytes(2, "little") + payload
    return written


def checked(block):
    """The block with the check that it should have."""
    words = struct.unpack("<255H", block[:510])
    return block[:510] + struct.pack("<H", -sum(words) % 0x10000)


def block(number, records):
    """A block with these bytes of records, which need not be records."""
    head = number.to_bytes(2, "little") + len(records).to_bytes(2, "little")
    return checked((head + records).ljust(BLOCK_LENGTH, b"\0"))


def recording_of(records):
    """Block after block, each as full as its records permit."""
    used = [b""]
    for one in records:
        if len(one) > USED_MAX:
            continue
        if len(used[-1]) + len(one) > USED_MAX:
            used.append(b"")
        used[-1] += one
    if used == [b""]:
        return b""
    return b"".join(block(place, bytes_of)
                    for place, bytes_of in enumerate(used, 1))
