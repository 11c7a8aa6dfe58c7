"""Blocks and records read by docs/CALLS.md, and why one is refused."""

BLOCK_LENGTH = 512
PLACE_MAX = 65535

# The call, its numbers, and what its counted bytes are.
FORMS = {
    1: ("control", ["lane", "reply_len"], "setup"),
    2: ("poll", ["lane", "reply_len"], None),
    3: ("start-split", ["lane", "pid", "transfer", "low_speed", "toggle",
                        "address", "endpoint"], "payload"),
    4: ("complete-split", ["lane", "address", "endpoint", "direction",
                           "reply_len"], None),
    5: ("launch", ["reply_len"], None),
    6: ("deliver", ["result"], "payload"),
    7: ("line-event", ["event", "port"], None),
    8: ("tick", [], None),
    9: ("bus-reset", [], None),
}


class Refused(Exception):
    """A word of docs/CALLS.md and the sentence of docs/REPLAY.md."""

    def __init__(self, word, what):
        super().__init__(word + ": " + what)
        self.word = word


class Call:
    def __init__(self, kind, numbers, payload):
        self.kind = kind
        self.numbers = numbers
        self.payload = payload


def plural(count):
    return "%d byte%s" % (count, "" if count == 1 else "s")


def little(bytes_of):
    return sum(byte << 8 * place for place, byte in enumerate(bytes_of))


def read_record(bytes_of):
    """The call at the beginning and the record's length, or ValueError."""
    if not bytes_of:
        raise ValueError("no bytes; a record begins with its tag")
    tag = bytes_of[0]
    if tag not in FORMS:
        raise ValueError("tag %d is no call; tags are 1 to 9" % tag)
    kind, fields, counted = FORMS[tag]
    fixed = 1 + 4 * len(fields) + (2 if counted else 0)
    if len(bytes_of) < fixed:
        raise ValueError("tag %d, %s, ends inside its numbers: %s of %d" % (
            tag, kind, plural(len(bytes_of)), fixed))
    numbers = {field: little(bytes_of[1 + 4 * i:5 + 4 * i])
               for i, field in enumerate(fields)}
    count = little(bytes_of[fixed - 2:fixed]) if counted else 0
    if len(bytes_of) < fixed + count:
        raise ValueError("tag %d, %s, has %d of its %d %s bytes" % (
            tag, kind, len(bytes_of) - fixed, count, counted))
    return Call(kind, numbers, bytes_of[fixed:fixed + count]), fixed + count


def read_records(used):
    calls = []
    at = 0
    while at < len(used):
        try:
            call, length = read_record(used[at:])
        except ValueError as fault:
            raise Refused("record", "record %d, at byte %d: %s" % (
                len(calls) + 1, 4 + at, fault)) from None
        calls.append(call)
        at += length
    return calls


def read_block(block, place):
    """The calls of the block, or Refused."""
    if len(block) != BLOCK_LENGTH:
        raise Refused("length", "it has %s; a block has 512"
                      % plural(len(block)))
    total = sum(little(block[i:i + 2]) for i in range(0, 512, 2)) % 65536
    if total != 0:
        raise Refused("check", "the sum of its words is 0x%04x; 0 is right"
                      % total)
    number, count = little(block[0:2]), little(block[2:4])
    if place > PLACE_MAX:
        raise Refused("number", "it is %d; no number is right for a place "
                      "above 65535" % number)
    if number != place:
        raise Refused("number", "it is %d; the block's place is %d" % (
            number, place))
    if count > 506:
        raise Refused("count", "it is %d; a block has 506 at most" % count)
    for place_of, byte in enumerate(block[4 + count:510], 4 + count):
        if byte != 0:
            raise Refused("count", "it is %d, and byte %d behind those used "
                          "is %d; 0 is right" % (count, place_of, byte))
    return read_records(block[4:4 + count])


def read_recording(recording):
    """The calls of each block up to the first bad one, and its refusal."""
    blocks = []
    for at in range(0, len(recording), BLOCK_LENGTH):
        try:
            blocks.append(read_block(recording[at:at + BLOCK_LENGTH],
                                     len(blocks) + 1))
        except Refused as refused:
            return blocks, refused
    return blocks, None
