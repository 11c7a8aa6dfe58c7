"""Calls and answers as lines, by docs/CALLS.md, and the tally's table."""

NUMBERS = ["DONE", "DATA", "STALL", "NAK", "NYET", "SILENT", "OUTSIDE",
           "NO_SPACE", "NOT_NOW", "HANDSHAKE"]
PIDS = {1: "OUT", 9: "IN", 13: "SETUP"}
TRANSFERS = {0: "control", 2: "bulk"}
SPEEDS = {0: "full", 1: "low"}
DIRECTIONS = {0: "OUT", 1: "IN"}
RESULTS = {0: "failure", 2: "ACK", 3: "DATA0", 10: "NAK", 11: "DATA1",
           14: "STALL"}
EVENTS = dict(enumerate([
    "attach-low", "attach-full", "detach", "chirp", "wake", "port-error",
    "over-current-on", "over-current-off"]))
NAMES = {"pid": PIDS, "transfer": TRANSFERS, "low_speed": SPEEDS,
         "direction": DIRECTIONS, "result": RESULTS, "event": EVENTS}
REQUESTS = {
    (0x00, 9): "SetConfiguration", (0x80, 8): "GetConfiguration",
    (0xA0, 6): "GetHubDescriptor", (0xA0, 0): "GetHubStatus",
    (0xA3, 0): "GetPortStatus", (0x20, 1): "ClearHubFeature",
    (0x23, 1): "ClearPortFeature", (0x23, 3): "SetPortFeature",
    (0x23, 8): "ClearTTBuffer", (0x23, 9): "ResetTT",
}
TALLY = """\
blocks replayed          %8d
start-splits stored      %8d
  answered               %8d
  emptied before that    %8d
  pending or ready now   %8d
  sum of these three     %8d
"""


def hexed(bytes_of):
    return "".join(" %02x" % byte for byte in bytes_of)


def request(setup):
    """The request that a setup makes, if it makes one."""
    name = REQUESTS.get(tuple(setup[:2]))
    if len(setup) != 8 or name is None:
        return []
    fields = zip(["wValue", "wIndex", "wLength"],
                 [setup[i] + 256 * setup[i + 1] for i in (2, 4, 6)])
    return [name] + [("%s %d" if field < 256 else "%s 0x%04x") % (title, field)
                     for title, field in fields]


def room(length):
    if length == 64:
        return []
    if length == 0:
        return ["no reply space"]
    return ["reply space of %d byte%s" % (length, "" if length == 1 else "s")]


def call_line(call):
    line = call.kind
    for field, number in call.numbers.items():
        if field != "reply_len":
            line += " " + NAMES.get(field, {}).get(number, str(number))
    if call.kind == "control" and not call.payload:
        line += " ''"
    line += hexed(call.payload)
    more = request(call.payload) if call.kind == "control" else []
    more += room(call.numbers.get("reply_len", 64))
    return line + (" (%s)" % ", ".join(more) if more else "")


def counted(reply):
    if not reply:
        return "no bytes"
    return "%d byte%s" % (len(reply), "" if len(reply) == 1 else "s") \
        + hexed(reply)


def answer_line(call, answer, reply):
    """`answer` is the ten numbers."""
    (number, _, pid, transfer, lane, address, endpoint, direction, low_speed,
     toggle) = answer
    name = NUMBERS[number]
    if name == "HANDSHAKE":
        return "HANDSHAKE " + RESULTS[pid]
    if name != "DATA":
        return name
    if call.kind == "complete-split":
        return "DATA %s, %s" % (RESULTS[pid], counted(reply))
    if call.kind == "launch":
        return "DATA lane %d (%d,%d %s), %s %s, %s speed, toggle %d, %s" % (
            lane, address, endpoint, DIRECTIONS[direction], PIDS[pid],
            TRANSFERS[transfer], SPEEDS[low_speed], toggle, counted(reply))
    return "DATA, " + counted(reply)


def split_answers(answers):
    """The ten numbers and the reply of each answer."""
    at = 0
    while at < len(answers):
        length = answers[at + 1]
        yield answers[at:at + 10], answers[at + 10:at + 10 + length]
        at += 10 + length


def lines(blocks, answers):
    answer = split_answers(answers)
    text = []
    for place, calls in enumerate(blocks, 1):
        for number, call in enumerate(calls, 1):
            text.append("%d.%d %s: %s\n" % (place, number, call_line(call),
                                            answer_line(call, *next(answer))))
    if next(answer, None) is not None:
        raise ValueError("there are more answers than calls")
    return "".join(text)


def tally_table(blocks, stored, answered, emptied, active):
    return TALLY % (blocks, stored, answered, emptied, active,
                    answered + emptied + active)
