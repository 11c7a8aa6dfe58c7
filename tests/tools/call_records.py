"""The record of a call that stands in the words of docs/WHY.md."""

import os
import sys

sys.path.insert(0, os.path.join(os.path.dirname(__file__), "../recordings"))

from blocks import record  # noqa: E402

NAMES = {
    "PID": {"out": 1, "in": 9, "setup": 13},
    "TYPE": {"control": 0, "bulk": 2},
    "SPEED": {"full": 0, "low": 1},
    "DIRECTION": {"out": 0, "in": 1},
    "RESULT": {"failure": 0, "ack": 2, "data0": 3, "nak": 10, "data1": 11,
               "stall": 14},
    "EVENT": {"attach-low": 0, "attach-full": 1, "detach": 2, "chirp": 3,
              "wake": 4, "port-error": 5, "over-current-on": 6,
              "over-current-off": 7},
}
WORDS = {
    "control": ["LANE", "ROOM"],
    "poll": ["LANE", "ROOM"],
    "start-split": ["LANE", "PID", "TYPE", "SPEED", "TOGGLE", "ADDRESS",
                    "ENDPOINT"],
    "complete-split": ["LANE", "ADDRESS", "ENDPOINT", "DIRECTION", "ROOM"],
    "launch": ["ROOM"],
    "deliver": ["RESULT"],
    "line-event": ["EVENT", "PORT"],
    "tick": [],
    "bus-reset": [],
}


def number(field, word):
    names = NAMES.get(field, {})
    return names[word.lower()] if word.lower() in names else int(word, 0)


def record_of(words, room=64):
    """`words` is a list, as a shell hands it over."""
    kind = words[0].lower()
    rest = list(words[1:])
    numbers = [room if field == "ROOM" else number(field, rest.pop(0))
               for field in WORDS[kind]]
    return record(kind, numbers, bytes.fromhex("".join(rest)))
