"""Explained calls: hubs, and how a case is written down."""

from why_areas import (BENCH, BENCH_STATE, BUSY, BUSY_STATE, NEW, NEW_STATE,
                       RUNS_IN, RUNS_IN_STATE, RUNS_SETUP, RUNS_SETUP_STATE,
                       SMALL, SMALL_STATE, UNSUITED, UNSUITED_STATE, changed)

BENCHED = (BENCH, BENCH_STATE)
BUSIED = (BUSY, BUSY_STATE)
SMALLER = (SMALL, SMALL_STATE)
FRESH = (NEW, NEW_STATE)
IN_RUN = (RUNS_IN, RUNS_IN_STATE)
SETUP_RUN = (RUNS_SETUP, RUNS_SETUP_STATE)
NOT_SUITED = (UNSUITED, UNSUITED_STATE)
CHIRPED = (changed(SMALL, {8: 3}),
           SMALL_STATE.replace("Resetting, high speed, 0 ticks",
                               "Disabled, high speed"))

CASES = []
ROOM = "reply space of 64 bytes"
NO_REASON = "no reason is given for this answer"
SIXTY_FOUR = "00 " * 64
SIXTEEN = "00 " * 15 + "00"


def case(of, words, call, lines, raw, room=None):
    """Lines: reply and reason.  Raw: answer, kind, value, changes if any."""
    raw = (raw.split() + ["0"] * 7)[:10]
    CASES.append((of, words.split(), call, lines, " ".join(raw), room))


def start_split(of, words, numbers, line, raw):
    case(of, "start-split " + words, "start-split, " + numbers, [line], raw)


def control(of, setup, meaning, lines, raw):
    call = "control, lane 0, %s, setup of 8 bytes %s" % (ROOM, setup)
    if meaning:
        call += ": " + meaning
    case(of, "control 0 " + setup, call, lines, raw)
