#!/usr/bin/env python3
"""Runs the tool why and compares all that it prints with what is expected.

test_why.py NAK_AREA COMMAND..

NAK_AREA is the example's dump; COMMAND starts the tool.  The examples of
docs/WHY.md are run on NAK_AREA too.
"""

import os
import re
import subprocess
import sys
import tempfile

from call_records import WORDS, record_of
import why_areas
import why_numbers  # adds its cases to CASES
import why_reasons  # adds its cases to CASES
from why_cases import CASES
from why_records import BAD_RECORD_LINES, BAD_RECORDS, LANE_1
from why_refused import BAD_AREAS, BAD_CALLS, BAD_LINES

HELP = """\
why [OPTIONS] FILE CALL
why [OPTIONS] --record RECORD FILE
  Says why the hub whose area is in FILE (-: standard input)
  answers the call as it does.  Files are only read.

  --room N         reply space of the call, 0 to 1024 bytes;
                   default 64
  --record RECORD  the call is the record in the file RECORD
                   (-: standard input)
  --raw            one line of numbers: answer, kind, value and
                   seven bytes of change bits
  --state          the state alone, without a call
  --help           this text

Calls:
  control LANE SETUP
  poll LANE
  start-split LANE PID TYPE SPEED TOGGLE ADDRESS ENDPOINT [PAYLOAD]
  complete-split LANE ADDRESS ENDPOINT DIRECTION
  launch
  deliver RESULT [PAYLOAD]
  line-event EVENT PORT
  tick
  bus-reset

Exit status: 0 explained, 1 the area or the record is not read
or is refused, 2 bad words.
"""


class Runs:
    """Runs of the tool in a directory with hub.area and call.rec."""

    def __init__(self, command, directory):
        self.command = command
        self.directory = directory
        self.runs = 0
        self.failed = 0

    def write(self, name, content):
        path = os.path.join(self.directory, name)
        with open(path, "wb") as file:
            file.write(content)
        return path

    def compare(self, words, area, status, out, err, given=None, to=None,
                last=0, record=LANE_1):
        """Compares one run, or the last lines of its output.

        The area's file must stay as it is.
        """
        path = self.write("hub.area", area)
        self.write("call.rec", record)
        run = subprocess.run(self.command + words, cwd=self.directory,
                             input=given, stdout=to or subprocess.PIPE,
                             stderr=subprocess.PIPE, check=False)
        lines = (run.stdout or b"").decode().splitlines(keepends=True)
        got = (run.returncode, "".join(lines[-last:]), run.stderr.decode())
        self.runs += 1
        if got != (status, out, err):
            self.failed += 1
            print("why %s\nexpected %d\n%s%s\ngot %d\n%s%s\n" % (
                " ".join(words), status, out, err, *got))
        with open(path, "rb") as file:
            if file.read() != area:
                self.failed += 1
                print("why %s\nchanged the file\n" % " ".join(words))


def explained(runs):
    """The cases of why_reasons and why_numbers, as text and raw."""
    for (area, state), words, call, lines, raw, room in CASES:
        options = [] if room is None else ["--room", room]
        text = state + "call: " + call + "\n" + "\n".join(lines) + "\n"
        runs.compare(options + ["hub.area"] + words, area, 0, text, "")
        runs.compare(options + ["--raw", "hub.area"] + words, area, 0,
                     raw + "\n", "")


def from_records(runs):
    """The same cases; the call is a record, with its own reply space."""
    options = ["--record", "call.rec"]
    kinds = set()
    for (area, state), words, call, lines, raw, room in CASES:
        record = record_of(words, 64 if room is None else int(room, 0))
        kinds.add(words[0].lower())
        text = state + "call: " + call + "\n" + "\n".join(lines) + "\n"
        runs.compare(options + ["hub.area"], area, 0, text, "", record=record)
        runs.compare(options + ["--raw", "hub.area"], area, 0, raw + "\n", "",
                     record=record)
    if kinds != set(WORDS):
        runs.failed += 1
        print("records of %s" % sorted(kinds))


def large_records(runs):
    """Reply spaces and payloads that words can't give."""
    area, state = why_areas.SMALL, why_areas.SMALL_STATE
    options = ["--record", "call.rec", "hub.area"]
    for room in (1025, 65536, 2 ** 32 - 1):
        runs.compare(options, area, 0, state
                     + "call: complete-split, lane 1, address 6, endpoint 1, "
                     "direction IN, reply space of %d bytes\n"
                     "reply: 00 01 02 03 04 05 06 07 08 09 0a 0b 0c 0d 0e 0f\n"
                     "reply: 10 11 12 13\n"
                     "DATA: DATA1, 20 bytes; no reason is given for this "
                     "answer\n" % room, "",
                     record=record_of("complete-split 1 6 1 IN".split(), room))
    for count in (1025, 65535):
        runs.compare(options, area, 0, state
                     + "call: deliver, result ACK, payload of %d bytes%s ..\n"
                     "OUTSIDE: the payload has %d bytes; ACK has none\n" % (
                         count, " ab" * 16, count), "",
                     record=record_of(["deliver", "ACK", "ab" * count]))


def bad_records(runs):
    area = why_areas.BENCH
    for record, fault in BAD_RECORDS:
        for option in ([], ["--raw"]):
            runs.compare(option + ["--record", "call.rec", "hub.area"], area,
                         1, "", "why: call.rec: " + fault + "\n",
                         record=record)
    for words, fault in BAD_RECORD_LINES:
        runs.compare(words, area, 2, "", "why: " + fault + "\n")
    runs.compare(["--record", "no.rec", "hub.area"], area, 1, "",
                 "why: no.rec: No such file or directory\n")
    runs.compare(["--record", ".", "hub.area"], area, 1, "",
                 "why: .: Is a directory\n")
    runs.compare(["--record", "-", "hub.area"], area, 1, "",
                 "why: standard input: tag 0 is no call; tags are 1 to 9\n",
                 given=b"\0")
    runs.compare(["--raw", "--record", "-", "hub.area"], area, 0,
                 "0 0 0 0 0 0 0 0 0 0\n", "", given=b"\x08")
    runs.compare(["--record", "call.rec", "no.area"], area, 1, "",
                 "why: no.area: No such file or directory\n")


def other_forms(runs):
    area, state = why_areas.BUSY, why_areas.BUSY_STATE
    raw = "8 1 8 0 0 0 0 0 0 0\n"
    runs.compare(["--state", "hub.area"], area, 0, state, "")
    runs.compare(["--state", "hub.area"], why_areas.UNSUITED, 0,
                 why_areas.UNSUITED_STATE, "")
    runs.compare(["--raw", "-", "launch"], b"", 0, raw, "", given=area)
    runs.compare(["--raw", "--room", "64", "hub.area", "launch"], area, 0,
                 raw, "")
    runs.compare(["--help"], b"", 0, HELP, "")
    # No setup bytes at all are a word without digits.
    runs.compare(["hub.area", "control", "1", ""], area, 0, state
                 + "call: control, lane 1, reply space of 64 bytes, no setup\n"
                 "OUTSIDE: the setup has 0 bytes; it takes 8\n", "")
    # The library takes the most bytes that the words may give.
    runs.compare(["--raw", "hub.area", "deliver", "ACK", "00" * 1024], area, 0,
                 "6 1 6 0 0 0 0 0 0 0\n", "")


def example(runs, area):
    runs.compare(["hub.area"] + "start-split 0 IN bulk full 0 5 3".split(),
                 area, 0, why_areas.NAK_STATE
                 + "call: start-split, lane 0, PID IN, type bulk, speed full, "
                 "toggle 0, address 5, endpoint 3, no payload\n"
                 "NAK: lane 0 is at its limit of 2: buffer 0 pending "
                 "(5,1 IN), buffer 1 pending (5,2 IN)\n", "")


def documented(runs, area):
    """Each `$ why ..` of docs/WHY.md prints what stands below it."""
    path = os.path.join(os.path.dirname(__file__), "../../docs/WHY.md")
    with open(path) as file:
        examples = re.findall(r"```\n\$ why (.*)\n((?:.+\n)+?)```\n",
                              file.read())
    if len(examples) != 4:
        runs.failed += 1
        print("docs/WHY.md has %d examples" % len(examples))
    for words, out in examples:
        words, tail, _ = words.partition(" | tail -n 2")
        runs.compare(words.split(), area, 0, out, "", last=2 if tail else 0)


def bad_words(runs):
    for words, fault in BAD_CALLS:
        runs.compare(["hub.area"] + words, why_areas.BENCH, 2, "",
                     "why: " + fault + "\n")
    for words, fault in BAD_LINES:
        runs.compare(words, why_areas.BENCH, 2, "", "why: " + fault + "\n")
    # Words are read before the file.
    runs.compare(["no.area", "poll"], b"", 2, "",
                 "why: poll lacks LANE; its words are poll LANE\n")


def bad_areas(runs):
    for area, fault in BAD_AREAS:
        runs.compare(["hub.area", "tick"], area, 1, "",
                     "why: hub.area: " + fault + "\n")
    area, fault = BAD_AREAS[3]
    line = ": " + fault + "\n"
    runs.compare(["--raw", "hub.area", "tick"], area, 1, "",
                 "why: hub.area" + line)
    runs.compare(["--state", "hub.area"], area, 1, "", "why: hub.area" + line)
    runs.compare(["-", "tick"], b"", 1, "", "why: standard input" + line,
                 given=area)
    runs.compare(["no.area", "tick"], b"", 1, "",
                 "why: no.area: No such file or directory\n")
    runs.compare([".", "tick"], b"", 1, "", "why: .: Is a directory\n")
    with open("/dev/full", "wb") as full:
        runs.compare(["--state", "hub.area"], why_areas.BENCH, 1, "",
                     "why: standard output: No space left on device\n",
                     to=full)


def main():
    if len(sys.argv) < 3:
        sys.exit(__doc__)
    with open(sys.argv[1], "rb") as file:
        nak_area = file.read()
    command = sys.argv[2:]
    command[-1] = os.path.abspath(command[-1])
    with tempfile.TemporaryDirectory() as directory:
        runs = Runs(command, directory)
        explained(runs)
        from_records(runs)
        large_records(runs)
        bad_records(runs)
        other_forms(runs)
        example(runs, nak_area)
        documented(runs, nak_area)
        bad_words(runs)
        bad_areas(runs)
    print("why: %s, %d runs, %d failed" % (
        "FAILED" if runs.failed else "passed", runs.runs, runs.failed))
    return runs.failed != 0


if __name__ == "__main__":
    sys.exit(main())
