#!/usr/bin/env python3
"""Runs the tool replay and compares all that it prints with what is expected.

test_replay.py RECORDING ANSWERS MODEL COMMAND..

RECORDING and ANSWERS are the example's; MODEL is the model's program; COMMAND
starts the tool.  Calls and refusals come from a reader of docs/CALLS.md,
answers and tallies from the model.  The examples of docs/REPLAY.md and
docs/CALLS.md are run too.
"""

import os
import re
import select
import subprocess
import sys
import tempfile
import tty

from call_records import record_of  # puts the writer's folder on the path
from blocks import block, checked, recording_of
from hub_calls import Calls
from replay_lines import split_answers, tally_table
from replay_refused import (BAD_HUBS, BAD_LINES, FIRST, FULL_BLOCKS, GOOD_HUBS,
                            HUB, NUMBERS, SECOND, SECOND_BLOCKS, SHORT, THIRD)
from replay_runs import Model, Runs
import session

HERE = os.path.dirname(os.path.abspath(__file__))
EMPTY_TALLY = tally_table(0, 0, 0, 0, 0)
HELP = """\
replay [OPTIONS] [FILE] PORTS BUFFERS POWER_GOOD CURRENT REMOVABLE
  Makes the calls recorded in FILE (none or -: standard input)
  on a new hub with these numbers.  Prints each call with its
  answer, then a tally of the start-splits.  Options come
  first.

  --raw       the bytes of the answers and nothing else; the
              tally goes to standard error
  --progress  a line on standard error every 1000 blocks
  --help      this text

Numbers, decimal or 0x and hex digits:
  PORTS       1 to 7
  BUFFERS     2 to 4
  POWER_GOOD  0 to 255
  CURRENT     0 to 255
  REMOVABLE   bit p for port p; bit 0 and the bits above PORTS have to be 0

Exit status: 0 replayed, 1 a block is refused, or a file is not
read or written, 2 bad words or numbers.
"""

# The answers that include/grimholdi.h has for each call, but for those that
# only a bad area gets.
PERMITTED = {
    "control": "OUTSIDE NO_SPACE STALL DATA DONE",
    "poll": "OUTSIDE NO_SPACE SILENT NAK DATA",
    "start-split": "OUTSIDE SILENT DONE NAK",
    "complete-split": "OUTSIDE NO_SPACE SILENT STALL NYET DATA HANDSHAKE",
    "launch": "NO_SPACE SILENT NOT_NOW NAK DATA",
    "deliver": "OUTSIDE SILENT NOT_NOW DONE",
    "line-event": "OUTSIDE NOT_NOW DONE",
    "tick": "DONE",
    "bus-reset": "DONE",
}


def read(*path):
    with open(os.path.join(HERE, "../..", *path), "rb") as file:
        return file.read()


def is_real_session(runs, lines):
    """The session is large, and every call gets every answer."""
    calls = re.findall(r"^(\d+)\.\d+ ([a-z-]+).*: ([A-Z_]+)", lines, re.M)
    got = {kind: set() for kind in PERMITTED}
    for _, kind, answer in calls:
        got[kind].add(answer)
    if got != {kind: set(text.split()) for kind, text in PERMITTED.items()}:
        runs.fail("the session's answers are %s" % got)
    if len(calls) < 2000 or int(calls[-1][0]) < 60:
        runs.fail("the session has %d calls" % len(calls))


def words_are_calls(runs, recording, lines):
    """The words of each line name the call of its record."""
    records = b""
    for line in lines.splitlines():
        words = re.match(r"[\d.]+ ([^(:]*)", line).group(1)
        room = re.search(r"(\w+) reply space\)|of (\d+) bytes?\):", line)
        length = 64 if room is None else int(room.group(2) or 0)
        records += record_of(words.replace("''", "").split(), length)
    used = b"".join(recording[at + 4:at + 4 + recording[at + 2]
                              + 256 * recording[at + 3]]
                    for at in range(0, len(recording), 512))
    if records != used:
        runs.fail("the words of the session are other calls")


def whole_session(runs):
    recording = session.session()
    if recording != read("tests/recordings/session.rec"):
        runs.fail("session.py writes another session.rec")
    _, _, lines, _, _ = runs.expected(recording, session.HUB)
    is_real_session(runs, lines)
    words_are_calls(runs, recording, lines)
    runs.replay(recording, session.HUB)
    # Other hubs answer otherwise.
    runs.replay(recording, (1, 2, 0, 0, 0))
    runs.replay(recording, (7, 4, 255, 255, 254))
    # From a file, and by its other names.
    _, answers, lines, tally, _ = runs.expected(recording, session.HUB)
    numbers = "5 3 0x32 100 0x2E".split()
    runs.write("session.rec", recording)
    runs.compare(["session.rec"] + numbers, 0, lines + tally, "")
    runs.compare(["--raw", "session.rec"] + numbers, 0, answers, tally)
    runs.compare(["-"] + numbers, 0, lines + tally, "", given=recording)


def own_recording(runs, recording, answers):
    """The example's recording gives the answers that the example got."""
    if len(list(split_answers(answers))) < 100:
        runs.fail("the example has few answers")
    _, expected, _, tally, _ = runs.expected(recording, HUB)
    if expected != answers:
        runs.fail("the model answers the example otherwise")
    runs.compare(["--raw"] + NUMBERS, 0, answers, tally, given=recording)
    runs.replay(recording, HUB)


def changed_bytes(runs):
    """Each byte of the second block in turn, then with the check right."""
    for place in range(512):
        for change in (1 << place % 8, 0xFF):
            damaged = bytearray(SECOND)
            damaged[place] ^= change
            runs.replay(FIRST + damaged + THIRD, HUB, text=False)
            runs.replay(FIRST + checked(bytes(damaged)) + THIRD, HUB,
                        text=place % 8 == 0)


def refused_blocks(runs):
    status, answers, lines, tally, complaint = runs.expected(FIRST, HUB)
    if (status, complaint) != (0, ""):
        runs.fail("the first block is refused")
    for second, said in SECOND_BLOCKS:
        recording = FIRST + second
        runs.replay(recording + (THIRD if len(second) == 512 else b""), HUB)
        if said is None:
            continue
        said = ": block 2 is refused, " + said + "\n"
        runs.write("bad.rec", recording)
        runs.compare(["bad.rec"] + NUMBERS, 1, lines + tally,
                     "replay: bad.rec" + said)
        runs.compare(["--raw", "bad.rec"] + NUMBERS, 1, answers,
                     tally + "replay: bad.rec" + said)
    for first in FULL_BLOCKS:
        runs.replay(first, HUB)
    runs.replay(THIRD, HUB)


def cut_files(runs):
    for length in sorted(set(range(0, len(SHORT) + 1, 61))
                         | {1, 2, 511, 512, 513, 1023, 1024, 1025, 1535}):
        runs.replay(SHORT[:length], HUB)


def most_blocks(runs):
    """65,535 blocks, and a further one."""
    of = Calls()
    of.configure(0, 1)
    of.start(0, 9, 5, 1)
    of.launch()
    of.deliver(3, b"\x11\x22\x33")
    of.complete(0, 5, 1, 1)
    used = b"".join(of.records)
    most = b"".join(block(place, used) for place in range(1, 65536))
    answers, (count, word, *tally) = runs.model.replay(most, HUB)
    if (count, word, tally) != (65535, None, [65535, 65535, 0, 0]):
        runs.fail("the model replays %d blocks, %s %s" % (count, word, tally))
    table = tally_table(65535, *tally)
    progress = "".join("%d000 blocks\n" % n for n in range(1, 66))
    runs.compare(["--raw", "--progress"] + NUMBERS, 0, answers,
                 progress + table, given=most)
    said = "replay: standard input: block 65536 is refused, "
    too_far = "; no number is right for a place above 65535"
    for further, fault in [
            (block(0, used), "number: it is 0" + too_far),
            (block(1, used), "number: it is 1" + too_far),
            (block(65535, b"\0"), "number: it is 65535" + too_far),
            (b"\x01" + bytes(511),
             "check: the sum of its words is 0x0001; 0 is right"),
            (bytes(9), "length: it has 9 bytes; a block has 512")]:
        runs.compare(["--raw"] + NUMBERS, 1, answers,
                     table + said + fault + "\n", given=most + further)


def most_lines(runs):
    """65,535 lines; the progress begins with block 1000."""
    ticks = b"".join(block(place, b"\x08") for place in range(1, 65536))
    lines = "".join("%d.1 tick: DONE\n" % place for place in range(1, 65536))
    runs.compare(NUMBERS, 0, lines + tally_table(65535, 0, 0, 0, 0), "",
                 given=ticks)
    for count, said in ((999, ""), (1000, "1000 blocks\n"),
                        (1001, "1000 blocks\n")):
        runs.compare(["--progress"] + NUMBERS, 0,
                     "".join(lines.splitlines(True)[:count])
                     + tally_table(count, 0, 0, 0, 0), said,
                     given=ticks[:512 * count])


def words(runs):
    runs.write("file.rec", SHORT)
    for line, fault in BAD_LINES:
        runs.compare(line, 2, "", "replay: " + fault + "\n", given=SHORT)
    for numbers, fault in BAD_HUBS:
        for line in (numbers.split(), ["--raw", "file.rec"] + numbers.split(),
                     ["no.rec"] + numbers.split()):
            runs.compare(line, 2, "", "replay: OUTSIDE (6): " + fault + "\n",
                         given=SHORT)
    for numbers in GOOD_HUBS:
        hub = [int(word, 0) for word in numbers.split()]
        _, _, lines, tally, _ = runs.expected(SHORT, hub)
        runs.compare(numbers.split(), 0, lines + tally, "", given=SHORT)
    runs.compare(["--help"], 0, HELP, "")
    runs.compare(["--raw", "--help", "4"], 0, HELP, "")


def files(runs):
    runs.compare(NUMBERS, 0, EMPTY_TALLY, "", given=b"")
    runs.compare(["--raw"] + NUMBERS, 0, b"", EMPTY_TALLY, given=b"")
    runs.write("empty.rec", b"")
    runs.compare(["empty.rec"] + NUMBERS, 0, EMPTY_TALLY, "")
    runs.compare(["no.rec"] + NUMBERS, 1, "",
                 "replay: no.rec: No such file or directory\n")
    runs.compare(["file.rec/x"] + NUMBERS, 1, "",
                 "replay: file.rec/x: Not a directory\n")


def hung_up(sent):
    """A line whose other end sent these bytes and hung up."""
    line, other = os.openpty()
    tty.setraw(other)
    os.write(other, sent)
    os.close(other)
    return open(line, "rb", buffering=0)


def unreadable(runs):
    """Opened, and can't be read: at once, or behind some blocks."""
    for name, fault in ((".", "Is a directory"),
                        ("/proc/self/mem", "Input/output error")):
        said = "replay: %s: block 1 can't be read: %s\n" % (name, fault)
        runs.compare([name] + NUMBERS, 1, EMPTY_TALLY, said)
        runs.compare(["--raw", name] + NUMBERS, 1, "", EMPTY_TALLY + said)
    _, answers, lines, tally, _ = runs.expected(FIRST + SECOND, HUB)
    said = "replay: standard input: block 3 can't be read: " \
        "Input/output error\n"
    for more in (b"", THIRD[:100]):
        with hung_up(FIRST + SECOND + more) as line:
            runs.compare(NUMBERS, 1, lines + tally, said, fed=line)
        with hung_up(FIRST + SECOND + more) as line:
            runs.compare(["--raw"] + NUMBERS, 1, answers, tally + said,
                         fed=line)


def read_soon(pipe, length):
    """As many bytes, or those that come before a pause of ten seconds."""
    got = b""
    while len(got) < length and select.select([pipe], [], [], 10)[0]:
        more = os.read(pipe.fileno(), length - len(got))
        if not more:
            break
        got += more
    return got


def block_by_block(runs):
    """From a pipe, the lines of a block come before the next one is sent."""
    with subprocess.Popen(runs.command + NUMBERS, stdin=subprocess.PIPE,
                          stdout=subprocess.PIPE) as run:
        sent = b""
        for next_block in (FIRST, SECOND, THIRD):
            _, _, before, _, _ = runs.expected(sent, HUB)
            sent += next_block
            _, _, lines, tally, _ = runs.expected(sent, HUB)
            due = lines[len(before):].encode()
            run.stdin.write(next_block)
            run.stdin.flush()
            if read_soon(run.stdout, len(due)) != due:
                runs.fail("the lines of block %d wait" % (len(sent) // 512))
        rest, _ = run.communicate()
    runs.runs += 1
    if (run.returncode, rest) != (0, tally.encode()):
        runs.fail("block by block: %d, %s" % (run.returncode, rest))


def unwritten(runs):
    full = "replay: standard output: No space left on device\n"
    _, answers, lines, tally, _ = runs.expected(SHORT, HUB)
    many = b"".join(block(place, b"\x08" * 506) for place in range(1, 400))
    with open("/dev/full", "wb") as file:
        runs.compare(["--help"], 1, "", full, to=file)
        runs.compare(NUMBERS, 1, "", full, given=SHORT, to=file)
        runs.compare(NUMBERS, 1, "", full, given=many, to=file)
        runs.compare(["--raw"] + NUMBERS, 1, "", full, given=many, to=file)
        # The tally doesn't say that nothing was written.
        runs.compare(["--raw"] + NUMBERS, 1, "", full, given=SHORT, to=file)
        # Nobody sees the tally, or the lines of --progress.
        runs.compare(["--raw"] + NUMBERS, 1, answers, "", given=SHORT,
                     said=file)
        runs.compare(NUMBERS, 0, lines + tally, "", given=SHORT, said=file)
        ticks = b"".join(block(place, b"\x08") for place in range(1, 1001))
        _, _, lines, tally, _ = runs.expected(ticks, HUB)
        runs.compare(["--progress"] + NUMBERS, 1, lines + tally, "",
                     given=ticks, said=file)


def documented_bytes(runs, text):
    """The records and the block that docs/CALLS.md shows in hex."""
    shown = [bytes.fromhex(line) for line in
             re.findall(r"^    ((?:[0-9A-F]{2} +)+[0-9A-F]{2})$", text, re.M)]
    if shown != [record_of("start-split 1 IN bulk full 0 5 1".split()),
                 record_of("control 0 0009010000000000".split())]:
        runs.fail("docs/CALLS.md shows other records")
    found = re.search(r"^    ([0-9A-F ]+) \.\. 00  F6 FF$", text, re.M)
    first = bytes.fromhex(found.group(1))
    if first.ljust(510, b"\0") + b"\xF6\xFF" != block(1, b"\x08"):
        runs.fail("docs/CALLS.md shows another block")


def documented_lines(runs, text):
    """The lines of docs/CALLS.md are what their calls give."""
    lines = re.findall(r"^    (\d+\.\d+ .*\n)", text, re.M)
    if len(lines) != 5:
        runs.fail("docs/CALLS.md has %d lines" % len(lines))
    records = []
    for line in lines:
        words = re.match(r"[\d.]+ ([^(:]*)", line).group(1).split()
        room = re.search(r"reply space of (\d+) bytes", line)
        records.append(record_of(words, int(room.group(1)) if room else 64))
    runs.compare(NUMBERS, 0, "".join(lines) + tally_table(1, 1, 0, 0, 1), "",
                 given=recording_of(records))


def documented_runs(runs, recording, text):
    """Each example of docs/REPLAY.md, as a shell runs it."""
    examples = re.findall(r"```\n\$ (.*)\n((?:.+\n)+?)```\n", text)
    if len(examples) != 3:
        runs.fail("docs/REPLAY.md has %d examples" % len(examples))
    runs.write("session.rec", recording)
    tool = "replay() { %s \"$@\"; }; " % " ".join(runs.command)
    for line, out in examples:
        run = subprocess.run(["sh", "-c", tool + line], check=False,
                             cwd=runs.directory, stdout=subprocess.PIPE,
                             stderr=subprocess.STDOUT)
        runs.runs += 1
        if run.stdout.decode() != out:
            runs.fail("$ %s\nexpected\n%s\ngot\n%s" % (
                line, out, run.stdout.decode()))


def documented(runs, recording):
    calls = read("docs/CALLS.md").decode()
    documented_bytes(runs, calls)
    documented_lines(runs, calls)
    documented_runs(runs, recording, read("docs/REPLAY.md").decode())


def main():
    if len(sys.argv) < 5:
        sys.exit(__doc__)
    example = []
    for path in sys.argv[1:3]:
        with open(path, "rb") as file:
            example.append(file.read())
    command = sys.argv[4:]
    command[-1] = os.path.abspath(command[-1])
    with tempfile.TemporaryDirectory() as directory:
        model = Model(os.path.abspath(sys.argv[3]), directory)
        runs = Runs(command, model, directory)
        words(runs)
        files(runs)
        unreadable(runs)
        block_by_block(runs)
        unwritten(runs)
        whole_session(runs)
        own_recording(runs, *example)
        refused_blocks(runs)
        cut_files(runs)
        changed_bytes(runs)
        most_blocks(runs)
        most_lines(runs)
        documented(runs, example[0])
    print("replay: %s, %d runs, %d failed" % (
        "FAILED" if runs.failed else "passed", runs.runs, runs.failed))
    return runs.failed != 0


if __name__ == "__main__":
    sys.exit(main())
