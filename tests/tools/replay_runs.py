"""Runs of the tool replay and of the model, and how they are compared."""

import os
import subprocess

from replay_lines import lines, tally_table
from replay_reader import read_recording

REFUSALS = [None, "length", "check", "number", "count", "record"]


class Model:
    """The model's program: answers and tally of a recording."""

    def __init__(self, program, directory):
        self.program = program
        self.path = os.path.join(directory, "model.rec")

    def replay(self, recording, hub):
        """Answers, and blocks, word, stored, answered, emptied, active."""
        with open(self.path, "wb") as file:
            file.write(recording)
        words = ["--replay", self.path] + [str(number) for number in hub]
        run = subprocess.run([self.program] + words, check=True,
                             stdout=subprocess.PIPE, stderr=subprocess.PIPE)
        numbers = [int(word) for word in run.stderr.split()]
        numbers[1] = REFUSALS[numbers[1]]
        return run.stdout, tuple(numbers)


class Runs:
    """Runs of the tool in a directory of its own."""

    def __init__(self, command, model, directory):
        self.command = command
        self.model = model
        self.directory = directory
        self.runs = 0
        self.failed = 0

    def fail(self, text):
        self.failed += 1
        print(text + "\n")

    def write(self, name, content):
        with open(os.path.join(self.directory, name), "wb") as file:
            file.write(content)

    def run(self, words, given=b"", fed=None, to=subprocess.PIPE,
            said=subprocess.PIPE):
        """Standard input: bytes, or a file; `to` and `said`: its output."""
        source = {"input": given} if fed is None else {"stdin": fed}
        run = subprocess.run(self.command + words, cwd=self.directory,
                             stdout=to, stderr=said, check=False, **source)
        self.runs += 1
        return (run.returncode, run.stdout or b"",
                (run.stderr or b"").decode())

    def compare(self, words, status, out, err, **how):
        """`out` is text or, for --raw, bytes."""
        got = self.run(words, **how)
        if isinstance(out, str):
            out = out.encode()
        if got != (status, out, err):
            self.fail("replay %s\nexpected %d\n%s\n%s\ngot %d\n%s\n%s" % (
                " ".join(words), status, shown(out, got[1]), err, got[0],
                shown(got[1], out), got[2]))

    def expected(self, recording, hub):
        """Status, answers, lines, tally, complaint without the file's name.

        The calls and the refusal come from the reader, the answers and the
        tally from the model; both must agree on the rest.
        """
        blocks, refused = read_recording(recording)
        answers, (count, word, *tally) = self.model.replay(recording, hub)
        if (count, word) != (len(blocks), refused and refused.word):
            self.fail("the reader reads %d blocks, %s, the model %d, %s" % (
                len(blocks), refused, count, word))
        if tally[0] != sum(tally[1:]):
            self.fail("the model's tally is %s" % tally)
        complaint = "" if refused is None else "block %d is refused, %s\n" % (
            len(blocks) + 1, refused)
        return (0 if refused is None else 1, answers, lines(blocks, answers),
                tally_table(count, *tally), complaint)

    def replay(self, recording, hub, text=True):
        """A recording on standard input: raw and, if asked, as text."""
        status, answers, said, tally, complaint = self.expected(recording, hub)
        numbers = [str(number) for number in hub]
        if complaint:
            complaint = "replay: standard input: " + complaint
        self.compare(["--raw"] + numbers, status, answers, tally + complaint,
                     given=recording)
        if text:
            self.compare(numbers, status, said + tally, complaint,
                         given=recording)


def shown(one, other):
    """What is printed of one output: from its first line that differs."""
    if len(one) < 2000:
        return one
    same = os.path.commonprefix([one, other])
    start = same.rfind(b"\n") + 1
    return b"at byte %d: .." % start + one[start:start + 400]
