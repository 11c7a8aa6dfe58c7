#!/usr/bin/env python3
"""Compares the constants of the headers with the numbers of the specs.

constants.py              says what differs, and fails then
constants.py --self-test  plants faults and fails unless each is found

Demanded is that
- every `#define` of include/*.h with a number is compared with a number of
  crates/*/specs, or stands in UNCOMPARED with the reason;
- where the specs have a table (a definition by cases, a list of bits), each
  row has its constants, or a number that is named in the table here;
- the version's numbers and its text agree.

A number is found by the text of its definition, comments left out.  What is
compared, and where each definition is, stands in constants_table.py.  A text
that is not found exactly once is a fault.
"""

import os
import re
import sys

sys.dont_write_bytecode = True
from constants_read import (PREFIX, Project, cases_in, definition_of, list_in,
                            read_texts)
from constants_table import COMPARED, UNCOMPARED, Bits, Cases

ROOT = os.path.join(os.path.dirname(os.path.abspath(__file__)), "..")


def faults_of(texts):
    return Project(texts).check()


# The self-test.

def put(texts, path, start, end, new):
    """A copy of the texts with `new` in one place."""
    copy = dict(texts)
    copy[path] = copy[path][:start] + new + copy[path][end:]
    return copy


def header_plants(texts):
    """Each constant one too large, lost, or no number; one too many."""
    for name, defined in Project(texts).constants.items():
        version = name.startswith("VERSION")
        told = PREFIX + ("VERSION_NUMBER" if version else name)

        def with_text(text, of=defined):
            return put(texts, of.file, of.start, of.end, text)

        if defined.is_text():
            if version:
                yield ("another text of the version", with_text('"9.9.9"'),
                       PREFIX + name)
            continue
        if version or name not in UNCOMPARED:
            yield name + " one too large", with_text("1 + " + defined.text), \
                told
        yield name + " lost", with_text('"lost"'), told
        yield name + " no number", with_text("sizeof(int)"), told
    path = defined.file
    for name, line, expected in (
            ("a constant too many", "SPARE 7", "SPARE is neither compared"),
            ("a constant with an argument", "SPARE(port) (4 * (port))",
             "SPARE(port) can't be compared"),
            ("a constant twice", "PORTS_MIN 1", "PORTS_MIN is defined twice")):
        yield name, dict(texts, **{
            path: texts[path] + "\n#define " + PREFIX + line + "\n"}), \
            PREFIX + expected


def specs_plants(texts):
    """Each number that is compared, changed."""
    places = {}
    for comparison in Project(texts).comparisons:
        key = comparison.place.file(), comparison.start, comparison.end
        places[key] = comparison
    for (path, start, end), comparison in places.items():
        yield ("'%s' in %s, byte %d" % (comparison.wrong, comparison.place,
                                        start),
               put(texts, path, start, end, comparison.wrong),
               str(comparison.place))


def table_plants(texts):
    """Each definition lost, or there twice; each table with a row too many,
    and with one too few."""
    for place in sorted({way.place for way in COMPARED}):
        _, start, end = definition_of(texts, place)
        text = texts[place.file()][start:end]
        for name, new in (("lost", ""), ("twice", text + text)):
            yield ("%s %s" % (place, name), put(
                texts, place.file(), start, end, new), str(place))
    for way in COMPARED:
        rows = {Cases: case_plants, Bits: bit_plants}.get(type(way))
        for start, end, new, expected in rows(texts, way) if rows else ():
            expected = "%s has %s" % (way.place, expected)
            yield (expected, put(texts, way.place.file(), start, end, new),
                   expected)


def case_plants(texts, cases):
    found = cases_in(texts, cases)
    name, said = list(found.items())[-1]
    for spare in ["Spare"] + ["Err Spare", "Ok Spare"] * ("Ok" in found):
        pattern = "(%s)" % spare if " " in spare else spare
        clause = " ".join([cases.place.definition, *cases.before.split(),
                           pattern, "=", said.text])
        yield said.end, said.end, "\n" + clause, "the case " + spare
    for name, said in found.items():
        line = texts[cases.place.file()].rindex("\n", 0, said.start)
        yield line, said.end, "", "no case " + name


def bit_plants(texts, bits):
    first = list_in(texts, bits.place)[0]
    yield first.start, first.start, "spare ∷ ", "the bit spare"
    yield first.start, first.end, "false", "no bit " + first.text


def self_test(texts):
    """How many plants there are, and how many are not found."""
    plants, missed = 0, 0
    for source in (header_plants, specs_plants, table_plants):
        for name, planted, expected in source(texts):
            plants += 1
            found = faults_of(planted)
            told = re.compile(re.escape(expected) + r"(?!\w)")
            if not any(told.search(fault) for fault in found):
                missed += 1
                print("constants: planted: %s\n  not found: %s" % (name,
                                                                   expected))
                for fault in found:
                    print("  found: " + fault)
    return plants, missed


def main():
    if sys.argv[1:] not in ([], ["--self-test"]):
        sys.exit("usage: constants.py [--self-test]")
    texts = read_texts(ROOT)
    faults = faults_of(texts)
    for fault in faults:
        print("constants: " + fault)
    if faults:
        print("constants: FAILED, %d faults" % len(faults))
        return 1
    if sys.argv[1:]:
        plants, missed = self_test(texts)
        print("constants: self-test %s, %d of %d planted faults found" % (
            "FAILED" if missed else "passed", plants - missed, plants))
        return missed != 0
    project = Project(texts)
    print("constants: passed, %d constants, %d comparisons, %d listed" % (
        len(project.numbers), len(project.comparisons), len(UNCOMPARED)))
    return 0


if __name__ == "__main__":
    sys.exit(main())
