#!/usr/bin/env python3
"""Compares docs/READING.md with the specifications.

reading.py              says what is wrong, and fails then
reading.py --update     writes the numbers of lines anew
reading.py --self-test  plants faults and fails unless each is found

Demanded is that
- each file of crates/*/specs, Lib.antt apart, is in exactly one table, and
  every row names such a file;
- its numbers of lines are right, and so are the sums in the first table;
- a file in the table of internals says so in its first line, with the claim
  that pins it, and no other file does;
- no file that must be believed imports one that is evidence or is shown
  beside the demands;
- the rules, validity, the area and the demands have at most AIM lines of
  logic.

A line of logic is one that is neither blank nor a comment, an import or the
type of a definition that equations follow.
"""

import os
import re
import sys

ROOT = os.path.join(os.path.dirname(os.path.abspath(__file__)), "..")
READING = "docs/READING.md"
AIM = 1300

# The sections: what is said of the files in their tables.
BELIEVED = ["1. The rules", "2. Validity and the area", "3. The demands"]
REQUESTS = "4. The requests of document 02"
EVIDENCE = "Evidence"
BESIDE = "Shown beside the demands"
INTERNAL = "Internal"
SECTIONS = BELIEVED + [REQUESTS, EVIDENCE, BESIDE, INTERNAL]

ROW = re.compile(r"\| `(\w+)/specs/(\w+)` \| ([\d,]+) \| ([\d,]+) \|")
SUM = re.compile(r"\| ([^|]+) \| ([\d,]+) \| ([\d,]+) \| ([\d,]+) \|$")
MARK = "-- Internal, pinned by "
SKIPPED = re.compile(r"\s*($|--|(ghost )?use |pub mod )")
TYPE = re.compile(r"(?:abbrev|unfoldable)(?: pub)? \S+ :")
IMPORT = re.compile(r"^use Rattle\.(\w+)\.specs\.(\w+)", re.M)


def read_texts(root):
    """docs/READING.md and the specifications, by their paths."""
    paths = [READING]
    for crate in sorted(os.listdir(os.path.join(root, "crates"))):
        folder = "crates/%s/specs" % crate
        if os.path.isdir(os.path.join(root, folder)):
            paths += ["%s/%s" % (folder, name) for name
                      in sorted(os.listdir(os.path.join(root, folder)))
                      if name.endswith(".antt") and name != "Lib.antt"]
    texts = {}
    for path in paths:
        with open(os.path.join(root, path), encoding="utf-8") as file:
            texts[path] = file.read()
    return texts


def path_of(crate, name):
    return "crates/%s/specs/%s.antt" % (crate, name)


def logic_lines(text):
    """How many lines of logic a specification has."""
    count = 0
    in_type = False
    for line in text.splitlines():
        if SKIPPED.match(line):
            in_type = False
        elif TYPE.match(line):
            in_type = True
        elif in_type and line.startswith("    ") and line.lstrip()[0] == "→":
            pass
        else:
            in_type = False
            count += 1
    return count


def written(number):
    return format(number, ",")


def rows_of(text):
    """The rows of the tables: section, path, its numbers, line of the page."""
    section = None
    for at, line in enumerate(text.splitlines(), 1):
        if line.startswith("## "):
            section = line[3:].strip()
        found = ROW.match(line)
        if found:
            crate, name, lines, logic = found.groups()
            yield section, path_of(crate, name), (lines, logic), at


def numbers_of(text):
    return written(len(text.splitlines())), written(logic_lines(text))


def sums_of(texts, rows):
    """For each section: files, lines, lines of logic."""
    sums = {}
    for section in SECTIONS:
        inside = [texts[path] for where, path, _, _ in rows
                  if where == section and path in texts]
        sums[section] = (len(inside),
                         sum(len(text.splitlines()) for text in inside),
                         sum(map(logic_lines, inside)))
    first = [sums[section] for section in BELIEVED]
    sums["1 to 3"] = tuple(sum(column) for column in zip(*first))
    return sums


def faults_in(texts):
    page = texts[READING]
    rows = list(rows_of(page))
    listed = [path for _, path, _, _ in rows]
    specs = [path for path in texts if path != READING]
    for path in specs:
        if listed.count(path) != 1:
            yield "%s is in %d tables" % (path, listed.count(path))
    for section, path, numbers, at in rows:
        if section not in SECTIONS:
            yield "line %d: a table in the section '%s'" % (at, section)
        if path not in texts:
            yield "line %d: there is no %s" % (at, path)
        elif numbers != numbers_of(texts[path]):
            yield "line %d: %s has %s lines, %s of logic" % (
                (at, path) + numbers_of(texts[path]))
    yield from sum_faults(page, sums_of(texts, rows))
    yield from mark_faults(texts, rows)
    yield from import_faults(texts, rows)


def sum_faults(page, sums):
    found = {}
    for line in page.splitlines():
        row = SUM.match(line)
        if row:
            found[row.group(1).strip("* ")] = row.groups()[1:]
    for section, numbers in sums.items():
        if found.get(section) != tuple(map(written, numbers)):
            yield "the first table has to say of '%s': %s files, %s lines, " \
                  "%s of logic" % ((section,) + tuple(map(written, numbers)))
    if sums["1 to 3"][2] > AIM:
        yield "%d lines of logic to believe, the aim is %d" % (
            sums["1 to 3"][2], AIM)


def mark_faults(texts, rows):
    for section, path, _, at in rows:
        if path not in texts:
            continue
        marked = texts[path].startswith(MARK)
        if marked != (section == INTERNAL):
            yield "%s: its first line %s '%s'" % (
                path, "starts with" if marked else "does not start with",
                MARK.strip())


def import_faults(texts, rows):
    where = {path: section for section, path, _, _ in rows}
    for path, section in where.items():
        if path not in texts or section not in BELIEVED + [REQUESTS]:
            continue
        for crate, name in IMPORT.findall(texts[path]):
            other = where.get(path_of(crate, name))
            if other in (EVIDENCE, BESIDE) or (other == REQUESTS
                                               and section in BELIEVED):
                yield "%s, to be believed, imports %s/specs/%s" % (
                    path, crate, name)


def updated(texts):
    """The page with the numbers of the files and the sums anew."""
    page = texts[READING].splitlines()
    rows = list(rows_of(texts[READING]))
    for _, path, _, at in rows:
        if path in texts:
            page[at - 1] = ROW.sub(
                lambda found: "| `%s/specs/%s` | %s | %s |" % (
                    found.group(1), found.group(2),
                    *numbers_of(texts[path])), page[at - 1])
    sums = sums_of(texts, rows)
    for at, line in enumerate(page):
        row = SUM.match(line)
        if row and row.group(1).strip("* ") in sums:
            page[at] = "| %s | %s | %s | %s |" % (
                (row.group(1),) + tuple(
                    map(written, sums[row.group(1).strip("* ")])))
    return "\n".join(page) + "\n"


# Planted faults: what is changed, and a part of the message.

def replaced(path, old, new):
    def plant(texts):
        assert old in texts[path], (path, old)
        texts[path] = texts[path].replace(old, new, 1)
    return plant


def without_row(texts):
    lines = texts[READING].splitlines()
    at = [row[3] for row in rows_of(texts[READING])][0]
    texts[READING] = "\n".join(lines[:at - 1] + lines[at:])


def doubled_row(texts):
    lines = texts[READING].splitlines()
    at = [row[3] for row in rows_of(texts[READING])][0]
    texts[READING] = "\n".join(lines[:at] + lines[at - 1:])


def long_rule(texts):
    texts[path_of("hub", "Step")] += "\nx = y" * AIM


PLANTS = [
    (without_row, "is in 0 tables"),
    (doubled_row, "is in 2 tables"),
    (replaced(READING, "`hub/specs/Step`", "`hub/specs/Stop`"),
     "there is no crates/hub/specs/Stop.antt"),
    (replaced(path_of("hub", "Step"), "served h Tick", "\nserved h Tick"),
     "crates/hub/specs/Step.antt has"),
    (replaced(path_of("port", "Tick"), "\nuse ", "\nx = y\nuse "),
     "the first table has to say of '1. The rules'"),
    (replaced(path_of("area", "Read"), MARK, "-- "),
     "does not start with"),
    (replaced(path_of("hub", "Step"), "-- ", MARK + "-- "),
     "starts with"),
    (replaced(path_of("hub", "Step"), "\nuse ",
              "\nuse Rattle.hub.specs.Cases.{p1}\nuse "),
     "imports hub/specs/Cases"),
    (replaced(READING, "## " + EVIDENCE, "## Proof"),
     "a table in the section 'Proof'"),
    (long_rule, "the aim is"),
]


def self_test():
    missed = 0
    texts = read_texts(ROOT)
    for plant, part in PLANTS:
        changed = dict(texts)
        plant(changed)
        if not any(part in fault for fault in faults_in(changed)):
            print("reading: not found: " + part)
            missed += 1
    print("reading: %d planted faults, %d not found" % (len(PLANTS), missed))
    return missed


def main(arguments):
    if arguments == ["--self-test"]:
        return self_test() != 0
    if arguments == ["--update"]:
        text = updated(read_texts(ROOT))
        with open(os.path.join(ROOT, READING), "w", encoding="utf-8") as file:
            file.write(text)
        arguments = []
    if arguments:
        print(__doc__)
        return 2
    texts = read_texts(ROOT)
    faults = list(faults_in(texts))
    for fault in faults:
        print("reading: " + fault)
    if not faults:
        print("reading: passed, %d files of specifications"
              % (len(texts) - 1))
    return len(faults) != 0


if __name__ == "__main__":
    sys.exit(main(sys.argv[1:]))
