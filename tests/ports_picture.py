#!/usr/bin/env python3
"""Makes docs/PORTS.svg from the chart that the program `port_chart` prints.

ports_picture.py --update     writes the picture, and the chart in docs/PORTS.md
ports_picture.py --check      says what is not up to date, and fails then
ports_picture.py --self-test  plants faults and fails unless each is found

Arrows, labels and notes are read from crates/port_chart/stdout; where boxes
stand and arrows go is in ports_layout.py.  Demanded is that
- each arrow of the chart has its way there, and each way is an arrow's;
- no way crosses a box, no label touches a box, a way or another label;
- docs/PORTS.svg is what is made from all this, byte by byte;
- the block in docs/PORTS.md is the printed chart, each cell that its readings
  name (`Enbl.f, detach: Disc +C`) is so, and each that its table explains is
  in some place.
"""

import os
import re
import sys

sys.dont_write_bytecode = True
import ports_arrows as arrows
import ports_planted as planted
from drawing import Unfit
from port_chart_read import Unread, named_cells, read
from ports_draw import picture

ROOT = os.path.dirname(os.path.dirname(os.path.abspath(__file__)))
CHART = "crates/port_chart/stdout"
PICTURE = "docs/PORTS.svg"
DOCUMENT = "docs/PORTS.md"
UPDATE = "run tests/ports_picture.py --update, and look at the picture"
BLOCK = re.compile(r"^```text\n(.*?)^```$", re.M | re.S)
EXPLAINED = re.compile(r"^\| `([^`]+)` \|", re.M)
READING = re.compile(r"`(\w{4}[^`,]*), ([^`:]+): ([^`]+)`(, with over-current)?")


# What is compared.

def made(text):
    """The picture of a printed chart, or None and why there is none."""
    try:
        return picture(read(text)), None
    except Unread as unread:
        return None, "%s: %s" % (CHART, unread)
    except (arrows.Unclear, Unfit) as unfit:
        return None, str(unfit)


def document_faults(document, text):
    faults = []
    if BLOCK.findall(document) != [text]:
        faults.append("%s: its block of text is not %s; %s" % (DOCUMENT, CHART, UPDATE))
    if "](%s)" % os.path.basename(PICTURE) not in document:
        faults.append("%s does not show %s" % (DOCUMENT, PICTURE))
    return faults + reading_faults(document, text)


def reading_faults(document, text):
    """Of the cells that are named outside of the block."""
    cells = named_cells(text)
    readings = READING.findall(BLOCK.sub("", document))
    faults = [] if readings else ["%s names no cell" % DOCUMENT]
    for label, column, said, over_current in readings:
        cell = cells.get((1 if over_current else 0, label, column))
        if cell != said:
            faults.append("%s: the cell '%s, %s'%s is '%s', not '%s'" % (
                DOCUMENT, label, column, over_current, cell, said))
    return faults + ["%s: no cell is '%s'" % (DOCUMENT, said)
                     for said in EXPLAINED.findall(document) if said not in cells.values()]


def faults_of(texts):
    drawn, why = made(texts[CHART])
    if drawn is None:
        return [why]
    faults = document_faults(texts[DOCUMENT], texts[CHART])
    if drawn != texts[PICTURE]:
        faults.append("%s is not what the chart makes; %s" % (PICTURE, UPDATE))
    return faults


def read_all():
    texts = {}
    for path in (CHART, PICTURE, DOCUMENT):
        full = os.path.join(ROOT, path)
        texts[path] = ""
        if os.path.exists(full):
            with open(full, encoding="utf-8", newline="") as file:
                texts[path] = file.read()
    return texts


def update(texts):
    """Writes what can be made; says what can't."""
    drawn, why = made(texts[CHART])
    if drawn is None:
        return [why]
    block = "```text\n%s```" % texts[CHART]
    texts[DOCUMENT] = BLOCK.sub(lambda _: block, texts[DOCUMENT])
    texts[PICTURE] = drawn
    for path in (PICTURE, DOCUMENT):
        with open(os.path.join(ROOT, path), "w", encoding="utf-8", newline="") as file:
            file.write(texts[path])
    return faults_of(texts)


# The self-test.

def said_under(plant, texts):
    """What is said of the texts, or of a layout, with a fault in them."""
    copy = dict(texts)
    with plant(copy):
        return "\n".join(faults_of(copy))


def drawn_from(cells, chart):
    """What is drawn of some cells, or that it is refused."""
    try:
        machine = arrows.machine(chart._replace(cells=cells))
    except arrows.Unclear:
        return None
    return {arrow: arrows.label(found) for arrow, found in machine.arrows.items()}, machine.stays


def unseen(chart):
    """The changes of one cell that change nothing that is drawn; how many were tried."""
    columns = {}
    for cell in chart.cells:
        columns.setdefault(cell.input, []).append(cell)
    found, tried = [], 0
    for cells in columns.values():
        right = drawn_from(cells, chart)
        for place, cell in enumerate(cells):
            for other in planted.variants(cell, chart.legend):
                tried += 1
                if drawn_from(cells[:place] + [other] + cells[place + 1:], chart) == right:
                    found.append("%s at %s, as %s" % (cell.input, cell.before, other[2:]))
    return found, tried


def self_test(texts):
    """Plants each fault in a copy, and changes each cell; whether all is found."""
    missed = 0
    for name, plant, expected in planted.PLANTS:
        said = said_under(plant, texts)
        if expected not in said:
            missed += 1
            print("ports_picture: planted: %s\n  not found: %s\n  found: %s" % (
                name, expected, said))
    cells, tried = unseen(read(texts[CHART]))
    for cell in cells:
        print("ports_picture: a changed cell is not seen: " + cell)
    print("ports_picture: self-test %s, %d of %d planted faults and %d of %d changes of a cell "
          "found" % ("FAILED" if missed or cells else "passed", len(planted.PLANTS) - missed,
                     len(planted.PLANTS), tried - len(cells), tried))
    return not missed and not cells


def main(arguments):
    texts = read_all()
    if arguments not in (["--update"], ["--check"], ["--self-test"]):
        sys.exit("usage: ports_picture.py --update | --check | --self-test")
    faults = update(texts) if arguments == ["--update"] else faults_of(texts)
    for fault in faults:
        print("ports_picture: " + fault)
    if faults:
        print("ports_picture: FAILED, %d faults" % len(faults))
        return 1
    if arguments == ["--self-test"]:
        return 0 if self_test(texts) else 1
    print("ports_picture: %s" % ("written" if arguments == ["--update"] else "passed"))
    return 0


if __name__ == "__main__":
    sys.exit(main(sys.argv[1:]))
