#!/usr/bin/env python3
"""Makes docs/ARCHITECTURE.svg from crates.txt, src/ and a table of texts.

architecture.py              writes the picture
architecture.py --check      says what is not up to date, and fails then
architecture.py --self-test  plants faults and fails unless each is found

The table (architecture_table.py) has the place and the words of each crate.
Demanded is that
- it names exactly the crates of crates.txt, each above those it builds on;
- each function that a step of a call names is in that crate's src/;
- every text fits its box, and no arrow crosses a box;
- the table of docs/ARCHITECTURE.md has the crates in the same order;
- what it and docs/CHANGING.md name in backticks as a path or as a function
  of a crate (`crate::name`) is there;
- docs/ARCHITECTURE.svg is what is made from all this, byte by byte.

A solid arrow goes from a crate to one whose code it calls (`name::` in src/),
a dashed one to one that crates.txt has for its definitions and proofs alone.
Both are left out where a way over other crates says the same.  What a crate
is comes from src/, too: a program has a main.rt, claims have no code.
"""

import os
import re
import sys

sys.dont_write_bytecode = True
import architecture_table as table
from architecture_planted import PLANTS
from architecture_routes import (Arrow, BETWEEN_TRACKS, Box, CHANNEL_EDGE,
                                 Grid, height)
from drawing import (AMBER_BOX, BANDS, BLUE, BLUE_BOX, FAINT, GREEN, GREY_BOX,
                     GREEN_BOX, PURPLE, PURPLE_BOX, Drawing, Unfit, width_of)
from pins import ROOT, crates_of, functions_of, in_folder, read_texts

PICTURE = "docs/ARCHITECTURE.svg"
DOCUMENT = "docs/ARCHITECTURE.md"
CHANGING = "docs/CHANGING.md"
TABLE = "tests/architecture_table.py"
ROW = re.compile(r"\| `(\w+)` \|")
PATH = re.compile(r"`((?:crates|docs|examples|include|tests|tools)/[^` ]*)`")
NAMED = re.compile(r"`([a-z]\w*)::(\w+)`")

# Pixels.
WIDTH = 1000
LEFT, COLUMN, GAP = 106, 149, 34
TOP = 84
BOX = 50
MARGIN = 14
NAME, TEXT = 13, 11
STEP, C_STEP, BETWEEN_STEPS = 40, 26, 12

FILLS = {"ships": BLUE_BOX, "beside": GREY_BOX, "claims": PURPLE_BOX,
         "program": AMBER_BOX, "c": GREEN_BOX}
LINES = {"calls": BLUE, "cites": PURPLE, "c": GREEN}
SAID = (
    ("ships", "code that ships"),
    ("beside", "not called by C"),
    ("claims", "claims, no code"),
    ("program", "program in the gate"),
    ("c", "C"),
)


class Picture(Drawing):
    """Of the crates."""

    def __init__(self):
        super().__init__(
            "The crates of Grimholdi, and two of its calls", TABLE)

    def arrow(self, points, kind):
        self.way(points, LINES[kind], kind == "cites")


# What is drawn.

def parts():
    return [part for layer in table.LAYERS for part in layer.parts]


def code_of(texts, crate):
    code = "\n".join(texts[path] for path in in_folder(texts, crate, "src"))
    return re.sub(r"//[^\n]*|^\s*ghost use [^;]*;|#!?\[tactic\b[^]]*\]", "",
                  code, flags=re.M)


def calls_of(texts):
    """The crates that each crate's code names."""
    crates = crates_of(texts)
    return {crate: [lower for lower in listed if lower in crates and re.search(
        r"\b%s::" % lower, code_of(texts, crate))]
            for crate, listed in crates.items()}


def builds_of(texts):
    """The crates that each builds on; the kit's libraries are left out."""
    crates = crates_of(texts)
    return {crate: [lower for lower in listed if lower in crates]
            for crate, listed in crates.items()}


def below(graph, crate):
    found = set()
    ahead = list(graph[crate])
    while ahead:
        crate = ahead.pop()
        if crate not in found:
            found.add(crate)
            ahead += graph[crate]
    return found


def reduced(graph):
    """The pairs, without those that a way over others says too."""
    return [(upper, lower) for upper in graph for lower in graph[upper]
            if not any(lower in below(graph, other)
                       for other in graph[upper] if other != lower)]


def kinds_of(texts):
    """Of each crate, how its box is filled."""
    calls = calls_of(texts)
    entries = entries_of(texts)
    ships = set(entries).union(*(below(calls, entry) for entry in entries))
    return {crate: kind_of(texts, crate, ships) for crate in calls}


def kind_of(texts, crate, ships):
    if "crates/%s/src/main.rt" % crate in texts:
        return "program"
    if not any(function.body for function in functions_of(texts, crate)):
        return "claims"
    return "ships" if crate in ships else "beside"


def entries_of(texts):
    return [crate for crate in crates_of(texts)
            if 'extern "C" fn' in code_of(texts, crate)]


def arrows_of(texts):
    calls = reduced(calls_of(texts))
    cites = [pair for pair in reduced(builds_of(texts)) if pair not in calls]
    header = table.HEADER.name
    entries = entries_of(texts)
    users = [part.name for layer in table.C_SIDE for part in layer.parts
             if part.name != header]
    return ([Arrow(user, header, "c") for user in users]
            + [Arrow(header, entry, "c") for entry in entries]
            + [Arrow(*pair, "calls") for pair in calls]
            + [Arrow(*pair, "cites") for pair in cites])


# The crates.

class Layers:
    """The first part of the picture."""

    def __init__(self, texts):
        self.texts = texts
        self.layers = table.LAYERS + table.C_SIDE
        self.boxes = {part.name: self.box(part) for layer in self.layers
                      for part in layer.parts}
        self.arrows = arrows_of(texts)
        self.check_places()
        self.grid = Grid(self.boxes, LEFT, COLUMN, GAP, table.COLUMNS)
        lanes = self.grid.assign(self.arrows)
        self.ends = self.grid.ports(self.arrows, lanes)
        self.tracks = self.grid.tracks(self.arrows, lanes, self.ends)
        self.tops, self.bottom = self.heights()

    def box(self, part):
        first, last = part.columns
        x = LEFT + (first - 1) * (COLUMN + GAP)
        return Box(part.name, part.row, first, last, x,
                   (last - first) * (COLUMN + GAP) + COLUMN)

    def check_places(self):
        for arrow in self.arrows:
            upper, lower = self.boxes[arrow.upper], self.boxes[arrow.lower]
            beside = upper.row == lower.row and 1 in (
                upper.first - lower.last, lower.first - upper.last)
            if upper.row <= lower.row and not beside:
                raise Unfit("%s: `%s` builds on `%s` and stands neither above "
                            "nor beside it" % (TABLE, upper.name, lower.name))
        boxes = list(self.boxes.values())
        for place, one in enumerate(boxes):
            for other in boxes[place + 1:]:
                if (one.row == other.row and one.first <= other.last
                        and other.first <= one.last):
                    raise Unfit("%s: `%s` and `%s` stand in one place" % (
                        TABLE, one.name, other.name))

    def heights(self):
        tops, y = {}, TOP
        for row in sorted(self.grid.rows, reverse=True):
            tops[row] = y
            y += BOX + height(self.tracks.get(row, []))
        return tops, y

    def level(self, row, track):
        """Where a track lies."""
        levels = self.tracks[row]
        place = [track in level for level in levels].index(True)
        return (self.tops[row] + BOX + CHANNEL_EDGE
                + BETWEEN_TRACKS * place)

    def points(self, arrow):
        upper, lower = self.boxes[arrow.upper], self.boxes[arrow.lower]
        if upper.row == lower.row:
            y = self.tops[upper.row] + BOX / 2
            if upper.x < lower.x:
                return [(upper.x + upper.width, y), (lower.x, y)]
            return [(upper.x, y), (lower.x + lower.width, y)]
        points = [(self.ends[arrow, "upper"], self.tops[upper.row] + BOX)]
        for row in range(upper.row, lower.row, -1):
            for level in self.tracks.get(row, []):
                for track in level:
                    if track.arrow == arrow:
                        y = self.level(row, track)
                        points += [(track.start, y), (track.end, y)]
        return points + [(self.ends[arrow, "lower"], self.tops[lower.row])]

    def check_ways(self):
        for arrow in self.arrows:
            points = self.points(arrow)
            for start, end in zip(points, points[1:]):
                for box in self.boxes.values():
                    if box.name not in (arrow.upper, arrow.lower) \
                            and self.meets(start, end, box):
                        raise Unfit("%s: the arrow from `%s` to `%s` crosses "
                                    "`%s`" % (TABLE, arrow.upper, arrow.lower,
                                              box.name))

    def meets(self, start, end, box):
        top = self.tops[box.row]
        return (min(start[0], end[0]) < box.x + box.width + 3
                and max(start[0], end[0]) > box.x - 3
                and min(start[1], end[1]) < top + BOX + 3
                and max(start[1], end[1]) > top - 3)

    def draw(self, drawing):
        self.check_ways()
        labelled = [layer for layer in self.layers if layer.label]
        for place, layer in enumerate(labelled):
            self.band(drawing, layer, BANDS[place % 2])
        for arrow in self.arrows:
            drawing.arrow(self.points(arrow), arrow.kind)
        kinds = kinds_of(self.texts)
        for layer in self.layers:
            for part in layer.parts:
                self.draw_box(drawing, part, kinds.get(part.name, "c"))

    def band(self, drawing, layer, fill):
        rows = [part.row for part in layer.parts]
        upper, lower = max(rows), min(rows)
        above = self.tops.get(upper + 1)
        top = TOP - 10 if above is None else (
            above + BOX + self.tops[upper]) / 2
        behind = self.tops.get(lower - 1)
        bottom = self.tops[lower] + BOX + 10 if behind is None else (
            self.tops[lower] + BOX + behind) / 2
        drawing.rect(0, top, WIDTH, bottom - top, fill)
        y = (self.tops[upper] + self.tops[lower] + BOX) / 2
        y -= 7 * len(layer.label) - 11
        for place, line in enumerate(layer.label):
            drawing.text(MARGIN, y + 14 * place, line, TEXT,
                         LEFT - MARGIN - 4, FAINT, True, "start")

    def draw_box(self, drawing, part, kind):
        box = self.boxes[part.name]
        top = self.tops[part.row]
        fill, stroke = FILLS[kind]
        drawing.rect(box.x, top, box.width, BOX, fill, stroke, 5)
        y = top + BOX / 2 + 5 - 6.5 * len(part.lines)
        drawing.text(box.centre(), y, part.name, NAME, box.width - 8,
                     bold=True)
        for place, line in enumerate(part.lines):
            drawing.text(box.centre(), y + 14 + 13 * place, line, TEXT,
                         box.width - 6)


# The calls.

def draw_flow(drawing, flow, left, width, top):
    """One call, step by step; where it ends."""
    boxes = width * 0.6
    centre = left + boxes / 2
    drawing.text(left, top, flow.entry, NAME, width, bold=True, anchor="start")
    drawing.text(left, top + 16, flow.says, TEXT, width, FAINT,
                 anchor="start")

    def c_box(y, words):
        drawing.rect(left, y, boxes, C_STEP, *FILLS["c"], 5)
        drawing.text(centre, y + 17, words, TEXT, boxes - 6)

    def down(y):
        drawing.arrow([(centre, y - BETWEEN_STEPS), (centre, y)], "calls")

    c_box(top + 30, flow.starts)
    y = top + 30 + C_STEP + BETWEEN_STEPS
    for step in flow.steps:
        down(y)
        drawing.rect(left, y, boxes, STEP, *FILLS["ships"], 5)
        drawing.text(centre, y + 16, step.says, TEXT, boxes - 6)
        drawing.text(centre, y + 31, called(step), TEXT, boxes - 6, FAINT)
        if step.leaves:
            drawing.arrow([(left + boxes, y + STEP / 2),
                         (left + boxes + 26, y + STEP / 2)], "calls")
        for place, line in enumerate(step.leaves):
            drawing.text(left + boxes + 32, y + STEP / 2 + 11
                         - 7 * len(step.leaves) + 14 * place, line, TEXT,
                         width - boxes - 32, anchor="start")
        y += STEP + BETWEEN_STEPS
    down(y)
    c_box(y, flow.ends)
    return y + C_STEP


def called(step):
    return ", ".join("%s::%s" % (step.crate, function)
                     for function in step.functions)


# The whole picture.

def legend(drawing):
    drawing.text(MARGIN, 26, "The crates, and which builds on which", 16, 600,
                 bold=True, anchor="start")
    x = MARGIN
    for kind, words in SAID:
        fill, stroke = FILLS[kind]
        drawing.rect(x, 42, 22, 14, fill, stroke, 3)
        room = width_of(words, TEXT)
        drawing.text(x + 28, 53, words, TEXT, room, anchor="start")
        x += 28 + room + 16
    for kind, words in (("calls", "calls"),
                        ("cites", "definitions and proofs only")):
        drawing.arrow([(x, 49), (x + 34, 49)], kind)
        room = width_of(words, TEXT)
        drawing.text(x + 40, 53, words, TEXT, room, anchor="start")
        x += 40 + room + 16
    if x > WIDTH:
        raise Unfit("the legend is %d pixels too long" % (x - WIDTH))


def picture(texts):
    drawing = Picture()
    legend(drawing)
    layers = Layers(texts)
    layers.draw(drawing)
    top = layers.bottom + 20
    drawing.text(MARGIN, top, "Two calls, from the C entry to the answer", 16,
                 600, bold=True, anchor="start")
    width = (WIDTH - 3 * MARGIN) / 2
    bottom = max(draw_flow(drawing, flow,
                           MARGIN + place * (width + MARGIN), width, top + 30)
                 for place, flow in enumerate(table.FLOWS))
    return drawing.picture(WIDTH, round(bottom + MARGIN))


# What is compared.

def faults_of(texts):
    faults = names_faults(texts)
    if faults:
        return faults
    faults = (function_faults(texts) + document_faults(texts)
              + path_faults(texts))
    try:
        made = picture(texts)
    except Unfit as unfit:
        return faults + [str(unfit)]
    if texts[PICTURE] != made:
        faults.append("%s is not what tests/architecture.py makes; run it, "
                      "and look at the picture" % PICTURE)
    return faults


def names_faults(texts):
    listed, drawn = list(crates_of(texts)), [part.name for part in parts()]
    return (["%s: crate `%s` of crates.txt is missing" % (TABLE, crate)
             for crate in listed if crate not in drawn]
            + ["%s: crate `%s` is not in crates.txt" % (TABLE, crate)
               for crate in drawn if crate not in listed]
            + ["%s: crate `%s` stands twice" % (TABLE, crate)
               for crate in sorted(set(drawn)) if drawn.count(crate) > 1])


def function_faults(texts):
    """Of the functions that the steps and the documents name."""
    named = [(TABLE, "grimholdi", flow.entry) for flow in table.FLOWS]
    named += [(TABLE, step.crate, name) for flow in table.FLOWS
              for step in flow.steps for name in step.functions]
    named += [(document, *found) for document in (DOCUMENT, CHANGING)
              for found in NAMED.findall(texts[document])]
    return ["%s: crates/%s/src has no fn %s" % (place, crate, name)
            for place, crate, name in named
            if name.split("::")[-1] not in [
                function.name for function in functions_of(texts, crate)]]


def document_faults(texts):
    rows = [row.group(1) for row in map(ROW.match,
                                        texts[DOCUMENT].splitlines()) if row]
    due = [part.name for part in parts()]
    if rows == due:
        return []
    return ["%s: the table of crates has %s; %s has %s" % (
        DOCUMENT, ", ".join(rows), TABLE, ", ".join(due))]


def path_faults(texts):
    """NAME and * stand for any name."""
    return ["%s: %s is not there" % (document, path)
            for document in (DOCUMENT, CHANGING)
            for path in PATH.findall(texts[document])
            if "NAME" not in path and "*" not in path
            and not os.path.exists(os.path.join(ROOT, path))]


def read_all():
    texts = read_texts(ROOT)
    for path in (PICTURE, DOCUMENT, CHANGING):
        full = os.path.join(ROOT, path)
        texts[path] = ""
        if os.path.exists(full):
            with open(full, encoding="utf-8") as file:
                texts[path] = file.read()
    return texts


def write(texts):
    """Writes the picture, or says why it can't be drawn."""
    faults = names_faults(texts)
    if faults:
        return faults
    try:
        made = picture(texts)
    except Unfit as unfit:
        return [str(unfit)]
    with open(os.path.join(ROOT, PICTURE), "w", encoding="utf-8") as file:
        file.write(made)
    return []


def self_test(texts):
    """Plants each fault in a copy of the texts; how many are not found."""
    missed = 0
    for name, plant, expected in PLANTS:
        copy = dict(texts)
        plant(copy)
        found = faults_of(copy)
        if not any(expected in fault for fault in found):
            missed += 1
            print("architecture: planted: %s\n  not found: %s" % (name,
                                                                  expected))
            for fault in found:
                print("  found: " + fault)
    return missed


def main():
    texts = read_all()
    if sys.argv[1:] == []:
        faults = write(texts)
    elif sys.argv[1:] in (["--check"], ["--self-test"]):
        faults = faults_of(texts)
    else:
        sys.exit("usage: architecture.py [--check | --self-test]")
    for fault in faults:
        print("architecture: " + fault)
    if faults:
        print("architecture: FAILED, %d faults" % len(faults))
        return 1
    if sys.argv[1:] == ["--self-test"]:
        missed = self_test(texts)
        print("architecture: self-test %s, %d of %d planted faults found" % (
            "FAILED" if missed else "passed", len(PLANTS) - missed,
            len(PLANTS)))
        return missed != 0
    print("architecture: %s, %d crates drawn" % (
        "passed" if sys.argv[1:] else "written", len(parts())))
    return 0


if __name__ == "__main__":
    sys.exit(main())
