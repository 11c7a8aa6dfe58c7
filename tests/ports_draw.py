"""Draws the arrows of a port's chart on the ways of ports_layout.py."""

from itertools import combinations

import ports_arrows as arrows
from drawing import (BANDS, BLUE, BLUE_BOX, BROWN, FAINT, GREY_BOX, INK, PAPER, PURPLE_BOX,
                     Drawing, Unfit, width_of)
from ports_layout import HEIGHT, MARGIN, NOTES, PLACES, USUAL, WAYS, WIDTH, Box, Joins

LAYOUT = "tests/ports_layout.py"
TITLE = "The states of one port, and what moves it"

TITLE_SIZE, NAME, TEXT, SMALL = 16, 14, 12, 10
LINE = {False: 15, True: 12}        # the height of a line; of a small one
SIZE = {False: TEXT, True: SMALL}
USUAL_WIDTH = 2.8
COLOURS = {"line event": BROWN, "request": BLUE, "tick": BLUE, "bus reset": BLUE}
FILLS = {"none": GREY_BOX, "speed": BLUE_BOX, "timer": PURPLE_BOX}
SAID = (("none", "no device"), ("speed", "device attached"), ("timer", "device attached, timer"))

# What ports_arrows.check_answers compares with the chart.
ANSWERS = (
    ("At a state without its arrow", None),
    ("a line event is 8; so is chirp at another speed", BROWN),
    ("the same over-current level again is 0, no effect", BROWN),
    ("a request or tick is 0, no effect", BLUE),
    ("a port request at Not Configured is 2", BLUE),
)


# Labels.

def area_of(place, lines):
    """The box that a label takes."""
    width = max(width_of(text, SIZE[small]) for text, small in lines)
    height = sum(LINE[small] for _, small in lines)
    x = {"left": place.x - width, "right": place.x}.get(place.side, place.x - width / 2)
    y = {"above": place.y - height, "below": place.y}.get(place.side, place.y - height / 2)
    return Box(x, y, width, height)


def draw_label(drawing, place, lines, colour):
    y = area_of(place, lines).y
    anchor = {"left": "end", "right": "start"}.get(place.side, "middle")
    for text, small in lines:
        y += LINE[small]
        drawing.text(place.x, y - 3, text, SIZE[small], WIDTH, FAINT if small else colour,
                     anchor=anchor)


# Ways.

def segments(points):
    """The straight parts of a way, as boxes without width or height."""
    for (x, y), (to_x, to_y) in zip(points, points[1:]):
        if x != to_x and y != to_y:
            raise Unfit("%s: a way goes aslant from (%g, %g)" % (LAYOUT, x, y))
        yield Box(min(x, to_x), min(y, to_y), abs(x - to_x), abs(y - to_y))


def is_on(point, points):
    return any(part.is_border(*point) for part in segments(points))


def check_ends(arrow, way):
    """A way starts at its source and ends at its target, or on the way that it joins."""
    ends = is_on(way.points[-1], WAYS[way.other].points) if isinstance(way, Joins) \
        else PLACES[arrow.target].is_border(*way.points[-1])
    if not (ends and PLACES[arrow.source].is_border(*way.points[0])):
        raise Unfit("%s: the way %s doesn't go from one to the other" % (LAYOUT, arrow))


def check_way(arrow, way):
    check_ends(arrow, way)
    for part in segments(way.points):
        for name, box in [*PLACES.items(), ("the notes", NOTES)]:
            gap = -1 if name in arrow[:2] else 4
            if part.meets(box, gap):
                raise Unfit("%s: the way %s crosses %s" % (LAYOUT, arrow, name))


def check_apart(one, other):
    """Two ways that don't join may cross, and not lie beside each other."""
    if one == getattr(WAYS[other], "other", None) or other == getattr(WAYS[one], "other", None):
        return
    for part in segments(WAYS[one].points):
        for against in segments(WAYS[other].points):
            is_along = (part.width > 0) == (against.width > 0)
            if is_along and part.meets(against, 8):
                raise Unfit("%s: the ways %s and %s are too near" % (LAYOUT, one, other))


# The whole.

class Layout:
    """The arrows of a chart on the ways of the table."""

    def __init__(self, chart):
        self.chart = chart
        self.machine = arrows.machine(chart)
        self.labels = {arrow: arrows.label(effects)
                       for arrow, effects in self.machine.arrows.items()}
        self.check_arrows()
        self.areas = {arrow: area_of(way.label, self.labels[arrow])
                      for arrow, way in WAYS.items() if not isinstance(way, Joins)}
        self.check_places()

    def check_arrows(self):
        for arrow in self.labels:
            if arrow not in WAYS:
                raise Unfit(self.without_way(arrow))
        for arrow, way in WAYS.items():
            if arrow not in self.labels:
                raise Unfit("the chart has no arrow %s; %s has a way for it" % (arrow, LAYOUT))
            if isinstance(way, Joins) and self.labels[way.other] != self.labels[arrow]:
                raise Unfit("the arrows %s and %s join, and say different things" % (
                    arrow, way.other))

    def without_way(self, arrow):
        said = ", ".join(text for text, small in self.labels[arrow] if not small)
        fault = "%s has no way for the arrow %s: %s" % (LAYOUT, arrow, said)
        from_any = [other for other in WAYS if other[1:] == arrow[1:]
                    and other.source in (arrows.ANY, arrows.ANY_CONFIGURED)]
        if not from_any:
            return fault
        return "%s is not from %s: not at %s; %s" % (
            said, from_any[0].source, ", ".join(self.machine.strays(arrow)), fault)

    def check_places(self):
        for arrow, way in WAYS.items():
            check_way(arrow, way)
        for one, other in combinations(WAYS, 2):
            check_apart(one, other)
        for arrow in self.areas:
            self.check_label(arrow)
        for one, other in combinations(self.areas, 2):
            if self.areas[one].meets(self.areas[other], 2):
                raise Unfit("%s: the labels %s and %s overlap" % (LAYOUT, one, other))

    def check_label(self, arrow):
        area = self.areas[arrow]
        inside = Box(MARGIN, 60, WIDTH - 2 * MARGIN, HEIGHT - 60)
        if not inside.holds(area):
            raise Unfit("%s: the label %s is not in the picture" % (LAYOUT, arrow))
        for box in [*PLACES.values(), NOTES]:
            if area.meets(box, 2):
                raise Unfit("%s: the label %s is on a box" % (LAYOUT, arrow))
        for other, way in WAYS.items():
            if any(area.meets(part, 1) for part in segments(way.points)):
                raise Unfit("%s: the label %s is on the way %s" % (LAYOUT, arrow, other))

    def looks(self, state):
        """Which of FILLS."""
        line = next(cell.before for cell in self.chart.cells if cell.before.state == state)
        return "timer" if line.timer else "speed" if line.speed else "none"

    def draw(self, drawing):
        for arrow, way in WAYS.items():
            drawing.way(way.points, COLOURS[arrow.kind], head=not isinstance(way, Joins),
                        width=USUAL_WIDTH if arrow in USUAL else 1.4)
        for arrow in self.areas:
            draw_label(drawing, WAYS[arrow].label, self.labels[arrow], COLOURS[arrow.kind])
        for letters, state in self.chart.legend.states.items():
            self.draw_state(drawing, letters, state)
        for mark in (arrows.ANY, arrows.ANY_CONFIGURED):
            draw_mark(drawing, mark)

    def draw_state(self, drawing, letters, state):
        box = PLACES[state]
        kind = self.looks(state)
        drawing.rect(*box, *FILLS[kind], 5)
        drawing.text(box.middle(), box.y + 22, state, NAME, box.width - 8, bold=True)
        speeds = "" if kind == "none" else " " + " ".join(self.chart.legend.speeds)
        drawing.text(box.middle(), box.y + 39, letters + speeds, 11, box.width - 8, FAINT)


def draw_mark(drawing, mark):
    box = PLACES[mark]
    drawing.rect(*box, PAPER, FAINT, 12, True)
    lines = mark.replace(" but ", " but\n").split("\n")
    y = box.y + box.height / 2 + 4 - 7.5 * (len(lines) - 1)
    for place, line in enumerate(lines):
        drawing.text(box.middle(), y + 15 * place, line, TEXT, box.width - 6)


# Legend and notes.

def legend(drawing):
    drawing.text(MARGIN, 26, TITLE, TITLE_SIZE, 600, bold=True, anchor="start")
    x = MARGIN

    def said(words, sign):
        nonlocal x
        drawing.text(x + sign, 53, words, 11, WIDTH - MARGIN - x - sign, anchor="start")
        x += sign + width_of(words, 11) + 14

    for kind, words in SAID:
        drawing.rect(x, 42, 22, 14, *FILLS[kind], 3)
        said(words, 28)
    for colour, width, words in ((BROWN, 1.4, "line event"),
                                 (BLUE, 1.4, "request, tick, bus reset"),
                                 (BLUE, USUAL_WIDTH, "the usual way to Enabled")):
        drawing.way(((x, 49), (x + 34, 49)), colour, width=width)
        said(words, 40)


def stays_said(machine):
    """Of what changes no state."""
    clears = [one for one in machine.stays if one.name.startswith("clear ")]
    for one in clears:
        if one.notes != ("clears " + one.name.removeprefix("clear "),):
            raise arrows.Unclear("%s doesn't clear just its change bit" % one.name)
    said = [("%s: %s" % (one.name, ", ".join(one.notes)), COLOURS[arrows.kind_of(one.name)])
            for one in machine.stays if one not in clears]
    if clears:
        said.append(("clear C_PORT_..: clears that change bit", BLUE))
    return [("No change of state", None), *said, ("these at Not Configured: 8 and 2", FAINT)]


def signs_said(chart):
    ticks = ", ".join(chart.legend.limits.values())
    return [("In the labels", None),
            ("+C_PORT_..: that change bit is set", FAINT),
            ("%s: the speed" % ", ".join(chart.legend.speeds.values()), FAINT),
            ("%s tick: counted from entering the state" % ticks, FAINT)]


def draw_notes(drawing, layout):
    drawing.rect(*NOTES, BANDS[1], radius=5)
    y = NOTES.y - 4
    for text, colour in (*stays_said(layout.machine), *ANSWERS, *signs_said(layout.chart)):
        y += 16 if colour else 24
        drawing.text(NOTES.x + 12, y, text, 11 if colour else TEXT, NOTES.width - 20,
                     colour or INK, not colour, "start")
    room = NOTES.y + NOTES.height - 10
    if y > room:
        raise Unfit("%s: the notes are %d pixels too long" % (LAYOUT, y - room))


def picture(chart):
    drawing = Drawing(TITLE, LAYOUT)
    legend(drawing)
    layout = Layout(chart)
    draw_notes(drawing, layout)
    layout.draw(drawing)
    return drawing.picture(WIDTH, HEIGHT)
