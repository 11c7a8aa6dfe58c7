"""Reads the chart that the program `port_chart` prints.

No rule of a port stands here: letters, speeds, change bits and the ticks that
end a timer come from the chart's legend, everything else from its cells.
"""

import re
from typing import NamedTuple

# The parts of the chart: the name of each column, and of the input that it is.
PARTS = (
    {"attach low": "attach low", "attach full": "attach full", "detach": "detach",
     "chirp": "chirp", "wake": "wake", "port error": "port error",
     "over-cur on": "over-current on", "over-cur off": "over-current off"},
    {"tick": "tick", "set SUSPEND": "set PORT_SUSPEND", "set RESET": "set PORT_RESET",
     "set POWER": "set PORT_POWER", "clr ENABLE": "clear PORT_ENABLE",
     "clr SUSPEND": "clear PORT_SUSPEND", "clr POWER": "clear PORT_POWER"},
    {"clr C_CONN": "clear C_PORT_CONNECTION", "clr C_ENABLE": "clear C_PORT_ENABLE",
     "clr C_SUSP": "clear C_PORT_SUSPEND", "clr C_OVERC": "clear C_PORT_OVER_CURRENT",
     "clr C_RESET": "clear C_PORT_RESET", "SetConfig. 0": "SetConfiguration 0",
     "SetConfig. 1": "SetConfiguration 1", "bus reset": "bus reset"},
)
LEVELS = ("No over-current", "Over-current")
LABEL, CELL = 11, 12
LINES = 24

MOVE = re.compile(r"(?P<state>    |\w{4})(?P<speed>  |\.\w)(?P<level>[ ^v]) "
                  r"(?P<bits>    |[+-]\w  |-all)")
PLACE = re.compile(r"(?P<state>\w{4})(?P<speed>  |\.\w) (?P<timer>    |runs|ends)")
LIMIT = re.compile(r"the (\d+(?:st|nd|rd|th)) in (\w+)")


class Unread(Exception):
    """The chart is not in its format."""


class Line(NamedTuple):
    """What stands at the left: a port before an input."""
    state: str
    speed: str      # low, full or high; empty where the state has none
    timer: str      # runs, ends, or empty
    level: int      # over-current


class Cell(NamedTuple):
    before: Line
    input: str      # by its whole name
    answer: int
    state: str      # the next one
    speed: str
    level: int
    added: tuple    # the change bits that are set
    cleared: tuple

    def changes(self):
        return (self.state, self.speed, self.level) != (
            self.before.state, self.before.speed, self.before.level) or bool(
                self.added or self.cleared)


class Legend(NamedTuple):
    states: dict    # by their letters
    speeds: dict
    bits: dict
    limits: dict    # the tick that ends a state's timer: '15th'


class Chart(NamedTuple):
    legend: Legend
    cells: list     # in the order of the lines, each from left to right; first part, second, ..


# The legend.

def listed(text, title):
    """The pairs of a paragraph of the legend: 'NCfg Not Configured   POff ..'."""
    found = re.search(r"^%s  +(.*\n(?: +.*\n)*)" % title, text, re.M)
    if not found:
        raise Unread("the legend has no '%s'" % title)
    words = re.split(r"  +|\n *", found.group(1).strip())
    return dict(word.split(" ", 1) for word in words)


def bit_name(word):
    return "C_PORT_" + word.upper().replace("-", "_")


def read_legend(text):
    bits = listed(text, "Change bits")
    bits.pop("all", None)
    states = listed(text, "States")
    limits = {state: limit for limit, state in LIMIT.findall(text)}
    for state in limits:
        if state not in states.values():
            raise Unread("the legend: no state '%s' for its timer" % state)
    return Legend(states, listed(text, "Speeds"),
                  {letter: bit_name(word) for letter, word in bits.items()}, limits)


# The cells.

def named(names, letters, what):
    if letters not in names:
        raise Unread("no %s '%s' in the legend" % (what, letters))
    return names[letters]


def read_label(legend, text, level):
    found = PLACE.fullmatch(text)
    if not found:
        raise Unread("'%s' is no state with its speed and timer" % text)
    state, speed, timer = (found[name].strip() for name in ("state", "speed", "timer"))
    state = named(legend.states, state, "state")
    if (timer != "") != (state in legend.limits):
        raise Unread("'%s' has a timer, or none, against the legend" % text)
    return Line(state, speed and named(legend.speeds, speed, "speed"), timer, level)


def read_bits(legend, text):
    """The change bits that are set, and those that are cleared."""
    bits = text.strip()
    if bits in ("", "-all"):
        return (), tuple(legend.bits.values()) if bits else ()
    bit = (named(legend.bits, bits[1], "change bit"),)
    return (bit, ()) if bits[0] == "+" else ((), bit)


def read_cell(legend, before, name, text, starts):
    """What a cell says; `starts` are the states and speeds that have lines."""
    same = Cell(before, name, 0, before.state, before.speed, before.level, (), ())
    if re.fullmatch(r" {11}[.1-9]", text):
        return same if text[-1] == "." else same._replace(answer=int(text[-1]))
    found = MOVE.fullmatch(text)
    if not found:
        raise Unread("'%s' is no cell" % text)
    state, speed = found["state"].strip(), found["speed"].strip()
    if speed and not state:
        raise Unread("'%s' has a speed and no state" % text)
    after = same
    if state:
        after = same._replace(state=named(legend.states, state, "state"),
                              speed=speed and named(legend.speeds, speed, "speed"))
    if found["level"] != " ":
        after = after._replace(level="v^".index(found["level"]))
    added, cleared = read_bits(legend, found["bits"])
    after = after._replace(added=added, cleared=cleared)
    check_moves(after, same, state, found, starts)
    return after


def check_moves(after, same, state, found, starts):
    if state and found[0][:6] not in starts:
        raise Unread("no line is '%s'" % found[0][:6])
    if state and (after.state, after.speed) == (same.state, same.speed):
        raise Unread("'%s' names the state of its own line" % found[0])
    if found["level"] != " " and after.level == same.level:
        raise Unread("'%s' has the level of its own line" % found[0])
    if after == same:
        raise Unread("'%s' says nothing" % found[0])


def split(line, columns):
    """The label and the cells of a line."""
    width = LABEL + columns * (CELL + 2) + 2
    bars = [LABEL + place * (CELL + 2) for place in range(columns + 1)]
    if len(line) != width or any(line[bar:bar + 2] != " |" for bar in bars):
        raise Unread("not %d cells of %d characters" % (columns, CELL))
    return line[:LABEL], [line[bar + 2:bar + 2 + CELL] for bar in bars[:-1]]


def read_part(legend, names, level, lines, first):
    """The cells of one part; `first` is the number of its heading."""
    heading = "state".ljust(LABEL) + "".join(" |" + name.ljust(CELL) for name in names) + " |"
    if lines[:1] != [heading]:
        raise Unread("line %d: the heading is not '%s'" % (first, heading))
    if len(lines) != 1 + LINES:
        raise Unread("line %d: the part has %d lines, not %d" % (first, len(lines) - 1, LINES))
    starts = {line[:6] for line in lines[1:]}
    for number, line in enumerate(lines[1:], first + 1):
        column = "state"
        try:
            label, texts = split(line, len(names))
            before = read_label(legend, label, level)
            for column, text in zip(names, texts):
                yield read_cell(legend, before, names[column], text, starts)
        except Unread as unread:
            raise Unread("line %d, column '%s': %s" % (number, column, unread)) from None


def blocks_of(lines, first):
    """Runs of lines between empty ones, each with the number of its first."""
    blocks = [[]]
    for number, line in enumerate(lines, first):
        if line:
            blocks[-1].append((number, line))
        elif not blocks[-1]:
            raise Unread("line %d: an empty line too many" % number)
        else:
            blocks.append([])
    return [(block[0][0], [line for _, line in block]) for block in blocks if block]


def read(text):
    """The chart, or Unread."""
    lines = text.split("\n")
    if lines.pop() != "" or LEVELS[0] not in lines:
        raise Unread("no line '%s', or no end of line at the end" % LEVELS[0])
    start = lines.index(LEVELS[0])
    legend = read_legend("\n".join(lines[:start]))
    blocks = blocks_of(lines[start:], start + 1)
    due = len(PARTS) + 1
    if len(blocks) != 2 * due or [blocks[0][1], blocks[due][1]] != [[level] for level in LEVELS]:
        raise Unread("not the two sections '%s' and '%s' of %d parts" % (*LEVELS, len(PARTS)))
    cells = []
    for level in (0, 1):
        for names, (first, part) in zip(PARTS, blocks[level * due + 1:(level + 1) * due]):
            cells += read_part(legend, names, level, part, first)
    check_lines(cells)
    return Chart(legend, cells)


def check_lines(cells):
    """Each input has each line once, and all have the same lines."""
    lines = {}
    for cell in cells:
        lines.setdefault(cell.input, []).append(cell.before)
    expected = lines[cells[0].input]
    for name, found in lines.items():
        if found != expected or len(set(found)) != len(found):
            raise Unread("the lines of '%s' are not once each those of '%s'" % (
                name, cells[0].input))


def named_cells(text):
    """The cells as they stand, by level, label and column; blanks once each."""
    cells, level, names = {}, None, []
    for line in text.split("\n"):
        if line in LEVELS:
            level = LEVELS.index(line)
        elif line.startswith("state "):
            names = [name.strip() for name in line.split("|")[1:-1]]
        elif level is not None and line:
            label, *texts = line.split("|")[:-1]
            label = " ".join(label.split())
            cells.update({(level, label, name): " ".join(found.split())
                          for name, found in zip(names, texts)})
    return cells
