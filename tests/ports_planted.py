"""Faults for the self-test of ports_picture.py, and what it says of each.

A plant changes the texts, which are given by their paths, or the layout while
it is in force.
"""

import re
from contextlib import contextmanager

from ports_arrows import ANY, Arrow
from ports_layout import PLACES, WAYS, Joins, Label

CHART = "crates/port_chart/stdout"
PICTURE = "docs/PORTS.svg"
DOCUMENT = "docs/PORTS.md"
OTHER_PICTURE = PICTURE + " is not what the chart makes"


# In the texts.

def replaced(path, old, new):
    """Every `old`."""
    @contextmanager
    def plant(texts):
        assert old in texts[path], (path, old)
        texts[path] = texts[path].replace(old, new)
        yield
    return plant


def cells(column, lines, text):
    """The cells of a column where the label of the line starts so."""
    @contextmanager
    def plant(chart_texts):
        rows, place, changed = chart_texts[CHART].split("\n"), None, 0
        for number, row in enumerate(rows):
            parts = row.split("|")
            if row.startswith("state "):
                names = [part.strip() for part in parts]
                place = names.index(column) if column in names else None
            elif place and len(parts) > 1 and re.match(lines, row):
                parts[place] = text.ljust(12) + " "
                rows[number] = "|".join(parts)
                changed += 1
        assert changed, (column, lines)
        chart_texts[CHART] = "\n".join(rows)
        yield
    return plant


def refused(column, lines, answer=8):
    return cells(column, lines, str(answer).rjust(12))


def dotted(column, lines):
    return cells(column, lines, ".".rjust(12))


# In the layout.

def laid(key, value, table=WAYS):
    """Another value in a table of the layout; none takes it away."""
    @contextmanager
    def plant(_):
        kept = dict(table)
        table.pop(key)
        if value is not None:
            table[key] = value
        yield
        table.clear()
        table.update(kept)
    return plant


def labelled(arrow, x, y, side):
    return laid(arrow, WAYS[arrow]._replace(label=Label(x, y, side)))


def led(arrow, *points):
    return laid(arrow, WAYS[arrow]._replace(points=points))


ATTACH = Arrow("Disconnected", "Disabled", "line event")
WAKE = Arrow("Suspended", "Resuming", "line event")
POWER = Arrow("Powered-off", "Disconnected", "request")
RESET = Arrow("Disabled", "Resetting", "request")

# What is planted, and a fault that has to be found.
PLANTS = [
    # Seen in the picture.
    ("another change bit", replaced(CHART, "+R", "+S"), OTHER_PICTURE),
    ("another end of the reset", replaced(CHART, "15th", "16th"), OTHER_PICTURE),
    ("power with over-current", cells("set POWER", "POff", "Disc"), OTHER_PICTURE),
    ("high speed kept", cells("set RESET", r"Dsbl\.h", "Rset.h"), OTHER_PICTURE),
    ("over-current off without its bit", replaced(CHART, "      v +O  ", "      v     "),
     OTHER_PICTURE),
    ("another name of a state", replaced(CHART, "Enbl", "Enab"), OTHER_PICTURE),
    ("the picture changed by hand", replaced(PICTURE, ">wake<", ">awake<"), OTHER_PICTURE),
    ("no picture", lambda texts: replaced(PICTURE, texts[PICTURE], "")(texts), OTHER_PICTURE),
    # Without a way, or without an arrow.
    ("no wake", refused("wake", "Susp"),
     "the chart has no arrow from Suspended to Resuming (line event)"),
    ("detach in Resetting", cells("detach", "Rset", "Disc    +C"),
     "no way for the arrow from Resetting to Disconnected (line event): detach"),
    ("a state that clear PORT_POWER leaves", dotted("clr POWER", "Dsbl"),
     "clear PORT_POWER is not from any state but Not Configured: not at Disabled; "),
    ("a state that bus reset leaves", dotted("bus reset", "Susp"),
     "bus reset is not from any state: not at Suspended; "),
    ("a state that over-current on leaves", refused("over-cur on", "Rset"),
     "over-current on at Resetting is answered 8; the picture says 0"),
    ("a state that SetConfiguration 1 leaves", dotted("SetConfig. 1", "NCfg"),
     "the chart has no arrow from Not Configured to Powered-off (request)"),
    ("two arrows that join and differ", cells("set RESET", r"Susp\.h", "Rset.h"),
     "join, and say different things"),
    ("another state", replaced(CHART, "Suspended", "Sleeping"),
     "no way for the arrow from Sleeping to Disconnected (line event): detach"),
    # Without words.
    ("no Not Configured", replaced(CHART, "Not Configured", "Unconfigured"),
     "the chart has no state 'Not Configured'"),
    ("wake at some speeds of a level", refused("wake", r"Susp\.l"),
     OTHER_PICTURE),
    ("two next states", cells("detach", r"Dsbl\.l", "POff    +C"),
     "detach at Disabled has more than one next state"),
    ("different change bits", cells("detach", r"Enbl\.f", "Disc    +E"),
     "detach at Enabled has different change bits"),
    ("a request that waits for the timer", dotted("clr ENABLE", r"Rset\.. runs"),
     "clear PORT_ENABLE at Resetting depends on the timer"),
    ("another refusal", refused("set RESET", "NCfg"),
     "set PORT_RESET at Not Configured is answered 8; the picture says 2"),
    ("a refusal served", dotted("attach low", "POff"),
     "attach low at Powered-off is answered 0; the picture says 8"),
    ("a tick refused", refused("tick", "Enbl"), "tick at Enabled is answered 8"),
    ("two change bits cleared by one", cells("clr C_RESET", "[^sN]", "        -all"),
     "clear C_PORT_RESET doesn't clear just its change bit"),
    # Not read.
    ("no cell", cells("detach", r"Dsbl\.l", "Disc   +C"),
     CHART + ": line 20, column 'detach': 'Disc   +C   ' is no cell"),
    ("no change bit", cells("detach", r"Dsbl\.l", "Disc    +X"),
     CHART + ": line 20, column 'detach': no change bit 'X'"),
    ("no state", cells("wake", r"Susp\.f", "Rsm1.f"),
     CHART + ": line 33, column 'wake': no state 'Rsm1'"),
    ("no ticks in the legend", replaced(CHART, "the 15th in Resetting", "early"),
     CHART + ": line 23, column 'state': 'Rset.l runs' has a timer, or none"),
    ("no chart", lambda texts: replaced(CHART, texts[CHART], "")(texts), CHART + ": no line"),
    # In the layout.
    ("no way", laid(WAKE, None), "no way for the arrow from Suspended to Resuming (line event)"),
    ("a way across a box", led(Arrow("Enabled", "Disabled", "line event"),
                               PLACES["Enabled"].left(25), PLACES["Disabled"].right(25)),
     "crosses Resetting"),
    ("a way on another", led(WAKE, PLACES["Suspended"].left(30), PLACES["Resuming"].right(30)),
     "are too near"),
    ("a way aslant", led(WAKE, PLACES["Suspended"].left(17), PLACES["Resuming"].right(18)),
     "goes aslant"),
    ("a way to another state", led(RESET, *WAYS[WAKE].points), "doesn't go from one to the other"),
    ("a label on a box", labelled(ATTACH, 200, 515, "left"), "is on a box"),
    ("a label on a way", labelled(POWER, 160, 295, "right"), "is on the way"),
    ("a label on a label", labelled(POWER, 300, 270, "right"), "overlap"),
    ("a label outside", labelled(ATTACH, 100, 437, "left"), "is not in the picture"),
    ("a box for two", laid(ANY, PLACES["Not Configured"], PLACES), "doesn't go from one"),
    ("a join of strangers", laid(RESET, Joins(WAYS[RESET].points, WAKE)),
     "join, and say different things"),
    # In the document.
    ("the block changed", replaced(DOCUMENT, "Dsbl.l  +C", "Dsbl.l  +E"),
     "its block of text is not " + CHART),
    ("no block", replaced(DOCUMENT, "```text", "```"), "its block of text is not " + CHART),
    ("no picture shown", replaced(DOCUMENT, "](PORTS.svg)", "](PORT.svg)"), "does not show"),
    ("another cell named", replaced(DOCUMENT, ", detach: 8`", ", detach: .`"),
     ", detach' is '8', not '.'"),
    ("a cell that isn't there", replaced(DOCUMENT, ", detach: 8`", ", detatch: 8`"),
     "is 'None', not '8'"),
    ("a cell that is nowhere", replaced(DOCUMENT, "| `POff ^ +O` |", "| `POff ^ +C` |"),
     "no cell is 'POff ^ +C'"),
]


def variants(cell, legend):
    """The cell with one thing changed, each thing in turn."""
    bits = legend.bits.values()
    same = cell._replace(state=cell.before.state, speed=cell.before.speed,
                         level=cell.before.level, added=(), cleared=())
    others = [same._replace(answer=answer) for answer in (0, 2, 8)]
    if cell.answer == 0:
        others += [cell._replace(state=state) for state in legend.states.values()]
        others += [cell._replace(speed=speed) for speed in legend.speeds.values() if cell.speed]
        others += [cell._replace(level=1 - cell.level)]
        others += [cell._replace(added=added) for added in ((), *((bit,) for bit in bits))]
        others += [cell._replace(cleared=bits) for bits in ((), *((bit,) for bit in bits))]
    return [other for other in others if other != cell]
