"""Faults for the self-test of port_chart.py, and what it says of each."""

from typing import NamedTuple

import port_table as model


# In the lines of a table.

def other(lines, old, new):
    """The one line with `old` has `new` instead."""
    assert sum(old in line for line in lines) == 1, old
    return [line.replace(old, new) for line in lines]


def without(lines, place):
    return lines[:place] + lines[place + 1:]


TABLES = [
    ("another next state",
     lambda lines: other(lines, "0x3_1_0_01_00_0, // Disconnected | attach full",
                         "0x5_1_0_01_00_0, // Disconnected | attach full"),
     "0x3_1_0_01_00_0, // Disconnected | attach full"),
    ("another speed",
     lambda lines: other(lines, "0x4_1_0_00_00_0, // Enabled high | set PORT_RESET",
                         "0x4_2_0_00_00_0, // Enabled high | set PORT_RESET"),
     "0x4_1_0_00_00_0, // Enabled high | set PORT_RESET"),
    ("another level",
     lambda lines: other(lines, "0x0_0_0_00_1f_0, // Enabled low, over-current | bus",
                         "0x0_0_1_00_1f_0, // Enabled low, over-current | bus"),
     "0x0_0_0_00_1f_0, // Enabled low, over-current | bus"),
    ("a change bit more",
     lambda lines: other(lines, "0x2_0_0_01_00_0, // Enabled low | detach",
                         "0x2_0_0_03_00_0, // Enabled low | detach"),
     "0x2_0_0_01_00_0, // Enabled low | detach"),
    ("another answer",
     lambda lines: other(lines, "_8, // Resuming low, timer runs | wake",
                         "_0, // Resuming low, timer runs | wake"),
     "_8, // Resuming low, timer runs | wake"),
    ("another comment", lambda lines: other(lines, "// Powered-off | detach", "// Off | detach"),
     "// Powered-off | detach"),
    ("a line less", lambda lines: without(lines, 500), "line 501 of the table is"),
    ("the last line less", lambda lines: lines[:-1], "has 1103 lines, and has to have 1104"),
    ("a line more", lambda lines: lines + lines[-1:], "has 1105 lines, and has to have 1104"),
    ("two lines exchanged", lambda lines: lines[1::-1] + lines[2:], "line 1 of the table is"),
    ("no lines", lambda lines: [], "has 0 lines, and has to have 1104"),
]


# In the printed chart.

def changed(old, new, heading="No over-current"):
    """The first `old` behind the heading is `new`."""
    def plant(text):
        start = text.index("\n" + heading + "\n")
        assert old in text[start:], old
        return text[:start] + text[start:].replace(old, new, 1)
    return plant


def exchanged(text):
    """Two lines in every part: every cell is still there."""
    lines = text.split("\n")
    for place in [place for place, line in enumerate(lines) if line.startswith("Dsbl.l")]:
        lines[place:place + 2] = lines[place + 1], lines[place]
    return "\n".join(lines)


def line_less(text):
    lines = text.split("\n")
    assert lines[17].startswith("POff "), lines[17]
    return "\n".join(without(lines, 17))


CHARTS = [
    ("another next state", changed("|Disc    +C   |", "|POff    +C   |"),
     "'Disabled low | detach' is not the model's"),
    ("another speed", changed("|Dsbl.l  +C   |", "|Dsbl.f  +C   |"),
     "'Disconnected | attach low' is not the model's"),
    ("another change bit", changed("|Dsbl.l  +E   |", "|Dsbl.l  +C   |"),
     "'Enabled low | port error' is not the model's"),
    ("no change bit", changed("|Enbl.f  +R   |", "|Enbl.f       |"),
     "'Resetting full, timer ends | tick' is not the model's"),
    ("a bit set, not cleared", changed("|        -S   |", "|        +S   |"),
     "'Powered-off | clear C_PORT_SUSPEND' is not the model's"),
    ("a level kept", changed("|NCfg  v      |", "|NCfg         |", "Over-current"),
     "'Powered-off, over-current | SetConfiguration 0' is not the model's"),
    ("a refusal served", changed("|           8 |", "|           . |"),
     "'Not Configured | attach low' is not the model's"),
    ("a served one refused", changed("|           . |", "|           8 |"),
     "'Powered-off | over-current off' is not the model's"),
    ("another refusal", changed("|           2 |", "|           8 |"),
     "'Not Configured | set PORT_SUSPEND' is not the model's"),
    ("a cell moved by a blank", changed("|POff  ^ +O   |", "| POff  ^ +O  |"),
     "line 19, column 'over-cur on': ' POff  ^ +O ' is no cell"),
    ("an unknown change bit", changed("|Disc    +C   |", "|Disc    +X   |"),
     "line 20, column 'detach': no change bit 'X' in the legend"),
    ("an unknown state", changed("|Disc    +C   |", "|Desc    +C   |"),
     "line 20, column 'detach': no state 'Desc' in the legend"),
    ("a cell of blanks", changed("|           . |", "|             |"),
     "line 18, column 'over-cur off': '            ' says nothing"),
    ("a line's own state", changed("|POff  ^ +O   |", "|Disc  ^ +O   |"),
     "line 19, column 'over-cur on': 'Disc  ^ +O  ' names the state of its own line"),
    ("a line's own level", changed("|      ^ +O   |", "|      v +O   |"),
     "line 18, column 'over-cur on': '      v +O  ' has the level of its own line"),
    ("a state without its speed", changed("|Rsum.l       |", "|Rsum         |"),
     "line 32, column 'wake': no line is 'Rsum  '"),
    ("a line less", line_less, "line 16: the part has 23 lines, not 24"),
    ("an empty line more", changed("\nPOff ", "\n\nPOff "), "not the two sections"),
    ("a line twice", changed("\nRsum.h runs", "\nRsum.h ends"), "are not once each those of"),
    ("two lines exchanged", exchanged, "the chart's texts are not those"),
    ("two columns exchanged", changed("|chirp        |wake         |",
                                      "|wake         |chirp        |"), "the heading is not"),
    ("a blank at an end", changed(" |\n", " | \n"), "the heading is not"),
    ("another tick", lambda text: text.replace("15th", "16th"), "the chart's texts are not those"),
    ("half the chart", lambda text: text[:text.index("\nOver-current\n")], "not the two sections"),
    ("nothing", lambda text: "", "no line 'No over-current'"),
]


# In the model.

class Rule(NamedTuple):
    said: str
    holder: dict
    name: str
    wrong: object
    in_table: str       # what has to be said
    in_chart: str


def rule(said, holder, name, wrong, cell):
    return Rule(said, holder, name, wrong, "// " + cell, f"'{cell}' is not the model's")


def keeps_speed(port, name, right=model.request):
    after = right(port, name)
    return after._replace(speed=port.speed) if after.state == model.RESETTING else after


def ignores_level(port, name, right=model.request):
    return right(port._replace(level=0), name)._replace(level=port.level)


def keeps_level(port, name, right=model.set_configuration):
    return right(port, name)._replace(level=port.level)


def chirps_low(port, name, right=model.line_event):
    low = name == "chirp" and (port.state, port.speed) == (model.RESETTING, "low")
    return port._replace(speed="high") if low else right(port, name)


CONNECTION, ENABLE = model.C_PORT_CONNECTION, model.C_PORT_ENABLE
FROM = (model.DISABLED, model.ENABLED, model.SUSPENDED)
RULES = [
    rule("detach in Resetting", model.LINE_EVENTS, "detach",
         ((*FROM, model.RESETTING), model.DISCONNECTED, CONNECTION),
         "Resetting low, timer runs | detach"),
    rule("detach as before C-12", model.LINE_EVENTS, "detach",
         (FROM, model.DISCONNECTED, CONNECTION | ENABLE), "Disabled low | detach"),
    rule("port error without its bit", model.LINE_EVENTS, "port error",
         ((model.ENABLED,), model.DISABLED, 0), "Enabled low | port error"),
    rule("clear PORT_ENABLE not in Suspended", model.REQUESTS, "clear PORT_ENABLE",
         ((model.DISABLED, model.RESETTING, model.ENABLED, model.RESUMING), model.DISABLED),
         "Suspended low | clear PORT_ENABLE"),
    rule("high speed through a reset", vars(model), "request", keeps_speed,
         "Disabled high | set PORT_RESET"),
    rule("power under over-current", vars(model), "request", ignores_level,
         "Powered-off, over-current | set PORT_POWER"),
    rule("SetConfiguration 0 with over-current", vars(model), "set_configuration", keeps_level,
         "Not Configured, over-current | SetConfiguration 0"),
    rule("chirp at low speed", vars(model), "line_event", chirps_low,
         "Resetting low, timer runs | chirp"),
    rule("no bit at the end of a reset", model.TIMED, model.RESETTING, (15, 0),
         "Resetting low, timer ends | tick"),
    Rule("a reset of 16 ticks", model.TIMED, model.RESETTING, (16, model.C_PORT_RESET),
         "None", "the chart's texts are not those"),     # the table has no count
]
