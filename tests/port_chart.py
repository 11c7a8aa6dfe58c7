#!/usr/bin/env python3
"""The rules of one port as a chart, from the model in port_table.py.

port_chart.py               prints the chart, as the program `port_chart` has to
port_chart.py --table       prints the lines of the table that is looked up
port_chart.py --check FILE  compares them with those of FILE, a table.rt
port_chart.py --sum         prints what the program `port_engines` has to
port_chart.py --self-test   plants faults and fails unless each is found

Every cell is what the model says.  Two rules are of the hub, and stand here:
a port request to a port that is Not Configured is 2, and a bus reset gives
the new port.
"""

import os
import sys

sys.dont_write_bytecode = True
import port_chart_planted as planted
import port_table as model
from port_chart_read import LEVELS, PARTS, Unread, read

PRINTED = "crates/port_chart/stdout"
SPEEDS = {"": 0, "low": 0, "full": 1, "high": 2}
BUS_RESET = "bus reset"
INPUTS = (*model.INPUTS, BUS_RESET)
REQUESTS = (*model.REQUESTS, *model.CLEAR_CHANGE)
ALL_CHANGES = 0x1f
LETTERS = dict(zip(model.STATES, ("NCfg", "POff", "Disc", "Dsbl", "Rset", "Enbl", "Susp", "Rsum")))
CHANGES = {"C_PORT_CONNECTION": model.C_PORT_CONNECTION, "C_PORT_ENABLE": model.C_PORT_ENABLE,
           "C_PORT_SUSPEND": model.C_PORT_SUSPEND,
           "C_PORT_OVER_CURRENT": model.C_PORT_OVER_CURRENT, "C_PORT_RESET": model.C_PORT_RESET}
CHANGE_LETTERS = {**dict(zip(CHANGES.values(), "CESOR")), ALL_CHANGES: "all"}

LEGEND = """\
The rules of one port as a chart: states down, inputs across.

A cell says what changes: the next state with its speed; ^ or v where the over-current level \
begins or ends; the change bits
that are set (+) or cleared (-). A dot: nothing changes. All of these are answered 0. \
A number is a refusal, and nothing
changes: 8, not in this state; 2, a request to an unconfigured hub.

States       NCfg Not Configured   POff Powered-off   Disc Disconnected   Dsbl Disabled
             Rset Resetting        Enbl Enabled       Susp Suspended      Rsum Resuming
Speeds       .l low   .f full   .h high
Timer        runs on, or ends at the next tick: the {reset} in Resetting, \
the {resume} in Resuming. It starts at 0 where such a
             state is entered, and counts ticks alone.
Change bits  C connection   E enable   S suspend   O over-current   R reset   all five
"""


# What the rules say.

def step(port, name):
    """Answer and next port."""
    if name == BUS_RESET:
        return 0, model.Port(model.NOT_CONFIGURED)
    if name in REQUESTS and port.state == model.NOT_CONFIGURED:
        return 2, port
    return model.step(port, name)


def moves(port, name):
    """Answer, next port, change bits set where none was, and cleared where all were."""
    answer, after = step(port._replace(changes=0), name)
    same, full = step(port._replace(changes=ALL_CHANGES), name)
    assert answer == same and after._replace(changes=full.changes) == full, (port, name)
    return answer, after, after.changes, ALL_CHANGES & ~full.changes


def ports():
    """The lines of the chart: those without over-current, then those with it."""
    return [port for port in model.ports() if port.changes == 0]


def timer_of(port):
    if port.state not in model.TIMED:
        return ""
    return "runs" if port.ticks == 0 else "ends"


# The table.

def entry(state, speed, level, added, cleared, answer):
    return (f"0x{model.STATES.index(state)}_{SPEEDS[speed]}_{level}"
            f"_{added:02x}_{cleared:02x}_{answer}")


def title(state, speed, timer, level):
    words = (f"{state} {speed}".strip(), timer and f"timer {timer}", level and "over-current")
    return ", ".join(word for word in words if word)


def table_line(port, name):
    answer, after, added, cleared = moves(port, name)
    said = title(port.state, port.speed, timer_of(port), port.level)
    return (f"    {entry(after.state, after.speed, after.level, added, cleared, answer)}, "
            f"// {said} | {name}")


def table():
    return [table_line(port, name) for port in ports() for name in INPUTS]


def weight(port, name):
    """All that a step gives, as one number."""
    answer, after = step(port, name)
    return (answer + model.STATES.index(after.state) + SPEEDS[after.speed] + after.ticks
            + after.level + after.changes)


def engines_sum():
    """A round over all cells by the chart, and one by the rules."""
    return 2 * sum(weight(port, name) for port in ports() for name in INPUTS)


# The chart.

def place(port):
    """A state with its speed, in six characters."""
    return (LETTERS[port.state] + ("." + port.speed[0] if port.speed else "")).ljust(6)


def cell(port, name):
    """Twelve characters."""
    answer, after, added, cleared = moves(port, name)
    if answer != 0:
        return str(answer).rjust(12)
    moved = place(after) if place(after) != place(port) else ""
    level = "" if after.level == port.level else "v^"[after.level]
    bits = ""
    if added or cleared:
        assert not (added and cleared), (port, name)
        bits = "+" + CHANGE_LETTERS[added] if added else "-" + CHANGE_LETTERS[cleared]
    if not (moved or level or bits):
        return ".".rjust(12)
    return f"{moved:6}{level:1} {bits:4}"


def row(label, cells):
    return label.ljust(11) + "".join(" |" + text.ljust(12) for text in cells) + " |"


def part(level, names):
    yield row("state", names)
    for port in ports():
        if port.level == level:
            yield row(f"{place(port)} {timer_of(port)}",
                      [cell(port, name) for name in names.values()])


def ordinal(number):
    ending = {1: "st", 2: "nd", 3: "rd"}.get(number % 10, "th")
    return f"{number}th" if number in (11, 12, 13) else f"{number}{ending}"


def chart():
    """The whole text."""
    text = LEGEND.format(reset=ordinal(model.TIMED[model.RESETTING][0]),
                         resume=ordinal(model.TIMED[model.RESUMING][0]))
    for level, heading in enumerate(LEVELS):
        text += f"\n{heading}\n"
        for names in PARTS:
            text += "\n" + "\n".join(part(level, names)) + "\n"
    return text


# What is compared.

def table_fault(found):
    """The first line of a table that is not the model's, or None."""
    due = table()
    for number, (line, other) in enumerate(zip(found, due), 1):
        if line != other:
            return f"line {number} of the table is\n{line}\nand has to be\n{other}"
    if len(found) != len(due):
        return f"the table has {len(found)} lines, and has to have {len(due)}"
    return None


def chart_fault(text):
    """Why a printed chart is not the model's, or None: read back, it is the table."""
    try:
        cells = read(text).cells
    except Unread as unread:
        return str(unread)
    due = {line.split("// ")[1]: line for line in table()}
    for found in cells:
        added, cleared = (sum(CHANGES[bit] for bit in bits)
                          for bits in (found.added, found.cleared))
        said = f"{title(*found.before)} | {found.input}"
        line = f"    {entry(*found[3:6], added, cleared, found.answer)}, // {said}"
        if line != due.pop(said, None):
            return f"the cell '{said}' is not the model's"
    if due:
        return f"{len(due)} cells are missing"
    return None if text == chart() else "the chart's texts are not those of port_chart.py"


def rows_of(path):
    """The lines of a table's entries."""
    if not os.path.exists(path):
        return []
    with open(path, encoding="utf-8") as file:
        return [line.rstrip("\n") for line in file if line.startswith("    0x")]


def printed():
    root = os.path.dirname(os.path.dirname(os.path.abspath(__file__)))
    with open(os.path.join(root, PRINTED), encoding="utf-8") as file:
        return file.read()


# The self-test.

def faults_under(rule):
    """What is said of the right table and the printed chart where the model has a wrong rule."""
    right = table()
    kept = rule.holder[rule.name]
    rule.holder[rule.name] = rule.wrong
    try:
        return table_fault(right), chart_fault(printed())
    finally:
        rule.holder[rule.name] = kept


def self_test():
    """Plants each fault; how many are not found."""
    found = [("the printed chart", "None", chart_fault(printed()))]
    found += [(name, due, table_fault(plant(table()))) for name, plant, due in planted.TABLES]
    found += [(name, due, chart_fault(plant(printed()))) for name, plant, due in planted.CHARTS]
    for rule in planted.RULES:
        of_table, of_chart = faults_under(rule)
        found += [(rule.said + ", table", rule.in_table, of_table),
                  (rule.said + ", chart", rule.in_chart, of_chart)]
    missed = [one for one in found if one[1] not in str(one[2])]
    for name, due, fault in missed:
        print(f"port_chart: planted: {name}\n  not found: {due}\n  found: {fault}")
    print(f"port_chart: self-test {'FAILED' if missed else 'passed'}, "
          f"{len(found) - len(missed)} of {len(found)} as they have to be")
    return len(missed)


def main(arguments):
    if arguments == []:
        print(chart(), end="")
    elif arguments == ["--table"]:
        print("\n".join(table()))
    elif arguments == ["--sum"]:
        print(engines_sum())
    elif arguments == ["--self-test"]:
        return self_test() != 0
    elif arguments[:1] == ["--check"] and len(arguments) == 2:
        found = rows_of(arguments[1])
        fault = table_fault(found)
        if fault is not None:
            print(f"port_chart: FAILED, {arguments[1]}: {fault}")
            return 1
        print(f"port_chart: passed, {len(found)} entries of {arguments[1]} are the model's")
    else:
        sys.exit("usage: port_chart.py [--table | --check FILE | --sum | --self-test]")
    return 0


if __name__ == "__main__":
    sys.exit(main(sys.argv[1:]))
