"""The arrows of a port's picture, from the cells of its chart.

What an input does in a state has to be one move under one condition; what it
does from any state is one arrow.  A chart of which that isn't true is refused:
the picture has no words for it.
"""

from typing import NamedTuple

from port_chart_read import PARTS

NOT_CONFIGURED = "Not Configured"
ANY = "any state"
ANY_CONFIGURED = "any state but Not Configured"
LINE_EVENTS = tuple(PARTS[0].values())
KINDS = ("line event", "request", "tick", "bus reset")
LEVEL_MOVES = {"over-current on": (0, 1), "over-current off": (1, 0)}
NEVER_REFUSED = ("tick", "SetConfiguration 0", "SetConfiguration 1", "bus reset")


class Unclear(Exception):
    """The picture can't say what the chart says."""


class Effect(NamedTuple):
    """What an input does in a state."""
    target: str
    name: str       # of the input: '15th tick'
    notes: tuple    # conditions, speeds, change bits


class Arrow(NamedTuple):
    source: str     # a state, ANY or ANY_CONFIGURED
    target: str
    kind: str       # of the inputs: KINDS

    def __str__(self):
        return "from %s to %s (%s)" % self


class Machine(NamedTuple):
    effects: dict   # of each input, in each state
    arrows: dict    # to the effects of each
    stays: list     # effects that change no state, alike in any configured state

    def strays(self, arrow):
        """The configured states that an input of this arrow leads elsewhere, or nowhere."""
        one = self.arrows[arrow][0]
        return [state for effects in self.effects.values() if effects[arrow.source] == one
                for state, other in effects.items()
                if other != one and state not in (NOT_CONFIGURED, arrow.target)]


# One input in one state.

def only(values, cells, what):
    """The one value that all have."""
    if len(set(values)) != 1:
        raise Unclear("%s at %s has %s" % (cells[0].input, cells[0].before.state, what))
    return values[0]


def parts_of(cells, field):
    return {getattr(cell.before, field) for cell in cells}


def condition(cells, served):
    """Where the cells that change something stand: timers, levels, speeds."""
    chosen = [parts_of(served, field) for field in ("timer", "level", "speed")]
    product = [cell for cell in cells if cell.before.timer in chosen[0]
               and cell.before.level in chosen[1] and cell.before.speed in chosen[2]]
    if product != served:
        raise Unclear("%s at %s has more than one condition" % (
            cells[0].input, cells[0].before.state))
    return chosen


def moves_of(served, field):
    """What becomes of each level or speed: one thing."""
    moves = sorted({(getattr(cell.before, field), getattr(cell, field)) for cell in served})
    if len(dict(moves)) != len(moves):
        raise Unclear("%s at %s gives a %s more than one next" % (
            served[0].input, served[0].before.state, field))
    return moves


def level_notes(cells, served):
    moves = moves_of(served, "level")
    name = cells[0].input
    if name in LEVEL_MOVES:
        if moves != [LEVEL_MOVES[name]]:
            raise Unclear("%s at %s does something to another level" % (
                name, cells[0].before.state))
        return []
    notes = [words for move, words in (((0, 1), "over-current begins"),
                                       ((1, 0), "over-current ends")) if move in moves]
    if len(moves) != len(parts_of(cells, "level")):
        notes.append("only with%s over-current" % ("" if moves[0][0] else "out"))
    return notes


def speed_notes(cells, served):
    moves = moves_of(served, "speed")
    given = [after for before, after in moves if not before and after]
    notes = ["at %s speed" % after for after in given
             if not cells[0].input.endswith(" " + after)]
    changed = [(before, after) for before, after in moves if before and after and before != after]
    notes += ["%s becomes %s" % move for move in changed]
    speeds = parts_of(served, "speed")
    if speeds != parts_of(cells, "speed") and len(changed) != len(speeds):
        notes.append("only at %s speed" % " or ".join(sorted(speeds)))
    return notes


def bit_notes(cells, served, bits):
    added = only([cell.added for cell in served], cells, "different change bits")
    cleared = only([cell.cleared for cell in served], cells, "different change bits")
    if cleared == bits:
        return ["clears all change bits"]
    return ["+" + bit for bit in added] + ["clears " + bit for bit in cleared]


def effect(chart, cells):
    """The effect of the cells of one input in one state; None if nothing changes."""
    served = [cell for cell in cells if cell.changes()]
    if not served:
        return None
    target = only([cell.state for cell in served], cells, "more than one next state")
    timers = condition(cells, served)[0]
    name, state = cells[0].input, cells[0].before.state
    if timers == {"ends"} and name == "tick":
        name = "%s tick" % chart.legend.limits[state]
    elif timers != parts_of(cells, "timer"):
        raise Unclear("%s at %s depends on the timer" % (name, state))
    notes = (level_notes(cells, served) + speed_notes(cells, served)
             + bit_notes(cells, served, tuple(chart.legend.bits.values())))
    return Effect(target, name, tuple(notes))


# What is refused, or has no effect.

def due_answer(state, name):
    """What the picture says of an input where it changes nothing."""
    if name in NEVER_REFUSED:
        return 0
    if name in LEVEL_MOVES:
        return 8 if state == NOT_CONFIGURED else 0
    if name in LINE_EVENTS:
        return 8
    return 2 if state == NOT_CONFIGURED else 0


def check_answers(cells):
    for cell in cells:
        due = due_answer(cell.before.state, cell.input)
        if not cell.changes() and cell.answer != due:
            raise Unclear("%s at %s is answered %d; the picture says %d" % (
                cell.input, cell.before.state, cell.answer, due))


# One input in all states.

def is_alike(cell, other):
    """Whether a cell of the target does what one of another state does."""
    if not other.changes():
        return cell.answer == other.answer and not cell.changes()
    return cell[2:] == other[2:]


def from_any(states, effects):
    """The effect that all configured states have, with one target; else None.

    `states` are the cells of each.  Those of the target itself do the same.
    """
    targets = {one.target for one in effects.values() if one}
    if len(targets) != 1:
        return None
    target = targets.pop()
    others = [state for state in effects if state not in (NOT_CONFIGURED, target)]
    common = {effects[state] for state in others}
    if len(common) != 1 or None in common:
        return None
    models = {cell.before.level: cell for cell in states[others[0]]}
    alike = all(is_alike(cell, models[cell.before.level]) for cell in states[target])
    return common.pop() if alike else None


def stays_of(effects):
    """The effect that keeps each configured state, the same in all; else None."""
    own = {state: one for state, one in effects.items() if state != NOT_CONFIGURED}
    if effects[NOT_CONFIGURED] or None in own.values():
        return None
    kept = {one._replace(target="") for one in own.values()}
    if len(kept) != 1 or any(one.target != state for state, one in own.items()):
        return None
    return kept.pop()


def kind_of(name):
    if name in LINE_EVENTS:
        return "line event"
    return name if name in KINDS else "request"


def arrows_of(name, states, effects):
    """The arrows of one input, each with its effect."""
    kind = kind_of(name)
    common = from_any(states, effects)
    if common is None:
        return [(Arrow(state, one.target, kind), one) for state, one in effects.items() if one]
    if common.target == NOT_CONFIGURED:
        return [(Arrow(ANY, common.target, kind), common)]
    arrows = [(Arrow(ANY_CONFIGURED, common.target, kind), common)]
    own = effects[NOT_CONFIGURED]
    return arrows + ([(Arrow(NOT_CONFIGURED, own.target, kind), own)] if own else [])


def machine(chart):
    """All arrows of a chart."""
    groups = {}
    for cell in chart.cells:
        groups.setdefault(cell.input, {}).setdefault(cell.before.state, []).append(cell)
    if not all(NOT_CONFIGURED in states for states in groups.values()):
        raise Unclear("the chart has no state '%s'" % NOT_CONFIGURED)
    check_answers(chart.cells)
    effects = {name: {state: effect(chart, cells) for state, cells in states.items()}
               for name, states in groups.items()}
    arrows, stays = {}, []
    for name, of_states in effects.items():
        kept = stays_of(of_states)
        if kept:
            stays.append(kept)
            continue
        for arrow, one in arrows_of(name, groups[name], of_states):
            arrows.setdefault(arrow, []).append(one)
    return Machine(effects, arrows, stays)


def label(effects):
    """The lines of an arrow's label, each with whether it is small.

    Inputs with the same notes stand together.
    """
    by_notes = {}
    for one in effects:
        by_notes.setdefault(one.notes, []).append(one.name)
    lines = []
    for notes, names in by_notes.items():
        lines += [(name, False) for name in names] + [(note, True) for note in notes]
    return lines
