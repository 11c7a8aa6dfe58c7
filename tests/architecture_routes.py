"""Ways for the arrows of docs/ARCHITECTURE.svg.

Boxes stand on a grid.  An arrow goes down from its upper box, across in the
channel below that row, down through a free column or gap, across in the
channel above the lower box, and down to it; parts that aren't needed are left
out.  In the same row it goes straight to a neighbour.
"""

from itertools import permutations
from typing import NamedTuple

from drawing import Unfit

BETWEEN_PORTS = 15      # arrows at one side of a box
BETWEEN_LANES = 10      # arrows down one column or gap
BETWEEN_TRACKS = 9      # arrows across one channel
CHANNEL_EDGE = 13       # of a channel, above its first track, below its last


class Box(NamedTuple):
    name: str
    row: int
    first: int
    last: int
    x: float
    width: float

    def centre(self):
        return self.x + self.width / 2

    def is_wide(self):
        return self.first != self.last

    def spans(self, x):
        return self.x < x < self.x + self.width


class Arrow(NamedTuple):
    upper: str
    lower: str
    kind: str


class Track(NamedTuple):
    """A horizontal part: comes down at `start`, leaves down at `end`."""
    arrow: Arrow
    start: float
    end: float

    def holds(self, x):
        return min(self.start, self.end) - 4 < x < max(self.start,
                                                       self.end) + 4


class Grid:
    """The boxes, where a column or a gap is free, and the ways."""

    def __init__(self, boxes, left, width, gap, columns):
        self.boxes = boxes
        self.left, self.width, self.gap = left, width, gap
        self.columns = columns
        self.rows = {}
        for box in boxes.values():
            self.rows.setdefault(box.row, []).append(box)

    def column_centre(self, column):
        return (self.left + (column - 1) * (self.width + self.gap)
                + self.width / 2)

    def lanes(self):
        """The places of columns and of gaps, the outer two included."""
        for column in range(1, self.columns + 1):
            yield self.column_centre(column)
        for gap in range(self.columns + 1):
            yield (self.left - self.gap / 2
                   + gap * (self.width + self.gap))

    def is_free(self, x, upper_row, lower_row):
        """Whether no box between the two rows is at x."""
        return not any(box.spans(x) for row in range(lower_row + 1, upper_row)
                       for box in self.rows.get(row, []))

    # Which lane.

    def straight(self, upper, lower):
        """Where a straight arrow goes, or None."""
        for x in (upper.centre(), lower.centre()):
            inside = all(box.spans(x) if box.is_wide() else box.centre() == x
                         for box in (upper, lower))
            if inside and self.is_free(x, upper.row, lower.row):
                return x
        return None

    def lane(self, upper, lower):
        def across(box, x):
            if box.is_wide() and box.spans(x):
                return 0
            return abs(box.centre() - x)

        free = [x for x in self.lanes()
                if self.is_free(x, upper.row, lower.row)]
        return min(free, key=lambda x: (
            across(upper, x) + across(lower, x), across(lower, x), x))

    def assign(self, arrows):
        """The place of each arrow's long vertical part, if it has one."""
        lanes = {}
        for arrow in arrows:
            upper, lower = self.boxes[arrow.upper], self.boxes[arrow.lower]
            if upper.row == lower.row:
                continue
            x = self.straight(upper, lower)
            if x is not None:
                lanes[arrow] = x
        for arrow in arrows:
            upper, lower = self.boxes[arrow.upper], self.boxes[arrow.lower]
            if arrow in lanes or upper.row - lower.row < 2:
                continue
            lanes[arrow] = self.beside(lanes, arrow, self.lane(upper, lower))
        return lanes

    def beside(self, lanes, arrow, x):
        """The free place nearest to x, of an arrow's lane."""
        def rows(other):
            return (self.boxes[other.lower].row, self.boxes[other.upper].row)

        low, high = rows(arrow)
        taken = [place for other, place in lanes.items()
                 if rows(other)[0] < high and low < rows(other)[1]]
        for step in range(9):
            for place in (x - step * BETWEEN_LANES, x + step * BETWEEN_LANES):
                if self.is_free(place, high, low) and all(
                        abs(place - other) >= BETWEEN_LANES
                        for other in taken):
                    return place
        raise Unfit("no way is free from `%s` to `%s`" % (arrow.upper,
                                                          arrow.lower))

    # Where arrows leave and reach a box.

    def ports(self, arrows, lanes):
        """For each arrow where it leaves its upper and reaches its lower."""
        ends = {}
        for box in self.boxes.values():
            for side in ("upper", "lower"):
                own = [arrow for arrow in arrows
                       if getattr(arrow, side) == box.name
                       and self.boxes[arrow.upper].row
                       != self.boxes[arrow.lower].row]
                self.share(box, side, own, lanes, ends)
        return ends

    def share(self, box, side, own, lanes, ends):
        other_side = "lower" if side == "upper" else "upper"

        def wanted(arrow):
            if arrow in lanes:
                return lanes[arrow]
            return self.boxes[getattr(arrow, other_side)].centre()

        for arrow in own:
            if arrow in lanes and box.spans(lanes[arrow]):
                ends[arrow, side] = lanes[arrow]
        fixed = [ends[arrow, side] for arrow in own if (arrow, side) in ends]
        others = sorted((arrow for arrow in own if (arrow, side) not in ends),
                        key=wanted)
        if not fixed:
            for place, arrow in enumerate(others):
                ends[arrow, side] = box.centre() + (
                    place - (len(others) - 1) / 2) * BETWEEN_PORTS
            return
        left = [arrow for arrow in others if wanted(arrow) < box.centre()]
        right = [arrow for arrow in others if arrow not in left]
        for place, arrow in enumerate(reversed(left)):
            ends[arrow, side] = min(fixed) - (place + 1) * BETWEEN_PORTS
        for place, arrow in enumerate(right):
            ends[arrow, side] = max(fixed) + (place + 1) * BETWEEN_PORTS

    # Across the channels.

    def tracks(self, arrows, lanes, ends):
        """For each channel, named by the row above it, its tracks in order."""
        channels = {}
        for arrow in arrows:
            upper, lower = self.boxes[arrow.upper], self.boxes[arrow.lower]
            if upper.row == lower.row:
                continue
            start, end = ends[arrow, "upper"], ends[arrow, "lower"]
            if upper.row - lower.row == 1:
                parts = [(upper.row, start, end)]
            else:
                lane = lanes[arrow]
                parts = [(upper.row, start, lane),
                         (lower.row + 1, lane, end)]
            for row, begin, stop in parts:
                if begin != stop:
                    channels.setdefault(row, []).append(
                        Track(arrow, begin, stop))
        return {row: ordered(tracks) for row, tracks in channels.items()}


def crossings(order):
    """How often the tracks, the highest first, are crossed by others' ends.

    Two ends that run over each other count for many.
    """
    count = 0
    for place, high in enumerate(order):
        for low in order[place + 1:]:
            count += high.holds(low.start) + low.holds(high.end)
            count += 100 * (abs(low.start - high.end) < 6)
    return count


def ordered(tracks):
    """Levels of tracks, the highest first, with few crossings."""
    if len(tracks) > 7:
        raise Unfit("too many arrows in one channel, that of `%s` to `%s` "
                    "among them" % tracks[0].arrow[:2])
    order = min(permutations(tracks), key=crossings)
    levels = []
    for track in order:
        below = [level for level, others in enumerate(levels)
                 if any(meets(track, other) for other in others)]
        level = below[-1] + 1 if below else 0
        if level == len(levels):
            levels.append([])
        levels[level].append(track)
    return levels


def meets(one, other):
    """Whether two tracks can't stand beside each other in one level."""
    return (min(one.start, one.end) - 12 < max(other.start, other.end)
            and min(other.start, other.end) - 12 < max(one.start, one.end))


def height(levels):
    """Of a channel."""
    return 2 * CHANNEL_EDGE + BETWEEN_TRACKS * max(0, len(levels) - 1)
