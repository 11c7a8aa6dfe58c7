"""Where docs/PORTS.svg has its boxes, and how its arrows go.

What the arrows are, and what they say, is the chart's; ports_picture.py
compares them with the ways below and fails where either has one more.
"""

from typing import NamedTuple

from ports_arrows import ANY, ANY_CONFIGURED, Arrow

WIDTH, HEIGHT, MARGIN = 1000, 796, 14


class Box(NamedTuple):
    x: float
    y: float
    width: float
    height: float

    def left(self, down):
        return self.x, self.y + down

    def right(self, down):
        return self.x + self.width, self.y + down

    def top(self, across):
        return self.x + across, self.y

    def bottom(self, across):
        return self.x + across, self.y + self.height

    def is_border(self, x, y):
        return (self.x <= x <= self.x + self.width and self.y <= y <= self.y + self.height
                and (x in (self.x, self.x + self.width) or y in (self.y, self.y + self.height)))

    def middle(self):
        return self.x + self.width / 2

    def holds(self, other):
        return (self.x <= other.x and other.x + other.width <= self.x + self.width
                and self.y <= other.y and other.y + other.height <= self.y + self.height)

    def meets(self, other, gap=0):
        return (self.x < other.x + other.width + gap and other.x < self.x + self.width + gap
                and self.y < other.y + other.height + gap
                and other.y < self.y + self.height + gap)


class Label(NamedTuple):
    x: float
    y: float
    side: str       # of (x, y) where the text is: 'above', 'below', 'left' or 'right'


class Way(NamedTuple):
    points: tuple
    label: Label


class Joins(NamedTuple):
    """A way that ends on the way of another arrow, which has the label of both."""
    points: tuple
    other: Arrow


def box(x, y):
    return Box(x, y, 150, 50)


OFF, POWERED, GONE = box(120, 88), box(120, 212), box(120, 328)
DISABLED, RESET, ENABLED = box(120, 500), box(430, 500), box(740, 500)
RESUME, SUSPEND = box(430, 690), box(740, 690)
ANY_BOX, CONFIGURED_BOX = Box(470, 96, 116, 34), Box(470, 212, 116, 50)

PLACES = {
    "Not Configured": OFF, "Powered-off": POWERED, "Disconnected": GONE, "Disabled": DISABLED,
    "Resetting": RESET, "Enabled": ENABLED, "Suspended": SUSPEND, "Resuming": RESUME,
    ANY: ANY_BOX, ANY_CONFIGURED: CONFIGURED_BOX,
}
NOTES = Box(632, 82, 354, 244)

# The ways that others join.
DETACH = Arrow("Suspended", "Disconnected", "line event")
ENABLE = Arrow("Suspended", "Disabled", "request")
RESETS = Arrow("Resuming", "Resetting", "request")

WAYS = {
    Arrow(ANY, "Not Configured", "request"):
        Way((ANY_BOX.left(9), OFF.right(17)), Label(370, 101, "above")),
    Arrow(ANY, "Not Configured", "bus reset"):
        Way((ANY_BOX.left(25), OFF.right(33)), Label(370, 125, "below")),
    Arrow("Not Configured", "Powered-off", "request"):
        Way((OFF.bottom(75), POWERED.top(75)), Label(203, 176, "right")),
    Arrow(ANY_CONFIGURED, "Powered-off", "request"):
        Way((CONFIGURED_BOX.left(17), POWERED.right(17)), Label(370, 225, "above")),
    Arrow(ANY_CONFIGURED, "Powered-off", "line event"):
        Way((CONFIGURED_BOX.left(33), POWERED.right(33)), Label(370, 249, "below")),
    Arrow("Powered-off", "Disconnected", "request"):
        Way((POWERED.bottom(75), GONE.top(75)), Label(203, 295, "right")),
    Arrow("Disconnected", "Disabled", "line event"):
        Way((GONE.bottom(45), DISABLED.top(45)), Label(159, 437, "left")),
    Arrow("Disabled", "Disconnected", "line event"):
        Way((DISABLED.top(100), GONE.bottom(100)), Label(227, 410, "right")),
    Arrow("Disabled", "Resetting", "request"):
        Way((DISABLED.right(17), RESET.left(17)), Label(350, 513, "above")),
    Arrow("Resetting", "Disabled", "request"):
        Way((RESET.left(33), DISABLED.right(33)), Label(350, 537, "below")),
    Arrow("Resetting", "Enabled", "tick"):
        Way((RESET.right(17), ENABLED.left(17)), Label(660, 513, "above")),
    Arrow("Resetting", "Resetting", "line event"):
        Way((RESET.bottom(20), (450, 574), (478, 574), RESET.bottom(48)),
            Label(464, 580, "below")),
    Arrow("Enabled", "Resetting", "request"):
        Way((ENABLED.left(33), RESET.right(33)), Label(660, 537, "below")),
    Arrow("Enabled", "Disabled", "request"):
        Way((ENABLED.top(30), (770, 478), (258, 478), DISABLED.top(138)),
            Label(530, 474, "above")),
    Arrow("Enabled", "Disabled", "line event"):
        Way((ENABLED.top(55), (795, 446), (240, 446), DISABLED.top(120)),
            Label(530, 442, "above")),
    Arrow("Enabled", "Disconnected", "line event"):
        Joins((ENABLED.top(100), (840, 353), (830, 353)), DETACH),
    DETACH:
        Way((SUSPEND.right(25), (980, 715), (980, 353), GONE.right(25)),
            Label(530, 349, "above")),
    Arrow("Enabled", "Suspended", "request"):
        Way((ENABLED.bottom(80), SUSPEND.top(80)), Label(826, 620, "right")),
    Arrow("Suspended", "Resuming", "line event"):
        Way((SUSPEND.left(17), RESUME.right(17)), Label(660, 703, "above")),
    Arrow("Suspended", "Resuming", "request"):
        Way((SUSPEND.left(33), RESUME.right(33)), Label(660, 727, "below")),
    Arrow("Resuming", "Enabled", "tick"):
        Way((RESUME.top(125), (555, 612), (765, 612), ENABLED.bottom(25)),
            Label(660, 616, "below")),
    Arrow("Suspended", "Resetting", "request"):
        Joins((SUSPEND.top(25), (765, 664), (525, 664), (525, 654)), RESETS),
    RESETS:
        Way((RESUME.top(95), RESET.bottom(95)), Label(519, 640, "left")),
    ENABLE:
        Way((SUSPEND.bottom(75), (815, 772), (195, 772), DISABLED.bottom(75)),
            Label(330, 768, "above")),
    Arrow("Resuming", "Disabled", "request"):
        Joins((RESUME.bottom(75), (505, 772), (495, 772)), ENABLE),
}

# From a new hub to a device that can be used: drawn thick.
USUAL = (
    Arrow("Not Configured", "Powered-off", "request"),
    Arrow("Powered-off", "Disconnected", "request"),
    Arrow("Disconnected", "Disabled", "line event"),
    Arrow("Disabled", "Resetting", "request"),
    Arrow("Resetting", "Enabled", "tick"),
)
