#!/usr/bin/env python3
"""Model of one hub downstream port.

Prints one line for each port and input of the table:
  port before | input | answer | port after | GetPortStatus bytes after
With --self-test it runs bench cases P3 to P10 and those of C-12 instead.
"""

import sys
from itertools import product
from typing import NamedTuple

STATES = ("Not Configured", "Powered-off", "Disconnected", "Disabled",
          "Resetting", "Enabled", "Suspended", "Resuming")
(NOT_CONFIGURED, POWERED_OFF, DISCONNECTED, DISABLED,
 RESETTING, ENABLED, SUSPENDED, RESUMING) = STATES

# States in which each status bit reads 1.
PORT_CONNECTION = (DISABLED, RESETTING, ENABLED, SUSPENDED, RESUMING)
PORT_ENABLE = (ENABLED, SUSPENDED, RESUMING)
PORT_SUSPEND = (SUSPENDED, RESUMING)
PORT_RESET = (RESETTING,)
PORT_POWER = (DISCONNECTED, *PORT_CONNECTION)

# Change bits.
(C_PORT_CONNECTION, C_PORT_ENABLE, C_PORT_SUSPEND,
 C_PORT_OVER_CURRENT, C_PORT_RESET) = (1 << bit for bit in range(5))

# Request: the states where it applies, the state it leads to.
REQUESTS = {
    "set PORT_SUSPEND": ((ENABLED,), SUSPENDED),
    "set PORT_RESET": ((DISABLED, ENABLED, SUSPENDED, RESUMING), RESETTING),
    "set PORT_POWER": ((POWERED_OFF,), DISCONNECTED),
    "clear PORT_ENABLE":
        ((DISABLED, RESETTING, ENABLED, SUSPENDED, RESUMING), DISABLED),
    "clear PORT_SUSPEND": ((SUSPENDED,), RESUMING),
    "clear PORT_POWER": (STATES, POWERED_OFF),
}

# Request: the change bit it clears, in any state.
CLEAR_CHANGE = {
    "clear C_PORT_CONNECTION": C_PORT_CONNECTION,
    "clear C_PORT_ENABLE": C_PORT_ENABLE,
    "clear C_PORT_SUSPEND": C_PORT_SUSPEND,
    "clear C_PORT_OVER_CURRENT": C_PORT_OVER_CURRENT,
    "clear C_PORT_RESET": C_PORT_RESET,
}

CONFIGURATION = {"SetConfiguration 0": NOT_CONFIGURED,
                 "SetConfiguration 1": POWERED_OFF}

# Line event: the states where it is named, the state it leads to, the change
# bit it sets. Chirp and over-current have their own rules.
LINE_EVENTS = {
    "attach low": ((DISCONNECTED,), DISABLED, C_PORT_CONNECTION),
    "attach full": ((DISCONNECTED,), DISABLED, C_PORT_CONNECTION),
    "detach": ((DISABLED, ENABLED, SUSPENDED), DISCONNECTED, C_PORT_CONNECTION),
    "wake": ((SUSPENDED,), RESUMING, 0),
    "port error": ((ENABLED,), DISABLED, C_PORT_ENABLE),
}
ATTACH_SPEED = {"attach low": "low", "attach full": "full"}
OVER_CURRENT = {"over-current on": 1, "over-current off": 0}

# Timed state: the tick that ends it, the change bit set then.
TIMED = {RESETTING: (15, C_PORT_RESET), RESUMING: (22, C_PORT_SUSPEND)}


class Port(NamedTuple):
    state: str
    speed: str = ""   # low, full or high; empty while not connected
    ticks: int = 0    # so far, in a timed state
    level: int = 0    # over-current
    changes: int = 0

    def __str__(self):
        speed = f" {self.speed}" if self.speed else ""
        ticks = f" {self.ticks}" if self.state in TIMED else ""
        return f"{self.state}{speed}{ticks} level={self.level} changes={self.changes:02x}"


def enter(port, state, change=0):
    """Go to a state: speed kept while connected, timer at 0."""
    speed = port.speed if state in PORT_CONNECTION else ""
    return Port(state, speed, 0, port.level, port.changes | change)


def request(port, name):
    applies, state = REQUESTS[name]
    if port.state not in applies:
        return port
    if name == "set PORT_POWER" and port.level == 1:
        return port
    if name == "set PORT_RESET" and port.speed == "high":
        port = port._replace(speed="full")
    return enter(port, state)


def set_configuration(port, name):
    """Change bits stay; value 0 drops the over-current level."""
    after = enter(port, CONFIGURATION[name])
    return after._replace(level=0) if name == "SetConfiguration 0" else after


def tick(port):
    if port.state not in TIMED:
        return port
    last, change = TIMED[port.state]
    if port.ticks + 1 < last:
        return port._replace(ticks=port.ticks + 1)
    return enter(port, ENABLED, change)


def over_current(port, level):
    if port.state == NOT_CONFIGURED:
        return None
    if port.level == level:
        return port
    port = port._replace(level=level, changes=port.changes | C_PORT_OVER_CURRENT)
    return enter(port, POWERED_OFF) if level == 1 else port


def line_event(port, name):
    """The port after a line event; None where the event is not named."""
    if name in OVER_CURRENT:
        return over_current(port, OVER_CURRENT[name])
    if name == "chirp":
        named = port.state == RESETTING and port.speed == "full"
        return port._replace(speed="high") if named else None
    named, state, change = LINE_EVENTS[name]
    if port.state not in named:
        return None
    return enter(port._replace(speed=ATTACH_SPEED.get(name, port.speed)), state, change)


def step(port, name):
    """Answer and next port for any input."""
    if name == "tick":
        return 0, tick(port)
    if name in REQUESTS:
        return 0, request(port, name)
    if name in CLEAR_CHANGE:
        return 0, port._replace(changes=port.changes & ~CLEAR_CHANGE[name])
    if name in CONFIGURATION:
        return 0, set_configuration(port, name)
    after = line_event(port, name)
    if after is None:
        return 8, port
    return 0, after


def port_status(port):
    """GetPortStatus: status word, change word, little-endian."""
    bits = {0: port.state in PORT_CONNECTION, 1: port.state in PORT_ENABLE,
            2: port.state in PORT_SUSPEND, 3: port.level == 1,
            4: port.state in PORT_RESET, 8: port.state in PORT_POWER,
            9: port.speed == "low", 10: port.speed == "high"}
    status = sum(1 << bit for bit, reads_1 in bits.items() if reads_1)
    return (status.to_bytes(2, "little") + port.changes.to_bytes(2, "little")).hex(" ")


# Ports and inputs in the order of the table.
INPUTS = ("attach low", "attach full", "detach", "chirp", "wake", "port error",
          "over-current on", "over-current off", "tick",
          *REQUESTS, *CLEAR_CHANGE, *CONFIGURATION)


def ports():
    for changes, level, state in product((0x00, 0x1f), (0, 1), STATES):
        speeds = ("low", "full", "high") if state in PORT_CONNECTION else ("",)
        timers = (0, TIMED[state][0] - 1) if state in TIMED else (0,)
        for speed, ticks in product(speeds, timers):
            yield Port(state, speed, ticks, level, changes)


def print_table():
    for before, name in product(ports(), INPUTS):
        answer, after = step(before, name)
        print(before, name, answer, after, port_status(after), sep=" | ")


def self_test():
    p3 = ["SetConfiguration 1", "set PORT_POWER"]
    p4 = p3 + ["attach full"]
    p6 = p4 + ["set PORT_RESET"] + ["tick"] * 14
    p7 = p6 + ["tick"]
    p10 = p7 + ["set PORT_SUSPEND"]
    cases = [("P3", p3, "00 01 00 00"),
             ("P4", p4, "01 01 01 00"),
             ("P5", p3 + ["attach low"], "01 03 01 00"),
             ("P6", p6, "11 01 01 00"),
             ("P7", p7, "03 01 11 00"),
             ("P9", p7 + ["over-current on"], "08 00 19 00"),
             ("P10", p10, "07 01 11 00"),
             ("C-12", p4 + ["detach"], "00 01 01 00"),
             ("C-12", p7 + ["detach"], "00 01 11 00"),
             ("C-12", p10 + ["detach"], "00 01 11 00"),
             ("C-12", p10 + ["wake", "over-current on"], "08 00 19 00"),
             ("C-12", p7 + ["port error"], "01 01 13 00"),
             ("C-12", p7 + ["port error", "detach"], "00 01 13 00")]
    for early in range(15):  # P8: chirp before each tick of the reset
        chirp = ["tick"] * early + ["chirp"] + ["tick"] * (15 - early)
        cases.append(("P8", p4 + ["set PORT_RESET"] + chirp, "03 05 11 00"))
    for case, inputs, expected in cases:
        port = Port(NOT_CONFIGURED)
        for name in inputs:
            answer, port = step(port, name)
            assert answer == 0, (case, name, answer)
        assert port_status(port) == expected, (case, port_status(port))
    print("P3 to P10 and the cases of C-12 hold")


if __name__ == "__main__":
    if sys.argv[1:] == ["--self-test"]:
        self_test()
    elif sys.argv[1:]:
        sys.exit("usage: port_table.py [--self-test]")
    else:
        print_table()
