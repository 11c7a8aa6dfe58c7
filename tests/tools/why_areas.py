"""Areas written by the layout of docs/AREA.md, and their states in words."""

OUT, IN, SETUP = 1, 9, 13
CONTROL, BULK = 0, 2
EMPTY, PENDING, READY, OLD = range(4)
FAILURE, ACK, DATA0, NAK, DATA1, STALL = 0, 2, 3, 10, 11, 14


def port(state, speed=0, ticks=0, marks=0):
    return bytes([state, speed, ticks, marks])


def buffer(status=EMPTY, pid=0, transfer=0, address=0, endpoint=0, byte_6=0,
           payload=b"", lane=0, low_speed=0, toggle=0):
    flags = low_speed | toggle << 1 | lane << 2
    slot = [status, pid, transfer, flags, address, endpoint, byte_6,
            len(payload)]
    return bytes(slot) + payload.ljust(64, b"\0")


def area(ports, buffers, configured=1, low_side=0, running=0, removable=0):
    head = [len(ports), len(buffers), 0x32, 0x64, removable, configured,
            low_side, running]
    return bytes(head) + b"".join(ports) + b"".join(buffers)


def changed(bytes_of, places):
    """The area with other bytes at some places."""
    new = bytearray(bytes_of)
    for place, value in places.items():
        new[place] = value
    return bytes(new)


# The worked example of docs/AREA.md.
BENCH = area([port(1)] * 4, [
    buffer(READY, IN, BULK, 5, 1, DATA0, b"\x11\x22\x33"),
    buffer(PENDING, IN, BULK, 6, 1, 1),
    buffer(PENDING, IN, BULK, 5, 1, 2, lane=1)])
BENCH_STATE = """\
hub: 4 ports, 3 buffers, configured, the low side is free
port 1: Powered-off
port 2: Powered-off
port 3: Powered-off
port 4: Powered-off
buffer 0: ready with DATA0, lane 0 (5,1 IN), IN bulk, full speed, toggle 0, \
payload of 3 bytes
buffer 1: pending at place 1, lane 0 (6,1 IN), IN bulk, full speed, toggle 0, \
no payload
buffer 2: pending at place 2, lane 1 (5,1 IN), IN bulk, full speed, toggle 0, \
no payload
"""

# Every state of a configured port; buffer 1 runs.
BUSY = area([
    port(1, marks=0x28), port(2, marks=0x01), port(3, 0, marks=0x03),
    port(4, 1, 14), port(5, 2), port(6, 1), port(7, 1, 1, marks=0x1F)], [
        buffer(),
        buffer(PENDING, OUT, BULK, 7, 2, 9, b"\xAA", low_speed=1, toggle=1),
        buffer(OLD, IN, CONTROL, 5, 1, NAK),
        buffer(READY, SETUP, CONTROL, 9, 0, FAILURE, lane=1)],
    low_side=1, running=1, removable=0xFE)
BUSY_STATE = """\
hub: 7 ports, 4 buffers, configured, the low side is occupied by buffer 1
port 1: Powered-off, over-current, C_PORT_OVER_CURRENT
port 2: Disconnected, C_PORT_CONNECTION
port 3: Disabled, low speed, C_PORT_CONNECTION, C_PORT_ENABLE
port 4: Resetting, full speed, 14 ticks
port 5: Enabled, high speed
port 6: Suspended, full speed
port 7: Resuming, full speed, 1 tick, C_PORT_CONNECTION, C_PORT_ENABLE, \
C_PORT_SUSPEND, C_PORT_OVER_CURRENT, C_PORT_RESET
buffer 0: empty
buffer 1: pending at place 9, lane 0 (7,2 OUT), OUT bulk, low speed, \
toggle 1, payload of 1 byte
buffer 2: old with NAK, lane 0 (5,1 IN), IN control, full speed, toggle 0, \
no payload
buffer 3: ready with failure, lane 1 (9,0 OUT), SETUP control, full speed, \
toggle 0, no payload
"""

# One port; the running transaction was emptied.
SMALL = area([port(4, 2, 0)], [
    buffer(PENDING, SETUP, CONTROL, 4, 0, 0, bytes(range(8))),
    buffer(OLD, IN, BULK, 6, 1, DATA1, bytes(range(20)), lane=1)],
    low_side=2)
SMALL_STATE = """\
hub: 1 port, 2 buffers, configured, the low side is occupied by an emptied \
transaction
port 1: Resetting, high speed, 0 ticks
buffer 0: pending at place 0, lane 0 (4,0 OUT), SETUP control, full speed, \
toggle 0, payload of 8 bytes
buffer 1: old with DATA1, lane 1 (6,1 IN), IN bulk, full speed, toggle 0, \
payload of 20 bytes
"""

# Results that no delivery leaves, since they don't suit the PID.
UNSUITED = area([port(1)], [
    buffer(READY, IN, BULK, 5, 1, ACK),
    buffer(OLD, OUT, BULK, 6, 1, DATA0, b"abc", lane=1),
    buffer(READY, SETUP, CONTROL, 7, 0, NAK)])
UNSUITED_STATE = """\
hub: 1 port, 3 buffers, configured, the low side is free
port 1: Powered-off
buffer 0: ready with ACK, lane 0 (5,1 IN), IN bulk, full speed, toggle 0, \
no payload
buffer 1: old with DATA0, lane 1 (6,1 OUT), OUT bulk, full speed, toggle 0, \
payload of 3 bytes
buffer 2: ready with NAK, lane 0 (7,0 OUT), SETUP control, full speed, \
toggle 0, no payload
"""

# A new hub.
NEW = area([port(0)] * 2, [buffer()] * 2, configured=0)
NEW_STATE = """\
hub: 2 ports, 2 buffers, unconfigured, the low side is free
port 1: Not Configured
port 2: Not Configured
buffer 0: empty
buffer 1: empty
"""

# An IN runs, or a SETUP.
RUNS_IN = changed(BENCH, {6: 1, 7: 1})
RUNS_IN_STATE = BENCH_STATE.replace("the low side is free",
                                    "the low side is occupied by buffer 1")
RUNS_SETUP = changed(SMALL, {6: 1})
RUNS_SETUP_STATE = SMALL_STATE.replace(
    "the low side is occupied by an emptied transaction",
    "the low side is occupied by buffer 0")

# The example's area before its start-split that is refused.
NAK_STATE = """\
hub: 4 ports, 3 buffers, configured, the low side is free
port 1: Enabled, full speed
port 2: Enabled, full speed
port 3: Powered-off
port 4: Powered-off
buffer 0: pending at place 0, lane 0 (5,1 IN), IN bulk, full speed, toggle 0, \
no payload
buffer 1: pending at place 1, lane 0 (5,2 IN), IN bulk, full speed, toggle 0, \
no payload
buffer 2: empty
"""
