"""The calls of a session as they are made, written as records."""

from blocks import record

OUT, IN, SETUP = 1, 9, 13
CONTROL, BULK = 0, 2
FAILURE, ACK, DATA0, NAK, DATA1, STALL = 0, 2, 3, 10, 11, 14
(ATTACH_LOW, ATTACH_FULL, DETACH, CHIRP, WAKE, PORT_ERROR, OVER_CURRENT_ON,
 OVER_CURRENT_OFF) = range(8)
ENABLE, SUSPEND, RESET, POWER = 1, 2, 4, 8
C_CONNECTION, C_ENABLE, C_SUSPEND, C_OVER_CURRENT, C_RESET = range(16, 21)
ROOM = 64


class Calls:
    """A list of records, with a function for each call."""

    def __init__(self):
        self.records = []

    def add(self, kind, *numbers, payload=b""):
        self.records.append(record(kind, numbers, bytes(payload)))

    def control(self, lane, setup, room=ROOM):
        self.add("control", lane, room, payload=setup)

    def poll(self, lane, room=ROOM):
        self.add("poll", lane, room)

    def start(self, lane, pid, address, endpoint, payload=b"", transfer=BULK,
              low_speed=0, toggle=0):
        self.add("start-split", lane, pid, transfer, low_speed, toggle,
                 address, endpoint, payload=payload)

    def complete(self, lane, address, endpoint, direction, room=ROOM):
        self.add("complete-split", lane, address, endpoint, direction, room)

    def launch(self, room=ROOM):
        self.add("launch", room)

    def deliver(self, result, payload=b""):
        self.add("deliver", result, payload=payload)

    def event(self, event, port):
        self.add("line-event", event, port)

    def tick(self, count=1):
        for _ in range(count):
            self.add("tick")

    def bus_reset(self):
        self.add("bus-reset")

    # Control requests.

    def request(self, lane, type_of, code, value=0, index=0, length=0,
                room=ROOM):
        self.control(lane, bytes([type_of, code]) + b"".join(
            field.to_bytes(2, "little") for field in (value, index, length)),
            room)

    def configure(self, lane, value):
        self.request(lane, 0x00, 9, value)

    def get_configuration(self, lane):
        self.request(lane, 0x80, 8, length=1)

    def get_descriptor(self, lane, length):
        self.request(lane, 0xA0, 6, 0x2900, 0, length)

    def get_hub_status(self, lane):
        self.request(lane, 0xA0, 0, length=4)

    def get_port_status(self, lane, port):
        self.request(lane, 0xA3, 0, 0, port, 4)

    def clear_hub(self, lane, feature):
        self.request(lane, 0x20, 1, feature)

    def clear_port(self, lane, port, *features):
        for feature in features:
            self.request(lane, 0x23, 1, feature, port)

    def set_port(self, lane, port, feature):
        self.request(lane, 0x23, 3, feature, port)

    def clear_tt(self, lane, address, endpoint, direction, transfer=BULK):
        self.request(lane, 0x23, 8, endpoint | address << 4 | transfer << 11
                     | direction << 15, 1)

    def reset_tt(self, lane):
        self.request(lane, 0x23, 9, 0, 1)
