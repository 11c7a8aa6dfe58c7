#!/usr/bin/env python3
"""Writes session.rec: a session of two computers and their microphones.

session.py FILE

The hub has the numbers HUB.  Lane 0 is the computer that records, lane 1 the
one that measures; each has given its microphone address 5.  A foot switch at
low speed hangs on port 3, an interface at high speed on port 4, port 5 stays
empty.  The computers also make calls that the hub refuses, of every kind.
"""

import sys

from blocks import recording_of
from hub_calls import (ACK, ATTACH_FULL, ATTACH_LOW, BULK, C_CONNECTION,
                       C_ENABLE, C_OVER_CURRENT, C_RESET, C_SUSPEND, CHIRP,
                       CONTROL, DATA0, DATA1, DETACH, ENABLE, FAILURE, IN, NAK,
                       OUT, OVER_CURRENT_OFF, OVER_CURRENT_ON, PORT_ERROR,
                       POWER, RESET, SETUP, STALL, SUSPEND, WAKE, Calls)

HUB = (5, 3, 50, 100, 0x2E)
MICROPHONE = 5
SWITCH = 7
TAKE, TABLE, METER = 1, 2, 3  # endpoints
INTO, BACK = 0, 1             # directions


class Samples:
    """A tone with some noise, the same in every run."""

    def __init__(self, seed):
        self.state = seed
        self.count = 0

    def take(self, length):
        taken = []
        for _ in range(length):
            self.state = (self.state * 1103515245 + 12345) % 2 ** 31
            self.count += 1
            wave = abs(self.count % 48 - 24) * 10
            taken.append((wave + (self.state >> 20) % 7) % 256)
        return bytes(taken)


class Session(Calls):
    def __init__(self):
        super().__init__()
        self.samples = Samples(19)

    def run(self, result, payload=b"", meanwhile=()):
        """One transaction on the low side."""
        self.launch()
        for call in meanwhile:
            call()
        self.deliver(result, payload)

    def serve(self, lane, port, *changes):
        """The driver looks at a port whose change bits are set."""
        self.poll(lane)
        self.get_port_status(lane, port)
        self.clear_port(lane, port, *changes)
        self.poll(lane)

    def bring_up(self, lane, port, attach, chirps=False):
        self.set_port(lane, port, POWER)
        self.tick(3)
        self.event(attach, port)
        self.serve(lane, port, C_CONNECTION)
        self.reset_port(lane, port, chirps)

    def reset_port(self, lane, port, chirps=False):
        self.set_port(lane, port, RESET)
        self.tick(7)
        if chirps:
            self.event(CHIRP, port)
        self.tick(8)
        self.serve(lane, port, C_RESET)

    # Transfers through splits.

    def stage(self, lane, pid, address, result, sent=b"", got=b"", toggle=1,
              low_speed=0):
        """One stage of a control transfer."""
        self.start(lane, pid, address, 0, sent, CONTROL, low_speed, toggle)
        self.run(result, got)
        self.complete(lane, address, 0, BACK if pid == IN else INTO)

    def control_in(self, lane, address, setup, got, low_speed=0):
        self.stage(lane, SETUP, address, ACK, setup, b"", 0, low_speed)
        self.stage(lane, IN, address, DATA1, b"", got, 1, low_speed)
        self.stage(lane, OUT, address, ACK, b"", b"", 1, low_speed)

    def control_out(self, lane, address, setup, sent=b"", low_speed=0):
        self.stage(lane, SETUP, address, ACK, setup, b"", 0, low_speed)
        if sent:
            self.stage(lane, OUT, address, ACK, sent, b"", 1, low_speed)
        self.stage(lane, IN, address, DATA1, b"", b"", 1, low_speed)

    def enumerate(self, lane, address, low_speed=0):
        descriptor = bytes([18, 1, 0, 2, 0, 0, 0, 64, 0x09, 0x12, 0x19, 0xC0,
                            0, 1, 1, 2, 0, 1])
        self.control_in(lane, 0, bytes([0x80, 6, 0, 1, 0, 0, 18, 0]),
                        descriptor[:8] if low_speed else descriptor, low_speed)
        self.control_out(lane, 0, bytes([0, 5, address, 0, 0, 0, 0, 0]),
                         low_speed=low_speed)
        self.tick(2)
        self.control_out(lane, address, bytes([0, 9, 1, 0, 0, 0, 0, 0]),
                         low_speed=low_speed)

    def send_table(self, lane, length):
        """The calibration table, by bulk OUT, one packet refused."""
        for place in range(0, length, 40):
            packet = self.samples.take(min(40, length - place))
            toggle = place // 40 % 2
            self.start(lane, OUT, MICROPHONE, TABLE, packet, toggle=toggle)
            if place == 40:
                self.run(NAK)
                self.complete(lane, MICROPHONE, TABLE, INTO)
                self.start(lane, OUT, MICROPHONE, TABLE, packet,
                           toggle=toggle)
            self.run(ACK)
            self.complete(lane, MICROPHONE, TABLE, INTO)

    def packet(self, lane, toggle, length, result=None):
        """One bulk IN, asked for too early once."""
        self.start(lane, IN, MICROPHONE, TAKE, toggle=toggle)
        self.complete(lane, MICROPHONE, TAKE, BACK)
        if result is None:
            self.run(DATA1 if toggle else DATA0, self.samples.take(length))
        else:
            self.run(result)
        self.complete(lane, MICROPHONE, TAKE, BACK)

    def take(self, lane, packets, length):
        """A take; the microphone isn't ready at every fifth IN."""
        for number in range(packets):
            if number % 5 == 4:
                self.packet(lane, number % 2, 0, NAK)
            self.packet(lane, number % 2, length)
            self.tick()
        self.packet(lane, packets % 2, length // 3)

    def both_take(self, packets):
        """Both lanes read the same address at once; results asked again."""
        for number in range(packets):
            toggle = number % 2
            for lane in (0, 1):
                self.start(lane, IN, MICROPHONE, TAKE, toggle=toggle)
            self.start(1 - toggle, IN, MICROPHONE, TAKE, toggle=toggle)
            for lane in (0, 1):
                self.run(DATA1 if toggle else DATA0, self.samples.take(24),
                         [lambda: self.complete(1, MICROPHONE, TAKE, BACK)])
            self.launch()
            for lane in (1, 0, toggle):
                self.complete(lane, MICROPHONE, TAKE, BACK)
            self.tick()
            self.poll(toggle)


def before_configuration(of):
    """Nearly everything is silent."""
    of.tick(5)
    for lane in (0, 1):
        of.poll(lane)
        of.start(lane, IN, MICROPHONE, TAKE)
        of.complete(lane, MICROPHONE, TAKE, BACK)
        of.get_port_status(lane, 1)
    of.launch()
    of.deliver(FAILURE)
    of.event(ATTACH_FULL, 1)
    of.get_configuration(0)
    for length in (9, 0, 7, 255):
        of.get_descriptor(length % 2, length)
    of.configure(0, 1)
    of.get_configuration(1)
    of.get_hub_status(1)
    of.clear_hub(0, 0)
    of.clear_hub(1, 1)


def power_up(of):
    of.bring_up(0, 1, ATTACH_FULL)
    of.bring_up(1, 2, ATTACH_FULL)
    of.bring_up(0, 3, ATTACH_LOW)
    of.bring_up(1, 4, ATTACH_FULL, chirps=True)
    of.set_port(0, 5, POWER)
    of.enumerate(0, MICROPHONE)
    of.enumerate(1, MICROPHONE)
    of.enumerate(0, SWITCH, low_speed=1)
    of.send_table(0, 120)
    of.send_table(1, 100)


def at_the_limit(of):
    """Three buffers: a lane holds two, and the other finds one or none."""
    for endpoint in (TAKE, TABLE, METER):
        of.start(0, IN, MICROPHONE, endpoint)
    of.start(1, IN, MICROPHONE, TAKE)
    of.start(1, IN, MICROPHONE, TABLE)
    of.run(DATA0, of.samples.take(64))
    of.start(0, IN, MICROPHONE, METER)
    of.start(0, OUT, MICROPHONE, TAKE, of.samples.take(5))
    of.complete(0, MICROPHONE, TAKE, BACK)
    of.start(0, IN, MICROPHONE, METER)
    of.complete(0, MICROPHONE, TAKE, BACK)
    for result in (STALL, NAK, FAILURE):
        of.run(result)
    of.launch()
    of.deliver(NAK)
    for lane, endpoint in ((0, TABLE), (1, TAKE), (0, METER), (0, TABLE),
                           (1, METER)):
        of.complete(lane, MICROPHONE, endpoint, BACK)


def cleared_while_running(of, lane):
    """The result of an emptied transaction is thrown away."""
    other = 1 - lane
    of.start(lane, IN, MICROPHONE, TAKE)
    of.run(ACK, b"", [
        lambda: of.clear_tt(lane, MICROPHONE, TAKE, BACK), of.launch,
        lambda: of.complete(lane, MICROPHONE, TAKE, BACK)])
    of.start(lane, OUT, MICROPHONE, TABLE, b"\x01\x02")
    of.start(other, IN, MICROPHONE, TAKE)
    of.run(DATA1, of.samples.take(9), [
        lambda: of.reset_tt(lane), of.launch,
        lambda: of.reset_tt(lane)])
    of.run(DATA0, of.samples.take(30), [
        lambda: of.reset_tt(lane), lambda: of.deliver(ACK)])
    of.complete(other, MICROPHONE, TAKE, BACK)
    of.clear_tt(other, MICROPHONE, TAKE, BACK)
    of.complete(other, MICROPHONE, TAKE, BACK)
    of.clear_tt(lane, 99, 3, INTO, CONTROL)


def unplugged(of):
    """Microphone 2 goes while its packet is on the way, and comes back."""
    of.start(1, IN, MICROPHONE, TAKE)
    of.start(0, IN, MICROPHONE, TAKE)
    of.run(FAILURE, b"", [lambda: of.event(DETACH, 2),
                          lambda: of.event(DETACH, 2),
                          lambda: of.poll(0)])
    of.complete(1, MICROPHONE, TAKE, BACK)
    of.serve(1, 2, C_CONNECTION)
    of.reset_tt(1)
    of.run(DATA0, of.samples.take(64))
    of.complete(0, MICROPHONE, TAKE, BACK)
    of.tick(9)
    of.event(ATTACH_FULL, 2)
    of.serve(1, 2, C_CONNECTION)
    of.reset_port(1, 2)
    of.enumerate(1, MICROPHONE)


def line_troubles(of):
    """A port error, over-current, suspend and resume."""
    of.event(PORT_ERROR, 1)
    of.event(PORT_ERROR, 1)
    of.serve(0, 1, C_ENABLE)
    of.reset_port(0, 1)
    of.event(OVER_CURRENT_ON, 3)
    of.event(OVER_CURRENT_ON, 3)
    of.set_port(0, 3, POWER)
    of.serve(0, 3, C_OVER_CURRENT)
    of.event(OVER_CURRENT_OFF, 3)
    of.serve(1, 3, C_OVER_CURRENT)
    of.bring_up(0, 3, ATTACH_LOW)
    of.set_port(1, 2, SUSPEND)
    of.get_port_status(1, 2)
    of.clear_port(1, 2, SUSPEND)
    of.tick(22)
    of.serve(1, 2, C_SUSPEND)
    of.set_port(0, 1, SUSPEND)
    of.event(WAKE, 1)
    of.event(WAKE, 1)
    of.tick(21)
    of.get_port_status(0, 1)
    of.tick()
    of.serve(0, 1, C_SUSPEND)
    of.clear_port(1, 4, ENABLE)
    of.get_port_status(0, 4)
    of.reset_port(1, 4)
    of.clear_port(1, 4, POWER)
    of.bring_up(1, 4, ATTACH_FULL, chirps=True)


def wrong_requests(of, lane):
    """STALL for each field, then setups of the wrong length."""
    for fields in ((0x23, 5, 8, 2, 0), (0, 9, 2, 0, 0), (0x80, 8, 0, 1, 1),
                   (0xA0, 6, 0x2901, 0, 9), (0xA0, 0, 0, 0, 3),
                   (0xA3, 0, 0, 6, 4), (0x20, 1, 2, 0, 0), (0x23, 1, 3, 1, 0),
                   (0x23, 3, 1, 1, 0), (0x23, 8, 0x4000, 1, 0),
                   (0x23, 9, 0, 2, 0), (0xFF, 0xFF, 65535, 65535, 65535)):
        of.request(lane, *fields)
    status = bytes([0xA3, 0, 0, 0, 1, 0, 4, 0])
    for length in (0, 1, 7, 9, 64, 495):
        of.control(lane, (status + of.samples.take(length))[:length])


def outside_numbers(of):
    """Answer 6 by every number and length."""
    huge = 2 ** 32 - 1
    for lane in (2, 255, huge):
        of.get_port_status(lane, 1)
        of.poll(lane)
        of.start(lane, IN, MICROPHONE, TAKE)
        of.complete(lane, MICROPHONE, TAKE, BACK)
    for pid, transfer, low_speed, toggle in (
            (0, BULK, 0, 0), (5, BULK, 0, 0), (huge, BULK, 0, 0),
            (IN, 1, 0, 0), (IN, 3, 0, 0), (IN, huge, 0, 0), (IN, BULK, 2, 0),
            (IN, BULK, huge, 0), (IN, BULK, 0, 2), (IN, BULK, 0, huge)):
        of.start(0, pid, MICROPHONE, TAKE, b"", transfer, low_speed, toggle)
    of.start(1, SETUP, MICROPHONE, 0, bytes(8), BULK)
    for address, endpoint in ((128, 1), (200, 1), (huge, 1), (5, 16),
                              (5, huge)):
        of.start(1, IN, address, endpoint)
        of.complete(0, address, endpoint, BACK)
    for direction in (2, 9, huge):
        of.complete(1, MICROPHONE, TAKE, direction)
    for pid, length in ((OUT, 65), (OUT, 475), (IN, 1), (SETUP, 7), (SETUP, 9),
                        (SETUP, 0)):
        of.start(0, pid, MICROPHONE, TAKE, of.samples.take(length), CONTROL)
    for result, length in ((1, 0), (5, 0), (huge, 0), (ACK, 1), (NAK, 1),
                           (STALL, 64), (FAILURE, 2), (DATA0, 65),
                           (DATA1, 499)):
        of.deliver(result, of.samples.take(length))
    for event, port in ((8, 1), (huge, 1), (DETACH, 0), (DETACH, 6),
                        (DETACH, huge)):
        of.event(event, port)


def small_reply_spaces(of):
    """Under 64 bytes there is no space, from 64 on always the same."""
    of.start(0, IN, MICROPHONE, TAKE)
    for room in (0, 1, 10, 63, 65, 1024, 4096, 2 ** 32 - 1):
        of.request(0, 0xA3, 0, 0, 1, 4, room)
        of.request(1, 0xFF, 0, room=room)
        of.poll(1, room)
        of.complete(0, MICROPHONE, TAKE, BACK, room)
        of.launch(room)
    of.deliver(ACK)
    of.deliver(DATA1, of.samples.take(64))
    for room in (63, 64, 0, 2 ** 32 - 1):
        of.complete(0, MICROPHONE, TAKE, BACK, room)


def wrong_moments(of):
    """Answer 8, 4, 3 and 2 where nothing is due."""
    of.deliver(DATA0, of.samples.take(4))
    of.launch()
    of.complete(0, 99, TAKE, BACK)
    of.start(1, SETUP, MICROPHONE, 0, bytes(8), CONTROL)
    of.run(FAILURE, b"", [lambda: of.deliver(NAK), lambda: of.deliver(DATA0),
                          lambda: of.deliver(STALL),
                          lambda: of.complete(1, MICROPHONE, 0, INTO)])
    of.complete(1, MICROPHONE, 0, INTO)
    of.complete(1, MICROPHONE, 0, BACK)
    of.event(CHIRP, 1)
    of.event(WAKE, 3)
    of.event(ATTACH_LOW, 3)
    of.event(DETACH, 5)
    of.poll(0)


def started_anew(of):
    """A bus reset in the middle of transactions, then configured twice."""
    of.start(0, IN, MICROPHONE, TAKE)
    of.start(1, IN, MICROPHONE, TAKE)
    of.run(DATA0, of.samples.take(12))
    of.launch()
    of.bus_reset()
    before_configuration(of)
    power_up(of)
    of.start(0, IN, MICROPHONE, TAKE)
    of.start(1, OUT, MICROPHONE, TABLE, b"\xFF")
    of.launch()
    of.configure(1, 0)
    of.deliver(NAK)
    of.poll(0)
    of.configure(1, 1)
    of.deliver(NAK)
    power_up(of)


def left_behind(of):
    """At the end one is pending and running, one ready, one old."""
    of.start(0, IN, MICROPHONE, METER)
    of.run(NAK)
    of.complete(0, MICROPHONE, METER, BACK)
    of.start(0, IN, MICROPHONE, TAKE)
    of.run(DATA0, of.samples.take(33))
    of.start(1, IN, MICROPHONE, TAKE)
    of.launch()


def session():
    """The bytes of session.rec."""
    of = Session()
    before_configuration(of)
    power_up(of)
    of.take(0, 12, 64)
    of.take(1, 12, 48)
    at_the_limit(of)
    of.both_take(24)
    cleared_while_running(of, 0)
    cleared_while_running(of, 1)
    unplugged(of)
    of.both_take(16)
    line_troubles(of)
    wrong_requests(of, 0)
    wrong_requests(of, 1)
    outside_numbers(of)
    small_reply_spaces(of)
    wrong_moments(of)
    of.take(1, 10, 32)
    started_anew(of)
    of.both_take(20)
    of.take(0, 14, 64)
    unplugged(of)
    at_the_limit(of)
    left_behind(of)
    return recording_of(of.records)


def main():
    if len(sys.argv) != 2:
        sys.exit(__doc__)
    with open(sys.argv[1], "wb") as file:
        file.write(session())


if __name__ == "__main__":
    main()
