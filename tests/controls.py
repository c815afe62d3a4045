"""The rate controls: how many packets may be in flight (the window), and how many nanoseconds lie between two of them
(the period).

A control is told of full ACKs, of NAKs and of timeouts, with the path as it then is. It is made for the bytes of a
packet and the peer's flow window at the connection.
"""
from dataclasses import dataclass
from typing import Optional

from timing import SECOND, SYN

FIRST_WINDOW, LEAST_WINDOW, GREATEST_WINDOW = 16, 2, 65_536
GREATEST_PERIOD = 10**9         # nanoseconds: a second
FIXED_PERIOD = 100_000
NANOSECONDS = 1_000             # of a microsecond
PARTS = 10**6                   # an increase is told in millionths of a packet


def power_of_ten(least):
    """The least power of ten that isn't below a number."""
    power = 1
    while power < least:
        power *= 10
    return power


def increase(capacity, period, packet):
    """How much more is sent in a SYN after an ACK, in millionths of a packet of so many bytes."""
    least, speed = PARTS // packet, GREATEST_PERIOD // period
    if capacity <= speed:
        return least
    return max(least, 3 * power_of_ten((capacity - speed) * packet * 8) // (2 * packet))


def shorter(period, more):
    """The period with which that much more is sent in a SYN."""
    syn = SYN * NANOSECONDS * PARTS
    return max(1, period * syn // (period * more + syn))


def is_new(first, last_decrease):
    """Whether a loss lies above all that had been sent at the last decrease."""
    return last_decrease is None or first > last_decrease


@dataclass
class Native:
    """UDT's own control: slow start, and then a period that ACKs shorten and new losses lengthen."""

    packet: int
    flow: int
    window: int = FIRST_WINDOW
    period: int = 0
    is_slow: bool = True
    last_decrease: Optional[int] = None

    def end_slow_start(self, path):
        wanted = GREATEST_PERIOD // path.rate if path.rate else NANOSECONDS * (path.rtt + SYN) // self.window
        self.is_slow, self.period = False, max(1, min(wanted, GREATEST_PERIOD))

    def on_ack(self, newly, path):
        if self.is_slow:
            self.window = min(self.window + newly, GREATEST_WINDOW)
            if self.window >= self.flow:
                self.end_slow_start(path)
            return
        self.window = min(path.rate * (path.rtt + SYN) // SECOND + FIRST_WINDOW, GREATEST_WINDOW)
        self.period = shorter(self.period, increase(path.capacity, self.period, self.packet))

    def on_nak(self, first, sent, path):
        if self.is_slow:
            self.end_slow_start(path)
        elif is_new(first, self.last_decrease):
            # (an eighth longer, rounded up)
            self.period, self.last_decrease = min((9 * self.period + 7) // 8, GREATEST_PERIOD), sent - 1

    def on_timeout(self, path):
        if self.is_slow:
            self.end_slow_start(path)


@dataclass
class Fixed:
    """A window and a period that nothing changes."""

    packet: int
    flow: int
    window: int = GREATEST_WINDOW
    period: int = FIXED_PERIOD

    def on_ack(self, newly, path):
        pass

    def on_nak(self, first, sent, path):
        pass

    def on_timeout(self, path):
        pass


@dataclass
class Additive:
    """A window that ACKs widen and new losses halve. It has no period."""

    packet: int
    flow: int
    window: int = FIRST_WINDOW
    period: int = 0
    threshold: int = GREATEST_WINDOW
    rest: int = 0       # acknowledged packets that haven't widened the window yet
    last_decrease: Optional[int] = None

    def on_ack(self, newly, path):
        if self.window < self.threshold:
            self.window = min(self.window + newly, GREATEST_WINDOW)
            return
        more, self.rest = divmod(self.rest + newly, self.window)
        self.window = min(self.window + more, GREATEST_WINDOW)

    def on_nak(self, first, sent, path):
        if is_new(first, self.last_decrease):
            self.halve()
            self.window, self.last_decrease = self.threshold, sent - 1

    def on_timeout(self, path):
        self.halve()
        self.window = LEAST_WINDOW

    def halve(self):
        self.threshold, self.rest = max(self.window // 2, LEAST_WINDOW), 0


NATIVE = "native"
CONTROLS = {NATIVE: Native, "fixed": Fixed, "aimd": Additive}
