"""What a socket measures: round trips, arrivals and packet pairs. Times are whole microseconds, rates are packets a
second, and each division rounds down."""
from collections import deque
from dataclasses import dataclass, field

SYN = 10_000                # the interval of the ACK timer, and a part of all other timers
FIRST_RTT = 100_000         # assumed before the first sample
FIRST_RTT_VAR = 50_000
GREATEST_RTT = 60_000_000   # a longer sample counts as this one
SECOND = 1_000_000
SAMPLES = 16                # what a window keeps
LEAST_KEPT = 9              # so many samples near the median give a speed


def averaged(known, told):
    """A rate once another one was told: seven parts of what was known. 0 is none."""
    if told == 0:
        return known
    return (7 * known + told) // 8 if known else told


@dataclass
class Path:
    """What a socket knows of the way to its peer."""

    rtt: int = FIRST_RTT
    rtt_var: int = FIRST_RTT_VAR
    rate: int = 0       # the peer's receiving rate
    capacity: int = 0   # the link capacity

    def take_sample(self, sample):
        """A round trip was measured."""
        sample = min(sample, GREATEST_RTT)
        self.rtt_var = (3 * self.rtt_var + abs(self.rtt - sample)) // 4
        self.rtt = (7 * self.rtt + sample) // 8

    def take_rates(self, rate, capacity):
        """The peer told what it measured."""
        self.rate, self.capacity = averaged(self.rate, rate), averaged(self.capacity, capacity)

    def interval(self):
        """The interval of the NAK timer, and the unit of the EXP timer."""
        return 4 * self.rtt + self.rtt_var + SYN


@dataclass
class Window:
    """The newest intervals between arrivals."""

    samples: deque = field(default_factory=lambda: deque(maxlen=SAMPLES))

    def push(self, interval):
        self.samples.append(interval)

    def median(self):
        """The ninth smallest of the 16."""
        return sorted(self.samples)[SAMPLES // 2]

    def speed(self):
        """How fast packets arrive. Samples that are far from the median don't count."""
        if len(self.samples) < SAMPLES:
            return 0
        median = self.median()
        kept = [it for it in self.samples if median <= 8 * it and it <= 8 * median]
        return len(kept) * SECOND // sum(kept) if len(kept) >= LEAST_KEPT and sum(kept) else 0

    def capacity(self):
        """How fast the link is, where the samples are of packet pairs."""
        median = self.median() if len(self.samples) == SAMPLES else 0
        return SECOND // median if median else 0
