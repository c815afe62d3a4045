"""The two halves of a connected socket: what it sends, and what it receives.

Offsets count the packets of a direction. A packet carries its offset as a sequence number.
"""
import math
from dataclasses import dataclass

from read import NEAR, NUMBERS
from shakes import HEADERS, LEAST_FLOW, clamped
from timing import SYN, Window

PACKETS = 1 << 60               # the packets that a direction may ever have
LAST_MESSAGE = (1 << 29) - 1    # 1 comes after it
LAST_ACK_NUMBER = NUMBERS - 1   # 1 comes after it
FIRST, LAST, ORDER = 1 << 31, 1 << 30, 1 << 29  # the flags of a message's first and last block, and of its order
PROBE = 16                      # after a sequence number that this divides the next packet follows at once
LIGHT_ACK_BLOCKS = 64           # a light ACK comes after so many placed blocks
ACK_HISTORY = 1_024             # full ACKs that are remembered
FIRST_TRIPS = 2                 # round trips from the first report of a loss to the second
MOST_TRIPS = (1 << 32) - 1
LEAST_NAK_WORDS = 2
NEVER = math.inf                # when a message without a time to live expires


def near(isn, base, number):
    """The offset near the base that has this sequence number, or None."""
    ahead = (number - isn - base) % NUMBERS
    found = [n for n in (base + ahead, base + ahead - NUMBERS) if n >= 0 and abs(n - base) < NEAR]
    return found[0] if found else None


def runs(offsets):
    """The longest ranges of consecutive offsets, in rising order."""
    found = []
    for offset in sorted(offsets):
        if found and found[-1][1] == offset - 1:
            found[-1] = (found[-1][0], offset)
        else:
            found.append((offset, offset))
    return found


def words_of(run):
    """How many words of a NAK a range takes."""
    return 1 if run[0] == run[1] else 2


class Refused(Exception):
    """Why a call is refused, in the words that are printed."""


@dataclass
class Opening:
    """With what a socket is opened."""

    kind: str       # what it carries: a stream, or messages
    payload: int    # the most bytes of a block
    isn: int        # its own initial sequence number
    blocks: int     # the room for blocks each way
    control: type
    start: int = 0  # the offset at which both directions begin


@dataclass
class Message:
    """A message that was accepted: its number, its first and last offset, and the moment after which it is dropped."""

    number: int
    first: int
    last: int
    expires: float


class Sender:
    """The sending half: accepted blocks, which are sent and kept until they are acknowledged."""

    def __init__(self, opening, peer, path):
        self.opening, self.path, self.payload = opening, path, peer.payload
        self.acked = self.next = self.end = opening.start   # (each block below these: acknowledged, sent, accepted)
        self.kept = {}                                      # flags, bytes and message, by offset
        self.lost = set()
        self.flow = peer.flow
        self.control = opening.control(peer.payload + HEADERS, self.flow)
        self.message = 1
        self.due = 0                                        # when the next packet may go out, in nanoseconds
        self.sent = self.resent = 0

    def number_of(self, offset):
        """The sequence number of an offset."""
        return (self.opening.isn + offset) % NUMBERS

    def accept(self, given):
        """Takes the bytes of a stream that fit, as blocks of one message, and says how many."""
        left, free, payload = PACKETS - self.end, self.opening.blocks - len(self.kept), self.payload
        if given and left == 0:
            raise Refused("refused 9001")
        if given and free == 0:
            raise Refused("again")
        return self.keep(given[: min(free, left) * payload], 0, NEVER)

    def accept_message(self, given, order, expires):
        """Takes a message whole, and says how many bytes it has."""
        blocks = -(-len(given) // self.payload)
        if blocks > self.opening.blocks:
            raise Refused("refused 5012")
        if blocks > PACKETS - self.end:
            raise Refused("refused 9001")
        if blocks > self.opening.blocks - len(self.kept):
            raise Refused("again")
        return self.keep(given, order, expires)

    def keep(self, taken, order, expires):
        """Keeps these bytes, if there are any, as the blocks of one message."""
        if not taken:
            return 0
        payload = self.payload
        message = Message(self.message, self.end, self.end + (len(taken) - 1) // payload, expires)
        for at in range(0, len(taken), payload):
            ends = (FIRST if self.end == message.first else 0) + (LAST if self.end == message.last else 0)
            self.kept[self.end] = ends + order * ORDER + message.number, taken[at : at + payload], message
            self.end += 1
        self.message = self.message % LAST_MESSAGE + 1
        return len(taken)

    def drop(self, now):
        """The message of the least lost block, where it has expired. None of its blocks is sent any more."""
        message = self.kept[min(self.lost)][2] if self.lost else None
        if message is None or now <= message.expires:
            return None
        self.lost.difference_update(range(message.first, message.last + 1))
        self.next = max(self.next, message.last + 1)
        return message

    def choose(self, now):
        """The offset of the block that goes out: the least lost one, or the next one where both windows allow it."""
        if self.lost:
            offset = min(self.lost)
            self.lost.remove(offset)
            self.resent += 1
        elif self.next < self.end and self.next - self.acked < min(self.flow, self.control.window):
            offset = self.next
            self.next += 1
            self.sent += 1
        else:
            return None
        begins_pair = self.number_of(offset) % PROBE == 0
        self.due = 1000 * now + (0 if begins_pair else self.control.period)
        return offset

    def on_ack(self, body):
        """Whether an ACK names an offset from the first kept one to the next. All blocks below it are released."""
        offset = near(self.opening.isn, self.acked, body["ack"])
        if offset is None or not self.acked <= offset <= self.next:
            return False
        newly = offset - self.acked
        for released in range(self.acked, offset):
            del self.kept[released]
            self.lost.discard(released)
        self.acked = offset
        if body["form"] == "light":
            self.flow = max(LEAST_FLOW, self.flow - newly)
            return True
        self.path.take_sample(body["rtt"])
        self.flow = clamped(body["buffer"])
        if body["form"] == "full":
            self.path.take_rates(body["rate"], body["capacity"])
            self.control.on_ack(newly, self.path)
        return True

    def sent_range(self, first, last):
        """The offsets in flight that a range of a NAK names, or None where it names others."""
        isn, acked = self.opening.isn, self.acked
        first, last = near(isn, acked, first), near(isn, acked, last)
        if last is None or not acked <= last < self.next or (first is not None and first > last):
            return None
        return range(acked if first is None else max(first, acked), last + 1)

    def on_nak(self, ranges):
        """Whether a NAK names a packet in flight. What it names is lost."""
        named = [it for it in (self.sent_range(*ends) for ends in ranges) if it]
        if not named:
            return False
        self.lost.update(*named)
        self.control.on_nak(min(it[0] for it in named), self.next, self.path)
        return True

    def on_timeout(self):
        """Whether packets are in flight. All of them are lost."""
        if self.next == self.acked:
            return False
        self.lost.update(range(self.acked, self.next))
        self.control.on_timeout(self.path)
        return True


@dataclass
class Report:
    """When a loss was reported last, and how many round trips later it is reported again."""

    moment: int
    trips: int = FIRST_TRIPS


class Receiver:
    """The receiving half: placed blocks, which are kept until they are read."""

    def __init__(self, opening, peer, path, now):
        self.blocks, self.isn, self.payload, self.path = opening.blocks, peer.isn, peer.payload, path
        self.base = self.top = self.confirmed = opening.start   # (not read yet; highest that arrived, plus one)
        self.placed = {}                                        # flags and bytes, by offset; None once consumed
        self.given = 0                                          # bytes of the base's block that were read already
        self.lost = {}                                          # reports, by offset
        self.arrivals, self.pairs = Window(), Window()
        self.last_data = None                                   # the moment of the last data packet
        self.fresh = 0                                          # blocks placed since the last ACK
        self.history = {}                                       # offset and moment of full ACKs, by their numbers
        self.last_ack = None                                    # number, offset and moment of the last full ACK
        self.ack_due, self.nak_due = now + SYN, now + path.interval()

    def number_of(self, offset):
        """The sequence number of an offset."""
        return (self.isn + offset) % NUMBERS

    def read(self, room):
        """The first bytes that wait, as many as there is room for. A block whose bytes are all read is consumed."""
        given = []
        while room and self.base in self.placed:
            block = self.placed[self.base][1]
            given.append(block[self.given : self.given + room])
            room -= len(given[-1])
            self.given += len(given[-1])
            if self.given == len(block):
                self.consume([self.base])
        return b"".join(given)

    def consume(self, offsets):
        """These offsets are done with. The base moves over all that are."""
        self.placed.update(dict.fromkeys(offsets))
        while self.base in self.placed and self.placed[self.base] is None:
            del self.placed[self.base]
            self.base, self.given = self.base + 1, 0

    def message_at(self, first):
        """The offsets of the message that is readable from this one on, or none."""
        flags = self.placed[first][0]
        waits = flags["order"] and any(offset not in self.placed for offset in range(self.base, first))
        if not flags["first"] or waits:
            return range(0)
        last = first
        while not self.placed[last][0]["last"]:
            last += 1
            if self.placed.get(last) is None or self.placed[last][0]["message"] != flags["message"]:
                return range(0)
        return range(first, last + 1)

    def next_message(self):
        """The offsets of the next message, or none."""
        live = sorted(offset for offset, block in self.placed.items() if block is not None)
        return next(filter(None, map(self.message_at, live)), range(0))

    def read_message(self, room):
        """The bytes of the next message, or none where no message is readable."""
        offsets = self.next_message()
        given = b"".join(self.placed[offset][1] for offset in offsets)
        if len(given) > room:
            raise Refused("refused 5012")
        self.consume(offsets)
        return given

    def ack_offset(self):
        """The first offset that has not arrived."""
        return min(self.lost, default=self.top)

    def measure(self, number, now):
        """A data packet arrived, whatever becomes of it."""
        if self.last_data is not None:
            self.arrivals.push(now - self.last_data)
            if number % PROBE == 1:
                self.pairs.push(now - self.last_data)
        self.last_data = now

    def placing(self, offset):
        """What becomes of a block at this offset."""
        if offset is None or offset >= PACKETS:
            return "above"
        if offset < self.base:
            return "below"
        if offset >= self.base + self.blocks:
            return "above"
        return "double" if offset in self.placed else "placed"

    def on_block(self, number, flags, block, now):
        """What becomes of a block; the range that is lost by it, or None; and whether a light ACK is due."""
        self.measure(number, now)
        offset = near(self.isn, self.top, number)
        outcome = self.placing(offset)
        if outcome != "placed":
            return outcome, None, False
        self.placed[offset] = flags, block
        gap = self.arrived(offset, offset, now)
        self.fresh = (self.fresh + 1) % LIGHT_ACK_BLOCKS
        return outcome, gap, self.fresh == 0

    def arrived(self, first, last, now):
        """These offsets are missing no more. The range that is lost by it, or None."""
        gap = (self.top, first - 1) if first > self.top else None
        self.lost.update({lost: Report(now) for lost in range(self.top, first)})
        for offset in range(max(first, self.base), last + 1):
            self.lost.pop(offset, None)
        self.top = max(self.top, last + 1)
        return gap

    def on_drop(self, first, last, now):
        """Whether a drop request takes offsets, and the range that is lost by it, or None."""
        first, last = (near(self.isn, self.top, number) for number in (first, last))
        if first is None or last is None or first > last or last >= PACKETS:
            return False, None
        if not self.base <= last < self.base + self.blocks:
            return False, None
        gap = self.arrived(first, last, now)
        self.consume(range(max(first, self.base), last + 1))
        return True, gap

    def on_ack2(self, number, now):
        """Whether an ACK2 answers an ACK that is remembered. It measures the round trip and confirms the offset."""
        if number not in self.history:
            return False
        offset, moment = self.history.pop(number)
        self.path.take_sample(now - moment)
        self.confirmed = max(self.confirmed, offset)
        return True

    def is_known(self, offset, now):
        """Whether the peer knows this ACK offset, or was told of it not long ago."""
        if offset == self.confirmed:
            return True
        return self.last_ack is not None and offset == self.last_ack[1] and now - self.last_ack[2] < 2 * self.path.rtt

    def tick_ack(self, now):
        """Number, offset and free blocks of a full ACK, where one is due."""
        if now < self.ack_due:
            return None
        self.ack_due, offset = now + SYN, self.ack_offset()
        if self.is_known(offset, now):
            return None
        number = self.last_ack[0] % LAST_ACK_NUMBER + 1 if self.last_ack else 1
        self.last_ack, self.fresh = (number, offset, now), 0
        self.history[number] = offset, now
        if len(self.history) > ACK_HISTORY:
            del self.history[next(iter(self.history))]
        return number, offset, max(LEAST_FLOW, self.blocks - (offset - self.base))

    def tick_nak(self, now):
        """The ranges that are to be reported now."""
        if now < self.nak_due:
            return []
        self.nak_due = now + self.path.interval()
        room, told = max(LEAST_NAK_WORDS, self.payload // 4), []
        for run in runs(n for n, it in self.lost.items() if now - it.moment >= it.trips * self.path.rtt):
            room -= words_of(run)
            if room < 0:
                break
            told.append(run)
            for offset in range(run[0], run[1] + 1):
                self.lost[offset] = Report(now, min(self.lost[offset].trips + 1, MOST_TRIPS))
        return told
