"""A socket: a stream or messages each way, once it is connected, by handshakes or from its opening on.

It is told of calls, arrivals and ticks, and answers each with words and the datagrams that it emits, each with the
address to which it goes.
"""
import struct
from collections import Counter

from halves import Receiver, Refused, Sender, words_of
from read import TYPES
from shakes import HEADERS, KINDS, REQUEST, RESPONSE, VERSION, Connecting, Listening, Meeting, field_of
from texts import port_of
from timing import Path

LEAST_EXP_INTERVAL = 500_000    # microseconds, like all times here
MOST_EXP_COUNT, LEAST_SILENCE, GREATEST_SILENCE = 16, 3_000_000, 180_000_000
MOST_BACKLOG = 1_024
OPENERS = ("listening", "connecting", "meeting")    # the phases that take handshakes in their own way
NO_WINDOW, NO_PERIOD = 16, 0                        # what is told of a rate control before there is one

TYPE_NUMBERS = {name: number for number, name in TYPES.items()}
COUNTERS = ("placed", "double", "below", "above", "control", "stale", "foreign", "malformed")


def words(*numbers):
    return struct.pack(">%dI" % len(numbers), *numbers)


def control_word(kind):
    """The first word of a control packet."""
    return (1 << 31) + (TYPE_NUMBERS[kind] << 16)


class Socket:
    """One socket: what it makes of handshakes, and, once it is connected, its two halves and their timers."""

    def __init__(self, name, own, host, opening):
        self.name, self.own, self.host, self.opening, self.path = name, own, host, opening, Path()
        self.phase, self.cause, self.now = "opened", None, 0
        self.opener = None                      # (listens, connects or meets, in the phase of this name)
        self.peer = self.sender = self.receiver = None
        self.repeats = {}                       # what a handshake that comes again is answered, by what it asks
        self.heard, self.exp_from, self.exp_count = 0, 0, 1
        self.counts = Counter()

    @staticmethod
    def paired(name, own, host, opening, peer):
        """A socket that is connected from its opening on."""
        socket = Socket(name, own, host, opening)
        socket.peer = peer
        socket.connected({REQUEST: RESPONSE})
        return socket

    def connected(self, repeats):
        """The peer is known. The timers begin."""
        self.phase, self.repeats = "connected", repeats
        self.sender = Sender(self.opening, self.peer, self.path)
        self.receiver = Receiver(self.opening, self.peer, self.path, self.now)
        self.heard, self.exp_from, self.exp_count = self.now, self.now, 1

    def fail(self, cause):
        self.phase, self.cause = "failed", cause

    def at(self, moment):
        """A moment never goes back."""
        self.now = max(self.now, moment)

    def cut_off(self):
        """Why a call is refused, where the socket isn't connected."""
        return Refused(f"refused 2001 {self.cause}" if self.phase == "broken" else "refused 2002")

    # ---- calls that open a connection

    def begin(self, is_given, phase, opener, *values):
        """A phase begins in which handshakes are taken, where the values are in their ranges."""
        if not is_given:
            raise Refused("refused 5003")
        if self.phase != "opened":
            raise Refused("refused 5002")
        self.phase, self.opener = phase, opener(self, *values)

    def listen(self, backlog):
        self.begin(1 <= backlog <= MOST_BACKLOG, "listening", Listening, backlog)

    def connect(self, to):
        self.begin(port_of(to) != 0, "connecting", Connecting, to)

    def meet(self, to):
        self.begin(port_of(to) != 0, "meeting", Meeting, to)

    def accept(self):
        """The ID of the socket that waits longest to be accepted."""
        if self.phase == "broken":
            raise self.cut_off()
        if self.phase != "listening":
            raise Refused("refused 5006")
        if not self.opener.offered:
            raise Refused("again")
        return self.opener.offered.pop(0)

    def shake(self):
        """How far the connection is."""
        if self.phase in ("failed", "broken"):
            return f"refused {self.cause}" if self.phase == "failed" else str(self.cut_off())
        return {"connecting": "waiting", "meeting": "waiting", "connected": "connected"}.get(self.phase, "idle")

    # ---- calls of a connection

    def check(self, kind, *phases):
        """A socket that carries messages has no calls of a stream, and the other way round. It must be in a phase."""
        if kind != self.opening.kind:
            raise Refused("refused 5010" if kind == "stream" else "refused 5009")
        if self.phase not in phases:
            raise self.cut_off()

    def send(self, given):
        """How many of these bytes are accepted."""
        self.check("stream", "connected")
        return self.sender.accept(given)

    def sendmsg(self, ttl, order, given):
        """How many bytes the message has."""
        self.check("message", "connected")
        return self.sender.accept_message(given, order, self.now + ttl)

    def recv(self, room):
        """The first bytes that wait."""
        self.check("stream", "connected", "broken")
        return self.received(room, self.receiver.read)

    def recvmsg(self, room):
        """The next message."""
        self.check("message", "connected", "broken")
        return self.received(room, self.receiver.read_message)

    def received(self, room, read_into):
        given = read_into(room) if room else b""
        if room and not given:
            raise Refused("again") if self.phase == "connected" else self.cut_off()
        return given

    def close(self):
        self.phase = "closing" if self.phase in ("connected", "closing") else "closed"

    def perf(self):
        """What was measured and counted."""
        sender = self.sender
        window, period = (sender.control.window, sender.control.period) if sender else (NO_WINDOW, NO_PERIOD)
        sent, resent, acked = (sender.sent, sender.resent, sender.acked) if sender else (0, 0, 0)
        told = {"rtt": self.path.rtt, "var": self.path.rtt_var, "window": window, "period": period,
                "sent": sent, "resent": resent, **{it: self.counts[it] for it in COUNTERS}, "acked": acked}
        return " ".join(f"{name} {value}" for name, value in told.items())

    # ---- packets that go out

    def header(self, first, second, dest):
        return words(first, second, self.now % (1 << 32), dest)

    def packet(self, first, second, field):
        """A packet for the peer."""
        return self.peer.host, self.header(first, second, self.peer.id) + field

    def control_packet(self, kind, info, *field):
        return self.packet(control_word(kind), info, words(*field))

    def own_shake(self, ask, payload=None):
        """The fields of a handshake of this socket, with this payload or the one that it was opened with."""
        return {"version": VERSION, "kind": KINDS[self.opening.kind], "isn": self.opening.isn,
                "packet": (payload or self.opening.payload) + HEADERS, "flow": self.opening.blocks, "ask": ask,
                "id": self.own, "cookie": 0}

    def handshake(self, to, dest, shake):
        return to, self.header(control_word("handshake"), 0, dest) + field_of(shake, to)

    def answer(self, ask):
        """A handshake for the peer, with what both agreed on."""
        return self.handshake(self.peer.host, self.peer.id, self.own_shake(ask, self.peer.payload))

    def nak(self, ranges):
        """A loss report: one word for one offset, and two for more, the first of them with its first bit set."""
        field = []
        for run in ranges:
            first, last = map(self.receiver.number_of, run)
            field += [first] if words_of(run) == 1 else [(1 << 31) + first, last]
        return self.control_packet("nak", 0, *field)

    def pack(self):
        """What goes out next, and its datagram."""
        if self.phase != "connected":
            return "nothing", []
        if 1000 * self.now < self.sender.due:
            # (rounded up to microseconds)
            return f"notyet {(self.sender.due + 999) // 1000}", []
        message = self.sender.drop(self.now)
        if message:
            ends = self.sender.number_of(message.first), self.sender.number_of(message.last)
            return "drop", [self.control_packet("drop", message.number, *ends)]
        offset = self.sender.choose(self.now)
        if offset is None:
            return "nothing", []
        flags, block, _ = self.sender.kept[offset]
        return "data", [self.packet(self.sender.number_of(offset), flags, block)]

    # ---- timers

    def tick(self):
        """What the timers emit: the ACK timer, the NAK timer, and then the EXP timer."""
        if self.phase == "closing":
            self.phase = "closed"
            return [self.control_packet("shutdown", 0)]
        if self.phase in OPENERS:
            return self.opener.tick()
        if self.phase != "connected":
            return []
        return self.acknowledge() + self.report() + self.watch()

    def acknowledge(self):
        due = self.receiver.tick_ack(self.now)
        if due is None:
            return []
        number, offset, free = due
        path, receiver = self.path, self.receiver
        told = path.rtt, path.rtt_var, free, receiver.arrivals.speed(), receiver.pairs.capacity()
        return [self.control_packet("ack", number, receiver.number_of(offset), *told)]

    def report(self):
        ranges = self.receiver.tick_nak(self.now)
        return [self.nak(ranges)] if ranges else []

    def exp_due(self):
        """When the EXP timer fires."""
        return self.exp_from + max(self.exp_count * self.path.interval(), LEAST_EXP_INTERVAL)

    def watch(self):
        if self.now < self.exp_due():
            return []
        silence = self.now - self.heard
        if silence >= GREATEST_SILENCE or (self.exp_count > MOST_EXP_COUNT and silence >= LEAST_SILENCE):
            self.phase, self.cause = "broken", "expired"
            return []
        self.exp_count, self.exp_from = self.exp_count + 1, self.now
        return [] if self.sender.on_timeout() else [self.control_packet("keepalive", 0)]

    # ---- packets that come in

    def arrive(self, sender, packet):
        """What a packet that reaches the socket is answered, and what is emitted. Each is counted once."""
        word, outs = self.take(sender, packet)
        kind = {"badlength": "stale"}.get(word, word.split()[0])
        self.counts[kind if kind in COUNTERS else "control"] += 1
        return word, outs

    def take(self, sender, packet):
        if "malformed" in packet:
            return f"malformed {packet['malformed']}", []
        kind = packet["packet"]
        if self.phase in OPENERS and kind == "handshake":
            return self.opener.take(sender, packet["dest"], packet["shake"])
        if self.phase != "connected":
            return "stale", []
        if sender != self.peer.host or (kind != "handshake" and packet["dest"] != self.own):
            return "foreign", []
        self.heard = self.exp_from = self.now
        self.exp_count = 1
        if kind == "block":
            return self.take_block(packet["seq"], packet["flags"], bytes.fromhex(packet["bytes"]))
        if kind == "ack":
            return self.take_ack(packet["number"], packet["body"])
        if kind == "nak":
            return "nak" if self.sender.on_nak(packet["ranges"]) else "stale", []
        if kind == "ack2":
            return "ack2" if self.receiver.on_ack2(packet["number"], self.now) else "stale", []
        if kind == "drop":
            return self.take_drop(packet["first"], packet["last"])
        if kind == "handshake":
            return self.take_again(packet["shake"])
        if kind == "shutdown":
            self.phase, self.cause = "broken", "shutdown"
        return {"keepalive": "alive", "shutdown": "shutdown"}[kind], []

    def take_again(self, shake):
        """The peer didn't hear how its handshake was answered, or it is no handshake of the peer."""
        answer = self.repeats.get(shake["ask"]) if shake["id"] == self.peer.id else None
        return ("stale", []) if answer is None else ("answered", [self.answer(answer)])

    def take_block(self, number, flags, block):
        """A block is placed or not. A gap is reported at once, and a light ACK follows where it is due."""
        if not 1 <= len(block) <= self.peer.payload:
            return "badlength", []
        outcome, gap, is_light = self.receiver.on_block(number, flags, block, self.now)
        report = [self.nak([gap])] if gap else []
        offset = self.receiver.number_of(self.receiver.ack_offset())
        ack = [self.control_packet("ack", 0, offset)] if is_light else []
        return outcome, report + ack

    def take_drop(self, first, last):
        """A drop request takes offsets or not. A gap is reported at once."""
        taken, gap = self.opening.kind == "message" and self.receiver.on_drop(first, last, self.now) or (False, None)
        return "dropped" if taken else "stale", [self.nak([gap])] if gap else []

    def take_ack(self, number, body):
        """An ACK releases blocks or not. One that isn't light is answered by an ACK2."""
        if not self.sender.on_ack(body):
            return "stale", []
        return "ack", [] if body["form"] == "light" else [self.control_packet("ack2", number)]
