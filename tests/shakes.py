"""What sockets make of handshakes: one that listens, one that connects, and one that meets its peer halfway.

Each is told of ticks, and of handshakes with the address that they come from and the socket ID to which they go. A tick
answers with what is emitted, and a handshake with a word and what is emitted.
"""
import hashlib
import struct
from dataclasses import dataclass

from texts import bytes_of, port_of

HEADERS = 44                            # bytes of a packet besides its payload
LEAST_FLOW, GREATEST_FLOW = 2, 65_536
VERSION = 4
KINDS = {"stream": 1, "message": 2}
REQUEST, MEET, RESPONSE, AGREEMENT, REJECTION = 1, 0, -1, -2, 1_002     # what a handshake asks or answers
REPEAT = 250_000                        # microseconds, like all times here, from one request to the next
TIME_LIMIT = 3_000_000                  # from the call to the last request
MINUTE = 60_000_000
SECRET = bytes(16)                      # of all listeners of a script
ADDRESS_BYTES = 16


def clamped(blocks):
    """A flow window."""
    return max(LEAST_FLOW, min(GREATEST_FLOW, blocks))


def cookie_of(sender, minute):
    """The cookie that a listener gives to this address in this minute. It is never 0."""
    told = bytes_of(sender) + struct.pack(">H", port_of(sender)) + SECRET + struct.pack(">Q", minute)
    return int.from_bytes(hashlib.md5(told).digest()[:4], "big") or 1


def field_of(shake, to):
    """The field of a handshake that goes to this address."""
    names = ["version", "kind", "isn", "packet", "flow", "ask", "id", "cookie"]
    return struct.pack(">5Ii2I", *(shake[it] for it in names)) + bytes_of(to).ljust(ADDRESS_BYTES, b"\0")


@dataclass
class Peer:
    """With whom a socket is connected, and what it learned of it."""

    host: str       # its address
    id: int
    isn: int        # its initial sequence number
    payload: int    # the most bytes of a block that both take
    flow: int       # its room for blocks


def peer_of(opening, sender, shake):
    """The peer that sent this handshake."""
    payload = min(opening.payload, shake["packet"] - HEADERS)
    return Peer(sender, shake["id"], shake["isn"], payload, clamped(shake["flow"]))


def suits(opening, shake):
    """Whether a handshake is of this version and kind, with blocks of at least one byte."""
    is_kind = shake["version"] == VERSION and shake["kind"] == KINDS[opening.kind]
    return is_kind and shake["packet"] > HEADERS


class Listening:
    """A listener: it gives cookies, and promises places of its backlog to requests that bring one."""

    def __init__(self, socket, backlog):
        self.socket, self.backlog = socket, backlog
        self.offered, self.promised = [], 0     # (IDs of sockets that wait to be accepted; places without one yet)

    def tick(self):
        return []

    def take(self, sender, dest, shake):
        if dest != 0 or shake["ask"] != REQUEST or shake["id"] == 0:
            return "stale", []
        minute = self.socket.now // MINUTE
        known = [cookie_of(sender, it) for it in range(max(0, minute - 1), minute + 1)]
        if shake["cookie"] not in known:
            return "cookie", self.answer(sender, {**shake, "cookie": known[-1]})
        is_full = len(self.offered) + self.promised >= self.backlog
        if is_full or not suits(self.socket.opening, shake):
            return "reject", self.answer(sender, {**shake, "ask": REJECTION})
        self.promised += 1
        return "request", []

    def answer(self, sender, shake):
        """The request's own fields go back."""
        return [self.socket.handshake(sender, shake["id"], shake)]

    def offer(self, ident):
        """A promised place has its socket."""
        self.promised -= 1
        self.offered.append(ident)

    def withdraw(self):
        """A promised place is free again."""
        self.promised -= 1


class Asking:
    """A socket that asks an address, again and again up to a time limit."""

    def __init__(self, socket, to):
        self.socket, self.to = socket, to
        self.repeat, self.end = socket.now, socket.now + TIME_LIMIT

    def tick(self):
        if self.socket.now >= self.end:
            self.socket.fail("1001")
            return []
        return self.ask() if self.socket.now >= self.repeat else []

    def ask(self):
        self.repeat = self.socket.now + REPEAT
        return [self.request()]


class Connecting(Asking):
    """A client, which asks a listener."""

    def __init__(self, socket, to):
        super().__init__(socket, to)
        self.cookie = 0

    def request(self):
        return self.socket.handshake(self.to, 0, {**self.socket.own_shake(REQUEST), "cookie": self.cookie})

    def take(self, sender, dest, shake):
        socket, asked = self.socket, shake["ask"]
        if sender != self.to or dest != socket.own:
            return "stale", []
        if asked == REQUEST and shake["cookie"] != 0:
            self.cookie = shake["cookie"]
            return "cookie", self.ask()
        if asked == RESPONSE and suits(socket.opening, shake):
            socket.peer = peer_of(socket.opening, sender, shake)
            socket.connected({})
            return "connected", []
        if asked == REJECTION:
            socket.fail("1002")
            return "rejected", []
        return "stale", []


class Meeting(Asking):
    """One of two that ask each other. The first handshake that suits makes its sender the peer."""

    def request(self):
        socket = self.socket
        return socket.answer(RESPONSE) if socket.peer else socket.handshake(self.to, 0, socket.own_shake(MEET))

    def take(self, sender, dest, shake):
        socket, asked = self.socket, shake["ask"]
        if sender != self.to or not suits(socket.opening, shake):
            return "stale", []
        is_first = socket.peer is None
        is_ours = asked != AGREEMENT if is_first else shake["id"] == socket.peer.id
        if asked not in (MEET, RESPONSE, AGREEMENT) or not is_ours or (asked != MEET and dest != socket.own):
            return "stale", []
        if is_first:
            socket.peer = peer_of(socket.opening, sender, shake)
        if asked == MEET:
            return "adopted" if is_first else "answered", [socket.answer(RESPONSE)]
        socket.connected({MEET: RESPONSE, RESPONSE: AGREEMENT})
        return "connected", [socket.answer(AGREEMENT)] if asked == RESPONSE else []
