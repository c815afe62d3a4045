"""The sockets of a script's host: which of them a datagram reaches.

A socket is here until it is closed, and frees the places that it holds then. What it adopted stays for good, so a pair
of a peer's address and socket ID belongs to one socket at most.
"""
from halves import Refused
from shakes import MEET, REQUEST

SHORTEST_DATAGRAM = 16


class Dropped(Exception):
    """Why a datagram reaches no socket, in the word that is printed."""


class Host:
    """The sockets at one address."""

    def __init__(self, address):
        self.address = address
        self.sockets, self.adopted = {}, {}         # by ID; IDs, by the peer's address and ID
        self.listener, self.meetings = None, {}     # an ID; IDs, by the address that is met

    def enrol(self, socket):
        self.sockets[socket.own] = socket

    def adopt(self, socket):
        """The socket's peer is known, maybe not for the first time."""
        self.adopted.setdefault((socket.peer.host, socket.peer.id), socket.own)

    def leave(self, ident):
        """The socket is closed."""
        self.sockets.pop(ident, None)
        self.listener = None if self.listener == ident else self.listener
        self.meetings = {to: it for to, it in self.meetings.items() if it != ident}

    def check_place(self, socket, call, *values):
        """There is one listener at most, one socket that meets an address, and one address that a socket meets."""
        if call == "listen" and self.listener is not None:
            raise Refused("refused 5011")
        if call == "meet" and (values[0] in self.meetings or socket.own in self.meetings.values()):
            raise Refused("refused 5007")

    def take_place(self, socket, call, *values):
        """A socket listens or meets from now on, up to its end."""
        if call == "listen":
            self.listener = socket.own
        if call == "meet":
            self.meetings[values[0]] = socket.own

    def target(self, sender, data, packet):
        """The socket that a datagram reaches. It needn't be readable, but has a destination."""
        if len(data) < SHORTEST_DATAGRAM:
            raise Dropped("short")
        dest = int.from_bytes(data[12:16], "big")
        shake = packet.get("shake")
        owner = self.adopted.get((sender, shake["id"])) if shake else None
        if dest != 0:
            return self.addressed(dest, owner)
        if shake is None:
            raise Dropped("shake")
        ident = owner or self.asked(sender, shake["ask"])
        if ident is None:
            raise Dropped("shake")
        if ident not in self.sockets:
            raise Dropped("stale")
        return self.sockets[ident]

    def addressed(self, dest, owner):
        """The socket with this ID. A handshake whose sender another one adopted doesn't reach it."""
        if dest not in self.sockets:
            raise Dropped("id")
        if owner not in (None, dest):
            raise Dropped("stale")
        return self.sockets[dest]

    def asked(self, sender, ask):
        """The ID of the socket that waits for such a handshake of a stranger."""
        return {MEET: self.meetings.get(sender), REQUEST: self.listener}.get(ask)
