#!/usr/bin/env python3
"""A second player of scripts, written from the protocol's rules and not from the code.

    Player().line("pair stream a b 4 5 4") -> ["pair a 1 b 2"], or None where the line is refused

usage: play.py replay [CONTROL]             prints what the program prints for the script of its input
       play.py world N TURNS [CONTROL]      prints the line of the generated run

CONTROL is native, fixed or aimd. The exit status is the program's: 2 where a line was refused.
"""
import re
import sys

from controls import CONTROLS, NATIVE
from halves import NEVER, Opening, Refused
from hosts import Dropped, Host
from read import NUMBERS, read
from shakes import KINDS, Peer, clamped, peer_of
from sockets import Socket
from texts import address_in, number_in

PAIR_HOSTS = ("10.0.0.1:9000", "10.0.0.2:9000")     # of a script from its first line on
MOST_PAYLOAD = 8_956
LEAST_BLOCKS, MOST_BLOCKS = 2, 65_536
LAST_START = 1 << 59
LAST_MOMENT = (1 << 53) - 1
MOST_ROOM = 65_536
MOST_SOCKETS = 1_024
MOST_HOSTS = 64                 # besides those of the pairs
LAST_COUNT = (1 << 32) - 1
LONGEST_LINE = 65_536
LONGEST_SCRIPT = 67_108_864
LAST_SEED = (1 << 32) - 1       # of the generated run
MOST_TURNS = 400_000
STATUS_PLAYED, STATUS_REFUSED = 0, 2


def moment_in(word):
    return number_in(word, 0, LAST_MOMENT)


def room_in(word):
    return number_in(word, 0, MOST_ROOM)


def ttl_in(word):
    """A time to live, or a dash for none."""
    return NEVER if word == "-" else moment_in(word)


def order_in(word):
    return number_in(word, 0, 1)


def bytes_in(word):
    """The bytes that a word spells: pairs of small digits, or a dash for none."""
    return bytes.fromhex(word.replace("-", "")) if re.fullmatch("-|([0-9a-f]{2})+", word) else None


def count_in(word):
    return number_in(word, 0, LAST_COUNT)


def name_in(word):
    return word if re.fullmatch("[a-z][a-z0-9]{0,15}", word) else None


# (what the words after the moment of a call are)
CALLS = {"listen": [count_in], "connect": [address_in], "meet": [address_in], "accept": [name_in], "shake": [],
         "send": [bytes_in], "recv": [room_in], "sendmsg": [ttl_in, order_in, bytes_in], "recvmsg": [room_in],
         "pack": [], "tick": [], "close": [], "perf": []}
# (with what sockets are opened: the most bytes of a block, the initial sequence number, the blocks, and the start)
RANGES = [(1, MOST_PAYLOAD), (0, NUMBERS - 1), (LEAST_BLOCKS, MOST_BLOCKS), (0, LAST_START)]


class Player:
    """The hosts and sockets of a script, and the datagrams that the sockets emitted."""

    def __init__(self, control=NATIVE):
        self.control = CONTROLS[control]
        self.hosts = {it: Host(it) for it in PAIR_HOSTS}    # by address
        self.named_hosts, self.named = {}, {}               # hosts and sockets by name
        self.sockets, self.datagrams = [], []

    def line(self, line):
        """What a line prints, as lines. None where it is refused."""
        if len(line) > LONGEST_LINE:
            return None
        if line == "" or line[0] == "#":
            return []
        form = line.split(" ")
        if len(form) < 3:
            return None
        # (a host may be named like a call, and a socket like the first word of any line: the moment decides)
        if form[1] in CALLS and moment_in(form[2]) is not None:
            return self.call_line(*form)
        by_first = {"pair": self.pair_line, "host": self.host_line, "open": self.open_line,
                    "deliver": self.deliver_line, "raw": self.raw_line}
        return by_first[form[0]](*form[1:]) if form[0] in by_first else None

    def is_new(self, name):
        """Whether a word is a name that neither a host nor a socket has."""
        return name_in(name) is not None and name not in self.named and name not in self.named_hosts

    def has_room(self, count):
        """Whether so many more sockets may be made."""
        return len(self.sockets) + count <= MOST_SOCKETS

    def pair_line(self, kind, *rest):
        if kind not in KINDS or len(rest) not in (5, 6):
            return None
        values = [number_in(word, *within) for word, within in zip(rest[2:], RANGES)]
        are_new = rest[0] != rest[1] and self.is_new(rest[0]) and self.is_new(rest[1])
        return self.pair(kind, rest[:2], *values) if None not in values and are_new and self.has_room(2) else None

    def host_line(self, name, address, *rest):
        address = address_in(address)
        is_free = address is not None and address not in self.hosts and len(self.named_hosts) < MOST_HOSTS
        if rest or not is_free or not self.is_new(name):
            return None
        self.hosts[address] = self.named_hosts[name] = Host(address)
        return [f"host {name}"]

    def open_line(self, kind, *rest):
        if kind not in KINDS or len(rest) != 5 or rest[1] not in self.named_hosts:
            return None
        values = [number_in(word, *within) for word, within in zip(rest[2:], RANGES)]
        if None in values or not self.is_new(rest[0]) or not self.has_room(1):
            return None
        opening = Opening(kind, *values, self.control)
        socket = Socket(rest[0], len(self.sockets) + 1, self.named_hosts[rest[1]].address, opening)
        self.enrol(socket)
        return [f"open {socket.name} {socket.own}"]

    def call_line(self, name, call, moment, *rest):
        if len(rest) != len(CALLS[call]) or name not in self.named:
            return None
        values = [read_word(word) for read_word, word in zip(CALLS[call], rest)]
        if None in values or (call == "accept" and not self.is_new(*values)):
            return None
        return self.call(self.named[name], call, int(moment), *values)

    def deliver_line(self, number, moment, *rest):
        if rest or number_in(number, 0, len(self.datagrams) - 1) is None or moment_in(moment) is None:
            return None
        return self.arrival(int(moment), *self.datagrams[int(number)])

    def raw_line(self, moment, *rest):
        if len(rest) != 3 or moment_in(moment) is None:
            return None
        sender, to, data = address_in(rest[0]), address_in(rest[1]), bytes_in(rest[2])
        return None if None in (sender, to, data) else self.arrival(int(moment), sender, to, data)

    def enrol(self, socket):
        """A socket is on its host, and has a name unless it waits to be accepted."""
        self.sockets.append(socket)
        self.hosts[socket.host].enrol(socket)
        if socket.name != str(socket.own):
            self.named[socket.name] = socket

    def pair(self, kind, names, payload, isn, blocks, start=0):
        """Two sockets, each of which is the other's peer."""
        opening, own = Opening(kind, payload, isn, blocks, self.control, start), len(self.sockets) + 1
        ends = [(own, PAIR_HOSTS[0], PAIR_HOSTS[1], own + 1), (own + 1, PAIR_HOSTS[1], PAIR_HOSTS[0], own)]
        for name, (ident, host, peer_host, peer_id) in zip(names, ends):
            peer = Peer(peer_host, peer_id, isn, payload, clamped(blocks))
            self.enrol(Socket.paired(name, ident, host, opening, peer))
            self.hosts[host].adopt(self.sockets[-1])
        return [f"pair {names[0]} {own} {names[1]} {own + 1}"]

    def call(self, socket, name, moment, *values):
        """A call of a socket, or a tick. Where its host has no place for what is asked, the socket isn't called."""
        host = self.hosts[socket.host]
        try:
            host.check_place(socket, name, *values)
            socket.at(moment)
            answer, outs = self.answer(socket, name, *values)
            host.take_place(socket, name, *values)
        except Refused as refused:
            answer, outs = str(refused), []
        if socket.phase == "closed":
            host.leave(socket.own)
        return [" ".join([socket.name, name, answer]).rstrip()] + self.emitted(socket, outs)

    def answer(self, socket, name, *values):
        """What a call answers, and what it emits."""
        if name == "pack":
            return socket.pack()
        if name == "tick":
            return "", socket.tick()
        told = getattr(socket, name)(*([] if name == "accept" else values))
        if name == "accept":
            return self.name_accepted(told, *values), []
        return told.hex() or "-" if isinstance(told, bytes) else "" if told is None else str(told), []

    def name_accepted(self, ident, name):
        """A socket that was offered gets its name."""
        self.named[name] = self.sockets[ident - 1]
        self.named[name].name = name
        return f"{name} {ident}"

    def emitted(self, socket, outs):
        """Datagrams are on their way."""
        first = len(self.datagrams)
        self.datagrams += [(socket.host, to, data) for to, data in outs]
        return [f"datagram {first + i} {socket.host} {to} {data.hex()}" for i, (to, data) in enumerate(outs)]

    def arrival(self, moment, sender, to, data):
        """A datagram reaches a socket of the host with this address, or none."""
        if to not in self.hosts:
            return ["dropped host"]
        packet = read(data)
        try:
            socket = self.hosts[to].target(sender, data, packet)
        except Dropped as dropped:
            return [f"dropped {dropped}"]
        return self.given(socket, moment, sender, packet)

    def given(self, socket, moment, sender, packet):
        """A packet is given to a socket. Where that is a request which a listener takes, a new socket gets it too."""
        socket.at(moment)
        word, outs = socket.arrive(sender, packet)
        if word in ("adopted", "connected"):
            self.hosts[socket.host].adopt(socket)
        told = [f"{socket.name} arrive {word}"] + self.emitted(socket, outs)
        return told + self.requested(socket, moment, sender, packet) if word == "request" else told

    def requested(self, listener, moment, sender, packet):
        """A socket is made for the client that is the sender, and offered, where there may be one more."""
        if not self.has_room(1):
            listener.opener.withdraw()
            return [f"{listener.name} withdraw"]
        config, own = listener.opening, len(self.sockets) + 1
        peer = peer_of(config, sender, packet["shake"])
        opening = Opening(config.kind, config.payload, peer.isn, config.blocks, config.control)
        socket = Socket.paired(str(own), own, listener.host, opening, peer)
        self.enrol(socket)
        self.hosts[socket.host].adopt(socket)
        listener.opener.offer(own)
        return [f"{listener.name} offer {own}"] + self.given(socket, moment, sender, packet)


def play(script, control=NATIVE):
    """What the program prints for a script, as lines, and its exit status."""
    player, printed, end = Player(control), [], 0
    lines = script.split("\n")
    for number, line in enumerate(lines[:-1] if lines[-1] == "" else lines, 1):
        # (where the next line begins)
        end = min(end + len(line) + 1, len(script))
        told = player.line(line) if end <= LONGEST_SCRIPT else None
        if told is None:
            return printed + [f"line {number} refused"], STATUS_REFUSED
        printed += told
    return printed, STATUS_PLAYED


def drawn(seed):
    """The draws of the generated run."""
    state = seed
    while True:
        state = (6364136223846793005 * state + 1442695040888963407) % (1 << 64)
        yield state >> 33


class World:
    """The generated run: two sockets, and a network that loses, repeats and reorders by the draws."""

    # (the bytes that are sent are the places in the stream, modulo this number)
    BYTES = 251
    PAYLOAD, BLOCKS, ROOM, INTERVAL, NEWEST = 1_456, 64, 4_096, 50, 32

    def __init__(self, seed, control=NATIVE):
        self.draws, self.player = drawn(seed), Player(control)
        self.player.pair("stream", ["a", "b"], self.PAYLOAD, seed % NUMBERS, self.BLOCKS)
        self.a, self.b = self.player.sockets
        self.accepted, self.delivered, self.now = 0, 0, 0
        self.bytes = bytes(it % self.BYTES for it in range(self.BYTES + self.ROOM))

    def draw(self, count):
        return next(self.draws) % count

    def turn(self):
        self.now += self.INTERVAL
        kind = self.draw(8)
        if kind == 0:
            self.send(1 + self.draw(self.ROOM))
        elif kind == 1:
            self.recv()
        elif kind in (2, 3):
            self.player.call(self.a, "pack", self.now)
        elif kind == 4:
            self.player.call(self.a, "tick", self.now)
            self.player.call(self.b, "tick", self.now)
        elif self.player.datagrams:
            self.deliver(is_new=kind in (5, 6))

    def send(self, length):
        first = self.accepted % self.BYTES
        self.a.at(self.now)
        try:
            self.accepted += self.a.send(self.bytes[first : first + length])
        except Refused:
            pass

    def recv(self):
        self.b.at(self.now)
        try:
            self.delivered += len(self.b.recv(self.ROOM))
        except Refused:
            pass

    def deliver(self, is_new):
        """One of the newest datagrams arrives, or one of all."""
        count = len(self.player.datagrams)
        number = count - 1 - self.draw(min(count, self.NEWEST)) if is_new else self.draw(count)
        self.player.arrival(self.now, *self.player.datagrams[number])


def world(seed, turns, control=NATIVE):
    """The line of the generated run."""
    run = World(seed, control)
    for _ in range(turns):
        run.turn()
    told = {"turns": turns, "accepted": run.accepted, "delivered": run.delivered, "acked": run.a.sender.acked,
            "datagrams": len(run.player.datagrams)}
    return f"world {seed} " + " ".join(f"{name} {value}" for name, value in told.items())


def main(given):
    command, rest = given[:1], given[1:]
    if command == ["replay"] and len(rest) <= 1 and set(rest) <= set(CONTROLS):
        # (a character for each byte, since lines are counted in bytes)
        printed, status = play(sys.stdin.buffer.read().decode("latin-1"), *rest)
        sys.stdout.writelines(f"{text}\n" for text in printed)
        return status
    counts = [number_in(word, 0, most) for word, most in zip(rest, [LAST_SEED, MOST_TURNS])]
    if command == ["world"] and 2 <= len(rest) <= 3 and None not in counts and set(rest[2:]) <= set(CONTROLS):
        print(world(*counts, *rest[2:]))
        return STATUS_PLAYED
    sys.exit(__doc__)


if __name__ == "__main__":
    sys.exit(main(sys.argv[1:]))
