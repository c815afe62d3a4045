"""A script that grows line by line, and what it must print."""
from forge import Forger, control_words
from play import LAST_MOMENT, Player
from sockets import words

STRANGER = "10.0.0.9:9000"
# (a script of so many datagrams, and a story that ends once it has printed so much, print less than a mebibyte)
DATAGRAMS = 10_000
PRINTED = 500_000
# (the times at which scripts begin: with time stamps that wrap, and near the last moment)
FIRST_MOMENTS = [0] * 6 + [(1 << 32) - 1_000_000, LAST_MOMENT - 10**12]


class Script:
    """A script that grows, and what it must print."""

    def __init__(self, chance, control, has_shakes):
        self.chance, self.control, self.player, self.has_shakes = chance, control, Player(control), has_shakes
        self.forger = Forger(chance, has_shakes)
        self.lines, self.printed, self.now = [], [], chance.choice(FIRST_MOMENTS)
        self.length = 0     # (of what is printed)

    def say(self, line):
        """One more line, and what it prints. None where it is refused."""
        self.lines.append(line)
        printed = self.player.line(line)
        self.printed += [f"line {len(self.lines)} refused"] if printed is None else printed
        self.length += sum(len(text) for text in printed or [])
        return printed

    def pack(self, socket):
        """What a socket packs. Where no packet is due yet, time most often passes to about the moment that it told."""
        answer = self.say(f"{socket.name} pack {self.now}")[0].split()
        if answer[2] != "notyet" or not self.chance.randrange(4):
            return answer[2]
        self.now = max(self.now, int(answer[3]) + self.chance.choice([-1, 0, 0, 0, 1]))
        return self.pack(socket)

    def tick(self, socket):
        """A socket ticks, now and then about a moment at which it has something to do."""
        due = [it for it in self.due(socket) if self.now < it < self.now + 1_000_000]
        if due and not self.chance.randrange(3):
            self.now = self.chance.choice(due) + self.chance.choice([-1, 0, 0, 1])
        self.say(f"{socket.name} tick {self.now}")

    def due(self, socket):
        """The moments at which a tick of a connected socket may do something."""
        receiver, rtt = socket.receiver, socket.path.rtt
        due = [receiver.ack_due, receiver.nak_due, socket.exp_due()]
        due += [it.moment + it.trips * rtt for it in receiver.lost.values()]
        return due + ([receiver.last_ack[2] + 2 * rtt] if receiver.last_ack else [])

    def raw(self, socket, data, sender=None, host=None):
        """Bytes come to a socket from its peer, or from or to elsewhere."""
        self.say(f"raw {self.now} {sender or socket.peer.host} {host or socket.host} {data.hex() or '-'}")

    def give(self, socket, length):
        """A socket is asked to send so many bytes."""
        chance, given = self.chance, self.chance.randbytes(length).hex() or "-"
        if socket.opening.kind == "stream":
            self.say(f"{socket.name} send {self.now} {given}")
        else:
            ttl = chance.choice(["-", "-", "-", 0, 1_000, 50_000, 300_000, LAST_MOMENT])
            self.say(f"{socket.name} sendmsg {self.now} {ttl} {chance.choice([0, 1])} {given}")

    def take(self, socket, room, now=None):
        """A socket is read: a message where it carries messages."""
        call = {"stream": "recv", "message": "recvmsg"}[socket.opening.kind]
        return self.say(f"{socket.name} {call} {self.now if now is None else now} {room}")[0].split()[2]

    def take_all(self, socket):
        """A socket is read until nothing waits."""
        while socket.opening.kind == "message" and self.take(socket, 65_536) not in ("again", "refused"):
            pass
        self.take(socket, 65_536)

    def misuse(self, socket):
        """A call that a socket of this kind has not."""
        calls = {"stream": ["sendmsg %d - 1 00", "recvmsg %d 9"], "message": ["send %d 00", "recv %d 0"]}
        calls = calls[socket.opening.kind]
        self.say(f"{socket.name} {self.chance.choice(calls) % self.now}")

    def hear(self):
        """All sockets hear from their peers."""
        for socket in self.player.sockets:
            self.raw(socket, control_words("keepalive", 0, socket.own))

    def settle(self, socket, rtt, count):
        """So many ACKs reach a socket, which tell this round-trip time and release nothing."""
        field = words(socket.sender.number_of(socket.sender.acked), rtt, 0, 4)
        for _ in range(count):
            self.raw(socket, control_words("ack", 1, socket.own) + field)

    def count_all(self):
        """All sockets that have a name tell what they counted."""
        for socket in self.player.named.values():
            self.say(f"{socket.name} perf {self.now}")

    def told(self):
        """The control, the script, and the text that it prints."""
        return self.control, "\n".join(self.lines) + "\n", "\n".join(self.printed) + "\n"
