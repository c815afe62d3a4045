"""Stories of hosts whose sockets find each other by handshakes."""
from forge import control_words
from play import MOST_HOSTS, MOST_SOCKETS
from read import NUMBERS
from scripts import PRINTED, STRANGER, Script
from shakes import MINUTE, REPEAT, REQUEST, TIME_LIMIT
from sockets import OPENERS, words
from stories import Story

SHAKE = control_words("handshake", 0, 0)[:2]    # how a handshake begins
MOST = 14           # sockets that are opened in a story
DELIVERIES = 200    # of one exchange
ADDRESSES = ["10.0.0.9:9000", "10.0.0.8:7000", "10.0.0.9:1", "10.0.0.1:9001", "[FD00::9]:9000", "[fd00::8]:65535",
             "[::ffff:a00:9]:9000", "[::]:1", "[1:2:3:4:5:6:7:8]:9000"]


class Connections(Story):
    """Hosts with listeners, clients and sockets that meet, over a network that loses, repeats, reorders and forges."""

    STEPS = [0, 0, 0, 1, 100, 1_000, 10_000, 50_000, REPEAT]
    LONG_STEPS = [500_000, TIME_LIMIT, MINUTE]

    def setting(self):
        """The hosts, and a first socket."""
        chance = self.chance
        self.kind, self.room = chance.choice(["stream", "message"]), chance.choice([2, 4, 8, 40])
        self.payloads = chance.choice([[4], [1, 3, 10, 20], [20, 1_456, 8_956]])
        for i, address in enumerate(chance.sample(ADDRESSES, chance.choice([2, 2, 3, 4]))):
            self.say(f"host h{i} {address}")
        if not chance.randrange(4):
            self.say(f"pair {self.kind} a b 4 {chance.randrange(NUMBERS)} {self.room}")
        while not self.player.named:
            self.begin()

    def acts(self):
        chance = self.chance
        return {"begin": 1, "converse": 3, "accept": 2, "shake": 1, "deliver": 4, "again": chance.choice([1, 4]),
                "pretend": chance.choice([0, 2, 10]), "forge": chance.choice([0, 1, 4]), "send": 3, "recv": 2,
                "pack": 4, "tick": 4, "flight": chance.choice([0, 1]), "close": chance.choice([0.05, 0.6]),
                "perf": 0.5, "misplace": 0.8, "misuse": 0.1, "measure": 0.4}

    # ---- what happens

    def happen(self, act):
        """Time passes, and there is a call, an arrival or bytes of no socket."""
        if act not in ("begin", "converse", "accept", "again", "pretend", "misplace", "shake", "measure"):
            super().happen(act)
            return
        self.now += self.chance.choice(self.steps)
        getattr(self, act)()

    def socket(self):
        """One of the sockets that have a name, most often a connected one."""
        connected = [it for it in self.player.named.values() if it.phase == "connected"]
        return self.chance.choice(connected) if connected and self.chance.randrange(3) else self.anyone()

    def anyone(self):
        return self.chance.choice(list(self.player.named.values()))

    def due(self, socket):
        """The moments at which a tick may do something."""
        if socket.phase in ("connecting", "meeting"):
            return [socket.opener.repeat, socket.opener.end]
        return super().due(socket) if socket.phase == "connected" else []

    # ---- how connections begin

    def open(self, host):
        """One more socket on a host, most often of the story's kind."""
        chance, own = self.chance, len(self.player.sockets) + 1
        kind = self.kind if chance.randrange(10) else chance.choice(["stream", "message"])
        isn = chance.choice([0, 5, NUMBERS - 1, NUMBERS - 3, chance.randrange(NUMBERS)])
        room = self.room if chance.randrange(3) else chance.choice([2, 3, 65_536])
        self.say(f"open {kind} s{own} {host} {chance.choice(self.payloads)} {isn} {room}")
        return self.player.sockets[-1]

    def begin(self):
        """A listener, a client, two that meet or one that meets nobody, or one that waits for a call."""
        chance, hosts = self.chance, list(self.player.named_hosts)
        if len(self.player.sockets) >= MOST:
            return
        act = chance.choice(["listen", "connect", "connect", "meet", "meet", "open"])
        listening = [it for it in self.player.named_hosts.values() if it.listener]
        if act in ("listen", "connect") and (not listening or act == "listen"):
            self.say(f"{self.open(chance.choice(hosts)).name} listen {self.now} {chance.choice([1, 1, 2, 3, 1_024])}")
            listening = [it for it in self.player.named_hosts.values() if it.listener]
        if act == "connect" and listening:
            to = chance.choice(listening).address if chance.randrange(10) else self.somewhere()
            self.say(f"{self.open(chance.choice(hosts)).name} connect {self.now} {to}")
        elif act == "meet":
            self.begin_meeting(*chance.choices(hosts, k=2))
        elif act == "open":
            self.open(chance.choice(hosts))

    def begin_meeting(self, one, other):
        """Two sockets meet each other's hosts, or now and then one alone, or a host that doesn't exist."""
        chance = self.chance
        for here, there in [(one, other), (other, one)][: chance.choice([1, 2, 2, 2])]:
            to = self.player.named_hosts[there].address if chance.randrange(12) else self.somewhere()
            self.say(f"{self.open(here).name} meet {self.now} {to}")

    def somewhere(self):
        """An address of a host, of a pair's host, or of nobody."""
        hosts = list(self.player.hosts)
        return self.chance.choice(hosts * 2 + [STRANGER, "[0:0:0:0:0:0:0:1]:5"])

    def misplace(self):
        """A call that opens a connection, with values at the ends of their ranges, for a socket in whatever phase."""
        chance, name = self.chance, self.anyone().name
        port = self.somewhere().rpartition(":")[0] + ":0"
        to = chance.choice([self.somewhere(), port])
        backlog = chance.choice([0, 1, 2, 1_024, 1_025, (1 << 32) - 1])
        # (some refusals are no event of the socket, so that its time stays)
        now = self.now + chance.choice([0, 0, 0, TIME_LIMIT // 2])
        call = chance.choice([f"listen {now} {backlog}", f"connect {now} {to}", f"meet {now} {to}"])
        self.say(f"{name} {call}")

    def accept(self):
        """A socket is accepted, most often from one that has been offered some."""
        listeners = [it for it in self.player.named.values() if it.phase == "listening"]
        listeners = [it for it in listeners if it.opener.offered] or listeners
        socket = self.chance.choice(listeners) if listeners and self.chance.randrange(8) else self.anyone()
        self.say(f"{socket.name} accept {self.now} n{len(self.lines)}")

    def shake(self):
        self.say(f"{self.anyone().name} shake {self.now}")

    def measure(self):
        """A socket loses a packet, which ends its slow start, and is told rates. What its rate control makes of them
        depends on the bytes of a packet, on which both ends agreed."""
        socket = self.socket()
        if socket.phase != "connected":
            return
        self.give(socket, 1)
        self.pack(socket)
        number = words(socket.sender.number_of(socket.sender.acked))
        self.raw(socket, control_words("nak", 0, socket.own) + number)
        for _ in range(3):
            field = number + words(1_000, 0, self.room, *self.chance.choices([0, 7, 1_000, 100_000], k=2))
            self.raw(socket, control_words("ack", 1, socket.own) + field)
        self.say(f"{socket.name} perf {self.now}")

    # ---- what the network does

    def converse(self):
        """Those that ask for a connection tick. What they emit arrives, and what is answered to it, and so on."""
        first = len(self.player.datagrams)
        asking = [it for it in self.player.named.values() if it.phase in ("connecting", "meeting")]
        for socket in asking:
            if self.chance.randrange(5):
                self.tick(socket)
        self.exchange(list(range(first, len(self.player.datagrams))), self.chance.choice([0, 0, 5, 20]))
        for socket in asking:
            if socket.phase == "connected" and not self.chance.randrange(3):
                self.greet(socket)

    def greet(self, socket):
        """A first block reaches a socket, which then ticks about the moments at which its timers first fire."""
        chance, receiver = self.chance, socket.receiver
        offset = receiver.top + chance.choice([0, 0, 1, 3])
        self.raw(socket, self.forger.block(socket, receiver.number_of(offset)))
        for due in (receiver.ack_due, receiver.nak_due):
            self.now = max(self.now, due + chance.choice([-1, 0]))
            self.say(f"{socket.name} tick {self.now}")

    def exchange(self, waiting, losses):
        """The datagrams with these numbers arrive, nearly in this order, and then what is answered to them. So many of
        a hundred are lost, and as many arrive twice."""
        chance, step = self.chance, self.chance.choice([0, 1, 100, 5_000])
        for _ in range(DELIVERIES):
            if not waiting:
                return
            number, fate = waiting.pop(0 if chance.randrange(5) else -1), chance.randrange(100)
            first = len(self.player.datagrams)
            self.now += step
            for _ in range(0 if fate < losses else 2 if fate < 2 * losses else 1):
                self.say(f"deliver {number} {self.now}")
            waiting += range(first, len(self.player.datagrams))

    def again(self):
        """Handshakes of the story arrive again, now and then with a change."""
        chance, datagrams = self.chance, self.player.datagrams
        shakes = [number for number, it in enumerate(datagrams) if it[2].startswith(SHAKE)]
        for number in chance.sample(shakes, min(len(shakes), chance.choice([1, 1, 2, 5]))):
            sender, to, data = datagrams[number]
            sender = chance.choice([sender] * 3 + [STRANGER])
            changed = f"raw {self.now} {sender} {to} {self.changed(data).hex() or '-'}"
            self.say(f"deliver {number} {self.now}" if chance.randrange(6) else changed)

    def changed(self, data):
        """The handshake with some bits, or with a word, of another value."""
        if self.chance.randrange(2):
            return self.forger.mutated(data)
        at = 4 * self.chance.randrange(3, 12)
        return data[:at] + words(self.forger.word([0, 1, 2, 3, NUMBERS, (1 << 32) - 1])) + data[at + 4 :]

    def pretend(self):
        """A handshake that nobody sent reaches a socket in whatever phase, from a likely address or from elsewhere."""
        chance, sockets = self.chance, self.player.sockets
        waiting = [it for it in sockets if it.phase in OPENERS]
        socket = chance.choice(waiting if waiting and chance.randrange(3) else sockets)
        likely = socket.peer.host if socket.peer else getattr(socket.opener, "to", None) or self.somewhere()
        sender = likely if chance.randrange(6) else self.somewhere()
        self.raw(socket, self.forger.handshake(socket, sender, self.now), sender)

    def forge(self, socket):
        """A datagram of the story with a change, or a likely one, for a socket that is or was connected or is not."""
        if socket.sender:
            super().forge(socket)
        else:
            data = control_words(self.chance.choice(["keepalive", "shutdown", "ack2", 4]), 0, socket.own)
            self.raw(socket, data, self.somewhere())

    def flight(self, socket):
        """As of a pair, where the socket and its peer are connected."""
        peers = [it for it in self.player.named.values() if socket.peer and it.own == socket.peer.id]
        if socket.phase == "connected" and any(it.phase == "connected" for it in peers):
            super().flight(socket)

    def close(self, socket, now):
        """A socket closes, and most often ticks. Handshakes arrive again, maybe its own."""
        socket = socket if self.chance.randrange(2) else self.anyone()
        super().close(socket, now)
        if self.chance.randrange(4):
            self.say(f"{socket.name} tick {self.now}")
        self.again()


class Cookies(Script):
    """A client to which one cookie after another is forged. It asks once more for each, and else only on ticks."""

    STEPS = [0, 0, 1, 200, 400]

    def __init__(self, chance, control, count):
        super().__init__(chance, control, True)
        address, listener = chance.sample(ADDRESSES, 2)
        for line in [f"host h {address}", "open stream a h 4 5 4", f"a connect {self.now} {listener}"]:
            self.say(line)
        self.client = self.player.sockets[0]
        end = self.client.opener.end
        for _ in range(count):
            self.now = min(self.now + chance.choice(self.STEPS), end - 1)
            self.cookie(chance.choice([listener] * 30 + [STRANGER]), self.forger.word())
        for self.now in (end - 1, end, end + 1):
            self.say(f"a tick {self.now}")
            self.cookie(listener, 7)
            self.say(f"a shake {self.now}")
        self.count_all()

    def cookie(self, sender, cookie):
        """A cookie arrives, or now and then the cookie 0, and seldom is there a tick."""
        chance = self.chance
        field = words(4, 1, 5, 48, 4, REQUEST, self.client.own, cookie if chance.randrange(50) else 0) + bytes(16)
        dest = self.client.own if chance.randrange(50) else 0
        self.raw(self.client, control_words("handshake", 0, dest) + field, sender)
        if not chance.randrange(40):
            self.say(f"a tick {self.now}")


class Crowd(Script):
    """As many sockets or hosts as a script may have, and clients that may come too late for a socket of their own."""

    def __init__(self, chance, control):
        super().__init__(chance, control, True)
        self.say("host h 10.0.0.9:9000")
        self.say("host c [fd00::8]:7000")
        self.say("open stream l h 4 0 2")
        self.say(f"l listen {self.now} {chance.choice([1, 2, 3])}")
        clients = [f"x{i}" for i in range(4)]
        for name in clients:
            self.say(f"open stream {name} c 4 5 2")
            self.say(f"{name} connect {self.now} 10.0.0.9:9000")
        self.fill(MOST_SOCKETS - chance.choice([0, 0, 1, 2, 3]))
        for name in clients:
            first = len(self.player.datagrams)
            self.say(f"{name} tick {self.now}")
            while first < len(self.player.datagrams):
                self.now += 100
                self.say(f"deliver {first} {self.now}")
                first += 1
            self.say(f"l accept {self.now} y{len(self.lines)}")
        self.end()

    def end(self):
        """One more socket, or one more host than there may be."""
        chance, last = self.chance, ["open stream z h 4 5 2", "pair stream z0 z1 4 5 2"]
        if chance.randrange(2):
            for i in range(len(self.player.named_hosts), MOST_HOSTS):
                self.say(f"host h{i} 10.1.0.{i}:1")
            last = ["host z 10.2.0.1:1"]
        self.say(chance.choice(last))

    def fill(self, count):
        """Pairs, and a last socket where that is one alone, up to so many."""
        while len(self.player.sockets) < count:
            own = len(self.player.sockets) + 1
            self.say(f"pair stream a{own} b{own} 1 0 2" if own < count else f"open stream a{own} c 1 0 2")
