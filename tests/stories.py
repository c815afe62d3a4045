"""Stories of paired sockets: over a network that does what it likes, in silence, and with more ACKs than are kept."""
from forge import Forger, control_words
from halves import ACK_HISTORY, PROBE
from play import LAST_START
from read import NUMBERS
from scripts import PRINTED, STRANGER, Script
from sockets import GREATEST_SILENCE, words

FLIGHT = 3_000      # bytes of one send at most


class Datagrams(Script):
    """Datagrams of all kinds for the second socket of a pair. Another pair follows where its connection is lost."""

    STEPS = [0] * 20 + [1, 10, 100, 1_000, 5_000, 10_000, 10_000, 100_000]
    LONG_STEPS = [500_000, 1_000_000, GREATEST_SILENCE]

    def __init__(self, chance, control, has_shakes, count):
        super().__init__(chance, control, has_shakes)
        self.pair()
        for _ in range(count):
            self.now += chance.choice(self.STEPS if chance.randrange(300) else self.LONG_STEPS)
            if not chance.randrange(3):
                self.call()
            if not chance.randrange(500):
                self.stream()
            self.datagram()
        self.count_all()

    def pair(self):
        own, chance = len(self.player.sockets) + 2, self.chance
        self.forger = Forger(chance, self.has_shakes)
        payload, room = chance.choice([1, 4, 6, 20]), chance.choice([16, 32, 32])
        isn = chance.choice([0, 5, NUMBERS - 1, chance.randrange(NUMBERS)])
        start = chance.choice([0, 0, NUMBERS - 3, LAST_START - 7])
        kind = chance.choice(["stream", "message"])
        self.say(f"pair {kind} a{own} b{own} {payload} {isn} {room} {start}")
        self.socket = self.player.sockets[-1]
        self.settle(self.socket, chance.choice(self.forger.rtts), chance.choice([0, 0, 0, 20]))

    def call(self):
        """The socket sends, reads, packs, ticks or tells what it counted."""
        chance, socket = self.chance, self.socket
        act = chance.choice(["send"] * 3 + ["recv"] * 2 + ["pack"] * 8 + ["tick"] * 5 + ["perf"])
        if act in ("pack", "tick"):
            getattr(self, act)(socket)
        elif act == "perf":
            self.say(f"{socket.name} perf {self.now}")
        elif not chance.randrange(40):
            self.misuse(socket)
        elif act == "send":
            self.give(socket, chance.randrange(1, 30))
        else:
            self.take(socket, chance.choice([1, 7, 65_536]))

    def stream(self):
        """Blocks in their order, with gaps that are filled again. No tick comes between, so light ACKs are due."""
        chance, receiver = self.chance, self.socket.receiver
        for _ in range(chance.choice([64, 64, 140])):
            fills = receiver.lost and not chance.randrange(3)
            offset = receiver.ack_offset() if fills else receiver.top + chance.choice([0] * 12 + [1, 2])
            self.raw(self.socket, self.forger.block(self.socket, receiver.number_of(offset)))
            if not chance.randrange(6):
                self.take_all(self.socket)

    def datagram(self):
        """One datagram arrives."""
        s, chance, forger = self.socket, self.chance, self.forger
        turn = chance.randrange(16)
        data = chance.randbytes(chance.randrange(40)) if turn == 0 else forger.datagram(s)
        data = forger.mutated(data) if turn in (1, 2, 3) else data
        if turn < 4 and chance.randrange(8) and len(data) >= 16:
            data = data[:12] + words(s.own) + data[16:]
        self.raw(s, data, chance.choice([None] * 40 + [STRANGER, s.host]), chance.choice([None] * 60 + [STRANGER]))
        if s.phase == "broken":
            self.take_all(s)
            self.say(f"{s.name} perf {self.now}")
            self.pair()


class Story(Script):
    """Two or four sockets, over a network that loses, repeats, reorders and now and then forges."""

    STEPS = [0, 0, 0, 1, 100, 1_000, 5_000, 10_000, 50_000, 200_000]
    LONG_STEPS = [500_000, 3_000_000, 60_000_000]

    def __init__(self, chance, control, has_shakes, count):
        super().__init__(chance, control, has_shakes)
        # (the times between two lines: in some stories nobody is silent for long)
        self.steps = self.STEPS + self.LONG_STEPS * chance.randrange(2)
        self.setting()
        acts = self.acts()
        for act in chance.choices(list(acts), acts.values(), k=count):
            if self.length < PRINTED:
                self.happen(act)
        self.count_all()

    def setting(self):
        """One pair, or two."""
        chance = self.chance
        payload, room = chance.choice([1, 3, 4, 10, 20]), chance.choice([2, 4, 8, 16, 40, 256])
        isn = chance.choice([0, 5, NUMBERS - 1, NUMBERS - 3, chance.randrange(NUMBERS)])
        for names in ["a b", "c d"][: chance.choice([1, 1, 2])]:
            start = chance.choice(["", " 0", " 7", f" {NUMBERS - 2}", f" {LAST_START}"])
            self.say(f"pair {chance.choice(['stream', 'message'])} {names} {payload} {isn} {room}{start}")
        if self.now:
            self.hear()

    def acts(self):
        """How often each thing happens."""
        chance = self.chance
        return {"send": 4, "recv": 3, "pack": 6, "tick": 5, "deliver": 8, "perf": 1, "close": 0.02, "misuse": 0.1,
                "forge": chance.choice([0, 4]), "flight": chance.choice([0, 1, 1]), "repeat": chance.choice([0, 0.3])}

    def happen(self, act):
        """Time passes, and there is a call, an arrival or bytes of no socket."""
        chance, socket = self.chance, self.socket()
        self.now += chance.choice(self.steps)
        # (now and then a moment before the last one)
        now = max(0, self.now - chance.choice([0] * 9 + [chance.randrange(100_000)]))
        if act == "send":
            self.give(socket, chance.choice([0, 1, 2, 5, 9, 30]))
        elif act == "recv":
            self.take(socket, chance.choice([0, 1, 2, 5, 100, 65_536]), now)
        elif act == "misuse":
            self.misuse(socket)
        elif act == "pack":
            self.pack(socket)
        elif act == "tick":
            self.tick(socket)
        elif act == "perf":
            self.say(f"{socket.name} perf {now}")
        elif act == "close":
            self.close(socket, now)
        elif act == "forge":
            self.forge(socket)
        elif act == "flight":
            self.flight(socket)
        elif self.player.datagrams:
            self.deliver(now) if act == "deliver" else self.repeat()

    def socket(self):
        """One of the sockets."""
        return self.chance.choice(self.player.sockets)

    def close(self, socket, now):
        self.say(f"{socket.name} close {now}")

    def deliver(self, now):
        """One of the last datagrams arrives, or one of all."""
        sent = len(self.player.datagrams)
        oldest = max(0, sent - 6) if self.chance.randrange(5) else 0
        self.say(f"deliver {self.chance.randrange(oldest, sent)} {now}")

    def flight(self, socket):
        """Rounds in which blocks go out as far as the windows allow, arrive in this order, and are answered. The
        network loses and repeats some."""
        chance, peer = self.chance, self.player.sockets[socket.peer.id - 1]
        step, losses = chance.choice([0, 1, 30, 200, 2_000]), chance.choice([0, 0, 2, 10, 30])
        for _ in range(chance.choice([1, 2, 4, 8])):
            if self.length >= PRINTED:
                return
            first = len(self.player.datagrams)
            for _ in range(1 if socket.opening.kind == "stream" else chance.choice([1, 3, 20])):
                length = min(FLIGHT, chance.choice([1, 3, 20, 150]) * socket.peer.payload)
                self.give(socket, length - chance.randrange(2))
            while self.pack(socket) != "nothing":
                self.now += step
            self.arrive(first, step, losses)
            first = len(self.player.datagrams)
            self.take_all(peer)
            self.now += chance.choice([10_000, 10_000, 250_000, 500_000])
            self.tick(peer)
            self.tick(socket)
            self.arrive(first, step, losses)

    def arrive(self, first, step, losses):
        """The datagrams from a number on arrive in their order, and what is answered to them. So many of a hundred are
        lost, and as many arrive twice."""
        while first < len(self.player.datagrams):
            fate = self.chance.randrange(100)
            self.now += step
            for _ in range(0 if fate < losses else 2 if fate < 2 * losses else 1):
                self.say(f"deliver {first} {self.now}")
            first += 1

    def repeat(self):
        """One datagram arrives again and again, one that ends a packet pair where there is one."""
        chance, datagrams = self.chance, self.player.datagrams
        numbers = range(max(0, len(datagrams) - 50), len(datagrams))
        ends = [n for n in numbers if datagrams[n][2][0] < 128 and datagrams[n][2][3] % PROBE == 1]
        number, step = chance.choice(ends or numbers), chance.choice([0, 1, 10, 300])
        # (eight times as long as the others, or as short, is the most that counts)
        paces = chance.choice([[1], [1, 1, 8], [1, 1, 9], [8, 8, 1], [9, 9, 1], [0, 1, 2, 9]])
        for _ in range(chance.choice([8, 17, 17, 40])):
            self.now += step * chance.choice(paces)
            self.say(f"deliver {number} {self.now}")

    def forge(self, socket):
        """A datagram of the story with a change, or a likely one, from or to elsewhere now and then."""
        chance, datagrams = self.chance, self.player.datagrams
        is_change = datagrams and not chance.randrange(3)
        data = self.forger.mutated(chance.choice(datagrams)[2]) if is_change else self.forger.datagram(socket)
        self.raw(socket, data, chance.choice([None] * 20 + [STRANGER]), chance.choice([None] * 20 + ["[::1]:5"]))


class Silence(Script):
    """A socket that hears nothing more, with ticks about the moments at which its EXP timer fires."""

    def __init__(self, chance, control, has_shakes):
        super().__init__(chance, control, has_shakes)
        self.say(f"pair stream a b 4 5 {chance.choice([2, 4, 8])}")
        a, is_far = self.player.sockets[0], chance.randrange(2)
        if self.now:
            self.hear()
        # (after short round trips the EXP timer fires early)
        self.settle(a, 0, chance.choice([0, 0, 30]))
        if chance.randrange(3) == 0:
            self.say(f"a send {self.now} 0102030405")
            self.pack(a)
        while a.phase == "connected":
            self.now = max(a.now, a.exp_due() + chance.choice([-1, 0, 0, 0, 1, 7]))
            if is_far and not chance.randrange(8):
                self.now = max(a.now, a.heard + GREATEST_SILENCE + chance.choice([-1, 0, 0, 1]))
            self.say(f"a tick {self.now}")
            self.say(f"a {chance.choice(['pack', 'perf', 'tick'])} {self.now}")
        self.count_all()


class Remembered(Script):
    """A socket that emits more ACKs than it remembers, and ACK2s of the first and of the last ones."""

    def __init__(self, chance, control, has_shakes):
        super().__init__(chance, control, has_shakes)
        self.say("pair stream a b 4 5 4")
        b, count = self.player.sockets[1], ACK_HISTORY + chance.choice([0, 1, 2, 40])
        # (the block is acknowledged again every second round trip, as long as no ACK2 arrives)
        self.raw(b, self.forger.block(b, b.receiver.number_of(0)))
        while b.receiver.last_ack is None or b.receiver.last_ack[0] < count:
            self.now += 2 * b.path.rtt
            self.say(f"b tick {self.now}")
            if not chance.randrange(10):
                self.hear()
        for number in [1, 2, 3, count - ACK_HISTORY, count - ACK_HISTORY + 1, count, 1, chance.randrange(1, count)]:
            self.raw(b, control_words("ack2", number, b.own))
        self.now += 1_000_000
        self.say(f"b tick {self.now}")
        self.count_all()
