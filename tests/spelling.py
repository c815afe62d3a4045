"""Scripts of lines at the edges of their forms."""
from play import LAST_MOMENT, LAST_START
from scripts import Script


class Spelling(Script):
    """Lines at the edges of their forms, up to the first one that is refused."""

    NUMBERS = ["0", "1", "2", "01", "-1", "+1", "1.", "", "255", "256", "8956", "8957", "65535", "65536", "65537",
               "2147483647", "2147483648", str(LAST_START), str(LAST_START + 1), str(LAST_MOMENT), str(LAST_MOMENT + 1),
               str(1 << 64), "9" * 40]
    NAMES = ["a", "b", "c1", "raw", "pair", "tick", "deliver", "stream", "send", "recvmsg", "perf", "a" * 16, "a" * 17,
             "1a", "A", "a_b", "é", ""]
    BYTES = ["-", "", "00", "0", "0g", "FF", "ff00", "--", "-00"]
    ADDRESSES = ["10.0.0.1:9000", "10.0.0.2:9000", "10.0.0.1:0", "10.0.0.1:65536", "10.0.0.256:1", "10.0.0:1",
                 "10.0.0.01:1", "1.2.3.4", "[::]:1", "[::1]:09", "[1:2:3:4:5:6:7:8]:1", "[1:2:3:4:5:6:7::]:1",
                 "[1:2:3:4:5:6:7:8::]:1", "[1::2::3]:1", "[::1.2.3.4]:1", "[:::]:1", "[:1]:1", "[1:]:1",
                 "[FfFf::0]:65535", "[12345::]:1", "[]:1", "::1:1"]

    def __init__(self, chance, control, has_shakes):
        super().__init__(chance, control, has_shakes)
        kind = chance.choice(["stream", "message"])
        self.say(f"pair {kind} a {chance.choice(['b', 'raw', 'pair', 'deliver', 'tick'])} 4 5 4")
        if has_shakes:
            host = chance.choice(["h", "host", "open", "tick2", "listen"])
            self.say(f"host {host} 10.0.0.9:9000")
            self.say(f"open {kind} {chance.choice(['s', 'accept', 'connect', 'host2'])} {host} 4 5 4")
        while self.say(self.edge() if len(self.lines) < 30 else ".") is not None:
            pass

    def edge(self):
        """A line, now and then with words of a kind that is likely to be refused."""
        forms = [self.pair, self.deliver, self.raw, self.other] + [self.call] * 6
        forms += [self.host, self.open, self.accept] * 2 + [self.begin] * 4 if self.has_shakes else []
        text = " ".join(self.chance.choice(forms)())
        changed = self.chance.randrange(40)
        changes = [text + " ", " " + text, text.replace(" ", "  ", 1), text + " 0", text.upper(), text + "\r"]
        return changes[changed] if changed < len(changes) else text

    # ---- words

    def pick(self, good, edges):
        return self.chance.choice(good if self.chance.randrange(8) else edges)

    def number(self, *good):
        return self.pick(good, self.NUMBERS)

    def now_word(self):
        return self.number("0", "5", "77")

    def kind(self):
        return self.pick(["stream", "message"], ["messages", "Stream", ""])

    def name(self):
        """Most often a name that is in use."""
        return self.pick(list(self.player.named), self.NAMES)

    def new_name(self, *good):
        """Most often a name that isn't in use."""
        used = list(self.player.named) + list(self.player.named_hosts)
        return self.pick(good, self.chance.choice([self.NAMES, used]))

    def bytes(self):
        return self.pick(["00ff", "-", "aa"], self.BYTES)

    def address(self, *good):
        return self.pick(good, self.ADDRESSES)

    def sizes(self):
        """Payload, initial sequence number and blocks."""
        return [self.number("4", "8956"), self.number("5", "2147483647"), self.number("2", "4", "9")]

    # ---- lines

    def pair(self):
        start = self.chance.choice([[], [self.number("0", str(LAST_START))]])
        names = [self.new_name("x", "y", "z1", "stream"), self.new_name("u", "v", "w0")]
        return ["pair", self.kind(), *names, *self.sizes(), *start]

    def call(self):
        room, ttl = self.number("0", "9", "65536"), self.pick(["-", "0", "77"], self.NUMBERS + ["--"])
        call = self.chance.choice([
            ("send", self.bytes()), ("recv", room), ("sendmsg", ttl, self.number("0", "1"), self.bytes()),
            ("recvmsg", room), ("pack",), ("tick",), ("close",), ("perf",)])
        return [self.name(), call[0], self.now_word(), *call[1:]]

    def deliver(self):
        return ["deliver", self.number("0"), self.now_word()]

    def raw(self):
        return ["raw", self.now_word(), *(self.address(*self.ADDRESSES[:2]) for _ in range(2)), self.bytes()]

    def other(self):
        return [self.pick(["", "#", "# a send", "#a"], [" ", " #", "a", "a send", "send", "\t", "a jump 5"])]

    def host(self):
        """A host, whose name may be a word of a call, so that only its address tells what the line is."""
        name = self.new_name("u1", "v1", "tick", "close", "shake", "pair2", "deliver")
        new = [f"10.0.0.{self.chance.randrange(3, 200)}:7", "[::7]:0", "[::9]:65535"]
        return ["host", name, self.pick(new, self.chance.choice([self.ADDRESSES, list(self.player.hosts)]))]

    def open(self):
        host = self.pick(list(self.player.named_hosts), self.NAMES + list(self.player.named))
        return ["open", self.kind(), self.new_name("q", "r1", "connect2", "meet"), host, *self.sizes()]

    def begin(self):
        """A call that opens a connection. Some values are refused by the socket, and some make a line that is none."""
        backlog = self.pick(["0", "1", "1024", "1025", "4294967295"], ["4294967296", "01", "-1", "", "9" * 40])
        to = self.address("10.0.0.9:1", "10.0.0.9:0", "[::9]:65535", "[::]:0")
        call = self.chance.choice([("listen", backlog), ("connect", to), ("meet", to), ("shake",)])
        return [self.name(), call[0], self.now_word(), *call[1:]]

    def accept(self):
        return [self.name(), "accept", self.now_word(), self.new_name("o", "p2", "accept2")]
