"""Datagrams that no socket sent: likely ones, with numbers at and near where a socket stands, and mutated ones."""
from controls import GREATEST_PERIOD
from halves import FIRST, LAST, ORDER
from read import NEAR, NUMBERS
from shakes import AGREEMENT, HEADERS, MEET, MINUTE, REJECTION, REQUEST, RESPONSE, VERSION, cookie_of
from shakes import KINDS as SOCKET_TYPES
from sockets import TYPE_NUMBERS, words

# how often each kind of packet comes. A shutdown ends what can be tried with a socket
KINDS = {"block": 80, "ack": 70, "nak": 50, "ack2": 40, "keepalive": 8, "handshake": 8, "drop": 20, "unknown": 10,
         "shutdown": 1}
# how far a number lies from where the socket stands, in packets
STEPS = [0] * 12 + [1, 1, -1, -1, 2, 3, 5, 31, 32, 33, NEAR, -NEAR, NEAR - 1]
BUFFERS = [0, 1, 2, 3, 8, 16, 32, 100, 65_535, 65_536, 65_537]
# the round-trip times that one peer tells, in microseconds, and its rates, in packets a second
RTTS = [[0, 1, 1_000, 20_000, 100_000, 300_000], [0], [20_000, 70_000], [60_000_000, 60_000_001]]
RATES = [[0, 0, 1, 7, 100, 1_000, 50_000, 1_000_000, 10**9, 10**9 + 1]] * 2 + [[0], [1]]
# what handshakes ask, by the phase of the socket that they reach, and what any may ask
ASKS = {"listening": [REQUEST], "connecting": [REQUEST, RESPONSE, RESPONSE, REJECTION],
        "meeting": [MEET, RESPONSE, AGREEMENT], "connected": [REQUEST, MEET, RESPONSE, AGREEMENT]}
ANY_ASKS = [REQUEST, MEET, RESPONSE, AGREEMENT, REJECTION, REJECTION - 1, 2, -3, -(1 << 31)]
# the packet sizes and flow windows about the least and the greatest that count
PACKETS = [0, HEADERS - 1, HEADERS, HEADERS + 1, HEADERS + 2, HEADERS + 4, 1_500, 9_000, (1 << 32) - 1]
FLOWS = [0, 1, 2, 3, 16, 65_535, 65_536, 65_537, (1 << 32) - 1]
# the lengths of an ACK's field at which it becomes another form, or none
ACK_LENGTHS = [4, 4, 15, 16, 16, 23, 24, 24, 24, 24, 24, 25, 3, 0]


def control_words(kind, info, dest, stamp=0, reserved=0):
    """The header of a control packet, by the name or the number of its type."""
    number = TYPE_NUMBERS.get(kind, kind)
    return words((1 << 31) + (number << 16) + reserved, info, stamp, dest)


class Forger:
    """Draws datagrams for a socket."""

    def __init__(self, chance, has_shakes):
        self.chance, self.rtts, self.rates = chance, chance.choice(RTTS), chance.choice(RATES)
        self.has_shakes = has_shakes    # (whether a handshake may be a likely one)

    def word(self, likely=()):
        """32 bits: most often one of the likely numbers."""
        return self.chance.choice(likely) if likely and self.chance.randrange(8) else self.chance.randrange(1 << 32)

    def number(self, half, offset):
        """The sequence number of an offset of a sender or receiver, or of one that lies near it or somewhere."""
        step = self.chance.choice(STEPS) if self.chance.randrange(40) else self.chance.randrange(NUMBERS)
        return half.number_of(offset + step)

    def datagram(self, socket):
        """A datagram that the peer of a socket might send, or nearly so."""
        chance = self.chance
        kind = chance.choices(list(KINDS), KINDS.values())[0]
        dest = chance.choice([socket.own] * 24 + [socket.own - 1, 0, 1025])
        if kind == "block":
            head = words(self.block_number(socket), self.message(), self.word(), dest)
            return head + chance.randbytes(self.length(socket))
        head = control_words(
            chance.choice([4, 8, chance.randrange(1 << 15)]) if kind == "unknown" else kind,
            self.info(kind, socket), dest, self.word(), chance.choice([0, 0, chance.randrange(1 << 16)]))
        return head + self.field(kind, socket)

    def message(self):
        """The second word of a block: now and then the same message number as another's."""
        chance = self.chance
        ends, order = chance.choice([0, FIRST, LAST, FIRST + LAST]), chance.choice([0, ORDER])
        return self.word([ends + order + chance.choice([1, 1, 1, 2])])

    def block_number(self, socket):
        """The sequence number of a block: where a gap begins or ends, at the base, or near one of these."""
        receiver = socket.receiver
        offsets = [receiver.top] * 2 + [receiver.ack_offset()] * 2 + [receiver.base]
        return self.number(receiver, self.chance.choice(offsets))

    def block(self, socket, number):
        """A block with this sequence number, whose bytes are all taken."""
        return words(number, 3 << 30, 0, socket.own) + self.chance.randbytes(socket.peer.payload)

    def length(self, socket):
        """The length of a block: most often one that is taken."""
        payload = socket.peer.payload
        return self.chance.choice([payload] * 10 + [1, max(1, payload - 1)] * 4 + [payload + 1, 0])

    def info(self, kind, socket):
        """The second word of a control packet: for an ACK2 most often the number of an ACK that is remembered."""
        remembered = list(socket.receiver.history) if kind == "ack2" else []
        return self.word(remembered[:2] + remembered[-3:] + [0, 1, 2])

    def field(self, kind, socket):
        """What follows the header of a control packet."""
        chance = self.chance
        if kind == "ack":
            return self.ack(socket)[: chance.choice(ACK_LENGTHS)]
        if kind == "nak":
            return self.nak(socket)
        if kind == "handshake" and self.has_shakes and chance.randrange(4):
            return self.shake(socket)
        if kind == "handshake":
            return chance.randbytes(chance.choice([48, 48, 47, 49, 0]))
        if kind == "drop":
            receiver = socket.receiver
            first = chance.choice([receiver.base, receiver.ack_offset(), receiver.top])
            reach = chance.choice([0, 0, 1, 2, 5, 31, -1])
            told = self.number(receiver, first), self.number(receiver, first + reach)
            return words(*told)[: chance.choice([8] * 8 + [7, 0])]
        return chance.randbytes(chance.choice([0, 0, 0, 1, 4]))

    def ack(self, socket):
        """The field of a full ACK, with a byte that is passed over."""
        sender = socket.sender
        number = self.number(sender, self.chance.choice([sender.acked, sender.next]))
        number += self.chance.choice([0, 0, NUMBERS])
        told = [self.word(self.rtts), self.word(), self.word(BUFFERS), self.word(self.rates), self.capacity(socket)]
        return words(number, *told) + b"\0"

    def capacity(self, socket):
        """A link capacity: now and then one that lies above the present speed by about a power of ten of bits."""
        known, period = socket.path.capacity, socket.sender.control.period
        if not period or self.chance.randrange(3):
            return self.word(self.rates)
        speed, packet = GREATEST_PERIOD // period, socket.peer.payload + HEADERS
        wanted = speed + 10 ** self.chance.randint(3, 9) // (8 * packet) + self.chance.choice([0, 0, 1])
        # (what is told counts for an eighth, where a capacity is known)
        told = 8 * wanted - 7 * known if known else wanted
        return told if 0 <= told < 1 << 32 else self.word(self.rates)

    def nak(self, socket):
        """The field of a loss report, whole or not: ranges of what is in flight, at its ends, and anywhere."""
        chance, sender, field = self.chance, socket.sender, []
        for _ in range(chance.choice([1, 1, 1, 2, 3, 5])):
            first = self.number(sender, chance.randint(sender.acked, sender.next))
            if chance.randrange(2):
                field.append(first)
            else:
                reach = chance.choice([0, 1, 2, 3, 7, 20, 20, NEAR - 1, NEAR, NUMBERS - 1])
                # (an end whose first bit is set is none)
                field += [NUMBERS + first, (first + reach) % NUMBERS + chance.choice([0] * 20 + [NUMBERS])]
        if not chance.randrange(16):
            field.pop()
        return words(*field) + chance.randbytes(chance.choice([0] * 20 + [1, 2, 3]))

    def shake(self, socket, cookies=()):
        """The field of a handshake that a socket in its phase might take, or nearly so."""
        chance, kind = self.chance, SOCKET_TYPES[socket.opening.kind]
        version, kind = chance.choice([VERSION] * 15 + [0, VERSION + 1]), chance.choice([kind] * 15 + [0, 1, 2, 3])
        packet = self.word(PACKETS + [socket.opening.payload + HEADERS] * 8)
        asked = chance.choice(ASKS.get(socket.phase, ANY_ASKS) if chance.randrange(8) else ANY_ASKS)
        ident = chance.choice(([socket.peer.id] * 9 if socket.peer else [1, 2, 3, 4] * 3) + [0, 9, (1 << 32) - 1])
        told = [version, kind, self.word([0, 5, NUMBERS - 1, NUMBERS + 5]), packet, self.word(FLOWS), asked % (1 << 32),
                ident, self.word([0] + list(cookies) * 3)]
        return (words(*told) + chance.randbytes(17))[: chance.choice([48] * 15 + [49, 47])]

    def handshake(self, socket, sender, now):
        """A handshake for a socket: most often with the destination, and where it listens with the cookie, that counts
        in its phase."""
        chance, minute = self.chance, now // MINUTE
        cookies = [cookie_of(sender, max(0, minute - back)) for back in (0, 0, 0, 1, 1, 2)]
        cookies = cookies if socket.phase == "listening" else []
        dest = chance.choice([0] * 9 + [socket.own] if socket.phase == "listening" else [socket.own] * 5 + [0, 0, 0, 1])
        return control_words("handshake", self.word([0]), dest, self.word(), 0) + self.shake(socket, cookies)

    def mutated(self, data):
        """The datagram with some bits, bytes or words changed, or cut off."""
        chance, data = self.chance, bytearray(data)
        for _ in range(chance.randrange(1, 4)):
            change = chance.randrange(4)
            if change == 0 and data:
                data[chance.randrange(len(data))] ^= 1 << chance.randrange(8)
            elif change == 1 and data:
                data[chance.randrange(len(data))] = chance.choice([0, 1, 0x7F, 0x80, 0xFF])
            elif change == 2:
                del data[chance.randrange(len(data) + 1) :]
            else:
                data += chance.randbytes(chance.randrange(1, 6))
        return bytes(data)
