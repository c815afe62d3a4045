#!/usr/bin/env python3
"""A second reader of UDT packets, written from the rules and not from the code: it says of a byte
string why it is no packet, or which packet it is.

    read(datagram) -> {"malformed": 1 to 6}
                    | {"packet": "block", "seq": .., "flags": {..}, "stamp": .., "dest": .., "bytes": ..}
                    | {"packet": "handshake" | "keepalive" | "ack" | "nak" | "shutdown" | "ack2" | "drop", ..}

As a program it reads one datagram a line, in hexadecimal digits (`-` for no bytes), and prints what
each one is.
"""
import struct
import sys

TOO_SHORT, UNKNOWN_TYPE, BAD_HANDSHAKE, BAD_NAK, BAD_DROP, BAD_ACK = 1, 2, 3, 4, 5, 6

NUMBERS = 2 ** 31   # packet numbers, before they begin again
NEAR = 2 ** 30      # the end of a range lies less far ahead of its start
TYPES = {0: "handshake", 1: "keepalive", 2: "ack", 3: "nak", 5: "shutdown", 6: "ack2", 7: "drop"}


def words(field, count):
    """The first words of a field, big-endian."""
    return struct.unpack(">%dI" % count, field[: 4 * count])


def ranges_of(field):
    """The ranges that a field of lost numbers spells, or None where it spells none."""
    if len(field) == 0 or len(field) % 4 != 0:
        return None
    left = list(words(field, len(field) // 4))
    ranges = []
    while left:
        first = left.pop(0)
        if first < NUMBERS:
            ranges.append((first, first))
            continue
        if not left:
            return None
        first, last = first - NUMBERS, left.pop(0)
        if last >= NUMBERS or (last - first) % NUMBERS >= NEAR:
            return None
        ranges.append((first, last))
    return ranges


def shake_of(field):
    """The fields of a handshake."""
    version, kind, isn, packet, flow, ask, ident, cookie = words(field, 8)
    return {
        "version": version,
        "kind": kind,
        "isn": isn % NUMBERS,
        "packet": packet,
        "flow": flow,
        "ask": ask - 2 ** 32 if ask >= 2 ** 31 else ask,
        "id": ident,
        "cookie": cookie,
        "address": field[32:48].hex(),
    }


def ack_of(field):
    """What an ACK carries: as much as its words hold."""
    names = ["ack", "rtt", "var", "buffer", "rate", "capacity"]
    form, count = ("light", 1) if len(field) < 16 else ("buffer", 4) if len(field) < 24 else ("full", 6)
    told = dict(zip(names, words(field, count)))
    told["ack"] %= NUMBERS
    return {"form": form, **told}


def block_of(seq, second, stamp, dest, payload):
    """A block of data."""
    flags = {
        "first": second >> 31 == 1,
        "last": second >> 30 & 1 == 1,
        "order": second >> 29 & 1 == 1,
        "message": second & (2 ** 29 - 1),
    }
    return {"packet": "block", "seq": seq, "flags": flags, "stamp": stamp, "dest": dest, "bytes": payload.hex()}


def control_of(name, info, stamp, dest, field):
    """A control packet, or why it is none."""
    told = {"packet": name, "stamp": stamp, "dest": dest}
    if name == "handshake":
        return {**told, "shake": shake_of(field)} if len(field) >= 48 else {"malformed": BAD_HANDSHAKE}
    if name == "ack":
        return {**told, "number": info, "body": ack_of(field)} if len(field) >= 4 else {"malformed": BAD_ACK}
    if name == "nak":
        ranges = ranges_of(field)
        return {**told, "ranges": ranges} if ranges is not None else {"malformed": BAD_NAK}
    if name == "ack2":
        return {**told, "number": info}
    if name == "drop":
        if len(field) < 8:
            return {"malformed": BAD_DROP}
        first, last = words(field, 2)
        return {**told, "message": info % 2 ** 29, "first": first % NUMBERS, "last": last % NUMBERS}
    return told


def read(datagram):
    """The packet that a datagram carries, or why it carries none."""
    if len(datagram) < 16:
        return {"malformed": TOO_SHORT}
    first, second, stamp, dest = words(datagram, 4)
    if first < 2 ** 31:
        return block_of(first, second, stamp, dest, datagram[16:])
    name = TYPES.get(first // 2 ** 16 % 2 ** 15)
    if name is None:
        return {"malformed": UNKNOWN_TYPE}
    return control_of(name, second, stamp, dest, datagram[16:])


if __name__ == "__main__":
    for line in sys.stdin:
        text = line.strip()
        print(read(b"" if text == "-" else bytes.fromhex(text)))
