"""Numbers and addresses as texts. An address is kept in the spelling in which it is printed: `a.b.c.d:port`, or eight
groups without leading zeros in `[..]:port`."""
import functools
import re
import struct

LAST_PORT = 65_535
V4_PARTS, V6_GROUPS = 4, 8
LONGEST_NUMBER = 20     # digits of a number that any range has


def number_in(word, least, most):
    """The number that a word spells, where it lies in a range."""
    is_number = len(word) <= LONGEST_NUMBER and re.fullmatch("0|[1-9][0-9]*", word)
    return int(word) if is_number and least <= int(word) <= most else None


def v4_in(text):
    """An address of version 4."""
    parts = text.split(".")
    return text if len(parts) == V4_PARTS and all(number_in(it, 0, 255) is not None for it in parts) else None


def v6_in(text):
    """An address of version 6. A double colon stands for one or more groups of zero."""
    halves = [half.split(":") if half else [] for half in text.split("::")]
    groups = [it for half in halves for it in half]
    if len(halves) > 2 or not all(re.fullmatch("[0-9a-fA-F]{1,4}", it) for it in groups):
        return None
    left = V6_GROUPS - len(groups)
    if (left != 0) if len(halves) == 1 else (left < 1):
        return None
    told = groups if len(halves) == 1 else halves[0] + ["0"] * left + halves[1]
    return "[" + ":".join(f"{int(it, 16):x}" for it in told) + "]"


@functools.lru_cache(maxsize=4_096)
def address_in(word):
    """The address and port that a word spells, or None."""
    told = re.fullmatch(r"(?:([0-9.]+)|\[([0-9a-fA-F:]+)\]):([0-9]+)", word)
    if not told or number_in(told[3], 0, LAST_PORT) is None:
        return None
    host = v4_in(told[1]) if told[1] else v6_in(told[2])
    return host and f"{host}:{told[3]}"


def port_of(address):
    return int(address.rpartition(":")[2])


@functools.lru_cache(maxsize=4_096)
def bytes_of(address):
    """The four or sixteen bytes of an address, without its port."""
    host = address.rpartition(":")[0]
    if host[0] == "[":
        return struct.pack(">8H", *(int(it, 16) for it in host[1:-1].split(":")))
    return bytes(map(int, host.split(".")))
