#!/usr/bin/env python3
"""Counts the instructions of a packet between two sockets in memory, and the memory of a socket.

usage: instructions.py [PACKETS [PROGRAM]]     PACKETS is 14000, and PROGRAM crates/udt_bench/out/udt_bench, where absent

It runs `PROGRAM socket PACKETS` and with twice as many under `valgrind --tool=callgrind`. What a
packet costs is the difference of the two runs, so that openings and the program's start don't count. It is split by the
calls of a socket, each with all that it calls: those that give packets (send, pack), those that take them (arrive,
recv), and the ticks. In the program each call stands in a function of its own, `socket::call_send` and so on. ACKs,
ACK2s and NAKs arrive too, so they count as arriving. What all heap blocks of one packet's run take tells the memory of
the two sockets. `PROGRAM flood PACKETS` has one NAK arrive so often, and then one block that its socket has already, and
`PROGRAM routes PACKETS` looks up one of 1,024 IDs so often. It prints

    send and pack N instructions a packet
    arrive and recv N instructions a packet
    tick N instructions a packet
    allocations N more with twice as many packets
    two sockets N bytes
    a NAK that came before N instructions
    a block that came before N instructions
    allocations N more with a flood of twice as many
    a look-up among 1,024 IDs N instructions
    allocations N more with twice as many look-ups
    send N instructions a call, N shared
    arrive N instructions a call, N shared
    recv N instructions a call, N shared
    allocations N more with twice as many packets, alone and shared

The last four are of `PROGRAM cell PACKETS`, which pushes the packets between two sockets, and then between two of the kind
that threads share. It ends with status 1 where a flood wasn't taken, or an ID wasn't found, as it should be.
"""
import os
import re
import subprocess
import sys
import tempfile

PACKETS = 14_000
PROGRAM = os.path.join(os.path.dirname(os.path.abspath(__file__)), "..", "crates", "udt_bench", "out", "udt_bench")
LINES = {"send and pack": ["send", "pack"], "arrive and recv": ["arrive", "recv"], "tick": ["tick"]}
FLOODS = {"a NAK": "flood::report_again", "a block": "flood::arrive_again"}
SHARED = ["send", "arrive", "recv"]
ALLOCATORS = ["rattle_alloc", "rattle_realloc"]


class Profile:
    """What callgrind wrote: by function, the instructions with all that it calls; and how often each was called."""

    def __init__(self, path):
        self.inclusive, self.called, self.names = {}, {}, {}
        function, positions = None, 1
        lines = iter(open(path, encoding="utf-8", errors="replace"))
        for line in lines:
            key, _, rest = line.strip().partition("=")
            if line.startswith("positions:"):
                positions = len(line.split()) - 1
            elif key == "fn":
                function = self.name(rest)
            elif key == "cfn":
                callee = self.name(rest)
            elif key == "calls":
                self.called[callee] = self.called.get(callee, 0) + int(rest.split()[0])
                self.add(function, next(lines), positions)
            elif function and re.match(r"[0-9+*-]", line):
                self.add(function, line, positions)

    def name(self, text):
        """A name is written with its number at first, and then as the number alone."""
        number, name = re.fullmatch(r"\((\d+)\)(?: (.*))?", text).groups()
        return self.names.setdefault(number, name)

    def add(self, function, line, positions):
        """The instructions of a line belong to its function."""
        told = line.split()
        cost = int(told[positions]) if len(told) > positions else 0
        self.inclusive[function] = self.inclusive.get(function, 0) + cost

    def of(self, pattern):
        """The functions whose names this pattern describes, whatever their type arguments."""
        return [it for it in self.inclusive if it and re.fullmatch(pattern + r"(::<.*>)?('\d+)?", it)]


def profile(program, command, packets, printed, folder):
    """The profile of one run, which must print this."""
    path = os.path.join(folder, f"{command}{packets}")
    words = ["valgrind", "--tool=callgrind", f"--callgrind-out-file={path}", program, command, str(packets)]
    ran = subprocess.run(words, capture_output=True, text=True)
    if ran.returncode != 0 or not re.fullmatch(printed, ran.stdout.strip()):
        sys.exit(f"{' '.join(words)}: status {ran.returncode}, '{ran.stdout}'\n{ran.stderr}")
    return Profile(path)


def profiles(program, command, packets, printed, folder):
    """The profiles of a run and of one with twice as many, which print this with the number in place of N."""
    return [profile(program, command, it, printed.replace("N", str(it)), folder) for it in (packets, 2 * packets)]


def counted(name, small, large):
    """By how much the instructions of a function grew from one profile to the other."""
    found = large.of(rf"(\w+::)*{name}")
    if not found:
        sys.exit(f"no function {name} was run")
    return sum(large.inclusive[it] - small.inclusive.get(it, 0) for it in found)


def of_a_call(name, small, large):
    """The instructions of one call of a function."""
    found = large.of(rf"(\w+::)*{name}")
    return counted(name, small, large) // sum(large.called[it] - small.called.get(it, 0) for it in found)


def allocations(small, large):
    """How many more were made in the second run."""
    return sum(large.called.get(it, 0) - small.called.get(it, 0) for it in ALLOCATORS)


def heap(program):
    """The bytes of all heap blocks that a run of one packet takes."""
    ran = subprocess.run(["valgrind", program, "socket", "1"], capture_output=True, text=True)
    told = re.search(r"([0-9,]+) bytes allocated", ran.stderr)
    return int(told.group(1).replace(",", "")) if told else sys.exit(ran.stderr)


def main(given):
    if len(given) > 2 or not all(it.isdigit() and int(it) for it in given[:1]):
        sys.exit(__doc__)
    packets = int(given[0]) if given else PACKETS
    program = os.path.normpath(given[1] if len(given) > 1 else PROGRAM)
    if not os.access(program, os.X_OK):
        sys.exit(f"{program} isn't built")
    with tempfile.TemporaryDirectory() as folder:
        pushed = profiles(program, "socket", packets, r"N packets, \d+ bytes received", folder)
        flooded = profiles(program, "flood", packets, "N reports, N blocks again", folder)
        routed = profiles(program, "routes", packets, "N look-ups, N found", folder)
        shared = profiles(program, "cell", packets, r"(\d+) bytes received alone, \1 shared", folder)
    for line, calls in LINES.items():
        cost = sum(counted(f"socket::call_{it}", *pushed) for it in calls)
        print(f"{line} {cost // packets} instructions a packet")
    print(f"allocations {allocations(*pushed)} more with twice as many packets")
    print(f"two sockets {heap(program)} bytes")
    for line, name in FLOODS.items():
        print(f"{line} that came before {counted(name, *flooded) // packets} instructions")
    print(f"allocations {allocations(*flooded)} more with a flood of twice as many")
    print(f"a look-up among 1,024 IDs {counted('routes::look_up', *routed) // packets} instructions")
    print(f"allocations {allocations(*routed)} more with twice as many look-ups")
    for it in SHARED:
        alone, turned = (of_a_call(name, *shared) for name in (f"socket::call_{it}", f"cell::shared_{it}"))
        print(f"{it} {alone} instructions a call, {turned} shared")
    print(f"allocations {allocations(*shared)} more with twice as many packets, alone and shared")


if __name__ == "__main__":
    main(sys.argv[1:])
