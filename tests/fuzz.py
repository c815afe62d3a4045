#!/usr/bin/env python3
"""Gives generated scripts to the program, and compares what it prints with a second player.

usage: fuzz.py [--pairs] run PROGRAM [COUNT [SEED [CONTROL]]]     plays scripts with the program, and compares what it
                                                                  prints
       fuzz.py [--pairs] cases FOLDER [COUNT [SEED [CONTROL]]]    writes the scripts, and what they must print, into a
                                                                  folder

Of three kinds: random and mutated datagrams, COUNT in all, each the `raw` line of one socket that also sends and
reads; and stories, one for each 500 datagrams; and as many scripts of lines at the edges of their forms. In one half of
the stories are two or four paired sockets whose datagrams are lost, repeated, reordered and forged while time passes,
or one that hears nothing, or one that emits more ACKs than it remembers. In the other half sockets find each other by
handshakes, which are lost, repeated, reordered and forged too. With --pairs there are no handshakes: all stories are of
paired sockets, and all lines of the forms that these need. Without CONTROL the scripts are played under each rate
control in turn, and cases are written for the native one. What must be printed is worked out by play.py.
"""
import itertools
import os
import random
import subprocess
import sys
import tempfile

from connections import Connections, Cookies, Crowd
from controls import CONTROLS, NATIVE
from play import STATUS_PLAYED, STATUS_REFUSED
from scripts import DATAGRAMS
from spelling import Spelling
from stories import Datagrams, Remembered, Silence, Story

# (one story comes with so many datagrams)
STORY = 500
# (cookies for one client; the few print less than a mebibyte)
MANY_COOKIES, FEW_COOKIES = 10_000, 2_000


def pair_story(chance, control, has_shakes):
    """A story of paired sockets, or now and then a script of one socket alone."""
    kind = chance.randrange(40)
    if kind < 2:
        return Remembered(chance, control, has_shakes)
    if kind < 6:
        return Silence(chance, control, has_shakes)
    return Story(chance, control, has_shakes, chance.choice([30, 100, 400]))


def connection_story(chance, control, cookies):
    """A story of sockets that find each other, or now and then of many cookies or many sockets."""
    kind = chance.randrange(200)
    if kind < 1:
        return Cookies(chance, control, cookies)
    return Crowd(chance, control) if kind < 6 else Connections(chance, control, True, chance.choice([30, 100, 300]))


def scripts(count, seed, controls, has_shakes, cookies):
    """Scripts with this number of datagrams in all, and stories, under each of these controls in turn."""
    chance, turns = random.Random(seed), itertools.cycle(controls)
    # (each control has its share)
    size = max(1, min(DATAGRAMS, -(-count // len(controls))))
    for done in range(0, count, size):
        yield Datagrams(chance, next(turns), has_shakes, min(count - done, size)).told()
    if has_shakes:
        yield Cookies(chance, next(turns), cookies).told()
        yield Crowd(chance, next(turns)).told()
    for _ in range(count // STORY):
        yield Spelling(chance, next(turns), has_shakes).told()
        if has_shakes and chance.randrange(2):
            yield connection_story(chance, next(turns), cookies).told()
        else:
            yield pair_story(chance, next(turns), has_shakes).told()


def differs(said, wanted):
    """The first line in which two texts differ."""
    lines = zip(said.split("\n"), wanted.split("\n"))
    return next((f"line {i + 1}: '{a}' for '{b}'" for i, (a, b) in enumerate(lines) if a != b), "one has more lines")


def run(program, control, script, wanted):
    """How what the program prints and its status differ from what is wanted, or None."""
    given = [program, "replay"] + ([] if control == NATIVE else [control])
    ran = subprocess.run(given, input=script.encode(), capture_output=True)
    said, status = ran.stdout.decode(), STATUS_REFUSED if wanted.endswith(" refused\n") else STATUS_PLAYED
    if ran.returncode == status and said == wanted:
        return None
    kept = tempfile.NamedTemporaryFile(prefix="fuzz", suffix=".udt", delete=False)
    kept.write(script.encode())
    return f"control {control}, status {ran.returncode}, {differs(said, wanted)}; the script is {kept.name}"


def main(given):
    has_shakes = given[:1] != ["--pairs"]
    given = given if has_shakes else given[1:]
    if not 2 <= len(given) <= 5 or given[0] not in ("run", "cases") or not set(given[4:]) <= set(CONTROLS):
        sys.exit(__doc__)
    count = int(given[2]) if len(given) > 2 else 1_000_000
    seed = int(given[3]) if len(given) > 3 else 1
    cookies = MANY_COOKIES if given[0] == "run" else FEW_COOKIES
    controls = given[4:] or (list(CONTROLS) if given[0] == "run" else [NATIVE])
    for number, (control, script, wanted) in enumerate(scripts(count, seed, controls, has_shakes, cookies)):
        if given[0] == "cases":
            path = os.path.join(given[1], f"part{number}")
            open(path, "w").write(script)
            open(f"{path}.stdout", "w").write(wanted)
            continue
        fault = run(os.path.abspath(given[1]), control, script, wanted)
        if fault:
            sys.exit(f"part {number} of seed {seed}: {fault}")
    outcome = "no difference" if given[0] == "run" else "written"
    print(f"{count} datagrams, {count // STORY} stories, as many scripts of edges: {outcome}")


if __name__ == "__main__":
    main(sys.argv[1:])
