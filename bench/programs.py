#!/usr/bin/env python3
"""What built programs take of the processor for the same work, in turns, and the ratios to the first.

usage: bench/programs.py [--count] [--turns N] [--only WORD].. PROGRAM PROGRAM ..

A program is a built `canvas`. How the figures are got:

- Scripts: request lines go to `canvas script 1`, the replies away. A line's time is the processor time of a run less that of a run that makes the
  document and does no more, each the least of the turns (5, or N). Windows have a tile's size.
- Openings: `canvas serve` opens a saved document, and is ended when it listens. Its time is less that of the empty document.
- Servers: clients in C (bench/serve_client.c) ask `canvas serve` with one worker for three seconds a turn, after one second that does not count. A
  reply's time is the server's processor time over the replies, the median of the turns. Told too is the server's memory after the last turn.
- With --count all are instructions, by callgrind of valgrind in one turn over a tenth of the lines, which other work on the machine does not change.
  Servers are then asked by one client.

--only measures the works alone in whose names such a WORD stands.
"""

import argparse
import os
import re
import signal
import statistics
import subprocess
import sys
import tempfile
from itertools import count, islice
from pathlib import Path

from documents import document as saved_document, mixed
from exports import processor
from requests import TOP, hundred, mixed_edits, points, rectangle, squares, text_of
from serve import asked_and_counted, document as hundred_saved, memory_of, running

sys.path[:0] = [str(TOP / it) for it in ("python", "tools", "tests", "tests/models")]
from canvas.client import Canvas  # noqa: E402
from harness.running import EMPTY, free_port  # noqa: E402

KINDS = ["rect", "ellipse", "polygon"]
MANY = 4096
BETWEEN = 750
"""How many shapes find a place between two siblings, each beside the one before."""


class Chance:
    """Numbers that look random, the same in each run: those of crates/bench/src/shapes.rt."""

    def __init__(self, seed):
        self.state = seed

    def below(self, most):
        self.state = (self.state * 6364136223846793005 + 1442695040888963407) % (1 << 64)
        return (self.state >> 40) % most

    def fill(self):
        return "".join(f"{self.below(256):02x}" for _ in range(3))

    def pose(self, size):
        return {"dx": self.below(size), "dy": self.below(size), "quarter": self.below(4), "flip": self.below(2) == 1}

    def vertices(self, number, w, h):
        return [[self.below(w), self.below(h)] for _ in range(number)]


# -- documents, as requests that make them -----------------------------------------------------------------------------

def created(shape, pose, parent=None):
    return {"verb": "create", "shape": shape, "pose": pose, "parent": parent}


def sized(chance, kind, least, most):
    """A shape with sides from `least` on and below `most`; a polygon has six vertices."""
    w, h, fill = chance.below(most - least) + least, chance.below(most - least) + least, chance.fill()
    return {"kind": kind, "fill": fill, **({"points": chance.vertices(6, w, h)} if kind == "polygon" else {"w": w, "h": h})}


def boxes(chance, number, kinds, size, parent=None):
    """Shapes of these kinds with sides of 20 to 300, which lie below a size."""
    for _ in range(number):
        yield created(sized(chance, kinds[chance.below(len(kinds))], 20, 300), chance.pose(size), parent)


def stars(chance, number, vertices=256):
    """Stars, 200 across."""
    for _ in range(number):
        shape = {"kind": "polygon", "fill": chance.fill(), "points": star(chance, vertices)}
        yield created(shape, chance.pose(1000))


def star(chance, vertices):
    """The vertices of a star round the origin, each turned on by a 256th of the circle."""
    x, y, found = 1 << 20, 0, []
    for _ in range(vertices):
        far = chance.below(60) + 40
        found.append([x * far >> 20, y * far >> 20])
        x, y = (x * 1_048_260 - y * 25_733) >> 20, (y * 1_048_260 + x * 25_733) >> 20
    return found


def overdraw(chance, groups, kinds):
    """Groups of nine shapes, all over one another."""
    for group in range(1, 10 * groups, 10):
        yield created({"kind": "group"}, {})
        yield from boxes(chance, 9, kinds, 500, group)


def nests(chance, number, size):
    """Frames that show a frame and a group, each with eleven small shapes."""
    for outer in range(1, 25 * number, 25):
        yield created({"kind": "frame", "w": 260, "h": 260, "fill": chance.fill()}, chance.pose(size))
        yield created({"kind": "frame", "w": 200, "h": 200}, chance.pose(60), outer)
        yield from (created(small(chance), chance.pose(150), outer + 1) for _ in range(11))
        yield created({"kind": "group"}, chance.pose(60), outer)
        yield from (created(small(chance), chance.pose(150), outer + 13) for _ in range(11))


def small(chance):
    """A shape of any kind with sides of 10 to 70."""
    return sized(chance, KINDS[chance.below(3)], 10, 70)


def spread(chance, groups, each):
    """Groups of small squares that lie all over 128 by 128 tiles."""
    for group in range(1, groups * (each + 1), each + 1):
        yield created({"kind": "group"}, {})
        yield from ({**rectangle(chance.below(1 << 20), 10), "pose": chance.pose(128 * 256), "parent": group} for _ in range(each))


# -- lines -------------------------------------------------------------------------------------------------------------

def windows(across):
    """Windows of a tile's size that begin anywhere less than `across` from the origin."""
    chance = Chance(7)
    while True:
        yield {"verb": "patch", "x": chance.below(across), "y": chance.below(across), "w": 256, "h": 256}


def far_windows():
    return windows(127 * 256)


def all_mixed_edits(in_groups):
    """Mixed edits of `squares`, which end; begun again they would name shapes that are gone."""
    return lambda: mixed_edits(MANY, in_groups)


def between():
    """A group of two shapes, others that are each made just in front of the first, and the group's deletion; and again."""
    for group in count(1, BETWEEN + 3):
        yield created({"kind": "group"}, {})
        yield from ({**rectangle(place, 10), "parent": group} for place in range(2))
        yield from ({**rectangle(n, 10), "parent": group, "spot": {"over": group + 1}} for n in range(BETWEEN))
        yield {"verb": "delete", "id": group}


def exports():
    """An edit and an export, of the new version, in turn."""
    for n in count():
        yield {"verb": "show", "id": 2, "hidden": n % 2 == 0}
        yield {"verb": "export"}


def same_tiles():
    """The same 64 windows again and again."""
    for n in count():
        yield {"verb": "patch", "x": n % 8 * 32, "y": n // 8 % 8 * 32, "w": 256, "h": 256}


def poses():
    """Poses of shapes of a hundred records in turn."""
    return ({"verb": "pose", "id": 2 + n % 8, "pose": {"dx": n % 200}} for n in count())


def only_points():
    return (line for line in points(1 << 20) if line["verb"] == "point")


def drawn(what, seed, *words):
    """The lines of a document that is made with a seed."""
    return lambda: [*what(Chance(seed), *words)]


SCRIPTS = {
    "tiles over 10 rectangles": (drawn(boxes, 1, 10, ["rect"], 600), lambda: windows(500), 4000),
    "tiles over 10 ellipses": (drawn(boxes, 1, 10, ["ellipse"], 600), lambda: windows(500), 4000),
    "tiles over 100 records": (hundred, lambda: windows(100), 4000),
    "tiles over 1,000 nested shapes": (drawn(nests, 2, 40, 1000), lambda: windows(600), 2000),
    "tiles over 200 polygons of 256 vertices": (drawn(stars, 3, 200), lambda: windows(800), 200),
    "tiles over 4,000 rectangles in heavy overdraw": (drawn(overdraw, 4, 400, ["rect"]), lambda: windows(250), 1000),
    "tiles over 4,000 mixed shapes in heavy overdraw": (drawn(overdraw, 4, 400, KINDS), lambda: windows(250), 500),
    "tiles over 4,000 shapes spread wide": (drawn(spread, 6, 40, 100), far_windows, 2000),
    "tiles over 16,384 shuffled shapes": (lambda: squares(16_384, False, is_shuffled=True), far_windows, 2000),
    "the same 64 tiles over 1,000 nested shapes": (drawn(nests, 2, 40, 1000), same_tiles, 2000),
    "points over 100 records": (lambda: points(0), only_points, 100_000),
    "mixed edits near 4,096 records in groups": (lambda: squares(MANY, True), all_mixed_edits(True), 20_000),
    "mixed edits near 4,096 records on one page": (lambda: squares(MANY, False), all_mixed_edits(False), 20_000),
    "creates between two siblings, and the deletion of all": (list, between, 20_000),
    "an edit and an export of 4,096 records": (lambda: squares(MANY, True), exports, 200),
}
"""Each work's document, its lines, and how many of these are timed."""

OPENINGS = {"opening 4,096 mixed records": MANY, "opening 16,384 mixed records": 16_384}
SERVED = [*((what, clients) for what in ("tiles", "common", "same", "shared") for clients in (8, 60)), ("edits", 8), ("points", 8)]
"""What clients ask for, and how many they are."""
ONE_CLIENT = {
    "served tiles": lambda: windows(100),
    "served tiles, 64 in turn": same_tiles,
    "served edits": poses,
    "served points": only_points,
}
"""What one client asks a server of a hundred records for, where its instructions are counted."""
ASKED = 1024


# -- how they are measured ---------------------------------------------------------------------------------------------

# Valgrind counts an instruction that fills or copies by `rep` once for each byte: the C library is told to use none.
PLAIN = {**os.environ, "GLIBC_TUNABLES": f"glibc.cpu.x86_rep_stosb_threshold={1 << 40}:glibc.cpu.x86_rep_movsb_threshold={1 << 40}"}
CALLGRIND = ["valgrind", "--tool=callgrind", "--callgrind-out-file=/dev/null"]


def run(words, text=b"", ask=None, said=subprocess.DEVNULL, **how):
    """Runs a command over a text, a server until `ask` was called when it listens; gives the milliseconds of processor time."""
    with tempfile.TemporaryFile() as source:
        source.write(text)
        source.seek(0)
        with subprocess.Popen(words, stdin=source, stdout=subprocess.PIPE, stderr=said, **how) as child:
            if ask and child.stdout.readline():
                ask()
                child.terminate()
            while child.stdout.read(1 << 20):
                pass
            _, status, used = os.wait4(child.pid, 0)
            child.returncode = os.waitstatus_to_exitcode(status)
    if child.returncode != (-signal.SIGTERM if ask else 0):
        sys.exit(f"{words} ended with status {child.returncode}")
    return (used.ru_utime + used.ru_stime) * 1000


def instructions(words, *run_so):
    """The millions of instructions of a run."""
    with tempfile.TemporaryFile() as said:
        run([*CALLGRIND, *words], *run_so, said=said, env=PLAIN)
        said.seek(0)
        return int(re.search(rb"Collected : (\d+)", said.read()).group(1)) / 1e6


def first(lines, number):
    return [*islice(lines, number)]


def script_runs(making, lines, number):
    """Two runs, each with how many lines it has beyond those that make the document, as a function of the measure and the program."""
    made, asked = text_of(making()), text_of(first(lines(), number))

    def runs(measure, program):
        words = [program, "script", "1"]
        return (measure(words, made + asked), asked.count(b"\n")), (measure(words, made), 0)
    return runs


def serving(program, file, port):
    return [program, "serve", f"127.0.0.1:{port}", str(file), "1"]


def opening_runs(number, folder):
    """Two runs, of which one opens a document of so many records."""
    file, empty = Path(folder) / f"{number}.json", Path(folder) / "empty.json"
    file.write_bytes(saved_document(number, mixed).saved())
    empty.write_bytes(EMPTY)

    def runs(measure, program):
        return [(measure(serving(program, it, free_port()), b"", lambda: None), it is file) for it in (file, empty)]
    return runs


def asked_runs(file, lines):
    """Two runs of a server, of which one answers a client's lines."""
    def runs(measure, program):
        return [(measure_asked(measure, program, file, asked), len(asked)) for asked in (lines, [])]
    return runs


def measure_asked(measure, program, file, lines):
    """What a server takes that one client asks, line by line."""
    port = free_port()

    def ask():
        with Canvas.connect(f"127.0.0.1:{port}") as canvas:
            for line in lines:
                canvas.ask(**line)
    return measure(serving(program, file, port), b"", ask)


def tell(name, programs, found, unit, note=lambda _: ""):
    """Prints what each program takes, and its ratio to the first."""
    base = found[programs[0]]
    parts = (f"{Path(it).name} {found[it]:,.3f}{note(it)} ({found[it] / base:.3f})" for it in programs)
    print(f"{name}, {unit}: {', '.join(parts)}", flush=True)


def measure_runs(name, programs, runs, turns, measure):
    """Measures by two runs: the least of the turns of each, and their difference for each line."""
    found = {program: [] for program in programs}
    for _ in range(turns):
        for program in programs:
            found[program].append(runs(measure, program))
    each = {}
    for program, turn in found.items():
        (most, lines), (least, fewer) = (min(it) for it in zip(*turn))
        each[program] = (most - least) * 1000 / (lines - fewer)
    tell(name, programs, each, "microseconds" if measure is run else "thousands of instructions")


def measure_served(name, programs, client, file, turns, what, clients):
    """Measures servers: the median of the turns, and the memory after the last."""
    found, memory = {program: [] for program in programs}, {}
    for _ in range(turns):
        for program in programs:
            port = free_port()
            with running(serving(program, file, port)) as server:
                asked_and_counted(client, port, what, clients, 1)
                before = processor(server.pid)
                *_, replies = asked_and_counted(client, port, what, clients, 3)
                found[program].append((processor(server.pid) - before) * 1e6 / replies)
                memory[program] = memory_of(server)
    middle = {program: statistics.median(found[program]) for program in programs}
    tell(name, programs, middle, "microseconds a reply", lambda it: f" {memory[it] / 1000:.1f} MB")


def words():
    given = argparse.ArgumentParser(description=__doc__.split("\n\n")[0])
    given.add_argument("programs", nargs="+", type=os.path.abspath, metavar="PROGRAM")
    given.add_argument("--count", action="store_true", help="count instructions")
    given.add_argument("--turns", type=int, default=5, metavar="N", help="how many turns (5)")
    given.add_argument("--only", action="append", metavar="WORD", help="the works alone in whose names it stands")
    return given.parse_args()


def works(given, folder):
    """Each work's name, and a function that measures it when it is told that."""
    turns, measure = (1, instructions) if given.count else (given.turns, run)
    client, file = f"{folder}/serve_client", Path(folder) / "document.json"
    subprocess.run(["cc", "-O2", "-pthread", "-o", client, str(TOP / "bench" / "serve_client.c")], check=True)
    file.write_bytes(hundred_saved())

    def by_runs(runs, *of):
        return lambda name: measure_runs(name, given.programs, runs(*of), turns, measure)

    for name, (making, lines, number) in SCRIPTS.items():
        yield name, by_runs(script_runs, making, lines, number // 10 if given.count else number)
    for name, number in OPENINGS.items():
        yield name, by_runs(opening_runs, number, folder)
    for name, lines in ONE_CLIENT.items() if given.count else []:
        yield name, by_runs(asked_runs, file, first(lines(), ASKED))
    for served in [] if given.count else SERVED:
        yield f"served {served[0]} by {served[1]}", lambda name, it=served: measure_served(name, given.programs, client, file, turns, *it)


def main():
    given = words()
    wanted = re.compile("|".join(map(re.escape, given.only or [""])))
    with tempfile.TemporaryDirectory() as folder:
        for name, measure in works(given, folder):
            if wanted.search(name):
                measure(name)


if __name__ == "__main__":
    main()
