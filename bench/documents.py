#!/usr/bin/env python3
"""Times opening and saving large documents, and measures the memory that it takes.

usage: bench/documents.py [calls]

The documents are a mixture of all kinds in a tree, of 4,096 and of 16,384 records, the smaller one in format 1 too, and 16,384 polygons
of 256 vertices with coordinates of seven digits. Their texts are written here. How the figures are got, for each document:

- Opening: `canvas serve` is started on the text's file; the time is that from its start until it says `listening`, the least of three
  starts, less that of the empty document.
- Saving: a session of that server asks for an export; the time is that from the request until its last byte is there, over the loopback,
  the least of five, each after an edit that changes nothing, since the text of a version is kept. The bytes must be those that were opened
  (in format 2).
- Beside both, in the same run: the time in which Python's json (a reader and a writer in C that build values) reads the same text, and
  writes it again, the least of three; and the ratios to it.
- Memory: the greatest size in memory that the program has had (VmHWM in /proc/PID/status) when it listens, and after the exports; in KiB.

With the word `calls` the calls alone are timed too: crates/bench, which is proved and built first, opens and saves the mixtures some
times and prints the least time of each.
"""

import json
import subprocess
import sys
import tempfile
import time
from pathlib import Path

from requests import TOP, peak
from serve import started

sys.path[:0] = [str(TOP / it) for it in ("python", "tools", "tests", "tests/models")]
import key_rows  # noqa: E402
from canvas.client import PROGRAM, Canvas  # noqa: E402
from repository import BUILT  # noqa: E402
from plain_model import Model  # noqa: E402
from harness.running import EMPTY, free_port  # noqa: E402

MOST = 16_384
KINDS = [
    {"kind": "rect", "w": 40, "h": 30},
    {"kind": "ellipse", "w": 20, "h": 50},
    {"kind": "polygon", "points": [[0, 0], [40, 5], [50, 30], [20, 44], [3, 20]]},
]


def document(count, record):
    """A document whose records are the function's for 0, 1, .. in that order."""
    model = Model()
    model.records = {number + 1: {"hidden": False, **record(number)} for number in range(count)}
    model.next = count + 1
    return model


def mixed(number):
    """A record of the mixture: each 64th is a frame on the page, the others lie in the last frame."""
    pose = {"dx": number % 97, "dy": number % 89, "quarter": number % 4, "flip": number % 2 == 0}
    if number % 64 == 0:
        shape = {"kind": "frame", "w": 300, "h": 200, "fill": None}
        return {"shape": shape, "pose": pose, "parent": None, "index": key_rows.fresh(number // 64)}
    shape = {**KINDS[number % 3], "fill": f"{number * 4099 % (1 << 24):06x}"}
    return {"shape": shape, "pose": pose, "parent": number // 64 * 64 + 1, "index": key_rows.fresh(number % 64)}


POINTS = [[1_000_000 + k * 4099 % 48_576, -1_000_000 - k * 7919 % 48_576] for k in range(256)]


def polygon(number):
    """A polygon of 256 vertices on the page; all have the same ones."""
    shape = {"kind": "polygon", "points": POINTS, "fill": f"{number * 4099 % (1 << 24):06x}"}
    return {"shape": shape, "pose": {}, "parent": None, "index": key_rows.fresh(number)}


def texts():
    """Each document's name, its text to open and the text that is saved of it."""
    small = document(4096, mixed)
    yield "4,096 mixed records of format 1", small.saved(1), small.saved()
    yield "4,096 mixed records", small.saved(), small.saved()
    for name, record in [("mixed records", mixed), ("polygons of 256 vertices", polygon)]:
        text = document(MOST, record).saved()
        yield f"{MOST:,} {name}", text, text


def least(times, work):
    """The least seconds of some runs of a work."""
    found = []
    for _ in range(times):
        begin = time.perf_counter()
        work()
        found.append(time.perf_counter() - begin)
    return min(found)


class Serving:
    """A run of the program that serves a file."""

    def __init__(self, file):
        port = free_port()
        begin = time.perf_counter()
        self.process = started([str(BUILT), "serve", f"127.0.0.1:{port}", str(file), "1"])
        self.seconds = time.perf_counter() - begin
        self.address = f"127.0.0.1:{port}"

    def __enter__(self):
        return self

    def __exit__(self, *_):
        self.process.kill()
        self.process.wait()

    def memory(self):
        return peak(self.process.pid)


def opening(file):
    """The seconds in which the program opens a file, and its greatest size then."""
    found = []
    for _ in range(3):
        with Serving(file) as serving:
            found.append((serving.seconds, serving.memory()))
    return min(found)


def saving(file, wanted):
    """The seconds of an export, and the program's greatest size after some of them."""
    with Serving(file) as serving, Canvas.connect(serving.address) as canvas:
        if canvas.ask(verb="export")[1] != wanted:
            sys.exit(f"{file} is saved otherwise")
        found = []
        for _ in range(5):
            canvas.ask(verb="show", id=1, hidden=False)
            found.append(least(1, lambda: canvas.ask(verb="export")))
        return min(found), serving.memory()


def measure(file, name, text, wanted, start):
    file.write_bytes(text)
    opened, memory = opening(file)
    saved, most = saving(file, wanted)
    value = json.loads(text)
    read = least(3, lambda: json.loads(text))
    written = least(3, lambda: json.dumps(value, separators=(",", ":"), sort_keys=True))
    print(f"{name}, {len(text):,} bytes: opened in {(opened - start) * 1000:.1f} ms, {(opened - start) / read:.2f} times Python's json; "
          f"saved in {saved * 1000:.1f} ms, {saved / written:.2f} times; memory when opened {memory:,} KiB, after exports {most:,} KiB "
          f"({most * 1024 / len(text):.1f} times the text)", flush=True)


def main():
    subprocess.run([str(PROGRAM), "script"], stdin=subprocess.DEVNULL, check=True)  # builds it where it is not built
    with tempfile.TemporaryDirectory() as folder:
        file = Path(folder) / "document.json"
        file.write_bytes(EMPTY)
        start, memory = opening(file)
        print(f"the empty document: listening after {start * 1000:.1f} ms, memory {memory:,} KiB")
        for name, text, wanted in texts():
            measure(file, name, text, wanted, start)
    if sys.argv[1:] == ["calls"]:
        for count in (4096, MOST):
            done = subprocess.run([str(TOP / "bench" / "time.sh"), "saving"], input=document(count, mixed).saved(),
                                  stdout=subprocess.PIPE, check=True)
            print(f"{count:,} mixed records, the calls alone: {done.stdout.decode().strip()}")


if __name__ == "__main__":
    main()
