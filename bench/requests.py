#!/usr/bin/env python3
"""Times of requests of the built program: rates beside a line counter, how they grow with the document, looks over wide documents,
pictures from farther away, and pictures by several workers.

usage: bench/requests.py [rates|growth|walks|levels|workers ..] [hundreds of thousands of requests for the rates; 1 where it is left out]

Without a word it measures all five. The program serves request lines from a file or a pipe, with one worker where nothing else is said.
How the figures are got:

- rates: each workload is a file of request lines, the replies go to a file that is then removed. Printed for each: requests a second, the
  ratio to a line counter (wc -l) over the same file, both the least of three runs, and the greatest size of the program in memory at
  100,000 requests and at a tenth of them, which shows whether memory grows with the number of requests.
- growth: documents of 10 to 16,384 records: squares of 10 by 10, each in a tile of its own, three of them in one group, the others on one page
  or in groups of 63. A request's time is that from the last reply to the edits that make the document until the program has answered the
  requests and ended, the least of three runs, the replies read from a pipe and thrown away: a small edit (a pose of some square), a mixed
  edit (a pose, a mark, another kind, a move to the front, a deletion and a new square, and new indexes for the group of three, in turn), and
  a tile of level 0 that one square meets. Ratios are to the document of 10, and of the greatest to that of 4,096.
- walks: looks at pixels all over such documents of 10, 4,000 and 16,000 records, most of which no square holds: points, and patches of one
  pixel, which cost what a tile's scene does. In shuffled tiles, siblings that stand side by side in the order lie all over the page. Times
  are got as in `growth`.
- levels: 16,384 small shapes 128 pixels apart, of which a tile at level k meets 4 to the power of k + 1. Beside it stands the same document
  made 2^k times smaller, of which a tile at level 0 meets as many shapes; of squares it is the same picture byte by byte, which is checked.
  A tile's time is got as in `growth`, the two in turn in one run; printed are both and their ratio.
- workers: one tile again and again, by up to 1, 2, 4 and 16 workers: a script keeps no pictures. Times are got as in `growth`, the least of
  three rounds in which the numbers of workers take turns; ratios are to one worker.
"""

import json
import math
import os
import random
import subprocess
import sys
import tempfile
import threading
import time
from pathlib import Path

TOP = Path(__file__).resolve().parent.parent
sys.path[:0] = [str(TOP / it) for it in ("python", "tools", "tests", "tests/models")]
from canvas.client import PROGRAM, replies  # noqa: E402
from repository import BUILT  # noqa: E402

SIZES = [10, 100, 1000, 4096, 16_384]
MOST = 16_384
WALKED = [10, 4000, 16_000]
EDITS = 20_000
LOOKS = 20_000
TILES = 1000
EDGE = 128
"""How many shapes of the wide documents stand in a row."""


def rectangle(place, side):
    """A create request of a square whose place and colour follow from its number."""
    return {
        "verb": "create",
        "shape": {"kind": "rect", "w": side, "h": side, "fill": f"{(place * 2654435761) % (1 << 24):06x}"},
    }


def first_path(count):
    """Ten rectangles, and then patches of one pixel."""
    lines = [rectangle(place, 10 + place) for place in range(10)]
    lines += [{"verb": "patch", "x": n % 20, "y": n % 7, "w": 1, "h": 1} for n in range(count)]
    return lines


def hundred():
    """A hundred rectangles, in ten frames of ten."""
    lines = []
    for frame in range(10):
        parent = len(lines) + 1
        lines.append({
            "verb": "create",
            "shape": {"kind": "frame", "w": 200, "h": 20, "fill": "eeeeee"},
            "pose": {"dx": 5, "dy": 25 * frame},
        })
        lines += [{**rectangle(place, 12), "parent": parent, "pose": {"dx": 20 * place, "dy": 4}} for place in range(9)]
    return lines


def points(count):
    """Points of a document of a hundred records."""
    return hundred() + [{"verb": "point", "x": n % 211, "y": n % 199} for n in range(count)]


def edits(count):
    """Small edits of a document of a hundred records: poses, marks and moves to the front in turn."""
    kinds = [
        lambda n: {"verb": "pose", "id": 2 + n % 8, "pose": {"dx": n % 99, "quarter": n % 4}},
        lambda n: {"verb": "show", "id": 2 + n % 8, "hidden": n % 2 == 0},
        lambda n: {"verb": "move", "id": 2 + n % 8, "parent": 1, "spot": "back" if n % 2 else "front"},
    ]
    return hundred() + [kinds[n % 3](n) for n in range(count)]


WORKLOADS = {
    "patches of 1 by 1 over 10 rectangles": first_path,
    "points over 100 records": points,
    "small edits of 100 records": edits,
}


def peak(pid):
    """The greatest size in memory that a running process has had, in KiB, or 0 where it has ended."""
    try:
        status = Path(f"/proc/{pid}/status").read_text()
    except OSError:
        return 0
    lines = [line for line in status.splitlines() if line.startswith("VmHWM:")]
    return int(lines[0].split()[1]) if lines else 0


def run(words, path):
    """The seconds that a command takes over a file, and its greatest size in memory in KiB."""
    memory = 0
    with open(path, "rb") as source, tempfile.TemporaryFile() as sink:
        begin = time.monotonic()
        child = subprocess.Popen(words, stdin=source, stdout=sink)
        while child.poll() is None:
            memory = max(memory, peak(child.pid))
            time.sleep(0.002)
        seconds = time.monotonic() - begin
    if child.returncode != 0:
        sys.exit(f"{words[0]} ended with status {child.returncode}")
    return seconds, memory


def text_of(lines):
    return "".join(json.dumps(line, separators=(",", ":")) + "\n" for line in lines).encode()


def written(lines, folder):
    path = Path(folder) / "requests.jsonl"
    path.write_bytes(text_of(lines))
    return path


def measure(name, workload, count, folder):
    path = written(workload(count), folder)
    best, memory = min(run([str(BUILT), "script", "1"], path) for _ in range(3))
    counter, _ = min(run(["wc", "-l"], path) for _ in range(3))
    few = written(workload(count // 10), folder)
    _, memory_of_few = run([str(BUILT), "script", "1"], few)
    print(f"{name}: {count / best:,.0f} requests/s, {best / counter:.0f} times the time of a line counter, "
          f"memory {memory} KiB (with a tenth of the requests {memory_of_few} KiB)")


# -- how times grow with the document ----------------------------------------------------------------------------------

SMALL = 1
"""The group whose squares get new indexes."""
OTHERS = SMALL + 1 + 3
"""Where the numbers of the other records begin, behind those of its three squares."""


def is_group(number, in_groups):
    return number == SMALL or in_groups and number >= OTHERS and (number - OTHERS) % 64 == 0


def parent_of(number, in_groups):
    """The group that a square of a document hangs in, if it is in one."""
    if number < OTHERS:
        return SMALL
    return number - (number - OTHERS) % 64 if in_groups else None


def pose_in(tile):
    return {"dx": tile % EDGE * 256, "dy": tile // EDGE * 256}


def squares(count, in_groups, is_shuffled=False):
    """Requests for squares, each in a tile of its own, three in a group, the others on the page or in groups of 63."""
    lines, tiles = [], list(range(count + 1))
    if is_shuffled:
        random.Random(1).shuffle(tiles)
    for number in range(1, count + 1):
        if is_group(number, in_groups):
            lines.append({"verb": "create", "shape": {"kind": "group"}})
        else:
            lines.append({**rectangle(number, 10), "pose": pose_in(tiles[number]), "parent": parent_of(number, in_groups)})
    return lines


def others(count, in_groups):
    """The squares outside the small group."""
    return [number for number in range(OTHERS, count + 1) if not is_group(number, in_groups)]


def small_edits(count, in_groups):
    """Poses of the squares, which stay in their tiles."""
    leaves = others(count, in_groups)
    for n in range(EDITS):
        number = leaves[n * 7919 % len(leaves)]
        pose = pose_in(number)
        yield {"verb": "pose", "id": number, "pose": {**pose, "dx": pose["dx"] + n % 9}}


def mixed_edits(count, in_groups):
    """Edits of squares in turn; each that is deleted is made again, with the next id. The new indexes are the same each time."""
    leaves, fresh = others(count, in_groups), count + 1
    parents = {number: parent_of(number, in_groups) for number in leaves}
    for n in range(EDITS // 7):
        at = n * 7919 % len(leaves)
        number = leaves[at]
        parent = parents.pop(number)
        yield {"verb": "pose", "id": number, "pose": {"dx": n % 9000, "dy": n % 7}}
        yield {"verb": "show", "id": number, "hidden": n % 2 == 0}
        yield {"verb": "reshape", "id": number, "shape": rectangle(n, 10 + n % 5)["shape"]}
        yield {"verb": "move", "id": number, "parent": parent, "spot": "front"}
        yield {"verb": "delete", "id": number}
        yield {**rectangle(n, 10), "pose": {"dx": n % 9000, "dy": 9}, "parent": parent}
        yield {"verb": "respace", "parent": SMALL}
        leaves[at], parents[fresh] = fresh, parent
        fresh += 1


def one_tile_each(count, in_groups):
    """Tiles in turn, each of which one square meets."""
    numbers = [number for number in range(1, count + 1) if not is_group(number, in_groups)]
    for n in range(TILES):
        number = numbers[n % len(numbers)]
        yield {"verb": "tile", "col": number % EDGE, "row": number // EDGE}


GROWTH = {"small edit": small_edits, "mixed edit": mixed_edits, "tile": one_tile_each}


def read_replies(pipe, room, count=None):
    """Reads so many replies without bodies, or, without a number, all that is left."""
    while count is None or count > 0:
        size = os.readv(pipe, [room])
        if size == 0:
            return
        if count is not None:
            count -= room[:size].count(b"\n")


def timed(making, lines, workers=1):
    """The least seconds of three sessions from the last reply to the edits that make a document until the program has ended after the lines."""
    found = []
    for _ in range(3):
        child = subprocess.Popen([str(BUILT), "script", str(workers)], stdin=subprocess.PIPE, stdout=subprocess.PIPE, bufsize=0)
        room, pipe = bytearray(1 << 20), child.stdout.fileno()
        feeder = threading.Thread(target=feed, args=(child.stdin, making, False))
        feeder.start()
        read_replies(pipe, room, making.count(b"\n"))
        feeder.join()
        feeder = threading.Thread(target=feed, args=(child.stdin, lines, True))
        begin = time.perf_counter()
        feeder.start()
        read_replies(pipe, room)
        found.append(time.perf_counter() - begin)
        feeder.join()
        if child.wait() != 0:
            sys.exit(f"{BUILT} ended with status {child.returncode}")
    return min(found)


def feed(source, text, is_last):
    view = memoryview(text)
    while view:
        view = view[source.write(view):]
    if is_last:
        source.close()


def bodies(lines, folder):
    """The bodies of the replies; ends the program where a request is refused."""
    with open(written(lines, folder), "rb") as source:
        child = subprocess.Popen([str(BUILT), "script", "1"], stdin=source, stdout=subprocess.PIPE)
        found = []
        for number, (reply, body) in enumerate(replies(child.stdout)):
            if not reply["ok"]:
                sys.exit(f"{lines[number]} is refused: {reply}")
            found.append(body)
        child.wait()
    return found


def microseconds(making, lines, workers=1):
    """The time of each of some requests after those that make a document."""
    lines = list(lines)
    return timed(text_of(making), text_of(lines), workers) / len(lines) * 1e6


def measure_growth(folder):
    for in_groups in (False, True):
        found = {name: [] for name in GROWTH}
        for count in SIZES:
            making = squares(count, in_groups)
            bodies(making + list(mixed_edits(count, in_groups)), folder)
            for name, requests in GROWTH.items():
                found[name].append(microseconds(making, requests(count, in_groups)))
        for name, times in found.items():
            told = ", ".join(f"{count:,}: {it:.1f} ({it / times[0]:.2f})" for count, it in zip(SIZES, times))
            print(f"{name}, {'in groups of 63' if in_groups else 'on one page'}, microseconds at so many records (ratio to {SIZES[0]}): "
                  f"{told}; {SIZES[-1]:,} to {SIZES[-2]:,}: {times[-1] / times[-2]:.2f}", flush=True)


# -- looks over wide documents -----------------------------------------------------------------------------------------

def places():
    """Pixels all over a wide document."""
    for n in range(LOOKS):
        yield n * 7919 % (EDGE * 256), n * 104_729 % (EDGE * 256)


LOOKED = {
    "point": lambda x, y: {"verb": "point", "x": x, "y": y},
    "patch of one pixel": lambda x, y: {"verb": "patch", "x": x, "y": y, "w": 1, "h": 1},
}


LAYOUTS = {
    "on one page": lambda count: squares(count, False),
    "on one page, in shuffled tiles": lambda count: squares(count, False, is_shuffled=True),
    "in groups of 63": lambda count: squares(count, True),
}


def measure_walks():
    for layout, making in LAYOUTS.items():
        for name, look in LOOKED.items():
            times = [microseconds(making(count), (look(x, y) for x, y in places())) for count in WALKED]
            told = ", ".join(f"{count:,}: {it:.1f}" for count, it in zip(WALKED, times))
            print(f"{name}, {layout}, microseconds over so many records: {told}", flush=True)


# -- pictures from farther away ----------------------------------------------------------------------------------------

def square_of(place, side):
    return {"kind": "rect", "w": side, "h": side}


def mixed_of(place, side):
    """Ellipses and polygons in turn."""
    if place % 2:
        return {"kind": "ellipse", "w": side, "h": side}
    return {"kind": "polygon", "points": [[0, 0], [side, 0], [side, side], [0, side]]}


def wide(kind, level):
    """Requests for small shapes in rows, that many times smaller."""
    side, apart = 64 >> level, 128 >> level
    lines = []
    for place in range(MOST):
        shape = {**kind(place, side), "fill": f"{place * 4099 % (1 << 24):06x}"}
        lines.append({"verb": "create", "shape": shape, "pose": {"dx": place % EDGE * apart, "dy": place // EDGE * apart}})
    return lines


def tiles(count, level, shown):
    """Tiles of a level in the order in which they lie in the document; `shown` is the level that they have."""
    row = 64 >> level
    return [{"verb": "tile", "col": n % row, "row": n // row % row, "level": shown} for n in range(count)]


def measure_levels(name, kind, folder):
    far = wide(kind, 0)
    for level in range(7):
        near, count = wide(kind, level), max(6, TILES >> 2 * level)
        is_same = bodies(far + tiles(2, level, level), folder)[-2:] == bodies(near + tiles(2, level, 0), folder)[-2:]
        if kind is square_of and not is_same:
            sys.exit(f"a tile at level {level} is not the tile of the smaller document")
        at_level = microseconds(far, tiles(count, level, level))
        at_zero = microseconds(near, tiles(count, level, 0))
        print(f"{name}, a tile at level {level} over {MOST:,} shapes, {4 ** (level + 1):,} of which meet it: {at_level:.0f} microseconds; "
              f"at level 0 with as many: {at_zero:.0f}; ratio {at_level / at_zero:.2f}", flush=True)


# -- pictures by several workers ---------------------------------------------------------------------------------------

WORKERS = [1, 2, 4, 16]


def crowd(count, kind):
    """Shapes of 12 by 12, so many of which meet one tile."""
    for n in range(count):
        shape = {"kind": kind, "w": 12, "h": 12, "fill": f"{n * 4099 % (1 << 24):06x}"}
        yield {"verb": "create", "shape": shape, "pose": {"dx": n * 37 % 250, "dy": n * 101 % 251}}


CROWDS = {
    "10 rectangles": lambda: first_path(0),
    "100 rectangles": lambda: crowd(100, "rect"),
    "1,000 rectangles": lambda: crowd(1000, "rect"),
    "1,000 ellipses": lambda: crowd(1000, "ellipse"),
}


def measure_workers(folder):
    asked = [{"verb": "tile", "col": 0, "row": 0}] * TILES
    for name, making in CROWDS.items():
        lines, found = list(making()), {}
        bodies(lines + asked[:1], folder)
        for workers in WORKERS * 3:
            found[workers] = min(found.get(workers, math.inf), microseconds(lines, asked, workers))
        told = ", ".join(f"{workers}: {it:.0f} ({it / found[1]:.2f})" for workers, it in found.items())
        print(f"a tile of {name}, microseconds by so many workers (ratio to one): {told}", flush=True)


def main():
    words = [word for word in sys.argv[1:] if not word.isdigit()] or ["rates", "growth", "walks", "levels", "workers"]
    numbers = [int(word) for word in sys.argv[1:] if word.isdigit()]
    subprocess.run([str(PROGRAM), "script", "1"], stdin=subprocess.DEVNULL, check=True)
    with tempfile.TemporaryDirectory() as folder:
        if "rates" in words:
            for name, workload in WORKLOADS.items():
                measure(name, workload, 100_000 * (numbers or [1])[0], folder)
        if "growth" in words:
            measure_growth(folder)
        if "walks" in words:
            measure_walks()
        if "levels" in words:
            measure_levels("squares", square_of, folder)
            measure_levels("ellipses and polygons", mixed_of, folder)
        if "workers" in words:
            measure_workers(folder)


if __name__ == "__main__":
    main()
