"""Shows in the browser what canvas is: a drawing that a server keeps in a folder, which you and two bots draw on.

usage: canvas-demo [--folder FOLDER] [--document FILE] [--listen 127.0.0.1:8080] [--no-bots]

A new folder begins empty, and the demo draws the examples into it, and a flower of 900 seeds: all of it can be seen in
the drawing's past. Ctrl-C ends all that it started. What was drawn is kept in the folder, and the same command shows it
again. Where the server or the gateway ends by itself, the demo says so and ends with status 1.
"""

from __future__ import annotations

import argparse
import json
import math
import os
import re
import signal
import subprocess
import sys
import tempfile
import time
from collections.abc import Iterator
from pathlib import Path
from typing import Any, Dict

from canvas.client import Canvas, Request, program
from canvas.places import beside

KEEPER = str(program("canvasd"))
MODULE = (sys.executable, "-m")
"""What runs a module of this package."""
DRAWINGS = beside(Path(__file__).parent / "examples", "examples")
"""The folder of the examples, as files of requests."""
EXAMPLES = {"poster": (0, 0), "chart": (0, 4352)}
"""Where the examples are drawn, so large that each of their pixels is one from afar, at 1:16."""
LARGE = 16
FLOWER = (4352, 0)
SIDE = 8448
SEEDS = 900
APART = 128
FILLS = ["d9412f", "ef7d2d", "f6c13c", "7cb342", "19a5a0", "2f6fde", "7a4fc9"]
BATCH = 200

Running = Dict[str, "subprocess.Popen[str]"]
"""The programs that it started, by what they are."""


# -- the drawing -------------------------------------------------------------------------------------------------------

def enlarged(shape: dict[str, Any]) -> dict[str, Any]:
    """A shape that is so many times as large."""
    found = {**shape, **{side: LARGE * shape[side] for side in ("w", "h") if side in shape}}
    if "points" in shape:
        found["points"] = [[LARGE * x, LARGE * y] for x, y in shape["points"]]
    return found


def example(name: str, place: tuple[int, int]) -> Iterator[Request]:
    """The requests that draw an example, each with the line of its parent in place of its id."""
    for line in (DRAWINGS / f"{name}.jsonl").read_text().splitlines():
        request = json.loads(line)
        if request["verb"] != "create":
            return
        pose, parent = request.get("pose", {}), request.get("parent")
        starts = zip(("dx", "dy"), place if parent is None else (0, 0))
        moved = {way: LARGE * pose.get(way, 0) + start for way, start in starts}
        yield {**request, "shape": enlarged(request["shape"]), "pose": {**pose, **moved}, "parent": parent}


def flower() -> Iterator[Request]:
    """The requests that draw a flower of many seeds on a sheet."""
    sheet = {"kind": "frame", "w": SIDE, "h": SIDE, "fill": "1b2a49"}
    yield {"verb": "create", "shape": sheet, "pose": dict(zip(("dx", "dy"), FLOWER)), "parent": None}
    for number in range(SEEDS):
        reach, angle, side = APART * math.sqrt(number), number * math.radians(137.508), 96 + number * 112 // SEEDS
        x, y = (round(SIDE / 2 + reach * way(angle)) - side // 2 for way in (math.cos, math.sin))
        seed = {"kind": "ellipse", "w": side, "h": side, "fill": FILLS[number * len(FILLS) // SEEDS]}
        yield {"verb": "create", "shape": seed, "pose": {"dx": x, "dy": y}, "parent": 1}


def draw(canvas: Canvas, requests: list[Request], before: int) -> int:
    """Draws shapes into a new document in which so many were made before; gives how many are made then. Each shape
    names its parent by the place that it has among these, counted from 1."""
    for start in range(0, len(requests), BATCH):
        part = requests[start:start + BATCH]
        for request in part:
            parent = request["parent"]
            canvas.send(**{**request, "parent": None if parent is None else before + parent})
        for _ in part:
            canvas.read()
    return before + len(requests)


# -- programs ----------------------------------------------------------------------------------------------------------

def start(name: str, words: list[str], *patterns: str) -> tuple[subprocess.Popen[str], list[str]]:
    """Starts a program, and gives what its first lines tell, as patterns find it."""
    try:
        process = subprocess.Popen(words, stdout=subprocess.PIPE, text=True, env={**os.environ, "PYTHONSAFEPATH": "1"})
    except FileNotFoundError:
        sys.exit(f"canvas-demo: there is no program {words[0]}; docs/INSTALL.md says how to install it")
    assert process.stdout is not None
    said = process.stdout
    found = [match[1] for pattern in patterns if (match := re.fullmatch(pattern, said.readline().rstrip("\n")))]
    if len(found) < len(patterns):
        process.terminate()
        process.wait()
        sys.exit(f"canvas-demo: the {name} did not start; the line above says why, and docs/STATUS.md what to do")
    return process, found


def wait_for_any(running: Running) -> None:
    """Waits until the server or the gateway ends, and says which."""
    while True:
        os.waitid(os.P_ALL, 0, os.WEXITED | os.WNOWAIT)
        time.sleep(0.2)  # where a Ctrl-C ended it, it has come to this program too by then
        if "bots" in running and running["bots"].poll() is not None:
            del running["bots"]  # (nobody needs them)
        for name, process in running.items():
            status = process.poll()
            if status is not None:
                how = f"by signal {-status}" if status < 0 else f"with status {status}"
                sys.exit(f"canvas-demo: the {name} ended {how}; docs/STATUS.md says why; canvas-demo goes on from it")


def folder_of(given: argparse.Namespace) -> Path:
    """The folder of the drawing: the one that is named, or the user's own one, or a new temporary one."""
    if given.folder:
        return Path(given.folder)
    if not given.document:
        folder = Path(os.environ.get("XDG_STATE_HOME") or Path.home() / ".local" / "state") / "canvas" / "demo"
        try:
            folder.parent.mkdir(parents=True, exist_ok=True)
            return folder
        except OSError:
            pass  # the user has no such folder
    return Path(tempfile.mkdtemp(prefix="canvas-demo-")) / "drawing"


def given_words() -> argparse.Namespace:
    words = argparse.ArgumentParser("canvas-demo", description="shows in the browser what canvas is")
    words.add_argument("--folder", metavar="FOLDER",
                       help="where the drawing is kept; where it is left out, ~/.local/state/canvas/demo")
    words.add_argument("--document", metavar="FILE",
                       help="a saved document to begin with, in place of the examples; its folder is a new one")
    words.add_argument("--listen", default="127.0.0.1:8080", metavar="HOST:PORT", help="where the page is")
    words.add_argument("--no-bots", action="store_true", help="nobody draws but you")
    return words.parse_args()


def run(given: argparse.Namespace, folder: Path, running: Running) -> None:
    """Starts all, and waits until something ends."""
    is_new = not any(folder.glob("*/journal.jsonl"))
    begin = ["--open", given.document] if given.document else []
    doors = ["--listen", "127.0.0.1:0", "--feed", "127.0.0.1:0"]
    running["server"], (address, feed) = start("server", [KEEPER, str(folder), *begin, *doors, "--log", "warn"],
                                               r"listening on (\S+)", r"feeding on (\S+)")
    if is_new and not given.document:
        with Canvas.connect(address) as canvas:
            made = 0
            for requests in [*(example(name, place) for name, place in EXAMPLES.items()), flower()]:
                made = draw(canvas, [*requests], made)
    words = [address, "--listen", given.listen, "--feed", feed, "--name", folder.name]
    running["gateway"], (page,) = start("gateway", [*MODULE, "canvas.gateway", *words], r"(http://\S+)")
    if not given.no_bots:
        running["bots"], _ = start("bots", [*MODULE, "canvas.bots", page])
    print(f"look at {page} (the server is at {address}; {folder} keeps the drawing); Ctrl-C ends all", flush=True)
    wait_for_any(running)


def main() -> None:
    given = given_words()
    running: Running = {}
    folder = folder_of(given)
    signal.signal(signal.SIGINT, signal.default_int_handler)  # a shell that starts it in the background has it ignored
    signal.signal(signal.SIGTERM, lambda *_: sys.exit(0))
    try:
        run(given, folder, running)
    except KeyboardInterrupt:
        print(f"\nthe drawing is kept in {folder}")
    except (OSError, EOFError) as fault:
        sys.exit(f"canvas-demo: the server ended while the examples were drawn: {fault}; docs/STATUS.md says why")
    finally:
        for number in (signal.SIGINT, signal.SIGTERM):
            signal.signal(number, signal.SIG_IGN)
        for process in reversed(running.values()):
            process.terminate()
            process.wait()


if __name__ == "__main__":
    main()
