"""Sends requests to canvas: lines of replies go to standard output, each body to a file of its own.

usage: canvas-client [ADDRESS] [--bodies FOLDER] < REQUESTS

The requests are lines of standard input (docs/PROTOCOL.md). They go to the server at ADDRESS, which is HOST:PORT or
unix:PATH, or else to `canvas script`, which begins with an empty document. The body of the n-th reply, counted from 1,
goes to FOLDER/n.ppm where it is an image and to FOLDER/n.json where it is a saved document; without --bodies it is left
out.

The status is 0, also if requests were refused, and 1 if the session ended before all replies had come.
"""

from __future__ import annotations

import argparse
import json
import sys
from collections.abc import Iterator
from pathlib import Path

from canvas.client import PROGRAM, Canvas, Refused, Reply


def answers(canvas: Canvas, lines: Iterator[bytes]) -> Iterator[tuple[Reply, bytes]]:
    """The reply and the body of each line."""
    for line in lines:
        canvas.send_line(line if line.endswith(b"\n") else line + b"\n")
        try:
            yield canvas.read()
        except Refused as refused:
            yield refused.reply, b""


def save(body: bytes, folder: Path, number: int) -> None:
    """Saves the body of a reply."""
    ending = "ppm" if body.startswith(b"P6") else "json"
    (folder / f"{number}.{ending}").write_bytes(body)


def session(address: str | None) -> Canvas:
    """A session with a server, or with a program of its own."""
    if address is not None:
        return Canvas.connect(address)
    try:
        return Canvas()
    except FileNotFoundError:
        sys.exit(f"canvas-client: there is no program {PROGRAM}; docs/INSTALL.md says how to install it")


def next_step(fault: Exception) -> str:
    """What to do about a fault, for the end of its line."""
    if isinstance(fault, (ConnectionRefusedError, FileNotFoundError)):
        return "; `canvasd FOLDER` starts a server, and says where it listens"
    if isinstance(fault, EOFError):
        return "; an edit without a reply may have been made: look before it is sent again"
    return ""


def main() -> None:
    description, _, more = (__doc__ or "").partition("\n\nusage: ")
    words = argparse.ArgumentParser("canvas-client", description=description, epilog=more.partition("\n\n")[2],
                                    formatter_class=argparse.RawDescriptionHelpFormatter)
    words.add_argument("address", nargs="?", metavar="ADDRESS", help="a server, HOST:PORT or unix:PATH")
    words.add_argument("--bodies", type=Path, metavar="FOLDER", help="where bodies are saved")
    given = words.parse_args()
    try:
        if given.bodies:
            given.bodies.mkdir(parents=True, exist_ok=True)
        with session(given.address) as canvas:
            for number, (reply, body) in enumerate(answers(canvas, sys.stdin.buffer), start=1):
                print(json.dumps(reply, separators=(",", ":")), flush=True)
                if body and given.bodies:
                    save(body, given.bodies, number)
    except KeyboardInterrupt:
        sys.exit(130)
    except (OSError, EOFError, ValueError) as fault:
        sys.exit(f"canvas-client: {getattr(fault, 'strerror', None) or fault}{next_step(fault)}")


if __name__ == "__main__":
    main()
