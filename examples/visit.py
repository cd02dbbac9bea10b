#!/usr/bin/env python3
"""Visits a server: puts a moon into its document, and saves a picture and the document.

usage: PYTHONPATH=python examples/visit.py ADDRESS NAME     writes NAME.ppm, the tile (0, 0), and NAME.json, the saved document
"""

import sys
from pathlib import Path

from canvas import Canvas


def main():
    if len(sys.argv) != 3:
        sys.exit("usage: visit.py ADDRESS NAME")
    address, name = sys.argv[1:]
    with Canvas.connect(address) as canvas:
        moon, _ = canvas.ask(verb="create", shape={"kind": "ellipse", "w": 40, "h": 40, "fill": "ffe9a8"}, pose={"dx": 170, "dy": 30})
        shown, image = canvas.ask(verb="tile", col=0, row=0)
        saved, text = canvas.ask(verb="export")
    Path(f"{name}.ppm").write_bytes(image)
    Path(f"{name}.json").write_bytes(text)
    print(f"made shape {moon['id']} as version {moon['version']}; {name}.ppm shows version {shown['version']}, {name}.json has version {saved['version']}")


if __name__ == "__main__":
    main()
