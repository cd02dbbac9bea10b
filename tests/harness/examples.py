"""The example of README.md, which the release's own page has too."""

import re

from repository import TOP

EXAMPLE = "bin/canvas script < examples/red-rectangle.jsonl\n"


def readme_example():
    """The bytes that README.md has after its example: lines, and at the end bytes as hex digits in brackets."""
    blocks = re.findall(r"^```\n(.*?)^```", (TOP / "README.md").read_text(), re.M | re.S)
    lines, _, raster = blocks[blocks.index(EXAMPLE) + 1].rpartition("(")
    return lines.encode() + bytes.fromhex("".join(re.findall(r"\b[0-9a-f]{6}\b", raster)))
