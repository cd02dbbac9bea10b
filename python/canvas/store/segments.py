"""What is written into a journal: bytes at places, and cuts. Rows of turns have them."""

from __future__ import annotations

from collections.abc import Iterable
from typing import Any, Optional, Tuple

Segment = Tuple[int, Optional[bytearray]]
"""A place of a journal, and the bytes that stand there from now on; None for a cut there."""
Row = Tuple[Any, ...]
"""A turn: its number, the places of its segments, their bytes, and how many these are."""


def put(segments: list[Segment], at: int, data: bytes | None) -> None:
    """Adds bytes at a place, or a cut there (None), to segments, each with its place. They mean the same as what was
    put, in its order."""
    if segments and data is not None:
        begin, last = segments[-1]
        if last is not None and begin <= at <= begin + len(last):
            last[at - begin: at - begin + len(data)] = data
            return
    segments.append((at, None if data is None else bytearray(data)))


def joined(rows: Iterable[Row]) -> list[Segment]:
    """The segments of rows of turns."""
    segments: list[Segment] = []
    for _, places, parts, _ in rows:
        for at, data in zip(places, parts):
            put(segments, at, data)
    return segments


def row_of(segments: list[Segment]) -> dict[str, Any]:
    """What the row of a turn has of segments."""
    parts = [None if data is None else bytes(data) for _, data in segments]
    return {"places": [at for at, _ in segments], "bytes": parts, "length": sum(len(it or b"") for it in parts)}


def journal_of(segments: list[Segment]) -> bytearray:
    """The journal that segments make."""
    journal = bytearray()
    for at, data in segments:
        if at > len(journal):
            raise ValueError(f"bytes stand at {at}, behind {len(journal)}")
        if data is None:
            del journal[at:]
        else:
            journal[at: at + len(data)] = data
    return journal
