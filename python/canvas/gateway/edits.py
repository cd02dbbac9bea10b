"""The edits of a generation as a feed of canvasd tells them, and saved documents of some of its versions."""

from __future__ import annotations

import array
import asyncio
import bisect
import json
import re
import tempfile
from collections.abc import AsyncIterator
from pathlib import Path

from canvas.gateway.session import Address, opened

PATIENCE = 10
"""Seconds that are waited for a feed, or for the next edit that it has to bring."""
OPENING = re.compile(rb'{"generation":\d+,"opening":({.*})}')
EDIT = re.compile(rb'{"damage":\[[-0-9,]+\],"edit":({.*}),"id":(?:null|\d+),"version":(\d+)}')


class Untold(Exception):
    """The edits can't be had; the text says why."""


async def lines_of(reader: asyncio.StreamReader) -> AsyncIterator[bytes]:
    """The lines that come, without their ends."""
    parts = []
    while part := await reader.read(1 << 16):
        first, *others = part.split(b"\n")
        parts.append(first)
        for other in others:
            yield b"".join(parts)
            parts = [other]


class Edits:
    """The document with which a generation began, and all edits since, in files.

    One connection tells of one history, which its first line begins. So this is good as long as the connection is:
    `fault` says how it ended.
    """

    _writer: asyncio.StreamWriter
    _task: asyncio.Task[None]

    def __init__(self) -> None:
        self._folder = tempfile.TemporaryDirectory(prefix="canvas-past-")
        self._path = Path(self._folder.name) / "edits.jsonl"
        self._file = self._path.open("wb")
        self._ends = array.array("Q", [0])
        self._saved: list[tuple[int, Path]] = []
        self._news = asyncio.Event()
        self.fault: str | None = None

    @classmethod
    async def follow(cls, address: Address) -> Edits:
        """The history that a feed tells, from its beginning on."""
        edits = cls()
        try:
            reader, edits._writer = await asyncio.wait_for(opened(address), PATIENCE)
        except (OSError, asyncio.TimeoutError):
            edits._folder.cleanup()
            raise Untold("no feed of the server answers") from None
        edits._writer.write(b'{"since":0,"opening":true}\n')
        edits._task = asyncio.create_task(edits._read(reader))
        return edits

    @property
    def newest(self) -> int:
        """The version of the newest edit that has come."""
        return len(self._ends) - 1

    async def reach(self, version: int) -> None:
        """Waits until the edit of a version has come, as long as edits come."""
        while not self._saved or self.newest < version:
            if self.fault is not None:
                raise Untold(self.fault)
            self._news.clear()
            try:
                await asyncio.wait_for(self._news.wait(), PATIENCE)
            except asyncio.TimeoutError:
                raise Untold(f"the server has not told of version {version}") from None

    def lines(self, first: int, last: int) -> list[bytes]:
        """The edits that lead from one version to a later one, as the lines of the feed."""
        self._file.flush()
        with self._path.open("rb") as file:
            file.seek(self._ends[first])
            return file.read(self._ends[last] - self._ends[first]).splitlines()

    def requests(self, first: int, last: int) -> list[bytes]:
        """The same as the lines of requests."""
        return [found[1] + b"\n" for line in self.lines(first, last) if (found := EDIT.fullmatch(line))]

    def saved(self, version: int) -> tuple[int, Path]:
        """The newest saved document that is not newer than a version: its own version, and its file."""
        return self._saved[bisect.bisect(self._saved, version, key=lambda it: it[0]) - 1]

    def save(self, version: int, text: bytes) -> None:
        """Keeps the document of a version."""
        path = Path(self._folder.name) / f"{version}.json"
        path.write_bytes(text)
        bisect.insort(self._saved, (version, path))

    async def _read(self, reader: asyncio.StreamReader) -> None:
        try:
            async for line in lines_of(reader):
                self._take(line)
            self.fault = self.fault or "the server has ended the feed"
        except (OSError, ValueError) as fault:
            self.fault = str(fault)
        self._news.set()
        self._writer.close()

    def _take(self, line: bytes) -> None:
        edit, opening = EDIT.fullmatch(line), None if self._saved else OPENING.fullmatch(line)
        if opening:
            self.save(0, opening[1])
        elif self._saved and edit and int(edit[2]) == self.newest + 1:
            self._file.write(line + b"\n")
            self._ends.append(self._ends[-1] + len(line) + 1)
        else:
            raise ValueError(why_of(line))
        self._news.set()

    async def close(self) -> None:
        self._task.cancel()
        await asyncio.wait([self._task])
        self.fault = self.fault or "the feed was left"
        self._writer.close()
        self._file.close()
        self._folder.cleanup()


def why_of(line: bytes) -> str:
    """What a line says that is no line of a feed: the server's reason to refuse."""
    try:
        return str(json.loads(line)["error"])
    except (ValueError, TypeError, KeyError):
        return "what the feed says is not understood"
