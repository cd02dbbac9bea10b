"""A document that a host holds for one canvasd."""

from __future__ import annotations

import asyncio
import contextlib
import logging
import time
from dataclasses import dataclass
from typing import Any

from canvas.store import statements
from canvas.store.database import PAUSE, Away, Database, one_line
from canvas.store.segments import Row, Segment, journal_of, joined, put, row_of

MOST_PAUSE = 1
"""The longest time in seconds before a change that was not made is tried again."""
MOST_BYTES = 134_217_728
"""No opening is longer, and not all that is noted for one sync."""
MOST_PARTS = 10_000
"""What is noted for one sync stands at no more places."""
MANY_TURNS = 1024
"""How many turns are joined into one row, if that is not larger than LARGE."""
LARGE = 1 << 20

log = logging.getLogger("canvas-store")


class Bad(Exception):
    """A client sent what is no part of the protocol."""


class Lost(Exception):
    """A document is another holder's."""


@dataclass
class Counts:
    """What a host tells of itself."""

    syncs: int = 0
    seconds: float = 0
    bytes: int = 0
    lost: int = 0
    bad: int = 0
    unaccepted: int = 0


class Host:
    """What all holdings of a host share: its name, the database, and what is counted."""

    def __init__(self, name: str, database: Database) -> None:
        self.name, self.database, self.counts = name, database, Counts()


class Holding:
    """A document that a connection holds: its term, how far it is kept, and what is noted for its next turn."""

    def __init__(self, host: Host, name: str, writer: asyncio.StreamWriter, row: Row) -> None:
        self.host, self.name, self._writer = host, name, writer
        self.id, self.epoch, self.generation, self.turn = row
        self.over: str | None = None
        self.is_asked, self.is_told = True, False
        self.length = 0
        self._noted: list[Segment] = []
        self._size = self._since_joined = 0

    @property
    def _term(self) -> dict[str, Any]:
        return {"id": self.id, "epoch": self.epoch}

    async def send_all(self) -> None:
        """Sends the opening and the journal."""
        text, rows = await self._read()
        journal = journal_of(joined(rows))
        self.length = len(journal)
        self._writer.write(b"held %d %d %d %d\n" % (self.epoch, self.generation, len(text), len(journal)))
        for part in (text, journal):
            self._writer.write(part)
            await self._writer.drain()
        if len(rows) >= MANY_TURNS:
            await self._join()

    async def _read(self) -> tuple[bytes, list[Row]]:
        """The opening, and the rows of all turns. (A leader that is none any more may answer with fewer: it is asked
        again.)"""
        which = {"id": self.id, "generation": self.generation}
        while True:
            opening = await self.host.database.surely(statements.OPENING, **which)
            rows = await self.host.database.surely(statements.TURNS, **which, after=0)
            if (rows[-1][0] if rows else 0) == self.turn and bool(opening) == (self.generation > 0):
                return opening[0][0] if opening else b"", rows
            if not await self.host.database.surely(statements.STATE, **self._term):
                raise Lost
            await asyncio.sleep(PAUSE)

    async def begin(self, generation: int, opening: bytes) -> None:
        if generation != self.generation + 1 or generation >= 1 << 31 or self._noted:
            raise Bad(f"begin {generation} in generation {self.generation}")
        await self._change(statements.BEGIN, (generation, 0), opening=opening)
        self.length = 0

    def note(self, at: int, data: bytes | None) -> None:
        """Notes bytes, or a cut (None)."""
        if at > self.length or self.generation == 0:
            raise Bad(f"a place {at} behind the end {self.length}")
        self._size += len(data or b"")
        if self._size > MOST_BYTES or len(self._noted) > MOST_PARTS:
            raise Bad(f"more than {MOST_BYTES} bytes or {MOST_PARTS} parts for one sync")
        self.length = at if data is None else max(self.length, at + len(data))
        put(self._noted, at, data)

    async def sync(self) -> None:
        """Keeps what is noted, or makes sure of the term where nothing is."""
        begun, noted = time.monotonic(), self._noted
        if noted:
            await self._change(statements.TURN, (self.generation, self.turn + 1), **row_of(noted))
        elif not await self.host.database.surely(statements.STATE, **self._term):
            raise Lost
        self._count(time.monotonic() - begun)
        self._noted, self._size = [], 0
        self._since_joined += 1

    def _count(self, seconds: float) -> None:
        counts = self.host.counts
        counts.syncs += 1
        counts.seconds += seconds
        counts.bytes += self._size

    async def _change(self, statement: str, after: tuple[int, int], **values: Any) -> None:
        """Changes the document by a statement that holds only in this term and state. Where its answer is lost, the row
        tells whether it was made."""
        pause: float = PAUSE
        while True:
            with contextlib.suppress(Away):
                where = {**self._term, "generation": self.generation, "turn": self.turn}
                if await self.host.database.once(statement, **where, **values):
                    break
            found = await self.host.database.surely(statements.STATE, **self._term)
            if not found or found[0] not in (after, (self.generation, self.turn)):
                raise Lost
            if found[0] == after:
                break
            await asyncio.sleep(pause)
            pause = min(2 * pause, MOST_PAUSE)
        self.generation, self.turn = after

    async def tidy(self) -> None:
        """Joins turns, if there are many."""
        if self._since_joined >= MANY_TURNS:
            await self._join()

    async def _join(self) -> None:
        """Makes one row of those behind the last large one. If the database is away the next time will do."""
        self._since_joined, which = 0, {"id": self.id, "generation": self.generation}
        with contextlib.suppress(Away):
            last_large = await self.host.database.once(statements.LAST_LARGE, **which, large=LARGE)
            rows = await self.host.database.once(statements.TURNS, **which, after=last_large[0][0])
            segments = joined(rows)
            if len(rows) > 1:
                which.update(epoch=self.epoch, first=rows[0][0], last=rows[-1][0])
                await self.host.database.once(statements.JOIN, **which, **row_of(segments))

    async def why_lost(self) -> str:
        """Who has the document, for the one who lost it."""
        found = await self.host.database.surely(statements.HOLDER, name=self.name)
        if not found:
            return f"there is no document {self.name} any more"
        return f"{self.name} is held by {found[0][0] or 'nobody'} in the place of {self.host.name}"

    def give_up(self, why: str, is_late: bool = False) -> None:
        """Ends the connection: at once if nothing is asked or it is late, else behind the answer."""
        self.over = self.over or why
        if is_late or not self.is_asked:
            self.say_lost(self.over)

    def say_lost(self, why: str | None) -> None:
        if self.is_told:
            return
        self.is_told = True
        self.host.counts.lost += 1
        log.warning("%s: lost: %s", self.name, why)
        self._writer.write(f"lost {one_line(why)}\n".encode())
        self._writer.close()
