"""Connections to the database, and where it is."""

from __future__ import annotations

import asyncio
import contextlib
import logging
import os
import re
import time
from pathlib import Path
from typing import Any

import psycopg

from canvas.store.segments import Row

CONNECTIONS = 8
"""How many statements are on their way at once."""
PAUSE = 0.2
"""Seconds before what a database refused is asked again."""
COMMIT = "-c synchronous_commit=on"
"""A commit waits for the disks of the leader and of its synchronous standby."""
DATABASE = Path("/etc/canvas/database")

log = logging.getLogger("canvas-store")


class Away(Exception):
    """The database did not answer. What it was asked may be done or not."""


def one_line(text: object) -> str:
    """A text as one line of printable letters."""
    return re.sub("[^ -~]+", " ", str(text)).strip()[:200] or "no reason"


class Database:
    """Connections to PostgreSQL, each with one statement at a time. A statement is a transaction."""

    def __init__(self, where: str) -> None:
        self._where = where
        self._free: asyncio.LifoQueue[psycopg.AsyncConnection[Any] | None] = asyncio.LifoQueue()
        self.away_since: float | None = None
        self.fault: str | None = None
        for _ in range(CONNECTIONS):
            self._free.put_nowait(None)

    async def once(self, text: str, **values: Any) -> list[Row]:
        """The rows of a statement. Raises Away where the database, or the way to it, fails."""
        connection = await self._free.get()
        try:
            if connection is None:
                connection = await self._connected()
            cursor = await connection.execute(text, values, prepare=True, binary=True)
            rows = await cursor.fetchall() if cursor.description else []
        except (psycopg.OperationalError, psycopg.InternalError, psycopg.InterfaceError) as fault:
            if connection is not None:
                await connection.close()
            connection = None
            self._note(fault)
            raise Away(one_line(fault)) from fault
        finally:
            self._free.put_nowait(connection)
        self._note(None)
        return rows

    async def surely(self, text: str, **values: Any) -> list[Row]:
        """The rows of a statement that may be made twice, as soon as the database answers."""
        while True:
            try:
                return await self.once(text, **values)
            except Away:
                await asyncio.sleep(PAUSE)

    async def _connected(self) -> psycopg.AsyncConnection[Any]:
        return await psycopg.AsyncConnection.connect(self._where, autocommit=True, connect_timeout=3, options=COMMIT)

    def _note(self, fault: Exception | None) -> None:
        if fault and not self.away_since:
            log.warning("the database is away: %s", one_line(fault))
        if not fault and self.away_since:
            log.warning("the database is there again after %.1f s", time.monotonic() - self.away_since)
        self.away_since = (self.away_since or time.monotonic()) if fault else None
        self.fault = one_line(fault) if fault else None


def where() -> str:
    """Where the database is, as libpq reads it."""
    given = Path(os.environ.get("CREDENTIALS_DIRECTORY", "/nowhere"), "database")
    with contextlib.suppress(FileNotFoundError):
        return os.environ.get("CANVAS_DATABASE") or (given if given.is_file() else DATABASE).read_text().strip()
    return "dbname=canvas"
