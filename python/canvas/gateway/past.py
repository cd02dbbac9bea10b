"""The past: the document as it was after any number of edits, for the tabs that look at it.

A tab that looks back has a server of its own: a run of canvasd over a saved document of an earlier version, which is
sent the edits since. One step forward is one more edit. A step back begins anew, from the newest saved document before
it; such documents are saved on the way.
"""

from __future__ import annotations

import asyncio
import contextlib
import tempfile
from pathlib import Path
from typing import Any

from canvas.client import program
from canvas.gateway.edits import PATIENCE, Edits, Untold
from canvas.gateway.session import BUFFER, Address, Answered, Away, Session, line_of

PROGRAM = program("canvasd")
MOST_VISITS = 8
"""How many tabs may look at the past at once."""
APART = 4096
"""How many versions lie between two saved documents, at least."""
MOST_SAVED = 64
"""About how many documents are saved of one history."""
BATCH = 1024
"""How many edits are sent at once."""
LOOKS = ("tile", "patch", "point", "export")
EXPORT = line_of({"verb": "export"})
WORDS = ("--seats", "1", "--workers", "1", "--idle", "0", "--log", "error")
MOVED_ON = "the server has begun another history"


class Unseen(Exception):
    """The past can't be shown; the text says why."""


class Keeper:
    """A server of a saved document, for one session. `version` is the one that it has come to; `begun` that of the
    saved document."""

    def __init__(self, version: int) -> None:
        self.begun = self.version = version
        self._folder = tempfile.TemporaryDirectory(prefix="canvas-past-")
        self._process: asyncio.subprocess.Process | None = None
        self._session: Session | None = None

    @classmethod
    async def start(cls, version: int, path: Path) -> Keeper:
        keeper = cls(version)
        try:
            await asyncio.wait_for(keeper._open(path), PATIENCE)
        except (OSError, Away, asyncio.TimeoutError):
            await keeper.stop()
            raise Unseen("no server for the past could be started") from None
        except asyncio.CancelledError:
            await keeper.stop()
            raise
        return keeper

    async def _open(self, path: Path) -> None:
        folder = Path(self._folder.name)
        self._process = process = await asyncio.create_subprocess_exec(
            PROGRAM, str(folder / "document"), "--open", str(path), "--listen", f"unix:{folder / 'door'}", *WORDS,
            stdin=asyncio.subprocess.DEVNULL, stdout=asyncio.subprocess.PIPE)
        assert process.stdout is not None
        if not (await process.stdout.readline()).startswith(b"listening"):
            raise Away("it does not listen")
        self._session = Session(*await asyncio.open_unix_connection(folder / "door", limit=BUFFER))

    async def ask(self, lines: list[bytes]) -> list[Answered]:
        """The replies to requests, each with its body, by the versions of the history."""
        assert self._session is not None  # (it has started)
        replies = await self._session.ask(lines)
        for reply, _ in replies:
            if "version" in reply:
                reply["version"] += self.begun
        return replies

    async def make(self, lines: list[bytes]) -> None:
        """Makes the next edits of the history, as they were made before."""
        replies = await self.ask(lines)
        self.version += len(lines)
        if replies[-1][0].get("version") != self.version:
            raise Unseen("the edits could not be made again")

    async def stop(self) -> None:
        if self._session is not None:
            self._session.close()
        if self._process is not None and self._process.returncode is None:
            with contextlib.suppress(ProcessLookupError):
                self._process.terminate()
            await self._process.wait()
        self._folder.cleanup()


class Past:
    """The past of a served document, as the feed at an address tells it; there is none where that is None."""

    def __init__(self, feed: Address | None) -> None:
        self._feed = feed
        self._edits: Edits | None = None
        self._opening = asyncio.Lock()
        self._visits: set[Visit] = set()

    @property
    def is_there(self) -> bool:
        return self._feed is not None

    async def edits(self) -> Edits:
        """The history as it is told now: it is followed from the first look back on."""
        assert self._feed is not None  # (it is there)
        async with self._opening:
            if self._edits is not None and self._edits.fault is not None:
                await self._edits.close()
                self._edits = None
            self._edits = self._edits or await Edits.follow(self._feed)
            return self._edits

    def enter(self, visit: Visit) -> None:
        if visit not in self._visits and len(self._visits) >= MOST_VISITS:
            raise Unseen(f"{MOST_VISITS} others look at it already")
        self._visits.add(visit)

    def leave(self, visit: Visit) -> None:
        self._visits.discard(visit)

    async def close(self) -> None:
        for visit in [*self._visits]:
            await visit.leave()
        if self._edits is not None:
            await self._edits.close()


class Visit:
    """What a tab sees of the past."""

    def __init__(self, past: Past) -> None:
        self._past = past
        self._keeper: Keeper | None = None
        self._edits: Edits | None = None
        self._turn = asyncio.Lock()

    async def look(self, version: Any, requests: list[Any], since: Any = None) -> tuple[list[Answered], list[bytes]]:
        """The replies to looks at the document as it was after so many edits, each with its body; and the lines of the
        edits that led there from an earlier version, where that is named."""
        if not self._past.is_there:
            raise Unseen("the server has no feed")
        if not all(isinstance(request, dict) and request.get("verb") in LOOKS for request in requests):
            raise Unseen("it can't be changed")
        if not all(isinstance(number, int) and 0 <= number for number in (version, 0 if since is None else since)):
            raise Unseen("there is no such version")
        if since is not None and since > version:
            raise Unseen(f"no edits lead from version {since} to {version}")
        async with self._turn:
            try:
                self._past.enter(self)
                edits = await self._history()
                keeper = await self._go(edits, version)
                replies = await keeper.ask([line_of(request) for request in requests]) if requests else []
                return replies, [] if since is None else edits.lines(since, version)
            except (Untold, Unseen, Away) as fault:
                await self._stop()
                raise Unseen(str(fault)) from None

    async def _history(self) -> Edits:
        """The history that is looked at, which stays the same one."""
        edits = await self._past.edits()
        if self._edits is not None and edits is not self._edits:
            raise Unseen(MOVED_ON)
        self._edits = edits
        return edits

    async def _go(self, edits: Edits, version: int) -> Keeper:
        """A server that has come to a version."""
        await edits.reach(version)
        keeper = await self._begin(*edits.saved(version), version)
        apart = max(APART, edits.newest // MOST_SAVED)
        while keeper.version < version:
            here = keeper.version
            stop = min(version, here + BATCH, (here // apart + 1) * apart)
            await keeper.make(edits.requests(here, stop))
            if stop % apart == 0 and edits.saved(stop)[0] != stop:
                (_, text), = await keeper.ask([EXPORT])
                edits.save(stop, text)
        return keeper

    async def _begin(self, begun: int, path: Path, version: int) -> Keeper:
        """The server, which starts anew where the version lies before the one that it has come to, or a saved document
        nearer."""
        keeper = self._keeper
        if keeper is not None and keeper.version <= version and begun <= keeper.version + APART:
            return keeper
        if keeper is not None:
            self._keeper = None
            await keeper.stop()
        self._keeper = keeper = await Keeper.start(begun, path)
        return keeper

    async def _stop(self) -> None:
        self._past.leave(self)
        self._edits = None
        if self._keeper is not None:
            keeper, self._keeper = self._keeper, None
            await keeper.stop()

    async def leave(self) -> None:
        """Ends the visit, and its server."""
        async with self._turn:
            await self._stop()
