"""A seat of the gateway's own at each server of a folder, taken before anybody looks: so a tab is served, whoever else
has come."""

from __future__ import annotations

import asyncio
import contextlib
from pathlib import Path

from canvas.gateway.session import Away, Session

LOOK = 2
"""Each so many seconds it is seen which servers there are."""
ASK = 60
"""Each so many seconds a session is asked something: a server ends those that are silent."""


class OwnSeats:
    """A session with each server of a folder's documents. Where documents move, that is with `inside`, which starts no
    server."""

    def __init__(self, folder: Path, moves: bool) -> None:
        self._folder, self._door = folder, "inside" if moves else "door"
        self._sessions: dict[str, Session] = {}
        self._asked = 0.0

    def session(self, name: str) -> Session | None:
        """The session with a document's server, or None where there is none that can be asked."""
        found = self._sessions.get(name)
        return None if found is None or found.is_over or found.is_spent else found

    async def hold(self) -> None:
        """Takes and keeps them, for ever."""
        while True:
            now = asyncio.get_running_loop().time()
            is_time, there = now - self._asked > ASK, await asyncio.to_thread(self._there)
            self._asked = now if is_time else self._asked
            for name in self._sessions.keys() - there:
                self._sessions.pop(name).close()
            wanted = [name for name in there if is_time or self.session(name) is None]
            await asyncio.gather(*map(self._hold, wanted), return_exceptions=True)
            await asyncio.sleep(LOOK)

    def _there(self) -> set[str]:
        with contextlib.suppress(OSError):
            return {path.name for path in self._folder.iterdir() if (path / self._door).is_socket()}
        return set()

    async def _hold(self, name: str) -> None:
        with contextlib.suppress(Away):
            session = self.session(name)
            if session is None:
                session = await Session.open(str(self._folder / name / self._door))
            try:
                await session.version()
            except BaseException:
                session.close()
                raise
            self._sessions[name] = session

    def close(self) -> None:
        for session in self._sessions.values():
            session.close()
