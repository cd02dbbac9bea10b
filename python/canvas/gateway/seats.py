"""The sessions that the tabs of a document share: so many tabs look, and few seats of the server are taken."""

from __future__ import annotations

import asyncio

from canvas.gateway.session import Address, Away, Own, Session, nobody

MOST_SESSIONS = 16
"""How many sessions the tabs of a document have together."""


class Seats:
    """Sessions with one server. The first tabs have one each, and a later one shares that of the fewest tabs; so it
    does where the server has no seat left.

    A session answers in the order in which it was asked, so a tab keeps to one while anything that it asked is on the
    way. Which versions a tab has seen is the tab's own affair, since others have theirs.
    """

    def __init__(self, address: Address, own: Own = nobody) -> None:
        """Sessions at an address. `own` gives one that somebody else keeps open, or None."""
        self._address, self._own = address, own
        self._tabs: dict[Session, int] = {}
        self._opening: asyncio.Task[None] | None = None

    async def take(self) -> Session:
        """A session for one more tab. Raises Away where there is none."""
        while (session := self._best()) is None:
            try:
                await asyncio.shield(self._opened())
            except Away:
                session = self._best(is_any=True) or self._own()
                if session is None:
                    raise
                break
        self._tabs[session] = self._tabs.get(session, 0) + 1
        return session

    def leave(self, session: Session) -> None:
        """Gives back what a tab had taken. A session that no tab has is closed."""
        self._tabs[session] -= 1
        if not self._tabs[session]:
            del self._tabs[session]
            self._close(session)

    def _best(self, is_any: bool = False) -> Session | None:
        """The session of the fewest tabs; None where one with no tab may still be had, unless any is good."""
        fit = [session for session in self._tabs if not session.is_over and not session.is_spent]
        best = min(fit, key=self._tabs.__getitem__, default=None)
        return best if is_any or len(fit) >= MOST_SESSIONS or best is not None and not self._tabs[best] else None

    def _opened(self) -> asyncio.Task[None]:
        """A task that opens one more session, for all who wait for one."""
        if self._opening is None or self._opening.done():
            self._opening = asyncio.create_task(self._open())
            self._opening.add_done_callback(lambda task: task.cancelled() or task.exception())
        return self._opening

    async def _open(self) -> None:
        session = await Session.open(self._address)
        try:
            await session.version()  # (where no seat is free the first reply says so)
        except BaseException:
            session.close()
            raise
        self._tabs[session] = 0

    def _close(self, session: Session) -> None:
        if session is not self._own():
            session.close()

    def close(self) -> None:
        for session in self._tabs:
            self._close(session)
