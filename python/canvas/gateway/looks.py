"""What several tabs look at, which is asked for once."""

from __future__ import annotations

import asyncio
import collections
from typing import Any

from canvas.gateway.pictures import UNANSWERED, Answer, Pictures, keep
from canvas.gateway.session import Answered, Away, Session

MOST_LOOKS = 4096
"""Of how many looks the answer is kept for other tabs."""
JOINED = 2
"""Seconds that a tab waits for what another tab has asked for, before it asks itself."""
MOST_AT_ONCE = 64
"""How many looks a session is asked for in one piece: those of other tabs wait no longer."""
MOST_TRIES = 10
"""How often what is older than what was seen is asked again."""
LOOKS = ("tile", "export")
"""The verbs of which tabs may share an answer."""


def is_look(request: Any) -> bool:
    return isinstance(request, dict) and request.get("verb") in LOOKS


class Look:
    """A tile or an export that a session was asked for, by a tab that had seen a version; and its answer when it is
    there, UNANSWERED where none comes."""

    def __init__(self, session: Session, seen: int) -> None:
        self.answer: asyncio.Future[Answer] = asyncio.get_running_loop().create_future()
        self._presence, self._seen = session.presence, seen

    def may_serve(self, session: Session, seen: int) -> bool:
        """Whether a tab may have this answer, or wait for it, when it has seen a version."""
        version = self.answer.result().version if self.answer.done() else self._seen
        return version >= seen and self._presence.is_with(session.presence)

    def end(self, answer: Answer) -> None:
        if not self.answer.done():
            self.answer.set_result(answer)


class Looks:
    """The last answer to each look of any tab, so that what several tabs look at is asked for once.

    The promise is that each answer names one version of one history, no older than any that its tab was told of before
    it asked (`seen`). The server keeps it for a session, but a tab may have seen what another session was told: what is
    older than that is asked again. Another tab is given the answer only where its session is known to be with the same
    run of the server, so that the history is the same, and only where the answer names no older version than it has
    seen. What is on its way is waited for where the tab that asked had seen as much, and judged when it is there. What
    is older nevertheless, was refused, or does not come, each tab asks for itself.
    """

    def __init__(self, pictures: Pictures) -> None:
        self.pictures = pictures
        self._last: collections.OrderedDict[bytes, Look] = collections.OrderedDict()

    async def answers(self, session: Session, lines: list[bytes], seen: int, is_alone: bool = False) -> list[Answer]:
        """The answers to the lines of a tab's looks, in order. A tab that is alone is given nothing that another one
        asked for."""
        known = {} if is_alone else {line: look for line in lines if (look := self._last.get(line))}
        joined = {line: look for line, look in known.items() if self._may_serve(look, session, seen)}
        own = await self._ask(session, [line for line in dict.fromkeys(lines) if line not in joined], seen)
        if joined:
            await asyncio.wait([look.answer for look in joined.values()], timeout=JOINED)
        is_good = {line: look.answer.done() and self._may_serve(look, session, seen) for line, look in joined.items()}
        again = await self._ask(session, [line for line in joined if not is_good[line]], seen)
        found = {**joined, **own, **again}
        return [found[line].answer.result() for line in lines]

    def _may_serve(self, look: Look, session: Session, seen: int) -> bool:
        picture = look.answer.result().picture if look.answer.done() else None
        return look.may_serve(session, seen) and (picture is None or self.pictures.has(picture))

    async def _ask(self, session: Session, lines: list[bytes], seen: int) -> dict[bytes, Look]:
        """Asks a session for looks, which other tabs may wait for too. Between its parts others are answered."""
        looks = {line: Look(session, seen) for line in lines}
        for line, look in looks.items():
            keep(self._last, line, look, MOST_LOOKS)
        try:
            for start in range(0, len(lines), MOST_AT_ONCE):
                part = lines[start:start + MOST_AT_ONCE]
                for line, reply in zip(part, await self._replies(session, part, seen)):
                    looks[line].end(self.pictures.told(line, *reply))
        finally:
            for look in looks.values():
                look.end(UNANSWERED)
        return looks

    async def _replies(self, session: Session, lines: list[bytes], seen: int) -> list[Answered]:
        """The replies to looks, of no older version than one that was seen."""
        for _ in range(MOST_TRIES):
            replies = await session.ask(lines)
            if all(reply.get("version", seen) >= seen for reply, _ in replies):
                return replies
        raise Away("the server answers with what is older than what it told before")
