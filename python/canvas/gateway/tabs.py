"""The tabs of browsers, which share sessions while the server is there."""

from __future__ import annotations

import asyncio
import collections
import contextlib
import json
import sys
from collections.abc import Awaitable, Callable, Coroutine
from typing import Any

from aiohttp import WSCloseCode, WSMsgType, web

from canvas.gateway.feed import Feed, Known
from canvas.gateway.looks import Looks, is_look
from canvas.gateway.names import Names
from canvas.gateway.past import Past, Unseen, Visit
from canvas.gateway.people import People
from canvas.gateway.pictures import Answer, Pictures, keep
from canvas.gateway.seats import Seats
from canvas.gateway.session import Address, Away, Own, Session, line_of, nobody

MOST_BATCH = 512
"""How many requests a batch may have."""
MOST_LINE = 65_537
"""How many bytes the line of a request may have; the server ends a session with a longer one, which other tabs have
too."""
MOST_ON_WAY = 512
MOST_TASKS = 64
"""While so many requests of a tab are on their way, or so many of its messages, no further message is read."""
POLL = 0.25
POLL_LIVE = 2
"""How often a session is asked for a version where there is a feed, only to see that it is there."""
RETRY = 0.5
MOST_PICTURES = 512
"""How many of the pictures that a tab was sent last it has still, as the gateway believes: fewer than the page
keeps."""
AWAY_WAIT = 2
"""How long the gateway waits, when it ends, for a tab to say that it has heard so."""
LOOKING = ("tile", "export", "point", "patch")
"""The verbs of a tab that may only look."""
READ_ONLY = {"ok": False, "code": 0, "name": "ReadOnly"}
FEED_WAIT = 2
"""How long a tab waits for the feed, when the server is there."""


async def until_ended(session: Session, work: Awaitable[Any], seconds: float | None = None) -> None:
    """Waits until some work is done, or so many seconds, or the session has ended. Work that is no task goes no further
    then."""
    task, over = asyncio.ensure_future(work), asyncio.create_task(session.ended())
    await asyncio.wait({task, over}, timeout=seconds, return_when=asyncio.FIRST_COMPLETED)
    over.cancel()
    if task is not work:
        task.cancel()


class Bad(Exception):
    """What a tab sent is no message; the text says why."""


def message_of(text: str) -> dict[str, Any]:
    """The message of a text; the lines of its requests are among its members. Raises Bad where it is none."""
    try:
        message = json.loads(text)
    except (ValueError, RecursionError):
        raise Bad("what is no JSON") from None
    if not isinstance(message, dict):
        raise Bad("what is no object")
    if "batch" in message or "at" in message:
        if "batch" not in message or not isinstance(message.get("requests"), list):
            raise Bad("a batch without its number or its requests")
        message["requests"] = message["requests"][:MOST_BATCH]
        message["lines"] = [line_of(request) for request in message["requests"]]
        if any(len(line) > MOST_LINE for line in message["lines"]):
            raise Bad("a request that is too long")
    return message


class News:
    """Tells all tabs of a version that a session was told of."""

    def __init__(self) -> None:
        self.tabs: set[Tab] = set()

    def tell(self, session: Session, version: int) -> None:
        for tab in self.tabs:
            tab.hear(session, version)


class Room:
    """What all tabs of a document share: sessions with its server, its feed if it has one, their looks and news, and
    who is there. A document `moves` that another host may have when its server is away."""

    def __init__(self, address: Address, feed_address: Address | None, pictures: Pictures, name: str = "drawing",
                 moves: bool = False, own: Own = nobody) -> None:
        self.name, self.seats, self.moves = name, Seats(address, own), moves
        self.feed = Feed(feed_address) if feed_address else None
        self.looks, self.news, self.people, self.past = Looks(pictures), News(), People(), Past(feed_address)
        self.names = Names()

    async def close(self) -> None:
        await self.past.close()
        self.seats.close()


def is_looking(message: dict[str, Any]) -> bool:
    """Whether a message changes nothing, neither of the document nor of what others see of it."""
    verbs = [it.get("verb") if isinstance(it, dict) else None for it in message.get("requests", ())]
    return not {"names", "bots"} & message.keys() and all(verb in LOOKING for verb in verbs)


class Lane:
    """Tells a tab of one matter: nothing where it has not taken the last news yet, and all of it as soon as it has."""

    def __init__(self, start: Callable[[Coroutine[Any, Any, None]], asyncio.Task[None]],
                 send: Callable[[str], Coroutine[Any, Any, None]]) -> None:
        self._start, self._send = start, send
        self._saying: asyncio.Task[None] | None = None
        self._missed: Callable[[], str] | None = None

    def say(self, text: str, all_of_it: Callable[[], str]) -> None:
        if self._saying is None or self._saying.done():
            self._saying = self._start(self._say(text))
        else:
            self._missed = all_of_it

    async def _say(self, text: str) -> None:
        await self._send(text)
        while self._missed is not None:
            all_of_it, self._missed = self._missed, None
            await self._send(all_of_it())


class Tab:
    """A browser's tab: its WebSocket, and its session while the server is there, which others may have too.

    `known` is what it knows, where it followed the feed before. `seen` is the newest version that it was told of. A
    reader's edits are handed to nobody.
    """

    _seat: Session
    """The session that it has taken, which it keeps while the server is away."""

    def __init__(self, socket: web.WebSocketResponse, room: Room, known: Known = Known(),
                 is_reader: bool = False) -> None:
        self._socket, self._room, self._known, self._is_reader = socket, room, known, is_reader
        self._session: Session | None = None
        self.seen = 0
        self._is_live = self._is_gone = False
        self._edits = self._on_way = 0
        self._tasks: set[asyncio.Task[None]] = set()
        self._people, self._names = (Lane(self._start, self._send) for _ in range(2))
        self._visit = Visit(room.past)
        self._pictures: collections.OrderedDict[str, None] = collections.OrderedDict()

    async def serve(self) -> None:
        """Serves the tab until it is closed."""
        self._start(self._watch())
        self._room.news.tabs.add(self)
        self._room.people.join(self)
        self._room.names.join(self)
        try:
            async for message in self._socket:
                if message.type == WSMsgType.TEXT:
                    self._take(message_of(message.data))
                while self._on_way >= MOST_ON_WAY or len(self._tasks) > MOST_TASKS:
                    await asyncio.wait(self._tasks, return_when=asyncio.FIRST_COMPLETED)
        except Bad as bad:
            print(f"gateway: {self._room.name}: a tab that sent {bad} was closed", file=sys.stderr, flush=True)
            await self._socket.close(code=WSCloseCode.POLICY_VIOLATION, message=str(bad).encode())
        finally:
            self._is_gone = True
            self._room.news.tabs.discard(self)
            self._room.people.leave(self)
            self._room.names.leave(self)
            for task in [*self._tasks]:
                task.cancel()
            await self._visit.leave()

    async def send_away(self) -> None:
        """Ends the tab's connection, since the gateway ends, or the document may be elsewhere."""
        with contextlib.suppress(asyncio.TimeoutError):
            await asyncio.wait_for(self._socket.close(code=WSCloseCode.GOING_AWAY), AWAY_WAIT)

    def _take(self, message: dict[str, Any]) -> None:
        if self._is_reader and not is_looking(message):
            self._start(self._refuse(message))
        elif "at" in message:
            self._start(self._look_back(message))
        elif "batch" in message:
            self._on_way += len(message["requests"])
            self._start(self._answer(message))
        elif message.get("past") == "left":
            self._start(self._visit.leave())
        elif "names" in message:
            self._room.names.take(message["names"])
        else:
            self._room.people.take(self, message)

    def _start(self, work: Coroutine[Any, Any, None]) -> asyncio.Task[None]:
        task = asyncio.create_task(work)
        self._tasks.add(task)
        task.add_done_callback(self._tasks.discard)
        return task

    async def _send(self, text: str) -> None:
        with contextlib.suppress(ConnectionError):  # the tab was closed
            if not self._socket.closed:
                await self._socket.send_str(text)

    async def _say(self, **what: Any) -> None:
        await self._send(json.dumps(what, separators=(",", ":")))

    def say_people(self, text: str, all_of_them: Callable[[], str]) -> None:
        """Tells the tab of people."""
        self._people.say(text, all_of_them)

    def say_names(self, text: str, all_of_them: Callable[[], str]) -> None:
        """Tells the tab of the names of shapes."""
        self._names.say(text, all_of_them)

    # -- the session ---------------------------------------------------------------------------------------------------

    async def _watch(self) -> None:
        """Keeps a session with the server, and tells the tab of each version that it did not see."""
        while not self._is_gone:
            try:
                session = await self._room.seats.take()
                try:
                    await self._follow(session)
                finally:
                    self._room.seats.leave(self._seat)
            except Away as away:
                self._session = None
                await self._say(say="away", why=str(away))
                if self._room.moves:
                    return await self.send_away()
            await asyncio.sleep(RETRY)

    async def _follow(self, session: Session) -> None:
        self._seat, feed = session, self._room.feed
        while not self._is_gone:
            if feed is not None:
                await until_ended(self._seat, feed.is_there(FEED_WAIT))
            version = await self._seat.version()
            if feed is not None and feed.history is not None:
                await self._follow_feed(feed, version)
            else:
                await self._poll(feed, version)

    async def _poll(self, feed: Feed | None, version: int) -> None:
        """Asks for the newest version again and again, while there is no feed."""
        self._known, self._session, self.seen = Known(), self._seat, version
        await self._say(say="here", version=self.seen, live=None, since=self.seen)
        while not self._is_gone and (feed is None or feed.history is None):
            await asyncio.sleep(POLL)
            newest = await self._newest()
            self._room.news.tell(self._seat, newest)

    async def _follow_feed(self, feed: Feed, version: int) -> None:
        """Tells the tab of each edit, from the version on that it has, while the feed goes on and the session is
        there."""
        goes = await self._goes(feed)
        told = self._known.version
        if goes != "on" or not feed.has(told):
            told, self.seen = feed.version, 0
        self._known, self._session, self._is_live = Known(feed.history, told), self._seat, True
        self.seen = max(self.seen, version, told)
        how = {"goes": goes} if goes else {}
        await self._say(say="here", version=self.seen, live=self._known.history, since=told, **how)
        telling = asyncio.create_task(self._tell_edits(feed))
        try:
            while not self._is_gone and not telling.done():
                await until_ended(self._seat, telling, POLL_LIVE)
                await self._newest()  # raises Away where the session has ended
        finally:
            self._is_live = False
            telling.cancel()

    async def _goes(self, feed: Feed) -> str | None:
        """Whether the history that the tab knows goes "on" in the feed, or the feed tells the "next" one."""
        history = self._known.history
        if history is None:
            return None
        if history == feed.history or await feed.recalls(self._known):
            return "on"
        return "next" if history == feed.before else None

    async def _tell_edits(self, feed: Feed) -> None:
        while lines := await feed.beyond(self._known.version):
            told = self._known.version + len(lines)
            self._known = Known(self._known.history, told)
            self.seen = max(self.seen, told)
            await self._send(f'{{"say":"edits","edits":[{",".join(lines)}]}}')

    async def _newest(self) -> int:
        """The version that the document has now. A session that is spent is left for another one before, as soon as
        nothing is on its way."""
        if self._seat.is_spent and not self._on_way:
            await self._move()
        return await self._seat.version()

    async def _move(self) -> None:
        """Takes another session with the same run of the server, where the tab has asked nothing meanwhile."""
        seats, left = self._room.seats, self._seat
        session = await seats.take()
        try:
            for each in (left, session):
                await each.version()
            if not self._on_way and session.presence.is_with(left.presence):
                self._seat = self._session = session
        finally:
            seats.leave(left if self._seat is session else session)

    def hear(self, session: Session, version: int) -> None:
        """Tells the tab of a version that a session was told of, where it is news, and of the run of the server that
        the tab is with. Where the tab follows the feed, that tells it."""
        own = self._session
        if own is not None and not self._is_live and version > self.seen and session.presence.is_with(own.presence):
            self.seen = version
            self._start(self._say(say="version", version=version))

    # -- requests ------------------------------------------------------------------------------------------------------

    async def _answer(self, message: dict[str, Any]) -> None:
        """Answers a tab's batch; one that finds no server is answered by no replies."""
        number, requests, session = message["batch"], message["requests"], self._session
        told = "null"
        try:
            if session is not None and requests:
                answers = await self._ask(session, requests, message["lines"])
                self.seen = max(self.seen, *(answer.version for answer in answers))
                self._room.news.tell(session, self.seen)
                told = await self._told_all(answers)
        except Away:
            pass  # the watch tells the tab
        finally:
            self._on_way -= len(requests)
        await self._send(f'{{"batch":{json.dumps(number)},"replies":{told}}}')

    async def _refuse(self, message: dict[str, Any]) -> None:
        """Answers a reader that wants more than to look."""
        if "batch" in message:
            await self._say(batch=message["batch"], replies=[READ_ONLY for _ in message["requests"]])

    async def _ask(self, session: Session, requests: list[Any], lines: list[bytes]) -> list[Answer]:
        """The answers to a batch. Looks are shared with other tabs, but while an edit of the tab's own is on its way
        they follow it."""
        looks = self._room.looks
        if all(is_look(request) for request in requests):
            return await looks.answers(session, lines, self.seen, is_alone=self._edits > 0)
        self._edits += 1
        try:
            replies = await session.ask(lines)
        finally:
            self._edits -= 1
        return [looks.pictures.told(line, *reply) for line, reply in zip(lines, replies)]

    async def _told_all(self, answers: list[Answer]) -> str:
        """The text of answers. The pictures that they name, and that the tab has not got yet, are sent first; one that
        is not kept any more the tab misses at its address, and asks for anew."""
        told = [answer.picture for answer in answers if answer.picture]
        names = [name for name in dict.fromkeys(told) if name not in self._pictures]
        for name, png in [(name, png) for name in names if (png := self._room.looks.pictures.png(name))]:
            if not self._socket.closed:
                with contextlib.suppress(ConnectionError):
                    await self._socket.send_bytes(bytes.fromhex(name) + await png)
                keep(self._pictures, name, None, MOST_PICTURES)
        return f"[{','.join(answer.text for answer in answers)}]"

    async def _look_back(self, message: dict[str, Any]) -> None:
        """Answers a batch of looks at an earlier version; where that can't be shown, by the reason."""
        number, lines = message["batch"], message["lines"]
        try:
            replies, edits = await self._visit.look(message["at"], message["requests"], message.get("since"))
            pictures, led = self._room.looks.pictures, ",".join(it.decode() for it in edits)
            told = await self._told_all([pictures.told(line, *reply) for line, reply in zip(lines, replies)])
            await self._send(f'{{"batch":{json.dumps(number)},"replies":{told},"edits":[{led}]}}')
        except Unseen as unseen:
            await self._say(batch=number, replies=None, why=str(unseen))
