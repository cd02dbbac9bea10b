"""Sessions with a server: requests as lines, replies in order, and when the server was there for certain."""

from __future__ import annotations

import asyncio
import collections
import json
import math
import socket
import time
from collections.abc import Callable
from typing import Any, Dict, Optional, Tuple, Union

Address = Union[str, Tuple[str, int]]
"""The path of a unix socket, or a host and a port."""
Reply = Dict[str, Any]
Answered = Tuple[Reply, bytes]
"""A reply of the server, and its body."""

BUFFER = 1 << 20
PATIENCE = 20
"""Seconds after which a server that does not answer counts as away."""
MOST_ASKED = 900_000
"""After how many requests a session is left for another one: the server ends it after 1,000,000."""
KEEP_ALIVE = {"TCP_KEEPIDLE": 10, "TCP_KEEPINTVL": 5, "TCP_KEEPCNT": 3}
"""After how many seconds of silence the system asks whether the server's machine is there, how often, and how many
times."""


class Away(Exception):
    """The server can't be reached, or has ended the session; the text says why."""


def line_of(request: Any) -> bytes:
    return json.dumps(request, separators=(",", ":")).encode() + b"\n"


POINT = line_of({"verb": "point", "x": 0, "y": 0})


async def opened(address: Address) -> tuple[asyncio.StreamReader, asyncio.StreamWriter]:
    """A reader and a writer, of a connection to (host, port) or to the path of a unix socket."""
    if isinstance(address, str):
        return await asyncio.open_unix_connection(address, limit=BUFFER)
    reader, writer = await asyncio.open_connection(*address, limit=BUFFER)
    found = writer.get_extra_info("socket")
    found.setsockopt(socket.IPPROTO_TCP, socket.TCP_NODELAY, 1)
    found.setsockopt(socket.SOL_SOCKET, socket.SO_KEEPALIVE, 1)
    for name, value in KEEP_ALIVE.items():
        if hasattr(socket, name):
            found.setsockopt(socket.IPPROTO_TCP, getattr(socket, name), value)
    return reader, writer


class Presence:
    """When a session's server was there for certain: from the first reply's coming to the sending of the last batch
    that was answered."""

    def __init__(self) -> None:
        self._since, self._until = math.inf, -math.inf

    def hear(self, asked: float) -> None:
        """Takes note of a reply to what was asked at a time."""
        self._since = min(self._since, time.monotonic())
        self._until = asked

    def is_with(self, other: Presence) -> bool:
        """Whether two sessions are known to be with one run of the server: both servers were there at one time, and one
        address has one."""
        return self is other or max(self._since, other._since) < min(self._until, other._until)


class Session:
    """A session with a server. Batches are sent as they come, and answered in order."""

    def __init__(self, reader: asyncio.StreamReader, writer: asyncio.StreamWriter) -> None:
        self._reader, self._writer = reader, writer
        self._waiting: collections.deque[tuple[int, float, asyncio.Future[list[Answered]]]] = collections.deque()
        self._replies = asyncio.create_task(self._read())
        self._asked = 0
        self.presence = Presence()

    @property
    def is_spent(self) -> bool:
        """Whether it was asked so much that another one is to be taken."""
        return self._asked >= MOST_ASKED

    @property
    def is_over(self) -> bool:
        return self._replies.done()

    @classmethod
    async def open(cls, address: Address) -> Session:
        try:
            return cls(*await asyncio.wait_for(opened(address), PATIENCE))
        except (OSError, asyncio.TimeoutError):
            raise Away("no server answers") from None

    async def ask(self, lines: list[bytes]) -> list[Answered]:
        """Sends the lines of requests in one piece; gives their replies, each with its body."""
        if self.is_over:
            raise Away("the server has ended the session")
        replies: asyncio.Future[list[Answered]] = asyncio.get_running_loop().create_future()
        self._waiting.append((len(lines), time.monotonic(), replies))
        self._asked += len(lines)
        try:
            self._writer.write(b"".join(lines))
            return await asyncio.wait_for(replies, PATIENCE)
        except asyncio.TimeoutError:
            raise Away("the server does not answer") from None
        except OSError:
            raise Away("the server has ended the session") from None

    async def ended(self) -> None:
        """Waits until the server has ended the session."""
        await asyncio.wait([self._replies])

    async def version(self) -> int:
        """The version that the document has now, as a point's reply names it."""
        (reply, _), = await self.ask([POINT])
        if not reply["ok"]:
            raise Away(reply["name"])
        version: int = reply["version"]
        return version

    async def _read(self) -> None:
        """Reads the replies of each batch until the session ends, and tells those who wait for more."""
        why = "the server has ended the session"
        try:
            while True:
                reply, body = await self._reply()
                if not self._waiting:
                    why = reply.get("name", why)
                    break
                count, asked, replies = self._waiting[0]
                found = [(reply, body)]
                while len(found) < count:
                    found.append(await self._reply())
                self._waiting.popleft()
                self.presence.hear(asked)
                if not replies.done():
                    replies.set_result(found)
        except (OSError, ValueError, asyncio.IncompleteReadError):
            pass
        for _, _, replies in self._waiting:
            if not replies.done():
                replies.set_exception(Away(why))
        self._writer.close()

    async def _reply(self) -> Answered:
        reply = json.loads(await self._reader.readuntil(b"\n"))
        return reply, await self._reader.readexactly(reply["body"])

    def close(self) -> None:
        self._replies.cancel()
        self._writer.close()


Own = Callable[[], Optional[Session]]
"""What gives a session that somebody else keeps open, or None."""


def nobody() -> None:
    """That of nobody."""
