"""The documents that the gateway shows: that of one server, or those of a folder, each while somebody looks at it."""

from __future__ import annotations

import asyncio
import contextlib
import re
import time
from collections.abc import AsyncIterator, Iterator
from pathlib import Path
from typing import Protocol

from aiohttp import web

from canvas.gateway.own import OwnSeats
from canvas.gateway.pictures import Pictures
from canvas.gateway.session import Address, Own, nobody
from canvas.gateway.tabs import Room

NAME = re.compile("[a-z0-9][a-z0-9-]{0,62}")
SHARE = 4
"""Of a document of many a fourth of the pictures is kept that would be of one alone."""
LINGER = 60
"""Seconds for which a document is kept for tabs that come back, when nobody looks at it any more."""


class Document:
    """A document that is shown: its room, and how many look at it. The feed is followed until it is closed."""

    def __init__(self, name: str, address: Address, feed: Address | None, share: int = 1, moves: bool = False,
                 own: Own = nobody) -> None:
        self.room = Room(address, feed, Pictures(share), name, moves, own)
        self.guests, self.left = 0, time.monotonic()
        self._following = asyncio.create_task(self.room.feed.follow()) if self.room.feed else None

    @contextlib.contextmanager
    def visit(self) -> Iterator[Room]:
        self.guests += 1
        try:
            yield self.room
        finally:
            self.guests -= 1
            self.left = time.monotonic()

    async def send_away(self) -> None:
        """Ends the connections of all tabs, which come back by themselves."""
        await asyncio.gather(*(tab.send_away() for tab in [*self.room.news.tabs]))

    async def close(self) -> None:
        if self._following is not None:
            self._following.cancel()
            await asyncio.wait([self._following])
        await self.room.close()


class Documents(Protocol):
    """The documents that the gateway shows, by the names in their addresses. `root` is the address of a page, with
    {name} for that name."""

    root: str

    def has(self, name: str) -> bool:
        """Whether there is a document of this name."""

    def title(self, name: str) -> str:
        """What the document is called."""

    def document(self, name: str) -> Document:
        """The document, which is shown from now on."""

    def shown(self) -> list[Document]:
        """All that are shown."""

    def run(self, _: web.Application) -> AsyncIterator[None]:
        """What is done while the gateway runs, and what behind the `yield` when it ends."""


class One:
    """The document of a server, which is shown as long as the gateway runs."""

    root = ""

    def __init__(self, name: str, address: Address, feed: Address | None) -> None:
        self._name, self._address, self._feed = name, address, feed
        self._document: Document | None = None

    def has(self, name: str) -> bool:
        return True

    def title(self, name: str) -> str:
        return self._name

    def document(self, name: str) -> Document:
        assert self._document is not None  # (the gateway runs)
        return self._document

    def shown(self) -> list[Document]:
        return [self.document("")]

    async def run(self, _: web.Application) -> AsyncIterator[None]:
        document = self._document = Document(self._name, self._address, self._feed)
        yield
        await document.close()


class Folder:
    """The documents of a folder: each has a folder there, of its name, with the sockets `door` and `feed` of its
    server. They may move between hosts."""

    root = "/d/{name}"

    def __init__(self, folder: str, moves: bool = False) -> None:
        self._folder, self._moves = Path(folder), moves
        self._own = OwnSeats(Path(folder), moves)
        self._shown: dict[str, Document] = {}

    def has(self, name: str) -> bool:
        return NAME.fullmatch(name) is not None and (name in self._shown or (self._folder / name).is_dir())

    def title(self, name: str) -> str:
        return name

    def document(self, name: str) -> Document:
        if name not in self._shown:
            door, feed = (str(self._folder / name / it) for it in ("door", "feed"))
            self._shown[name] = Document(name, door, feed, SHARE, self._moves, lambda: self._own.session(name))
        return self._shown[name]

    def shown(self) -> list[Document]:
        return [*self._shown.values()]

    async def run(self, _: web.Application) -> AsyncIterator[None]:
        tasks = [asyncio.create_task(it) for it in (self._tidy(), self._own.hold())]
        yield
        for task in tasks:
            task.cancel()
        for document in self.shown():
            await document.close()
        self._own.close()

    async def _tidy(self) -> None:
        """Closes what nobody has looked at for a while, again and again."""
        while True:
            await asyncio.sleep(LINGER / 4)
            for name, document in [*self._shown.items()]:
                if not document.guests and time.monotonic() - document.left > LINGER:
                    del self._shown[name]
                    await document.close()
