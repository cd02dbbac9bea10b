"""What shapes are called: told by the tabs, kept while the gateway runs. The document knows no names."""

from __future__ import annotations

import asyncio
import collections
import json
from collections.abc import Callable, Mapping
from typing import Any, Protocol, Tuple

from canvas.gateway.pictures import keep

PAUSE = 0.05
"""Seconds between two times that tabs are told of names."""
MOST = 10_000
"""Of how many shapes of a document the name is kept."""
LONGEST = 80
KINDS = ("rect", "ellipse", "polygon", "frame", "group")


Name = Tuple[str, str]
"""The kind of a shape, and what it is called."""


class Listener(Protocol):
    """A tab that is told of names."""

    def say_names(self, text: str, all_of_them: Callable[[], str]) -> None:
        """Takes a text, or all of them, where it has missed some."""


class Names:
    """The names of shapes by their numbers, each with the kind of its shape: a shape of another kind has it not. A name
    that was taken away is kept as "", so that it does not come back from a tab that had it."""

    def __init__(self) -> None:
        self._names: collections.OrderedDict[int, Name] = collections.OrderedDict()
        self._changed: dict[int, Name] = {}
        self._tabs: set[Listener] = set()
        self._telling: asyncio.Task[None] | None = None

    def join(self, tab: Listener) -> None:
        """Takes a tab; it is told of all names."""
        self._tabs.add(tab)
        tab.say_names(self._all(), self._all)

    def leave(self, tab: Listener) -> None:
        self._tabs.discard(tab)

    def take(self, names: Any) -> None:
        """Takes names that a tab tells, as [number, kind, name] each."""
        for number, kind, name in filter(is_named, names if isinstance(names, list) else ()):
            found = kind, " ".join(name.split())[:LONGEST]
            if self._names.get(number) != found:
                keep(self._names, number, found, MOST)
                self._changed[number] = found
        if self._changed and (self._telling is None or self._telling.done()):
            self._telling = asyncio.create_task(self._tell())

    async def _tell(self) -> None:
        await asyncio.sleep(PAUSE)
        text, self._changed = text_of(self._changed), {}
        for tab in self._tabs:
            tab.say_names(text, self._all)

    def _all(self) -> str:
        return text_of(self._names, all=True)


def is_named(found: Any) -> bool:
    """Whether this is [number, kind, name]."""
    is_triple = isinstance(found, list) and len(found) == 3
    return (is_triple and type(found[0]) is int and 0 < found[0] < 1 << 32 and found[1] in KINDS
            and isinstance(found[2], str))


def text_of(names: Mapping[int, Name], **more: Any) -> str:
    told = [[number, *found] for number, found in names.items()]
    return json.dumps({"say": "names", "names": told, **more}, separators=(",", ":"))
