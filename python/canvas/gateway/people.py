"""Who looks at the document, and where their pointers are: a matter of the gateway's alone, the document knows nothing
of it."""

from __future__ import annotations

import asyncio
import json
import re
from collections.abc import Callable, Iterable
from typing import Any, Dict, Protocol

PAUSE = 0.05
"""Seconds between two times that tabs are told of pointers."""
LONGEST = 40
REACH = 1 << 21
MOST_SELECTED = 50
"""Of how many selected shapes the others are told."""
COLOURS = ("b3261e", "1f5fd0", "146c43", "7b3fa0", "a34700", "00677d", "8a1c5c", "4a5a00")


Person = Dict[str, Any]
"""What tabs are told of one of them."""


class Listener(Protocol):
    """A tab that is told of people."""

    def say_people(self, text: str, all_of_them: Callable[[], str]) -> None:
        """Takes a text, or all of them, where it has missed some."""


class People:
    """The tabs that are there, each with a number, a name, a colour and the place of its pointer, or None. One that is
    a bot's has `bot`: whether it is to draw."""

    def __init__(self) -> None:
        self._them: dict[Listener, Person] = {}
        self._numbers = 0
        self._changed: set[Listener] = set()
        self._gone: set[int] = set()
        self._telling: asyncio.Task[None] | None = None

    def join(self, tab: Listener) -> None:
        """Takes a tab; it is told of all others."""
        self._numbers += 1
        number = self._numbers
        colour = COLOURS[number % len(COLOURS)]
        self._them[tab] = {"id": number, "name": f"Guest {number}", "colour": colour, "at": None}
        tab.say_people(self._all(number), self._all)
        self._change(tab)

    def leave(self, tab: Listener) -> None:
        found = self._them.pop(tab, None)
        if found is not None:
            self._changed.discard(tab)
            self._gone.add(found["id"])
            self._tell_soon()

    def take(self, tab: Listener, message: dict[str, Any]) -> None:
        """Takes what a tab says of itself: `me`, with a name and a colour; `pointer`, a place on the page or null;
        `selection`, the numbers of shapes; `view`, the middle and the level; or whether the bots are to draw."""
        found, me = self._them[tab], message.get("me")
        if isinstance(me, dict):
            found["name"] = name_in(me.get("name")) or found["name"]
            found["colour"] = colour_in(me.get("colour")) or found["colour"]
            if me.get("bot") is True:
                found["bot"] = True
        if isinstance(message.get("bots"), bool):
            self._switch(message["bots"])
        if "pointer" in message:
            found["at"] = place_in(message["pointer"])
        if "selection" in message:
            found["selection"] = selection_in(message["selection"])
        if "view" in message:
            found["view"] = view_in(message["view"])
        self._change(tab)

    def _switch(self, is_on: bool) -> None:
        """Tells the bots to draw, or to rest."""
        for tab, found in self._them.items():
            if "bot" in found:
                found["bot"] = is_on
                self._change(tab)

    def _change(self, tab: Listener) -> None:
        self._changed.add(tab)
        self._tell_soon()

    def _tell_soon(self) -> None:
        if self._telling is None or self._telling.done():
            self._telling = asyncio.create_task(self._tell())

    async def _tell(self) -> None:
        """Tells all tabs of what has changed, when a pause is over."""
        await asyncio.sleep(PAUSE)
        text = text_of([self._them[tab] for tab in self._changed], self._gone)
        self._changed, self._gone = set(), set()
        for tab in self._them:
            tab.say_people(text, self._all)

    def _all(self, you: int | None = None) -> str:
        return text_of(self._them.values(), (), all=True, **({} if you is None else {"you": you}))


def text_of(people: Iterable[Person], gone: Iterable[int], **more: Any) -> str:
    return json.dumps({"say": "people", "people": list(people), "gone": list(gone), **more}, separators=(",", ":"))


def name_in(value: Any) -> str:
    """A name as it is passed on, or "" where there is none."""
    return " ".join(value.split())[:LONGEST] if isinstance(value, str) else ""


def colour_in(value: Any) -> str | None:
    """A colour of six digits, or None."""
    return value if isinstance(value, str) and re.fullmatch("[0-9a-f]{6}", value) else None


def selection_in(value: Any) -> list[int]:
    """The numbers of shapes, not too many."""
    numbers = value if isinstance(value, list) else []
    return [it for it in numbers if type(it) is int and 0 < it < 1 << 32][:MOST_SELECTED]


def view_in(value: Any) -> list[float] | None:
    """The middle of a view and its level, or None."""
    is_view = isinstance(value, list) and len(value) == 3 and place_in(value[:2]) is not None
    return value if is_view and type(value[2]) in (int, float) and -10 < value[2] < 10 else None


def place_in(value: Any) -> list[int] | None:
    """A place on the page, or None."""
    is_pair = isinstance(value, list) and len(value) == 2
    return value if is_pair and all(isinstance(it, int) and abs(it) <= REACH for it in value) else None
