"""The names of shapes, as tabs are told of them."""

import asyncio
import json

import pytest

from canvas.gateway import names as module
from canvas.gateway.names import Names, is_named
from canvas.gateway.tabs import Lane
from harness.running import until


class Stub:
    """A tab that notes what it is told."""

    def __init__(self):
        self.said = []

    def say_names(self, text, _):
        self.said.append(json.loads(text))


async def told(monkeypatch, *taken):
    """What a tab that was there, and one that comes later, are told of names."""
    monkeypatch.setattr(module, "PAUSE", 0.01)
    names, first, later = Names(), Stub(), Stub()
    names.join(first)
    for found in taken:
        names.take(found)
    telling = [task for task in asyncio.all_tasks() if task is not asyncio.current_task()]
    await asyncio.gather(*telling)
    names.join(later)
    return first.said, later.said


async def test_all_are_told_once(monkeypatch):
    first, later = await told(monkeypatch, [[7, "rect", " Logo  of us "], [8, "group", "x"]], [[7, "rect", "Logo of us"], [8, "group", ""]])
    assert first == [{"say": "names", "names": [], "all": True}, {"say": "names", "names": [[7, "rect", "Logo of us"], [8, "group", ""]]}]
    assert later == [{"say": "names", "names": [[7, "rect", "Logo of us"], [8, "group", ""]], "all": True}]


async def test_what_is_no_list_of_names_is_passed_over(monkeypatch):
    first, later = await told(monkeypatch, "names", None, [7], [[1, "rect"], [2, "circle", "x"], [True, "rect", "x"]])
    assert (len(first), later[0]["names"]) == (1, [])


async def test_a_name_is_short_and_so_many_are_kept(monkeypatch):
    monkeypatch.setattr(module, "MOST", 3)
    _, later = await told(monkeypatch, [[k, "rect", "a" * 99] for k in range(1, 6)])
    assert later[0]["names"] == [[k, "rect", "a" * 80] for k in (3, 4, 5)]


@pytest.mark.parametrize("found, wanted", [([1, "rect", "a"], True), ([0, "rect", "a"], False), ([1 << 32, "rect", "a"], False), ([1, "rect", 7], False)])
def test_a_name(found, wanted):
    assert is_named(found) == wanted


async def test_who_is_slow_is_told_all_of_it_then():
    said, gate = [], asyncio.Event()

    async def send(text):
        await gate.wait()
        said.append(text)

    lane = Lane(asyncio.ensure_future, send)
    for text in "abc":
        lane.say(text, lambda: "all")
        await asyncio.sleep(0)
    gate.set()
    await until(lambda: len(said) == 2)
    assert said == ["a", "all"]
