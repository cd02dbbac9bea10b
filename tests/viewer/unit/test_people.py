"""What tabs are told of each other's names and pointers."""

import asyncio
import json

import pytest

from canvas.gateway import people as module
from canvas.gateway.people import MOST_SELECTED, People, colour_in, name_in, place_in, selection_in, view_in
from harness.running import until


class Stub:
    """A tab that notes what it is told; one that is slow gets all of it later."""

    def __init__(self):
        self.said = []

    def say_people(self, text, all_of_them):
        self.said.append(json.loads(text))


@pytest.mark.parametrize("value, wanted", [("  Ann \n Lee ", "Ann Lee"), ("", ""), (None, ""), (7, ""), ("a" * 99, "a" * 40)])
def test_a_name(value, wanted):
    assert name_in(value) == wanted


@pytest.mark.parametrize("value, wanted", [("b3261e", "b3261e"), ("B3261E", None), ("#b3261e", None), ("b3261e; x", None), (None, None)])
def test_a_colour(value, wanted):
    assert colour_in(value) == wanted


@pytest.mark.parametrize("value, wanted", [([1, -2], [1, -2]), ([1], None), ([1, 2.5], None), (["1", 2], None), ([1 << 30, 0], None), (None, None)])
def test_a_place(value, wanted):
    assert place_in(value) == wanted


@pytest.mark.parametrize("value, wanted", [([7, 9], [7, 9]), ([7, "9", -1, True, 1 << 40], [7]), (7, []), ([1] * 99, [1] * MOST_SELECTED)])
def test_a_selection(value, wanted):
    assert selection_in(value) == wanted


@pytest.mark.parametrize("value, wanted", [([1, -2, 0.5], [1, -2, 0.5]), ([1, 2], None), ([1, 2, 99], None), ([1, 2, "0"], None), ([1.5, 2, 0], None), (None, None)])
def test_a_view(value, wanted):
    assert view_in(value) == wanted


async def told(monkeypatch, work):
    """What two tabs are told while `work` is done."""
    monkeypatch.setattr(module, "PAUSE", 0.02)
    people, ann, ben = People(), Stub(), Stub()
    people.join(ann)
    people.join(ben)
    await asyncio.sleep(0.05)
    ann.said.clear(), ben.said.clear()
    work(people, ann, ben)
    await until(lambda: ann.said)
    await asyncio.sleep(0.05)
    return ann.said, ben.said


async def test_who_comes_is_told_of_all():
    people, ann, ben = People(), Stub(), Stub()
    people.join(ann)
    people.take(ann, {"me": {"name": "Ann", "colour": "123456"}})
    people.join(ben)
    said = ben.said[0]
    assert (said["you"], said["all"], [(it["id"], it["name"]) for it in said["people"]]) == (2, True, [(1, "Ann"), (2, "Guest 2")])
    assert said["people"][0]["colour"] == "123456"


async def test_the_last_place_is_told_to_all_and_not_each_one(monkeypatch):
    def work(people, ann, _):
        for x in range(50):
            people.take(ann, {"pointer": [x, 0]})

    for said in await told(monkeypatch, work):
        assert [(it["id"], it["at"]) for message in said for it in message["people"]] == [(1, [49, 0])]


async def test_who_goes_is_told(monkeypatch):
    said, _ = await told(monkeypatch, lambda people, _, ben: people.leave(ben))
    assert [(message["people"], message["gone"]) for message in said] == [([], [2])]


async def test_a_pointer_that_leaves(monkeypatch):
    def work(people, ann, _):
        people.take(ann, {"pointer": [1, 2]})
        people.take(ann, {"pointer": None})

    _, said = await told(monkeypatch, work)
    assert [it["at"] for it in said[0]["people"]] == [None]
