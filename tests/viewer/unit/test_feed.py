"""What the gateway makes of a feed, over outages and new histories."""

import asyncio
import contextlib
import json
from types import SimpleNamespace

import pytest

from canvas.gateway import feed as module
from canvas.gateway import tabs
from canvas.gateway.feed import Feed, Known, mark_of
from canvas.gateway.session import Away, Presence
from canvas.gateway.tabs import Room, Tab
from harness.running import SECONDS, until


def line_of(version, text="a"):
    return f'{{"damage":[0,0,1,1],"edit":"{text}","id":null,"version":{version}}}'


class Door:
    """A feed door that a test leads."""

    def __init__(self, *lines, generation=1):
        self.lines, self.generation = list(lines), generation
        self.asked, self._writers, self._port = [], set(), 0

    async def start(self):
        self._server = await asyncio.start_server(self._serve, "127.0.0.1", self._port)
        self._port = self._server.sockets[0].getsockname()[1]
        return "127.0.0.1", self._port

    async def stop(self):
        self._server.close()
        for writer in self._writers:
            writer.close()
        await self._server.wait_closed()

    def add(self, *lines):
        """Keeps more edits, and tells those who follow, each by a part of a line and the rest of it."""
        self.lines += lines
        for writer in self._writers:
            text = "".join(f"{line}\n" for line in lines).encode()
            writer.write(text[:5])
            asyncio.get_running_loop().call_later(0.01, writer.write, text[5:])

    async def _serve(self, reader, writer):
        request = json.loads(await reader.readline())
        self.asked.append(request)
        since, generation = request["since"], request["generation"]
        fault = None
        if since > len(self.lines):
            fault = f"since {since} is beyond the history: {len(self.lines)} edits are kept"
        elif generation != self.generation:
            fault = f"generation {generation} is over: generation {self.generation} is served"
        if fault:
            writer.write(json.dumps({"error": fault, "ok": False}).encode() + b"\n")
            writer.close()
            return
        writer.write("".join(f"{line}\n" for line in self.lines[since:]).encode())
        self._writers.add(writer)
        await reader.read()
        self._writers.discard(writer)


@contextlib.asynccontextmanager
async def followed(door):
    """A feed that follows a door."""
    feed = Feed(await door.start())
    task = asyncio.create_task(feed.follow())
    try:
        assert await feed.is_there(SECONDS)
        async with asyncio.timeout(SECONDS):
            yield feed
    finally:
        task.cancel()
        await door.stop()


@pytest.fixture(autouse=True)
def soon(monkeypatch):
    """Nothing is waited for long."""
    monkeypatch.setattr(module, "RETRY", 0.02)
    monkeypatch.setattr(tabs, "FEED_WAIT", 0.02)
    monkeypatch.setattr(tabs, "POLL", 0.02)


async def test_it_begins_behind_the_newest_edit_of_the_served_generation():
    door = Door(line_of(1), line_of(2), generation=7)
    async with followed(door) as feed:
        assert (feed.version, feed.has(1), feed.has(2), feed.history[:2], door.asked[-1]) == (2, False, True, "7-", {"since": 2, "generation": 7})


async def test_edits_are_told_as_they_came():
    door = Door(line_of(1))
    async with followed(door) as feed:
        waiting = asyncio.create_task(feed.beyond(1))
        await asyncio.sleep(0.02)
        door.add(line_of(2), line_of(3))
        assert (await waiting, await feed.beyond(2), feed.version) == ([line_of(2), line_of(3)], [line_of(3)], 3)


@pytest.mark.parametrize("most, beyond_0, beyond_1", [("MOST_TOLD", [1, 2], [2, 3]), ("MOST_KEPT", [], [2, 3])],
                         ids=["not too many are told at once", "those that are not kept any more are not told"])
async def test_no_more_than(monkeypatch, most, beyond_0, beyond_1):
    monkeypatch.setattr(module, most, 2)
    door = Door()
    async with followed(door) as feed:
        door.add(*map(line_of, (1, 2, 3)))
        await until(lambda: feed.version == 3)
        assert [await feed.beyond(since) for since in (0, 1)] == [[*map(line_of, it)] for it in (beyond_0, beyond_1)]
        assert feed.has(0) == (most == "MOST_TOLD")


async def after_outage(feed, door, change):
    """Whether it is the same history after an outage, and what was told of it; the door has changed meanwhile."""
    door.add(line_of(1), line_of(2))
    await feed.beyond(1)
    before, waiting = feed.history, asyncio.create_task(feed.beyond(2))
    await door.stop()
    assert await waiting == [] and feed.history is None
    change(door)
    await door.start()
    assert await feed.is_there(SECONDS)
    return feed.history == before, feed.version


async def test_it_goes_on_after_an_outage():
    door = Door()
    async with followed(door) as feed:
        assert await after_outage(feed, door, lambda door: door.lines.append(line_of(3))) == (True, 2)
        assert await feed.beyond(2) == [line_of(3)]


OTHERS = {
    "its last edits": (lambda door: door.lines.__setitem__(slice(None), [line_of(1), line_of(2, "other"), line_of(3, "other")]), 3),
    "an earlier copy": (lambda door: door.lines.pop(), 1),
    "another generation": (lambda door: setattr(door, "generation", 2), 2),
}
"""What makes another history of it, and the version that is told of that."""


@pytest.mark.parametrize("change, version", OTHERS.values(), ids=OTHERS)
async def test_another_history(change, version):
    door = Door()
    async with followed(door) as feed:
        assert await after_outage(feed, door, change) == (False, version)


@pytest.mark.parametrize("change, wanted", [(lambda door: door.lines.pop(), False), (lambda door: setattr(door, "generation", 2), True),
                                            (lambda door: setattr(door, "generation", 3), False)],
                         ids=["an earlier copy", "the next generation", "the one after that"])
async def test_the_next_generation_goes_on_with_the_one_before(change, wanted):
    door = Door()
    async with followed(door) as feed:
        before = feed.history
        await after_outage(feed, door, change)
        assert (feed.before == before) == wanted


async def test_a_history_that_another_run_named_is_known_by_its_last_edit():
    door = Door(line_of(1), line_of(2), line_of(3))
    rows = [("1-old", 1, line_of(1, "b")), ("2-old", 1, line_of(1)), ("1-old", 4, line_of(4)), ("1-old", 0, line_of(1)), (None, 1, line_of(1))]
    async with followed(door) as feed:
        assert [await feed.recalls(Known(name, version, mark_of(line))) for name, version, line in rows] == [False] * len(rows)
        assert not feed.has(1)
        assert await feed.recalls(Known("1-old", 1, mark_of(line_of(1))))
        assert (feed.has(1), await feed.beyond(1)) == (True, [line_of(2), line_of(3)])


async def test_what_is_too_far_back_is_not_reached_for(monkeypatch):
    monkeypatch.setattr(module, "MOST_KEPT", 1)
    door = Door(line_of(1), line_of(2), line_of(3))
    async with followed(door) as feed:
        assert (await feed.recalls(Known("1-old", 1, mark_of(line_of(1)))), feed.has(1)) == (True, False)


def test_a_mark_is_what_the_page_makes_of_an_edit():
    line = '{"damage":[0,0,5,1],"edit":{"hidden":true,"id":7,"verb":"show"},"id":null,"version":4}'
    assert mark_of(line) == "b618d308fadcd308"


async def test_what_is_no_feed_is_said_once(capsys):
    async def serve(reader, writer):
        await reader.readline()
        writer.write(b'{"body":0,"code":52,"name":"BadVerb","ok":false}\n')
        writer.close()

    async with await asyncio.start_server(serve, "127.0.0.1", 0) as server:
        feed = Feed(server.sockets[0].getsockname()[:2])
        task, said = asyncio.create_task(feed.follow()), []
        await until(lambda: said.append(capsys.readouterr().err) or any(said))
        await asyncio.sleep(0.1)
        task.cancel()
    assert feed.history is None
    assert "".join(said) + capsys.readouterr().err == "gateway: the feed can't be followed: this is no feed\n"


# -- tabs that follow it -----------------------------------------------------------------------------------------------

class Stub:
    """A session with a server of a version, until it is ended."""

    def __init__(self, version):
        self.newest, self.presence, self.is_spent = version, Presence(), False
        self.over = asyncio.Event()

    async def ended(self):
        await self.over.wait()

    async def version(self):
        if self.over.is_set():
            raise Away("it has ended")
        return self.newest


@contextlib.asynccontextmanager
async def following(feed, session, *begin):
    """A tab of a session: what it is told, and the task that tells it."""
    said, room = [], SimpleNamespace(feed=feed, news=SimpleNamespace(tell=lambda *_: None), past=None)

    async def send(text):
        found = json.loads(text)
        said.append({**found, "live": found["live"] and "some"} if "live" in found else found)

    task = asyncio.create_task(Tab(SimpleNamespace(closed=False, send_str=send), room, *begin)._follow(session))
    try:
        await until(lambda: said)
        yield said, task
    finally:
        task.cancel()


def edits(*versions):
    return {"say": "edits", "edits": [json.loads(line_of(version)) for version in versions]}


def here(version, since, live="some", **more):
    return {"say": "here", "version": version, "live": live, "since": since, **more}


async def test_a_tab_is_told_of_each_edit():
    door = Door(line_of(1))
    async with followed(door) as feed, following(feed, Stub(1)) as (said, _):
        door.add(line_of(2), line_of(3))
        await until(lambda: len(said) == 2)
        assert said == [here(1, 1), edits(2, 3)]


async def test_a_tab_that_comes_back_is_told_of_what_it_missed():
    door = Door()
    async with followed(door) as feed:
        door.add(line_of(1), line_of(2))
        await until(lambda: feed.version == 2)
        mark, missed = mark_of(line_of(1)), [here(2, 1, goes="on"), edits(2)]
        rows = [(Known(feed.history, 1), missed), (Known("other", 1, mark), [here(2, 2)]), (Known("1-other", 1, mark), missed),
                (Known("1-other", 1), [here(2, 2)]), (Known(feed.history, 9), [here(2, 2, goes="on")])]
        for known, wanted in rows:
            async with following(feed, Stub(2), known) as (said, _):
                await until(lambda: len(said) >= len(wanted))
                await asyncio.sleep(0.05)
                assert said == wanted


async def test_a_tab_sees_that_its_session_has_ended():
    session = Stub(0)
    async with followed(Door()) as feed, following(feed, session) as (said, task):
        session.over.set()
        await asyncio.wait([task], timeout=SECONDS)
        assert (said, type(task.exception())) == ([here(0, 0)], Away)


async def test_without_the_feed_a_tab_asks():
    door = Door()
    async with followed(door) as feed, following(feed, Stub(0)) as (said, _):
        await door.stop()
        await until(lambda: len(said) > 1)
        assert (said[0], said[-1]) == (here(0, 0), here(0, 0, live=None))


async def test_a_room_without_a_feed():
    assert Room(("127.0.0.1", 1), None, None).feed is None
