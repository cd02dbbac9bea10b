"""How a tab leaves a spent session, what closes it, and what it may have on its way."""

import asyncio
import contextlib
import json
from types import SimpleNamespace

import pytest
from aiohttp import WSMsgType

from canvas.gateway.pictures import Pictures
from canvas.gateway.session import Away, Presence
from canvas.gateway.tabs import Room, Tab
from harness.running import SECONDS, until


class Session:
    """A session with a run of a server, which answers at once, or when it is let go."""

    def __init__(self, run=1, is_spent=False):
        self.is_spent, self.is_over, self.asked, self.run = is_spent, False, [], run
        self.presence, self.gate = Presence(), asyncio.Event()
        self.presence.is_with = lambda other: other.run == run
        self.presence.run = run
        self.gate.set()

    async def version(self):
        return 7

    async def ask(self, lines):
        self.asked += lines
        await self.gate.wait()
        return [({"body": 0, "ok": True, "version": 7}, b"") for _ in lines]

    async def ended(self):
        await asyncio.Event().wait()


class Socket:
    """A tab's connection, at which messages come one after another. One that is open does not end behind the last of them."""

    def __init__(self, *texts, is_open=False):
        self.closed, self.code, self.read, self.said = False, None, 0, []
        self.texts, self._is_open = [*texts], is_open

    def __aiter__(self):
        return self

    async def __anext__(self):
        await asyncio.sleep(0)
        while not self.texts:
            if not self._is_open:
                raise StopAsyncIteration
            await asyncio.sleep(0.005)
        self.read += 1
        return SimpleNamespace(type=WSMsgType.TEXT, data=self.texts.pop(0))

    async def send_str(self, text):
        self.said.append(json.loads(text))

    async def close(self, code, message=b""):
        self.closed, self.code = True, code


def seats_of(*sessions):
    """Seats that give these sessions in turn; `left` are those that were given back."""
    found, left = [*sessions], []

    async def take():
        return found.pop(0)

    return SimpleNamespace(take=take, leave=left.append, close=lambda: None, left=left)


@pytest.mark.parametrize("moves, code", ((False, None), (True, 1001)))
async def test_server_is_away(moves, code):
    """A tab waits for its server, or is sent away where the document may have moved."""
    async def take():
        raise Away("it is gone")

    room = Room(("127.0.0.1", 1), None, Pictures(), moves=moves)
    room.seats = SimpleNamespace(take=take, close=lambda: None)
    tab = Tab(Socket(is_open=True), room)
    watching = asyncio.create_task(tab._watch())
    await until(lambda: tab._socket.said and (tab._socket.closed or not moves))
    await asyncio.sleep(0.1)
    watching.cancel()
    assert (tab._socket.said, tab._socket.code) == ([{"say": "away", "why": "it is gone"}], code)


@pytest.mark.parametrize("on_way, run, moves, left", [(0, 1, True, [True]), (1, 1, False, []), (0, 2, False, [False])],
                         ids=["it is left for another one", "while something is on its way it is kept", "one with another run of the server is not taken"])
async def test_a_spent_session(on_way, run, moves, left):
    """While so many requests are on their way, and where the next one is with a run of the server."""
    spent, other = Session(is_spent=True), Session(run)
    tab = Tab(Socket(), SimpleNamespace(past=None, seats=seats_of(other)))
    tab._seat = tab._session = spent
    tab._on_way = on_way
    version = await tab._newest()
    assert (version, tab._seat is other and tab._session is other, [it is spent for it in tab._room.seats.left]) == (7, moves, left)


@contextlib.asynccontextmanager
async def served(socket, session):
    """A tab that is served meanwhile."""
    room = Room(("127.0.0.1", 1), None, Pictures())
    room.seats = seats_of(session)
    tab = Tab(socket, room)
    serving = asyncio.create_task(tab.serve())
    try:
        async with asyncio.timeout(SECONDS):
            yield tab
    finally:
        serving.cancel()
        await asyncio.wait([serving])


@pytest.mark.parametrize("text", ["{", "7", '{"batch":1}'])
async def test_a_tab_that_sends_what_is_no_message_is_closed(text, capsys):
    socket = Socket(text, '{"batch":1,"requests":[]}')
    async with served(socket, Session()):
        await until(lambda: socket.closed)
    assert (socket.code, socket.read) == (1008, 1)
    assert "gateway: drawing: a tab that sent" in capsys.readouterr().err


async def test_no_more_is_read_of_a_tab_that_has_too_much_on_its_way():
    session, socket = Session(), Socket(is_open=True)
    session.gate.clear()
    async with served(socket, session) as tab:
        await until(lambda: tab._session is session)
        socket.texts += [json.dumps({"batch": number, "requests": [{"verb": "pose"}] * 400}) for number in range(9)]
        await until(lambda: socket.read == 2)
        await asyncio.sleep(0.1)
        assert (socket.read, len(session.asked)) == (2, 800)
        session.gate.set()
        await until(lambda: socket.read == 9 and not tab._on_way)


async def test_a_tab_that_is_sent_away():
    socket = Socket()
    await Tab(socket, SimpleNamespace(past=None)).send_away()
    assert socket.code == 1001
