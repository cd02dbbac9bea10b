"""Sessions with a server: batches, their order, and what ends them."""

import asyncio
import contextlib
import json
import socket

import pytest

from canvas.gateway import session as module
from canvas.gateway.session import Away, Presence, Session, line_of
from harness.running import SECONDS


def spans(first, last):
    """A presence that is known from one time to another."""
    found = Presence()
    found._since, found._until = first, last
    return found


def test_two_sessions_are_with_one_run_where_their_times_meet():
    assert spans(0, 5).is_with(spans(4, 9))
    assert not spans(0, 4).is_with(spans(4, 9))
    assert not spans(0, 3).is_with(spans(4, 9))
    assert not Presence().is_with(spans(0, 9))


def test_a_session_is_with_itself_before_any_reply():
    found = Presence()
    assert found.is_with(found)


def test_a_presence_begins_with_the_first_reply_and_ends_with_the_last_request():
    found = Presence()
    found.hear(100.0)
    since = found._since
    found.hear(200.0)
    assert (found._since, found._until) == (since, 200.0)


def test_a_request_is_one_line():
    assert line_of({"verb": "point", "x": 0}) == b'{"verb":"point","x":0}\n'


@contextlib.asynccontextmanager
async def served(answer):
    """A session whose server answers each line by `answer`, or ends where that is None."""
    async def serve(reader, writer):
        while line := await reader.readline():
            said = answer(json.loads(line))
            if said is None:
                break
            writer.write(said)
        writer.close()

    server = await asyncio.start_server(serve, "127.0.0.1", 0)
    session = await Session.open(server.sockets[0].getsockname()[:2])
    try:
        async with asyncio.timeout(SECONDS):
            yield session
    finally:
        session.close()
        server.close()


def echo(request):
    """A reply with the request's number as its version, and as many bytes of body."""
    number = request["n"]
    return json.dumps({"body": number, "ok": True, "version": number}).encode() + b"\n" + b"x" * number


async def test_replies_come_in_order_with_their_bodies():
    async with served(echo) as session:
        first = asyncio.create_task(session.ask([line_of({"n": 3}), line_of({"n": 0})]))
        second = asyncio.create_task(session.ask([line_of({"n": 2})]))
        assert [(reply["version"], body) for reply, body in await first + await second] == [(3, b"xxx"), (0, b""), (2, b"xx")]


async def test_a_batch_of_which_no_one_waits_any_more_does_not_shift_the_next():
    async with served(echo) as session:
        lost = asyncio.create_task(session.ask([line_of({"n": 5})]))
        await asyncio.sleep(0)
        lost.cancel()
        (reply, body), = await session.ask([line_of({"n": 1})])
        assert (reply["version"], body) == (1, b"x")


async def test_the_version_is_that_of_a_point():
    asked = []

    def answer(request):
        asked.append(request)
        return b'{"body":0,"colour":"ffffff","ok":true,"version":7}\n'

    async with served(answer) as session:
        assert await session.version() == 7
    assert asked == [{"verb": "point", "x": 0, "y": 0}]


async def test_a_refused_point_says_why():
    async with served(lambda _: b'{"body":0,"code":20,"name":"NoView","ok":false}\n') as session:
        with pytest.raises(Away, match="NoView"):
            await session.version()


async def test_a_server_that_ends_the_session_is_away():
    async with served(lambda _: None) as session:
        for _ in range(2):
            with pytest.raises(Away, match="ended the session"):
                await session.ask([line_of({"n": 1})])


async def test_a_server_that_is_silent_is_away(monkeypatch):
    monkeypatch.setattr(module, "PATIENCE", 0.1)
    async with served(lambda _: b"") as session:
        with pytest.raises(Away, match="does not answer"):
            await session.ask([line_of({"n": 1})])


async def test_no_server():
    with socket.create_server(("127.0.0.1", 0)) as listener:
        address = listener.getsockname()
    with pytest.raises(Away, match="no server answers"):
        await Session.open(address)
