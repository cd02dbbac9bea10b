"""Connections that bring no request, and those that can't be accepted."""

import asyncio
import contextlib
import errno
import socket

import pytest
from aiohttp import web

from canvas.gateway.main import listener_at
from canvas.gateway import arrivals as module
from canvas.gateway.application import HEADERS, application
from canvas.gateway.arrivals import Arrivals
from harness.running import SECONDS

GET = b"GET / HTTP/1.1\r\nHost: here\r\n\r\n"


@contextlib.asynccontextmanager
async def served(found):
    """An application behind a door; gives its arrivals, and what connects there."""
    listener, _ = listener_at(("127.0.0.1", 0))
    arrivals, runner = Arrivals(found), web.AppRunner(found)
    await runner.setup()
    door = await arrivals.open(runner.server, listener)
    try:
        yield arrivals, lambda: asyncio.open_connection(*listener.getsockname())
    finally:
        door.close()
        await runner.cleanup()


async def hello(_):
    return web.Response(text="hello")


def a_page():
    found = web.Application()
    found.add_routes([web.get("/", hello)])
    return found


async def test_a_connection_without_a_request_is_ended_and_no_other_one(monkeypatch):
    monkeypatch.setattr(module, "HURRY", 1)
    async with served(a_page()) as (arrivals, connect):
        (asked, asking), *others = [await connect() for _ in range(4)]
        asking.write(GET)
        assert (await asked.readuntil(b"hello")).startswith(b"HTTP/1.1 200")
        for (_, writer), part in zip(others, (b"", b"G", GET[:-2])):
            writer.write(part)
        assert [await asyncio.wait_for(reader.read(), SECONDS) for reader, _ in others] == [b"", b"", b""]
        asking.write(GET)
        assert (await asked.readuntil(b"hello")).startswith(b"HTTP/1.1 200")
        assert arrivals.waiting == 0


async def test_what_cannot_be_accepted_is_counted_and_tried_again(capsys):
    async with served(a_page()) as (arrivals, connect):
        complain = asyncio.get_running_loop().call_exception_handler
        complain({"message": "socket.accept() out of system resource", "exception": OSError(errno.EMFILE, "Too many open files")})
        reader, writer = await connect()
        writer.write(GET)
        await reader.readuntil(b"hello")
        assert arrivals.unaccepted == 1
    assert "a connection can't be accepted: Too many open files" in capsys.readouterr().err


@pytest.mark.parametrize("path", ["/", "/page/main.js", "/none"])
async def test_each_answer_says_that_no_site_may_show_it(path):
    class One:
        root = ""

        def has(self, _):
            return True

        def title(self, _):
            return "drawing"

        def shown(self):
            return []

        async def run(self, _):
            yield

    async with served(application(One(), "127.0.0.1")) as (_, connect):
        reader, writer = await connect()
        writer.write(GET.replace(b" / ", f" {path} ".encode()))
        head = (await reader.readuntil(b"\r\n\r\n")).decode()
    assert "frame-ancestors 'none'" in HEADERS["Content-Security-Policy"]
    assert all(f"{name}: {value}\r\n" in head for name, value in HEADERS.items())


def test_a_door_takes_the_place_of_one_at_which_nobody_listens(tmp_path):
    path = str(tmp_path / "door")
    with socket.socket(socket.AF_UNIX) as left:
        left.bind(path)
    listener, address = listener_at(path)
    listener.close()
    assert address == f"unix:{path}"
