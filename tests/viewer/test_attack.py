"""Pages in a headless Chromium try to edit a document that a program serves on the same machine.

A page of another port and a page of a file send requests to the server by a form and by `fetch`, whose bodies hold edits as lines: no edit is made, and the
server goes on serving. Each way is first tried on a listener that only keeps what it is sent, so that it is known that the edits do leave the browser. And
a page of another port shows the gateway's page in its own, where clicks could be led to it: the browser does not show it, as it does a page that says nothing
of that.
"""

import asyncio
import contextlib
import json

import pytest

from browser import Browser
from canvas.client import line_of
from harness.running import until
from stages.desk import Gateway

pytestmark = [pytest.mark.slow, pytest.mark.browser]
PAGE = b"<!DOCTYPE html><title>A page</title><iframe name=hidden></iframe>"
EDIT = line_of({"verb": "create", "shape": {"kind": "rect", "w": 9, "h": 9, "fill": "ff0000"}}).decode()
BODIES = {"one line": EDIT, "many lines": "\n" + EDIT * 3 + "{}\n" + EDIT}
PATHS = {"": "", " after 70,000 bytes of head": "?" + "a" * 70_000}
FETCH = "fetch({address}, {{method: 'POST', mode: '{mode}', body: {body}, headers: {{'Content-Type': 'text/plain'}}}}).then(() => 0, () => 1)"
FORM = """(() => {{
    const form = Object.assign(document.createElement('form'), {{method: 'post', enctype: 'text/plain', target: 'hidden', action: {address}}});
    form.append(Object.assign(document.createElement('input'), {{type: 'hidden', name: {body}, value: 'x'}}));
    document.body.append(form);
    form.submit();
}})()"""
FRAME = """new Promise((done) => {{
    const frame = Object.assign(document.createElement('iframe'), {{src: {address}, onload: () => done(0)}});
    document.body.append(frame);
}})"""
WAYS = {"a form": FORM, "fetch, no-cors": FETCH.replace("{mode}", "no-cors"), "fetch, cors": FETCH.replace("{mode}", "cors")}


class Keeper:
    """A listener that keeps the lines that it is sent, and answers none."""

    async def __aenter__(self):
        self.lines = []
        self._server = await asyncio.start_server(self._keep, "127.0.0.1", 0, limit=1 << 20)
        self.address = f"127.0.0.1:{self._server.sockets[0].getsockname()[1]}"
        return self

    async def __aexit__(self, *_):
        self._server.close()

    async def _keep(self, reader, writer):
        with contextlib.suppress(OSError, asyncio.TimeoutError):
            while line := await asyncio.wait_for(reader.readline(), 1):
                self.lines.append(line.strip().decode())
        writer.close()

    def edits(self):
        return self.lines.count(EDIT.strip())


class Site:
    """Serves the page, by HTTP."""

    async def __aenter__(self):
        self._server = await asyncio.start_server(self._answer, "127.0.0.1", 0)
        self.address = f"http://127.0.0.1:{self._server.sockets[0].getsockname()[1]}/"
        return self

    async def __aexit__(self, *_):
        self._server.close()

    @staticmethod
    async def _answer(reader, writer):
        with contextlib.suppress(OSError, asyncio.IncompleteReadError):
            await reader.readuntil(b"\r\n\r\n")
            writer.write(b"HTTP/1.1 200 OK\r\nContent-Type: text/html\r\nContent-Length: %d\r\nConnection: close\r\n\r\n%s" % (len(PAGE), PAGE))
            await writer.drain()
        writer.close()


def script_of(way, address, path, body):
    return WAYS[way].format(address=json.dumps(f"http://{address}/{path}"), body=json.dumps(body))


async def edits_within(server, seconds):
    """How many edits the server has made after some time."""
    await asyncio.sleep(seconds)
    with server.connect() as canvas:
        return canvas.ask(verb="point", x=0, y=0)[0]["version"]


@pytest.fixture(scope="module")
def room(tmp_path_factory):
    """A browser, and the addresses of the two pages."""
    with asyncio.Runner() as runner:
        runner.run(begin(runner, tmp_path_factory.mktemp("pages") / "page.html"))
        yield runner
        runner.run(runner.stack.aclose())


async def begin(runner, file):
    runner.stack = contextlib.AsyncExitStack()
    runner.browser, site = await runner.stack.enter_async_context(Browser()), await runner.stack.enter_async_context(Site())
    file.write_bytes(PAGE)
    runner.pages = {"another port": site.address, "a file": file.as_uri()}


@pytest.mark.parametrize("body", BODIES.values(), ids=BODIES)
@pytest.mark.parametrize("path", PATHS.values(), ids=["", "after 70,000 bytes of head"])
@pytest.mark.parametrize("way", WAYS)
@pytest.mark.parametrize("page", ["another port", "a file"])
def test_no_page_edits(room, program, page, way, path, body):
    room.run(attack(room, program, page, way, path, body))


async def attack(room, program, page, way, path, body):
    tab = await room.browser.open(room.pages[page])
    async with Keeper() as keeper:
        await tab.value(script_of(way, keeper.address, path, body))
        with contextlib.suppress(TimeoutError):
            await until(lambda: keeper.edits() == body.count(EDIT))
        assert keeper.edits() == body.count(EDIT), "edits that leave the browser"
    with program.start() as server:
        await tab.value(script_of(way, server.address, path, body))
        assert await edits_within(server, 0.5) == 0, "edits that are made"
        with server.connect() as canvas:
            assert canvas.ask(**json.loads(EDIT))[0]["version"] == 1, "the server goes on"
    await tab.close()


async def shown(browser, page, address):
    """The address of what a page shows of another one."""
    tab = await browser.open(page)
    await tab.value(FRAME.format(address=json.dumps(address)))
    frame = (await tab.command("Page.getFrameTree"))["frameTree"]["childFrames"][-1]["frame"]
    await tab.close()
    return frame["url"]


def test_a_page_that_says_nothing_of_frames(room):
    async def look():
        async with Site() as other:
            assert await shown(room.browser, room.pages["another port"], other.address) == other.address

    room.run(look())


def test_the_gateways_page_in_a_frame(room, program):
    with program.start() as server, contextlib.closing(Gateway(server)) as gateway:
        assert room.run(shown(room.browser, room.pages["another port"], gateway.page)) == "chrome-error://chromewebdata/"
