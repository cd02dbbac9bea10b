"""What stands between the viewer's parts or in their place, for its test and its bench.

`Counter` passes connections on to a server and counts the requests; `Cable` passes any bytes on, until it is cut; `Puppet` is a server that a test leads; `BareTab` is a tab without
a page; `LiveTab` is one that follows the edits, and asks for the pictures of a view as the page does.
"""

import asyncio
import collections
import contextlib
import hashlib
import json
import time

import aiohttp

from harness.running import SECONDS, until


async def connected(address):
    """A reader and a writer of a connection to HOST:PORT; raises OSError where nobody is there."""
    host, _, port = address.rpartition(":")
    return await asyncio.open_connection(host, int(port))


class Counter:
    """Passes connections on to a server, and counts the requests by their verbs."""

    def __init__(self, address):
        self._server_address = address
        self.verbs = collections.Counter()

    @property
    def requests(self):
        return self.verbs.total()

    async def start(self):
        """Listens, and gives the address."""
        self._server = await asyncio.start_server(self._pass_on, "127.0.0.1", 0)
        self.address = f"127.0.0.1:{self._server.sockets[0].getsockname()[1]}"
        return self.address

    def close(self):
        self._server.close()

    async def _pass_on(self, reader, writer):
        with contextlib.suppress(OSError), contextlib.closing(writer):
            other_reader, other_writer = await connected(self._server_address)
            await asyncio.gather(self._copy(reader, other_writer, self._count), self._copy(other_reader, writer, lambda _: b""))

    def _count(self, begun):
        """Counts the lines of some bytes, and gives what is left."""
        *lines, rest = begun.split(b"\n")
        self.verbs.update(json.loads(line)["verb"] for line in lines)
        return rest

    @staticmethod
    async def _copy(reader, writer, count):
        rest = b""
        while piece := await reader.read(1 << 20):
            rest = count(rest + piece)
            writer.write(piece)
            await writer.drain()
        writer.close()


class Cable:
    """Passes connections on to an address until it is cut; then there is nobody until it is mended."""

    def __init__(self, address):
        self._to, self._port, self._writers, self._server = address, 0, set(), None

    def lead_to(self, address):
        """Leads to another address from the next connection on."""
        self._to = address

    async def mend(self):
        """Listens, always at the same address, and gives it."""
        self._server = await asyncio.start_server(self._pass_on, "127.0.0.1", self._port)
        self._port = self._server.sockets[0].getsockname()[1]
        return f"127.0.0.1:{self._port}"

    def cut(self):
        self._server.close()
        for writer in self._writers:
            writer.close()

    async def _pass_on(self, reader, writer):
        with contextlib.suppress(OSError), contextlib.closing(writer):
            other_reader, other_writer = await connected(self._to)
            both = {writer, other_writer}
            self._writers |= both
            await asyncio.gather(self._copy(reader, other_writer), self._copy(other_reader, writer))
            self._writers -= both

    @staticmethod
    async def _copy(reader, writer):
        with contextlib.suppress(OSError):
            while piece := await reader.read(1 << 16):
                writer.write(piece)
                await writer.drain()
        writer.close()


class Puppet:
    """A server that a test leads. A tile is answered with a picture of its own for each run, session and version; a point with no colour;
    all else is an edit that is made. Sessions are counted from 1.

    `asked` are the sessions and requests, but for points; `made` tells the run, the session and the version of a picture's hash; `next`
    has the reply of a session's next tile, where it is to be another one.
    """

    def __init__(self):
        self.run = self.version = self._sessions = self._port = 0
        self.asked, self.made, self.next = [], {}, {}
        self._gates, self._writers = {}, {}
        self._points = collections.Counter()

    async def start(self):
        """Begins a run, always at the same address."""
        self.run += 1
        self._server = await asyncio.start_server(self._serve, "127.0.0.1", self._port)
        self._port = self._server.sockets[0].getsockname()[1]
        self.address = f"127.0.0.1:{self._port}"

    async def stop(self):
        """Ends the run, and all sessions."""
        self._server.close()
        for writer in self._writers.values():
            writer.close()
        await self._server.wait_closed()

    def hold(self, session):
        """Answers no look and no edit of a session until it is let go."""
        self._gates[session] = asyncio.Event()

    def let_go(self, session):
        self._gates.pop(session).set()

    async def polled(self, rounds=3):
        """Waits until each session was asked for so many points."""
        before = self._points.copy()
        await until(lambda: all(self._points[session] >= before[session] + rounds for session in self._writers))

    def asked_by(self, request):
        """The sessions that asked a request, in order."""
        return [session for session, asked in self.asked if asked == request]

    async def until_asked(self, request, count=1):
        await until(lambda: len(self.asked_by(request)) >= count)

    async def _serve(self, reader, writer):
        self._sessions += 1
        session = self._sessions
        self._writers[session] = writer
        with contextlib.suppress(OSError):
            while line := await reader.readline():
                await self._answer(session, json.loads(line), writer)
        del self._writers[session]
        writer.close()

    async def _answer(self, session, request, writer):
        if request["verb"] == "point":
            self._points[session] += 1
        else:
            self.asked.append((session, request))
            if session in self._gates:
                await self._gates[session].wait()
        reply, body = self._reply(session, request["verb"])
        writer.write(json.dumps({"body": len(body), **reply}, separators=(",", ":")).encode() + b"\n" + body)

    def _reply(self, session, verb):
        now = {"ok": True, "version": self.version}
        if verb == "point":
            return now, b""
        if verb != "tile":
            self.version += 1
            return {"ok": True, "version": self.version}, b""
        reply = self.next.pop(session, now)
        return reply, self._picture(session, reply["version"]) if reply["ok"] else b""

    def _picture(self, *what):
        image = b"P6\n1 1\n255\n" + bytes([self.run, *what])
        self.made[hashlib.blake2b(image, digest_size=16).hexdigest()] = (self.run, *what)
        return image


class BareTab:
    """A tab without a page: its WebSocket to the gateway. `said` is what it was told without having asked."""

    @classmethod
    async def open(cls, client, page):
        tab = cls()
        tab.said, tab.edits, tab._waiting, tab._number = [], [], {}, 0
        tab._socket = await client.ws_connect(f"{page}session", max_msg_size=0)
        tab._reader = asyncio.create_task(tab._read())
        await tab.told("here")
        return tab

    async def _read(self):
        async for message in self._socket:
            if message.type == aiohttp.WSMsgType.BINARY:
                continue  # (a picture)
            found = message.json()
            if "say" in found:
                self.take(found)
            else:
                self._waiting.pop(found["batch"]).set_result(found["replies"])

    def take(self, found):
        """Takes what it did not ask for."""
        self.said.append(found)

    async def ask(self, *requests):
        """Sends a batch at once; gives a future of its replies."""
        self._number += 1
        self._waiting[self._number] = replies = asyncio.get_running_loop().create_future()
        await self._socket.send_json({"batch": self._number, "requests": requests})
        return asyncio.wait_for(replies, SECONDS)

    async def told(self, say, count=1, **what):
        """Waits until it was told something so many times."""
        wanted = {"say": say, **what}
        await until(lambda: sum(wanted.items() <= found.items() for found in self.said) >= count)

    async def close(self):
        await self._socket.close()
        await self._reader


def is_touched(damage, level, col, row):
    """Whether an edit may have changed a pixel that a tile shows."""
    scale = 1 << level
    meets = lambda begin, end, first: -(-max(begin, first) // scale) * scale < min(end, first + 256 * scale)
    return meets(damage[0], damage[2], 256 * scale * col) and meets(damage[1], damage[3], 256 * scale * row)


class LiveTab(BareTab):
    """A tab without a page that looks at some tiles, each a level, a column and a row, and has each tile's picture that an edit may have changed."""

    @classmethod
    async def open(cls, client, page, tiles):
        tab = await super().open(client, page)
        tab._tiles, tab._times, tab._end = tiles, {}, 0
        await tab._look(tab._tiles)
        tab._told = asyncio.Event()
        tab._following = asyncio.create_task(tab._follow())
        return tab

    async def _look(self, tiles):
        """Asks for tiles; gives their replies, or None where the connection is over."""
        with contextlib.suppress(ConnectionError, asyncio.TimeoutError):
            return await (await self.ask(*({"verb": "tile", "col": col, "row": row, "level": level} for level, col, row in tiles)))

    async def _follow(self):
        while True:
            edits, self.edits = self.edits, []
            if not edits:
                self._told.clear()
                await self._told.wait()
                continue
            touched = [tile for tile in self._tiles if any(is_touched(edit["damage"], *tile) for edit in edits)]
            newest = edits[-1]["version"]
            if touched and await self._look(touched) is None:
                break
            for version in range(self._end + 1, newest + 1):
                self._times[version] = time.time()
            self._end = newest

    def take(self, found):
        super().take(found)
        if found["say"] == "edits":
            self.edits += found["edits"]
            if getattr(self, "_told", None) is not None:
                self._told.set()

    async def reached(self, version):
        """Waits until it has the picture of a version."""
        await until(lambda: version in self._times)

    def when(self, version):
        return self._times[version]

    async def close(self):
        self._following.cancel()
        await super().close()
