"""The viewer's gateway: gives browsers the page, and passes on what their tabs ask of a server. The tabs of a document
share a few sessions.

usage: canvas-gateway ADDRESS [--feed ADDRESS] [--listen 127.0.0.1:8080] [--host NAME ..] [--name NAME]
       canvas-gateway --documents FOLDER [--moves] [--listen 127.0.0.1:8080] [--host NAME ..]

The server is at HOST:PORT or unix:PATH; so is the feed of a canvasd (--feed), which tells of each edit at once, and
without which the gateway asks. With --documents there are many: each folder /FOLDER/NAME has the sockets `door` and
`feed` of its canvasd, and its page is at /d/NAME/. The gateway listens at HOST:PORT, or at unix:PATH for what stands
before it, as nginx, and says who may see what. At HOST:PORT browsers find the page by an IP address, as localhost, or
by HOST; by another name only where --host names it, so that no page of another site can pass for this one. With --moves
documents move between hosts, and a tab whose server is away is sent away, so that it comes back by the host that has
the document.

A tab opens a WebSocket at /session (below /d/NAME/, if there are many documents) and sends batches of requests, as
docs/PROTOCOL.md has them:

    {"batch": 7, "requests": [{"verb": "tile", "col": 0, "row": 0}, {"verb": "export"}]}

A batch goes to the server in one piece, and its replies come back together, in order:

    {"batch": 7, "replies": [{"ok": true, "version": 3, "picture": "5f0c.."},
                             {"ok": true, "version": 3, "document": {..}}]}

A picture is named by its hash. Its PNG comes before the first reply that names it, as a message of bytes: the 16 of the
hash, and the file. It also lies at /picture/HASH.png, where the hash is the ETag. What several tabs look at is asked
for once (`Looks` says when). What a tab did not ask for is one of these:

    {"say": "here", "version": 3, "live": "1-5f0c", "since": 3}
        The server is there. `live` names the history of which all edits above `since` will be told; it is null where
        there is no feed. A tab that knows this history up to there goes on; for any other one all begins anew. A tab
        that comes back says what it knows in its address, as /session?live=1-5f0c&since=3&mark=8d1f1c9b00aa12cd, where
        `mark` is that of its last edit. Then "goes" is "on" where that is the history that is told now, also under
        another name, since the gateway was started anew; and "next" where its generation has ended, and this is the
        next one.
    {"say": "edits", "edits": [{"damage": [0, 0, 5, 1], "edit": {..}, "id": null, "version": 4}]}
        What the feed tells, as docs/PROTOCOL.md has it. Each edit is told once, in order.
    {"say": "version", "version": 4}
        Without a feed: the document has changed, as this session or that of another tab was told. The gateway asks four
        times a second.
    {"say": "away", "why": ".."}
        The server is not there; the gateway tries again twice a second.

A batch with a member `at` looks at the document as it was after so many edits; with a member `since` too, its answer
has the `edits` that led there from that version. Where it can't be shown, `replies` is null and `why` tells the reason.
A tab that looks at the past no longer says {"past": "left"}.

A tab may say of itself {"me": {"name": "Ann", "colour": "b3261e"}} and {"pointer": [120, 80]}, a place on the page, or
{"pointer": null}; {"selection": [7, 9]}, the numbers of some shapes, and {"view": [120, 80, 0]}, the middle of what it
looks at and the level. All tabs are told of it, at most twenty times a second. A bot says "bot": true in its `me`, and
is to draw while its own `bot` is true: each tab may say {"bots": false}, or true. `you` is the tab's own number, told
once; with `all` nobody else is there:

    {"say": "people", "people": [{"id": 2, "name": "Ann", "colour": "b3261e", "at": [120, 80]}], "gone": [1], "you": 2,
     "all": true}

A tab may tell what shapes are called, by their numbers and kinds, as {"names": [[7, "rect", "Logo"]]}, with "" for no
name. The gateway keeps that while it runs, and tells all tabs; with `all` these are all that it has:

    {"say": "names", "names": [[7, "rect", "Logo"]], "all": true}
"""

from __future__ import annotations

import argparse
import asyncio
import errno
import os
import signal
import socket
import sys
from pathlib import Path

from canvas.needs import end_without

try:
    from aiohttp import web

    from canvas.gateway.application import PAGE, application
    from canvas.gateway.arrivals import Arrivals
    from canvas.gateway.documents import Documents, Folder, One
    from canvas.gateway.session import Address
except ModuleNotFoundError as missing:
    end_without("gateway", missing)

PATIENCE = 5
"""Seconds that it waits, when it ends, for what is still being answered."""


def parts_of(address: str) -> tuple[str, int]:
    """Host and port of HOST:PORT."""
    host, colon, port = address.rpartition(":")
    if not colon or not port.isdigit() or int(port) > 65_535:
        raise argparse.ArgumentTypeError(f"{address!r} is neither HOST:PORT, as 127.0.0.1:7878, nor unix:PATH")
    return host.strip("[]"), int(port)


def door_of(address: str) -> Address:
    """Where a door is: the parts of HOST:PORT, or the path of unix:PATH."""
    return address[len("unix:"):] if address.startswith("unix:") else parts_of(address)


def given_words() -> argparse.Namespace:
    words = argparse.ArgumentParser("canvas-gateway", description="shows served documents in the browser")
    words.add_argument("server", type=door_of, nargs="?", metavar="ADDRESS",
                       help="where `canvasd` or `canvas serve` listens: HOST:PORT or unix:PATH")
    words.add_argument("--feed", type=door_of, metavar="ADDRESS", help="where canvasd tells of its edits")
    words.add_argument("--documents", metavar="FOLDER",
                       help="where each document has a folder with the sockets of its server, in the place of ADDRESS")
    words.add_argument("--moves", action="store_true", help="a document whose server is away may be at another host")
    words.add_argument("--listen", type=door_of, default=("127.0.0.1", 8080), metavar="ADDRESS",
                       help="where the page is: HOST:PORT or unix:PATH")
    words.add_argument("--host", action="append", default=[], metavar="NAME",
                       help="by which other name browsers may find the page; may be given again")
    words.add_argument("--name", default="drawing", help="what the document is called in the title of each tab")
    given = words.parse_args()
    is_foreign = given.feed if given.documents else given.moves  # a word of the other form
    if (given.server is None) == (given.documents is None) or is_foreign:
        words.error("either the ADDRESS of a server is wanted, or --documents FOLDER")
    return given


def is_deserted(path: str) -> bool:
    """Whether a socket lies at a path at which nobody listens."""
    with socket.socket(socket.AF_UNIX) as found:
        return Path(path).is_socket() and found.connect_ex(path) == errno.ECONNREFUSED


def listener_at(door: Address) -> tuple[socket.socket, str]:
    """A listening socket, and how its address is told. At a path it takes the place of a socket at which nobody listens
    any more."""
    if not isinstance(door, str):
        host, port = door
        found = socket.create_server((host, port), family=socket.AF_INET6 if ":" in host else socket.AF_INET)
        return found, f"http://{f'[{host}]' if ':' in host else host}:{found.getsockname()[1]}/"
    if is_deserted(door):
        os.unlink(door)
    found = socket.socket(socket.AF_UNIX)
    found.bind(door)
    found.listen()
    return found, f"unix:{door}"


async def serve(found: web.Application, listener: socket.socket, address: str) -> None:
    """Serves an application until it is told to end."""
    arrivals, runner, over = Arrivals(found), web.AppRunner(found, access_log=None), asyncio.Event()
    for number in (signal.SIGINT, signal.SIGTERM):
        asyncio.get_running_loop().add_signal_handler(number, over.set)
    await runner.setup()
    assert runner.server is not None  # (it was set up)
    door = await arrivals.open(runner.server, listener)
    print(address, flush=True)
    await over.wait()
    door.close()
    await runner.shutdown()
    await runner.server.shutdown(PATIENCE)
    await runner.cleanup()


def documents_of(given: argparse.Namespace) -> Documents:
    """The documents that are shown."""
    if given.server:
        return One(given.name, given.server, given.feed)
    return Folder(given.documents, given.moves)


def main() -> None:
    given = given_words()
    if not PAGE.is_dir():
        sys.exit(f"gateway: there is no page at {PAGE}; a release of canvas has one (docs/INSTALL.md)")
    try:
        listener, address = listener_at(given.listen)
    except OSError as fault:
        sys.exit(f"gateway: {fault.strerror}")
    hosts = None if isinstance(given.listen, str) else {given.listen[0], *(name.lower() for name in given.host)}
    asyncio.run(serve(application(documents_of(given), hosts), listener, address))
