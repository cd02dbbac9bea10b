"""What docs/TUTORIAL.md tells its reader, done in the page's order, in a release that is made and unpacked anew.

A comment of the page says what is done with the block or the paragraph behind it:

- `run`: commands in the reader's first terminal. They end well; a block of text behind them is what they write.
- `terminal`: a command for a terminal of its own, which goes on until Ctrl-C; the text is what it writes first.
- `machine`: commands in a container (harness/machine.py) that has the Debian package, but for those that fetch packages.
- `file: NAME`: the block is saved as that file.
- `try: NAME`: the function of that name does what the paragraph tells the reader to do by hand, or looks whether it is as it says.

The last line `..` of a text stands for more lines.
"""

import asyncio
import contextlib
import os
import re
import signal
import subprocess
import tarfile
import tempfile
from pathlib import Path

import aiohttp
import pytest

import release
from canvas import Canvas
from harness import machine as machines
from harness.running import default_signals, difference, wait_for
from harness.tab import PATIENCE, Tab
from repository import BUILT, BUILT_KEEPER, TOP

pytestmark = [pytest.mark.slow, pytest.mark.hosts]
PAGE = TOP / "docs" / "TUTORIAL.md"
PART = re.compile(r"^<!-- ([^\n]*) -->\n(?:```\w*\n(.*?)^```\n(?:\n```text\n(.*?)^```\n)?)?", re.M | re.S)
"""A comment, the block behind it, and the text that the block's commands write."""
SERVER, VIEWER = "127.0.0.1:7878", "http://127.0.0.1:8080/"
DONE = "-- done --\n"
FRIENDS = "http://127.0.0.1:8000/d/drawing/"
RECTANGLE = {"verb": "create", "shape": {"kind": "rect", "w": 40, "h": 30, "fill": "2f6fde"}, "pose": {"dy": 300}}
FACE = {"verb": "point", "x": 400, "y": 223}
"""A pixel of the clock's face that no hand reaches."""
COLOUR = "f4ead5"


def is_as_told(said, told):
    """Whether a terminal shows what the page tells; None tells nothing."""
    return told is None or (said.startswith(told[:-3]) if told.endswith("\n..\n") else said == told)


class Terminal:
    """A bash of its own with these words, and what it shows. It ends with all that it started."""

    def __init__(self, folder, *words):
        self._said, self._errors = tempfile.NamedTemporaryFile(), tempfile.NamedTemporaryFile()
        environment = {name: value for name, value in os.environ.items() if not name.startswith("CANVAS")}
        environment.update(PYTHONDONTWRITEBYTECODE="1", PYTHONUNBUFFERED="1")
        self._process = subprocess.Popen(["bash", *words], cwd=folder, env=environment, stdin=subprocess.PIPE, stdout=self._said, stderr=self._errors,
                                         start_new_session=True, preexec_fn=default_signals)

    def said(self):
        return Path(self._said.name).read_text()

    def fault(self, is_right):
        """Waits until it has shown what is right, or has ended; gives what is wrong, or None."""
        wait_for(lambda: is_right() or self._process.poll() is not None, PATIENCE)
        return None if is_right() else f"{self.said()[-300:]!r} and {Path(self._errors.name).read_text()[-300:]!r} are shown"

    def run(self, commands, told):
        """Types commands, and gives what is wrong with what they do, or None."""
        begin = len(self.said())
        self._process.stdin.write(f"{commands}echo {DONE}".encode())
        self._process.stdin.flush()

        def is_right():
            said = self.said()[begin:]
            return DONE in said and is_as_told(said.replace(DONE, ""), told)

        return self.fault(is_right)

    def interrupt(self):
        """Ctrl-C. Gives the status that its command ends with."""
        os.killpg(self._process.pid, signal.SIGINT)
        return self._process.wait(PATIENCE)

    def close(self):
        with contextlib.suppress(ProcessLookupError):
            os.killpg(self._process.pid, signal.SIGKILL)
        self._process.wait()


async def drawn(page, *requests, password=None):
    """The replies to a tab of the viewer at an address."""
    auth = aiohttp.BasicAuth("friends", password) if password else None
    async with aiohttp.ClientSession(auth=auth) as client:
        tab = await Tab.open(client, page)
        replies = await tab.ask(*requests)
        await tab.close()
        return replies


class Reader:
    """Somebody who does what the page says: an unpacked release, terminals, and a machine for friends where there can be one."""

    def __init__(self, room):
        self._room, self.machine = room, None
        names = release.make({"canvas": BUILT, "canvasd": BUILT_KEEPER}, room)
        with tarfile.open(room / names[0]) as archive:
            archive.extractall(room)
        self._folder, self._package = next(it for it in room.iterdir() if it.is_dir()), room / names[1]
        self._ending = contextlib.ExitStack()
        self._first = self._terminal("-e", "-o", "pipefail")
        self.others = []

    def __enter__(self):
        return self

    def __exit__(self, *_):
        self._ending.close()

    def _terminal(self, *words):
        found = Terminal(self._folder, *words)
        self._ending.callback(found.close)
        return found

    def do(self, mark, block, told):
        """Does what a comment says; gives what is wrong, or None."""
        kind, _, name = mark.partition(": ")
        if kind == "run":
            return self._first.run(block, told)
        if kind == "terminal":
            self.others.append(self._terminal("-c", f"exec {block}"))
            return self.others[-1].fault(lambda: is_as_told(self.others[-1].said(), told))
        if kind == "machine":
            return self._run_on_machine(block)
        if kind == "file":
            (self._folder / name).write_text(block)
            return None
        return asyncio.run(TRIES[name](self))

    def _run_on_machine(self, block):
        if not self.machine:
            folder = self._room / "machine"
            folder.mkdir()
            self.machine = self._ending.enter_context(machines.Machine(folder, self._package))
            self.machine.boot()
            self.machine.path("/friends.tar").write_bytes((self._folder / "friends.tar").read_bytes())
        commands = "".join(line for line in block.splitlines(keepends=True) if not line.startswith("apt "))
        done = self.machine.run("sh", "-euc", commands)
        return None if done.returncode == 0 else f"status {done.returncode}: {done.stdout}{done.stderr}"


# -- what the reader does by hand, or sees -----------------------------------------------------------------------------

async def draw(reader):
    """The viewer is there, and a rectangle is drawn in it."""
    async with aiohttp.ClientSession() as client, client.get(VIEWER) as answer:
        status = answer.status
    replies = await drawn(VIEWER, RECTANGLE)
    return difference((status, [it["ok"] for it in replies]), (200, [True]))


async def away(reader):
    """A tab is told that the server is away."""
    async with aiohttp.ClientSession() as client, client.ws_connect(f"{VIEWER}session") as socket:
        while (found := (await socket.receive_json(timeout=PATIENCE))["say"]) not in ("here", "away"):
            pass
    return difference(found, "away")


async def goes(look):
    """Waits until the clock is there, and goes; gives what is wrong, or None."""
    found = [(await look())["colour"]]
    versions = set()
    for _ in range(10 * PATIENCE):
        reply = await look()
        found.append(reply["colour"])
        versions |= {reply["version"]} if reply["colour"] == COLOUR else set()
        if len(versions) > 2:
            return None
        await asyncio.sleep(0.1)
    return f"the colour is {found[-1]}, and the versions are {versions}"


async def ticks(reader):
    """The clock goes in the viewer."""
    async def look():
        return (await drawn(VIEWER, FACE))[0]

    return await goes(look)


async def hears(reader):
    """The program that watches tells of ticks."""
    return reader.others[-1].fault(lambda: "reshape between" in reader.others[-1].said())


async def leaves(reader):
    """Ctrl-C ends both programs, and the clock has gone."""
    watch, clock = reader.others.pop(), reader.others.pop()
    watch.interrupt()
    status = clock.interrupt()
    with Canvas.connect(SERVER) as canvas:
        return difference((status, canvas.ask(**FACE)[0]["colour"]), (0, "ffffff"))


async def friends(reader):
    """Those who know the password draw; nobody else is let in."""
    async def status(password):
        auth = aiohttp.BasicAuth("friends", password) if password else None
        async with aiohttp.ClientSession(auth=auth) as client, client.get(FRIENDS) as page, client.get(f"{FRIENDS}session") as session:
            return page.status, session.status

    word = re.search(r"-apr1 '(.*)'", PAGE.read_text())[1]
    found = [await status(None), await status("another word"), (await status(word))[0]]
    replies = await drawn(FRIENDS, RECTANGLE, password=word)
    return difference((found, [it["ok"] for it in replies]), ([(401, 401), (401, 401), 200], [True]))


async def friends_clock(reader):
    """The clock goes on the machine, and its end takes it away."""
    word = re.search(r"-apr1 '(.*)'", PAGE.read_text())[1]

    async def look():
        return (await drawn(FRIENDS, FACE, password=word))[0]

    fault = await goes(look)
    reader.machine.must("systemctl", "stop", "clock")
    return fault or difference((await look())["colour"], "ffffff")


TRIES = {it.__name__: it for it in (draw, away, ticks, hears, leaves, friends, friends_clock)}


# -- the page ----------------------------------------------------------------------------------------------------------

def unmarked(text):
    """The blocks of commands that no comment stands before."""
    marked = {found.start(2) for found in PART.finditer(text)}
    return [found[2] for found in re.finditer(r"^```(\w*)\n(.*?)^```$", text, re.M | re.S) if not found[1] and found.start(2) not in marked]


def test_no_block_of_commands_is_left_out():
    assert unmarked(PAGE.read_text()) == []


def test_the_page(tmp_path):
    """All of it, in the page's order."""
    text = PAGE.read_text()
    with Reader(tmp_path) as reader:
        for found in PART.finditer(text):
            fault = reader.do(*found.groups())
            assert fault is None, f"docs/TUTORIAL.md:{text.count(chr(10), 0, found.start()) + 1}: {found[1]}"
