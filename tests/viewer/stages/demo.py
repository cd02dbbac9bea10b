"""bin/canvas-demo: what it draws, its bots, and what it keeps."""

import asyncio
import contextlib
import os
import re
import signal
import subprocess
import tempfile
from pathlib import Path

from repository import TOP
from harness.running import difference, free_port
from stages.desk import SECONDS, Desk, Server

DRAWN = 1069
"""How many edits the demo's drawing is made of."""
LINE = re.compile(r"look at (\S+) \(the server is at (\S+); (\S+) keeps the drawing\); Ctrl-C ends all\n")
BOTS = "app.people.others.filter(({bot}) => bot === %s).map(({name}) => name).sort().join()"
STILL = """new Promise((done) => { let last = -1; const look = () => {
  if (app.journal.end === last) done(last); else { last = app.journal.end; setTimeout(look, 2500); } }; look(); })"""
"""The version, when it has been the same for some time."""


class Demo:
    """A run of the demo over a folder."""

    def __init__(self, folder, *words):
        words = [str(TOP / "bin" / "canvas-demo"), "--folder", str(folder), "--listen", f"127.0.0.1:{free_port()}", *words]
        self._process = subprocess.Popen(words, stdout=subprocess.PIPE, text=True, start_new_session=True)
        self.said = LINE.fullmatch(self._process.stdout.readline())
        self.page, address, self.folder = self.said.groups()
        self.server = Server(None)
        self.server.address = address

    def end(self):
        """Ends it by Ctrl-C; gives its status, what it says, and what is left of it."""
        os.killpg(self._process.pid, signal.SIGINT)
        status, said = self._process.wait(SECONDS), self._process.stdout.read().strip()
        left = subprocess.run(["ps", "-o", "args=", "-g", str(self._process.pid)], capture_output=True, text=True).stdout.strip()
        self._process.stdout.close()
        return status, said, left

    def close(self):
        with contextlib.suppress(ProcessLookupError):
            os.killpg(self._process.pid, signal.SIGKILL)


async def demo(browser):
    """It shows the drawing and two bots, which can be stopped; Ctrl-C ends all of it, and the drawing is kept."""
    with tempfile.TemporaryDirectory() as place:
        folder = Path(place) / "demo"
        run = await asyncio.to_thread(Demo, folder)
        try:
            async for case in with_bots(browser, run):
                yield case
            kept = run.server.ask(verb="export")[1]
            yield "its end", difference(await asyncio.to_thread(run.end), (0, f"the drawing is kept in {folder}", ""))
            again = await asyncio.to_thread(Demo, folder, "--no-bots")
            try:
                yield "the drawing is kept", difference(again.server.ask(verb="export")[1], kept)
            finally:
                again.close()
        finally:
            run.close()


async def with_bots(browser, run):
    desk = await Desk.open(browser, type("Page", (), {"page": run.page}), run.server)
    await desk.settle(DRAWN)
    yield "all is seen at 1:16", difference(await desk.text("level"), "1:16")
    await desk.tab.until(f"{BOTS % 'true'} === 'Mira,Theo'")
    await desk.settle(DRAWN + 12)
    yield "the bots draw", None
    await desk.tab.until("app.people.others.every(({at}) => at !== null)")
    yield "their pointers are seen", difference(await desk.tab.value("[...document.querySelectorAll('#people .person:not([hidden])')].map((it) => it.textContent).sort().join()"), "Mira,Theo")
    x, y, w, h = await desk.tab.box_of("#bots")
    await desk.tab.click(x + w / 2, y + h / 2)
    await desk.tab.until(f"{BOTS % 'false'} === 'Mira,Theo'")
    version = await desk.tab.value(STILL)
    await desk.settle(version)
    yield "the bots rest", difference(await desk.text("bots"), "Let the bots draw")
    yield "the picture of it", await desk.wrong_pixels()
    await desk.tab.click(x + w / 2, y + h / 2)
    await desk.settle(version + 3)
    yield "they draw again", None
    await desk.tab.click(x + w / 2, y + h / 2)
    await desk.tab.value(STILL)
    yield "the demo's console", difference(desk.tab.faults, [])
    await desk.tab.close()


STAGES = (demo,)
