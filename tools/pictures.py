#!/usr/bin/python3
"""Takes the pictures of the viewer that the pages show: docs/pictures/viewer-*.png. The moving one is made by animation.py.

usage: tools/pictures.py
"""

import asyncio
import contextlib
import io
import re
import subprocess
import sys
import tempfile

from PIL import Image

from browser import CONTROL, Browser
from repository import TOP

sys.path.append(str(TOP / "tests"))
from harness.running import free_port  # noqa: E402

PICTURES = TOP / "docs" / "pictures"
PHONE = {"width": 390, "height": 700, "deviceScaleFactor": 1, "mobile": True}
DARK = [{"name": "prefers-color-scheme", "value": "dark"}]


@contextlib.contextmanager
def running_demo(*words):
    """The demo, over a new folder: its page, and where its server is."""
    with tempfile.TemporaryDirectory() as folder:
        words = ["--folder", f"{folder}/demo", "--listen", f"127.0.0.1:{free_port()}", *words]
        demo = subprocess.Popen([str(TOP / "bin" / "canvas-demo"), *words], stdout=subprocess.PIPE, text=True, start_new_session=True)
        try:
            yield re.match(r"look at (\S+) \(the server is at (\S+);", demo.stdout.readline()).groups()
        finally:
            demo.send_signal(2)
            demo.wait()


async def save(tab, name, has_focus=False):
    """Saves a picture of the tab, in at most 128 colours."""
    if not has_focus:
        await tab.value("document.activeElement.blur()")
    await asyncio.sleep(0.5)
    image = Image.open(io.BytesIO(await tab.screenshot())).convert("RGB")
    image.quantize(128, dither=Image.Dither.NONE).save(PICTURES / f"viewer-{name}.png", optimize=True)


async def spot(tab, point):
    x, y, *_ = await tab.box_of("#stage")
    i, j = await tab.value(f"app.view.toWindow([{point[0]}, {point[1]}])")
    return x + i, y + j


async def draw(tab):
    """A house that Theo has built, near, on the grid, with the handles round it; the layers beside."""
    await tab.value("app.zoom(4), app.view.centre(2048, 2048), app.look()")
    await tab.until("app.picture.isSettled")
    await tab.drag([await spot(tab, (2100, 1700))])
    await tab.click(*await spot(tab, (2800, 1000)), count=2)
    await tab.until("app.state.selection.length === 1")
    await tab.value("app.zoom(3), app.view.centre(2048, 1800), app.look()")
    await tab.until("app.picture.isSettled")
    await tab.drag([await spot(tab, (2750, 900))], CONTROL)
    await tab.value("app.notes.hide()")
    await save(tab, "draw", has_focus=True)
    await tab.value("app.state.enter(null), app.state.select([])")


async def past(tab):
    """The past: the flower, half grown."""
    await tab.key("9")
    await tab.value("app.past.enter(620)")
    await tab.until("app.past.picture.versions[0] === 620 && app.past.picture.isFull")
    await save(tab, "past")
    await tab.key("Escape")


async def phone(browser, page):
    """A phone in the dark."""
    tab = await browser.open(page)
    await tab.command("Emulation.setDeviceMetricsOverride", **PHONE)
    await tab.command("Emulation.setEmulatedMedia", features=DARK)
    await tab.until("window.app.picture.isSettled && app.view.width === 390")
    await tab.value("app.act('fit')")
    await tab.until("app.picture.isSettled")
    await save(tab, "phone")
    return tab


async def main():
    with running_demo() as (page, _):
        async with Browser(1112, 768) as browser:
            tab = await browser.open(page)
            await tab.until("app.picture.isSettled")
            await asyncio.sleep(20)
            await draw(tab)
            await past(tab)
            other = await phone(browser, page)
            if tab.faults + other.faults:
                sys.exit(f"the consoles say {tab.faults + other.faults}")


if __name__ == "__main__":
    asyncio.run(main())
