"""The past: any version of a document, by the slider, by keys and played; beside what others do meanwhile."""

import contextlib
import json
import subprocess
import tempfile
import time
from pathlib import Path

from browser import CONTROL
from repository import BUILT_KEEPER
from harness.running import difference, times_as_busy
from stages.desk import POSTER, Desk, Gateway, Keeper, Server, downloaded

STEPS = 60
MANY = 100_000
SECONDS = 8
BATCH = 1000
NO_BAR = "document.styleSheets[0].insertRule('#past, .is-past #stage::before { visibility: hidden; }', document.styleSheets[0].cssRules.length)"
"""Hides what lies above the picture."""
SHOWN = "app.past.isOn && app.past.picture.versions[0] === %d && app.past.picture.isFull && app.state.tree.version === %d"


@contextlib.contextmanager
def kept(file=None):
    """A document that canvasd keeps, and a gateway that knows its feed."""
    with tempfile.TemporaryDirectory() as folder:
        server, gateway = Keeper(folder, file), None
        try:
            server.start()
            gateway = Gateway(server)
            yield server, gateway
        finally:
            if gateway is not None:
                gateway.close()
            server.kill()


def draw(server, count):
    """Draws, moves, colours and deletes shapes: so many edits."""
    with server.connect() as canvas:
        for number in range(count):
            kind, last = number % 4, (number // 4) * 3 % 40
            if kind == 0:
                made, _ = canvas.ask(verb="create", shape={"kind": "rect", "w": 40, "h": 30, "fill": f"{number * 4 % 256:02x}60c0"}, pose={"dx": 6 * last, "dy": 5 * last})
            elif kind == 1:
                canvas.ask(verb="pose", id=made["id"], pose={"dx": 6 * last + 20, "dy": 5 * last})
            elif kind == 2:
                canvas.ask(verb="reshape", id=made["id"], shape={"kind": "rect", "w": 40, "h": 30, "fill": f"c0{number * 4 % 256:02x}40"})
            elif number % 8 == 7:
                canvas.ask(verb="delete", id=made["id"])
            else:
                canvas.ask(verb="show", id=made["id"], hidden=False)


async def go(desk, version):
    """Goes to a version by the slider."""
    await desk.tab.value(f"(() => {{ const it = document.getElementById('past-slider'); it.value = {version}; it.dispatchEvent(new Event('input')); }})()")
    await desk.tab.until(SHOWN % (version, version))


@contextlib.contextmanager
def as_of(server, version):
    """A server of the document as canvasd's own history has it at a version."""
    with tempfile.TemporaryDirectory() as folder:
        file = Path(folder) / "document.json"
        file.write_bytes(subprocess.run([str(BUILT_KEEPER), "history", str(server.folder), str(version)], capture_output=True, check=True).stdout)
        other = Server(file)
        other.start()
        try:
            yield other
        finally:
            other.kill()


async def wrong_at(desk, server, version):
    """What is wrong with the shown picture and tree, beside the document of that version in canvasd's folder."""
    with as_of(server, version) as other:
        now, desk.server = desk.server, other
        try:
            fault = await desk.wrong_pixels()
        finally:
            desk.server = now
        wanted = json.loads(other.ask(verb="export")[1])
    return fault or difference(await desk.tab.value("app.state.tree.document"), wanted)


async def looked_back(browser):
    """Each version is the one of the server's folder, pixel by pixel and record by record; nothing can be changed there."""
    with kept(POSTER) as (server, gateway):
        draw(server, STEPS)
        desk = await Desk.open(browser, gateway, server)
        desk.browser = browser
        await desk.settle(STEPS)
        await desk.tab.value(NO_BAR)
        await desk.press("l")
        await desk.tab.until(SHOWN % (STEPS, STEPS))
        for version in (40, 0, 7, 8, 9, 30, 29, STEPS):
            await go(desk, version)
            yield f"version {version}", await wrong_at(desk, server, version)
        yield "its words", difference([await desk.text("version"), await desk.text("past-version")], [f"the past: version {STEPS}", f"{STEPS} of {STEPS}"])
        for stage in (by_keys, beside_others):
            async for case in stage(desk, server):
                yield case
        yield "its console", difference(desk.tab.faults, [])
        await desk.tab.close()


async def by_keys(desk, server):
    """Single steps, the address, and what can't be done."""
    await desk.press(",", ",")
    await desk.tab.until(SHOWN % (STEPS - 2, STEPS - 2))
    await desk.press(".")
    await desk.tab.until(SHOWN % (STEPS - 1, STEPS - 1))
    await desk.tab.until(f"location.hash.endsWith('@{STEPS - 1}')")
    yield "single edits by keys", await wrong_at(desk, server, STEPS - 1)
    with tempfile.TemporaryDirectory() as folder:
        await desk.browser.downloads(folder)
        await desk.press("s", modifiers=CONTROL)
        text = await downloaded(folder, f"canvas-version-{STEPS - 1}.json")
        with as_of(server, STEPS - 1) as other:
            yield "the document of a version as a file", difference(json.loads(text), json.loads(other.ask(verb="export")[1]))
    before = server.records()
    await desk.tab.value("app.state.select([app.state.tree.children(null)[0].id])")
    await desk.press("Delete")
    await desk.tab.until("!document.getElementById('refusal').hidden")
    yield "nothing can be changed in the past", None if "nothing can be changed" in await desk.text("refusal") else await desk.text("refusal")
    yield "and nothing is", difference(server.records(), before)
    await desk.press("r")
    yield "no tool that draws", difference(await desk.tab.value("app.toolName"), "select")
    left = (await desk.view())[1]
    x, y, *_ = await desk.tab.box_of("#stage")
    await desk.tab.drag([(x + 300, y + 200), (x + 250, y + 200), (x + 230, y + 210)])
    yield "a drag pans", difference((await desk.view())[1], left + 70)
    await desk.press("Escape")
    await desk.tab.until(f"!app.past.isOn && app.picture.isSettled && app.state.tree.version === {STEPS}")
    yield "the picture of now", await desk.wrong_pixels()
    yield "its bar is gone", difference(await desk.tab.value("document.getElementById('past').hidden"), True)
    await desk.tab.until("!location.hash.includes('@')")
    await desk.tab.value("location.hash = '#100,100,0@5'")
    await desk.tab.until(SHOWN % (5, 5))
    yield "the address names a version", await wrong_at(desk, server, 5)


async def seconds_of_a_step(desk, version):
    """How long this machine takes from a key until the next edit is shown, in the mean of five steps on from a version and five back."""
    begin = time.monotonic()
    for key, to in [(".", version + 1), (",", version)] * 5:
        await desk.press(key)
        await desk.tab.until(SHOWN % (to, to))
    return (time.monotonic() - begin) / 10


async def beside_others(desk, server):
    """What others do meanwhile changes nothing of what is shown, lengthens the slider, and is there afterwards; playing shows what is in between."""
    await go(desk, 10)
    picture = (await desk.picture()).tobytes()
    draw(server, 20)
    await desk.tab.until(f"document.getElementById('past-slider').max === '{STEPS + 20}'")
    yield "the past stays as it is", difference((await desk.picture()).tobytes() == picture, True)
    step = await seconds_of_a_step(desk, 10)
    await desk.tab.value("window.played = [], app.past.picture.addEventListener('shown', () => window.played.push(...app.past.picture.versions)), 0")
    begin = time.monotonic()
    await desk.press("k")
    await desk.tab.until(SHOWN % (STEPS + 20, STEPS + 20))
    played, wanted = await desk.tab.value("window.played"), (time.monotonic() - begin) / step / 2
    yield "what is played rises", difference(played, sorted(played))
    yield "and is seen", None if len(set(played)) >= min(20, wanted) else f"{len(set(played))} versions, where a step takes {step:.2f} s"
    yield "the last one", await wrong_at(desk, server, STEPS + 20)
    await desk.press("Escape")
    await desk.tab.until(f"!app.past.isOn && app.picture.isSettled && app.state.tree.version === {STEPS + 20}")
    yield "now", await desk.wrong_pixels()


async def no_past(ann):
    """Without canvasd there is none, and that is said."""
    await ann.press("l")
    await ann.tab.until("!document.getElementById('refusal').hidden")
    yield "no past without a feed", None if "canvasd" in await ann.text("refusal") else await ann.text("refusal")
    await ann.press("Escape")


async def visited(desk, server):
    """How long a desk that has just come takes to show some versions, and what is wrong with each picture."""
    times, faults = [], {}
    for version in (50_000, 49_999, 10_000, MANY - 1, 70_000, 69_000):
        begin = time.monotonic()
        if times:
            await go(desk, version)
        else:
            await desk.tab.value(f"app.past.enter({version})")
            await desk.tab.until(SHOWN % (version, version))
        times.append(time.monotonic() - begin)
        faults[version] = await wrong_at(desk, server, version)
    return times, faults


async def long_past(browser):
    """A hundred thousand versions: each is shown within seconds to two desks, each with a gateway of its own, which knows nothing yet. Where a machine
    has a slow moment, so that one of them waits longer, a third one decides."""
    with kept() as (server, _):
        with server.connect() as canvas:
            canvas.ask(verb="create", shape={"kind": "frame", "w": 800, "h": 600, "fill": "f0e8d0"})
            for number in range(400):
                canvas.ask(verb="create", parent=1, shape={"kind": "rect", "w": 20, "h": 20, "fill": f"{number * 37 % 256:02x}{number * 91 % 256:02x}80"})
            for start in range(401, MANY, BATCH):
                count = min(BATCH, MANY - start)
                for number in range(start, start + count):
                    canvas.send(verb="pose", id=2 + number % 400, pose={"dx": number * 7 % 780, "dy": number * 3 % 580})
                for _ in range(count):
                    last, _ = canvas.read()
        slowest, most = [], SECONDS * times_as_busy()
        while len(slowest) < 2 or len(slowest) == 2 and min(slowest) <= most < max(slowest):
            with contextlib.closing(Gateway(server)) as gateway:
                desk = await Desk.open(browser, gateway, server)
                await desk.settle(last["version"])
                await desk.tab.value(NO_BAR)
                times, faults = await visited(desk, server)
                slowest.append(max(times))
                print(f"versions of {last['version']}: " + ", ".join(f"{it:.2f} s" for it in times))
                for version, fault in faults.items():
                    yield f"version {version} of {MANY}", fault
                yield "its console", difference(desk.tab.faults, [])
                await desk.tab.close()
        yield "each is there within seconds", None if sorted(slowest)[1] <= most else f"{slowest}"


STAGES = (no_past, looked_back, long_past)
