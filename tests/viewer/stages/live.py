"""Beside canvasd: edits that are pushed, tabs that come back, others' pointers, and what is kept."""

import asyncio
import json
import random
import shutil
import tempfile
import time
from pathlib import Path

import aiohttp

from puppet import Cable, Counter, LiveTab
from harness.running import difference, times_as_busy
from stages.desk import Desk, Gateway, Keeper, POSTER, back

KINDS = [{"kind": "rect", "w": 40, "h": 30, "fill": "1f5fd0"}, {"kind": "ellipse", "w": 50, "h": 50, "fill": "b3261e"}, {"kind": "group"},
         {"kind": "frame", "w": 90, "h": 80}, {"kind": "polygon", "points": [[0, 0], [60, 5], [20, 50]], "fill": "146c43"}]
STEPS = 120
DOCUMENT = "app.picture.tree.document"


class House:
    """canvasd over a folder, a gateway that follows its feed, and cables and counters between them."""

    def __init__(self, folder, *words):
        file = Path(folder) / "document.json"
        file.write_bytes(POSTER.read_bytes())
        self.server = Keeper(folder, file, *words)
        self.gateway = None

    async def __aenter__(self):
        self.server.start()
        self.counter = Counter(self.server.address)
        await self.counter.start()
        self.gateway = Gateway(self.counter, self.server.feed)
        self.cable = Cable(self.gateway.page.removeprefix("http://").rstrip("/"))
        self.page = f"http://{await self.cable.mend()}/"
        return self

    async def __aexit__(self, *_):
        self.cable.cut()
        if self.gateway is not None:
            await asyncio.to_thread(self.gateway.close)  # (what it has open goes through here)
        self.counter.close()
        self.server.kill()

    async def another_gateway(self):
        """Ends the gateway, and starts another one in its place."""
        self.cable.cut()
        await asyncio.to_thread(self.gateway.close)
        self.gateway = Gateway(self.counter, self.server.feed)
        self.cable.lead_to(self.gateway.page.removeprefix("http://").rstrip("/"))
        await self.cable.mend()

    async def open(self, browser):
        desk = Desk(await browser.open(self.page), self.server)
        await desk.settle(0)
        return desk

    @property
    def version(self):
        return self.server.ask(verb="point", x=0, y=0)[0]["version"]


async def same_document(desk, server):
    """What is wrong with a tab's own tree, beside the server's export of the version that it shows."""
    reply, text = await asyncio.to_thread(lambda: server.ask(verb="export"))
    await desk.settle(reply["version"])
    saved = json.loads(text)
    saved["shapes"].sort(key=lambda record: record["id"])
    return difference(await desk.tab.value(DOCUMENT), saved)


async def live(browser):
    """Edits of others, of all kinds: no document is asked for, and only those tiles that an edit may have changed."""
    with tempfile.TemporaryDirectory() as folder:
        async with House(folder) as house:
            desks = [await house.open(browser) for _ in range(2)]
            await asyncio.sleep(1)
            asked = house.counter.verbs
            for name, place, most in [("in the view", 20, 4), ("beside the view", 90_000, 0), ("of nothing", None, 0)]:
                asked.clear()
                with house.server.connect() as canvas:
                    reply = canvas.create(KINDS[0] if place else KINDS[2], pose={"dx": place or 0, "dy": place or 0})
                for desk in desks:
                    await desk.settle(reply["version"])
                yield f"exports for an edit {name}", difference(asked["export"], 0)
                yield f"tiles for an edit {name}", None if asked["tile"] <= most else f"{asked['tile']} are asked for"
                yield f"the version after an edit {name}", difference(await desks[1].text("version"), f"version {reply['version']}")
            asked.clear()
            await asyncio.to_thread(random_edits, house.server, random.Random(7))
            for name, desk in zip(("Ann", "Ben"), desks):
                yield f"the document that {name}'s tab made by itself", await same_document(desk, house.server)
                yield f"the picture that {name} sees", await desk.wrong_pixels()
                yield f"the console of {name}", difference(desk.tab.faults, [])
            yield f"exports for {STEPS} edits of all kinds", difference(asked["export"], 0)
            async for case in kept(desks[0], house):
                yield case
            for desk in desks:
                await desk.tab.close()


def random_edits(server, dice):
    """Edits of all kinds by another client, some of them refused."""
    with server.connect() as canvas:
        known = [1]
        for _ in range(STEPS):
            some, other = dice.choice(known), dice.choice([None, *known])
            spot = dice.choice(["front", "back", {"over": some}, {"at": dice.choice("abc") + "".join(dice.choices("159Zz", k=4))}])
            pose = {"dx": dice.randrange(600), "dy": dice.randrange(600), "quarter": dice.randrange(4), "flip": dice.random() < 0.5}
            kind = dice.choice(KINDS)
            request = dice.choice([
                {"verb": "create", "shape": kind, "pose": pose}, {"verb": "create", "shape": kind, "parent": other, "spot": spot, "pose": pose},
                {"verb": "create", "shape": kind, "hidden": True, "spot": spot}, {"verb": "move", "id": some, "parent": other, "spot": spot},
                {"verb": "pose", "id": some, "pose": pose}, {"verb": "reshape", "id": some, "shape": kind},
                {"verb": "show", "id": some, "hidden": dice.random() < 0.3}, {"verb": "respace", "parent": other},
                *([{"verb": "delete", "id": some}] if dice.random() < 0.2 else []),
            ])
            canvas.send(**request)
            canvas._put(canvas._input.flush)
            reply, _ = canvas._take()
            canvas._unread -= 1
            if reply.get("id"):
                known.append(reply["id"])


async def kept(ann, house):
    """The corner says what is kept."""
    await ann.press("r")
    await ann.drag([10, 10], [40, 40])
    await ann.made(None)
    await ann.tab.until("!app.editor.isMaking")
    await ann.settle(house.version)
    yield "all is kept", difference(await ann.text("saved"), f"all kept, to version {house.version}")
    yield "the version beside it", difference(await ann.text("version"), f"version {house.version}")
    words = await ann.text("saved-words")
    yield "where it is kept", None if "in its folder" in words else words


# -- many tabs ---------------------------------------------------------------------------------------------------------

OTHERS, MOVES = 20, 90
SHOWN = """window.versions = [], app.picture.addEventListener('shown', () => window.versions.push([...app.picture.versions])), 0"""


async def together(browser):
    """One tab among twenty others, while a friend moves a shape thirty times a second: bench/live.py measures how soon edits are seen; here the limits are
    wide, for a machine with other work."""
    with tempfile.TemporaryDirectory() as folder:
        async with House(folder) as house, aiohttp.ClientSession() as client:
            ann = await house.open(browser)
            tiles = await ann.tab.value("app.view.tiles().map(({ level, col, row }) => [level, col, row])")
            others = [await LiveTab.open(client, house.gateway.page, tiles) for _ in range(OTHERS)]
            await ann.tab.value(SHOWN)
            house.counter.verbs.clear()
            begin, replies = time.monotonic(), []
            for number in range(MOVES):
                replies.append(await others[0].ask({"verb": "pose", "id": 120, "pose": {"dx": number, "dy": 40}}))
                await asyncio.sleep(max(0, begin + (number + 1) / 30 - time.monotonic()))
            version = (await asyncio.gather(*replies))[-1][0]["version"]
            took = time.monotonic() - begin
            shown = await ann.tab.value("window.versions")
            begin = time.monotonic()
            await asyncio.gather(ann.settle(version), *(tab.reached(version) for tab in others))
            late = time.monotonic() - begin
            print(f"{MOVES / took:.0f} moves a second are seen as {len(shown) / took:.0f} pictures a second; the last one by all after {1000 * late:.0f} ms")
            yield "a friend's moves are seen", None if len(shown) * times_as_busy() >= took else f"{len(shown)} pictures in {took:.1f} s"
            yield "each picture is of one version", difference([versions for versions in shown if len(versions) != 1], [])
            yield "and versions rise", difference(shown, sorted(shown))
            yield "the last one is seen soon", None if late < 5 * times_as_busy() else f"after {late:.1f} s"
            yield "no document was asked for", difference(house.counter.verbs["export"], 0)
            yield "the picture of it", await ann.wrong_pixels()
            for tab in others:
                await tab.close()
            await ann.tab.close()


# -- outages -----------------------------------------------------------------------------------------------------------

async def comes_back(browser):
    """Over a lost connection and a restart of canvasd a tab goes on: what it did can be taken back, and no document is asked for."""
    with tempfile.TemporaryDirectory() as folder:
        async with House(folder) as house:
            ann = await house.open(browser)
            await ann.press("r")
            await ann.drag([300, 300], [340, 340])
            await ann.settle(1)
            asked = house.counter.verbs
            for name, leave, come in [("a lost connection", house.cable.cut, house.cable.mend), ("a restart of canvasd", house.server.kill, house.server.start)]:
                asked.clear()
                if name == "a lost connection":
                    leave()
                    await ann.tab.until("!document.getElementById('away').hidden")
                    version = another_edit(house.server)
                    await come()
                else:
                    version = another_edit(house.server)
                    await ann.settle(version)
                    copy = Path(folder) / "copy"
                    shutil.copytree(house.server.folder, copy)
                    leave()
                    await ann.tab.until("!document.getElementById('away').hidden")
                    come()
                await ann.tab.until("document.getElementById('away').hidden")
                await ann.settle(version)
                yield f"the version after {name}", difference(await ann.text("version"), f"version {version}")
                yield f"the picture after {name}", await ann.wrong_pixels()
                yield f"exports after {name}", difference(asked["export"], 0)
                yield f"what can be taken back after {name}", difference(await ann.tab.value("app.state.history.undoName"), "draw rectangle")
            await back(ann)
            yield "it is taken back", difference(await ann.tab.value("app.state.history.undoName === undefined"), True)
            yield "the document after all this", await same_document(ann, house.server)
            async for case in set_back(ann, house, copy):
                yield case
            yield "its console", difference([it for it in ann.tab.faults if "WebSocket" not in it], [])
            await ann.tab.close()


def another_edit(server):
    with server.connect() as canvas:
        return canvas.pose(1, {"dx": random.randrange(1, 40)})["version"]


async def set_back(ann, house, copy):
    """The server is set back to an older copy: the page begins anew, and says what is gone."""
    await ann.press("r")
    await ann.drag([100, 300], [140, 340])
    await ann.settle(house.version)
    house.server.kill()
    await ann.tab.until("!document.getElementById('away').hidden")
    shutil.rmtree(house.server.folder)
    shutil.move(copy, house.server.folder)
    house.server.start()
    await ann.tab.until("document.getElementById('away').hidden && app.picture.isSettled")
    yield "the version of an older copy", difference(await ann.text("version"), f"version {house.version}")
    yield "what is gone", None if "is gone" in await ann.text("note") or "there again" in await ann.text("note") else await ann.text("note")
    yield "the document of an older copy", await same_document(ann, house.server)
    yield "nothing can be taken back", difference(await ann.tab.value("app.state.history.length"), 0)


# -- people ------------------------------------------------------------------------------------------------------------

MARKS = "[...document.querySelectorAll('.person:not([hidden])')].map((it) => [it.textContent, it.classList.contains('idle'), it.style.transform])"


async def people(browser):
    """Others' pointers, with their names, which fade and go."""
    with tempfile.TemporaryDirectory() as folder:
        async with House(folder) as house:
            ann, ben = [await house.open(browser) for _ in range(2)]
            for desk in (ann, ben):
                await desk.look_at(0, (300, 200))
            yield "their names by default", difference(await ann.tab.value("app.people.others.map(({ name }) => name)"), ["Guest 2"])
            await ben.tab.value("(() => { const it = document.getElementById('own-name'); it.value = ' Ben  Lee '; it.dispatchEvent(new Event('change')); })()")
            await ann.tab.until("document.getElementById('people-list').textContent === 'Ben Lee'")
            for point in ([100, 100], [250, 180]):
                x, y = await ben.spot(point)
                await ben.tab.pointer("mouseMoved", x, y, held=False)
                i, j = await ann.tab.value(f"app.view.toWindow({point})")
                wanted = [["Ben Lee", False, f"translate({i:g}px, {j:g}px)"]]
                await ann.tab.until(f"JSON.stringify({MARKS}) === {json.dumps(json.dumps(wanted, separators=(',', ':')))}")
                yield f"the pointer at {point}", difference(await ann.tab.value(MARKS), wanted)
            yield "one's own pointer is not shown", difference(await ben.tab.value(MARKS), [])
            await ann.tab.until(f"{MARKS}.some(([, isIdle]) => isIdle)")
            yield "an idle one fades", difference((await ann.tab.value(MARKS))[0][1], True)
            await ben.tab.command("Page.reload")
            await ben.tab.until("window.app?.picture.isSettled && document.getElementById('own-name').value === 'Ben Lee'")
            await ann.tab.until("document.getElementById('people-list').textContent === 'Ben Lee'")
            yield "a name stays in its browser", difference(await ann.text("people-count"), "2")
            await ben.tab.value("localStorage.removeItem('canvas.own-name')")
            await ben.tab.close()
            await ann.tab.until("document.getElementById('people-list').textContent === ''")
            yield "who goes is not shown any more", difference(await ann.tab.value(MARKS), [])
            yield "its console", difference(ann.tab.faults, [])
            await ann.tab.close()


STAGES = (live, together, comes_back, people)
