"""The night scene of the poster, drawn from nothing with the pointer and keys alone. Only where it lies is read from the page."""

import json
import tempfile
from pathlib import Path

from browser import ALT, CONTROL
from harness.running import difference
from stages.desk import POSTER, Desk, Gateway, Server, patches

RECORDS = {record["id"]: record for record in json.loads(POSTER.read_text())["shapes"]}
SKY, STARS, MOON, LAKE, RAYS = 2, 3, 30, 35, 36
MOUNTAINS, TREES, BIRDS = (33, 34), (44, 49, 54, 59), (64, 66, 68)


def below(parent):
    """The numbers of what lies in a shape of the poster, from back to front."""
    found = [record for record in RECORDS.values() if record["place"]["parent"] == parent]
    return [record["id"] for record in sorted(found, key=lambda record: record["place"]["index"])]


def place_of(number):
    """Where the own corner of a shape of the poster lies. None of them is turned."""
    record = RECORDS[number]
    x, y = place_of(record["place"]["parent"]) if record["place"]["parent"] else (0, 0)
    return x + record["pose"]["dx"], y + record["pose"]["dy"]


class Hand:
    """A hand with a mouse, and one on the keys. `near` are the keys that come near enough for all; `after` is awaited after each thing that
    is done."""

    def __init__(self, desk, near="++", after=None):
        self.desk, self.tab, self.near, self.after = desk, desk.tab, near, after
        self.fill = None

    async def did(self):
        if self.after:
            await self.after()

    async def drag(self, *points, modifiers=0):
        """Presses at the first point of the page, goes to the others, and lets go at the last."""
        for kind, point in [("mouseMoved", points[0]), ("mousePressed", points[0]), *[("mouseMoved", it) for it in points[1:]], ("mouseReleased", points[-1])]:
            await self.tab.pointer(kind, *(await self.desk.spot(point)), clickCount=1, modifiers=modifiers, held=kind != "mouseMoved" or point != points[0])
            if kind == "mouseMoved" and point != points[0]:
                await self.did()

    async def come(self, *keys):
        """Comes to the middle of the scene at 1:1, by keys and the wheel; then nearer or further by keys."""
        point = (128, 108)
        await self.desk.press("0")
        x, y, w, h = await self.tab.box_of("#stage")
        i, j = await self.tab.value(f"app.view.toWindow({list(point)})")
        await self.tab.wheel(x + w / 2, y + h / 2, j - h / 2, i - w / 2)
        await self.tab.until(f"Math.abs(app.view.toWindow({list(point)})[0] - app.view.width / 2) < 2")
        await self.desk.press(*keys)
        await self.desk.settle(0)

    async def colour(self, fill):
        """Types a colour, where it is another one than before."""
        if fill and fill != self.fill:
            x, y, w, h = await self.tab.box_of("#colour-text")
            await self.tab.click(x + w / 2, y + h / 2)
            await self.desk.press(*fill, "Enter")
            self.fill = fill

    async def made(self, number):
        """Waits until there are more shapes than before, and all that was begun is done."""
        await self.tab.until(f"app.state.tree.records.size > {number}")
        await self.tab.value("app.editor.inTurn(() => null)")
        await self.did()

    async def count(self):
        return await self.tab.value("app.state.tree.records.size")

    async def box(self, number, is_upward=False):
        """Draws a rectangle, an ellipse or a frame of the poster, from its upper left or its lower left corner."""
        shape, (x, y), before = RECORDS[number]["shape"], place_of(number), await self.count()
        begin, end = (x, y + is_upward * shape["h"]), (x + shape["w"], y + (not is_upward) * shape["h"])
        await self.desk.press(shape["kind"][0])
        await self.colour(shape["fill"])
        await self.drag(begin, [(begin[0] + end[0]) // 2, (begin[1] + end[1]) // 2], end)
        await self.made(before)
        if shape["fill"] is None:
            x, y, w, h = await self.tab.box_of("#no-fill")
            await self.tab.click(x + w / 2, y + h / 2)
            await self.tab.until("app.state.record?.shape.fill === null")

    async def polygon(self, number, first=0):
        """Draws a polygon of the poster, from one of its points on."""
        shape, (x, y), before = RECORDS[number]["shape"], place_of(number), await self.count()
        points = shape["points"][first:] + shape["points"][:first]
        await self.desk.press("p")
        await self.colour(shape["fill"])
        for dx, dy in points:
            await self.desk.click([x + dx, y + dy])
            await self.did()
        await self.desk.press("Enter")
        await self.made(before)

    async def copies(self, numbers, at):
        """Copies what was drawn first to where the others lie, by a drag with Alt from a point of it."""
        first, *others = numbers
        x, y = place_of(first)
        for number in others:
            before, (x2, y2) = await self.count(), place_of(number)
            await self.drag([x + at[0], y + at[1]], [(x + x2) // 2, (y + y2) // 2], [x2 + at[0], y2 + at[1]], modifiers=ALT)
            await self.made(before)
            x, y = x2, y2

    async def outwards(self):
        """Selects what the selected shape lies in, by the keys of the layers."""
        before = await self.desk.selected()
        await self.desk.press("Escape")
        await self.tab.until(f"app.state.selected !== {before}")


async def sky(hand):
    """The sky with its stars, of which each is a copy of another one, and the moon, which a dark disc covers inside a frame."""
    await hand.come(*hand.near)
    await hand.box(SKY)
    for kind in ("rect", "ellipse"):
        stars = [number for number in below(STARS) if RECORDS[number]["shape"]["kind"] == kind]
        await hand.box(stars[0])
        await hand.copies(stars, (1, 1))
    await hand.box(MOON)
    full, dark = below(MOON)
    await hand.box(full)
    await hand.box(dark, is_upward=True)


async def land(hand):
    """The mountains, which reach beyond the sky and are clipped, and the lake with its light."""
    await hand.come("+")
    await hand.desk.press("Escape")
    for number in MOUNTAINS:
        await hand.polygon(number, first=1)
    await hand.come(*hand.near)
    await hand.box(LAKE)
    for number in below(RAYS):
        await hand.box(number)
    await hand.desk.press("Escape", "Escape")


async def things(hand):
    """The trees, and birds that are copies of the first one."""
    for tree in TREES:
        trunk, *greens = below(tree)
        await hand.box(trunk)
        for number in greens:
            await hand.polygon(number)
    await hand.box(BIRDS[0])
    await hand.polygon(below(BIRDS[0])[0])
    await hand.outwards()
    await hand.copies(BIRDS, (3, 2))
    await hand.desk.press("Escape", "Escape")


async def night(browser):
    """It has the poster's pixels; all steps are taken back, and made again."""
    with tempfile.TemporaryDirectory() as folder:
        file = Path(folder) / "empty.json"
        file.write_text('{"format":2,"next":1,"shapes":[]}')
        server, model, gateway = Server(file), Server(POSTER), None
        try:
            server.start()
            model.start()
            gateway = Gateway(server)
            desk = await Desk.open(browser, gateway, server)
            hand = Hand(desk)
            for part in (sky, land, things):
                await part(hand)
            window = (0, *place_of(SKY), 208, 176)
            yield "the scene", difference(patches(server, *window).tobytes() == patches(model, *window).tobytes(), True)
            async for case in and_back(desk, server, hand):
                yield case
            yield "the scene after all that", difference(patches(server, *window).tobytes() == patches(model, *window).tobytes(), True)
            yield "its console", difference(desk.tab.faults, [])
        finally:
            if gateway is not None:
                gateway.close()
            server.kill()
            model.kill()


async def and_back(desk, server, hand):
    """All of it is taken back by a key, and made again by another."""
    count = await hand.count()
    for key, wanted in [("z", 0), ("y", count)]:
        for _ in range(200):
            if await hand.count() == wanted:
                break
            await desk.press(key, modifiers=CONTROL)
            await desk.tab.value("app.editor.inTurn(() => null)")
        yield f"Ctrl+{key.upper()} until {wanted} shapes are there", difference(len(server.records()), wanted)
    await desk.settle(0)


STAGES = (night,)
