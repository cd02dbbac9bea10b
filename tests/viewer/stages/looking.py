"""Zooming and panning; each picture is that of the server, and of one version."""

import asyncio
import time

import aiohttp

from browser import CONTROL
from harness.running import difference
from stages.desk import EDGE, LEVELS, MIDDLE, SECONDS, sheet


async def panned_and_pinched(ann, server):
    """The wheel and the middle button pan; two fingers pan and zoom; nearer than one to one each pixel is a square."""
    await ann.look_at(0, (128, 128))
    await ann.press("Escape", "Escape", "v")
    x, y, *_ = await ann.tab.box_of("#stage")
    _, left, top, *_ = await ann.view()
    await ann.tab.wheel(x + 300, y + 200, 70, 30)
    await ann.tab.until(f"app.view.left === {left + 30} && app.view.top === {top + 70}")
    await ann.tab.drag([(x + 300, y + 200), (x + 340, y + 210)], button="middle")
    yield "the wheel and the middle button pan", difference((await ann.view())[1:3], [left - 10, top + 60])
    await ann.settle(0)
    yield "the picture after it", await ann.wrong_pixels()
    point = await ann.tab.value("app.view.pointAt([300, 200])")
    await ann.tab.touch("touchStart", (x + 250, y + 200))
    await ann.tab.touch("touchStart", (x + 250, y + 200), (x + 350, y + 200))
    for apart in range(50, 30, -2):
        await ann.tab.touch("touchMove", (x + 300 - apart, y + 220), (x + 300 + apart, y + 220))
    await ann.tab.touch("touchMove", (x + 275, y + 240), (x + 325, y + 240))
    await ann.tab.touch("touchEnd")
    await ann.tab.until("app.view.level > 0.9")
    level, now = (await ann.view())[0], await ann.tab.value("app.view.pointAt([300, 240])")
    yield "a pinch zooms", difference(round(level, 2), 1)
    yield "what was between the fingers stays there", None if max(abs(a - b) for a, b in zip(now, point)) <= 2 else f"{now} for {point}"
    for level in (-2, -3):
        await ann.look_at(level, (128, 128))
        yield f"the picture of level {level}", await ann.wrong_pixels()
    yield "the words of it", difference(await ann.text("level"), "8:1")
    await ann.look_at(0, (128, 128))


async def zoomed(ann, server):
    """All seven levels by a touch pad, out and in, and by keys; the picture of each."""
    x, y, width, height = await ann.tab.box_of("#stage")
    await ann.look_at(0, (128, 128))
    here = (x + 300, y + 200)
    point = "app.view.toPage([300, 200])"
    begin = await ann.tab.value(point)
    for level in range(LEVELS):
        yield f"level {level}", difference((await ann.view())[0], level)
        yield f"the picture of level {level}", await ann.wrong_pixels()
        now = await ann.tab.value(point)
        yield f"the wheel keeps its point at level {level}", None if max(abs(a - b) for a, b in zip(now, begin)) <= 2**level else f"{now} for {begin}"
        for _ in range(4):
            await ann.tab.wheel(*here, 25, modifiers=CONTROL)
        await ann.tab.until(f"app.view.level === {min(level + 1, LEVELS - 1)}")
        await ann.settle(0)
    for level in reversed(range(LEVELS - 1)):
        await ann.press("+")
        await ann.settle(0)
        yield f"level {level} on the way back", difference((await ann.view())[0], level)
    yield "the picture after the way back", await ann.wrong_pixels()
    await ann.press("-", "-", "9")
    await ann.tab.value("app.zoom(Math.ceil(app.view.level))")
    await ann.settle(0)
    yield "the whole document", await ann.wrong_pixels()


async def by_the_wheel(ann, server):
    """A notch of a mouse's wheel is a step of 1.2; keys come near to what is selected, and to a small document as near as it goes."""
    x, y, *_ = await ann.tab.box_of("#stage")
    await ann.look_at(0, (128, 128))
    point = await ann.tab.value("app.view.pointAt([300, 200])")
    for down, wanted in [(120, 1.2), (100, 1.44), (-120, 1.2), (240, 1.728), (-240, 1.2), (-100, 1)]:
        await ann.tab.wheel(x + 300, y + 200, down, modifiers=CONTROL)
        await ann.tab.until(f"Math.abs(app.view.scale - {wanted}) < 0.001")
    now = await ann.tab.value("app.view.pointAt([300, 200])")
    yield "it comes back to where it began", None if max(abs(a - b) for a, b in zip(now, point)) <= 1 else f"{now} for {point}"
    _, (one, two), corner = await sheet(ann, server, (20, 20, 60, 40), (300, 20, 60, 40))
    for ids, box in [([one], (20, 20, 80, 60)), ([one, two], (20, 20, 360, 60))]:
        await ann.tab.value(f"app.state.select({ids})")
        await ann.look_at(2, (4000, 4000))
        await ann.press("8")
        middle = [(corner[0] + (box[0] + box[2]) // 2), (corner[1] + (box[1] + box[3]) // 2)]
        yield f"8 shows the middle of {ids}", difference(await ann.tab.value(MIDDLE % tuple(middle)), True)
        scale = await ann.tab.value("app.view.scale")
        fits = (box[2] - box[0]) / scale <= await ann.tab.value("app.view.width")
        yield f"8 comes near to {ids}", None if fits and scale <= 0.5 else f"1:{scale}"
    await ann.press("Delete")


async def panned(ann, server):
    """Panning by the mouse and by keys, and the edges of the page."""
    await ann.look_at(0, (0, 0))
    _, left, top, *_ = await ann.view()
    x, y, *_ = await ann.tab.box_of("#stage")
    await ann.tab.command("Input.dispatchKeyEvent", type="keyDown", key=" ", code="Space", windowsVirtualKeyCode=32, text=" ")
    await ann.tab.drag([(x + 700, y + 500), (x + 500, y + 450), (x + 311, y + 322)])
    await ann.tab.command("Input.dispatchKeyEvent", type="keyUp", key=" ", code="Space", windowsVirtualKeyCode=32)
    await ann.settle(0)
    yield "a pan by Space and the mouse", difference((await ann.view())[1:3], [left + 389, top + 178])
    yield "the picture after it", await ann.wrong_pixels()
    await ann.press("ArrowLeft", "ArrowUp", "ArrowUp")
    await ann.settle(0)
    yield "a pan by keys", difference((await ann.view())[1:3], [left + 389 - 64, top + 178 - 128])
    for level in (0, 3, 6):
        for corner in ((-EDGE, -EDGE), (EDGE, EDGE)):
            await ann.look_at(level, corner)
            refused = await ann.tab.value("app.picture.refused")
            yield f"the edge {corner} at level {level}", difference(refused, [])
    await ann.look_at(1, (128, 128))


async def sent_once(ann, server, gateway):
    """A picture that the browser has is not sent again."""
    await ann.look_at(0, (128, 128))
    before = await ann.tab.value("app.link.came")
    made, _ = server.ask(verb="create", shape={"kind": "rect", "w": 3, "h": 3, "fill": "ff00ff"}, pose={"dx": 30, "dy": 30})
    await ann.settle(made["version"])
    yield "one tile has changed, and one is sent", difference(await ann.tab.value("app.link.came") - before, 1)
    name = await ann.tab.value("app.link.ask([{ verb: 'tile', col: 0, row: 0 }]).then(([reply]) => reply.picture)")
    yield "it is not fetched besides", difference([url for url, _ in ann.tab.fetched if "/picture/" in url], [])
    address = f"{gateway.page}picture/{name}.png"
    async with aiohttp.ClientSession() as client:
        async with client.get(address) as response:
            tag = response.headers["ETag"]
            yield "a picture's tag is its hash", difference(tag, f'"{name}"')
        async with client.get(address, headers={"If-None-Match": tag}) as response:
            yield "a picture that is there already", difference((response.status, await response.read()), (304, b""))
        async with client.get(f"{gateway.page}picture/00.png") as response:
            yield "a picture that no one has", difference(response.status, 404)
        try:
            await client.ws_connect(f"{gateway.page}session", origin="http://elsewhere.example")
            yield "a page of another site", "has a session"
        except aiohttp.WSServerHandshakeError as refusal:
            yield "a page of another site", difference(refusal.status, 403)


PAPER = {"kind": "rect", "w": 700, "h": 60, "fill": "102030"}
WATCH = """window.looks = [], app.picture.addEventListener('shown', () => {
  const context = new OffscreenCanvas(app.view.width, app.view.height).getContext('2d', {willReadFrequently: true});
  app.picture.draw(context, app.view);
  const colours = [-250, 100, 390].map((x) => [...context.getImageData(x - app.view.left, 530 - app.view.top, 1, 1).data.slice(0, 3)]
    .map((part) => part.toString(16).padStart(2, '0')).join(''));
  window.looks.push([app.picture.versions, colours]);
}), 0"""


async def one_version(ann, server, seconds=4):
    """While a shape over several tiles changes its colour with each edit, what is shown is of one version, or said to be mixed."""
    await ann.look_at(0, (100, 400))
    with server.connect() as editor:
        made, _ = editor.ask(verb="create", shape=PAPER, pose={"dx": -300, "dy": 500})
        await ann.settle(made["version"])
        await ann.tab.value(WATCH)
        fills, end, number = {made["version"]: PAPER["fill"]}, time.monotonic() + seconds, 0
        while time.monotonic() < end or time.monotonic() < end + SECONDS and await ann.tab.value("window.looks.length") < seconds:
            number += 1
            fill = f"{number * 40503 % 0xFFFFFF:06x}"
            changed, _ = await asyncio.to_thread(editor.ask, verb="reshape", id=made["id"], shape={**PAPER, "fill": fill})
            fills[changed["version"]] = fill
            await asyncio.sleep([0.05, 0, 0.002, 0.2][number % 4])
        await ann.settle(changed["version"])
    looks = await ann.tab.value("window.looks")
    single = [(versions[0], colours) for versions, colours in looks if len(versions) == 1]
    wrong = [look for look in single if look[1] != [fills.get(look[0])] * 3]
    yield "what is shown is one version", f"{len(wrong)} of {len(single)}, as {wrong[0]}, not {fills.get(wrong[0][0])}" if wrong else None
    yield "it is shown again and again", None if len(looks) >= seconds else f"{len(looks)} times"
    mixed = [[fills.get(version) for version in versions] for versions, _ in looks if len(versions) > 1]
    listed = all(set(colours) <= {fills.get(version) for version in versions} for versions, colours in looks)
    yield "what is mixed is said", None if listed else f"{len(mixed)} mixed"
    print(f"while edits came: {len(looks)} pictures were shown, {len(mixed)} of them mixed and said to be; {number} edits")
    yield "the last picture", await ann.wrong_pixels()


STAGES = (panned_and_pinched, zoomed, by_the_wheel, panned, sent_once, one_version)
