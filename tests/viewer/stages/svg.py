"""Downloads as SVG: drawn by Chromium they have the pixels of the server's patches, but for those at edges."""

import asyncio
import io
import tempfile
from pathlib import Path

from PIL import Image, ImageChops, ImageDraw

from harness.running import difference
from stages.desk import downloaded, patches

SHAPES = [
    ({"kind": "frame", "w": 200, "h": 120, "fill": "f4ead5"}, {"dx": 20, "dy": 10}, None),
    ({"kind": "rect", "w": 90, "h": 50, "fill": "2f6fde"}, {"dx": 150, "dy": -20}, 0),
    ({"kind": "ellipse", "w": 81, "h": 64, "fill": "d9412f"}, {"dx": -30, "dy": 60, "quarter": 1}, 0),
    ({"kind": "polygon", "points": [[0, -60], [35, 48], [-57, -19], [57, -19], [-35, 48]], "fill": "7a4fc9"}, {"dx": 110, "dy": 70, "quarter": 3, "flip": True}, 0),
    ({"kind": "group"}, {"dx": 260, "dy": 160, "quarter": 2}, None),
    ({"kind": "frame", "w": 70, "h": 40, "fill": None}, {"quarter": 1, "flip": True}, 4),
    ({"kind": "ellipse", "w": 90, "h": 30, "fill": "1e8a5a"}, {"dx": 10, "dy": 15, "quarter": 1}, 5),
    ({"kind": "polygon", "points": [[0, 0], [60, 0], [60, 40], [20, 20], [40, 20], [0, 40]], "fill": "f6c13c"}, {"dx": -90, "dy": 20, "flip": True}, 4),
    ({"kind": "rect", "w": 300, "h": 300, "fill": "000000"}, {"dx": -100}, None),
]
"""Shapes with their poses, and which of them each lies in; the last one is hidden."""
OUTLINES = """[...app.picture.tree.records.values()].filter(({shape}) => shape.kind !== 'group').map(({id, shape}) => [shape.kind, app.outlineOf(id)])"""
AROUND = "(({left, top, right, bottom}) => [left, top, right - left, bottom - top])(app.picture.tree.boxAround(%s))"


def make(server):
    """Makes the shapes far from all else; gives their ids."""
    made = []
    with server.connect() as canvas:
        for number, (shape, pose, outer) in enumerate(SHAPES):
            pose = {**pose, **({"dx": pose.get("dx", 0) + 9000, "dy": pose.get("dy", 0) + 500} if outer is None else {})}
            reply, _ = canvas.ask(verb="create", shape=shape, pose=pose, parent=None if outer is None else made[outer], hidden=number == len(SHAPES) - 1)
            made.append(reply["id"])
    return made, reply["version"]


async def drawn(browser, file):
    """What Chromium draws of an SVG file."""
    tab = await browser.open(file.as_uri())
    try:
        found = await tab.value("(({x, y, width, height}) => [x, y, width, height])(document.documentElement.viewBox.baseVal)")
        await tab.command("Emulation.setDeviceMetricsOverride", width=found[2], height=found[3], deviceScaleFactor=1, mobile=False)
        await asyncio.sleep(0.2)
        return found, Image.open(io.BytesIO(await tab.screenshot([0, 0, *found[2:]]))).convert("RGB"), tab.faults
    finally:
        await tab.close()


def edges_of(size, corner, outlines):
    """A mask of the pixels at which an outline passes, or within a pixel of it."""
    mask = Image.new("1", size)
    draw = ImageDraw.Draw(mask)
    for kind, points in outlines:
        places = [(x - corner[0], y - corner[1]) for x, y in points]
        left, top, right, bottom = [f(place[k] for place in places) for f in (min, max) for k in (0, 1)]
        if kind == "ellipse":
            draw.ellipse((left - 2, top - 2, right + 1, bottom + 1), outline=1, width=4)
        else:
            draw.line([*places, *places[:2]], fill=1, width=4)
            for x, y in places:
                draw.rectangle((x - 2, y - 2, x + 1, y + 1), fill=1)
    return mask


def wrong_pixels(shown, wanted, edges):
    """What is wrong with a picture at the pixels that are at no edge."""
    if shown.size != wanted.size:
        return f"{shown.size} for {wanted.size}"
    share = edges.histogram()[0] / (wanted.width * wanted.height)
    if share < 0.5:
        return f"only {share:.0%} of the pixels are at no edge"
    off = ImageChops.difference(shown, wanted)
    off.paste(0, mask=edges)
    box = off.getbbox()
    return box and f"pixels in {box} differ, as {shown.getpixel(box[:2])} for {wanted.getpixel(box[:2])}"


async def svg(browser, ann, server):
    """The whole document, and shapes that are selected, of which one lies in a frame that clips it."""
    numbers, version = await asyncio.to_thread(make, server)
    await ann.settle(version)
    with tempfile.TemporaryDirectory() as folder:
        await browser.downloads(folder)

        async def compared(name, select, box):
            """The picture of what is selected, beside the server's patches of the same box of the page."""
            await ann.tab.value(f"app.state.select({select}), document.querySelector('[data-act=svg]').click()")
            file = f"canvas-{'selection' if select else 'version'}-{server.ask(verb='point', x=0, y=0)[0]['version']}.svg"
            text = await downloaded(folder, file)
            found, shown, faults = await drawn(browser, Path(folder) / file)
            yield f"{name}: the box", difference(found, box)
            wanted = patches(server, 0, *found)
            outlines = await ann.tab.value(OUTLINES)
            yield f"{name}: the pixels", wrong_pixels(shown, wanted, edges_of(wanted.size, found[:2], outlines))
            yield f"{name}: no message", difference(faults, [])
            yield f"{name}: it is small", None if len(text) < 40_000 else f"{len(text)} bytes"
            (Path(folder) / file).unlink()

        top = [numbers[0], numbers[4]]
        for name, numbers_of in [("what is selected", top), ("the poster", [1])]:
            async for case in compared(name, numbers_of, await ann.tab.value(AROUND % numbers_of)):
                yield case
        for number in server.order():
            if number not in numbers and number != 1:
                server.ask(verb="delete", id=number)
        gone, _ = server.ask(verb="pose", id=1, pose={"dx": 9300, "dy": 400})
        await ann.settle(gone["version"])
        async for case in compared("the whole document", [], await ann.tab.value(AROUND % [*top, 1])):
            yield case
        server.ask(verb="pose", id=1, pose={})
        await ann.tab.value(f"app.state.select([{numbers[-1]}]), document.querySelector('[data-act=svg]').click()")
        await ann.tab.until("!document.getElementById('refusal').hidden")
        yield "what shows nothing is told", difference(await ann.text("refusal"), "Not done.There is nothing to be seen in it.")
        await ann.press("Escape")
    with server.connect() as canvas:
        for number in [*top, numbers[-1]]:
            gone, _ = canvas.ask(verb="delete", id=number)
    await ann.settle(gone["version"])


STAGES = (svg,)
