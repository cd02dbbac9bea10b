"""Resizing is seen while it goes, by all; it mirrors, keeps the middle, and is one step."""

import asyncio

from browser import ALT, SHIFT
from harness.running import difference
from stages.desk import at, back, boxes, sheet

GHOST = """(() => { const it = document.querySelector('#overlay .ghost'), stage = document.getElementById('stage').getBoundingClientRect();
  if (!it) return null;
  const {left, top, right, bottom} = it.getBoundingClientRect(), page = (x, y) => app.view.toPage([x - stage.left, y - stage.top]);
  return [...page(left, top), ...page(right, bottom)]; })()"""
"""The box on the page of what is drawn above the picture."""
WIDTHS = """(() => { window.widths = new Set(); app.picture.addEventListener('shown', () => { const found = app.picture.tree.record(%d);
  if (found) window.widths.add(found.shape.w); }); })()"""


async def live(ann, ben, server):
    """Ann drags a corner for some time: she sees the shape itself at once, and Ben sees it grow."""
    _, (one,), corner = await sheet(ann, server, (20, 20, 60, 40))
    await ben.look_at(0, (corner[0] + 200, corner[1] + 200))
    await ben.tab.value(WIDTHS % one)
    await ann.tab.value(f"app.state.select([{one}])")
    steps = await ann.tab.value("app.state.history.length")
    x, y = await ann.spot(at(corner, (80, 60))[0])
    await ann.tab.pointer("mouseMoved", x, y, held=False)
    await ann.tab.pointer("mousePressed", x, y, clickCount=1)
    for step in range(1, 61):
        await ann.tab.pointer("mouseMoved", x + 2 * step, y + step)
        await asyncio.sleep(0.012)
    await ann.tab.value("new Promise((done) => requestAnimationFrame(() => requestAnimationFrame(done)))")
    yield "it is drawn at its size at once", difference(await ann.tab.value(GHOST), sum(at(corner, (20, 20), (200, 120)), []))
    await ann.tab.pointer("mouseReleased", x + 120, y + 60, clickCount=1)
    yield "its size at the end", difference((await boxes(ann, [one]))[0], sum(at(corner, (20, 20), (200, 120)), []))
    await ann.tab.until("app.ghost === null")
    await ben.settle(server.ask(verb="point", x=0, y=0)[0]["version"])
    between = [width for width in await ben.tab.value("[...window.widths]") if 60 < width < 180]
    yield "Ben sees it grow", None if len(between) >= 5 else f"{between}"
    yield "the picture that Ben sees", await ben.wrong_pixels()
    yield "it is one step", difference(await ann.tab.value("[app.state.history.length, app.state.history.undoName]"), [steps + 1, "resize"])
    await back(ann)
    yield "which is taken back", difference((await boxes(ann, [one]))[0], sum(at(corner, (20, 20), (80, 60)), []))
    await ann.tab.value(f"app.state.select([{one}])")
    await ann.tab.pointer("mousePressed", x, y, clickCount=1)
    await ann.tab.pointer("mouseMoved", x + 50, y + 30)
    await ann.tab.until(f"app.picture.tree.record({one}).shape.w === 110")
    await ann.press("Escape")
    await ann.tab.pointer("mouseReleased", x + 50, y + 30, clickCount=1)
    yield "Esc puts it back", difference((await boxes(ann, [one]))[0], sum(at(corner, (20, 20), (80, 60)), []))
    yield "and is no step", difference(await ann.tab.value("app.state.history.length"), steps)


OUTLINE = "app.outlineOf(%d).map(([x, y]) => [x - (%d), y - (%d)])"


async def mirrored(ann, server):
    """A handle goes over to the other side, and the shape is mirrored; Alt keeps the middle, with Shift the ratio too."""
    frame, (one,), corner = await sheet(ann, server, (220, 120, 60, 40))
    polygon = server.ask(verb="create", shape={"kind": "polygon", "points": [[0, 0], [60, 0], [0, 40]], "fill": "00aa00"}, pose={"dx": 120, "dy": 120}, parent=frame)[0]
    number = polygon["id"]
    await ann.settle(polygon["version"])
    outline = lambda: ann.tab.value(OUTLINE % (number, *corner))
    await ann.tab.value(f"app.state.select([{number}])")
    await ann.drag(*at(corner, (180, 140), (150, 140), (110, 140), (60, 140)))
    await boxes(ann, [])
    yield "mirrored across", difference(await outline(), [[120, 120], [60, 120], [120, 160]])
    yield "the picture of it", await ann.wrong_pixels()
    await back(ann)
    yield "taken back", difference(await outline(), [[120, 120], [180, 120], [120, 160]])
    await ann.tab.value(f"app.state.enter({frame}), app.state.select([{number}])")
    await ann.drag(*at(corner, (180, 160), (150, 140), (110, 100), (90, 100)))
    await boxes(ann, [])
    yield "mirrored across and down", difference(await outline(), [[120, 120], [90, 120], [120, 100]])
    await back(ann)
    await ann.tab.value(f"app.state.enter({frame}), app.state.select([{one}])")
    await ann.drag(*at(corner, (280, 160), (290, 165), (300, 170)), modifiers=ALT)
    yield "Alt keeps the middle", difference((await boxes(ann, [one]))[0], sum(at(corner, (200, 110), (300, 170)), []))
    await back(ann)
    await ann.tab.value(f"app.state.enter({frame}), app.state.select([{one}])")
    await ann.drag(*at(corner, (280, 160), (290, 160), (310, 160)), modifiers=ALT | SHIFT)
    yield "with Shift the ratio too", difference((await boxes(ann, [one]))[0], sum(at(corner, (190, 100), (310, 180)), []))
    await back(ann)


STAGES = (live, mirrored)
