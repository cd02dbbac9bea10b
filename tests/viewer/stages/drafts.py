"""What one does is painted at once, and stays until the picture shows it: over a line on which each answer takes a while."""

import io

from PIL import Image

from browser import CONTROL
from harness.running import difference
from stages.desk import at, sheet

SLOW = """(() => {
  const ask = app.link.ask;
  app.link.ask = async function (requests) {
    const replies = await ask.call(this, requests);
    await new Promise((done) => setTimeout(done, %d));
    return replies;
  };
  window.quick = () => { app.link.ask = ask; };
})()"""
"""Each answer comes so many milliseconds later."""
LATE = 1500
TWO_FRAMES = "new Promise((done) => requestAnimationFrame(() => requestAnimationFrame(done)))"
WHITE = (255, 255, 255)
AWAY = (900, 700)
"""Where on the sheet nothing lies."""


def colour(fill):
    return tuple(int(fill[k:k + 2], 16) for k in (0, 2, 4))


async def white_sheet(ann, server, *shapes):
    """A sheet as `sheet` gives it, beside those of others; gives the numbers, and its corner."""
    group, numbers, corner = await sheet(ann, server, *((x + AWAY[0], y + AWAY[1], w, h) for x, y, w, h in shapes))
    corner = at(corner, AWAY)[0]
    await ann.look_at(0, at(corner, (200, 200))[0])
    return group, numbers, corner


async def pixel(ann, corner, place):
    """The colour of a point of the sheet, two frames later."""
    await ann.tab.value(TWO_FRAMES)
    x, y = await ann.spot(at(corner, place)[0])
    return Image.open(io.BytesIO(await ann.tab.screenshot((round(x), round(y), 1, 1)))).convert("RGB").getpixel((0, 0))


async def stays(ann, corner, place):
    """The colours of a point of the sheet from now on, until all is shown; and how many edits were not shown at first."""
    first = await ann.tab.value("app.editor.isMaking")
    found = {await pixel(ann, corner, place)}
    while await ann.tab.value("app.editor.isMaking || !app.picture.isSettled"):
        found.add(await pixel(ann, corner, place))
    found.add(await pixel(ann, corner, place))
    return first, found


async def at_once(ann, server):
    """A shape that is drawn, resized, coloured, moved and taken back is never shown otherwise than it is to be."""
    _, (low, high), corner = await white_sheet(ann, server, (0, 0, 100, 100), (60, 60, 100, 100))
    await ann.tab.value(SLOW % LATE)
    await ann.tab.value("app.state.pick('7a4fc9')")
    await ann.press("r")
    await ann.drag(*at(corner, (200, 0), (220, 20), (300, 90)))
    yield "a shape that is drawn", difference(await stays(ann, corner, (250, 45)), (True, {colour("7a4fc9")}))
    await ann.drag(*at(corner, (300, 90), (290, 80), (240, 40)))
    yield "what a shape is made smaller by", difference(await stays(ann, corner, (270, 65)), (True, {WHITE}))
    await ann.press("z", modifiers=CONTROL)
    yield "and taken back", difference(await stays(ann, corner, (270, 65)), (True, {colour("7a4fc9")}))
    await ann.tab.value(f"app.editor.select({low}), app.editor.setFill('00aa00'), 0")
    yield "a colour", difference(await stays(ann, corner, (30, 30)), (True, {colour("00aa00")}))
    await ann.tab.value("app.editor.setFill('aa0000'), 0")
    yield "of a shape behind another one", difference(await stays(ann, corner, (70, 70)), (True, {colour("5a80c0")}))
    await ann.tab.value(f"app.editor.select({low}), app.editor.moveBy([0, 150]), 0")
    yield "where a shape has gone", difference(await stays(ann, corner, (30, 200)), (True, {colour("aa0000")}))
    await ann.press("z", modifiers=CONTROL)
    yield "where it was taken back from", difference(await stays(ann, corner, (30, 200)), (True, {WHITE}))
    await ann.tab.value(f"app.editor.select({high}), app.editor.delete(), 0")
    yield "what was deleted", difference(await stays(ann, corner, (130, 130)), (True, {WHITE}))
    await ann.press("z", modifiers=CONTROL)
    yield "and made anew", difference(await stays(ann, corner, (130, 130)), (True, {colour("5a80c0")}))
    await ann.tab.value("window.quick()")
    await ann.settle(0)
    yield "the picture after all", await ann.wrong_pixels()


async def in_its_frame(ann, server):
    """What is drawn in a frame is cut off by it at once; nothing of it is shown beyond."""
    group, _, corner = await white_sheet(ann, server)
    with server.connect() as canvas:
        frame, _ = canvas.ask(verb="create", shape={"kind": "frame", "w": 100, "h": 100, "fill": "f4ead5"}, parent=group, pose={"dx": AWAY[0], "dy": AWAY[1]})
    await ann.settle(frame["version"])
    await ann.tab.value("app.state.select([]), app.state.enter(null)")
    await ann.tab.value(SLOW % LATE)
    await ann.press("e")
    await ann.drag(*at(corner, (40, 20), (60, 40), (180, 80)))
    first = await pixel(ann, corner, (90, 50))
    yield "inside", difference(first, colour(await ann.tab.value("app.state.fill")))
    yield "beyond", difference((await stays(ann, corner, (150, 50)))[1], {WHITE})
    await ann.tab.value("window.quick()")
    await ann.settle(0)
    yield "the picture of it", await ann.wrong_pixels()


STAGES = (at_once, in_its_frame)
