"""The way back to the drawing, and scrolling at an edge while something is dragged."""

import asyncio

from harness.running import difference
from stages.desk import at, back, becomes, boxes, sheet

TURN = "(({transform}) => Number(/[-\\d.]+/.exec(transform)[0]) * 180 / Math.PI)(document.querySelector('#lost svg').style)"


async def lost(ann, server):
    """Where nothing of the drawing is seen, a button tells the way, and shows all."""
    await ann.tab.value("document.getElementById('lost').style.visibility = ''")
    await ann.look_at(0, (128, 128))
    await ann.tab.until("document.getElementById('lost').hidden")
    for point, wanted in [((9000, 128), 180), ((128, -9000), 90), ((-9000, 128), 0)]:
        await ann.look_at(0, point)
        near = f"Math.abs((({TURN} - {wanted} + 540) % 360) - 180) < 40"
        yield f"the way from {point}", await becomes(ann.tab, f"!document.getElementById('lost').hidden && {near}", True)
    x, y, w, h = await ann.tab.box_of("#lost")
    await ann.tab.click(x + w / 2, y + h / 2)
    await ann.tab.until("document.getElementById('lost').hidden")
    yield "the button shows all", difference(await ann.tab.value("(({left, right}, seen) => left >= seen.left && right <= seen.right)(app.state.tree.boxOf(null), app.view.box)"), True)


async def at_the_edge(ann, server):
    """What is dragged to an edge and held there goes on, and the view with it."""
    frame, (one,), corner = await sheet(ann, server, (20, 20, 60, 40))
    await ann.tab.value(f"app.state.enter({frame}), app.state.select([{one}])")
    x, y, width, height = await ann.tab.box_of("#stage")
    i, j = await ann.spot(at(corner, (40, 40))[0])
    _, left, top, *_ = await ann.view()
    await ann.tab.pointer("mouseMoved", i, j, held=False)
    await ann.tab.pointer("mousePressed", i, j, clickCount=1)
    await ann.tab.pointer("mouseMoved", i + 50, j)
    await ann.tab.pointer("mouseMoved", x + width - 2, j)
    await ann.tab.until(f"app.view.left > {left + 300}")
    await ann.tab.pointer("mouseMoved", x + width - 200, j)
    await asyncio.sleep(0.1)
    _, now, *_ = await ann.view()
    await ann.tab.pointer("mouseReleased", x + width - 200, j, clickCount=1)
    wanted = corner[0] + 20 + (x + width - 200 - i) + now - left
    yield "the shape lies under the pointer", difference((await boxes(ann, [one]))[0][0], wanted)
    await asyncio.sleep(0.2)
    yield "the view stays then", difference((await ann.view())[1:3], [now, top])
    await back(ann)
    await ann.look_at(0, (corner[0] + 200, corner[1] + 200))
    await ann.press("r")
    i, j = await ann.spot(at(corner, (300, 300))[0])
    await ann.tab.pointer("mouseMoved", i, j, held=False)
    await ann.tab.pointer("mousePressed", i, j, clickCount=1)
    await ann.tab.pointer("mouseMoved", i + 50, y + height - 2)
    await ann.tab.until(f"app.view.top > {top + 200}")
    await ann.press("Escape")
    await ann.tab.pointer("mouseReleased", i + 50, y + height - 2, clickCount=1)
    _, _, now, *_ = await ann.view()
    await asyncio.sleep(0.3)
    yield "what is given up scrolls no more", difference((await ann.view())[2], now)
    await ann.press("Escape", "v")


STAGES = (lost, at_the_edge)
