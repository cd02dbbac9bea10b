"""The grid: what is drawn, moved and resized lies on it, unless Alt is held."""

import io

from PIL import Image

from browser import ALT, SHIFT
from harness.running import difference
from stages.desk import at, back, becomes, boxes, sheet

LINES = "(({hidden, style}) => hidden ? null : style.backgroundSize)(document.getElementById('grid'))"


async def grid(browser, gateway, ann, server):
    """It is put on and off, shown from 2:1 on, kept by the browser, and never part of a picture."""
    await ann.look_at(-1, (40, 40))
    await ann.press("Escape", "Escape", "v")
    yield "it is off at first", difference(await ann.tab.value("[app.grid.isOn, document.getElementById('grid').hidden]"), [False, True])
    x, y, w, h = await ann.tab.box_of("[data-act=grid]")
    await ann.tab.click(x + w / 2, y + h / 2)
    yield "its button says that it is on", difference(await ann.tab.value("document.querySelector('[data-act=grid]').getAttribute('aria-pressed')"), "true")
    yield "the browser keeps that", difference(await ann.tab.value("localStorage.getItem('canvas.grid')"), "true")
    guest = await browser.open(gateway.page)
    yield "a tab that is opened then has it", difference(await guest.value("window.app.grid.isOn"), True)
    await guest.close()
    for level, wanted in [(-1, "16px 16px"), (-2, "32px 32px"), (-3, "64px 64px"), (0, None)]:
        await ann.look_at(level, (40, 40))
        yield f"its lines at level {level}", await becomes(ann.tab, LINES, wanted)
    async for case in its_lines(ann):
        yield case
    async for case in drawn_on_it(ann, server):
        yield case
    async for case in moved_on_it(ann, server):
        yield case
    await ann.press("#")
    yield "the key puts it off", difference(await ann.tab.value("[app.grid.isOn, localStorage.getItem('canvas.grid')]"), [False, "false"])
    yield "the picture has none of it", await ann.wrong_pixels()


async def its_lines(ann):
    """A line lies where each eighth pixel of the page begins."""
    await ann.look_at(-2, (3, -5))
    await ann.tab.value("new Promise((done) => requestAnimationFrame(() => requestAnimationFrame(done)))")
    image = Image.open(io.BytesIO(await ann.tab.screenshot(await ann.tab.box_of("#stage")))).convert("RGB")
    wrong = []
    for x in range(-16, 24, 8):
        i, j = await ann.tab.value(f"app.view.toWindow([{x}, -5])")
        line, beside = image.getpixel((int(i), int(j) + 9)), image.getpixel((int(i) + 5, int(j) + 9))
        if line == beside:
            wrong.append(x)
    yield "a line at each eighth pixel", difference(wrong, [])


async def drawn_on_it(ann, server):
    """Boxes and polygons; Alt lets a point go."""
    await ann.look_at(-1, (-3000, 40))
    await ann.press("r")
    before = await ann.selected()
    await ann.drag([-3043, 3], [-3020, 10], [-3002, 43])
    rect = await ann.made(before)
    yield "a rectangle", difference(sum(await boxes(ann, [rect]), []), [-3040, 0, -3000, 40])
    await ann.press("r")
    await ann.drag([-2990, 3], [-2985, 9], [-2971, 25], modifiers=ALT)
    free = await ann.made(rect)
    yield "one that Alt lets go", difference(sum(await boxes(ann, [free]), []), [-2990, 3, -2971, 25])
    await ann.press("e")
    await ann.drag([-2960, 1], [-2950, 1], [-2925, 2])
    flat = await ann.made(free)
    yield "no side of none", difference(sum(await boxes(ann, [flat]), []), [-2960, 0, -2928, 8])
    await ann.tab.value("app.editor.select(null)")
    await ann.press("p")
    for point in ([-3043, 60], [-3001, 61], [-3003, 98]):
        await ann.click(point)
    await ann.click([-3041, 62])
    polygon = await ann.made(flat)
    yield "a polygon", difference([sum(await boxes(ann, [polygon]), []), server.records()[polygon]["shape"]["points"]],
                                  [[-3040, 64, -3000, 96], [[0, 0], [40, 0], [40, 32]]])
    await ann.tab.value(f"app.editor.select({polygon}), app.tool.editPoints()")
    await ann.drag([-3000, 96], [-2995, 99], [-2986, 107])
    yield "its point", difference(sum(await boxes(ann, [polygon]), []), [-3040, 64, -2984, 104])
    await ann.press("Escape")
    await ann.tab.value("app.editor.select(null)")
    await ann.press("f", "Enter", "ArrowRight", "ArrowRight", "ArrowDown", "Enter")
    frame = await ann.made(polygon)
    left, top, right, bottom = (await boxes(ann, [frame]))[0]
    yield "a frame by keys", difference([left % 8, top % 8, right - left, bottom - top], [0, 0, 16, 8])
    await ann.tab.value(f"(async () => {{ app.state.select({[rect, free, flat, polygon, frame]}); await app.editor.delete(); }})()")


async def moved_on_it(ann, server):
    """Moves, resizes and the arrow keys."""
    _, (one, two), corner = await sheet(ann, server, (3, 5, 60, 40), (203, 5, 64, 40))
    box = lambda left, top, right, bottom: sum(at(corner, (left, top), (right, bottom)), [])
    await ann.tab.value(f"app.editor.select({one})")
    await ann.drag(*at(corner, (20, 20), (25, 24), (34, 39)))
    yield "a move", difference((await boxes(ann, [one]))[0], box(16, 24, 76, 64))
    await back(ann)
    await ann.drag(*at(corner, (20, 20), (25, 20), (42, 20)))
    yield "a level move stays level", difference((await boxes(ann, [one]))[0], box(24, 5, 84, 45))
    await back(ann)
    x, y = await ann.spot(at(corner, (20, 20))[0])
    await ann.tab.pointer("mouseMoved", x, y, held=False)
    await ann.tab.pointer("mousePressed", x, y, clickCount=1)
    await ann.tab.pointer("mouseMoved", x + 10, y + 10)
    await ann.tab.pointer("mouseMoved", x + 11, y + 13, modifiers=ALT)
    await ann.tab.pointer("mouseReleased", x + 11, y + 13, clickCount=1, modifiers=ALT)
    yield "a move that Alt lets go", difference((await boxes(ann, [one]))[0], box(14, 18, 74, 58))
    yield "it is no copy", difference(len(server.order(server.records()[one]["parent"])), 2)
    await back(ann)
    await ann.drag(*at(corner, (63, 45), (66, 49), (82, 69)))
    yield "a resize", difference((await boxes(ann, [one]))[0], box(3, 5, 80, 72))
    await back(ann)
    await ann.press("ArrowRight")
    yield "an arrow key goes to the next line", difference((await boxes(ann, [one]))[0], box(8, 5, 68, 45))
    await ann.press("ArrowDown", modifiers=SHIFT)
    yield "with Shift ten lines further", difference((await boxes(ann, [one]))[0], box(8, 88, 68, 128))
    await ann.tab.value(f"app.state.select([{one}, {two}])")
    await ann.drag(*at(corner, (210, 20), (215, 24), (222, 20)))
    yield "several by the corner of all", difference(await boxes(ann, [one, two]), [box(24, 88, 84, 128), box(219, 5, 283, 45)])
    await back(ann)


STAGES = (grid,)
