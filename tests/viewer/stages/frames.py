"""Frames: what a drag in one selects, what goes into one and comes out, and how one without fill is taken."""

import io

from PIL import Image

from browser import ALT
from harness.running import difference
from stages.desk import at, back, boxes

CORNER = (-6000, 6000)
SELECTED, ENTERED, STEPS = "app.state.selection", "app.state.entered", "app.state.history.length"


def rectangle(fill, w=60, h=40):
    return {"kind": "rect", "w": w, "h": h, "fill": fill}


async def frames_on(ann, server, *frames):
    """An empty part of the page with frames, each as (x, y, w, h, fill), which have two rectangles; gives the numbers of each, and of a rectangle beside."""
    found = []
    with server.connect() as canvas:
        for x, y, w, h, fill in frames:
            frame, _ = canvas.ask(verb="create", shape={"kind": "frame", "w": w, "h": h, "fill": fill}, pose={"dx": CORNER[0] + x, "dy": CORNER[1] + y})
            inner = [canvas.ask(verb="create", shape=rectangle("2f6fde"), parent=frame["id"], pose={"dx": 30 + 100 * k, "dy": 40})[0] for k in range(2)]
            found.append([frame["id"], *(reply["id"] for reply in inner)])
        beside, _ = canvas.ask(verb="create", shape=rectangle("d9412f"), pose={"dx": CORNER[0], "dy": CORNER[1] + 300})
    await ann.look_at(0, at(CORNER, (300, 200))[0])
    await ann.press("Escape", "Escape", "v")
    await ann.settle(beside["version"])
    await ann.tab.value("app.state.select([]), app.state.enter(null)")
    return found, beside["id"]


async def ink(ann, place, width, height):
    """How many pixels of a box of the page are not white."""
    x, y = await ann.spot(at(CORNER, place)[0])
    shown = Image.open(io.BytesIO(await ann.tab.screenshot((round(x), round(y), width, height)))).convert("L")
    return sum(shown.histogram()[:250])


async def cleared(ann, server, *numbers):
    for number in numbers:
        server.ask(verb="delete", id=number)
    await ann.tab.value("app.state.select([]), app.state.enter(null)")


async def ground(ann, server):
    """A drag from the empty part of a filled frame selects what lies there; a click selects the frame, and a double click goes into it."""
    [(frame, one, two)], beside = await frames_on(ann, server, (0, 0, 240, 200, "f4ead5"))
    [before], steps = await boxes(ann, [frame]), await ann.tab.value(STEPS)
    await ann.drag(*at(CORNER, (10, 20), (60, 60), (150, 100)))
    yield "a drag in a frame selects what lies there", difference(sorted(await ann.tab.value(SELECTED)), [one, two])
    yield "and moves nothing", difference([(await boxes(ann, [frame]))[0], await ann.tab.value(STEPS)], [before, steps])
    await ann.click(at(CORNER, (600, 350))[0])
    await ann.click(at(CORNER, (50, 60))[0])
    yield "a click takes a shape in a frame", difference(await ann.tab.value(SELECTED), [one])
    await ann.press("Escape")
    yield "Esc goes out to the frame", difference(await ann.tab.value(SELECTED), [frame])
    await ann.click(at(CORNER, (600, 350))[0])
    await ann.click(at(CORNER, (20, 150))[0])
    yield "a click on its ground takes the frame", difference(await ann.tab.value(SELECTED), [frame])
    await ann.drag(*at(CORNER, (20, 150), (30, 160), (40, 180)))
    yield "which is moved then", difference((await boxes(ann, [frame]))[0][:2], at(CORNER, (20, 30))[0])
    await back(ann)
    await ann.click(at(CORNER, (600, 350))[0])
    await ann.tab.click(*(await ann.spot(at(CORNER, (20, 150))[0])), count=2)
    yield "a double click on its ground goes into it", difference([await ann.tab.value(ENTERED), await ann.tab.value(SELECTED)], [frame, []])
    await cleared(ann, server, frame, beside)


async def in_and_out(ann, server):
    """What is dropped on a frame goes into it, and what is dragged out comes out: one step each."""
    [(frame, one, two), (other, *_)], beside = await frames_on(ann, server, (0, 0, 240, 200, "f4ead5"), (320, 0, 240, 200, None))
    parents = lambda *numbers: [server.records()[number]["parent"] for number in numbers]  # noqa: E731
    steps = await ann.tab.value(STEPS)
    await ann.drag(*at(CORNER, (20, 320), (40, 250), (90, 150)))
    yield "where a shape lies that is dropped on a frame", difference((await boxes(ann, [beside]))[0][:2], at(CORNER, (70, 130))[0])
    yield "it lies in the frame", difference(parents(beside), [frame])
    yield "as one step", difference(await ann.tab.value(STEPS), steps + 1)
    await ann.tab.value(f"app.editor.select({frame})")
    await ann.drag(*at(CORNER, (200, 180), (210, 190), (210, 240)))
    yield "it goes with the frame", difference((await boxes(ann, [beside]))[0][:2], at(CORNER, (80, 190))[0])
    await back(ann, 2)
    yield "one step takes it back", difference([(await boxes(ann, [beside]))[0][:2], *parents(beside)], [at(CORNER, (0, 300))[0], None])
    await ann.tab.value("app.state.select([]), app.state.enter(null)")
    places = [await ann.spot(point) for point in at(CORNER, (50, 60), (100, 150), (160, 320))]
    for kind, (x, y) in zip(("mouseMoved", "mousePressed", "mouseMoved", "mouseMoved"), [places[0], *places]):
        await ann.tab.pointer(kind, x, y, held=kind == "mousePressed" or (x, y) != places[0], clickCount=1)
    await ann.tab.until(f"app.picture.isSettled && app.picture.tree.boxOf({one}).left === {CORNER[0] + 140}")
    yield "it is seen on its way out", None if await ink(ann, (150, 310), 30, 20) == 600 else "no"
    await ann.tab.pointer("mouseReleased", *places[-1], clickCount=1)
    yield "where a shape lies that is dragged out", difference((await boxes(ann, [one]))[0][:2], at(CORNER, (140, 300))[0])
    yield "it lies on the page", difference([*parents(one), await ann.tab.value(SELECTED)], [None, [one]])
    yield "and is seen there", await ann.wrong_pixels()
    shown = (await ann.picture()).getpixel(tuple(round(it) for it in await ann.tab.value(f"app.view.toWindow({at(CORNER, (150, 310))[0]})")))
    yield "in its colour", difference(shown, (0x2f, 0x6f, 0xde))
    await back(ann)
    yield "one step takes that back", difference([(await boxes(ann, [one]))[0][:2], *parents(one)], [at(CORNER, (30, 40))[0], frame])
    await ann.tab.value("app.state.select([]), app.state.enter(null)")
    await ann.drag(*at(CORNER, (50, 60), (200, 100), (400, 150)))
    yield "from frame to frame", difference([(await boxes(ann, [one]))[0][:2], *parents(one)], [at(CORNER, (380, 130))[0], other])
    yield "which is gone into", difference(await ann.tab.value(ENTERED), other)
    await ann.drag(*at(CORNER, (400, 150), (300, 300), (100, 320)), modifiers=ALT)
    copy = await ann.made(one)
    yield "a copy that is dragged out", difference([(await boxes(ann, [copy]))[0][:2], *parents(copy, one)], [at(CORNER, (80, 300))[0], None, other])
    await cleared(ann, server, frame, other, beside, copy)


async def in_groups(ann, server):
    """What lies in a group stays in it; a frame in a frame takes what is dropped on it."""
    [(frame, one, two), (other, *_)], beside = await frames_on(ann, server, (0, 0, 300, 260, "f4ead5"), (400, 0, 100, 100, "c3ccd8"))
    parent = lambda number: server.records()[number]["parent"]  # noqa: E731
    await ann.tab.value(f"app.state.select([{one}, {two}]), app.editor.group()")
    group = await ann.made(two)
    await ann.tab.value(f"app.state.select([{one}])")
    await ann.drag(*at(CORNER, (50, 60), (60, 150), (60, 320)))
    yield "what is dragged in a group stays in it", difference(parent(one), group)
    await back(ann)
    await ann.tab.value(f"app.state.select([{other}]), app.state.enter(null)")
    await ann.drag(*at(CORNER, (490, 90), (300, 200), (240, 240)))
    yield "a frame goes into a frame", difference([(await boxes(ann, [other]))[0][:2], parent(other)], [at(CORNER, (150, 150))[0], frame])
    await ann.tab.value("app.state.select([]), app.state.enter(null)")
    await ann.drag(*at(CORNER, (20, 320), (100, 200), (170, 240)))
    yield "and takes what is dropped on it", difference([(await boxes(ann, [beside]))[0][:2], parent(beside)], [at(CORNER, (150, 220))[0], other])
    yield "the picture of that", await ann.wrong_pixels()
    await cleared(ann, server, frame)


async def drawn_over(ann, server):
    """What is drawn over a frame lies in it, whether it is selected or not."""
    [(frame, *_), (other, *_)], beside = await frames_on(ann, server, (0, 0, 240, 200, "f4ead5"), (320, 0, 240, 200, None))
    made = None
    for place, into in [((20, 120), frame), ((340, 120), other), ((20, 220), None)]:
        await ann.tab.value("app.state.select([]), app.state.enter(null)")
        await ann.press("e")
        (x, y) = place
        await ann.drag(*at(CORNER, (x, y), (x + 20, y + 20), (x + 60, y + 50)))
        made = await ann.made(made)
        yield f"what is drawn at {place}", difference([(await boxes(ann, [made]))[0][:2], server.records()[made]["parent"]], [at(CORNER, place)[0], into])
    await cleared(ann, server, frame, other, beside, made)


async def without_fill(ann, server):
    """A frame without fill has an edge and a name, by which it is taken and moved."""
    [(frame, *_), (other, *_)], beside = await frames_on(ann, server, (0, 0, 240, 200, None), (320, 0, 240, 200, None))
    await ann.tab.value("document.getElementById('frames').style.visibility = ''")
    await ann.tab.value("new Promise((done) => requestAnimationFrame(() => requestAnimationFrame(done)))")
    yield "its edge is seen", None if await ink(ann, (50, -2), 20, 4) >= 20 else "no"
    yield "its name is seen", None if await ink(ann, (0, -20), 60, 18) >= 60 else "no"
    for name, place in [("edge", (70, 0)), ("right edge", (240, 150)), ("name", (12, -10))]:
        await ann.tab.value("app.state.select([]), app.state.enter(null)")
        await ann.click(at(CORNER, place)[0])
        yield f"it is taken by its {name}", difference(await ann.tab.value(SELECTED), [frame])
        [before] = await boxes(ann, [frame])
        x, y = place
        await ann.drag(*at(CORNER, (x, y), (x + 15, y + 10), (x + 30, y + 20)))
        yield f"and moved by its {name}", difference((await boxes(ann, [frame]))[0], [before[0] + 30, before[1] + 20, before[2] + 30, before[3] + 20])
        await back(ann)
    await ann.tab.value("app.state.select([]), app.state.enter(null)")
    await ann.drag(*at(CORNER, (10, 20), (60, 60), (150, 100)))
    yield "a drag in it selects what lies there", difference(len(await ann.tab.value(SELECTED)), 2)
    await ann.tab.value("app.state.select([]), app.state.enter(null)")
    await ann.tab.click(*(await ann.spot(at(CORNER, (12, -10))[0])), count=2)
    yield "a double click on its name asks for another one", difference(await ann.tab.value("document.activeElement.id"), "field-name")
    await ann.tab.value("document.getElementById('stage').focus()")
    await cleared(ann, server, frame, other, beside)


STAGES = (ground, in_and_out, in_groups, drawn_over, without_fill)
