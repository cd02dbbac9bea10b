"""What one draws and changes is seen by another, and lies where the pointer was."""

import asyncio
import json
import statistics
import time

from PIL import ImageChops

from browser import SHIFT
from harness.running import difference, times_as_busy
from stages.desk import BOX, seen


async def first_view(ann, ben, server):
    """Both tabs show the document, its version and its layers."""
    for name, desk in [("Ann", ann), ("Ben", ben)]:
        yield f"the version that {name} sees", difference(await desk.text("version"), "version 0")
        yield f"the picture that {name} sees", await desk.wrong_pixels()
    rows = await ann.tab.value("[...document.querySelectorAll('.row')].map((row) => Number(row.dataset.id))")
    wanted, records = [], server.records()

    def walk(parent):
        children = [record for record in records.values() if record["parent"] == parent]
        for record in sorted(children, key=lambda record: record["index"], reverse=True):
            wanted.append(record["id"])
            walk(record["id"])

    walk(None)
    yield "the order of the layers", difference(rows, wanted[:len(rows)])
    yield "some layers are seen", None if len(rows) > 10 else f"{len(rows)} rows"


SOON = 0.5
"""Seconds within which others see an edit, where the machine has a processor for each of its parts."""


async def seen_soon(ann, ben, rounds=3, edits=10):
    """Ben sees Ann's edits within half a second; where the machine is busy, in one of three rounds."""
    middles = []
    for _ in range(rounds):
        waits = []
        for number in range(edits):
            version = await ann.tab.value(f"app.editor.send({{verb: 'pose', id: 1, pose: {{dx: {number % 3}}}}}).then(({{version}}) => version)")
            begin = time.monotonic()
            await ben.settle(version)
            waits.append(time.monotonic() - begin)
            await asyncio.sleep(0.03 * number)
        middles.append(statistics.median(waits))
        print(f"an edit is seen in another tab after {1000 * middles[-1]:.0f} ms in the middle, {1000 * max(waits):.0f} ms at most")
        if middles[-1] <= SOON:
            break
    yield "edits are seen soon", None if min(middles) <= SOON * times_as_busy() else f"{middles} s"


async def drawn(ann, ben, server):
    """Shapes that Ann draws with the mouse."""
    await ann.press("r")
    before = await ann.selected()
    async for case in seen(ann, ben, "a rectangle", lambda: ann.drag([-120, 40], [-60, 60], [-20, 90])):
        yield case
    rect = await ann.made(before)
    record = server.records()[rect]
    yield "the rectangle", difference([record["shape"], record["pose"], record["parent"]], [
        {"kind": "rect", "w": 100, "h": 50, "fill": "2f6fde"}, {"dx": -120, "dy": 40, "quarter": 0, "flip": False}, None])
    yield "the picture that Ben sees of it", await ben.wrong_pixels()

    await ann.press("e")
    await ann.drag([-90, 130], [-60, 140], [-30, 150], modifiers=SHIFT)
    ellipse = await ann.made(rect)
    yield "an ellipse with equal sides", difference(server.records()[ellipse]["shape"], {"kind": "ellipse", "w": 60, "h": 60, "fill": "2f6fde"})

    await ann.press("p")
    for point in ([-200, 200], [-140, 200], [-140, 260], [-170, 290]):
        await ann.click(point)
    await ann.click([-200, 200])
    polygon = await ann.made(ellipse)
    yield "a polygon", difference(server.records()[polygon]["shape"]["points"], [[0, 0], [60, 0], [60, 60], [30, 90]])

    await ann.press("f")
    await ann.drag([300, 20], [350, 100], [420, 160])
    frame = await ann.made(polygon)
    await ann.press("r")
    await ann.drag([400, 120], [450, 200])
    inner = await ann.made(frame)
    record = server.records()[inner]
    yield "a rectangle in a frame", difference([record["parent"], record["pose"]["dx"], record["pose"]["dy"]], [frame, 100, 100])
    for name, desk in [("Ann", ann), ("Ben", ben)]:
        await desk.settle(5)
        yield f"the picture that {name} sees of all", await desk.wrong_pixels()


async def changed(ann, ben, server):
    """A shape that is moved, coloured, turned, reordered, hidden and deleted."""
    await ann.press("v")
    await ann.click([-100, 60])
    rect = await ann.selected()
    yield "the rectangle is selected", difference(server.records()[rect]["shape"]["kind"], "rect")
    yield "and named", difference(await ann.text("shape-head"), f"Rectangle {rect}")

    await ann.press("m")
    async for case in seen(ann, ben, "a move", lambda: ann.drag([-100, 60], [-80, 70], [-10, 130])):
        yield case
    record = server.records()[rect]
    yield "where it is", difference([record["pose"]["dx"], record["pose"]["dy"]], [-30, 110])
    yield "the picture of the move", await ben.wrong_pixels()

    async def act(name, selector):
        """Clicks a button, and waits until its edit is seen."""
        x, y, w, h = await ann.tab.box_of(selector)
        async for case in seen(ann, ben, name, lambda: ann.tab.click(x + w / 2, y + h / 2)):
            yield case

    async def again():
        await ann.press("v")
        await ann.tab.value(f"app.editor.select({rect})")

    await again()
    steps = [
        ("a colour", '[data-fill="d9412f"]', lambda: server.records()[rect]["shape"]["fill"], "d9412f"),
        ("to the back", '[data-act="back"]', lambda: server.order()[-1], rect),
        ("to the front", '[data-act="front"]', lambda: server.order()[0], rect),
        ("a turn", '[data-act="turn"]', lambda: server.records()[rect]["pose"], {"dx": 45, "dy": 85, "quarter": 1, "flip": False}),
        ("a flip", '[data-act="flip"]', lambda: server.records()[rect]["pose"]["flip"], True),
        ("hidden", '[data-act="hide"]', lambda: server.records()[rect]["hidden"], True),
        ("shown", '[data-act="hide"]', lambda: server.records()[rect]["hidden"], False),
        ("deleted", '[data-act="delete"]', lambda: rect in server.records(), False),
    ]
    for name, selector, found, wanted in steps:
        async for case in act(name, selector):
            yield case
        yield name, difference(found(), wanted)
        yield f"{name}: the picture that Ben sees", await ben.wrong_pixels()
        if name != "deleted":
            await again()
    yield "nothing is selected", difference(await ann.text("shape-head"), "Nothing is selected")


FIRST, SECOND = ([420, 240], [460, 290]), ([425, 180], [470, 220])
"""Two boxes of the page, inside the turned frame; the second one begins inside its group."""


async def in_turned_frame(ann, server):
    """Drawing in a frame that is turned and flipped, and in a group inside it: on the page all goes where the pointer is."""
    with server.connect() as canvas:
        pose = {"dx": 500, "dy": 300, "quarter": 1, "flip": True}
        frame = canvas.ask(verb="create", shape={"kind": "frame", "w": 200, "h": 100, "fill": "eeeeee"}, pose=pose)[0]["id"]
        group = canvas.ask(verb="create", shape={"kind": "group"}, pose={"dx": 7, "quarter": 3}, parent=frame)[0]["id"]
        inner = {"shape": {"kind": "rect", "w": 30, "h": 20, "fill": "00aa00"}, "pose": {"dx": -60, "dy": 100, "flip": True}}
        made, _ = canvas.ask(verb="create", parent=group, **inner)
    await ann.look_at(0, (400, 200))
    await ann.settle(made["version"])
    for kind, key, parent, (begin, end) in [("rectangle", "r", frame, FIRST), ("polygon", "p", group, SECOND)]:
        await ann.tab.value(f"app.editor.select({parent}), app.editor.fill = '0000ff'")
        await ann.press(key)
        if kind == "rectangle":
            await ann.drag(begin, end)
        else:
            for point in (begin, [end[0], begin[1]], end, [begin[0], end[1]], begin):
                await ann.click(point)
        number = await ann.made(parent)
        yield f"the parent of a {kind} there", difference(server.records()[number]["parent"], parent)
        yield f"the box of a {kind} there", difference(await ann.tab.value(BOX % number), [*begin, *end])
        pixels = [server.ask(verb="point", x=x, y=y)[0]["colour"] for x, y in [begin, (end[0] - 1, end[1] - 1)]]
        yield f"the pixels of a {kind} there", difference(pixels, ["0000ff"] * 2)
        yield f"the picture of a {kind} there", await ann.wrong_pixels()
        async for case in carried(ann, server, kind, number):
            yield case
    gone, _ = server.ask(verb="delete", id=frame)
    await ann.settle(gone["version"])
    yield "nothing of the frame is there", difference({frame, group} & set(server.records()), set())


async def carried(ann, server, kind, number):
    """A shape that is taken out, put in again, put into a group, and then moved."""
    parent = server.records()[number]["parent"]
    outer = server.records()[parent]["parent"]
    before = await ann.picture()
    for key, wanted in [("o", outer), ("i", parent), ("g", None)]:
        await ann.tab.value(f"app.editor.select({number})")
        version = server.ask(verb="point", x=0, y=0)[0]["version"]
        await ann.press(key)
        await ann.settle(version + 2)
        found = server.records()[number]["parent"]
        if key == "g":
            yield f"a {kind} in a group", difference(server.records()[found]["parent"], parent)
        else:
            yield f"key {key}: the parent of a {kind}", difference(found, wanted)
        yield f"key {key}: a {kind} stays where it is", difference(ImageChops.difference(before, await ann.picture()).getbbox(), None)
    left, top, *_ = await ann.tab.value(BOX % number)
    await ann.press("m")
    await ann.drag([left + 5, top + 5], [left + 8, top + 1])
    await ann.tab.until(f"app.picture.tree.boxOf({number}).left === {left + 3} && app.picture.tree.boxOf({number}).top === {top - 4}")
    yield f"the picture of a {kind} that was moved there", await ann.wrong_pixels()


def other_format(saved):
    """A saved document in the other format: with or without a place in each record."""
    def turned(record):
        rest = {name: value for name, value in record.items() if name not in ("place", "parent", "index")}
        if "place" in record:
            return {**rest, **record["place"]}
        return {**rest, "place": {"index": record["index"], "parent": record["parent"]}}
    return {**saved, "format": 3 - saved["format"], "shapes": [turned(record) for record in saved["shapes"]]}


async def both_formats(ann, server):
    """The page reads the same tree of either format of saved documents."""
    saved = json.loads(server.ask(verb="export")[1])
    rows = "new Tree(%s, 0).rows(new Set()).map(({record, depth}) => [record.id, record.parent, depth])"
    script = f"import('/page/tree.js').then(({{Tree}}) => [{rows % json.dumps(saved)}, {rows % json.dumps(other_format(saved))}])"
    one, other = await ann.tab.value(script)
    yield "both formats", difference(one, other)
    yield "all records of both", difference(len(other), len(saved["shapes"]))


STAGES = (first_view, drawn, changed, seen_soon, in_turned_frame, both_formats)
