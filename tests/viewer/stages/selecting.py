"""Selecting, moving, copying, resizing, points, and aligning."""

from browser import ALT, CONTROL, SHIFT
from harness.running import difference
from stages.desk import at, back, boxes, sheet


async def selected_and_moved(ann, server):
    """Select: what one click takes, how several are selected, and how they are moved and copied."""
    group, (one, two, three), corner = await sheet(ann, server, (0, 0, 60, 40), (100, 0, 60, 40), (200, 0, 60, 40))
    ids = "app.state.selection"
    await ann.tab.value("app.state.enter(null)")
    [spot] = at(corner, (20, 20))
    await ann.click(spot)
    yield "one click takes the outermost group", difference(await ann.tab.value(ids), [group])
    await ann.tab.click(*(await ann.spot(spot)), count=2)
    yield "a double click goes into it", difference(await ann.tab.value(ids), [one])
    await ann.press("Escape")
    yield "Esc goes out of it", difference(await ann.tab.value(ids), [group])
    await ann.tab.drag([await ann.spot(spot)], CONTROL)
    yield "Ctrl and a click take what is under the pointer", difference(await ann.tab.value(ids), [one])
    await ann.tab.value(f"app.state.select([]), app.state.enter({group})")
    await ann.drag(*at(corner, (20, 20), (25, 24), (30, 50)))
    yield "Select moves what it drags", difference((await boxes(ann, [one]))[0][:2], at(corner, (10, 30))[0])
    await ann.drag(*at(corner, (120, 20)), modifiers=SHIFT)
    yield "Shift and a click select one more", difference(await ann.tab.value(ids), [one, two])
    await ann.drag(*at(corner, (120, 20)), modifiers=SHIFT)
    yield "and leave it again", difference(await ann.tab.value(ids), [one])
    await ann.tab.value(f"app.state.select([]), app.state.enter({group})")
    await ann.drag(*at(corner, (80, 5), (140, 20), (230, 30)))
    yield "a marquee selects what it meets", difference(sorted(await ann.tab.value(ids)), [two, three])
    await ann.drag(*at(corner, (230, 20), (231, 25), (230, 60)))
    yield "several are moved together", difference([box[:2] for box in await boxes(ann, [two, three])], at(corner, (100, 40), (200, 40)))
    await back(ann)
    yield "and taken back together", difference([box[:2] for box in await boxes(ann, [two, three])], at(corner, (100, 0), (200, 0)))
    async for case in copied(ann, server, group, corner, three):
        yield case


async def copied(ann, server, group, corner, three):
    """Copies by Alt, by keys and by the clipboard."""
    async def count():
        await boxes(ann, [])
        return len(server.order(group))

    before = await count()
    await ann.tab.value(f"app.editor.select({three})")
    await ann.drag(*at(corner, (230, 20), (231, 25), (230, 120)), modifiers=ALT)
    yield "Alt and a drag copy", difference([await count(), (await boxes(ann, [await ann.selected()]))[0][:2]], [before + 1, at(corner, (200, 100))[0]])
    await ann.press("d", modifiers=CONTROL)
    yield "Ctrl+D copies beside", difference([await count(), (await boxes(ann, [await ann.selected()]))[0][:2]], [before + 2, at(corner, (216, 116))[0]])
    await ann.tab.key("c", CONTROL, commands=["copy"])
    await ann.tab.key("v", CONTROL, commands=["paste"])
    yield "Ctrl+C and Ctrl+V", difference([await count(), (await boxes(ann, [await ann.selected()]))[0][:2]], [before + 3, at(corner, (232, 132))[0]])
    await ann.tab.key("x", CONTROL, commands=["cut"])
    yield "Ctrl+X cuts", difference(await count(), before + 2)
    await ann.tab.key("v", CONTROL, commands=["paste"])
    await count()
    yield "what was cut is pasted where it was", difference((await boxes(ann, [await ann.selected()]))[0][:2], at(corner, (232, 132))[0])
    await ann.tab.value(f"app.state.select([]), app.state.enter({group})")
    await ann.press("a", modifiers=CONTROL)
    yield "Ctrl+A selects all that is in reach", difference(len(await ann.tab.value("app.state.selection")), before + 3)
    yield "and no text of the page", difference(await ann.tab.value("String(getSelection())"), "")
    await ann.press("Delete")
    yield "all are deleted", difference(await count(), 0)
    await back(ann)
    yield "and made anew", difference(len(server.order(await ann.tab.value(f"app.state.history.resolve({group})"))), before + 3)


async def resized(ann, server):
    """The eight handles, Shift, frames, turned shapes, groups, the fields, and the points of polygons."""
    group, (one, two), corner = await sheet(ann, server, (0, 0, 80, 40), (200, 0, 80, 40))
    wanted = {(80, 40): [0, 0, 90, 60], (0, 0): [-10, -20, 80, 40], (80, 20): [0, 0, 90, 40], (40, 0): [0, -20, 80, 40]}
    for (x, y), (left, top, right, bottom) in wanted.items():
        await ann.tab.value(f"app.editor.select({one})")
        by = (10 if x == 80 else -10, 20 if y == 40 else -20)
        await ann.drag(*at(corner, (x, y), (x, y + 9), (x + by[0], y + by[1])))
        yield f"the handle at {x}, {y}", difference((await boxes(ann, [one]))[0], sum(at(corner, (left, top), (right, bottom)), []))
        yield f"the picture of that at {x}, {y}", await ann.wrong_pixels()
        await back(ann)
    await ann.tab.value(f"app.editor.select({one})")
    await ann.drag(*at(corner, (80, 40), (90, 50), (120, 45)), modifiers=SHIFT)
    yield "Shift keeps the ratio", difference((await boxes(ann, [one]))[0], sum(at(corner, (0, 0), (120, 60)), []))
    await ann.tab.value(f"(async () => {{ app.state.select([{one}, {two}]); await app.editor.fitTo({{left: {corner[0]}, top: {corner[1]}, "
                        f"right: {corner[0] + 560}, bottom: {corner[1] + 120}}}); }})()")
    yield "several are resized together", difference(await boxes(ann, [one, two]), [sum(at(corner, *it), []) for it in
                                                                                 [((0, 0), (240, 120)), ((400, 0), (560, 80))]])
    await ann.drag(*at(corner, (560, 120), (570, 121), (557, 117)))
    yield "that edges fall on no whole pixel is told", None if "the nearest one" in await ann.text("note") else await ann.text("note")
    await back(ann)
    for k, (name, value, wanted) in enumerate([("x", -10, (-10, 0, 230, 120)), ("y", 30, (-10, 30, 230, 150)), ("w", 55, (-10, 30, 45, 150)), ("h", 66, (-10, 30, 45, 96))]):
        await ann.tab.value(f"app.editor.select({one}), document.getElementById('field-{name}').focus()")
        shown = value if k > 1 else value + corner[k]
        await ann.tab.value(f"document.activeElement.value = '{shown}', document.activeElement.dispatchEvent(new Event('change'))")
        yield f"the field {name}", difference((await boxes(ann, [one]))[0], sum(at(corner, wanted[:2], wanted[2:]), []))
    await ann.tab.value("document.activeElement.value = '0', document.activeElement.dispatchEvent(new Event('change'))")
    yield "a side of none is told", None if "1 to 65,536" in await ann.text("refusal") else await ann.text("refusal")
    async for case in frames_and_points(ann, server, group, corner):
        yield case


async def frames_and_points(ann, server, group, corner):
    """A turned and flipped frame whose children stay; and the points of a polygon."""
    with server.connect() as canvas:
        frame, _ = canvas.ask(verb="create", shape={"kind": "frame", "w": 100, "h": 60, "fill": "ffddcc"}, parent=group,
                              pose={"dx": 300, "dy": 300, "quarter": 1, "flip": True})
        child, _ = canvas.ask(verb="create", shape={"kind": "rect", "w": 20, "h": 10, "fill": "aa0000"}, parent=frame["id"], pose={"dx": 30, "dy": 20})
        polygon, _ = canvas.ask(verb="create", shape={"kind": "polygon", "points": [[0, 0], [60, 0], [60, 60], [0, 60]], "fill": "00aa77"}, parent=group,
                                pose={"dx": 20, "dy": 200, "quarter": 1})
    await ann.settle(polygon["version"])
    left, top, right, bottom = (await boxes(ann, [frame["id"]]))[0]
    [before] = await boxes(ann, [child["id"]])
    await ann.tab.value(f"app.editor.select({frame['id']})")
    await ann.drag([left, top], [left - 9, top], [left - 30, top - 40])
    yield "a turned frame's box", difference((await boxes(ann, [frame["id"]]))[0], [left - 30, top - 40, right, bottom])
    yield "a frame's children stay", difference((await boxes(ann, [child["id"]]))[0], before)
    yield "the picture of the frame", await ann.wrong_pixels()
    await back(ann)
    yield "it is taken back with them", difference(await boxes(ann, [frame["id"], child["id"]]), [[left, top, right, bottom], before])

    number = polygon["id"]
    left, top, right, bottom = (await boxes(ann, [number]))[0]
    middle = [(left + right) // 2, (top + bottom) // 2]
    await ann.tab.value(f"app.editor.select({number})")
    await ann.drag([right, bottom], [right + 5, bottom], [right + 20, bottom + 40])
    yield "a polygon is resized", difference((await boxes(ann, [number]))[0], [left, top, right + 20, bottom + 40])
    await back(ann)
    await ann.tab.value(f"app.state.enter({group}), app.editor.select({number})")
    await ann.tab.click(*(await ann.spot(middle)), count=2)
    await ann.drag([right, bottom], [right + 5, bottom], [right + 12, bottom + 14])
    yield "a point is dragged", difference((await boxes(ann, [number]))[0], [left, top, right + 12, bottom + 14])
    await ann.drag([middle[0], top], [middle[0], top - 8], [middle[0], top - 20])
    [[_, upper, *_]] = await boxes(ann, [number])
    yield "a point is added", difference([len(server.records()[number]["shape"]["points"]), upper], [5, top - 20])
    yield "the picture of the polygon", await ann.wrong_pixels()
    await ann.tab.value(f"app.state.enter({group}), app.editor.select({number}), app.tool.editPoints()")
    await ann.tab.drag([await ann.spot([middle[0], top - 20])], ALT)
    [[_, upper, *_]] = await boxes(ann, [number])
    yield "a point is taken out", difference([len(server.records()[number]["shape"]["points"]), upper], [4, top])
    await ann.press("Escape")


async def aligned(ann, server):
    """Shapes are aligned and distributed."""
    _, numbers, corner = await sheet(ann, server, (0, 0, 60, 40), (90, 30, 30, 40), (200, 60, 60, 80))
    await ann.tab.value(f"app.state.select({numbers})")
    for selector, wanted in [("top", [(0, 0), (90, 0), (200, 0)]), ("across", [(0, 0), (115, 0), (200, 0)]), ("right", [(200, 0), (230, 0), (200, 0)]),
                             ("down", [(200, 0), (230, 40), (200, 80)])]:
        if selector == "down":
            await ann.tab.value("app.editor.state.select([%s]), app.editor.moveBy([0, 80])" % numbers[2])
            await ann.tab.value(f"app.state.select({numbers})")
        x, y, w, h = await ann.tab.box_of(f"#arrange [data-act={selector}]")
        await ann.tab.click(x + w / 2, y + h / 2)
        yield f"{selector}", difference([box[:2] for box in await boxes(ann, numbers)], at(corner, *wanted))
        if selector == "across":
            await back(ann)
            await ann.tab.value(f"app.state.select({numbers})")


async def worked_in(ann, server):
    """Work inside a frame: what is drawn there, its colours, a marquee on it, and shapes too small for handles."""
    group, _, corner = await sheet(ann, server)
    await ann.press("f")
    await ann.drag(*at(corner, (0, 0), (100, 100), (320, 240)))
    frame = await ann.made(group)
    numbers = []
    for key, colour, left in [("r", "d9412f", 40), ("r", "1e8a5a", 120), ("e", "f6c13c", 200)]:
        await ann.press(key)
        x, y, w, h = await ann.tab.box_of(f"[data-fill='{colour}']")
        await ann.tab.click(x + w / 2, y + h / 2)
        await ann.tab.value("document.getElementById('stage').focus()")
        await ann.drag(*at(corner, (left, 60), (left + 20, 80), (left + 60, 120)))
        numbers.append(await ann.made((numbers or [frame])[-1]))
    records = server.records()
    yield "all go into the frame", difference([records[number]["parent"] for number in numbers], [frame] * 3)
    yield "a colour that is picked while one draws is for what is drawn", difference([records[number]["shape"]["fill"] for number in [frame, *numbers]][1:],
                                                                                     ["d9412f", "1e8a5a", "f6c13c"])
    await ann.click(at(corner, (60, 90))[0])
    yield "a click selects one beside", difference(await ann.tab.value("app.state.selection"), numbers[:1])
    await ann.drag(*at(corner, (20, 30), (60, 100), (150, 130)))
    yield "a marquee on the frame selects in it", difference(sorted(await ann.tab.value("app.state.selection")), numbers[:2])
    yield "and leaves it where it is", difference((await boxes(ann, [frame]))[0], sum(at(corner, (0, 0), (320, 240)), []))
    await ann.press("Escape")
    yield "Esc goes out to the frame", difference(await ann.tab.value("app.state.selection"), [frame])
    with server.connect() as canvas:
        tiny, _ = canvas.ask(verb="create", shape={"kind": "rect", "w": 6, "h": 6, "fill": "000000"}, parent=group, pose={"dx": 400, "dy": 60})
    await ann.settle(tiny["version"])
    await ann.tab.value(f"app.state.enter({group}), app.editor.select({tiny['id']})")
    await ann.drag(*at(corner, (402, 62), (410, 70), (422, 92)))
    yield "a small shape is moved by a press in it", difference((await boxes(ann, [tiny["id"]]))[0], sum(at(corner, (420, 90), (426, 96)), []))
    await ann.drag(*at(corner, (431, 101), (435, 105), (451, 111)))
    yield "and resized by the handle beside it", difference((await boxes(ann, [tiny["id"]]))[0], sum(at(corner, (420, 90), (446, 106)), []))
    yield "the picture of that", await ann.wrong_pixels()


STAGES = (selected_and_moved, resized, aligned, worked_in)
