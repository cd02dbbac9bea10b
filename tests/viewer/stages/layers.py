"""The layers panel."""

import asyncio
import json

from browser import ALT, CONTROL
from harness.running import difference
from stages.desk import back, boxes, sheet


async def layers(ann, server):
    """The layers panel by the mouse: a row that is pressed while others edit, its eye, and what it holds."""
    await ann.tab.value("document.getElementById('layers').scrollTop = 0, app.editor.select(null)")
    front = server.order()[0]
    x, y, w, h = await ann.tab.box_of(f"#layer-{front} .name")
    await ann.tab.pointer("mouseMoved", x + 9, y + 9, held=False)
    await ann.tab.pointer("mousePressed", x + 9, y + 9, clickCount=1)
    changed, _ = server.ask(verb="respace", parent=None)
    await ann.settle(changed["version"])
    await ann.tab.pointer("mouseReleased", x + 9, y + 9, clickCount=1)
    yield "a row that is pressed while others edit", difference(await ann.selected(), front)
    for is_hidden in (True, False):
        x, y, w, h = await ann.tab.box_of(f"#layer-{front} .eye")
        await ann.tab.click(x + w / 2, y + h / 2)
        await ann.tab.until(f"app.picture.tree.record({front}).hidden === {json.dumps(is_hidden)}")
        yield f"its eye, hidden is {is_hidden}", difference(server.records()[front]["hidden"], is_hidden)
    poster = next(number for number, record in server.records().items() if record["shape"]["kind"] == "frame" and server.order(number))
    count = "app.picture.tree.rows(new Set()).length, parseInt(document.getElementById('rows').style.height)"
    all_rows = await ann.tab.value(count)
    await ann.tab.value(f"app.editor.select({poster}), document.getElementById('layers').focus()")
    await ann.press("ArrowLeft")
    yield "a container is closed", None if await ann.tab.value(count) < all_rows else "it shows as many rows"
    await ann.press("ArrowRight")
    yield "and open again", difference(await ann.tab.value(count), all_rows)


ROW = "(({left, top, width, height}) => [left, top, width, height])(document.getElementById('layer-%d').getBoundingClientRect())"
MARK = "(({hidden, className}) => hidden ? null : className)(document.getElementById('drop'))"


class Rows:
    """Rows of the layers by the mouse. Heights are told in rows, from the middle of one."""

    def __init__(self, ann, server):
        self.ann, self.server = ann, server

    async def spot(self, number, part=0.5, across=90):
        """A place in the row of a shape, `part` of its height below its upper edge."""
        await self.ann.tab.until(f"!!document.getElementById('layer-{number}')")
        left, top, _, height = await self.ann.tab.value(ROW % number)
        return left + across, top + part * height

    async def begin(self, number, *places):
        """Presses a row, and goes to places."""
        tab, (x, y) = self.ann.tab, await self.spot(number)
        await tab.pointer("mouseMoved", x, y, held=False)
        await tab.pointer("mousePressed", x, y, clickCount=1)
        for x, y in places:
            await tab.pointer("mouseMoved", x, y)
        self.last = (x, y)

    async def end(self):
        await self.ann.tab.pointer("mouseReleased", *self.last, clickCount=1)
        await boxes(self.ann, [])

    async def drag(self, number, onto, part, across=90):
        """Drags a row to a place in another one; gives what the line looks like there."""
        x, y = await self.spot(onto, part, across)
        await self.begin(number, (x - 4, y + 7), (x, y))
        mark = await self.ann.tab.value(MARK)
        await self.end()
        return mark


async def ordered(ann, server):
    """Rows are dragged before, behind and into others."""
    group, (one, two, three), _ = await sheet(ann, server, (0, 0, 60, 40), (100, 0, 60, 40), (200, 0, 60, 40))
    rows, before = Rows(ann, server), await boxes(ann, [one, two, three])
    picture = await ann.picture()
    await ann.tab.value(f"app.editor.select({three})")
    yield "the order at first", difference(server.order(group), [three, two, one])
    yield "a line in front of a row", difference(await rows.drag(one, three, 0.2), "")
    yield "in front of a row", difference(server.order(group), [one, three, two])
    await rows.drag(one, two, 0.8)
    yield "behind a row", difference(server.order(group), [three, two, one])
    with server.connect() as canvas:
        inner, _ = canvas.ask(verb="create", shape={"kind": "frame", "w": 30, "h": 30}, pose={"dx": 40, "dy": 90, "quarter": 1, "flip": True}, parent=group)
    await ann.settle(inner["version"])
    inner = inner["id"]
    await ann.tab.value(f"app.editor.select({three})")
    yield "a frame is marked", difference(await rows.drag(two, inner, 0.5), "into")
    yield "into a frame", difference([server.order(group), server.order(inner)], [[inner, three, one], [two]])
    yield "it stays where it is", difference(await boxes(ann, [one, two, three]), before)
    await rows.drag(three, two, 0.8)
    yield "behind the last one of a frame", difference(server.order(inner), [two, three])
    await rows.drag(three, two, 0.2)
    yield "before the first one of a frame", difference(server.order(inner), [three, two])
    await rows.drag(three, two, 0.9, across=12)
    yield "below a frame, by the indentation", difference([server.order(group), server.order(inner)], [[inner, three, one], [two]])
    await back(ann)
    yield "it is taken back", difference([server.order(group), server.order(inner)], [[inner, one], [three, two]])
    yield "nothing goes into itself", difference(await rows.drag(inner, two, 0.3), None)
    async for case in several_and_given_up(ann, server, rows, group, inner, (one, two, three)):
        yield case
    await back(ann, 9)
    await ann.tab.value("app.stage.isTouched = false")
    gone, _ = server.ask(verb="delete", id=inner)
    await ann.settle(gone["version"])
    yield "the picture is as before", difference((await ann.picture()).tobytes() == picture.tobytes(), True)


async def several_and_given_up(ann, server, rows, group, inner, numbers):
    """Several rows at once; Esc; a row that others delete meanwhile."""
    one, two, three = numbers
    await ann.tab.value(f"app.state.select([{two}, {three}])")
    await rows.drag(two, one, 0.8)
    yield "several keep their order", difference(server.order(group), [inner, one, three, two])
    await back(ann)
    yield "as one step", difference([server.order(group), server.order(inner)], [[inner, one], [three, two]])
    await rows.begin(two, await rows.spot(one, 0.7), await rows.spot(one, 0.8))
    shown = await ann.tab.value(MARK)
    await ann.press("Escape")
    hidden = await ann.tab.value(MARK)
    await rows.end()
    yield "Esc gives it up", difference([shown, hidden, server.order(inner)], ["", None, [three, two]])
    await ann.tab.value(f"app.editor.select({one}), document.getElementById('layers').focus()")
    found = []
    for key, modifiers in [("ArrowUp", ALT), ("ArrowRight", ALT), ("ArrowLeft", ALT), ("ArrowDown", ALT), ("]", CONTROL), ("[", CONTROL)]:
        await ann.press(key, modifiers=modifiers)
        await boxes(ann, [])
        found.append([server.order(group), server.order(inner)])
    x, y = await rows.spot(inner)
    await ann.tab.touch("touchStart", (x, y))
    await asyncio.sleep(0.6)
    for part in (0.6, 0.75, 0.9):
        await ann.tab.touch("touchMove", await rows.spot(one, part))
    await ann.tab.touch("touchEnd")
    await boxes(ann, [])
    yield "a finger that rests on a row drags it", difference(server.order(group), [one, inner])
    await back(ann)
    front, behind, inside = [[one, inner], [three, two]], [[inner, one], [three, two]], [[inner], [one, three, two]]
    yield "Alt and the arrows, and Ctrl and brackets, carry a row", difference(found, [front, inside, front, behind, front, behind])


async def searched(ann, server):
    """The search in the layers, and names."""
    _, (one, two, three), _ = await sheet(ann, server, (0, 0, 60, 40), (100, 0, 60, 40), (200, 0, 60, 40))
    await ann.tab.value(f"app.editor.select({one})")
    shown = "[...document.querySelectorAll('.row')].map((row) => Number(row.dataset.id))"
    await ann.tab.value("document.getElementById('layers').focus()")
    await ann.press("F2", *"far moon", "Enter")
    yield "a name is given", difference([await ann.text("shape-head"), await ann.tab.value(f"document.querySelector('#layer-{one} .name').textContent")], ["far moon"] * 2)
    yield "the layers have the focus again", difference(await ann.tab.value("document.activeElement.id"), "layers")
    yield "the document has no names", difference("moon" in json.dumps(server.records()), False)
    await ann.press("/", *"moon")
    yield "it is found by its name", difference([await ann.tab.value(shown), (await ann.text("count")).split(" of ")[0]], [[one], "1"])
    await ann.press("Escape")
    yield "Esc shows all again", difference([await ann.tab.value("document.getElementById('search').value"), await ann.text("count")], ["", str(len(server.records()))])
    await ann.press("/", *f"rect {two}", "Enter")
    yield "Enter selects the first one", difference([await ann.tab.value("app.state.selection"), await ann.tab.value("document.activeElement.id")], [[two], "layers"])
    await ann.tab.value(f"app.editor.select({three}), document.getElementById('search').focus()")
    await ann.tab.value("document.getElementById('search').value = '', document.getElementById('search').dispatchEvent(new Event('input'))")
    wanted = [number for number, record in server.records().items() if (record["shape"].get("fill") or "").startswith("ffd98a")]
    await ann.press(*"#ffd98a", "ArrowDown")
    yield "colours are found", difference(sorted(await ann.tab.value("app.layers.rows.map(({record}) => record.id)")), sorted(wanted))
    await ann.press("/", "Escape")
    await ann.tab.value(f"app.editor.select({one})")
    await ann.press("Delete")
    await back(ann)
    anew = await ann.tab.value(f"app.state.history.resolve({one})")
    await ann.tab.value(f"app.editor.select({anew})")
    yield "what is made anew has its name", difference([anew != one, await ann.text("shape-head")], [True, "far moon"])
    x, y = await Rows(ann, server).spot(anew, across=120)
    await ann.tab.click(x, y, count=2)
    await ann.press("Delete", "Enter")
    yield "a name is taken away", difference(await ann.text("shape-head"), f"Rectangle {anew}")
    await ann.press("Escape", "Escape")


STAGES = (layers, ordered, searched)
