"""Taking back, beside canvasd: after two have dragged one shape, after a reload, after a new start of the gateway, and after the end of a generation."""

import asyncio
import contextlib
import tempfile

from harness.running import difference
from stages.desk import back
from stages.live import House, another_edit

STEPS = "app.state.history.length"
PLACE = (2000, 2000)


async def a_rectangle(house):
    """A rectangle beside all else; gives its number."""
    with house.server.connect() as canvas:
        return canvas.create({"kind": "rect", "w": 60, "h": 40, "fill": "1f5fd0"}, pose={"dx": PLACE[0], "dy": PLACE[1]})["id"]


def place(house, number):
    pose = house.server.records()[number]["pose"]
    return [pose["dx"] - PLACE[0], pose["dy"] - PLACE[1]]


async def both_drag(ann, ben, ways):
    """Both press on the rectangle, drag it at the same time, each by its own way, and let go."""
    starts = [await desk.spot([PLACE[0] + 30, PLACE[1] + 20]) for desk in (ann, ben)]
    for desk, (x, y) in zip((ann, ben), starts):
        await desk.tab.pointer("mouseMoved", x, y, held=False)
        await desk.tab.pointer("mousePressed", x, y, clickCount=1)
    for step in range(1, 13):
        await asyncio.gather(*(desk.tab.pointer("mouseMoved", x + across * step // 12, y + down * step // 12)
                               for desk, (x, y), (across, down) in zip((ann, ben), starts, ways)))
        await asyncio.sleep(0.03)
    await asyncio.gather(*(desk.tab.pointer("mouseReleased", x + across, y + down, clickCount=1)
                           for desk, (x, y), (across, down) in zip((ann, ben), starts, ways)))
    for desk in (ann, ben):
        await desk.tab.until("!app.editor.isMaking")
        await desk.tab.value("app.editor.inTurn(() => null)")


async def two_drags(browser):
    """Ann drags a shape across, and Ben the same one down, at the same time: it goes both ways, and what each takes back is their own way."""
    with tempfile.TemporaryDirectory() as folder:
        async with House(folder) as house:
            ann, ben = [await house.open(browser) for _ in range(2)]
            number = await a_rectangle(house)
            for desk in (ann, ben):
                await desk.look_at(0, PLACE)
                await desk.settle(house.version)
            await both_drag(ann, ben, [(100, 0), (0, 120)])
            yield "it goes both ways", difference(place(house, number), [100, 120])
            for desk in (ann, ben):
                await desk.settle(house.version)
            await back(ann)
            yield "Ann takes back her way", difference(place(house, number), [0, 120])
            await ben.settle(house.version)
            await back(ben)
            yield "and Ben takes back his", difference(place(house, number), [0, 0])
            for desk in (ann, ben):
                await desk.settle(house.version)
            await both_drag(ann, ben, [(90, 60), (-40, 80)])
            for desk in (ann, ben, ann, ben):
                await desk.settle(house.version)
                await back(desk)
            yield "after both have dragged it everywhere, and have taken back all", difference(place(house, number), [0, 0])
            for name, desk in [("Ann", ann), ("Ben", ben)]:
                yield f"the console of {name}", difference(desk.tab.faults, [])
                await desk.tab.close()


async def reload(desk):
    """Loads the page anew, and waits until it knows its steps."""
    await desk.tab.value("window.isOld = true")
    await desk.tab.command("Page.reload")
    await desk.tab.until("!window.isOld && window.app?.picture.isSettled && app.state.history.length > 0")


async def outlives(browser):
    """Steps outlive a reload and a new start of the gateway, with what others did meanwhile."""
    with tempfile.TemporaryDirectory() as folder:
        async with House(folder) as house:
            ann = await house.open(browser)
            number = await a_rectangle(house)
            await ann.settle(house.version)
            await ann.look_at(0, PLACE)
            await ann.tab.value(f"(async () => {{ app.editor.select({number}); await app.editor.moveBy([50, 0]); await app.editor.setFill('aa0000'); }})()")
            await reload(ann)
            yield "a reload", difference(await ann.tab.value(STEPS), 2)
            await back(ann)
            yield "the last step is taken back after it", difference(house.server.records()[number]["shape"]["fill"], "1f5fd0")
            house.counter.verbs.clear()
            await house.another_gateway()
            await ann.tab.until("document.getElementById('away').hidden && app.link.isHere")
            another_edit(house.server)
            await ann.settle(house.version)
            yield "another gateway", difference([await ann.tab.value(STEPS), house.counter.verbs["export"]], [1, 0])
            await reload(ann)
            await house.another_gateway()
            await ann.tab.until("document.getElementById('away').hidden && app.link.isHere")
            await ann.settle(house.version)
            await back(ann)
            yield "the first step is taken back after all this", difference([place(house, number), await ann.tab.value(STEPS)], [[0, 0], 0])
            yield "what was taken back can be made again", difference(await ann.tab.value("app.state.history.redoName"), "move")
            yield "the picture of it", await ann.wrong_pixels()
            yield "its console", difference([it for it in ann.tab.faults if "WebSocket" not in it], [])
            await ann.tab.value("sessionStorage.clear()")
            await ann.tab.close()


async def generation_ends(browser, limit=30):
    """At the end of a generation the page says so, and steps can be taken back after it."""
    with tempfile.TemporaryDirectory() as folder:
        async with House(folder, "--limit", str(limit)) as house:
            ann = await house.open(browser)
            number = await a_rectangle(house)
            await ann.settle(house.version)
            await ann.look_at(0, PLACE)
            await ann.tab.value(f"(async () => {{ app.editor.select({number}); await app.editor.moveBy([50, 0]); await app.editor.setFill('aa0000'); }})()")
            for _ in range(limit + 1 - house.version):
                with contextlib.suppress(EOFError, OSError):  # (the end of the generation ends all sessions)
                    another_edit(house.server)
            await ann.tab.until("app.link.isHere && document.getElementById('away').hidden && app.picture.isSettled && app.journal.end < 20", 60)
            said = await ann.text("note")
            yield "the page says that a generation has ended", None if "counts its edits anew" in said else said
            yield "its steps are there", difference(await ann.tab.value(STEPS), 2)
            await back(ann, 2)
            record = house.server.records()[number]
            yield "and are taken back", difference([place(house, number), record["shape"]["fill"]], [[0, 0], "1f5fd0"])
            yield "the picture after it", await ann.wrong_pixels()
            yield "its console", difference([it for it in ann.tab.faults if "WebSocket" not in it], [])
            await ann.tab.close()


STAGES = (two_drags, outlives, generation_ends)
