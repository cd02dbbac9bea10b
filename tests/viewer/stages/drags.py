"""A drag is sent while it goes, drawn at once, and taken back in one step."""

import asyncio

from harness.running import difference
from stages.desk import BOX, at, back, boxes, sheet

MOST = 30
NOTE = """(() => {
  const ask = app.link.ask;
  window.poses = [];
  app.link.ask = function (requests) {
    window.poses.push(...requests.filter(({verb}) => verb === 'pose').map(({id, pose}) => [performance.now(), id, pose.dx, pose.dy]));
    return ask.call(this, requests);
  };
  window.unnote = () => { app.link.ask = ask; };
})()"""
"""Notes which poses a tab sends, and when."""
SEEN = """(() => { window.lefts = new Set(); app.picture.addEventListener('shown', () => { const box = app.picture.tree.record(%d) && app.picture.tree.boxOf(%d);
  if (box) window.lefts.add(box.left); }); })()"""
LEFT = """(id) => {
  const it = document.querySelector('#overlay .ghost'), stage = document.getElementById('stage').getBoundingClientRect();
  return Math.round(it ? it.getBoundingClientRect().left - stage.left : app.view.toWindow([app.picture.tree.boxOf(id).left, 0])[0]);
}"""
"""Where the left edge of a shape is shown: that of what is dragged, or else that of the picture."""
WATCH = """(() => {
  const left = %s;
  window.shownLefts = [];
  const look = () => { window.shownLefts.push(left(%d)); if (window.shownLefts.length < 60) requestAnimationFrame(look); };
  document.getElementById('stage').addEventListener('pointerup', () => requestAnimationFrame(look), { once: true });
})()"""
"""Notes where a shape is shown in each frame after a drag."""


async def drags(ann, ben, server):
    """Ann drags a shape for some seconds, and Ben sees it go."""
    _, (one, two, three), corner = await sheet(ann, server, (0, 0, 60, 40), (0, 100, 60, 40), (100, 100, 60, 40))
    await ben.look_at(0, (corner[0] + 200, corner[1] + 200))
    await ann.tab.value(NOTE)
    await ben.tab.value(SEEN % (one, one))
    x, y = await ann.spot(at(corner, (20, 20))[0])
    await ann.tab.pointer("mouseMoved", x, y, held=False)
    await ann.tab.pointer("mousePressed", x, y, clickCount=1)
    late = []
    for step in range(1, 116):
        await ann.tab.pointer("mouseMoved", x + 2 * step, y)
        if step % 20 == 0:
            await ann.tab.value("new Promise((done) => requestAnimationFrame(() => requestAnimationFrame(done)))")
            wanted = (await ann.tab.value(f"app.view.toWindow([{corner[0]}, 0])"))[0] + 2 * step
            late.append(await ann.tab.value(f"({LEFT})({one})") - wanted)
        await asyncio.sleep(0.012)
    yield "it is drawn under the pointer at once", difference([off for off in late if abs(off) > 1], [])
    await ann.tab.value(WATCH % (LEFT, one))
    await ann.tab.pointer("mouseMoved", x + 240, y)
    await ann.tab.pointer("mouseReleased", x + 240, y, clickCount=1)
    await ann.tab.until("window.shownLefts.length === 60")
    last = (await ann.tab.value(f"app.view.toWindow([{corner[0] + 240}, 0])"))[0]
    yield "it is shown nowhere else after that", difference(set(await ann.tab.value("window.shownLefts")), {last})
    yield "where it ends", difference((await boxes(ann, [one]))[0][:2], at(corner, (240, 0))[0])
    async for case in sent(ann, one, corner):
        yield case
    await ben.settle(server.ask(verb="point", x=0, y=0)[0]["version"])
    lefts = await ben.tab.value("[...window.lefts]")
    between = [left for left in lefts if corner[0] < left < corner[0] + 240]
    yield "Ben sees it on its way", None if len(between) >= 5 else f"{len(between)} places: {lefts}"
    yield "and at its end", difference(corner[0] + 240 in lefts, True)
    yield "the picture that Ben sees", await ben.wrong_pixels()
    await ann.tab.value(f"app.state.enter({server.records()[one]['parent']})")
    await back(ann)
    yield "one step takes all of it back", difference((await boxes(ann, [one]))[0][:2], at(corner, (0, 0))[0])
    await back(ann, 1, "y")
    yield "and makes it again", difference((await boxes(ann, [one]))[0][:2], at(corner, (240, 0))[0])
    async for case in given_up(ann, server, (one, two, three), corner):
        yield case
    await ann.tab.value("window.unnote()")


async def sent(ann, one, corner):
    """Which poses were sent."""
    poses = await ann.tab.value("window.poses")
    times = [time for time, id, *_ in poses if id == one]
    ways = [dx for _, id, dx, _ in poses if id == one]
    yield "poses are sent while it goes", None if len(times) >= 10 else f"{len(times)} poses"
    most = max(sum(begin <= time < begin + 1000 for time in times) for begin in times)
    print(f"a drag of {(times[-1] - times[0]) / 1000:.1f} s sent {len(times)} poses, at most {most} in a second")
    yield "at most thirty in a second", None if most <= MOST else f"{most}"
    yield "the last one too", difference(ways[-1], 240)
    yield "each further than the one before", difference(ways, sorted(set(ways)))


async def given_up(ann, server, numbers, corner):
    """Esc puts back what was moved on the way; several shapes are one step; Move does the same; a group is moved as it is."""
    one, two, three = numbers
    group = server.records()[one]["parent"]
    await ann.tab.value(f"app.state.select([]), app.state.enter({group})")
    history = await ann.tab.value("app.state.history.length")
    x, y = await ann.spot(at(corner, (20, 120))[0])
    await ann.tab.pointer("mouseMoved", x, y, held=False)
    await ann.tab.pointer("mousePressed", x, y, clickCount=1)
    await ann.tab.pointer("mouseMoved", x + 50, y + 60)
    await ann.tab.until(f"app.state.tree.boxOf({two}).left === {corner[0] + 50}")
    yield "it is moved on the way", difference((await boxes(ann, [two]))[0][:2], at(corner, (50, 160))[0])
    await ann.press("Escape")
    await ann.tab.pointer("mouseReleased", x + 50, y + 60, clickCount=1)
    yield "Esc puts it back", difference((await boxes(ann, [two]))[0][:2], at(corner, (0, 100))[0])
    yield "and is no step", difference(await ann.tab.value("app.state.history.length"), history)
    await ann.tab.value(f"app.state.select([{two}, {three}])")
    await ann.drag(*at(corner, (20, 120), (30, 130), (60, 150), (90, 160)))
    yield "several go together", difference([box[:2] for box in await boxes(ann, [two, three])], at(corner, (70, 140), (170, 140)))
    yield "as one step", difference(await ann.tab.value("app.state.history.length"), history + 1)
    await back(ann)
    yield "which is taken back", difference([box[:2] for box in await boxes(ann, [two, three])], at(corner, (0, 100), (100, 100)))
    await ann.tab.value("app.state.select([]), app.state.enter(null)")
    await ann.press("m")
    await ann.drag(*at(corner, (120, 120), (125, 125), (150, 130), (180, 140)))
    yield "Move moves on the way too", difference((await boxes(ann, [three]))[0][:2], at(corner, (160, 120))[0])
    await back(ann)
    yield "and is one step", difference((await boxes(ann, [three]))[0][:2], at(corner, (100, 100))[0])
    await ann.press("v")
    await ann.tab.value("app.state.select([]), app.state.enter(null)")
    before = await ann.tab.value(BOX % group)
    await ann.drag(*at(corner, (20, 120), (40, 125), (60, 145)))
    yield "a group goes as it is", difference((await boxes(ann, [group]))[0], [before[0] + 40, before[1] + 25, before[2] + 40, before[3] + 25])
    await back(ann)


STAGES = (drags,)
