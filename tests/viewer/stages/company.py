"""What others have selected is seen, and one can go along with what they look at."""

import asyncio

from harness.running import difference
from stages.desk import MIDDLE, sheet

THEIRS = "[...document.querySelectorAll('#overlay .theirs')].map((it) => [it.getAttribute('stroke'), it.getAttribute('d')])"


async def selected_by_others(ann, ben, server):
    """Ben sees in Ann's colour what she has selected."""
    _, (one, two), corner = await sheet(ann, server, (20, 20, 60, 40), (100, 20, 60, 40))
    await ben.look_at(0, (corner[0] + 200, corner[1] + 200))
    await ben.tab.value("app.state.select([])")
    await ann.tab.value(f"app.state.select([{two}])")
    await ben.tab.until(f"({THEIRS}).length === 1")
    colour = await ben.tab.value("'#' + app.people.others[0].colour")
    i, j = await ben.tab.value(f"app.view.toWindow([{corner[0] + 100}, {corner[1] + 20}])")
    shown = await ben.tab.value(THEIRS)
    yield "in her colour, round the shape", None if shown[0][0] == colour and shown[0][1].startswith(f"M{i:g} {j:g}L") else str(shown)
    await ann.tab.value(f"app.state.select([{one}, {two}])")
    await ben.tab.until(f"({THEIRS}).length === 2")
    await ann.tab.value("app.state.select([])")
    await ben.tab.until(f"({THEIRS}).length === 0")
    yield "none when nothing is selected", difference(await ben.tab.value(THEIRS), [])


async def followed(ann, ben):
    """Ben follows Ann's view by a click on her name, until he moves his own."""
    await ann.look_at(0, (128, 128))
    await ben.look_at(0, (900, 900))
    x, y, w, h = await ben.tab.box_of("#people-list button")
    await ben.tab.click(x + w / 2, y + h / 2)
    await ben.tab.until(MIDDLE % (128, 128))
    for level, point in [(1, (400, -200)), (-1, (60, 70))]:
        await ann.look_at(level, point)
        await ben.tab.until(f"app.view.level === {level} && {MIDDLE % point}")
        yield f"he goes along to {point}", difference(await ben.tab.value("document.querySelector('#people-list button').getAttribute('aria-pressed')"), "true")
    await ben.tab.value("app.pan(64, 0)")
    await ann.look_at(0, (2000, 2000))
    await asyncio.sleep(0.5)
    yield "his own move ends it", difference(await ben.tab.value(MIDDLE % (92, 70)), True)
    yield "and that is shown", difference(await ben.tab.value("document.querySelector('#people-list button').getAttribute('aria-pressed')"), "false")
    await ben.tab.click(x + w / 2, y + h / 2)
    await ben.tab.until(MIDDLE % (2000, 2000))
    await ben.press("Escape")
    await ann.look_at(0, (128, 128))
    await asyncio.sleep(0.5)
    yield "so does Esc", difference(await ben.tab.value(MIDDLE % (2000, 2000)), True)
    await ben.tab.value("app.notes.hide()")


STAGES = (selected_by_others, followed)
