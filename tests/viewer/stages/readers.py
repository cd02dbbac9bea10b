"""A link by which a document is looked at, and not changed."""

from puppet import BareTab
from harness.running import difference
from stages.desk import Desk

import aiohttp


async def reader(browser, gateway, ann, server):
    """The page below /look/ shows the document and its edits, and changes nothing, whatever it asks."""
    tab = await browser.open(f"{gateway.page}look/#128,128,0")
    desk = Desk(tab, server)
    await desk.settle(0)
    before = server.records()
    yield "it shows the document", await desk.wrong_pixels()
    yield "it has no tools", difference(await tab.value("[...document.querySelectorAll('#tools, #actions, #swatches')].filter((it) => it.offsetParent !== null).length"), 0)
    await desk.click([128, 128])
    await desk.press("Delete", "h", "r")
    await desk.drag([10, 10], [60, 60], [90, 90])
    said = await desk.text("refusal")
    yield "what is refused", None if "for looking" in said else said
    yield "nothing is changed", difference(server.records(), before)
    version = await ann.tab.value("app.editor.send({verb: 'pose', id: 1, pose: {dx: 5}}).then(({version}) => version)")
    await desk.settle(version)
    yield "it sees others' edits", difference(await tab.value("app.state.tree.record(1).pose.dx"), 5)
    await ann.tab.value("app.editor.send({verb: 'pose', id: 1, pose: {}})")
    yield "its console", difference(tab.faults, [])
    await tab.close()
    async with aiohttp.ClientSession() as client:
        bare = await BareTab.open(client, f"{gateway.page}look/")
        edit = {"verb": "pose", "id": 1, "pose": {"dx": 9}}
        replies = await (await bare.ask(edit, {"verb": "point", "x": 0, "y": 0}))
        yield "an edit among looks", difference([reply["name"] for reply in replies], ["ReadOnly", "ReadOnly"])
        yield "a look", difference((await (await bare.ask({"verb": "point", "x": 0, "y": 0})))[0]["ok"], True)
        yield "no edit was handed on", difference(server.records()[1]["pose"]["dx"], 0)
        await bare.close()


STAGES = (reader,)
