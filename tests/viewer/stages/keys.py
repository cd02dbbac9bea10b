"""Keys of any keyboard, what is said of what they did, and pasting into the view."""

import asyncio
import json

from browser import CONTROL, SHIFT
from harness.running import difference
from stages.desk import at, back, boxes, sheet

RUSSIAN = {"h": ("р", "KeyH"), "r": ("к", "KeyR"), "v": ("м", "KeyV"), "[": ("х", "BracketLeft"), "z": ("я", "KeyZ")}
"""Keys of a Russian keyboard: what they type, and where they lie."""
DONE = "app.editor.inTurn(() => new Promise((done) => setTimeout(done)))"
"""All that was begun is done, and told."""
TOP = "(({left, top}) => [left, top])(app.state.box)"


async def other_letters(ann, server):
    """On a keyboard of another script the place of a key counts; a letter of one's own script at another place counts as it is."""
    _, (one, two), corner = await sheet(ann, server, (20, 20, 60, 40), (100, 20, 60, 40))
    await ann.tab.value(f"app.state.select([{two}])")
    for key, wanted in [("r", "rect"), ("v", "select")]:
        sign, code = RUSSIAN[key]
        await ann.tab.key(sign, code=code)
        yield f"{sign} at the place of {key}", difference(await ann.tab.value("app.toolName"), wanted)
    await ann.tab.key("х", code="BracketLeft")
    await boxes(ann, [])
    yield "х at the place of [ sends to the back", difference(server.order(server.records()[two]["parent"]), [one, two])
    await ann.tab.key("я", CONTROL, code="KeyZ")
    await boxes(ann, [])
    yield "я at the place of z takes back", difference(server.order(server.records()[two]["parent"]), [two, one])
    await ann.tab.key("m", code="Semicolon")
    yield "m of a French keyboard", difference(await ann.tab.value("app.toolName"), "move")
    await ann.tab.key("v", code="KeyV")
    await ann.tab.key("№", SHIFT, code="Digit3")
    yield "№ at the place of #", difference(await ann.tab.value("app.grid.isOn"), True)
    await ann.tab.key("#", SHIFT, code="Digit3")
    yield "# itself", difference(await ann.tab.value("app.grid.isOn"), False)


async def told(ann, server):
    """What a key did to the document is said."""
    _, (one, two), corner = await sheet(ann, server, (20, 20, 60, 40), (100, 20, 60, 40))
    for key, words in [("h", f"Rectangle {one} is hidden; the same key shows it (H). Ctrl+Z takes that back."), ("h", f"Rectangle {one} is shown again (H)."),
                       ("t", f"Rectangle {one} is turned (T)."), ("x", f"Rectangle {one} is flipped (X)."), ("s", "The shapes beside it have new places"),
                       ("[", f"Rectangle {one} is at the back ([).")]:
        await ann.tab.value(f"app.notes.hide(), app.state.select([{one}])")
        await ann.press(key)
        await ann.tab.value(DONE)
        note = await ann.text("note")
        yield f"what {key} did", None if note.startswith(words) and await ann.tab.value("!document.getElementById('note').hidden") else note
    await ann.tab.value(f"app.state.select([{one}, {two}])")
    await ann.press("Delete")
    await ann.tab.value(DONE)
    yield "what Del did", difference(await ann.text("note"), "2 shapes are deleted (Del). Ctrl+Z takes that back.")
    await back(ann)
    await ann.tab.value("app.notes.hide(), app.state.select([])")
    await ann.press("h")
    yield "nothing is selected, and nothing said", difference(await ann.tab.value("document.getElementById('note').hidden"), True)


async def put_in(ann, server):
    """Several shapes are put into the frame behind them; where there is none that is said."""
    frame = server.ask(verb="create", shape={"kind": "frame", "w": 200, "h": 100, "fill": "eeeeee"}, pose={"dx": -6000, "dy": 0})[0]["id"]
    made = [server.ask(verb="create", shape={"kind": "rect", "w": 30, "h": 20, "fill": "00aa00"}, pose={"dx": -5900 + 50 * k, "dy": 20})[0] for k in range(2)]
    one, two = [reply["id"] for reply in made]
    await ann.settle(made[-1]["version"])
    await ann.tab.value(f"app.state.select([{one}, {two}])")
    yield "the button may be pressed", difference(await ann.tab.value("document.querySelector('[data-act=put]').disabled"), False)
    await ann.press("i")
    await ann.tab.value(DONE)
    yield "both are in the frame, in their order", difference(server.order(frame), [two, one])
    yield "it is said", difference(await ann.text("note"), f"2 shapes are put into Frame {frame} (I). Ctrl+Z takes that back.")
    await ann.press("i")
    yield "there is no frame behind them", difference(await ann.text("note"), "There is no frame or group behind what is selected, and beside it.")
    await ann.tab.value(f"app.state.select([{frame}])")
    await ann.press("Delete")


async def pasted(ann, server):
    """What would not be seen is pasted into the middle of the view."""
    _, (one,), corner = await sheet(ann, server, (20, 20, 60, 40))
    await ann.tab.value(f"app.state.select([{one}])")
    await ann.tab.key("c", CONTROL, commands=["copy"])
    await ann.tab.key("v", CONTROL, commands=["paste"])
    await boxes(ann, [])
    yield "in view it lies aside of the copied one", difference(await ann.tab.value(TOP), at(corner, (36, 36))[0])
    await ann.look_at(0, (4000, -2000))
    await ann.tab.key("v", CONTROL, commands=["paste"])
    await boxes(ann, [])
    left, top = await ann.tab.value(TOP)
    yield "out of view it comes to the middle", None if abs(left + 30 - 4000) <= 33 and abs(top + 20 + 2000) <= 33 else f"{left}, {top}"
    yield "and into what is there", difference(await ann.tab.value("app.state.record.parent"), None)
    await back(ann, 2)
    await ann.look_at(0, (128, 128))
    x, y, *_ = await ann.tab.box_of("#stage")
    before, (_, left, top, *_) = len(server.records()), await ann.view()
    await ann.tab.value("app.notes.hide()")
    await ann.tab.drag([(x + 300, y + 200), (x + 340, y + 210)], button="middle")
    paste = "document.body.dispatchEvent(new ClipboardEvent('paste', {clipboardData: new DataTransfer(), cancelable: true, bubbles: true}))"
    await ann.tab.value(paste)
    await asyncio.sleep(0.3)
    yield "the middle button pans", difference((await ann.view())[1:3], [left - 40, top - 10])
    yield "it pastes nothing", difference((len(server.records()), await ann.tab.value("document.getElementById('note').hidden")), (before, True))
    await ann.press("Escape")
    await ann.tab.value(paste.replace("new DataTransfer()", f"(() => {{ const data = new DataTransfer(); data.setData('text/plain', {json.dumps('no shapes')}); return data; }})()"))
    yield "a paste after a key is told", difference(await ann.text("note"), "What was copied holds no shapes.")
    await ann.tab.value("app.notes.hide()")


STAGES = (other_letters, told, put_in, pasted)
