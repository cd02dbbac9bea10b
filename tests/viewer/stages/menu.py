"""The menu of a right click, and of a finger that rests; copying as a picture; files that are dropped."""

import asyncio
import base64
import io
import json

from PIL import Image

from harness.running import difference
from stages.desk import POSTER, Desk, at, back, boxes, sheet
from stages.small_things import PHONE

SHOWN = "[...document.querySelectorAll('#menu button')].filter((it) => it.offsetParent !== null).map((it) => it.dataset.choice)"
CHOOSE = "document.querySelector('#menu [data-choice=%s]').click()"
DONE = "app.editor.inTurn(() => new Promise((done) => setTimeout(done)))"
PASTED = """navigator.clipboard.read().then(async ([item]) => { const blob = await item.getType('%s');
  return btoa(String.fromCharCode(...new Uint8Array(await blob.arrayBuffer()))); })"""


async def right_click(desk, point):
    x, y = await desk.spot(point)
    for kind in ("mouseMoved", "mousePressed", "mouseReleased"):
        await desk.tab.pointer(kind, x, y, button="none" if kind == "mouseMoved" else "right", buttons=2 if kind == "mousePressed" else 0, clickCount=1)
    await desk.tab.until("!document.getElementById('menu').hidden")


async def menu(browser, ann, server):
    """A right click selects, and shows what can be done; so does the key."""
    await browser.command("Browser.grantPermissions", permissions=["clipboardReadWrite", "clipboardSanitizedWrite"])
    await ann.tab.command("Emulation.setFocusEmulationEnabled", enabled=True)
    frame, (one, two), corner = await sheet(ann, server, (20, 20, 60, 40), (100, 20, 60, 40))
    await ann.tab.value("document.getElementById('search').select(), app.stage.focus()")  # (a field that is left copies nothing)
    await right_click(ann, at(corner, (40, 40))[0])
    yield "it selects", difference(await ann.tab.value("app.state.selection"), [one])
    yield "it is shown", None if {"cut", "copy", "paste", "group", "delete"} <= set(await ann.tab.value(SHOWN)) else str(await ann.tab.value(SHOWN))
    yield "what can't be done", difference(await ann.tab.value("['put', 'take', 'ungroup'].map((act) => document.querySelector(`#menu [data-choice=${act}]`).disabled)"), [True, False, True])
    await ann.press("ArrowDown", "ArrowDown", "Enter")
    yield "a row by the keys", difference(await ann.tab.value("document.getElementById('menu').hidden"), True)
    await ann.tab.until("navigator.clipboard.readText().then((text) => text === JSON.stringify({copied: 'canvas', shapes: app.editor.copies()}))")
    await right_click(ann, at(corner, (40, 40))[0])
    await ann.tab.value(CHOOSE % "paste")
    await ann.tab.until(f"app.state.tree.children({frame}).length === 3")
    yield "what was copied is pasted", difference((await boxes(ann, await ann.tab.value("app.state.selection")))[0], sum(at(corner, (36, 36), (96, 76)), []))
    await right_click(ann, at(corner, (140, 30))[0])
    await ann.tab.value(CHOOSE % "cut")
    await ann.tab.until(f"!app.state.tree.record({two})")
    yield "it is cut", difference(two in server.records(), False)
    await back(ann)
    await ann.tab.value(f"app.state.select([{one}])")
    await right_click(ann, at(corner, (300, 300))[0])
    yield "beside all nothing is selected", difference(await ann.tab.value("app.state.selection"), [])
    yield "and the page's rows are shown", None if {"paste", "all", "fit"} <= set(await ann.tab.value(SHOWN)) else str(await ann.tab.value(SHOWN))
    await ann.press("h", "Escape")
    yield "Esc takes it away", difference(await ann.tab.value("[document.getElementById('menu').hidden, document.activeElement.id]"), [True, "stage"])
    await right_click(ann, at(corner, (40, 40))[0])
    await ann.click(at(corner, (300, 300))[0])
    yield "so does a click elsewhere", difference(await ann.tab.value("document.getElementById('menu').hidden"), True)
    async for case in pictures(ann, frame, corner):
        yield case


async def pictures(ann, frame, corner):
    """What is selected is copied as PNG and as SVG."""
    await ann.tab.value(f"app.state.enter({frame})")
    await right_click(ann, at(corner, (110, 50))[0])
    await ann.tab.value("app.notes.hide()," + CHOOSE % "copy-png")
    await ann.tab.until("!document.getElementById('note').hidden || !document.getElementById('refusal').hidden")
    yield "it is said", difference(await ann.text("note"), "The PNG is copied.")
    image = Image.open(io.BytesIO(base64.b64decode(await ann.tab.value(PASTED % "image/png"))))
    yield "the PNG", difference((image.size, image.convert("RGB").getpixel((40, 30))), ((60, 40), (90, 128, 192)))
    await ann.tab.value("app.notes.hide()")
    await right_click(ann, at(corner, (110, 50))[0])
    await ann.tab.value(CHOOSE % "copy-svg")
    await ann.tab.until("!document.getElementById('note').hidden || !document.getElementById('refusal').hidden")
    text = base64.b64decode(await ann.tab.value(PASTED % "text/plain")).decode()
    yield "the SVG", None if text.startswith("<svg ") and 'width="60" height="40"' in text and "<rect" in text else text
    await ann.tab.value("app.notes.hide()")


async def by_a_finger(browser, gateway, server):
    """A finger that rests on one more shape selects it too; on one that is selected, it shows the menu."""
    tab = await browser.open(gateway.page)
    await tab.command("Emulation.setDeviceMetricsOverride", **PHONE)
    await tab.command("Emulation.setTouchEmulationEnabled", enabled=True)
    finger = Desk(tab, server)
    await finger.settle(0)
    _, (one, two), corner = await sheet(finger, server, (60, 60, 90, 70), (180, 60, 90, 70))
    await tab.value(f"app.state.select([{one}])")
    await tab.touch("touchStart", await finger.spot(at(corner, (220, 100))[0]))
    await asyncio.sleep(0.8)
    await tab.touch("touchEnd")
    yield "one more is selected", difference(await tab.value("app.state.selection"), [one, two])
    yield "and no menu shown", difference(await tab.value("document.getElementById('menu').hidden"), True)
    await finger.touch(*at(corner, (220, 100), (225, 120), (230, 140)))
    yield "both are moved", difference([box[:2] for box in await boxes(finger, [one, two])], at(corner, (70, 100), (190, 100)))
    await tab.touch("touchStart", await finger.spot(at(corner, (220, 150))[0]))
    await asyncio.sleep(0.8)
    await tab.touch("touchEnd")
    await asyncio.sleep(0.3)
    yield "the menu", difference(await tab.value("document.getElementById('menu').hidden"), False)
    yield "it is all in the window", difference(await tab.value("(({left, top, right, bottom}) => left >= 0 && top >= 0 && right <= innerWidth && bottom <= innerHeight)(document.getElementById('menu').getBoundingClientRect())"), True)
    yield "the finger's console", difference(tab.faults, [])
    await tab.close()


DROP = """(() => { const data = new DataTransfer(); data.items.add(new File([%s], %s));
  for (const kind of ['dragover', 'drop']) document.getElementById('stage').dispatchEvent(new DragEvent(kind, {dataTransfer: data, bubbles: true, cancelable: true})); })()"""


async def dropped(ann, server):
    """A file that is dropped is opened; one that is no document is named."""
    before = server.records()
    await ann.tab.value(DROP % (json.dumps(POSTER.read_text()), "'poster.json'"))
    await ann.tab.until("document.getElementById('open').open")
    await ann.tab.value("document.querySelector('#open [value=into]').click()")
    await ann.tab.until("app.state.history.undoName === 'open'")
    await boxes(ann, [])
    yield "all its shapes are there", difference(len(server.records()), len(before) + 120)
    await back(ann)
    await ann.tab.value(DROP % ("'no document'", "'notes.txt'"))
    await ann.tab.until("!document.getElementById('refusal').hidden")
    yield "what is no document", None if "notes.txt" in await ann.text("refusal") else await ann.text("refusal")
    await ann.press("Escape")


STAGES = (menu, by_a_finger, dropped)
