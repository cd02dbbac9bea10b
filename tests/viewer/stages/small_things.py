"""Colours, refusals, keys, names for those who do not see, and how it looks in the dark and on a phone."""

import asyncio

from browser import SHIFT
from harness.running import difference
from stages.desk import MIDDLE, Desk, becomes, boxes, sheet

PHONE = {"width": 390, "height": 780, "deviceScaleFactor": 2, "mobile": True}
HIDDEN = """[...document.querySelectorAll('header button')].filter((it) => it.offsetParent !== null).filter((it) => {
  const {left, top, width, height} = it.getBoundingClientRect();
  return width < 44 || height < 44 || !it.contains(document.elementFromPoint(left + width / 2, top + height / 2));
}).map((it) => it.outerHTML.slice(0, 60))"""

SMALL = """[...document.querySelectorAll('aside button, aside input, .row, .twist:not(:empty)')].filter((it) => it.offsetParent !== null).filter((it) => {
  const {width, height} = it.getBoundingClientRect();
  return width < 43.5 || height < 43.5;
}).map((it) => [it.outerHTML.slice(0, 60), it.offsetWidth, it.offsetHeight])"""


async def small_things(ann, server):
    """Colours, refusals, rows, tools and the view in the address."""
    await ann.look_at(0, (128, 128))
    await ann.press("Escape", "Escape", "v")
    await ann.tab.value("app.editor.select(null), app.editor.setFill('7a4fc9')")
    await ann.click([30, 30])
    await ann.press("Escape", "Escape")
    yield "a colour stays as picked when a shape is looked at", difference(await ann.tab.value("app.state.fill"), "7a4fc9")
    for typed, wanted in [("red", "ff0000"), ("#0a0", "00aa00"), ("123456", "123456"), ("rgb(1, 2, 3)", "010203"), ("reddish", "010203")]:
        await ann.tab.value(f"(() => {{ const it = document.getElementById('colour-text'); it.value = '{typed}'; it.dispatchEvent(new Event('change')); }})()")
        yield f"{typed} is typed", difference(await ann.tab.value("app.state.fill"), wanted)
    yield "what is no colour is told", None if "reddish” is no colour" in await ann.text("refusal") else await ann.text("refusal")
    await ann.press("Escape", "r")
    await ann.tab.value("document.getElementById('layers').scrollTop = 1e9, app.notes.tell('something')")
    await ann.drag([-100, -60], [-80, -40], [-50, -20])
    made = await ann.made(None)
    yield "a refusal goes when an edit succeeds", difference(await ann.tab.value("document.getElementById('refusal').hidden"), True)
    yield "the tool is Select after drawing", difference(await ann.tab.value("app.toolName"), "select")
    row = f"(() => {{ const it = document.getElementById('layer-{made}')?.getBoundingClientRect(), all = document.getElementById('layers').getBoundingClientRect(); return Boolean(it && it.top >= all.top - 1 && it.bottom <= all.bottom + 1); }})()"
    yield "a new shape's row is seen", difference(await ann.tab.value(row), True)
    await ann.press("e")
    await ann.click([-300, -60])
    number = await ann.made(made)
    yield "a click draws one of a usual size", difference([server.records()[number]["shape"][side] for side in "wh"], [96, 96])
    await ann.tab.value(f"app.state.select([{made}, {number}])")
    await ann.press("Delete")
    await boxes(ann, [])
    await ann.look_at(1, (640, 300))
    await ann.tab.until("location.hash === '#640,300,1'")
    await ann.tab.value("location.hash = '#-100,50,2'")
    await ann.tab.until("app.view.level === 2")
    yield "the address names a view", difference(await ann.tab.value(MIDDLE % (-100, 50)), True)
    yield "the title names the document", difference(await ann.tab.value("document.title"), "drawing – canvas")
    async for case in lost_in_a_drag(ann, server):
        yield case


async def lost_in_a_drag(ann, server):
    """A shape that others delete while it is dragged is told."""
    _, (one,), corner = await sheet(ann, server, (0, 0, 60, 40))
    await ann.tab.value("app.state.enter(null)")
    x, y = await ann.spot([corner[0] + 20, corner[1] + 20])
    await ann.tab.pointer("mouseMoved", x, y, held=False)
    await ann.tab.pointer("mousePressed", x, y, clickCount=1)
    await ann.tab.pointer("mouseMoved", x + 30, y + 30)
    group = await ann.selected()
    gone, _ = server.ask(verb="delete", id=group)
    await ann.settle(gone["version"])
    yield "a shape that others delete while I drag it", difference(await ann.text("refusal"), "Not done.Others have deleted the shape that you were dragging.")
    await ann.tab.pointer("mouseReleased", x + 30, y + 30, clickCount=1)
    await ann.press("Escape")


async def take_by_finger(tab, tool):
    """Taps on a tool until it is taken: on a busy machine the browser now and then makes no click of a tap."""
    x, y, w, h = await tab.box_of(f"[data-tool={tool}]")
    for _ in range(10):
        await tab.tap(x + w / 2, y + h / 2)
        await asyncio.sleep(0.3)
        if await tab.value(f"document.querySelector('[data-tool={tool}]').getAttribute('aria-pressed')") == "true":
            break


async def by_finger(browser, gateway, server):
    """On a phone a finger selects, moves and draws, and two fingers pan."""
    tab = await browser.open(gateway.page)
    await tab.command("Emulation.setDeviceMetricsOverride", **PHONE)
    await tab.command("Emulation.setTouchEmulationEnabled", enabled=True)
    finger = Desk(tab, server)
    await finger.settle(0)
    _, (one,), corner = await sheet(finger, server, (20, 20, 90, 70))
    await finger.touch([corner[0] + 60, corner[1] + 50])
    yield "a finger selects", difference(await tab.value("app.state.selection"), [one])
    await finger.touch([corner[0] + 60, corner[1] + 50], [corner[0] + 80, corner[1] + 80], [corner[0] + 100, corner[1] + 120])
    yield "and moves", difference((await boxes(finger, [one]))[0][:2], [corner[0] + 60, corner[1] + 90])
    await finger.touch([corner[0] + 150, corner[1] + 160], [corner[0] + 170, corner[1] + 180], [corner[0] + 190, corner[1] + 210])
    yield "and resizes by a corner", difference((await boxes(finger, [one]))[0], [corner[0] + 60, corner[1] + 90, corner[0] + 190, corner[1] + 210])
    await take_by_finger(tab, "ellipse")
    await finger.touch([corner[0] + 20, corner[1] + 250], [corner[0] + 60, corner[1] + 280], [corner[0] + 120, corner[1] + 330])
    made = await finger.made(one)
    yield "and draws", difference((await boxes(finger, [made]))[0], [corner[0] + 20, corner[1] + 250, corner[0] + 120, corner[1] + 330])
    _, left, top, *_ = await finger.view()
    x, y, *_ = await tab.box_of("#stage")
    await tab.touch("touchStart", (x + 100, y + 100))
    await tab.touch("touchStart", (x + 100, y + 100), (x + 200, y + 100))
    for step in range(1, 6):
        await tab.touch("touchMove", (x + 100 + 8 * step, y + 100 + 6 * step), (x + 200 + 8 * step, y + 100 + 6 * step))
    await tab.touch("touchEnd")
    yield "two fingers pan", difference((await finger.view())[:3], [0, left - 40, top - 30])
    yield "and move nothing", difference((await boxes(finger, [one]))[0][:2], [corner[0] + 60, corner[1] + 90])
    yield "the finger's console", difference(tab.faults, [])
    await tab.close()


BESIDE = """[...document.querySelectorAll('header button, #files button')].filter((it) => it.offsetParent !== null).filter((it) => {
  const {left, right, top, bottom} = it.getBoundingClientRect();
  return left < 0 || right > innerWidth || top < 0 || bottom > innerHeight || !it.contains(document.elementFromPoint((left + right) / 2, (top + bottom) / 2));
}).map((it) => it.outerHTML.slice(0, 60))"""


async def any_width(browser, gateway):
    """At each width of a window all buttons of the bar are seen, and the page does not slide; the files' too, on a low screen."""
    tab = await browser.open(gateway.page)
    await tab.until("window.app.picture.isSettled")
    for width, height in [(1280, 720), (1100, 800), (900, 1100), (857, 1180), (820, 1180), (768, 1024), (721, 1000)]:
        await tab.command("Emulation.setDeviceMetricsOverride", width=width, height=height, deviceScaleFactor=1, mobile=False)
        await tab.until(f"innerWidth === {width} && app.view.width < {width}")
        await asyncio.sleep(0.1)
        yield f"what is not seen at {width} by {height}", difference(await tab.value(BESIDE), [])
        yield f"how wide the page is at {width}", difference(await tab.value("document.documentElement.scrollWidth"), width)
    await tab.close()


async def few_colours(ann):
    """Where the system has few colours of its own, the swatches keep theirs, and what is chosen is still seen."""
    await ann.tab.command("Emulation.setEmulatedMedia", features=[{"name": "forced-colors", "value": "active"}])
    await asyncio.sleep(0.3)
    colours = await ann.tab.value("[...document.querySelectorAll('#swatches button')].map((it) => getComputedStyle(it).backgroundColor)")
    yield "each swatch has its colour", difference(len(set(colours)), 16)
    kinds = await ann.tab.value("[...document.querySelectorAll('.row .kind')].map((it) => getComputedStyle(it).fill)")
    yield "so have the layers", None if len(set(kinds)) > 1 else f"{set(kinds)}"
    looks = "[...document.querySelectorAll('header [data-tool]')].map((it) => getComputedStyle(it).outlineStyle + getComputedStyle(it).outlineWidth)"
    yield "the chosen tool stands out", difference(len(set(await ann.tab.value(looks))), 2)
    await ann.tab.command("Emulation.setEmulatedMedia", features=[])


FIELD = """(() => { const it = document.getElementById('field-%s'); it.focus(); it.value = '%s'; it.dispatchEvent(new Event('change')); })()"""


async def stale(ann, server):
    """A field shows what is so, not what was refused or rounded; a note takes away the refusal before it."""
    _, (one,), corner = await sheet(ann, server, (20, 20, 60, 40))
    await ann.tab.value(f"app.state.select([{one}])")
    for name, typed, shown, width in [("w", "0", "60", 60), ("w", "99999", "60", 60), ("w", "", "60", 60), ("w", "12.6", "13", 13), ("w", "60", "60", 60), ("x", "9999999", str(corner[0] + 20), 60)]:
        await ann.tab.value(FIELD % (name, typed))
        await ann.tab.value("app.editor.inTurn(() => new Promise((done) => setTimeout(done)))")
        await asyncio.sleep(0.05)
        yield f"{typed!r} in {name}", difference([await ann.tab.value(f"document.getElementById('field-{name}').value"), server.records()[one]["shape"]["w"]], [shown, width])
    await ann.tab.value("document.activeElement.blur(), app.notes.tell('something'), app.notes.say('something else')")
    yield "a note takes the refusal away", difference(await ann.tab.value("[document.getElementById('refusal').hidden, document.getElementById('note').hidden]"), [True, False])
    await ann.tab.value("app.notes.hide(), app.stage.focus()")


async def everywhere(browser, gateway, ann):
    """Dark colours, and a phone."""
    await ann.tab.command("Emulation.setEmulatedMedia", features=[{"name": "prefers-color-scheme", "value": "dark"}])
    await asyncio.sleep(0.3)
    yield "contrast in the dark", await becomes(ann.tab, FAINT, [])
    await ann.tab.value("app.state.select(app.state.tree.children(null).slice(0, 3).map(({id}) => id))")
    await asyncio.sleep(0.3)
    yield "contrast in the dark, with shapes selected", await becomes(ann.tab, FAINT, [])
    await ann.tab.command("Emulation.setEmulatedMedia", features=[])
    tab = await browser.open(gateway.page)
    await tab.command("Emulation.setDeviceMetricsOverride", **PHONE)
    await tab.until("window.app.picture.isSettled && app.view.width === 390")
    yield "all of the bar is seen on a phone", difference(await tab.value(HIDDEN), [])
    yield "nothing is wider than the phone", difference(await tab.value("document.documentElement.scrollWidth"), 390)
    x, y, w, h = await tab.box_of("[data-act=panel]")
    await tab.click(x + w / 2, y + h / 2)
    await tab.until("document.querySelector('aside').getBoundingClientRect().bottom <= innerHeight + 1")
    yield "the panel is a sheet", difference(await tab.value("getComputedStyle(document.querySelector('aside')).visibility"), "visible")
    await tab.value("app.state.select(app.state.tree.children(null).slice(0, 2).map(({id}) => id))")
    await asyncio.sleep(0.3)
    yield "nothing in it is too small for a finger", await becomes(tab, SMALL, [])
    yield "contrast on a phone", await becomes(tab, FAINT, [])
    yield "the phone's console", difference(tab.faults, [])
    await tab.close()


async def refused(ann, server):
    """A refusal is told in words, with its name; nothing is changed."""
    before = server.records()
    await ann.look_at(6, (1_500_000, 0))
    await ann.press("r")
    await ann.drag([1_500_000, 0], [1_510_000, 9_984])
    await ann.tab.until("!document.getElementById('refusal').hidden")
    said = await ann.text("refusal")
    yield "the words of a refusal", None if "9 BadPose" in said and "too far" in said else said
    yield "the document after it", difference(server.records(), before)
    await ann.press("Escape")
    yield "the refusal is put away", difference(await ann.tab.value("document.getElementById('refusal').hidden"), True)
    await ann.look_at(0, (128, 128))


async def without_a_mouse(ann, server):
    """Drawing, moving, selecting and deleting by keys alone."""
    await ann.look_at(0, (9000, 9000))  # (where what is drawn lies in no frame)
    await ann.tab.value("app.editor.select(null)")
    await ann.press("f", "Enter", *["ArrowRight"] * 5, *["ArrowDown"] * 4, "Enter")
    frame = await ann.made(None)
    record = server.records()[frame]
    yield "a frame by keys", difference([record["shape"]["kind"], record["shape"]["w"], record["shape"]["h"]], ["frame", 40, 32])
    await ann.press("m", *["ArrowRight"] * 3, "ArrowUp")
    await ann.press(*["ArrowLeft"] * 5, modifiers=SHIFT)  # (so that what is drawn next lies beside it)
    wanted = [record["pose"]["dx"] + 3 - 50, record["pose"]["dy"] - 1]
    await ann.tab.until(f"(({{dx, dy}}) => dx === {wanted[0]} && dy === {wanted[1]})(app.editor.record.pose)")
    await ann.press("Escape", "p", "Enter", *["ArrowRight"] * 5, "Enter", *["ArrowDown"] * 4, "Enter", "Enter")
    polygon = await ann.made(None)
    yield "a polygon by keys", difference(server.records()[polygon]["shape"]["points"], [[0, 0], [40, 0], [40, 32]])
    await ann.press("v")
    found = set()
    for _ in range(80):
        await ann.press("Tab")
        found.add(await ann.tab.value("document.activeElement.id || document.activeElement.dataset.tool || document.activeElement.dataset.act || ''"))
        if "layers" in found:
            break
    yield "Tab reaches the layers", None if {"colour-text", "layers"} <= found else str(found)
    await ann.press("Home", "ArrowDown")
    second = await ann.selected()
    yield "the second layer", difference(second, server.order()[1])
    await ann.press("Home", "Delete")
    await ann.tab.until(f"!app.picture.tree.record({polygon})")
    yield "a delete by keys", difference(polygon in server.records(), False)
    await ann.press("?")
    yield "the table of keys", difference(await ann.tab.value("document.getElementById('help').open"), True)
    await ann.press("Escape")
    yield "the table is put away", difference(await ann.tab.value("document.getElementById('help').open"), False)


NAMELESS = """[...document.querySelectorAll('button, input, [role=tree], [role=toolbar]')].filter((it) => it.offsetParent !== null &&
  !(it.ariaLabel || it.textContent.trim() || it.title || it.getAttribute('aria-labelledby'))).map((it) => it.outerHTML)"""
FAINT = """(() => {
  const parts = (colour) => colour.match(/[0-9.]+/g).map(Number);
  const light = (rgb) => rgb.slice(0, 3).map((c) => c / 255).map((c) => c <= 0.04045 ? c / 12.92 : ((c + 0.055) / 1.055) ** 2.4)
    .reduce((sum, c, k) => sum + c * [0.2126, 0.7152, 0.0722][k], 0);
  const behind = (it) => { for (; it; it = it.parentElement) { const found = parts(getComputedStyle(it).backgroundColor);
    if (found.length < 4 || found[3] > 0.9) return found; } return [255, 255, 255]; };
  const has = (it) => it.offsetParent !== null && [...it.childNodes].some((node) => node.nodeType === 3 && node.data.trim());
  return [...document.querySelectorAll('body *')].filter(has).map((it) => {
    const [a, b] = [light(parts(getComputedStyle(it).color)), light(behind(it))].sort((p, q) => q - p);
    return [(a + 0.05) / (b + 0.05), it.textContent.trim().slice(0, 30)];
  }).filter(([ratio]) => ratio < 4.5);
})()"""


async def readable(ann):
    """Everything that can be pressed has a name, and every text stands out by 4.5 to 1."""
    yield "names", difference(await ann.tab.value(NAMELESS), [])
    yield "contrast", difference(await ann.tab.value(FAINT), [])


STAGES = (small_things, any_width, few_colours, stale, everywhere, by_finger, refused, without_a_mouse, readable)
