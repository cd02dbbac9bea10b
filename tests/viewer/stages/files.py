"""Downloads, files that are opened, and what is said of what is saved."""

import io
import json
import math
import tempfile
from pathlib import Path

from PIL import Image, ImageChops

from browser import CONTROL
from harness.running import difference
from stages.desk import Desk, Gateway, MIDDLE, POSTER, Server, back, downloaded, patches


OPEN = """(async () => { const data = new DataTransfer(); data.items.add(new File([%s], %s)); const input = document.getElementById('file');
  input.files = data.files; input.dispatchEvent(new Event('change')); })()"""


async def files(browser, ann, server):
    """Downloads, a file that is opened, and the words about what is saved."""
    await ann.look_at(0, (128, 128))
    yield "nothing is saved", None if "only while it runs" in await ann.text("saved-words") else await ann.text("saved-words")
    with tempfile.TemporaryDirectory() as folder:
        await browser.downloads(folder)
        version = server.ask(verb="point", x=0, y=0)[0]["version"]
        await ann.press("s", modifiers=CONTROL)
        text = await downloaded(folder, f"canvas-version-{version}.json")
        yield "the document as a file", difference(text, server.ask(verb="export")[1])
        yield "all is saved", difference(await ann.text("saved"), "downloaded")
        await ann.tab.value("document.querySelector('[data-act=picture]').click(), document.getElementById('print-download').click()")
        picture = Image.open(io.BytesIO(await downloaded(folder, f"canvas-version-{version}.png"))).convert("RGB")
        level, left, top, width, height = await ann.view()
        yield "the view as a file", difference(ImageChops.difference(picture, patches(server, level, left, top, width, height)).getbbox(), None)
        async for case in pictures(ann, server, folder, version):
            yield case
    before = server.records()
    await ann.tab.value(OPEN % (json.dumps(POSTER.read_text()), "'poster.json'"))
    await ann.tab.until("document.getElementById('open').open")
    await ann.tab.value("document.querySelector('#open [value=into]').click()")
    await ann.tab.until("app.state.history.undoName === 'open'")
    await ann.settle(version + 120)
    after = server.records()
    poster = {record["id"]: record for record in json.loads(POSTER.read_text())["shapes"]}
    yield "all shapes of the file are there", difference(len(after), len(before) + len(poster))
    shapes = lambda records: sorted(json.dumps([record["shape"], record["hidden"]], sort_keys=True) for record in records)
    yield "they are those of the file", difference(shapes(record for number, record in after.items() if number not in before), shapes(poster.values()))
    yield "the picture of it", await ann.wrong_pixels()
    yield "how much is not saved", difference(await ann.text("saved-words"), "120 edits since your download are in no file.")
    await back(ann)
    yield "one step takes it back", difference(set(server.records()), set(before))
    await ann.tab.value(OPEN % ("'no document'", "'notes.txt'"))
    await ann.tab.until("!document.getElementById('refusal').hidden")
    yield "a file that is none", None if "notes.txt" in await ann.text("refusal") else await ann.text("refusal")
    await ann.press("Escape")


PRINT = """(() => { document.querySelector('[data-act=picture]').click(); const dialog = document.getElementById('print');
  dialog.querySelector('input[value=%s]').click(); const level = document.getElementById('print-level'); level.value = '%d';
  level.dispatchEvent(new Event('change', { bubbles: true })); return document.getElementById('print-size').textContent; })()"""


async def pictures(ann, server, folder, version):
    """Pictures of parts of the page, at scales of their own."""
    records = await ann.tab.value("app.picture.tree.children(null).map(({ id }) => id)")
    for which, level in [("selection", 0), ("selection", -2), ("selection", 2), ("all", 3)]:
        await ann.tab.value(f"app.state.select([{records[0]}])")
        left, top, right, bottom = await ann.tab.value("(({ left, top, right, bottom }) => [left, top, right, bottom])"
                                                       f"({'app.state.box' if which == 'selection' else 'app.picture.tree.boxOf(null)'})")
        scale = 2.0 ** level
        x, y = math.floor(left / scale), math.floor(top / scale)
        width, height = math.ceil(right / scale) - x, math.ceil(bottom / scale) - y
        said = await ann.tab.value(PRINT % (which, level))
        yield f"the size of {which} at {level}", difference(said, f"{width:,} by {height:,} pixels")
        (Path(folder) / f"canvas-version-{version}.png").unlink(missing_ok=True)
        await ann.tab.value("document.getElementById('print-download').click()")
        picture = Image.open(io.BytesIO(await downloaded(folder, f"canvas-version-{version}.png"))).convert("RGB")
        wanted = patches(server, level, x, y, width, height)
        yield f"the picture of {which} at {level}", difference((picture.size, ImageChops.difference(picture, wanted).getbbox()), (wanted.size, None))
    await ann.look_at(6, (0, 0))
    said = await ann.tab.value(PRINT % ("view", -3))
    yield "a picture that is too large", None if "too many" in said else said
    yield "it can't be asked for", difference(await ann.tab.value("document.getElementById('print-download').disabled"), True)
    await ann.tab.value("document.getElementById('print').close(), app.state.select([])")
    await ann.look_at(0, (128, 128))


async def in_place(ann, server, before):
    """A file in the place of the document, taken back again."""
    await ann.tab.value(OPEN % (json.dumps('{"format":2,"next":2,"shapes":[{"hidden":false,"id":1,"place":{"index":"a0","parent":null},'
                                           '"pose":{"dx":0,"dy":0,"flip":false,"quarter":0},"shape":{"fill":"ff0000","h":77,"kind":"rect","w":55}}]}'), "'one.json'"))
    await ann.tab.until("document.getElementById('open').open")
    await ann.tab.value("document.querySelector('#open [value=place]').click()")
    await ann.tab.until("app.picture.tree.records.size === 1 && [...app.picture.tree.records.values()][0].shape.w === 55")
    yield "a file in the place of the document", difference([record["shape"]["w"] for record in server.records().values()], [55])
    await back(ann)
    looks = lambda records: sorted(json.dumps([record["shape"], record["hidden"], record["pose"]], sort_keys=True) for record in records.values())
    yield "one step takes it back, too", difference(looks(server.records()), looks(before))


async def empty(browser):
    """An empty document says what to press, and a fresh page with an address that names a view looks there."""
    with tempfile.TemporaryDirectory() as folder:
        file = Path(folder) / "empty.json"
        file.write_text('{"format":2,"next":1,"shapes":[]}')
        server, gateway = Server(file), None
        try:
            server.start()
            gateway = Gateway(server)
            tab = await browser.open(f"{gateway.page}#300,200,3")
            await tab.until("window.app.picture.isSettled")
            yield "an empty document says what to press", difference(await tab.value("document.getElementById('empty').hidden"), False)
            yield "its view is the address's", difference(await tab.value(f"app.view.level === 3 && {MIDDLE % (300, 200)}"), True)
            desk = Desk(tab, server)
            await desk.press("r")
            await desk.drag([0, 0], [100, 100], [800, 800])
            await desk.made(None)
            yield "it is silent then", difference(await tab.value("document.getElementById('empty').hidden"), True)
            server.kill()
            await tab.until("!document.getElementById('away').hidden")
            server.start()
            await tab.until("document.getElementById('away').hidden && app.picture.isSettled")
            yield "what is lost after a restart", difference(await tab.value("document.getElementById('note').firstChild.data"),
                                                             "The server was started anew, from an older document: 1 shape is gone.")
            await browser.downloads(folder)
            x, y, w, h = await tab.box_of("#note button")
            await tab.click(x + w / 2, y + h / 2)
            saved = json.loads(await downloaded(folder, "canvas-version-1.json"))
            yield "what was there is offered as a file", difference([record["shape"]["w"] for record in saved["shapes"]], [800])
            file.write_text(json.dumps(saved))
            server.kill()
            await tab.until("!document.getElementById('away').hidden")
            server.start()
            await tab.until("document.getElementById('away').hidden && app.picture.isSettled")
            yield "the server serves that file", difference([record["shape"]["w"] for record in server.records().values()], [800])
            async for case in in_place(desk, server, server.records()):
                yield case
            yield "its console", difference(tab.faults, [])
            await tab.close()
        finally:
            if gateway is not None:
                gateway.close()
            server.kill()


STAGES = (files, empty)
