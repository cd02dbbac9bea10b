"""A server that goes away and comes back, and one with no seat."""

import asyncio
import shutil
import tempfile
from pathlib import Path

from harness.running import difference
from stages.desk import Gateway, seen
from stages.live import House


async def away(ann, ben, server):
    """The server is killed, and started again with the document that was saved."""
    _, text = server.ask(verb="export")
    await ann.look_at(0, (100, 400))
    server.kill()
    for name, desk in [("Ann", ann), ("Ben", ben)]:
        await desk.tab.until("!document.getElementById('away').hidden")
        yield f"{name} is told that the server is away", difference(await desk.text("away-head"), "The server is away.")
        yield f"{name} sees no version", difference(await desk.text("version"), "away")
    await ann.press("r")
    await ann.drag([0, 400], [50, 450])
    await ann.tab.until("!document.getElementById('refusal').hidden")
    yield "an edit meanwhile", difference(await ann.text("refusal"), "Not done.The server is away.")
    await asyncio.sleep(1)
    server.file.write_bytes(text)
    server.start()
    for name, desk in [("Ann", ann), ("Ben", ben)]:
        await desk.tab.until("document.getElementById('away').hidden && app.picture.isSettled")
        yield f"the version that {name} sees afterwards", difference(await desk.text("version"), "version 0")
        await desk.press("Escape", "Escape")
        yield f"the picture that {name} sees afterwards", await desk.wrong_pixels()
    await ann.press("r")
    async for case in seen(ann, ben, "a rectangle afterwards", lambda: ann.drag([0, 300], [50, 350])):
        yield case


DRAWN = "[...app.state.tree.records.values()].filter(({shape}) => shape.w === 50).map(({id}) => id)"


async def edits_meanwhile(browser):
    """With a feed, what one does while the server or the gateway is away is done when it is back; and where another document is there, that is told."""
    with tempfile.TemporaryDirectory() as folder:
        async with House(folder) as house:
            ann = await house.open(browser)
            await ann.look_at(0, (200, 200))
            for name, leave, come in [("the server", house.server.kill, house.server.start), ("the connection", house.cable.cut, house.cable.mend)]:
                before, place = await ann.tab.value(DRAWN), house.server.records()[1]["pose"]["dx"]
                leave()
                await ann.tab.until("!document.getElementById('away').hidden")
                await ann.tab.until("document.getElementById('saved').textContent.startsWith('kept to version')")
                yield f"it is not green without {name}", difference(await ann.tab.value("document.getElementById('saved').classList.contains('is-saved')"), False)
                yield f"what will be without {name}", None if "is done when it is back" in await ann.text("away-why") else await ann.text("away-why")
                await ann.tab.value("app.state.select([])")
                await ann.press("r")
                await ann.drag([100, 400], [120, 420], [150, 450])
                await ann.tab.value("app.state.select([1]), app.editor.moveBy([3, 0]), 0")
                await ann.tab.until("document.getElementById('saved').textContent === 'not kept yet'")
                yield f"nothing is refused without {name}", difference(await ann.tab.value("document.getElementById('refusal').hidden"), True)
                started = come()
                if started is not None:
                    await started
                await ann.tab.until("document.getElementById('away').hidden && app.picture.isSettled")
                await ann.tab.until(f"{DRAWN}.length === {len(before) + 1}")
                await ann.tab.value("app.editor.inTurn(() => null)")
                yield f"both steps are done without {name}", difference(house.server.records()[1]["pose"]["dx"], place + 3)
                await ann.settle(house.version)
                yield f"the picture without {name}", await ann.wrong_pixels()
                yield f"the foot with {name}", None if (await ann.text("saved")).startswith("all kept") else await ann.text("saved")
            async for case in older_document(ann, house, folder):
                yield case
            await ann.tab.close()


async def older_document(ann, house, folder):
    """The server comes back with an older copy: what waited is not done, and that is told."""
    copy = Path(folder) / "copy"
    shutil.copytree(house.server.folder, copy)
    house.server.ask(verb="pose", id=1, pose={"dx": 77})
    await ann.settle(house.version)
    house.server.kill()
    await ann.tab.until("!document.getElementById('away').hidden")
    shutil.rmtree(house.server.folder)
    shutil.move(copy, house.server.folder)
    await ann.press("r")
    await ann.drag([200, 400], [220, 420], [250, 450])
    await ann.tab.until("document.getElementById('saved').textContent === 'not kept yet'")
    house.server.start()
    await ann.tab.until("document.getElementById('away').hidden && app.picture.isSettled")
    await ann.tab.until("!document.getElementById('refusal').hidden")
    yield "an older document", None if "What waited for the server was not done" in await ann.text("refusal") else await ann.text("refusal")
    yield "nothing was drawn in it", difference(house.version, await ann.tab.value("app.state.tree.version"))


async def no_seat(browser, gateway, server):
    """A tab that finds no seat shares what others have. Where there are no others it says so, and is served when a seat is free."""
    guests, other = [], Gateway(server)
    try:
        while len(guests) < 70:
            guest = server.connect()
            guests.append(guest)
            guest.ask(verb="point", x=0, y=0)
    except Exception as fault:  # the first that finds no seat
        yield "all seats are taken", None if "NoSeats" in str(fault) else repr(fault)
    shared = await browser.open(gateway.page)
    await shared.until("window.app.picture.isSettled")
    yield "a tab that shares", difference((await shared.value("document.getElementById('away').hidden"), shared.faults), (True, []))
    await shared.close()
    tab = await browser.open(other.page)
    await tab.until("!document.getElementById('away').hidden")
    why = await tab.value("document.getElementById('away-why').textContent")
    yield "a tab without a seat", None if "All seats of the server are taken" in why else why
    yield "its head", difference(await tab.value("document.getElementById('away-head').textContent"), "The server is full.")
    for guest in guests:
        guest.close()
    await tab.until("window.app.picture.isSettled")
    yield "a seat for it", difference(await tab.value("document.getElementById('away').hidden"), True)
    yield "its console", difference(tab.faults, [])
    await tab.close()
    other.close()


STAGES = (away, edits_meanwhile, no_seat)
