"""Names of shapes: all tabs have them, and so have copies and pictures."""

from browser import CONTROL
from harness.running import difference
from stages.desk import Desk, boxes, sheet

NAME = "document.getElementById('shape-head').textContent"
GIVE = "(() => { const it = document.getElementById('field-name'); it.value = '%s'; it.dispatchEvent(new Event('change')); })()"


async def shared(browser, gateway, ann, ben, server):
    """Ann gives a name: Ben sees it, a tab that comes later too, and a copy has it."""
    frame, (one,), corner = await sheet(ann, server, (20, 20, 60, 40))
    await ben.settle(server.ask(verb="point", x=0, y=0)[0]["version"])
    for desk in (ann, ben):
        await desk.tab.value(f"app.state.select([{one}])")
    await ann.tab.value(GIVE % "Logo <1>")
    await ben.tab.until(f"{NAME} === 'Logo <1>'")
    yield "Ben sees it", difference(await ben.tab.value(NAME), "Logo <1>")
    await ben.tab.value("localStorage.removeItem('canvas.names')")
    guest = await Desk.open(browser, gateway, server)
    await guest.tab.value(f"app.state.select([{one}])")
    await guest.tab.until(f"{NAME} === 'Logo <1>'")
    yield "so does who comes later", difference(await guest.tab.value(NAME), "Logo <1>")
    await guest.tab.close()
    await ann.press("d", modifiers=CONTROL)
    copied = await ann.made(one)
    yield "a copy beside it has the name", difference(await ann.tab.value(NAME), "Logo <1>")
    await ben.settle(server.ask(verb="point", x=0, y=0)[0]["version"])
    await ben.tab.value(f"app.state.select([{copied}])")
    await ben.tab.until(f"{NAME} === 'Logo <1>'")
    yield "Ben sees that too", difference(await ben.tab.value(NAME), "Logo <1>")
    await ann.tab.value(f"app.state.select([{frame}])")
    await ann.tab.key("c", CONTROL, commands=["copy"])
    await ann.tab.key("v", CONTROL, commands=["paste"])
    pasted = await ann.made(frame)
    names = await ann.tab.value("[...document.querySelectorAll('.row .name')].map((it) => it.textContent).filter((name) => name === 'Logo <1>').length")
    yield "what is pasted has its names, however deep", difference(names, 4)
    text = await ann.tab.value("import('./page/svg.js').then(({ svgOf }) => svgOf(app.state.tree, [app.state.record]))")
    yield "a picture as SVG has them", difference(text.count("<title>Logo &lt;1&gt;</title>"), 2)
    await ann.tab.value(f"app.state.select([{one}])")
    await ann.tab.value(GIVE % "")
    await ben.tab.value(f"app.state.select([{one}])")
    await ben.tab.until(f"{NAME} === 'Rectangle {one}'")
    yield "it is taken away for all", difference(await ben.tab.value(NAME), f"Rectangle {one}")
    await ann.tab.value(f"app.state.select([{pasted}, {frame}])")
    await ann.press("Delete")
    await boxes(ann, [])


STAGES = (shared,)
