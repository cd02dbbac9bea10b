"""What tabs are given of each other's pictures."""

import asyncio
import time

import aiohttp

from puppet import BareTab, Counter, Puppet
from harness.running import difference
from stages.desk import Desk, Gateway

TABS, EDITS = 4, 12
NOTE = """(() => {
  const { link, picture } = app, ask = link.ask.bind(link);
  let newest = picture.tree.version;
  window.older = [], window.shown = [];
  link.addEventListener('version', ({ detail }) => { newest = Math.max(newest, detail.version); });
  link.ask = async (requests) => {
    const seen = newest, replies = await ask(requests), versions = replies.filter(({ ok }) => ok).map(({ version }) => version);
    window.older.push(...versions.filter((version) => version < seen).map((version) => [version, seen]));
    newest = Math.max(newest, ...versions);
    return replies;
  };
  picture.addEventListener('shown', () => window.shown.push(Math.min(...picture.versions, picture.tree.version)));
})()"""
"""Notes what a tab is answered that is older than what it had seen when it asked, and which versions it shows."""


async def same_view(browser, server):
    """Tabs with one view: the server is asked for each tile once, and no tab is shown what is older than what it has seen."""
    counter = Counter(server.address)
    await counter.start()
    gateway, desks = Gateway(counter), []
    try:
        for _ in range(TABS):
            desks.append(await Desk.open(browser, gateway, server))
            await desks[-1].look_at(0, (128, 128))
            await desks[-1].tab.value(NOTE)
        tiles = await desks[0].tab.value("app.view.tiles().length")
        await asyncio.sleep(1)  # by then each session has been asked for a point twice
        counter.verbs.clear()
        for number in range(EDITS):
            await edit_in(desks[number % TABS].tab, number)
            version = server.ask(verb="point", x=0, y=0)[0]["version"]
            for desk in desks:
                await desk.settle(version)
        asked = counter.verbs
        print(f"{EDITS} edits over {TABS} tabs of {tiles} tiles: {asked['tile']} tiles and {asked['export']} exports were asked for")
        yield "tiles are asked for once", None if asked["tile"] <= EDITS * tiles * 3 // 2 else f"{asked['tile']} for {EDITS} times {tiles}"
        yield "exports are asked for once", None if asked["export"] <= EDITS * 3 // 2 else f"{asked['export']} for {EDITS}"
        async for case in edits_at_once(desks, server):
            yield case
    finally:
        for desk in desks:
            await desk.tab.close()
        gateway.close()
        counter.close()


async def edit_in(tab, number):
    """An edit in a tab."""
    await tab.value(f"app.editor.send({{verb: 'pose', id: 1, pose: {{dx: {number % 5}}}}}).then(({{version}}) => version)")


async def edits_at_once(desks, server):
    """Edits in all tabs at once, and of another client."""
    with server.connect() as editor:
        for number in range(4 * EDITS):
            await asyncio.gather(*(edit_in(desk.tab, number + k) for k, desk in enumerate(desks) if number % (k + 1) == 0))
            last, _ = await asyncio.to_thread(editor.ask, verb="pose", id=2, pose={"dx": number % 3})
    for name, desk in enumerate(desks, start=1):
        await desk.settle(last["version"])
        shown = await desk.tab.value("window.shown")
        yield f"tab {name} is answered by nothing older than what it has seen", difference(await desk.tab.value("window.older"), [])
        yield f"tab {name} shows rising versions", difference(shown, sorted(shown))
        yield f"tab {name} showed most of the edits made in turn", None if len(set(shown)) >= EDITS else f"{len(set(shown))} versions"
        yield f"the picture of tab {name}", await desk.wrong_pixels()
        yield f"the console of tab {name}", difference(desk.tab.faults, [])


def tile(col):
    return {"verb": "tile", "col": col, "row": 0}


EDIT = {"verb": "pose", "id": 1, "pose": {}}
NO_MEMORY = {"ok": False, "code": 1, "name": "OutOfMemory"}


class Pair:
    """Two tabs without pages, of the sessions 1 and 2 of a server that the test leads."""

    def __init__(self, puppet, ann, ben):
        self.puppet, self.ann, self.ben = puppet, ann, ben

    async def join(self, request):
        """Ann, who is held, and then Ben ask the same; gives what they will be answered."""
        self.puppet.hold(1)
        first = await self.ann.ask(request)
        await self.puppet.until_asked(request)
        second = await self.ben.ask(request)
        await asyncio.sleep(0.1)
        return first, second

    def sources(self, *batches):
        """Of what run, session and version the pictures of replies are; the name where it is a refusal."""
        return [self.puppet.made[reply["picture"]] if reply["ok"] else reply["name"] for batch in batches for reply in batch]


async def joined(pair):
    """What is on its way for another tab is waited for, and what was answered is given again."""
    first, second = await pair.join(tile(1))
    pair.puppet.let_go(1)
    yield "one answer for two", difference(pair.sources(await first, await second), [(1, 1, 0)] * 2)
    again = await (await pair.ben.ask(tile(1), tile(2)))
    yield "a kept answer and a new one", difference(pair.sources(again), [(1, 1, 0), (1, 2, 0)])
    yield "who asked", difference([pair.puppet.asked_by(tile(1)), pair.puppet.asked_by(tile(2))], [[1], [2]])


async def newer(pair):
    """What was answered before an edit is given to no one who was told of the edit; what is on its way neither."""
    await (await pair.ben.ask(EDIT))
    own = await (await pair.ben.ask(tile(1)))
    await pair.ann.told("version", version=1)
    replies = await (await pair.ann.ask(tile(1), tile(2)))
    yield "after an edit", difference(pair.sources(own, replies), [(1, 2, 1), (1, 2, 1), (1, 1, 1)])
    pair.puppet.hold(1)
    first = await pair.ann.ask(tile(3))
    await pair.puppet.until_asked(tile(3))
    await (await pair.ben.ask(EDIT))
    yield "after an edit, while an older one is on its way", difference(pair.sources(await (await pair.ben.ask(tile(3)))), [(1, 2, 2)])
    pair.puppet.let_go(1)
    await first


async def not_good(pair):
    """An answer that turns out to be older than what was seen is asked again; a refusal is given to the tab that asked alone."""
    for request, reply, wanted, who in [(tile(4), {"ok": True, "version": 1}, [(1, 1, 2)] * 2, [1, 1]), (tile(5), NO_MEMORY, ["OutOfMemory", (1, 2, 2)], [1, 2])]:
        pair.puppet.next[1] = reply
        first, second = await pair.join(request)
        pair.puppet.let_go(1)
        yield f"{reply}: what they are told", difference(pair.sources(await first, await second), wanted)
        yield f"{reply}: who asked", difference(pair.puppet.asked_by(request), who)


async def not_there(pair, client, page):
    """What does not come, or not soon, is asked anew by those who wait for it."""
    begin = time.monotonic()
    first, second = await pair.join(tile(6))
    yield "a tab that does not wait on", difference(pair.sources(await second), [(1, 2, 2)])
    took = time.monotonic() - begin
    yield "how long it waits", None if took < 10 else f"{took:.1f} s"
    pair.puppet.let_go(1)
    await first
    guest = await BareTab.open(client, page)
    await pair.puppet.polled()
    pair.puppet.hold(3)
    (await guest.ask(tile(7))).close()  # no one waits for it
    await pair.puppet.until_asked(tile(7))
    waiting = await pair.ben.ask(tile(7))
    await guest.close()
    yield "a tab that waits for one that is closed", difference(pair.sources(await waiting), [(1, 2, 2)])
    pair.puppet.let_go(3)
    yield "who asked", difference(pair.puppet.asked_by(tile(7)), [3, 2])


async def behind_own_edit(pair):
    """A look behind a tab's own edit is answered after it, whatever is kept."""
    await (await pair.ben.ask(tile(8)))
    pair.puppet.hold(1)
    edit, look = await pair.ann.ask(EDIT), await pair.ann.ask(tile(8))
    await pair.puppet.until_asked(EDIT, 3)
    pair.puppet.let_go(1)
    await edit
    yield "a look behind an own edit", difference(pair.sources(await look), [(1, 1, 3)])


async def other_run(pair):
    """When the server is started again, even with as many edits made, nothing that was kept is given."""
    await pair.puppet.stop()
    await pair.puppet.start()
    for tab in (pair.ann, pair.ben):
        await tab.told("here", 2)
    for name in ("at once", "when both are known to be with one run"):
        found = pair.sources(*[await (await tab.ask(tile(8), tile(1))) for tab in (pair.ann, pair.ben)])
        yield f"pictures of the new run, {name}", difference([(run, version) for run, _, version in found], [(2, 3)] * 4)
        await pair.puppet.polled()
    yield "they are shared again", difference(len({session for _, session, _ in found[::2]}), 1)


async def led():
    """What two tabs are given of each other's answers, beside a server that the test leads."""
    puppet, gateway = Puppet(), None
    await puppet.start()
    try:
        gateway = Gateway(puppet)
        async with aiohttp.ClientSession() as client:
            pair = Pair(puppet, await BareTab.open(client, gateway.page), await BareTab.open(client, gateway.page))
            await puppet.polled()
            for stage in (joined(pair), newer(pair), not_good(pair), not_there(pair, client, gateway.page), behind_own_edit(pair),
                          other_run(pair)):
                async for case in stage:
                    yield case
            for tab in (pair.ann, pair.ben):
                await tab.close()
    finally:
        if gateway is not None:
            gateway.close()
        await puppet.stop()


STAGES = (same_view, led)
