#!/usr/bin/python3
"""How soon edits are seen in others' tabs, beside the built canvasd with its feed.

usage: bench/live.py [shapes ..]      120, 4000 and 16384 where none are named

For each document one tab with the page, in a headless Chromium with a window of 1200 by 800, and 20 tabs without a page, which ask as the page does: for
the tiles that an edit may have changed, and for their pictures. All see the whole document. Measured are

- how long after an edit was begun in the page each of the 20 others has the picture of it, thirty times
- how many pictures a second the page shows while a friend moves a shape thirty times a second, for five seconds
- how many requests the server was asked for an edit, and how many bytes went to the page for one
"""

import asyncio
import json
import os
import statistics
import sys
import tempfile
import time
from pathlib import Path

import aiohttp

TOP = Path(__file__).resolve().parent.parent
sys.path[:0] = [str(TOP / it) for it in ("python", "tools", "tests", "tests/models", "tests/viewer")]
import key_rows  # noqa: E402
from browser import Browser  # noqa: E402
from puppet import Counter, LiveTab  # noqa: E402
from stages.desk import Desk, Gateway, Keeper  # noqa: E402

OTHERS, EDITS, MOVES, SECONDS = 20, 30, 30, 5
STEP = 24
WATCH = """window.seen = [], app.picture.addEventListener('shown', () => { const version = app.picture.versions.at(-1);
  if (app.picture.versions.length === 1 && window.seen.at(-1)?.[0] !== version) window.seen.push([version, Date.now()]); }), 0"""
EDIT = """(async (dx) => {
  const begin = Date.now();
  const reply = await app.editor.send({ verb: "pose", id: 1, pose: { dx, dy: dx } });
  return [reply.version, begin];
})(%d)"""
BYTES = "app.link.taken"


def document(count):
    """A saved document of a square of small shapes, of all kinds, in frames of 64."""
    side = next(side for side in range(1, 200) if side * side >= count)
    shapes = []
    for number in range(count):
        is_frame = number % 64 == 0 and number > 0
        parent = number // 64 * 64 + 1 if number % 64 and number > 64 else None
        x, y = (number % side * STEP, number // side * STEP) if parent is None else (number % 64 % 8 * STEP, number % 64 // 8 * STEP)
        fill = f"{number * 4099 % (1 << 24):06x}"
        kind = [{"kind": "rect", "w": 20, "h": 16}, {"kind": "ellipse", "w": 20, "h": 20}, {"kind": "polygon", "points": [[0, 0], [20, 4], [9, 20]]}][number % 3]
        shape = {"kind": "frame", "w": 200, "h": 200, "fill": None} if is_frame else {**kind, "fill": fill}
        shapes.append({"hidden": False, "id": number + 1, "place": {"index": key_rows.fresh(number), "parent": parent},
                       "pose": {"dx": x, "dy": y, "flip": False, "quarter": 0}, "shape": shape})
    return {"format": 2, "next": count + 1, "shapes": shapes}


def middle(times):
    rising = sorted(times)
    return f"{statistics.median(rising):.0f} ms in the middle, 99 of 100 within {rising[len(rising) * 99 // 100]:.0f}, {rising[-1]:.0f} at most"


async def edits(desk, others, counter):
    """Edits in the page, until all others have the picture."""
    waits, own = [], []
    counter.verbs.clear()
    for number in range(EDITS):
        version, begin = await desk.tab.value(EDIT % (number % 7 * 3))
        await asyncio.gather(*(tab.reached(version) for tab in others))
        waits += [1000 * tab.when(version) - begin for tab in others]
        await desk.settle(version)
        own.append(await desk.tab.value(f"window.seen.find(([version]) => version >= {version})[1]") - begin)
        await asyncio.sleep(0.2)
    print(f"  an edit is seen in {len(others)} others: {middle(waits)}; in its own tab: {middle(own)}", flush=True)
    print(f"  asked for one: {counter.verbs['tile'] / EDITS:.1f} tiles, {counter.verbs['export'] / EDITS:.1f} documents", flush=True)


async def moves(desk, friend):
    """A friend's moves, as the page shows them."""
    before, begin = await desk.tab.value("window.seen.length"), time.monotonic()
    replies = []
    for number in range(MOVES * SECONDS):
        replies.append(await friend.ask({"verb": "pose", "id": 1, "pose": {"dx": number * 3 % 400, "dy": number % 100}}))
        await asyncio.sleep(max(0, begin + (number + 1) / MOVES - time.monotonic()))
    took = time.monotonic() - begin
    shown = await desk.tab.value(f"window.seen.slice({before})")
    await asyncio.gather(*replies)
    gaps = sorted(b[1] - a[1] for a, b in zip(shown, shown[1:]))
    print(f"  a friend's {MOVES * SECONDS / took:.0f} moves a second: {len(shown) / took:.1f} pictures a second, {gaps[len(gaps) * 95 // 100]} ms "
          "between 95 of 100 of them at most", flush=True)


async def measure(browser, client, folder, count):
    file = Path(folder) / f"{count}.json"
    file.write_text(json.dumps(document(count)))
    server = Keeper(Path(folder) / str(count), file)
    server.folder.parent.mkdir()
    server.start()
    counter, gateway = Counter(server.address), None
    await counter.start()
    try:
        gateway = Gateway(counter, server.feed)
        desk = await Desk.open(browser, gateway, server)
        await desk.tab.value(WATCH)
        tiles = await desk.tab.value("app.view.tiles().map(({ level, col, row }) => [level, col, row])")
        others = [await LiveTab.open(client, gateway.page, [tuple(tile) for tile in tiles]) for _ in range(OTHERS)]
        await asyncio.sleep(3)
        print(f"{count} shapes, load {os.getloadavg()[0]:.1f}", flush=True)
        await edits(desk, others, counter)
        bytes_before = await desk.tab.value(BYTES)
        await moves(desk, others[0])
        print(f"  {(await desk.tab.value(BYTES) - bytes_before) / MOVES / SECONDS / 1000:.1f} kB of pictures for a move", flush=True)
        for tab in others:
            await tab.close()
        await desk.tab.close()
    finally:
        if gateway is not None:
            gateway.close()
        counter.close()
        server.kill()


async def main():
    counts = [int(word) for word in sys.argv[1:]] or [120, 4000, 16384]
    print(f"{os.cpu_count()} cores")
    with tempfile.TemporaryDirectory() as folder:
        async with Browser() as browser, aiohttp.ClientSession() as client:
            for count in counts:
                await measure(browser, client, folder, count)


if __name__ == "__main__":
    asyncio.run(main())
