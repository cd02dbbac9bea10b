#!/usr/bin/python3
"""What the viewer takes of time and of requests, in a headless Chromium beside the built canvasd with its feed.

usage: bench/viewer.py [shapes, 4000 where it is left out]

The document is that of bench/live.py, which measures how soon edits are seen. Requests of one tab are counted between the gateway and the server. Measured
are, in a window of 1200 by 800:

- the time from a page's begin until its whole view is shown, ten times
- frames while panning for five seconds, a step with each frame; and how many of them showed all tiles
- requests a second that a tab makes when idle, and when panning
"""

import asyncio
import json
import os
import statistics
import sys
import tempfile
from pathlib import Path

from live import document

TOP = Path(__file__).resolve().parent.parent
sys.path[:0] = [str(TOP / it) for it in ("python", "tools", "tests", "tests/models", "tests/viewer")]
from browser import Browser  # noqa: E402
from puppet import Counter  # noqa: E402
from stages.desk import Gateway, Keeper  # noqa: E402

VIEWS, SECONDS = 10, 5
SETTLED = "new Promise((done) => { const look = () => window.app?.picture.isSettled ? done(performance.now()) : setTimeout(look, 1); look(); })"
PAN = """new Promise((done) => {
  const begin = performance.now(), times = [];
  let full = 0;
  const step = (now) => {
    times.push(now);
    full += app.picture.isFull;
    const angle = (now - begin) / 1000;
    app.pan(Math.round(14 * Math.cos(angle)), Math.round(14 * Math.sin(angle)));
    if (now - begin < %d) requestAnimationFrame(step);
    else done([times.slice(1).map((time, k) => time - times[k]), full / times.length]);
  };
  requestAnimationFrame(step);
})"""


async def first_views(browser, page):
    times = []
    for _ in range(VIEWS):
        tab = await browser.open(page)
        times.append(await tab.value(SETTLED))
        await tab.close()
    print(f"first full view: {statistics.median(times):.0f} ms in the middle, {min(times):.0f} to {max(times):.0f}", flush=True)


async def rate(counter, doing):
    """Requests a second while something is done."""
    loop = asyncio.get_running_loop()
    before, begin = counter.requests, loop.time()
    found = await doing
    return (counter.requests - before) / (loop.time() - begin), found


async def one_tab(browser, page, counter):
    tab = await browser.open(page)
    await tab.value(SETTLED)
    idle, _ = await rate(counter, asyncio.sleep(SECONDS))
    panning, (steps, full) = await rate(counter, tab.value(PAN % (1000 * SECONDS)))
    rising = sorted(steps)
    print(f"panning: {1000 * len(steps) / sum(steps):.0f} frames/s, 99 of 100 within {rising[len(rising) * 99 // 100]:.0f} ms, "
          f"{100 * full:.0f} % with all their tiles", flush=True)
    print(f"requests a second of a tab: {idle:.1f} idle, {panning:.0f} panning", flush=True)
    await tab.close()


async def main():
    count = int(sys.argv[1]) if len(sys.argv) > 1 else 4000
    with tempfile.TemporaryDirectory() as folder:
        file = Path(folder) / "document.json"
        file.write_text(json.dumps(document(count)))
        server = Keeper(folder, file)
        server.start()
        counter, gateway = Counter(server.address), None
        await counter.start()
        try:
            gateway = Gateway(counter, server.feed)
            print(f"{os.cpu_count()} cores, load {os.getloadavg()[0]:.1f}, {count} shapes")
            async with Browser() as browser:
                await first_views(browser, gateway.page)
                await one_tab(browser, gateway.page, counter)
        finally:
            if gateway is not None:
                gateway.close()
            counter.close()
            server.kill()


if __name__ == "__main__":
    asyncio.run(main())
