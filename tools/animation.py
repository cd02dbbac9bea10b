#!/usr/bin/python3
"""Takes the moving picture that README.md shows, docs/pictures/viewer-demo.png: the demo, in which the two bots draw, and then its past, played.

usage: tools/animation.py

It is a PNG with more than one frame (APNG) and one palette: each frame has what changed since the last one, and is transparent elsewhere.
"""

import asyncio
import collections
import io
import itertools
import struct
import sys
import zlib

from PIL import Image, ImageChops, ImageDraw

from browser import Browser
from pictures import running_demo
from repository import TOP

PICTURE = TOP / "docs" / "pictures" / "viewer-demo.png"
SIZE = (1112, 768)
COLOURS, APART = 160, 8
PAUSE, LAST = 100, 3000
"""How long a frame is shown, and the last one, in milliseconds."""
DRAWN, BACK, FORTH = 30, 8, 36
"""How many frames the bots draw, and in how many the slider goes back and comes again."""
ARROW = [(0, 0), (0, 17), (4, 13), (7, 20), (10, 19), (7, 12), (12, 12)]


# -- frames ------------------------------------------------------------------------------------------------------------

def with_pointer(image, place):
    """The picture of a tab with the pointer in it, which the browser does not show."""
    points = [(place[0] + x, place[1] + y) for x, y in ARROW]
    ImageDraw.Draw(image).polygon(points, fill="#14202f", outline="#ffffff")
    return image


class Film:
    """The frames of a tab."""

    def __init__(self, tab):
        self.tab, self.frames = tab, []

    async def take(self, has_pointer=True):
        await self.tab.value("new Promise((done) => requestAnimationFrame(() => requestAnimationFrame(done)))")
        image = Image.open(io.BytesIO(await self.tab.screenshot())).convert("RGB")
        self.frames.append(with_pointer(image, self.tab.place) if has_pointer else image)


# -- the file ----------------------------------------------------------------------------------------------------------

def palette_of(frames):
    """A palette that does for all frames: the colours that are most often there, of those near each other the first. Colour 0, which none has,
    is left for what is transparent."""
    count, chosen = collections.Counter(), []
    for frame in frames[::8] + frames[-1:]:
        count.update({colour: number for number, colour in frame.getcolors(1 << 24)})
    for colour, _ in count.most_common():
        if len(chosen) < COLOURS and all(max(abs(a - b) for a, b in zip(colour, other)) >= APART for other in chosen):
            chosen.append(colour)
    found = Image.new("P", (1, 1))
    found.putpalette([255, 0, 255, *(part for colour in chosen for part in colour)])
    return found


def indexed(frames):
    """The frames as numbers of the colours of one palette, and that palette."""
    palette = palette_of(frames)
    rows = [frame.quantize(palette=palette, dither=Image.Dither.NONE).tobytes() for frame in frames]
    return [Image.frombytes("L", SIZE, it) for it in rows], palette.getpalette()[:3 * COLOURS + 3]


def chunk(kind, data):
    return struct.pack(">I", len(data)) + kind + data + struct.pack(">I", zlib.crc32(kind + data))


def packed(image):
    """The pixels of a picture with a palette, as a PNG has them."""
    rows = image.tobytes()
    return zlib.compress(b"".join(b"\0" + rows[k:k + image.width] for k in range(0, len(rows), image.width)), 9)


def changed(before, now):
    """What changed between two pictures: its box, and its pixels, with 0 where nothing changed."""
    is_changed = ImageChops.difference(before, now).point(lambda part: 255 if part else 0)
    box = is_changed.getbbox()
    if box is None:
        return None, None
    found = Image.new("L", now.size)
    found.paste(now, mask=is_changed)
    return box, found.crop(box)


def parts_of(images):
    """What is shown in turn: boxes, with what is new in them, and for how long. Pictures that look alike are one."""
    found = [[(0, 0, *SIZE), images[0], PAUSE]]
    for before, now in zip(images, images[1:]):
        box, image = changed(before, now)
        if box is None:
            found[-1][2] += PAUSE
        else:
            found.append([box, image, PAUSE])
    found[-1][2] = LAST
    return found


def apng(frames):
    """The bytes of an APNG. Where it does not move, the last frame is shown."""
    images, colours = indexed(frames)
    parts, number = parts_of(images), itertools.count()
    out = [b"\x89PNG\r\n\x1a\n", chunk(b"IHDR", struct.pack(">IIBBBBB", *SIZE, 8, 3, 0, 0, 0)), chunk(b"PLTE", bytes(colours)), chunk(b"tRNS", b"\0"),
           chunk(b"acTL", struct.pack(">II", len(parts), 0)), chunk(b"IDAT", packed(images[-1]))]
    for (left, top, right, bottom), image, pause in parts:
        out.append(chunk(b"fcTL", struct.pack(">IIIIIHHBB", next(number), right - left, bottom - top, left, top, pause, 1000, 0, 1)))
        out.append(chunk(b"fdAT", struct.pack(">I", next(number)) + packed(image)))
    return b"".join([*out, chunk(b"IEND", b"")])


# -- the scene ---------------------------------------------------------------------------------------------------------

async def press(found, tab, selector):
    """Goes with the pointer to the middle of an element, and presses there."""
    (x1, y1), (left, top, w, h) = tab.place, await tab.box_of(selector)
    x2, y2 = left + w / 2, top + h / 2
    for step in range(1, 6):
        await tab.pointer("mouseMoved", x1 + (x2 - x1) * step / 5, y1 + (y2 - y1) * step / 5, held=False)
        await found.take()
    await tab.click(x2, y2)
    await found.take()


async def slide(found, tab, version):
    """Goes to a version with the pointer on the slider."""
    left, top, w, h = await tab.box_of("#past-slider")
    newest = await tab.value("app.past.newest")
    await tab.pointer("mouseMoved", left + 8 + (w - 16) * version / newest, top + h / 2, held=False)
    await tab.value(f"app.past.go({version})")
    await tab.until(f"app.past.picture.versions[0] === {version} && app.past.picture.isFull")
    await found.take()


async def film(page):
    """The frames: the bots draw, and the slider goes back to an empty page and comes again."""
    async with Browser(*SIZE) as browser:
        tab = await browser.open(page)
        await tab.until("app.picture.isSettled")
        await tab.pointer("mouseMoved", 420, 700, held=False)
        await asyncio.sleep(25)
        found = Film(tab)
        for _ in range(DRAWN):
            await found.take()
        await press(found, tab, '[data-act="past"]')
        await tab.until("app.past.isOn && app.past.picture.isFull")
        newest = await tab.value("app.past.version")
        for step in [*range(BACK, -1, -1), *(BACK * it / FORTH for it in range(1, FORTH + 1))]:
            await slide(found, tab, round(newest * step / BACK))
        await press(found, tab, '#past [data-act="cancel"]')
        await tab.until("!app.past.isOn && app.picture.isSettled")
        await found.take()
        if tab.faults:
            sys.exit(f"the console says {tab.faults}")
        return found.frames


async def main():
    with running_demo() as (page, _):
        frames = await film(page)
    data = apng(frames)
    PICTURE.write_bytes(data)
    print(f"{PICTURE.relative_to(TOP)}: {len(frames)} frames, {len(data):,} bytes")


if __name__ == "__main__":
    asyncio.run(main())
