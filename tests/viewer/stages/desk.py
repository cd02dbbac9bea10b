"""What the stages share: a server and a gateway that run, a tab as a user has it, and sheets to draw on."""

import asyncio
import io
import json
import subprocess
import time
from pathlib import Path

from PIL import Image, ImageChops

from browser import CONTROL
from canvas.client import PROGRAM, Canvas
from repository import BUILT_KEEPER, TOP
from harness.running import difference, free_port, until

SECONDS = 90
POSTER = TOP / "examples" / "poster.json"
LEVELS = 7
EDGE = 1 << 21


class Server:
    """A run of the program at an address that stays the same; it can be killed, and started again."""

    feed = None

    def __init__(self, file):
        self.file = file
        self.address = f"127.0.0.1:{free_port()}"
        self._process = None

    def start(self):
        self._run([str(PROGRAM), "serve", self.address, str(self.file), "1"], b"listening\n")

    def _run(self, words, *said):
        self._process = subprocess.Popen(words, stdout=subprocess.PIPE)
        lines = [self._process.stdout.readline() for _ in said]
        if lines != [*said]:
            raise RuntimeError(f"the server says {lines!r}")

    def kill(self):
        if self._process is not None:
            self._process.kill()
            self._process.wait()
            self._process.stdout.close()
            self._process = None

    def connect(self):
        return Canvas.connect(self.address, SECONDS)

    def ask(self, **request):
        """The reply and the body of one request, in a session of its own."""
        with self.connect() as canvas:
            return canvas.ask(**request)

    def records(self):
        """The saved records, by their ids; `parent` and `index` of each, in either format."""
        saved = json.loads(self.ask(verb="export")[1])
        return {record["id"]: {**record, **record.get("place", {})} for record in saved["shapes"]}

    def order(self, parent=None):
        """The ids of a parent's children, from front to back."""
        found = [record for record in self.records().values() if record["parent"] == parent]
        return [record["id"] for record in sorted(found, key=lambda record: record["index"], reverse=True)]


class Keeper(Server):
    """A run of canvasd over a folder, which begins with the document of a file, or empty, with a feed."""

    def __init__(self, folder, file=None, *words):
        super().__init__(file)
        self.folder, self.words = Path(folder) / "kept", words
        self.feed = f"127.0.0.1:{free_port()}"

    def start(self):
        opening = ["--open", str(self.file)] if self.file and not self.folder.exists() else []
        words = [str(BUILT_KEEPER), str(self.folder), "--listen", self.address, "--feed", self.feed, "--workers", "1", "--log", "error", *self.words, *opening]
        self._run(words, f"listening on {self.address}\n".encode(), f"feeding on {self.feed}\n".encode())


class Gateway:
    """A run of the gateway, for a server, or for what stands before it."""

    def __init__(self, server, feed=None):
        feed = feed or getattr(server, "feed", None)
        words = [str(TOP / "bin" / "canvas-gateway"), server.address, "--listen", "127.0.0.1:0", *(["--feed", feed] if feed else [])]
        self._process = subprocess.Popen(words, stdout=subprocess.PIPE)
        self.page = self._process.stdout.readline().decode().strip()
        if not self.page.startswith("http://127.0.0.1:"):
            raise RuntimeError(f"the gateway says {self.page!r}")

    def close(self):
        self._process.terminate()
        self._process.wait()
        self._process.stdout.close()


class Desk:
    """A tab with the page, at which points are told in pixels of the page."""

    def __init__(self, tab, server):
        self.tab, self.server = tab, server

    @classmethod
    async def open(cls, browser, gateway, server):
        desk = cls(await browser.open(gateway.page), server)
        await desk.settle(0)
        return desk

    async def settle(self, version, seconds=SECONDS):
        """Waits until a version at or above this one is shown."""
        await self.tab.until(f"app.picture.isSettled && app.picture.tree.version >= {version}", seconds)

    async def spot(self, point):
        """Where a point of the page lies in the tab; its corner shows its pixel."""
        x, y, *_ = await self.tab.box_of("#stage")
        i, j = await self.tab.value(f"app.view.toWindow({json.dumps(point)})")
        return x + i, y + j

    async def drag(self, *points, modifiers=0):
        await self.tab.drag([await self.spot(point) for point in points], modifiers)

    async def click(self, point):
        await self.tab.drag([await self.spot(point)])

    async def touch(self, *points):
        """A finger goes from point to point of the page."""
        first, *others = [await self.spot(point) for point in points]
        await self.tab.touch("touchStart", first)
        for place in others:
            await self.tab.touch("touchMove", place)
        await self.tab.touch("touchEnd")

    async def press(self, *keys, modifiers=0):
        for key in keys:
            await self.tab.key(key, modifiers)

    async def text(self, name):
        return await self.tab.value(f"document.getElementById({json.dumps(name)}).textContent")

    async def selected(self):
        return await self.tab.value("app.editor.selected")

    async def view(self):
        return await self.tab.value("(({level, left, top, width, height}) => [level, left, top, width, height])(app.view)")

    async def made(self, before):
        """The id of the shape that is selected, when it is another one than before and in the tree."""
        await self.tab.until(f"app.editor.selected !== {json.dumps(before)} && !!app.picture.tree.record(app.editor.selected)")
        return await self.selected()

    async def look_at(self, level, point):
        """Looks at a level, with a point of the page in the middle."""
        await self.tab.value(f"app.zoom({level}), app.view.centre({point[0]}, {point[1]}), app.look()")
        await self.settle(0)

    async def picture(self):
        """What the canvas shows, with no marks, edges of frames and pointers above it; two frames after the last change."""
        await self.tab.value("for (const name of ['people', 'frames', 'lost']) document.getElementById(name).style.visibility = 'hidden'")
        await self.tab.value("document.styleSheets[0].insertRule('#overlay .theirs { visibility: hidden; }')")
        await self.tab.value("app.choose('select'), app.stage.drop(), app.editor.select(null), app.state.enter(null), app.notes.hide(), document.activeElement.blur()")
        await self.tab.value("new Promise((done) => requestAnimationFrame(() => requestAnimationFrame(done)))")
        return Image.open(io.BytesIO(await self.tab.screenshot(await self.tab.box_of("#stage")))).convert("RGB")

    async def wrong_pixels(self):
        """What is wrong with the picture of the canvas, beside the server's patches of the same window."""
        level, left, top, width, height = await self.view()
        shown, wanted = await self.picture(), patches(self.server, level, left, top, width, height)
        if shown.size != wanted.size:
            return f"{shown.size} for {wanted.size}"
        box = ImageChops.difference(shown, wanted).getbbox()
        return box and f"level {level} at {left}, {top}: pixels in {box} differ, as {shown.getpixel(box[:2])} for {wanted.getpixel(box[:2])}"


def patches(server, level, left, top, width, height):
    """The picture of a window of any size, from the server's patches; what lies beside the page has no colour there, and is asked from no one."""
    if level < 0:
        scale = 1 << -level
        first, last = (left // scale, top // scale), ((left + width) // scale + 1, (top + height) // scale + 1)
        found = patches(server, 0, *first, last[0] - first[0], last[1] - first[1])
        found = found.resize((found.width * scale, found.height * scale), Image.Resampling.NEAREST)
        return found.crop((left - first[0] * scale, top - first[1] * scale, left - first[0] * scale + width, top - first[1] * scale + height))
    found = Image.new("RGB", (width, height))
    with server.connect() as canvas:
        for y in range(0, height, 256):
            for x in range(0, width, 256):
                w, h = min(256, width - x), min(256, height - y)
                _, body = canvas.ask(verb="patch", x=left + x, y=top + y, w=w, h=h, **({"level": level} if level else {}))
                found.paste(Image.open(io.BytesIO(body)), (x, y))
    return found


BOX = "(({left, top, right, bottom}) => [left, top, right, bottom])(app.picture.tree.boxOf(%d))"
MIDDLE = "app.view.pointAt([app.view.width / 2, app.view.height / 2]).every((part, k) => Math.abs(part - [%d, %d][k]) <= app.view.scale)"


async def sheet(ann, server, *shapes):
    """An empty sheet in the window: a frame far from all else, with rectangles in it as (x, y, w, h); gives its id, theirs, and its corner."""
    corner = (-3000, 3000)
    with server.connect() as canvas:
        frame, _ = canvas.ask(verb="create", shape={"kind": "group"}, pose={"dx": corner[0], "dy": corner[1]})
        made = [canvas.ask(verb="create", shape={"kind": "rect", "w": w, "h": h, "fill": f"{40 + 50 * k:02x}80c0"}, pose={"dx": x, "dy": y},
                           parent=frame["id"])[0] for k, (x, y, w, h) in enumerate(shapes)]
    await ann.look_at(0, (corner[0] + 200, corner[1] + 200))
    await ann.press("Escape", "Escape", "v")
    await ann.settle((made or [frame])[-1]["version"])
    await ann.tab.value(f"app.state.select([]), app.state.enter({frame['id']})")
    return frame["id"], [reply["id"] for reply in made], corner


def looks_of(server):
    """All records but their index keys, with the order of all siblings."""
    records = server.records()
    order = {parent: server.order(parent) for parent in {record["parent"] for record in records.values()}}
    return {number: [record[name] for name in ("shape", "pose", "hidden", "parent")] for number, record in records.items()}, order


async def back(ann, times=1, key="z", modifiers=CONTROL):
    """Takes back steps, or makes them again, and waits until that is shown."""
    for _ in range(times):
        await ann.press(key, modifiers=modifiers)
        await ann.tab.value("app.editor.send({verb: 'pose', id: 4294967295, pose: {}}).then(() => app.notes.tell(null))")
    await ann.settle(0)


async def boxes(ann, numbers):
    """The boxes of shapes on the page, of the newest version."""
    await ann.tab.value("app.editor.send({verb: 'pose', id: 4294967295, pose: {}}).then(() => app.notes.tell(null))")
    await ann.settle(0)
    return [await ann.tab.value(BOX % number) for number in numbers]


def at(corner, *points):
    """Points of a sheet, on the page."""
    return [[corner[0] + x, corner[1] + y] for x, y in points]


async def seen(ann, ben, name, edit):
    """An edit of Ann's that Ben sees."""
    version = server_version = ann.server.ask(verb="point", x=0, y=0)[0]["version"]
    await edit()
    end = time.monotonic() + SECONDS
    while server_version == version and time.monotonic() < end:
        server_version = ann.server.ask(verb="point", x=0, y=0)[0]["version"]
        await asyncio.sleep(0.005)
    yield f"{name}: an edit was made", None if server_version > version else "none"
    await ben.settle(version + 1)
    await ann.settle(version + 1)


async def becomes(tab, script, wanted):
    """What is wrong with a value in a page that is to become this soon, or None."""
    end = time.monotonic() + SECONDS
    while (found := await tab.value(script)) != wanted and time.monotonic() < end:
        await asyncio.sleep(0.05)
    return difference(found, wanted)


async def downloaded(folder, name):
    """A file that is downloaded, when it is whole."""
    file = Path(folder) / name
    await until(file.exists)
    await asyncio.sleep(0.1)
    return file.read_bytes()
