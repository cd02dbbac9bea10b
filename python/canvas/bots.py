"""Two bots that draw on a page: Mira plants flowers, and Theo builds a town and lets a balloon fly.

usage: python3 -m canvas.bots http://127.0.0.1:8080/

Each is a tab without a window, with a name and a pointer that all others see. They draw while somebody looks, and stop
while the page's switch says so. Each keeps to a sheet of its own, and takes away the oldest of its things when that is
full.
"""

from __future__ import annotations

import asyncio
import collections
import contextlib
import itertools
import math
import random
import signal
import sys
from typing import Any, Dict, Tuple

from canvas.needs import end_without

try:
    import aiohttp
except ModuleNotFoundError as missing:
    end_without("canvas-demo", missing)

FRAMES = 20
"""How many places of the pointer are told a second."""
SPEED = 4000
"""How many pixels of the page a pointer goes in a second."""
MOST = 10
"""How many things a bot leaves on its sheet."""
SHEET = {"w": 6272, "h": 1536}
PLACES = [(0, 8704), (6528, 8704)]
PATIENCE = 30
RETRY = 2


Reply = Dict[str, Any]
Place = Tuple[float, float]
Thing = Tuple[int, Place]
"""What a bot drew: its id, and a place in it."""
Held = Tuple[int, int, int]
"""A shape that a pointer holds, and where it lies from that."""


class Lost(Exception):
    """An edit was not made: the server is away, or what the bot draws on is gone."""


def spot_of(record: dict[str, Any]) -> tuple[int | None, int, int]:
    """What a shape lies in, and where in it."""
    return record["place"]["parent"], record["pose"]["dx"], record["pose"]["dy"]


class Bot:
    """A tab without a window: its WebSocket, its pointer, and its sheet."""

    _socket: aiohttp.ClientWebSocketResponse

    def __init__(self, name: str, colour: str, place: tuple[int, int], fill: str) -> None:
        self.name, self.colour, self.place, self.fill = name, colour, place, fill
        self._at = [place[0] + SHEET["w"] // 2, place[1] + SHEET["h"] // 2]
        self._numbers = itertools.count()
        self._waiting: dict[int, asyncio.Future[list[Reply]]] = {}
        self._people: dict[int | None, dict[str, Any]] = {}
        self._you: int | None = None
        self._is_on = asyncio.Event()

    async def live(self, client: aiohttp.ClientSession, page: str) -> None:
        """Draws for ever; comes again where the gateway went away."""
        while True:
            with contextlib.suppress(aiohttp.ClientError, OSError):
                async with client.ws_connect(f"{page}session", max_msg_size=0) as self._socket:
                    await self._say(me={"name": self.name, "colour": self.colour, "bot": True})
                    await self._until_lost()
            await asyncio.sleep(RETRY)

    async def _until_lost(self) -> None:
        work = asyncio.create_task(self._work())
        try:
            async for message in self._socket:
                self._hear(message.json())
        finally:
            work.cancel()
            for answer in self._waiting.values():
                answer.cancel()
            await asyncio.wait([work])

    def _hear(self, message: dict[str, Any]) -> None:
        if message.get("say") == "people":
            self._see(message)
        elif message.get("batch") in self._waiting:
            self._waiting.pop(message["batch"]).set_result(message["replies"])

    def _see(self, message: dict[str, Any]) -> None:
        """Sees who is there: it draws while somebody looks who is no bot, and nobody has switched the bots off."""
        if message.get("all"):
            self._people = {}
        self._people.update((person["id"], person) for person in message["people"])
        for number in message["gone"]:
            self._people.pop(number, None)
        self._you = message.get("you", self._you)
        is_seen = any("bot" not in person for person in self._people.values())
        is_on = self._people[self._you].get("bot", True) and is_seen
        (self._is_on.set if is_on else self._is_on.clear)()

    async def _say(self, **what: Any) -> None:
        await self._socket.send_json(what)

    async def _work(self) -> None:
        while True:
            await self._rest(1)
            with contextlib.suppress(Lost, asyncio.TimeoutError):
                await self._draw(*await self.begin())

    async def _draw(self, sheet: int, things: collections.deque[Thing]) -> None:
        """Draws one thing after the other on a sheet on which things are, the oldest first."""
        while True:
            if len(things) >= MOST:
                await self.take(things.popleft())
            things.append(await self.draw_thing(sheet))
            await self._rest(1)

    async def begin(self) -> tuple[int, collections.deque[Thing]]:
        """The sheet and the things on it: those that are there from an earlier run, or a new sheet."""
        reply, = await self.ask({"verb": "export"})
        records = reply["document"]["shapes"]
        frames = [it for it in records if it["shape"]["kind"] == "frame"]
        sheet = next((it["id"] for it in frames if spot_of(it) == (None, *self.place)), None)
        if sheet is None:
            return await self.make({"kind": "frame", **SHEET, "fill": self.fill}, *self.place), collections.deque()
        on_it = [it for it in records if it["place"]["parent"] == sheet]
        for record in on_it:
            if record["shape"]["kind"] != "group":
                await self.ask({"verb": "delete", "id": record["id"]})
        return sheet, collections.deque((it["id"], spot_of(it)[1:]) for it in on_it if it["shape"]["kind"] == "group")

    async def draw_thing(self, sheet: int) -> Thing:
        """Draws the next thing; gives its id, and a place in it."""
        raise NotImplementedError

    # -- what a hand does ------------------------------------------------------------------------------------------

    async def _rest(self, seconds: float) -> None:
        """Waits, for as long as nobody looks or the bots are switched off too."""
        await asyncio.sleep(seconds)
        await self._is_on.wait()

    async def ask(self, *requests: dict[str, Any]) -> list[Reply]:
        """The replies to edits."""
        number = next(self._numbers)
        answer: asyncio.Future[list[Reply]] = asyncio.get_running_loop().create_future()
        self._waiting[number] = answer
        await self._say(batch=number, requests=requests)
        replies = await asyncio.wait_for(answer, PATIENCE)
        if not replies or not all(reply["ok"] for reply in replies):
            raise Lost
        return replies

    async def make(self, shape: dict[str, Any], x: float, y: float, parent: int | None = None) -> int:
        pose = {"dx": round(x), "dy": round(y)}
        reply, = await self.ask({"verb": "create", "shape": shape, "pose": pose, "parent": parent})
        return int(reply["id"])

    async def point(self, x: float, y: float, held: Held | None = None) -> None:
        """Moves the pointer to a place of the sheet, and what it holds with it: a shape and where that lies from the
        pointer."""
        (x1, y1), (x2, y2) = self._at, (self.place[0] + x, self.place[1] + y)
        steps = max(1, math.ceil(math.dist((x1, y1), (x2, y2)) / SPEED * FRAMES))
        for step in range(1, steps + 1):
            part = (1 - math.cos(math.pi * step / steps)) / 2
            self._at = [round(x1 + part * (x2 - x1)), round(y1 + part * (y2 - y1))]
            await self._say(pointer=self._at)
            if held:
                number, across, down = held
                pose = {"dx": self._at[0] - self.place[0] + across, "dy": self._at[1] - self.place[1] + down}
                await self.ask({"verb": "pose", "id": number, "pose": pose})
            await asyncio.sleep(1 / FRAMES)

    async def put(self, shape: dict[str, Any], x: float, y: float, parent: int, middle: Place) -> int:
        """Points where a shape is to be, and makes it in a group that lies in the middle of it."""
        await self.point(middle[0] + x + shape.get("w", 0) / 2, middle[1] + y + shape.get("h", 0) / 2)
        made = await self.make(shape, x, y, parent)
        await self._rest(0.15)
        return made

    async def take(self, thing: Thing) -> None:
        """Takes a thing away."""
        number, place = thing
        await self.point(*place)
        await self.ask({"verb": "delete", "id": number})
        await self._rest(0.3)


class Mira(Bot):
    """Plants flowers."""

    PETALS = ("e4572e", "f2a541", "d81e5b", "8f5bd6", "f7f3e9", "4f86f7")

    def __init__(self) -> None:
        super().__init__("Mira", "b8336a", PLACES[0], "dcebc8")
        self._column = 0

    async def draw_thing(self, sheet: int) -> Thing:
        x, y = 420 + self._column % MOST * 600 + random.randint(-60, 60), random.randint(380, 560)
        self._column += 1
        group = await self.make({"kind": "group"}, x, y, sheet)
        await self.put({"kind": "rect", "w": 48, "h": SHEET["h"] - y - 80, "fill": "3f7d3a"}, -24, 0, group, (x, y))
        leaf = {"kind": "polygon", "points": [[0, 0], [240, -150], [200, 30]], "fill": "5a9e4b"}
        await self.put(leaf, 24, 560, group, (x, y))
        petals, fill = random.choice((5, 6, 8)), random.choice(self.PETALS)
        for number in range(petals):
            angle = 2 * math.pi * number / petals
            across, down = 180 * math.cos(angle), 180 * math.sin(angle)
            petal = {"kind": "ellipse", "w": 220, "h": 220, "fill": fill}
            await self.put(petal, round(across) - 110, round(down) - 110, group, (x, y))
        await self.put({"kind": "ellipse", "w": 200, "h": 200, "fill": "f9d65c"}, -100, -100, group, (x, y))
        return group, (x, y)


class Theo(Bot):
    """Builds houses, and lets a balloon fly over them."""

    WALLS = ("e9d8a6", "f4b393", "c9d6df", "d5c4e8", "f2e2ba")
    ROOFS = ("9b2226", "6b4f3a", "34568b", "7a3b69")

    def __init__(self) -> None:
        super().__init__("Theo", "1f6f8b", PLACES[1], "cfe6f5")
        self._column = 0
        self._balloon: tuple[int, Place] | None = None

    async def begin(self) -> tuple[int, collections.deque[Thing]]:
        self._balloon = None
        return await super().begin()

    async def draw_thing(self, sheet: int) -> Thing:
        left, w, h = 120 + self._column % MOST * 600, random.randint(380, 460), random.randint(420, 700)
        top = SHEET["h"] - 80 - h
        self._column += 1
        group = await self.make({"kind": "group"}, left, top, sheet)
        await self.put({"kind": "rect", "w": w, "h": h, "fill": random.choice(self.WALLS)}, 0, 0, group, (left, top))
        roof = {"kind": "polygon", "points": [[-40, 0], [w // 2, -240], [w + 40, 0]], "fill": random.choice(self.ROOFS)}
        await self.put(roof, 0, 0, group, (left, top))
        for row, column in itertools.product(range(h // 220), range(2)):
            window = {"kind": "rect", "w": 100, "h": 120, "fill": "fdf6d8"}
            await self.put(window, 60 + column * (w - 220), 70 + row * 200, group, (left, top))
        await self.put({"kind": "rect", "w": 90, "h": 150, "fill": "5b3a29"}, w // 2 - 45, h - 150, group, (left, top))
        await self._fly(sheet)
        return group, (left + w / 2, top + h / 2)

    async def _fly(self, sheet: int) -> None:
        """Carries the balloon to another place above the roofs."""
        if self._balloon is None:
            balloon = {"kind": "ellipse", "w": 300, "h": 360, "fill": "e63946"}
            self._balloon = await self.make(balloon, 500, 60, sheet), (650, 240)
        number, here = self._balloon
        place = random.randint(300, SHEET["w"] - 300), random.randint(220, 420)
        await self.point(*here)
        await self.point(*place, held=(number, -150, -180))
        self._balloon = number, place


async def main(page: str) -> None:
    print("the bots are there", flush=True)
    async with aiohttp.ClientSession() as client:
        await asyncio.gather(*(bot.live(client, page) for bot in (Mira(), Theo())))


if __name__ == "__main__":
    signal.signal(signal.SIGTERM, lambda *_: sys.exit(0))
    with contextlib.suppress(KeyboardInterrupt):
        asyncio.run(main(sys.argv[1]))
