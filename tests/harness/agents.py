"""Agents of hosts (canvas-store's own code) over a database in memory, so that what they promise can be tried where there is no PostgreSQL."""

import asyncio
import threading
import time
from pathlib import Path

from canvas.store import agent, holding, serving, statements
from canvas.store.database import Away, Database

LEASE, OWN, BEAT = 4, 3, 0.3
"""The times of these agents, shorter than in earnest."""


class Row:
    """A document: its row, openings and turns."""

    def __init__(self, number):
        self.id, self.epoch, self.holder, self.held, self.wanted, self.generation, self.turn = number, 0, None, 0, None, 0, 0
        self.openings, self.turns = {}, {}


class Base:
    """What all hosts share. `taken` has who took which document, and when."""

    def __init__(self):
        self.lock, self.rows, self.leases, self.taken = threading.Lock(), {}, {}, []
        names = ("MAKE", "TAKE", "WANT", "WANT_NO_MORE", "HOLDER", "RELEASE", "RELEASE_NAME", "RELEASE_ALL", "BEGIN", "TURN", "STATE", "OPENING", "TURNS",
                 "RENEW", "WANTED", "EPOCHS")
        self._calls = {getattr(statements, it): getattr(self, it.lower()) for it in names}

    def do(self, statement, values):
        """The rows of a statement of the agent's."""
        with self.lock:
            return self._calls[statement](**values)

    def _of(self, id, epoch=None):
        return next((it for it in self.rows.values() if it.id == id and epoch in (None, it.epoch)), None)

    def make(self, name):
        self.rows.setdefault(name, Row(len(self.rows) + 1))
        return []

    def take(self, host, name):
        row = self.rows[name]
        if row.holder not in (None, host) and self.leases.get(row.holder, 0) > time.monotonic():
            return []
        row.epoch, row.holder, row.held, row.wanted = row.epoch + 1, host, time.monotonic(), None
        self.taken.append((host, name, time.monotonic()))
        return [(row.id, row.epoch, row.generation, row.turn)]

    def want(self, host, name):
        self.rows[name].wanted = host
        return []

    def want_no_more(self, host, name):
        return []

    def holder(self, name):
        return [(self.rows[name].holder,)] if name in self.rows else []

    def release(self, id, epoch):
        row = self._of(id, epoch)
        if row:
            row.holder = row.wanted = None
        return []

    def release_name(self, host, name):
        return []

    def release_all(self, host):
        for row in self.rows.values():
            if row.holder == host:
                row.holder = row.wanted = None
        return []

    def begin(self, id, epoch, generation, turn, opening):
        row = self._of(id, epoch)
        if not row or row.generation != generation:
            return []
        row.generation, row.turn = generation + 1, 0
        row.openings[row.generation] = opening
        return [(1,)]

    def turn(self, id, epoch, generation, turn, **parts):
        row = self._of(id, epoch)
        if not row or (row.generation, row.turn) != (generation, turn):
            return []
        row.turn += 1
        row.turns.setdefault(generation, []).append((row.turn, parts["places"], parts["bytes"], parts["length"]))
        return [(1,)]

    def state(self, id, epoch):
        row = self._of(id, epoch)
        return [(row.generation, row.turn)] if row else []

    def opening(self, id, generation):
        row = self._of(id)
        return [(row.openings[generation],)] if generation in row.openings else []

    def turns(self, id, generation, after):
        return [it for it in self._of(id).turns.get(generation, []) if it[0] > after]

    def renew(self, host, lease):
        was_over = self.leases.get(host, 0) < time.monotonic()
        self.leases[host] = time.monotonic() + lease
        return [(was_over,)]

    def wanted(self, host, stay):
        return [(name, row.wanted) for name, row in self.rows.items() if row.holder == host and row.wanted and row.held < time.monotonic() - stay]

    def epochs(self, names):
        return [(name, row.epoch, row.holder or "nobody") for name, row in self.rows.items() if name in names]


class Way(Database):
    """A way of an agent to the base, which can be cut."""

    def __init__(self, base):
        super().__init__("nowhere")
        self._base, self.cut = base, None

    async def once(self, text, **values):
        while self.cut == "silent":
            await asyncio.sleep(0.01)
        if self.cut:
            raise Away("the way is cut")
        return self._base.do(text, values)


class Host:
    """The agent of a host, in a thread of its own; one that does not watch its clock is a control."""

    def __init__(self, base, name, folder, watches=True):
        self._watches, self._path = watches, Path(folder) / f"{name}.door"
        self.way, self.address = Way(base), f"unix:{self._path}"
        self._agent, self._loop, is_there = agent.Agent(holding.Host(name, self.way)), None, threading.Event()
        self._over = None
        self._thread = threading.Thread(target=lambda: asyncio.run(self._serve(is_there)), daemon=True)
        self._thread.start()
        if not is_there.wait(20):
            raise RuntimeError("the agent does not begin")

    async def _serve(self, is_there):
        self._loop, self._over = asyncio.get_running_loop(), asyncio.Event()
        await self._agent.begin()
        await serving.opened(serving.listener_at(str(self._path)), self._agent.serve)
        is_there.set()
        await serving.until_any(self._over, self._agent.beat(), *([self._agent.watch()] if self._watches else []))

    def freeze(self, seconds):
        """The agent stands still for a while, as a process that is stopped."""
        self._loop.call_soon_threadsafe(time.sleep, seconds)

    def end(self):
        self._loop.call_soon_threadsafe(self._over.set)
        self._thread.join(20)
