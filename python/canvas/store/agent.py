"""What a host does with its documents: it keeps its lease, and serves the connections of its canvasd."""

from __future__ import annotations

import asyncio
import contextlib
import logging
import re
import time
from asyncio import StreamReader, StreamWriter

import psycopg

from canvas.store import statements
from canvas.store.database import PAUSE, Away, one_line
from canvas.store.holding import Bad, Holding, Host, Lost
from canvas.store.lease import Lease
from canvas.store.names import NAME
from canvas.store.requests import NUMBER, answer
from canvas.store.segments import Row

WATCH = 0.1
"""Each so many seconds an agent looks at its clock."""
BEAT = 1
"""Each so many seconds an agent renews its lease."""
STAY = 10
"""A document stays for so many seconds, whoever else wants it."""
WAIT = 20
"""How many seconds a document is waited for that another one has."""
HOLD = re.compile(f"hold ({NAME})\n".encode())
LASTS = re.compile(f"lease ({NAME}) {NUMBER}\n".encode())

log = logging.getLogger("canvas-store")


class Busy(Exception):
    """Somebody else has the document; the text says who."""


class Agent:
    """All connections of this host's canvasd. `holdings` has each document that one holds, or None while it is being
    taken."""

    def __init__(self, host: Host) -> None:
        self.host, self._database, self.lease = host, host.database, Lease(host)
        self.holdings: dict[str, Holding | None] = {}

    # -- the lease -----------------------------------------------------------------------------------------------------

    async def begin(self) -> None:
        """Takes the host's lease; what an agent before this one held is free."""
        while True:
            with contextlib.suppress(Away):
                await self.lease.renew()
                await self._database.once(statements.RELEASE_ALL, host=self.host.name)
                return
            await asyncio.sleep(PAUSE)

    async def beat(self) -> None:
        """Renews the lease for ever, and gives up what others want. Where it was over meanwhile, it looks for what
        others took."""
        while True:
            await asyncio.sleep(BEAT)
            with contextlib.suppress(Away):
                was_over = await self.lease.renew()
                for name, wanted in await self._database.once(statements.WANTED, host=self.host.name, stay=STAY):
                    await self._give_up(name, f"{wanted} wants {name}, which {self.host.name} has had for {STAY} s")
                if was_over:
                    await self._look_for_lost()

    async def watch(self) -> None:
        """Gives all up when the lease is over by the host's own clock, whatever the database answers, or does not."""
        while True:
            await asyncio.sleep(WATCH)
            fault = self.lease.fault()
            for holding in [it for it in self.holdings.values() if fault and it and not it.is_told]:
                holding.give_up(f"the lease of {self.host.name} is over: {fault}", is_late=True)

    async def _look_for_lost(self) -> None:
        log.warning("the lease of %s was over", self.host.name)
        for name, epoch, holder in await self._database.once(statements.EPOCHS, names=[*self.holdings]):
            holding = self.holdings.get(name)
            if holding and holding.epoch != epoch:
                holding.give_up(f"{name} is held by {holder} in the place of {self.host.name}")

    async def _give_up(self, name: str, why: str) -> None:
        holding = self.holdings.get(name)
        if holding:
            holding.give_up(why)
        elif name not in self.holdings:  # (taken by a statement that was not answered)
            await self._database.once(statements.RELEASE_NAME, host=self.host.name, name=name)

    async def end(self) -> None:
        """Gives all up."""
        for holding in filter(None, self.holdings.values()):
            holding.give_up(f"the agent of {self.host.name} ends")
        with contextlib.suppress(Away, asyncio.TimeoutError):
            await asyncio.wait_for(self._database.once(statements.RELEASE_ALL, host=self.host.name), 2)

    # -- a connection --------------------------------------------------------------------------------------------------

    async def serve(self, reader: StreamReader, writer: StreamWriter) -> None:
        """Serves a connection until it ends."""
        name = "a connection"
        try:
            line = await asyncio.wait_for(reader.readuntil(b"\n"), WAIT)
            if LASTS.fullmatch(line):
                await self._tell_lease(line, reader, writer)
                return
            found = HOLD.fullmatch(line)
            if not found:
                raise Bad(f"{line[:60]!r} where a document is to be held")
            name = found[1].decode()
            await self._serve(name, reader, writer)
        except (Bad, asyncio.LimitOverrunError) as fault:
            self._refuse(name, writer, fault)
        except asyncio.IncompleteReadError as fault:
            if fault.partial:
                self._refuse(name, writer, Bad(f"an end inside of {fault.partial[:60]!r}"))
        except asyncio.TimeoutError:
            self._refuse(name, writer, Bad(f"nothing for {WAIT} s"))
        except OSError as fault:
            log.info("%s: its connection: %s", name, fault)
        except psycopg.Error as fault:
            log.error("%s: the database refuses: %s", name, one_line(fault))
            writer.write(f"error {one_line(fault)}\n".encode())
        finally:
            writer.close()

    def _refuse(self, name: str, writer: StreamWriter, fault: Exception) -> None:
        self.host.counts.bad += 1
        log.warning("%s: ended, for it sent %s", name, one_line(fault))
        writer.write(f"error {one_line(fault)}\n".encode())

    async def _tell_lease(self, line: bytes, reader: StreamReader, writer: StreamWriter) -> None:
        """Answers each line that asks so by how many milliseconds a server has its document for certain, until it has
        it no more."""
        while found := LASTS.fullmatch(line):
            name, epoch, left = found[1].decode(), int(found[2]), int(1000 * self.lease.left())
            holding = self.holdings.get(name)
            if left <= 0 or not holding or holding.is_told or holding.epoch != epoch:
                writer.write(f"lost {name} is not held by {self.host.name} under epoch {epoch}\n".encode())
                return
            writer.write(b"lasts %d\n" % left)
            line = await reader.readuntil(b"\n")
        raise Bad("what is no question after a lease")

    async def _serve(self, name: str, reader: StreamReader, writer: StreamWriter) -> None:
        """Serves a document to a connection while that lives, if the document is free in time."""
        row = await self._in_time(name, reader, writer)
        if row is None:
            return
        holding = self.holdings[name] = Holding(self.host, name, writer, row)
        log.info("%s: held by %s under epoch %d", name, self.host, holding.epoch)
        try:
            await holding.send_all()
            await answer(holding, reader, writer)
        except Lost:
            holding.say_lost(await holding.why_lost())
        finally:
            await self._database.surely(statements.RELEASE, id=holding.id, epoch=holding.epoch)
            del self.holdings[name]
            log.info("%s: released by %s", name, self.host.name)

    async def _in_time(self, name: str, reader: StreamReader, writer: StreamWriter) -> Row | None:
        """The row of a document, as soon as it is free; None where it is not in time, or the client has gone."""
        end = time.monotonic() + WAIT
        while not reader.at_eof():
            try:
                return await self._take(name)
            except Busy as busy:
                told = f"busy {one_line(busy)}\n"
            except Away as fault:
                told = f"error {one_line(f'the database is away: {fault}')}\n"
            if time.monotonic() > end:
                writer.write(told.encode())
                break
            await asyncio.sleep(PAUSE)
        with contextlib.suppress(Away):
            await self._database.once(statements.WANT_NO_MORE, host=self.host.name, name=name)
        return None

    async def _take(self, name: str) -> Row:
        """The row of a document that is this host's from now on. Raises Busy where another one has it."""
        if fault := self.lease.fault():
            raise Away(fault)
        if name in self.holdings:
            raise Busy(f"{name} is held by another connection on {self.host.name}")
        self.holdings[name], found = None, []
        try:
            await self._database.once(statements.MAKE, name=name)
            found = await self._database.once(statements.TAKE, host=self.host.name, name=name)
            if not found:
                await self._database.once(statements.WANT, host=self.host.name, name=name)
                holder = await self._database.once(statements.HOLDER, name=name)
                raise Busy(f"{name} is held by {holder[0][0] or 'nobody' if holder else 'nobody'}")
            return found[0]
        finally:
            if not found:
                del self.holdings[name]
