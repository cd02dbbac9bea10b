"""The agent as a service: its doors, its signals, and what it tells systemd."""

from __future__ import annotations

import argparse
import asyncio
import contextlib
import logging
import os
import signal
import socket
from collections.abc import Awaitable, Callable, Coroutine
from typing import Any

from canvas.store.agent import Agent
from canvas.store.database import Database, where
from canvas.store.holding import Host
from canvas.store.names import tell_names
from canvas.store.status import Status

BACKLOG = 4096
"""How many connections may wait until they are accepted."""

Work = Callable[[asyncio.StreamReader, asyncio.StreamWriter], Awaitable[None]]
"""What is done for a connection."""

log = logging.getLogger("canvas-store")


def listener_at(path: str) -> socket.socket:
    """A socket at a path, in the place of what an agent before left there."""
    with contextlib.suppress(FileNotFoundError):
        os.unlink(path)
    found = socket.socket(socket.AF_UNIX)
    found.bind(path)
    return found


def notify(text: bytes) -> None:
    """Tells systemd."""
    address = os.environ.get("NOTIFY_SOCKET")
    if address:
        with socket.socket(socket.AF_UNIX, socket.SOCK_DGRAM) as sock:
            sock.sendto(text, address.replace("@", "\0", 1))


def complain(host: Host, loop: asyncio.AbstractEventLoop, context: dict[str, Any]) -> None:
    """Takes what asyncio has to tell: where a connection can't be accepted it tries again after a second."""
    fault = context.get("exception")
    if not isinstance(fault, OSError) or "accept" not in context["message"]:
        loop.default_exception_handler(context)
        return
    host.counts.unaccepted += 1
    log.warning("a connection can't be accepted: %s", fault.strerror)


async def serve(given: argparse.Namespace) -> None:
    """The agent, until it is told to end."""
    host = Host(given.host, Database(where()))
    agent, loop, over = Agent(host), asyncio.get_running_loop(), asyncio.Event()
    loop.set_exception_handler(lambda loop, context: complain(host, loop, context))
    for number in (signal.SIGTERM, signal.SIGINT):
        loop.add_signal_handler(number, over.set)
    await until_any(over, agent.begin())
    if over.is_set():
        return
    await opened(listener_at(given.socket), agent.serve)
    if given.status:
        name, _, port = given.status.rpartition(":")
        await opened(socket.create_server((name, int(port))), Status(agent).tell)
    notify(b"READY=1")
    log.info("the agent of %s serves at %s", given.host, given.socket)
    telling = [tell_names(host.database, given.names)] if given.names else []
    await until_any(over, agent.beat(), agent.watch(), *telling)
    await agent.end()


async def opened(door: socket.socket, work: Work) -> None:
    """Has the connections of a door worked on."""
    await asyncio.start_server(work, sock=door, backlog=1)
    door.listen(BACKLOG)  # (of what asyncio is told it makes as many attempts at once, also where none can succeed)


async def until_any(over: asyncio.Event, *works: Coroutine[Any, Any, None]) -> None:
    """Waits until it is over, or some work has ended; raises what ended that."""
    tasks = [asyncio.create_task(it) for it in works]
    await asyncio.wait([*tasks, asyncio.create_task(over.wait())], return_when=asyncio.FIRST_COMPLETED)
    for task in tasks:
        if task.done():
            task.result()
