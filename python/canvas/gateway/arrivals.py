"""Connections as they come: those that bring no request are ended, and those that can't be accepted are counted."""

from __future__ import annotations

import asyncio
import socket
import sys
from collections.abc import Awaitable, Callable
from typing import Any

from aiohttp import web

Handler = Callable[[web.Request], Awaitable[web.StreamResponse]]

HURRY = 10
"""Seconds in which a connection has to bring the head of its first request."""
BACKLOG = 1024
"""How many connections may wait until they are accepted."""


class Arrivals:
    """Makes the protocol of each connection that comes to an application."""

    def __init__(self, application: web.Application) -> None:
        self._timers: dict[web.RequestHandler, asyncio.TimerHandle] = {}
        self._server: web.Server | None = None
        self.unaccepted = 0
        application.middlewares.append(self._note)

    async def open(self, server: web.Server, listener: socket.socket) -> asyncio.AbstractServer:
        """Has connections go to a server of the application; gives the door."""
        self._server, loop = server, asyncio.get_running_loop()
        loop.set_exception_handler(self._complain)
        door = await loop.create_server(self, sock=listener, backlog=1)
        listener.listen(BACKLOG)  # (of what asyncio is told it makes as many attempts at once, though none may succeed)
        return door

    def __call__(self) -> web.RequestHandler:
        assert self._server is not None  # (the door is open)
        handler = self._server()
        self._timers[handler] = asyncio.get_running_loop().call_later(HURRY, self._end, handler)
        return handler

    @property
    def waiting(self) -> int:
        """How many connections have brought no request yet."""
        return len(self._timers)

    def _end(self, handler: web.RequestHandler) -> None:
        del self._timers[handler]
        handler.force_close()

    @web.middleware
    async def _note(self, request: web.Request, handler: Handler) -> web.StreamResponse:
        if timer := self._timers.pop(request.protocol, None):
            timer.cancel()
        return await handler(request)

    def _complain(self, loop: asyncio.AbstractEventLoop, context: dict[str, Any]) -> None:
        """Takes what asyncio has to tell: where a connection can't be accepted it tries again after a second."""
        fault = context.get("exception")
        if not isinstance(fault, OSError) or "accept" not in context["message"]:
            loop.default_exception_handler(context)
            return
        self.unaccepted += 1
        print(f"gateway: a connection can't be accepted: {fault.strerror}; attempt {self.unaccepted} that failed",
              file=sys.stderr, flush=True)
