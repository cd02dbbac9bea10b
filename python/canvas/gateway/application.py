"""The web server: the page, the pictures, and who may open a session."""

from __future__ import annotations

from html import escape
from pathlib import Path
from urllib.parse import urlsplit

from aiohttp import web

from canvas.gateway.documents import Documents
from canvas.gateway.feed import Known
from canvas.gateway.tabs import Tab
from canvas.places import beside

PAGE = beside(Path(__file__).parent / "page", "web/page")
"""The files of the page."""
HEADERS = {
    "Cache-Control": "no-cache",
    "Content-Security-Policy": "default-src 'self'; img-src 'self' data:; base-uri 'none'; frame-ancestors 'none'",
    "X-Content-Type-Options": "nosniff",
}
"""What each answer has: a browser runs and shows what is of this site alone, and shows it in no page of another one."""
LOOK = "/look"
"""Where, below its page, a document may be looked at, and not changed."""


def name_of(request: web.Request) -> str:
    """The name by which a browser found the gateway."""
    return urlsplit(f"//{request.host}").hostname or ""


def is_known(name: str, hosts: set[str] | None) -> bool:
    """Whether the gateway may be found by a name. Where it listens at a unix socket, which no browser reaches by
    itself, what stands before it answers for the name, and `hosts` is None."""
    return hosts is None or name == "localhost" or name in hosts or name.replace(".", "").isdigit() or ":" in name


def is_own(request: web.Request, hosts: set[str] | None) -> bool:
    """Whether a request is of the gateway's own page: browsers tell which site a page comes from, and by which name it
    was found."""
    origin = request.headers.get("Origin")
    return is_known(name_of(request), hosts) and (origin is None or urlsplit(origin).netloc == request.host)


def unknown(name: str) -> web.Response:
    """What a browser is told that found the gateway by a name that is not its own."""
    text = f"This gateway does not answer to the name {name!r}. Whoever started it may add: --host {name}\n"
    return web.Response(status=421, text=text)


def known_by(request: web.Request) -> Known:
    """What a tab knows that followed a history before its connection was lost."""
    live, since, mark = (request.query.get(name, "") for name in ("live", "since", "mark"))
    return Known(live, int(since), mark) if live and since.isdecimal() and len(since) < 10 else Known()


def page_of(title: str, root: str) -> str:
    """The page, with a title. Its scripts lie below the first address of the site, whatever its own is."""
    text = (PAGE / "index.html").read_text()
    text = text.replace("<title>canvas</title>", f"<title>{escape(title)} – canvas</title>")
    return text.replace('"page/', f'"{"../" * root.count("/")}page/')


async def fresh(_: web.Request, response: web.StreamResponse) -> None:
    """Gives an answer the headers that each one has."""
    for name, value in HEADERS.items():
        response.headers.setdefault(name, value)


class Site:
    """What browsers get of documents. They find it by the names of these hosts, or by any where those are None."""

    def __init__(self, documents: Documents, hosts: set[str] | None) -> None:
        self._documents, self._hosts = documents, hosts

    def _name(self, request: web.Request) -> str:
        """The name of the document that a request is for."""
        name = request.match_info.get("name", "")
        if not self._documents.has(name):
            raise web.HTTPNotFound
        return name

    async def tab(self, request: web.Request, is_reader: bool = False) -> web.WebSocketResponse:
        """The session of a tab."""
        if not is_own(request, self._hosts):
            raise web.HTTPForbidden
        with self._documents.document(self._name(request)).visit() as room:
            found = web.WebSocketResponse(compress=False, heartbeat=20)
            await found.prepare(request)
            await Tab(found, room, known_by(request), is_reader).serve()
            return found

    async def reader(self, request: web.Request) -> web.WebSocketResponse:
        """The session of a tab that may only look."""
        return await self.tab(request, is_reader=True)

    async def picture(self, request: web.Request) -> web.Response:
        """A picture, by its hash."""
        return await self._documents.document(self._name(request)).room.looks.pictures.answer(request)

    async def page(self, request: web.Request, more: str = "") -> web.Response:
        """The page to draw on, or that for looking, which lies at one more part of the address."""
        if not is_known(name_of(request), self._hosts):
            return unknown(name_of(request))
        text = page_of(self._documents.title(self._name(request)), self._documents.root + more)
        return web.Response(text=text, content_type="text/html")

    async def page_to_look(self, request: web.Request) -> web.Response:
        """The page for looking."""
        return await self.page(request, LOOK)

    async def leave(self, _: web.Application) -> None:
        """Ends the connections of all tabs."""
        for document in self._documents.shown():
            await document.send_away()


def application(documents: Documents, hosts: set[str] | None) -> web.Application:
    """The gateway of documents. It is found by the names of these hosts, or listens at a unix socket where they are
    None."""
    found, site = web.Application(), Site(documents, hosts)
    found.on_response_prepare.append(fresh)
    found.on_shutdown.append(site.leave)
    found.cleanup_ctx.append(documents.run)
    root, look = documents.root, documents.root + LOOK
    found.add_routes([
        web.get(f"{root}/", site.page),
        web.get(f"{root}/session", site.tab),
        web.get(f"{root}/picture/{{hash}}.png", site.picture),
        web.get(f"{look}/", site.page_to_look),
        web.get(f"{look}/session", site.reader),
        web.get(f"{look}/picture/{{hash}}.png", site.picture),
        web.static("/page", PAGE),
    ])
    return found
