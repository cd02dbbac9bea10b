"""The pictures that the server painted, kept as PNG by their hashes, and replies as a tab is told them."""

from __future__ import annotations

import asyncio
import hashlib
import io
import json
from collections import OrderedDict
from typing import NamedTuple, TypeVar

from aiohttp import web
from PIL import Image

from canvas.gateway.session import Reply

K = TypeVar("K")
V = TypeVar("V")

MOST_PICTURES = 4096
"""How many pictures are kept, by their hashes; a tab fetches each soon after it was named."""
MOST_IMAGES = 256
"""How many P6 files are kept."""
NO_VERSION = -1


class Answer(NamedTuple):
    """A reply as a tab is told it: the version that it names or NO_VERSION, its JSON, and the hash of its picture."""
    version: int
    text: str
    picture: str | None = None


UNANSWERED = Answer(NO_VERSION, "null")


def png_of(image: bytes) -> bytes:
    """The PNG of a P6 file."""
    found = io.BytesIO()
    Image.open(io.BytesIO(image)).save(found, "PNG", compress_level=1)
    return found.getvalue()


def keep(kept: OrderedDict[K, V], name: K, value: V, most: int) -> None:
    """Puts a value at the end of an ordered dict, and drops the first ones where there are too many."""
    kept[name] = value
    kept.move_to_end(name)
    while len(kept) > most:
        kept.popitem(last=False)


class Pictures:
    """The PNG of each picture that was seen lately, by the hash of its P6 file; and of some requests the last P6 file,
    to know it again. Of one of `share` documents fewer are kept."""

    def __init__(self, share: int = 1) -> None:
        self._most_pictures, self._most_images = MOST_PICTURES // share, MOST_IMAGES // share
        self._kept: OrderedDict[str, asyncio.Task[bytes]] = OrderedDict()
        self._last: OrderedDict[bytes, tuple[bytes, str]] = OrderedDict()

    def has(self, name: str) -> bool:
        return name in self._kept

    def png(self, name: str) -> asyncio.Future[bytes] | None:
        """What gives the PNG of a picture when it is waited for, however many pictures come meanwhile; None where it is
        not kept any more."""
        task = self._kept.get(name)
        return None if task is None else asyncio.shield(task)

    def told(self, line: bytes, reply: Reply, body: bytes) -> Answer:
        """The reply to a request's line as a tab is told it: a picture as its hash, a document as it is."""
        del reply["body"]
        if body.startswith(b"P6"):
            reply["picture"] = self._add(line, body)
        text = json.dumps(reply, separators=(",", ":"))
        if body.startswith(b"{"):
            text = f'{text[:-1]},"document":{body.decode()}}}'
        return Answer(reply.get("version", NO_VERSION), text, reply.get("picture"))

    def _add(self, line: bytes, image: bytes) -> str:
        """Keeps a picture, and gives its hash. Its PNG is made meanwhile, once."""
        last, name = self._last.get(line, (b"", ""))
        # (to compare is forty times as fast as to hash)
        if last != image:
            name = hashlib.blake2b(image, digest_size=16).hexdigest()
        keep(self._last, line, (image, name), self._most_images)
        png = self._kept.get(name) or asyncio.create_task(asyncio.to_thread(png_of, image))
        keep(self._kept, name, png, self._most_pictures)
        return name

    async def answer(self, request: web.Request) -> web.Response:
        """The PNG at /picture/HASH.png; 304 where the browser has it."""
        name = request.match_info["hash"]
        if name not in self._kept:
            raise web.HTTPNotFound
        headers = {"ETag": f'"{name}"', "Cache-Control": "private, max-age=86400, immutable"}
        if any(tag.value == name for tag in request.if_none_match or ()):
            return web.Response(status=304, headers=headers)
        return web.Response(body=await asyncio.shield(self._kept[name]), content_type="image/png", headers=headers)
