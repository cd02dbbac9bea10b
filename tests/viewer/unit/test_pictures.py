"""Pictures by their hashes, and replies as a tab is told them."""

import collections
import io
import json

from aiohttp import web
from aiohttp.test_utils import TestClient, TestServer
from PIL import Image

from canvas.gateway import pictures as module
from canvas.gateway.pictures import NO_VERSION, Pictures, keep, png_of


def image_of(*parts):
    return b"P6\n1 1\n255\n" + bytes(parts)


def test_a_png_has_the_pixels_of_the_image():
    assert Image.open(io.BytesIO(png_of(image_of(1, 2, 3)))).getpixel((0, 0)) == (1, 2, 3)


def test_the_first_ones_are_dropped():
    kept = collections.OrderedDict()
    for name in "abcab":
        keep(kept, name, name, 2)
    assert list(kept) == ["a", "b"]


def test_a_document_is_told_as_it_is():
    found = Pictures().told(b"", {"body": 9, "ok": True, "version": 4}, b'{"next":1}')
    assert (found.version, found.picture) == (4, None)
    assert json.loads(found.text) == {"ok": True, "version": 4, "document": {"next": 1}}


def test_a_refusal_names_no_version():
    found = Pictures().told(b"", {"body": 0, "ok": False, "code": 1, "name": "OutOfMemory"}, b"")
    assert (found.version, json.loads(found.text)) == (NO_VERSION, {"ok": False, "code": 1, "name": "OutOfMemory"})


def one(pictures, line, *pixel):
    """The name of a picture of one pixel, as a reply to a line."""
    return pictures.told(line, {"body": 14, "ok": True, "version": 1}, image_of(*pixel)).picture


async def test_a_picture_is_named_by_its_bytes():
    pictures = Pictures()
    first, again, other, changed = told = [one(pictures, line, 1, 2, last) for line, last in [(b"a", 3), (b"a", 3), (b"b", 3), (b"a", 4)]]
    assert first == again == other != changed
    assert all(map(pictures.has, told))


async def asked(*paths, most=None):
    """The status, the tag and the colour of what lies at paths, where the picture of (7, 8, 9) and then that of (0, 0, 0) was seen."""
    pictures = Pictures()
    first = one(pictures, b"a", 7, 8, 9)
    one(pictures, b"b", 0, 0, 0)
    application = web.Application()
    application.add_routes([web.get("/picture/{hash}.png", pictures.answer)])
    found = []
    async with TestClient(TestServer(application)) as client:
        for path, headers in paths:
            async with client.get(path.replace("FIRST", first), headers={k: v.replace("FIRST", first) for k, v in headers.items()}) as response:
                body = await response.read()
                colour = Image.open(io.BytesIO(body)).getpixel((0, 0)) if response.status == 200 else None
                found.append((response.status, response.headers.get("ETag", "").replace(first, "FIRST"), colour))
    return found


async def test_a_picture_is_served_once():
    found = await asked(("/picture/FIRST.png", {}), ("/picture/FIRST.png", {"If-None-Match": '"FIRST"'}),
                        ("/picture/FIRST.png", {"If-None-Match": '"other"'}), ("/picture/00.png", {}))
    assert found == [(200, '"FIRST"', (7, 8, 9)), (304, '"FIRST"', None), (200, '"FIRST"', (7, 8, 9)), (404, "", None)]


async def test_only_the_last_pictures_are_kept(monkeypatch):
    monkeypatch.setattr(module, "MOST_PICTURES", 1)
    assert await asked(("/picture/FIRST.png", {})) == [(404, "", None)]


async def test_a_picture_that_is_waited_for_comes_however_many_others_do():
    pictures = Pictures(share=module.MOST_PICTURES // 2)
    first = one(pictures, b"a", 1, 2, 3)
    png = pictures.png(first)
    for number in range(2):
        one(pictures, b"%d" % number, 9, 9, number)
    assert (pictures.has(first), pictures.png(first), Image.open(io.BytesIO(await png)).getpixel((0, 0))) == (False, None, (1, 2, 3))
