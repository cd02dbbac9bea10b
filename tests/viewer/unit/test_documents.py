"""Which documents there are, and how long each is shown."""

import asyncio
import contextlib

import pytest

from canvas.gateway import documents as module, own
from canvas.gateway.documents import Folder
from harness.running import until


@pytest.mark.parametrize("name", ["poster", "a", "7-up", "a" * 63])
def test_a_document_is_there_with_its_folder(tmp_path, name):
    assert not Folder(tmp_path).has(name)
    (tmp_path / name).mkdir()
    assert Folder(tmp_path).has(name)


@pytest.mark.parametrize("name", ["", ".", "..", "-a", "A", "a.b", "a/b", "a\n", "a" * 64, "é"])
def test_what_is_no_name(tmp_path, name):
    (tmp_path / "a").mkdir()
    (tmp_path / "a" / "b").mkdir()
    assert not Folder(tmp_path).has(name)


def test_a_file_is_no_document(tmp_path):
    (tmp_path / "poster").write_text("")
    assert not Folder(tmp_path).has("poster")


@contextlib.asynccontextmanager
async def running(folder):
    """A folder of documents that is served."""
    steps = folder.run(None)
    await anext(steps)
    yield folder
    with pytest.raises(StopAsyncIteration):
        await anext(steps)


async def test_a_document_is_closed_when_nobody_has_looked_for_a_while(tmp_path, monkeypatch):
    monkeypatch.setattr(module, "LINGER", 0.2)
    (tmp_path / "poster").mkdir()
    async with running(Folder(tmp_path)) as folder:
        first = folder.document("poster")
        with first.visit():
            await asyncio.sleep(0.4)
            assert folder.document("poster") is first
        await until(lambda: first._following.done())
        assert folder.document("poster") is not first


class Server:
    """A server of a folder's document, with so many seats; it answers each line by a version."""

    def __init__(self, folder, name, door, is_there=True):
        self.path, self.sessions, self._is_there = folder / name / door, 0, is_there

    async def __aenter__(self):
        if self._is_there:
            await self.start()
        return self

    async def start(self):
        self.path.parent.mkdir()
        self._server = await asyncio.start_unix_server(self._serve, self.path)

    async def __aexit__(self, *_):
        self._server.close()

    async def _serve(self, reader, writer):
        self.sessions += 1
        while await reader.readline():
            writer.write(b'{"body":0,"ok":true,"version":7}\n')
        self.sessions -= 1
        writer.close()


@pytest.mark.parametrize("moves, door", [(False, "door"), (True, "inside")])
async def test_each_server_has_a_session_of_the_gateway_before_anybody_looks(tmp_path, monkeypatch, moves, door):
    monkeypatch.setattr(own, "LOOK", 0.05)
    (tmp_path / "away").mkdir()
    async with Server(tmp_path, "poster", door) as first, Server(tmp_path, "later", door, is_there=False) as second:
        async with running(Folder(tmp_path, moves)) as folder:
            await until(lambda: first.sessions == 1)
            await second.start()
            await until(lambda: second.sessions == 1)
            assert await folder._own.session("poster").version() == 7
            first.path.unlink()
            await until(lambda: first.sessions == 0)
            assert folder._own.session("poster") is None is folder._own.session("away")
        await until(lambda: second.sessions == 0)
