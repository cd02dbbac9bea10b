"""The past of a document: the history that a feed tells, and the servers of those who look back. A stub stands in the place of canvasd: its document is
the list of the edits that were made."""

import asyncio
import contextlib
import json
import sys

import pytest

from canvas.gateway import past as module
from canvas.gateway.edits import Edits, Untold
from canvas.gateway.past import Past, Unseen, Visit
from harness.running import SECONDS, until

KEEPER = f"""#!{sys.executable}
import json, socket, sys
words = sys.argv
made = json.load(open(words[words.index("--open") + 1]))["made"]
begun = len(made)
door = socket.socket(socket.AF_UNIX)
door.bind(words[words.index("--listen") + 1][len("unix:"):])
door.listen()
print("listening on it", flush=True)
session, _ = door.accept()
for line in session.makefile("rb"):
    request = json.loads(line)
    if request["verb"] not in ("tile", "export"):
        made.append(request["id"])
    body = json.dumps({{"made": made}}) if request["verb"] == "export" else ""
    reply = json.dumps({{"body": len(body), "ok": True, "version": len(made) - begun}})
    session.sendall(f"{{reply}}\\n{{body}}".encode())
"""


def edit(version):
    """What a feed tells of an edit, which names its own version."""
    return b'{"damage":[0,0,2,1],"edit":{"id":%d,"verb":"show"},"id":null,"version":%d}\n' % (version, version)


class Feed:
    """A feed door that a test leads: whoever comes is told of so many edits, and of each that is made since."""

    def __init__(self, count):
        self.count, self.asked, self.writers = count, [], []

    async def __aenter__(self):
        self._server = await asyncio.start_server(self._serve, "127.0.0.1", 0)
        self.address = self._server.sockets[0].getsockname()[:2]
        return self

    async def __aexit__(self, *_):
        self._server.close()
        self.end()

    async def _serve(self, reader, writer):
        self.asked.append(json.loads(await reader.readline()))
        self.writers.append(writer)
        writer.write(b'{"generation":1,"opening":{"made":[]}}\n' + b"".join(map(edit, range(1, self.count + 1))))

    def make(self):
        self.count += 1
        for writer in self.writers:
            writer.write(edit(self.count))

    def end(self):
        for writer in self.writers:
            writer.close()
        self.writers = []


@pytest.fixture(autouse=True)
def stub(tmp_path, monkeypatch):
    program = tmp_path / "keeper"
    program.write_text(KEEPER)
    program.chmod(0o755)
    monkeypatch.setattr(module, "PROGRAM", str(program))
    monkeypatch.setattr(module, "APART", 8)


async def made_at(visit, version):
    """The edits of which the document of a version is made, and the version that its reply names."""
    ((reply, body),), _ = await visit.look(version, [{"verb": "export"}])
    return json.loads(body)["made"], reply["version"]


@contextlib.asynccontextmanager
async def told(count):
    """A feed of so many edits, and the past that it tells."""
    async with asyncio.timeout(SECONDS), Feed(count) as feed:
        past = Past(feed.address)
        try:
            yield feed, past
        finally:
            await past.close()


def upto(version):
    return [*range(1, version + 1)], version


async def test_each_version_is_shown_forward_and_back():
    async with told(30) as (_, past):
        visit = Visit(past)
        for version in (0, 3, 4, 30, 29, 12, 8, 7, 0, 30):
            assert await made_at(visit, version) == upto(version)
        assert {version for version, _ in visit._edits._saved} >= {0, 8, 16, 24}


async def test_edits_that_are_made_meanwhile_come():
    async with told(2) as (feed, past):
        visit = Visit(past)
        assert await made_at(visit, 2) == upto(2)
        feed.make()
        assert await made_at(visit, 3) == upto(3)
        assert feed.asked == [{"since": 0, "opening": True}]


async def test_the_edits_between_two_versions_are_told_as_the_feed_has_them():
    async with told(9) as (_, past):
        assert await Visit(past).look(7, [], 4) == ([], [edit(5)[:-1], edit(6)[:-1], edit(7)[:-1]])


@pytest.mark.parametrize("since, why", [(9, "no edits lead from version 9 to 0"), (1, "no edits lead from version 1 to 0"), (10 ** 30, "no edits lead"),
                                        ("", "no such version"), ([], "no such version"), (0.0, "no such version"), (-1, "no such version")])
async def test_edits_that_lead_from_no_earlier_version_are_refused(since, why):
    async with told(2) as (_, past):
        visit = Visit(past)
        with pytest.raises(Unseen, match=why):
            await visit.look(0, [], since)
        assert await visit.look(2, [], 1) == ([], [edit(2)[:-1]])


async def test_two_tabs_see_two_versions():
    async with told(20) as (_, past):
        first, second = Visit(past), Visit(past)
        found = await asyncio.gather(made_at(first, 5), made_at(second, 19))
        assert found == [upto(5), upto(19)]


async def test_no_more_than_so_many_tabs_look_back(monkeypatch):
    monkeypatch.setattr(module, "MOST_VISITS", 1)
    async with told(3) as (_, past):
        first, second = Visit(past), Visit(past)
        await made_at(first, 1)
        with pytest.raises(Unseen, match="1 others"):
            await made_at(second, 1)
        await first.leave()
        assert await made_at(second, 1) == upto(1)


async def test_another_history_is_not_mixed_with_the_first():
    async with told(5) as (feed, past):
        visit = Visit(past)
        assert await made_at(visit, 4) == upto(4)
        feed.end()
        await until(lambda: past._edits.fault)
        with pytest.raises(Unseen, match="another history"):
            await made_at(visit, 3)
        assert await made_at(visit, 3) == upto(3)


async def test_the_past_cannot_be_changed():
    async with told(2) as (_, past):
        with pytest.raises(Unseen, match="changed"):
            await Visit(past).look(1, [{"verb": "show", "id": 1, "hidden": True}])


async def test_a_version_that_does_not_come_is_told(monkeypatch):
    monkeypatch.setattr("canvas.gateway.edits.PATIENCE", 0.3)
    async with told(2) as (_, past):
        with pytest.raises(Unseen, match="version 9"):
            await made_at(Visit(past), 9)


async def test_a_server_that_does_not_start_is_told(monkeypatch):
    monkeypatch.setattr(module, "PROGRAM", "/bin/false")
    async with told(2) as (_, past):
        with pytest.raises(Unseen, match="could be started"):
            await made_at(Visit(past), 1)


async def test_without_a_feed_there_is_no_past():
    with pytest.raises(Unseen, match="no feed"):
        await Visit(Past(None)).look(0, [])


@pytest.mark.parametrize("line, why", [
    (b'{"error":"since 15 is beyond the history: 2 edits are kept","ok":false}\n', "beyond the history"),
    (b"nonsense\n", "not understood"), (edit(7), "not understood")])
async def test_a_feed_that_says_anything_else_ends_the_history(line, why):
    async with Feed(2) as feed:
        edits = await Edits.follow(feed.address)
        await edits.reach(2)
        feed.writers[0].write(line)
        with pytest.raises(Untold, match=why):
            await edits.reach(3)
        await edits.close()


async def test_nothing_is_left_of_it(tmp_path, monkeypatch):
    monkeypatch.setattr("tempfile.tempdir", str(tmp_path))

    async with told(3) as (_, past):
        with contextlib.suppress(Unseen):
            await made_at(Visit(past), 3)
    assert [it.name for it in tmp_path.iterdir()] == ["keeper"]
