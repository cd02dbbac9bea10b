"""Many documents on a machine of their own (harness/machine.py): the Debian package, systemd, nginx and the gateway, put together as docs/RUNNING.md says.

- the units are read by systemd-analyze; the commands of docs/RUNNING.md are run as they stand;
- `canvas-admin` makes, lists, renames and removes documents, and refuses bad names, those that are there or not there, and documents that are served;
- pages and raw sessions are there for those who may have them, and for nobody else: passwords, certificates, other documents, HTTP at the raw port;
- passwords are judged a few at a time, no site shows the page in its own, and one address can't take all seats of a server, nor all others together
  that of the gateway;
- 200 tabs and some editors at one document: nobody is refused, and no tab is told of an older version than before;
- what floods, is slow or sends what is no message is refused and told in a log, while others are answered;
- kill -9 of servers, of the gateway and of nginx, while each document is edited: each answered edit is there afterwards, and no other document's sessions end;
- copies follow, and are restored.

Times, memory and processor are shown with `-s`; with `--long` there are more documents and kills.
"""

import asyncio
import contextlib
import json
import os
import random
import re
import shutil
import subprocess
import tempfile
import time
from pathlib import Path
from urllib.parse import quote

import aiohttp
import pytest

import release
from browser import Browser
from canvas import Canvas, Refused
from canvas.client import connected, line_of
from harness import machine as machines
from harness.hosting import FAULTS, Editor as PlainEditor, Keys, POINT, SHAPE, UNITS, commands_of
from harness.running import difference, seconds_of, talk, until
from harness.tab import PATIENCE, Tab
from repository import BUILT, BUILT_KEEPER, TOP

pytestmark = [pytest.mark.slow, pytest.mark.hosts]
SITE = "https://127.0.0.1"
RAW = ("127.0.0.1", 7443)
WATCH = "http://127.0.0.1:9464"
TILES = [{"verb": "tile", "col": col, "row": row} for col in range(4) for row in range(3)]


@pytest.fixture(scope="module")
def host(request, tmp_path_factory):
    """One machine for all tests, which make documents of their own there."""
    host = Host(tmp_path_factory.mktemp("hosting"), request.config.getoption("long"))
    with host.machine, asyncio.Runner() as host.runner:
        host.runner.get_loop().set_exception_handler(lambda *_: None)  # (connections that a test breaks off have nobody to tell)
        yield host
    print(*host.figures, sep="\n")


@pytest.fixture(autouse=True)
def no_editors(host):
    """No editor of a test is left behind it."""
    yield

    async def stop():
        await asyncio.gather(*(it.stop() for it in host.editors))

    host.runner.run(stop())
    host.editors.clear()


class Host:
    """The machine with nginx, the gateway, keys, and documents that are served."""

    def __init__(self, folder, is_long):
        folder = Path(folder)
        names = release.make({"canvas": BUILT, "canvasd": BUILT_KEEPER}, folder / "dist")
        self.keys, self.is_long, self.figures, self.editors = Keys(folder), is_long, [], []
        (folder / "machine").mkdir()
        self.machine = machines.Machine(folder / "machine", folder / "dist" / names[1])
        etc = self.machine.root / "etc" / "canvas"
        (etc / "users").mkdir(parents=True)
        for name in ("tls.crt", "tls.key", "clients.crt"):
            shutil.copy(self.keys.file(name), etc / name)
        self.machine.boot()
        self.machine.must("sh", "-euc", commands_of("# As root, on Debian 12:"))

    def let_in(self, name, user="ann", certificate="ann"):
        """Lets a user see the page of a document, and a certificate edit it."""
        word = subprocess.run(["openssl", "passwd", "-apr1", f"{user} of {name}"], check=True, capture_output=True, text=True).stdout
        etc = self.machine.path("/etc/canvas")
        with (etc / "users" / name).open("a") as file:
            file.write(f"{user}:{word}")
        with (etc / "editors").open("a") as file:
            file.write(f'"CN={certificate} {name}" 1;\n')

    def admin(self, *words):
        """What canvas-admin says: its status, and what it writes."""
        done = self.machine.run("canvas-admin", *words)
        return done.returncode, (done.stdout + done.stderr).strip()

    async def create(self, names):
        """Makes documents that ann may see and edit."""
        for name in names:
            self.machine.must("canvas-admin", "create", name)
            self.let_in(name)
        self.machine.must("systemctl", "reload", "nginx")
        for _ in range(5):  # (the processes of before the reload take connections for a moment more)
            await self._reached(names[-1])
            await asyncio.sleep(0.2)

    async def _reached(self, name):
        """Waits until a raw session is answered."""
        end = time.monotonic() + PATIENCE
        while True:
            raw = await self.raw(name)
            try:
                return await raw.ask(POINT)
            except FAULTS:
                if time.monotonic() > end:
                    raise
            finally:
                await raw.close()
            await asyncio.sleep(0.1)

    def drop(self, names):
        self.machine.must("systemctl", "disable", "--quiet", "--now", *(f"canvas@{name}" for name in names))
        for name in names:
            self.machine.must("canvas-admin", "remove", "--purge", name)

    def session(self, name):
        """A session at a server's own door."""
        return Canvas.connect(f"unix:{self.machine.path(f'/run/canvas/{name}/door')}")

    def process(self, name):
        """The number of a server's process."""
        inside = self.machine.property(f"canvas@{name}", "MainPID")
        return self.machine.outside(int(inside))

    def processes(self, unit):
        """The numbers of all processes of a unit."""
        path = Path("/proc")
        return [int(it.name) for it in path.glob("[0-9]*") if f"/{unit}.service" in text_of(it / "cgroup")]

    def metric(self, name, what):
        """A number that a server tells of itself."""
        text = subprocess.run(["curl", "-sf", f"{WATCH}/{name}/metrics"], check=True, capture_output=True, text=True).stdout
        return float(re.search(rf"^{what} (\S+)$", text, re.M)[1])

    def web(self, name="", user="ann", word=None, address="127.0.0.1"):
        """A client of the site at an address, with the password of a document."""
        auth = aiohttp.BasicAuth(user, word or f"{user} of {name}") if name else None
        return aiohttp.ClientSession(auth=auth, connector=aiohttp.TCPConnector(ssl=self.keys.context(), limit=0, local_addr=(address, 0)))

    async def raw(self, name, certificate="ann"):
        return await Raw.open(self.keys.context(certificate), f"{name}.canvas.example")


def text_of(path):
    """What is in a file; nothing where it is gone."""
    try:
        return path.read_text()
    except OSError:
        return ""


def page(name):
    return f"{SITE}/d/{name}/"


class Raw:
    """A raw session, by TLS."""

    @classmethod
    async def open(cls, context, name):
        raw = cls()
        raw.reader, raw.writer = await asyncio.wait_for(asyncio.open_connection(*RAW, ssl=context, server_hostname=name, limit=1 << 20), PATIENCE)
        return raw

    async def ask(self, request):
        self.writer.write(line_of(request))
        line = await asyncio.wait_for(self.reader.readuntil(b"\n"), PATIENCE)
        reply = json.loads(line)
        await self.reader.readexactly(reply["body"])
        return reply

    async def close(self):
        self.writer.close()
        with contextlib.suppress(*FAULTS):
            await asyncio.wait_for(self.writer.wait_closed(), 5)


async def answer_to(context, name, data):
    """What comes back for some bytes at the raw door; "" where the connection is closed without a word, or does not come about."""
    try:
        reader, writer = await asyncio.wait_for(asyncio.open_connection(*RAW, ssl=context, server_hostname=name if context else None), PATIENCE)
    except FAULTS:
        return b""
    try:
        writer.write(data)
        return await asyncio.wait_for(reader.read(1 << 16), PATIENCE)
    except FAULTS:
        return b""
    finally:
        writer.close()


class Editor(PlainEditor):
    """An editor by raw sessions or by tabs."""

    def __init__(self, host, name, is_raw, pause=0.02):
        self._host, self._is_raw = host, is_raw
        super().__init__(name, pause)
        host.editors.append(self)

    async def visit(self):
        if self._is_raw:
            raw = await self._host.raw(self.name)
            try:
                await self.edit(raw.ask)
            finally:
                await raw.close()
            return
        async with self._host.web(self.name) as client:
            tab = await Tab.open(client, page(self.name))

            async def ask(request):
                return (await tab.ask(request))[0]

            try:
                await self.edit(ask)
            finally:
                self.faults += [tab.fault] if tab.fault else []

    async def goes_on(self, seconds=PATIENCE):
        """Waits until one more edit was begun and answered, and gives after how many seconds; None where that takes too long."""
        begin = time.monotonic()
        while not (self.times and self.times[-1][0] > begin):
            if time.monotonic() - begin > seconds:
                return None
            await asyncio.sleep(0.005)
        return self.times[-1][1] - begin

    def lost(self):
        """What was answered and is not in the document, or None."""
        with self._host.session(self.name) as canvas:
            reply, text = canvas.ask(verb="export")
        return self.lost_of(reply["version"], text)


# -- canvas-admin ------------------------------------------------------------------------------------------------------

NO_NAMES = ("", "-", "-a", "A", "a.b", "a/b", "..", "a b", "a" * 64, "ä", "a\n", "$(id)", "*", "a_b")
POSTER = "/usr/share/canvas/examples/poster.json"


async def test_admin(host):
    """Documents are made, listed, renamed and removed; nothing else is."""
    folder, stop = host.machine.path("/var/lib/canvas"), lambda name: host.machine.must("systemctl", "disable", "--quiet", "--now", f"canvas@{name}")

    def there():
        return sorted(it.name for it in folder.iterdir() if it.name != ".removed") if folder.exists() else []

    def refused(name, words, *said):
        before, (status, text) = there(), host.admin(*words)
        assert (status, [it for it in said if it not in text], there()) == (1, [], before), (name, text)

    def version(name):
        with host.session(name) as canvas:
            return canvas.ask(**POINT)[0]["version"]

    host.machine.must("sh", "-euc", commands_of("canvas-admin create"))
    assert [name.partition(".")[0] for name in os.listdir(folder / ".removed")] == ["chart"], "the page's own document is gone, and kept"
    for words in ([], ["make"], ["create"], ["create", "a", "b", "c"], ["list", "a"], ["move", "a"], ["remove", "--all", "a"]):
        assert host.admin(*words)[0] == 2, f"the words {words}"
    assert host.admin("--help")[0] == 0, "canvas-admin --help"
    for name in NO_NAMES:
        for words in (["create", name], ["remove", name], ["move", name, "b"], ["move", "b", name]):
            if words[:2] != ["move", "b"]:
                refused(f"{words[0]} {name!r}", words, "name")
    assert host.admin("create", "one") == (0, ""), "a new document"
    assert host.admin("create", "7-posters", POSTER) == (0, ""), "one of a saved document"
    with host.session("one") as canvas, host.session("7-posters") as other:
        canvas.ask(**SHAPE)
        wanted = host.machine.path(POSTER).read_bytes().strip()
        assert other.ask(verb="export")[1] == wanted, "it is the saved document"
    assert (host.admin("create", "copy", "/var/lib/canvas/one"), version("copy")) == ((0, ""), 1), "a copy of a folder"
    refused("a name that is taken", ["create", "one"], "there is a document one already")
    refused("a new name that is none", ["move", "one", "A"], "is served")
    refused("what is no saved document", ["create", "bad", "/etc/hostname"], "does not open")
    refused("a file that is not there", ["create", "bad", "/nowhere"], "does not open")
    refused("a folder that is none of canvasd", ["create", "bad", "/etc"], "does not open")
    for words in (["move", "none", "other"], ["remove", "none"], ["remove", "--purge", "none"]):
        refused(f"{words}, of no document", words, "there is no document none")
    for words in (["move", "one", "other"], ["remove", "one"], ["remove", "--purge", "one"]):
        refused(f"{words}, of one that is served", words, "the document one is served")
    states = {line.split()[0]: line.split()[1] for line in host.admin("list")[1].splitlines()}
    assert states == {"one": "active", "7-posters": "active", "copy": "active"}, "the list"
    assert (host.machine.run("systemctl", "start", "canvas@none").returncode > 0, there()) == (True, sorted([*states])), "a document that is not there is not made by its unit"
    stop("one")
    refused("a new name that is taken", ["move", "one", "copy"], "there is a document copy already")
    refused("a new name that is no name", ["move", "one", "A"], "name")
    host.let_in("one")
    assert (host.admin("move", "one", "other"), version("other"), "one" in there()) == ((0, ""), 1, False), "a new name"
    assert sorted(it.name for it in host.machine.path("/etc/canvas/users").iterdir()) == ["other"], "its users have moved"
    stop("other")
    status, said = host.admin("remove", "other")
    kept = said.rpartition(" ")[2]
    assert (status, "other" in there(), host.machine.path(f"{kept}/1/journal.jsonl").exists()) == (0, False, True), "a document that is removed is kept"
    assert host.machine.path(f"{kept}.users").exists() is True, "its users are kept beside it"
    assert (host.admin("create", "other", kept), version("other")) == ((0, ""), 1), "it is made again"
    host.machine.path("/var/lib/canvas/copy/1/journal.jsonl").write_bytes(b" no edit\n")
    host.machine.kill("canvas@copy")
    await until(lambda: host.machine.property("canvas@copy", "ActiveState") == "failed")
    assert host.machine.property("canvas@copy", "NRestarts") == "1", "a journal that somebody has spoiled is tried once"
    assert "line 1 is no edit" in host.machine.journal("canvas@copy"), ("why it does not start is told", host.machine.journal("canvas@copy"))
    host.drop(["other", "7-posters", "copy"])
    assert (there(), host.admin("list")) == ([], (0, "")), "nothing is left"


# -- who may have what -------------------------------------------------------------------------------------------------

async def status_of(client, address):
    async with client.get(address, allow_redirects=False) as response:
        await response.read()
        return response.status


async def test_doors(host):
    """Pages and raw sessions, for those who may have them."""
    await host.create(["ours", "theirs"])
    for name, client in (("with its password", host.web("ours")), ("with none", host.web()), ("with that of another document", host.web("theirs")),
                         ("with a wrong one", host.web("ours", word="x")), ("of another user", host.web("ours", user="ben"))):
        wanted = 200 if name == "with its password" else 401
        async with client:
            assert await status_of(client, page("ours")) == wanted, f"the page {name}"
            assert await status_of(client, f"{page('ours')}picture/{'0' * 32}.png") == (404 if wanted == 200 else 401), f"a picture {name}"
            try:
                tab = await Tab.open(client, page("ours"))
                found = len(await tab.ask(SHAPE, *TILES))
                await tab.close()
            except aiohttp.WSServerHandshakeError as fault:
                found = fault.status
            assert found == (len(TILES) + 1 if wanted == 200 else 401), f"a session {name}"
    await addresses(host)
    await headers(host)
    await guesses(host)
    await pictures(host)
    await raw_sessions(host)
    await past(host)
    with host.session("theirs") as canvas:
        assert canvas.ask(**POINT)[0]["version"] == 0, "nothing was changed in the other document"
    host.drop(["ours", "theirs"])


async def addresses(host):
    """What the site answers."""
    async with host.web("ours") as client:
        for path, wanted in (("/d/ours", 301), ("/page/main.js", 200), ("/page/none.js", 404), ("/page/../main.py", 404), ("/page/%2e%2e/main.py", 404), ("/", 404),
                             ("/d/", 404), ("/d/none/", 403), ("/d/OURS/", 404), (f"/d/{'a' * 64}/", 404), ("/d/ours/..%2ftheirs/", 401), ("/d/..%2f..%2fetc/", 400),
                             ("/session", 404), ("/d/ours/session", 400), ("/d/ours/none", 404)):
            address = aiohttp.client.URL(f"{SITE}{path}", encoded=True)
            assert await status_of(client, address) == wanted, f"the address {path}"
        headers = {"Origin": "https://elsewhere.example"}
        try:
            await client.ws_connect(f"{page('ours')}session", headers=headers)
            pytest.fail("a page of another site was let in")
        except aiohttp.WSServerHandshakeError as fault:
            assert fault.status == 403, "a page of another site"


async def headers(host):
    """What a browser is told to do with what it gets."""
    async with host.web("ours") as client:
        for path in ("/d/ours/", "/page/main.js", "/d/ours/none"):
            async with client.get(f"{SITE}{path}") as response:
                found = response.headers
            assert "frame-ancestors 'none'" in found.get("Content-Security-Policy", ""), (f"who may show {path} in a page", str(found))
            assert found.get("X-Content-Type-Options") == "nosniff", f"what {path} is"
            assert found.get("Strict-Transport-Security") == "max-age=31536000", f"that {path} is asked for by TLS"


async def guesses(host):
    """Many passwords from one address."""
    judged, begin = [], time.monotonic()

    async def guess(client, number):
        with contextlib.suppress(*FAULTS):
            async with client.get(page("ours"), auth=aiohttp.BasicAuth("ann", f"guess {number}")) as response:
                judged.append(response.status)

    async with host.web(address="127.0.0.2") as client, host.web("ours") as other:
        work = [asyncio.create_task(guess(client, number)) for number in range(80)]
        await until(lambda: len(judged) > 22)
        most = 20 + 5 * (time.monotonic() - begin) + 2
        assert len(judged) <= most, f"of 80 passwords of one address few are judged at once: {len(judged)}, where {most:.0f} may be"
        assert {*judged} == {401}, "all of these are wrong"
        assert await status_of(other, page("ours")) == 200, "another address is answered"
        for it in work:
            it.cancel()


async def pictures(host):
    """A picture is asked for once, and then nginx has it; but not for those who may not see it."""
    async with host.web("ours") as client, host.web("theirs") as other:
        tab = await Tab.open(client, page("ours"))
        name = (await tab.ask(TILES[0]))[0]["picture"]
        address = f"{page('ours')}picture/{name}.png"
        async with client.get(address) as response:
            assert (response.status, (await response.read())[:4]) == (200, b"\x89PNG"), "a picture"
        host.machine.must("systemctl", "stop", "canvas-gateway")
        assert await status_of(client, address) == 200, "a picture that nginx has"
        assert [await status_of(other, it) for it in (address, address.replace("ours", "theirs"))] == [401, 502], "it is nobody else's"
        host.machine.must("systemctl", "start", "canvas-gateway")
        await tab.close()


async def past(host):
    """The document as it was: the gateway starts a server of its own for that."""
    async with host.web("ours") as client:
        tab = await Tab.open(client, page("ours"))
        now, = await tab.ask({"verb": "export"})
        for at in (0, now["version"]):
            await tab.socket.send_json({"batch": -1, "at": at, "requests": [{"verb": "export"}]})
            found = await tab._until(lambda message: message.get("batch") == -1)
            shapes = found["replies"] and len(found["replies"][0]["document"]["shapes"])
            assert difference(shapes, 0 if at == 0 else len(now["document"]["shapes"])) is None, (f"the past at version {at}", str(found)[:300])
        await tab.close()


async def raw_sessions(host):
    """Sessions by TLS, for the certificates that may."""
    context = host.keys.context
    edit = line_of(SHAPE)
    raw = await host.raw("ours")
    assert [(await raw.ask(it))["ok"] for it in (SHAPE, POINT)] == [True, True], "a raw session"
    await raw.close()
    with host.session("ours") as canvas:
        version = canvas.ask(**POINT)[0]["version"]
    for name, certificate, document in (("no certificate", None, "ours"), ("a certificate that another one signed", "stranger", "ours"),
                                        ("a certificate that may not", "ben", "ours"), ("another document", "ben", "theirs"), ("no document", "ann", "none"),
                                        ("a name that is none", "ann", "..")):
        host_name = f"{document}.canvas.example" if document != ".." else "-a.canvas.example"
        assert await answer_to(context(certificate), host_name, edit) == b"", f"a raw session with {name}"
    assert await answer_to(context("ann"), "127.0.0.1", edit) == b"", "one by the site's own name"
    plain = await answer_to(None, None, b"GET / HTTP/1.1\r\nHost: here\r\n\r\n" + edit)
    assert edit not in plain and b'"ok":true' not in plain, ("HTTP without TLS at the raw port", plain)
    http = await answer_to(context("ann"), "ours.canvas.example", b"POST / HTTP/1.1\r\nHost: here\r\n\r\n" + edit)
    assert b'"code":50' in http and http.count(b"\n") == 1, ("HTTP at the raw port", http)
    with host.session("ours") as canvas:
        assert canvas.ask(**POINT)[0]["version"] == version, "none of them has made an edit"
    editors = host.machine.path("/etc/canvas/editors")
    before = editors.read_text()
    for_all = re.search(r'`("~\^CN=ann .*?" 1;)`', (TOP / "packaging" / "nginx" / "canvas-sessions.conf").read_text())[1]
    editors.write_text(f"{before}{for_all}\n".replace('"CN=ann theirs" 1;\n', ""))
    host.machine.must("systemctl", "reload", "nginx")
    await asyncio.sleep(1)
    for name, wanted in (("ann", True), ("ann lee", False), ("ben", False)):
        found = await answer_to(context(name), "theirs.canvas.example", line_of(POINT))
        assert (b'"ok":true' in found) == wanted, f"CN={name}, where CN=ann may edit all documents"
    editors.write_text(before)
    host.machine.must("systemctl", "reload", "nginx")
    await asyncio.sleep(1)
    with tempfile.TemporaryDirectory() as folder:
        words = f"OPENSSL:{RAW[0]}:{RAW[1]},snihost=ours.canvas.example,cert={host.keys.file('ann.crt')},key={host.keys.file('ann.key')},cafile={host.keys.file('tls.crt')}"
        process = subprocess.Popen(["socat", f"UNIX-LISTEN:{folder}/door,fork", words], stderr=subprocess.DEVNULL)
        await until(Path(folder, "door").exists)
        with connected(f"unix:{folder}/door", PATIENCE) as sock:
            got = await asyncio.to_thread(talk, sock, line_of(POINT) * 1000)
        assert got.count(b'"ok":true') == 1000, "a program without TLS, by socat, that ends what it sends"
        process.kill()
        process.wait()
    log = host.machine.path("/var/log/nginx/canvas-sessions.log").read_text()
    told = [it in log for it in ('"CN=ann" "ours.canvas.example" 200', '"CN=ben" "ours.canvas.example" 502', '"-" "ours.canvas.example"', '"CN=ben" "theirs.canvas.example" 502')]
    assert difference(told, [True] * 4) is None, ("the log tells who came", log[-1500:])


# -- a browser ---------------------------------------------------------------------------------------------------------

@pytest.mark.browser
async def test_browsed(host):
    """The pages of two documents in a browser, through nginx."""
    await host.create(["drawn", "other"])
    async with Browser() as browser:
        tab = await browser.open("about:blank")
        await tab.command("Security.setIgnoreCertificateErrors", ignore=True)
        for name in ("drawn", "other"):
            await tab.command("Page.navigate", url=page(name).replace("//", f"//ann:{quote(f'ann of {name}')}@"))  # (the browser knows the password from here on)
            await tab.until(f"location.pathname === '/d/{name}/' && document.readyState === 'complete'")
            await tab.command("Page.navigate", url=page(name))
            await tab.until(f"location.pathname === '/d/{name}/' && !!window.app?.picture?.isSettled")
            tab.faults.clear()
            assert await tab.value("document.title") == f"{name} – canvas", f"the title of {name}"
            await tab.value("app.editor.send({verb: 'create', shape: {kind: 'rect', w: 90, h: 60, fill: 'b3261e'}}).then(({version}) => version)")
            await tab.until("app.picture.isSettled && app.picture.tree.version === 1 && app.picture.tree.records.size === 1")
            with host.session(name) as canvas:
                assert canvas.ask(**POINT)[0]["version"] == 1, f"an edit of {name} in the browser"
            assert await tab.value("import('../../page/names.js').then(({giveName, nameOf}) => "
                                                                       f"{{const it = app.picture.tree.record(1), before = nameOf(it); giveName(it, 'of {name}'); return before;}})") == "Rectangle 1", f"a new shape of {name}"
            assert tab.faults == [], f"the console of {name}"
        for name in ("canvas-gateway", "nginx", "canvas@other"):
            host.machine.kill(name)
            await tab.until("!document.getElementById('away').hidden", PATIENCE)
            await tab.until("document.getElementById('away').hidden && app.picture.isSettled", PATIENCE)
            assert await tab.value("app.picture.tree.version") == 1, f"the page comes back after {name} was killed"
    host.drop(["drawn", "other"])


# -- many tabs ---------------------------------------------------------------------------------------------------------

TABS, EDITORS = 200, 8


async def test_viewers(host):
    """More tabs than a server has seats, of which some edit, and raw sessions beside."""
    await host.create(["crowd"])
    seconds, over = (60 if host.is_long else 10), asyncio.Event()
    async with contextlib.AsyncExitStack() as stack:
        clients = [await stack.enter_async_context(host.web("crowd", address=f"127.0.1.{number + 1}")) for number in range(TABS // 10)]
        tabs = await asyncio.gather(*(Tab.open(client, page("crowd")) for client in clients for _ in range(10)), return_exceptions=True)
        assert [repr(it) for it in tabs if not isinstance(it, Tab)] == [], "each tab is served"
        tabs = [it for it in tabs if isinstance(it, Tab)]
        editors = [Editor(host, "crowd", is_raw=number < EDITORS // 2, pause=0.1) for number in range(EDITORS)]
        await asyncio.gather(*(it.goes_on() for it in editors))
        times = []

        async def look(tab, may_edit):
            while not over.is_set():
                begin = time.monotonic()
                await tab.ask(*TILES)
                times.append(time.monotonic() - begin)
                if may_edit:
                    await tab.ask(SHAPE)
                await asyncio.sleep(1)

        looking = [asyncio.create_task(look(tab, number % 20 == 0)) for number, tab in enumerate(tabs)]
        before = busy(host, "crowd")
        await asyncio.sleep(seconds)
        sessions, used = host.metric("crowd", "canvas_open_sessions"), busy(host, "crowd") - before
        memory = host.machine.property("canvas-gateway", "MemoryCurrent")
        over.set()
        found = await asyncio.gather(*looking, return_exceptions=True)
        assert [repr(it) for it in found if it is not None] == [], "each tab was answered to the end"
        assert [tab.fault for tab in tabs if tab.fault] == [], "no tab was told of an older version"
        newest = max(max(it.made, default=0) for it in editors)
        assert [tab.seen for tab in tabs if tab.seen < newest // 2] == [], "each tab was told of the edits"
        assert sessions <= 16 + EDITORS // 2 + 1, f"they share few sessions, and the gateway has its own: {sessions} sessions"
        for editor in editors:
            await editor.stop()
        assert [it.breaks for it in editors] == [0] * EDITORS, "no editor lost its connection"
        assert [it for it in map(Editor.lost, editors) if it] == [], "each answered edit is there"
        assert [it.faults for it in editors if it.faults] == [], "the editors' versions rise"
        await asyncio.gather(*(tab.close() for tab in tabs))
        host.figures.append(f"{TABS} tabs that ask for 12 tiles a second after each answer, beside {newest / seconds:.0f} edits a second: {sessions:.0f} sessions, {quantiles(times)}; canvasd "
                            f"{100 * used / seconds:.0f} % of a processor, gateway {int(memory) / 1e6 if memory.isdigit() else 0:.0f} MB")
    await gone(host, "crowd")
    assert host.metric("crowd", "canvas_open_sessions") == 1, "their sessions have ended, and the gateway has its own"
    host.drop(["crowd"])


async def gone(host, name):
    """Waits until a server has no session but the gateway's."""
    with contextlib.suppress(TimeoutError):
        await until(lambda: host.metric(name, "canvas_open_sessions") == 1)


def busy(host, name):
    return seconds_of(host.process(name))


def quantiles(times):
    times = sorted(times) or [0]
    return f"{1000 * times[len(times) // 2]:.0f} ms in the middle, {1000 * times[len(times) * 99 // 100]:.0f} of 99 in 100, {1000 * times[-1]:.0f} at most"


async def test_seats(host):
    """One address can't take all seats of a server; and where all are taken, a tab is still served."""
    await host.create(["wanted"])
    await gone(host, "wanted")  # the gateway has taken its own seat
    raws = await asyncio.gather(*(host.raw("wanted") for _ in range(70)), return_exceptions=True)
    answers = await asyncio.gather(*(raw.ask(POINT) for raw in raws if isinstance(raw, Raw)), return_exceptions=True)
    count = sum(isinstance(it, dict) and it["ok"] for it in answers)
    assert 30 <= count <= 40, f"sessions that one address has at once: {count}"
    sessions = [host.session("wanted") for _ in range(62)]
    taken = 0
    for session in sessions:
        with contextlib.suppress(*FAULTS, Refused):
            taken += session.ask(**POINT)[0]["ok"]
    assert taken < 62, f"no seat is left: {taken} more"
    async with host.web("wanted") as client:
        tab = await Tab.open(client, page("wanted"))
        assert (await tab.ask(SHAPE))[0]["ok"] is True, "a tab where no seat is left"
        await tab.close()
        tab = await Tab.open(client, page("wanted"))
        assert (await tab.ask(SHAPE))[0]["version"] == 2, "a later one"
        await tab.close()
    for session in sessions:
        session.close()
    for raw in raws:
        if isinstance(raw, Raw):
            await raw.close()
    host.drop(["wanted"])


# -- bad input ---------------------------------------------------------------------------------------------------------

NO_MESSAGES = ("", "{", "[]", "7", '{"batch":1}', '{"batch":1,"requests":7}', '{"at":0}', "[" * 60_000, '{"batch":1,"requests":["%s"]}' % ("a" * 70_000), '{"me":7}', '{"batch":{},"requests":[]}')


async def test_bad(host):
    """What is no message, floods, or is slow, at one document, while it and another one are edited."""
    await host.create(["attacked", "beside"])
    watched = ("canvas@attacked", "canvas@beside", "canvas-gateway", "nginx")
    before = [host.machine.property(unit, "NRestarts") for unit in watched]
    others = [Editor(host, name, is_raw) for name in ("attacked", "beside") for is_raw in (False, True)]
    await asyncio.gather(*(it.goes_on() for it in others))
    async with host.web("attacked") as client:
        for text in NO_MESSAGES:
            tab = await Tab.open(client, page("attacked"))
            await tab.socket.send_str(text)
            wanted = EOFError if text not in NO_MESSAGES[-2:] else list
            try:
                found = type(await tab.ask(POINT))
            except FAULTS as fault:
                found = type(fault)
            assert found.__name__ == wanted.__name__, f"a tab that sends {text[:40]}"
            await tab.close()
        tab = await Tab.open(client, page("attacked"))
        await tab.socket.send_bytes(bytes(range(256)))
        assert len(await tab.ask(POINT)) == 1, "a tab that sends bytes"
        with contextlib.suppress(*FAULTS):
            await tab.socket.send_str("a" * (5 << 20))
            await tab._until(lambda _: False)
        assert tab.socket.closed is True, "a tab that sends five megabytes is closed"
        log = host.machine.journal("canvas-gateway")
        assert [it for it in ("what is no JSON", "what is no object", "a batch without", "a request that is too long") if f"attacked: a tab that sent {it}" not in log] == [], "the log tells of them"
        await floods(host, client, others)
    for editor in others:
        await editor.stop()
        assert (editor.faults, editor.lost()) == ([], None), f"an editor of {editor.name}"
        if editor.name == "beside":
            assert editor.breaks == 0, "it kept its connection"
    assert [host.machine.property(unit, "NRestarts") for unit in watched] == before, "nothing was started again"
    told = host.machine.journal("canvas-gateway")
    assert "Traceback" not in told, ("the gateway tells of no fault of its own", told[-1500:])
    host.drop(["attacked", "beside"])


async def floods(host, client, others):
    """Tabs that ask on and read nothing, connections that say nothing or little, and raw sessions of both kinds."""
    tabs = [await Tab.open(client, page("attacked")) for _ in range(20)]
    raws = [await host.raw("attacked") for _ in range(10)]
    slow = [await asyncio.open_connection("127.0.0.1", 443, ssl=host.keys.context()) for _ in range(20)]
    flood = json.dumps({"batch": 0, "requests": [{"verb": "tile", "col": col % 20, "row": col // 20} for col in range(512)]})

    over = asyncio.Event()

    async def pour(tab):
        with contextlib.suppress(*FAULTS):
            while not over.is_set():
                async with asyncio.timeout(2):
                    await tab.socket.send_str(flood)

    async def pour_raw(raw):
        with contextlib.suppress(*FAULTS):
            while not over.is_set():
                raw.writer.write(line_of(TILES[0]) * 500)
                async with asyncio.timeout(2):
                    await raw.writer.drain()

    async def drip(writer):
        with contextlib.suppress(*FAULTS):
            while not over.is_set():
                writer.write(b"G")
                await writer.drain()
                await asyncio.sleep(0.1)

    for tab in tabs:
        tab.socket._reader._protocol.pause_reading()  # (aiohttp reads by itself, whether it is asked or not)
    for raw in raws:
        raw.writer.transport.pause_reading()
    work = [asyncio.create_task(it) for it in (*map(pour, tabs), *map(pour_raw, raws), *(drip(writer) for _, writer in slow))]
    for name in ("at once", "after some seconds"):
        waits = await asyncio.gather(*(it.goes_on() for it in others))
        assert None not in waits, f"others are answered {name} while twenty tabs and ten sessions flood: {waits}"
        host.figures.append(f"an edit {name} beside 20 tabs and 10 sessions that flood and read nothing: {max(it or 0 for it in waits):.2f} s at most")
        await asyncio.sleep(5)
    memory = host.machine.property("canvas-gateway", "MemoryCurrent")
    if memory.isdigit():
        assert int(memory) < 1 << 30, f"the gateway's memory: {int(memory) / 1e6:.0f} MB"
    over.set()
    await asyncio.wait(work)
    for tab in tabs:
        tab.socket._response.close()
    for raw in raws:
        raw.writer.transport.abort()
    for _, writer in slow:
        writer.transport.abort()


# -- kills -------------------------------------------------------------------------------------------------------------

async def test_kills(host):
    """kill -9 of anything, while each document is edited."""
    count, rounds = (50, 100) if host.is_long else (20, 10)
    names = [f"doc-{number}" for number in range(count)]
    await host.create(names)
    host.figures.append(f"{count} documents that nobody edits: {idle(host, names)}")
    editors = [Editor(host, name, number % 2 == 0, pause=0.05) for number, name in enumerate(names)]
    assert [it.name for it, wait in zip(editors, await asyncio.gather(*(it.goes_on() for it in editors))) if wait is None] == [], "each document is edited"
    if host.is_long:
        host.figures.append(await work(host, editors))
    waits = {"server": [], "gateway": [], "nginx": []}
    generator = random.Random(7)
    for number in range(rounds):
        what = ("server", "server", "server", "gateway", "server", "nginx")[number % 6]
        victim = generator.choice(editors)
        hit = {"server": [victim], "gateway": [it for it in editors if not it._is_raw], "nginx": editors}[what]
        unit = {"server": f"canvas@{victim.name}", "gateway": "canvas-gateway", "nginx": "nginx"}[what]
        breaks = {it: it.breaks for it in editors}
        await asyncio.sleep(generator.random() / 2)
        host.machine.kill(unit)
        found = await asyncio.gather(*(it.goes_on() for it in hit))
        assert [it.name for it, wait in zip(hit, found) if wait is None] == [], f"{unit} is back"
        waits[what] += [it for it in found if it is not None]
        others = {it.name: it.breaks - breaks[it] for it in editors if it not in hit and it.breaks > breaks[it]}
        assert others == {}, f"no other document's sessions ended with {unit}"
    breaks = sum(it.breaks for it in editors)
    host.machine.must("dpkg", "--install", "/package.deb")
    await asyncio.gather(*(it.goes_on() for it in editors))
    assert sum(it.breaks for it in editors) == breaks, "the package, installed once more, stops nothing"
    host.machine.must("systemctl", "try-restart", "canvas@*", "canvas-gateway")
    found = await asyncio.gather(*(it.goes_on() for it in editors))
    assert [it.name for it, wait in zip(editors, found) if wait is None] == [], "all are back after a restart"
    host.figures.append(f"a restart of all: no answer for at most {max(it or 0 for it in found):.1f} s")
    for editor in editors:
        await editor.stop()
        assert editor.lost() is None, f"what was answered of {editor.name}"
        assert editor.faults == [], f"the versions of {editor.name}"
    answered = sum(len(it.made) for it in editors)
    host.figures.append(f"{rounds} kills beside {count} documents, {answered} answered edits; no answer for " +
                        "; ".join(f"{what} {min(it):.1f} to {max(it):.1f} s, {sorted(it)[len(it) // 2]:.1f} in the middle" for what, it in waits.items() if it))
    host.drop(names)


async def work(host, editors):
    """What the edits of all documents at once cost."""
    groups = {"canvasd": [host.process(it.name) for it in editors], "the gateway": host.processes("canvas-gateway"), "nginx": host.processes("nginx")}
    made, before = sum(len(it.made) for it in editors), {name: sum(map(seconds_of, it)) for name, it in groups.items()}
    await asyncio.sleep(10)
    made = sum(len(it.made) for it in editors) - made
    used = "; ".join(f"{name} {10 * (sum(map(seconds_of, it)) - before[name]):.0f} %" for name, it in groups.items())
    times = [end - begin for it in editors for begin, end in it.times[-100:]]
    return f"{len(editors)} documents with an editor each, {made / 10:.0f} edits a second together, {quantiles(times)}: of a processor {used}"


def idle(host, names):
    """Memory and processor of servers that do nothing."""
    before = {name: busy(host, name) for name in names}
    time.sleep(10 if host.is_long else 2)
    used = [busy(host, name) - before[name] for name in names]
    sizes = [int(re.search(r"VmRSS:\s+(\d+)", Path(f"/proc/{host.process(name)}/status").read_text())[1]) for name in names]
    return f"{max(sizes) / 1000:.1f} MB each at most, {100 * sum(used) / len(used) / (10 if host.is_long else 2):.2f} % of a processor"


async def test_disk(host):
    """A disk that is full, below one of two documents, and that has room again."""
    await host.create(["full", "roomy"])
    folder = "/var/lib/canvas/full"
    host.machine.must("systemctl", "stop", "canvas@full")
    host.machine.must("sh", "-euc", f"mv {folder} /srv/full; mkdir {folder}; mount -t tmpfs -o size=128k full {folder}; cp -R /srv/full/. {folder}; chown -R canvas:canvas {folder}")
    host.machine.must("systemctl", "start", "canvas@full")
    full, roomy = Editor(host, "full", True, pause=0.001), Editor(host, "roomy", False)
    await until(lambda: full.breaks > 0)
    assert len(full.made) > 100, f"a document on a full disk is edited until then: {len(full.made)} edits"
    assert (await roomy.goes_on() is None) is False, "the other one goes on"
    await until(lambda: host.machine.property("canvas@full", "NRestarts") not in ("0", "1"))
    assert "No space left on device" in host.machine.journal("canvas@full"), ("the log tells why", host.machine.journal("canvas@full")[-500:])
    host.machine.must("mount", "-o", "remount,size=64m", folder)
    assert (await full.goes_on() is None) is False, "when there is room again it is edited again"
    for editor in (full, roomy):
        await editor.stop()
    assert [full.lost(), full.faults, roomy.lost(), roomy.breaks] == [None, [], None, 0], "what was answered"
    host.machine.must("systemctl", "stop", "canvas@full")
    host.machine.must("umount", folder)
    host.drop(["full", "roomy"])


# -- watching and copies -----------------------------------------------------------------------------------------------

async def test_watch(host):
    """What Prometheus is told, and whether all is well."""
    await host.create(["watched"])
    with host.session("watched") as canvas:
        canvas.ask(**SHAPE)
        assert subprocess.run(["curl", "-s", f"{WATCH}/watched/healthz"], capture_output=True).stdout.strip() == b"ok", "health"
        await until(lambda: host.metric("watched", "canvas_version") == 1)
        await until(lambda: host.metric("watched", "canvas_open_sessions") == 2)  # (one is the gateway's)
        assert [host.metric("watched", it) for it in ("canvas_version", "canvas_kept_version")] == [1, 1], "versions"
    for path in ("/none/metrics", "/watched/none", "/watched/../watched/x", "/"):
        done = subprocess.run(["curl", "-s", "--path-as-is", "-o", "/dev/null", "-w", "%{http_code}", f"{WATCH}{path}"], capture_output=True, text=True)
        assert done.stdout in ("404", "502", "400"), (f"the address {path}", done.stdout)
    host.drop(["watched"])
    if shutil.which("promtool"):
        with tempfile.NamedTemporaryFile("w", suffix=".yml") as file:
            file.write(commands_of("scrape_configs:"))
            file.flush()
            done = subprocess.run(["promtool", "check", "config", "--lint-fatal", file.name], capture_output=True, text=True)
            assert difference(done.returncode, 0) is None, ("what Prometheus is to be told", done.stdout + done.stderr)


async def test_copies(host):
    """A copy that follows, and a document that is restored from it."""
    await host.create(["first"])
    copy = [str(TOP / "bin" / "canvas-backup"), f"unix:{host.machine.path('/run/canvas/first/feed')}", str(host.machine.path("/srv/copy")), "--once"]
    with host.session("first") as canvas:
        for _ in range(5):
            canvas.ask(**SHAPE)
        _, text = canvas.ask(verb="export")
    done = subprocess.run(copy, capture_output=True, text=True, timeout=PATIENCE)
    assert difference(done.returncode, 0) is None, ("a copy by the feed", done.stderr)
    assert host.admin("create", "second", "/srv/copy") == (0, ""), "it is made a document"
    with host.session("second") as canvas:
        reply, found = canvas.ask(verb="export")
        assert (reply["version"], found) == (5, text), "that is the same"
    host.drop(["first", "second"])


def test_units(host):
    """The units as systemd-analyze reads them."""
    done = host.machine.run("systemd-analyze", "verify", *(it.replace("@", "@poster") for it in UNITS))
    assert (done.returncode, done.stdout + done.stderr) == (0, "")
