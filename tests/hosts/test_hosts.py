"""Serves documents by three hosts, each a machine of its own (harness/machine.py) in a network of the tests: haproxy, nginx, systemd, canvasd,
canvas-store, and PostgreSQL by Patroni and etcd, put together by the commands of docs/RUNNING.md.

- documents are made at the store, and each host has doors for them;
- they are edited by TLS through all three hosts, while one host is killed, one is cut off and comes back, the database is killed, and the host of its
  leader is killed: each answered edit is there afterwards, under its version;
- what is none of a host's business is refused: HTTP at the raw port, no certificate, one that may not, a name that is none;
- no password stands in a command's words, or in what nginx's workers or the servers of documents may read; etcd, Patroni and PostgreSQL listen where
  the hosts are alone, and want a certificate; what the store says to be a name and is none becomes no path and no unit.

For how many seconds edits were not answered is shown with `-s`; with `--long` there are more documents, and more fails.
"""

import asyncio
import bisect
import contextlib
import json
import re
import shutil
import subprocess
import time
from concurrent.futures import ThreadPoolExecutor
from pathlib import Path

import pytest

import release
from harness.tab import PATIENCE
from canvas.client import line_of
from harness import machine as machines
from harness.hosting import FAULTS, Editor as PlainEditor, Keys, POINT, SHAPE, commands_of
from harness.running import EMPTY, until
from harness.store_client import Gated, Store
from repository import BUILT, BUILT_KEEPER

pytestmark = [pytest.mark.slow, pytest.mark.hosts, pytest.mark.database, pytest.mark.needs("haproxy", "etcd", "patroni", "ip", "strace")]
LONG = pytest.mark.long
"""Tests that are run with `--long` alone."""
NAMES = ("h1", "h2", "h3")
SERVICES = ("haproxy.service", "etcd.service", "patroni.service", "postgresql.service")
UNITS = ("canvas@poster.service", "canvas-store.service", "canvas-door@poster.socket", "canvas-door@poster.service", "canvas-documents.service",
         "canvas-documents.timer", "canvas-gateway.service")
WORDS = "/run/words-of-all-commands"
"""Where the words of the commands of docs/RUNNING.md are noted, in a machine."""
ANSWER = 5
"""Seconds after which a client that is not answered tries another host."""


@pytest.fixture(scope="module")
def hosts(request, tmp_path_factory):
    """Three hosts, with documents that are edited while the tests go on, one after another."""
    hosts = Hosts(tmp_path_factory.mktemp("hosts"))
    try:
        with asyncio.Runner() as hosts.runner:
            hosts.runner.get_loop().set_exception_handler(lambda *_: None)  # (connections that break off have nobody to tell)
            hosts.runner.run(begin(hosts, 30 if request.config.getoption("long") else 12))
            yield hosts
    finally:
        hosts.close()
    print(*hosts.figures, sep="\n")


async def begin(hosts, count):
    """Makes the database and so many documents, and has all of them edited."""
    await hosts.make_database()
    hosts.figures.append(f"three hosts from nothing: {time.monotonic() - hosts.begun:.0f} s")
    names = [f"doc-{number}" for number in range(count)]
    await hosts.create(names)
    for number, name in enumerate(names):
        Editor(hosts, name, number)
    begun = await asyncio.gather(*(it.goes_on(time.monotonic()) for it in hosts.editors))
    assert [it.name for it, wait in zip(hosts.editors, begun) if wait is None] == []


class Hosts:
    """Three hosts over one database, and the documents that they serve."""

    def __init__(self, folder):
        folder, self.begun = Path(folder), time.monotonic()
        package = folder / "dist" / release.make({"canvas": BUILT, "canvasd": BUILT_KEEPER}, folder / "dist")[1]
        self.keys, self.figures, self.editors, self.machines = Keys(folder), [], [], {}
        self.trust = folder / "trust"
        self.trust.mkdir()
        subprocess.run(["sh", "-euc", commands_of("# In an empty folder that nobody else may read")], cwd=self.trust, check=True, capture_output=True)
        machines.network(NAMES)
        for name in NAMES:
            (folder / name).mkdir()
            self.machines[name] = it = machines.Machine(folder / name, package, name, SERVICES)
            self._fill(it)
        for it in self.machines.values():
            it.boot()
            self.command(it, "# As root, on each of h1, h2 and h3")

    def command(self, machine, begin):
        """Runs the commands of a block of docs/RUNNING.md in a machine; the words of all programs that they start are noted there."""
        machine.must("strace", "-f", "-qq", "-A", "-o", WORDS, "-s", "10000", "-e", "trace=execve", "sh", "-euc", commands_of(begin))

    @property
    def passwords(self):
        return [it.read_text().strip() for it in (self.trust / "secrets").iterdir()]

    def _fill(self, machine):
        """What a host has of its own: its name, those of the others, and keys."""
        etc = machine.root / "etc"
        (etc / "hostname").write_text(f"{machine.name}\n")
        (etc / "hosts").write_text("127.0.0.1 localhost\n" + "".join(f"10.77.0.{number} {name}\n" for number, name in enumerate(NAMES, 1)))
        (etc / "canvas" / "users").mkdir(parents=True)
        for name in ("tls.crt", "tls.key", "clients.crt"):
            shutil.copy(self.keys.file(name), etc / "canvas" / name)
        shutil.copytree(self.trust / "secrets", etc / "canvas" / "secrets")
        shutil.copy(self.trust / "hosts.crt", etc / "canvas")
        shutil.copy(self.trust / f"{machine.name}.pem", etc / "canvas" / "host.pem")
        (etc / "canvas" / "editors").write_text('"~^CN=ann [^ ]*$" 1;\n')

    def close(self):
        for it in self.machines.values():
            it.close()

    # -- the database --------------------------------------------------------------------------------------------------

    def members(self):
        """What each member of the database is, as Patroni says."""
        for it in filter(machines.Machine.is_up, self.machines.values()):
            done = it.run("patronictl", "-c", "/etc/patroni/config.yml", "list", "--format", "json")
            if done.returncode == 0 and done.stdout.strip():
                return {row["Member"]: (row["Role"], row["State"]) for row in json.loads(done.stdout)}
        return {}

    def leader(self):
        return next((name for name, (role, state) in self.members().items() if role == "Leader" and state == "running"), None)

    def has_standby(self):
        return any(role == "Sync Standby" for role, _ in self.members().values())

    async def make_database(self):
        await until(lambda: self.leader() and self.has_standby())
        self.command(self.machines[self.leader()], "# As root, on the leader, when patronictl")
        await until(lambda: all(it.run("systemctl", "is-active", "--quiet", "canvas-store").returncode == 0 for it in self.machines.values()))
        await asyncio.sleep(3)  # (as long as each haproxy needs to see that)

    # -- documents and hosts -------------------------------------------------------------------------------------------

    async def create(self, names):
        """Makes documents that ann may see and edit, and waits for their doors on each host."""
        for name in names:
            self.machines["h1"].must("canvas-store", "create", name)
        word = subprocess.run(["openssl", "passwd", "-apr1", "secret"], check=True, capture_output=True, text=True).stdout
        for it in self.machines.values():
            for name in names:
                it.path(f"/etc/canvas/users/{name}").write_text(f"ann:{word}")
        await until(lambda: all(it.path(f"/run/canvas/{name}/door").exists() for it in self.machines.values() for name in names))

    def holders(self):
        """Which host serves each document; None where none does."""
        done = next(it for it in self.machines.values() if it.is_up()).must("canvas-store", "list")
        return {words[0]: words[3] if words[3] != "-" else None for words in map(str.split, done.splitlines())}

    def cut(self, name):
        machines.ip("link", "set", name, "down")

    def join(self, name):
        machines.ip("link", "set", name, "up")

    def kill(self, name):
        """A host dies: nobody is told, since its network goes first."""
        self.cut(name)
        self.machines[name].halt()

    def start(self, name):
        self.join(name)
        self.machines[name].boot()


class Editor(PlainEditor):
    """An editor by any host that answers."""

    def __init__(self, hosts, name, number):
        self._context, self.front = hosts.keys.context("ann"), number % len(NAMES)
        super().__init__(name, 0.2)
        hosts.editors.append(self)

    async def visit(self):
        try:
            async with session(self._context, self.name, self.front) as ask:
                await self.edit(ask)
        except FAULTS:
            self.front = (self.front + 1) % len(NAMES)
            raise

    async def goes_on(self, since):
        """Waits until edits are answered that are asked for from now on; gives the longest time without an answer since a moment."""
        begin = time.monotonic()
        while len(self.times) < 2 or self.times[-1][0] < begin:
            if time.monotonic() - begin > PATIENCE:
                return None
            await asyncio.sleep(0.05)
        ends = [end for _, end in self.times]
        times = ends[max(0, bisect.bisect(ends, since) - 1):]
        return max(after - before for before, after in zip(times, times[1:]))

    async def lost(self):
        """What was answered and is not in the document, or None."""
        async with session(self._context, self.name, self.front, PATIENCE) as ask:  # (it may have to move to another host first)
            reply = await ask({"verb": "export"})
        return self.lost_of(reply["version"], reply["text"])


@contextlib.asynccontextmanager
async def session(context, name, front, patience=ANSWER):
    """A raw session with a document by a host: what asks there."""
    opening = asyncio.open_connection(f"10.77.0.{front + 1}", 7443, ssl=context, server_hostname=f"{name}.canvas.example", limit=1 << 24)
    reader, writer = await asyncio.wait_for(opening, 3)

    async def ask(request):
        writer.write(line_of(request))
        reply = json.loads(await asyncio.wait_for(reader.readuntil(b"\n"), patience))
        return {**reply, "text": await reader.readexactly(reply["body"])}

    try:
        yield ask
    finally:
        writer.transport.abort()


# -- who may have what -------------------------------------------------------------------------------------------------

async def answer_to(front, context, name, data):
    """What comes back for some bytes at a host's raw door."""
    try:
        reader, writer = await asyncio.wait_for(asyncio.open_connection(f"10.77.0.{front + 1}", 7443, ssl=context, server_hostname=name), 5)
        writer.write(data)
        found = await asyncio.wait_for(reader.read(1 << 16), 20)
        writer.close()
        return found
    except FAULTS:
        return b""


def page_status(hosts, front, name, user="ann:secret"):
    """What a host's haproxy answers for the page of a document."""
    words = ["curl", "-s", "--cacert", hosts.keys.file("tls.crt"), "-o", "/dev/null", "-w", "%{http_code}", *(["-u", user] if user else []),
             "--resolve", f"site.canvas.example:443:10.77.0.{front + 1}", f"https://site.canvas.example/d/{name}/"]
    return subprocess.run(words, capture_output=True, text=True).stdout


def shown_by(hosts, name):
    """The hosts whose nginx gave the page of a document."""
    return [host for host, it in hosts.machines.items() if f"/d/{name}/ " in it.path("/var/log/nginx/canvas.log").read_text()]


async def test_doors(hosts):
    """Each document by each host, for those who may."""
    context, edit = hosts.keys.context, line_of(SHAPE)
    done = await asyncio.to_thread(hosts.machines["h1"].run, "systemd-analyze", "verify", *UNITS)
    assert (done.returncode, done.stdout + done.stderr) == (0, ""), "the units"
    for front, host in enumerate(NAMES):
        begun = time.monotonic()
        async with session(context("ann"), "doc-0", front, PATIENCE) as ask:
            assert (await ask(POINT))["ok"] is True, f"a session by {host}"
        hosts.figures.append(f"a session by {host}: {time.monotonic() - begun:.2f} s")
        for what, certificate, name in (("no certificate", None, "doc-0"), ("one that another signed", "stranger", "doc-0"),
                                        ("one that may not", "ben", "doc-0"), ("no document", "ann", "none"), ("a name that is none", "ann", "-a")):
            assert await answer_to(front, context(certificate), f"{name}.canvas.example", edit) == b"", f"{what}, by {host}"
        plain = await answer_to(front, None, None, b"GET / HTTP/1.1\r\nHost: here\r\n\r\n" + edit)
        assert plain == b"", f"HTTP without TLS at the raw port of {host}"
        for user, wanted in (("ann:secret", 200), ("ann:wrong", 401), ("", 401)):
            assert await asyncio.to_thread(page_status, hosts, front, "doc-0", user) == str(wanted), f"the page by {host}, of {user!r}"
    holders = await asyncio.to_thread(hosts.holders)
    for number, name in enumerate([*holders][:6]):
        await asyncio.to_thread(page_status, hosts, number % len(NAMES), name)
        assert shown_by(hosts, name) == [holders[name]], f"the page of {name} is at the host of its sessions"
    hosts.machines["h1"].must("canvas-store", "create", "gone")
    doors_of = [it.path("/run/canvas/gone/door") for it in hosts.machines.values()]
    assert await patient(lambda: all(it.exists() for it in doors_of)) is True, "a new document has its doors"
    hosts.machines["h2"].must("canvas-store", "remove", "gone")
    assert await patient(lambda: not any(it.exists() for it in doors_of)) is True, "one that is removed has none"
    served = [*(await asyncio.to_thread(hosts.holders)).values()]
    assert sorted({*served}, key=str) == [*NAMES], "each host serves some of them"


# -- who may know and do what ------------------------------------------------------------------------------------------

def words_of_processes(machine):
    """The words of all processes of a machine."""
    return machine.must("sh", "-c", "cat /proc/[0-9]*/cmdline | tr '\\0' ' '")


def listeners(machine):
    """The addresses at which a machine listens, by port."""
    found = {}
    for line in machine.must("ss", "-Hltn").splitlines():
        address, _, port = line.split()[3].rpartition(":")
        found.setdefault(int(port), set()).add(address)
    return found


async def test_trust(hosts):
    """Passwords, certificates, and names that are none."""
    for number, (host, machine) in enumerate(hosts.machines.items(), 1):
        said = machine.path(WORDS).read_text() + words_of_processes(machine)
        assert [it for it in hosts.passwords if it in said] == [], f"no password of {host} stands in a command's words"
        for user in ("www-data", "canvas", "nobody"):
            words = ["setpriv", f"--reuid={user}", f"--regid={machine.must('id', '-g', user).strip()}", "--init-groups", "grep", "-rslF", "-D", "skip"]
            done = machine.run(*words, *(f"-e{it}" for it in hosts.passwords), "/etc", "/run", "/var", "/srv", "/root")
            assert done.stdout == "", f"no password of {host} is read by {user}"
            done = machine.run(*words[:4], "sh", "-c", "cat /proc/[0-9]*/environ /etc/canvas/*.pem /etc/canvas/*.key")
            assert [it for it in [*hosts.passwords, "PRIVATE"] if it in done.stdout] == [], f"nor by {user} of {host} in the environment of others, nor a key"
        door = "/run/canvas-store/door"
        for user, wanted in (("www-data", False), ("canvas", True)):
            done = machine.run("setpriv", f"--reuid={user}", "--regid=canvas", "--init-groups", "test", "-w", door)
            assert (done.returncode == 0) == wanted, f"{user} of {host} at the store's door"
        found = listeners(machine)
        assert {port: found.get(port) for port in (2379, 2380, 8008, 5432, 9465)} == dict.fromkeys(
            (2379, 2380, 8008, 5432, 9465), {f"10.77.0.{number}"}), f"{host} listens where the hosts are alone"
        with_key = ["--cacert", "/etc/canvas/hosts.crt", "--cert", "/etc/canvas/host.pem"]
        for address in (f"https://{host}:2379/health", f"https://{host}:8008/health"):
            for name, words, wanted in (("a certificate of the hosts", with_key, True), ("none", with_key[:2], False)):
                done = machine.run("curl", "-sf", "-o", "/dev/null", *words, address)
                assert (done.returncode == 0) == wanted, f"{address} with {name}"
        plain = machine.run("curl", "-s", f"http://{host}:2379/version", f"http://{host}:8008/config")
        assert [it for it in ("etcdserver", "ttl") if it in plain.stdout] == [], f"{host} says nothing without TLS"
    await no_names(hosts)


NO_NAMES = ("../../../etc", "a b", "poster.socket", "-x", "a/b", "UPPER", "x" * 64, "%i", "..")


def intruded(hosts):
    """What names that are none have led to on the hosts."""
    found = []
    for it in hosts.machines.values():
        if it.must("stat", "-c", "%U", "/etc", "/var/lib", "/").split() != ["root"] * 3:
            found.append(f"{it.name}: who owns /etc")
        there = it.must("systemctl", "list-units", "--all", "--plain", "--no-legend", "--full", "canvas*@*").split()
        found += [f"{it.name}: {unit}" for unit in there if "@" in unit and not re.search("@doc-[0-9]+\\.|@after", unit)]
    return found


async def no_names(hosts):
    """A store that somebody has changed, and an agent that tells what is no name."""
    leader = hosts.machines[hosts.leader()]
    change = "ALTER TABLE document DROP CONSTRAINT document_name_check"
    done = leader.run("sh", "-c", f'psql "$(cat /etc/canvas/database)" -c "{change}"')
    assert "must be owner" in done.stderr, ("the role of the agents can't change a table", done.stderr)
    told = "/run/canvas-store/names"
    for it in hosts.machines.values():
        it.path(f"{told}.new").write_text("\n".join(NO_NAMES) + "\n" + "".join(f"{name}\n" for name in hosts.holders()))
        it.path(f"{told}.new").replace(it.path(told))  # (its reader runs now and then by itself)
        done = it.run("systemctl", "start", "canvas-documents.service")
        assert done.returncode == 0, f"{it.name}: {done.stderr}{it.journal('canvas-documents')[-3000:]}"
    assert intruded(hosts) == [], "names that are none in the file of an agent"
    journal = leader.journal("canvas-documents")
    assert f"line {len(NO_NAMES)} of {told} is no name" in journal and "UPPER" not in journal, ("they are told", journal[-500:])
    values = ", ".join(f"('{name}')" for name in (*NO_NAMES, "after"))
    superuser = ["runuser", "-u", "postgres", "--", "psql", "-q", "-d", "canvas", "-c"]
    leader.must(*superuser, f"{change}; INSERT INTO document (name) VALUES {values}")
    assert await patient(lambda: all(it.path("/run/canvas/after/door").exists() for it in hosts.machines.values())) is True, "a name that is one has its doors"
    assert intruded(hosts) == [], "names that are none in the store"
    assert f"{len(NO_NAMES)} of its names are none" in leader.journal("canvas-store"), ("they are told too", leader.journal("canvas-store")[-500:])
    leader.must(*superuser, f"DELETE FROM document WHERE name IN ({', '.join(map(repr, (*NO_NAMES, 'after')))})")
    assert await patient(lambda: not any(it.path("/run/canvas/after/door").exists() for it in hosts.machines.values())) is True, "the doors of a name that is gone go"


# -- what fails --------------------------------------------------------------------------------------------------------

async def patient(is_so):
    """Whether something is so in the end. (It is asked in a thread, since the clients go on meanwhile.)"""
    end = time.monotonic() + PATIENCE
    while not (found := await asyncio.to_thread(is_so)) and time.monotonic() < end:
        await asyncio.sleep(0.2)
    return bool(found)


async def disaster(hosts, what, act, seconds=4):
    """Does something bad, and waits until all documents are edited again; tells for how long they were not."""
    where = await asyncio.to_thread(hosts.holders)
    begun = time.monotonic()
    hit = await asyncio.to_thread(act)
    await asyncio.sleep(seconds)
    waits = await asyncio.gather(*(it.goes_on(begun) for it in hosts.editors))
    assert [it.name for it, wait in zip(hosts.editors, waits) if wait is None] == [], f"{what}: each document is edited again"
    found = {it.name: wait for it, wait in zip(hosts.editors, waits) if wait is not None}
    its = sorted(wait for name, wait in found.items() if where[name] == hit)
    others = sorted(wait for name, wait in found.items() if where[name] != hit)
    told = [f"{len(times)} documents {text} for {times[len(times) // 2]:.1f} s in the middle, {times[-1]:.1f} at most"
            for text, times in (("of that host", its), ("of other hosts", others)) if times]
    hosts.figures.append(f"{what}: without an answer {'; '.join(told)}")


async def one_of(hosts, is_leader):
    """A host that serves documents, and that has the database's leader, or not."""
    leader, found = await asyncio.to_thread(hosts.leader), list((await asyncio.to_thread(hosts.holders)).values())
    return max((it for it in NAMES if (it == leader) == is_leader), key=found.count)


async def test_killed(hosts):
    """A host dies that does not have the database's leader, and is started again."""
    host = await one_of(hosts, False)
    await disaster(hosts, "a host is killed", lambda: hosts.kill(host) or host)
    await back(hosts, host, lambda: hosts.start(host) or host)


async def back(hosts, host, act):
    """A host comes back, and its documents with it when their clients come anew."""
    await disaster(hosts, "a host is started again", act, 15)
    assert await patient(lambda: hosts.members().get(host, (0, 0))[1] == "running") is True, f"{host} is a member of the database again"
    assert await patient(hosts.has_standby) is True, "the database has a synchronous standby again"


@LONG
async def test_cut_off(hosts):
    """A host is cut off while its servers run on, and is there again."""
    host = await one_of(hosts, False)
    await disaster(hosts, "a host is cut off", lambda: hosts.cut(host) or host, 12)
    await disaster(hosts, "it is there again", lambda: hosts.join(host) or host, 12)
    said = hosts.machines[host].journal("canvas-store")
    assert "the lease of" in said and "lost" in said, ("its agent tells that it lost documents", said[-800:])
    assert await patient(hosts.has_standby) is True, "the database has a synchronous standby again"


@LONG
async def test_agent(hosts):
    """The agent of a host is killed."""
    host = await one_of(hosts, False)
    words = "pkill", "-KILL", "-f", "canvas-store serve"
    await disaster(hosts, "an agent is killed", lambda: hosts.machines[host].must(*words) or host, 6)


@LONG
async def test_apart(hosts):
    """A host does not reach the database, and others do: its documents go to them."""
    host, leader = await one_of(hosts, False), await asyncio.to_thread(hosts.leader)
    address = f"10.77.0.{NAMES.index(leader) + 1}"

    def route(word):
        hosts.machines[host].must("ip", "route", word, "blackhole", address)
        return host

    await disaster(hosts, "a host loses its way to the database", lambda: route("add"), 12)
    assert [*(await asyncio.to_thread(hosts.holders)).values()].count(host) == 0, "it has no documents any more"
    await disaster(hosts, "it has it again", lambda: route("del"), 8)
    assert await patient(hosts.has_standby) is True, "the database has a synchronous standby"


@LONG
async def test_database(hosts):
    """The database's leader is killed, and Patroni starts it again."""
    host = await asyncio.to_thread(hosts.leader)

    def act():
        hosts.machines[host].must("pkill", "-KILL", "-u", "postgres", "-f", "bin/postgres -D")

    await disaster(hosts, "the database's leader is killed, on a host that lives", act)
    assert await patient(lambda: hosts.leader() and hosts.has_standby()) is True, "the database has a synchronous standby again"


async def test_leader(hosts):
    """The host of the database's leader dies."""
    host = await one_of(hosts, True)
    await disaster(hosts, "the host of the database's leader is killed", lambda: hosts.kill(host) or host)
    assert await patient(lambda: hosts.leader() in {*NAMES} - {host}) is True, "another one leads"
    await back(hosts, host, lambda: hosts.start(host) or host)


def written(door, name, seconds):
    """How long each turn took of a document that a plain client writes by an agent."""
    found, begun = [], time.monotonic()
    with Store.hold(door, name) as store:
        store.begin(1, EMPTY)
        journal = Gated(store)
        while (now := time.monotonic()) < begun + seconds:
            journal.turn([b"a line of a hundred bytes, as an edit of a rectangle is, with its id, its place and colour, and no mo"])
            found.append(time.monotonic() - now)
    return found


@LONG
async def test_load(hosts):
    """How much one database keeps, with a copy, by the agents of all hosts. (Nothing else is edited.)"""
    names, seconds = [f"load-{number}" for number in range(20)], 10
    for editor in hosts.editors:
        await editor.stop()
    doors_of = {name: it.path("/run/canvas-store/door") for name, it in hosts.machines.items()}
    with ThreadPoolExecutor(len(names) * len(doors_of)) as threads:
        work = [threads.submit(written, door, f"{name}-{host}", seconds) for name in names for host, door in doors_of.items()]
        turns = sorted([took for it in work for took in await asyncio.wrap_future(it)])
    middle, late = (1000 * turns[len(turns) * share // 100] for share in (50, 99))
    hosts.figures.append(f"{len(work)} documents with a plain writer each, by three agents: {len(turns) / seconds:.0f} turns a second, {middle:.0f} ms in the "
                         f"middle, {late:.0f} of 99 in 100")
    assert (len(turns) > len(work)) is True, "there were some"


async def test_nothing_is_lost(hosts):
    """Nothing that was answered is lost by all of this."""
    for editor in hosts.editors:
        await editor.stop()
        assert await editor.lost() is None, f"what was answered of {editor.name}"
        assert editor.faults == [], f"the versions of {editor.name}"
    hosts.figures.append(f"{sum(len(it.made) for it in hosts.editors)} answered edits of {len(hosts.editors)} documents, "
                         f"{sum(it.breaks for it in hosts.editors)} connections that ended")
