"""Tries canvas-store (python/canvas/store), the agent that keeps documents in PostgreSQL, by a plain client of its protocol over a database of its own.

- what is kept comes back: openings, generations, writes over what is there, cuts, thousands of turns;
- bad input ends its own connection, and the log tells of it: names, numbers, places, half lines, floods;
- one host at a time has a document: others wait for its lease, or until it gives the document up; what a host that was cut off asks is refused, and
  it gives up, and its server answers no look, before another one has the document;
- connections that can't be accepted are counted, and later ones are served; names that are none are told to nobody;
- the database is killed and started again while eight clients append, and the agent is killed (-9) N times: what was answered is there, in order;
- a folder of canvasd is imported, and exported again to what canvasd serves;
- agents that are wrong are found by this (--long), and 64 documents are written at once.
"""

import contextlib
import os
import random
import shutil
import socket
import subprocess
import sys
import tempfile
import threading
import time
from pathlib import Path

import pytest

from harness.running import EMPTY, LOST_JOURNAL, Running, difference, kept_words, seconds_of, wait_for
from harness.store_client import Ended, Gated, Store, lines_of
from repository import BUILT_KEEPER, TOP

pytestmark = [pytest.mark.slow, pytest.mark.database]
AGENT = Path(os.environ.get("CANVAS_STORE", TOP / "bin" / "canvas-store"))
"""The agent; the environment's CANVAS_STORE names another one."""
POSTGRES = Path("/usr/lib/postgresql/15/bin")
OPENING = EMPTY
HTTP = b"GET / HTTP/1.1\r\nHost: here\r\n\r\n"


# -- a database and agents ---------------------------------------------------------------------------------------------

@pytest.fixture(scope="module")
def bench(request):
    """A folder that PostgreSQL's own user may enter, a database and two hosts."""
    with tempfile.TemporaryDirectory(prefix="canvas-store-") as folder:
        bench = Bench(folder, 20 * request.config.getoption("times"))
        try:
            yield bench
        finally:
            bench.close()
    print(*bench.figures, sep="\n")


class Database:
    """A PostgreSQL of its own at a Unix socket in a folder."""

    def __init__(self, folder):
        self.folder = Path(folder) / "database"
        self.folder.mkdir()
        self._words = []
        if os.geteuid() == 0:  # PostgreSQL is not run by root
            self._words = ["setpriv", "--reuid=postgres", "--regid=postgres", "--init-groups"]
            shutil.chown(self.folder, "postgres")
            Path(folder).chmod(0o755)
        self._call("initdb", "-A", "trust", "-U", "canvas", "-E", "UTF8", "--locale=C")
        with (self.folder / "data" / "postgresql.conf").open("a") as file:
            file.write(f"listen_addresses = ''\nunix_socket_directories = '{self.folder}'\nrestart_after_crash = on\n")
        self.start()
        self.address = f"host={self.folder} user=canvas dbname=postgres"
        self.ask(subprocess.run([AGENT, "schema"], check=True, capture_output=True, text=True).stdout)

    def _call(self, program, *words):
        words = [*self._words, POSTGRES / program, "-D", self.folder / "data", *words]
        subprocess.run(words, check=True, stdin=subprocess.DEVNULL, stdout=subprocess.DEVNULL)

    def start(self):
        self._call("pg_ctl", "-w", "-s", "-l", self.folder / "log", "start")

    def kill(self):
        """Ends it as a crash does."""
        self._call("pg_ctl", "-w", "-s", "-m", "immediate", "stop")

    def ask(self, text):
        """What psql says, without heads."""
        words = ["psql", "-qAt", "-v", "ON_ERROR_STOP=1", self.address]
        return subprocess.run(words, input=text, check=True, capture_output=True, text=True).stdout.strip()


class Relay:
    """A way to the database that can be cut: bytes wait then, and are dropped with their connections when it is mended."""

    def __init__(self, folder, database):
        self.folder = Path(folder) / "relay"
        self.folder.mkdir()
        self._target, self._open, self._pairs = str(database.folder / ".s.PGSQL.5432"), threading.Event(), []
        self._open.set()
        self._server = socket.socket(socket.AF_UNIX)
        self._server.bind(str(self.folder / ".s.PGSQL.5432"))
        self._server.listen()
        threading.Thread(target=self._accept, daemon=True).start()

    def _accept(self):
        while True:
            near, _ = self._server.accept()
            self._open.wait()
            far = socket.socket(socket.AF_UNIX)
            with contextlib.suppress(OSError):
                far.connect(self._target)
            self._pairs.append((near, far))
            for one, other in ((near, far), (far, near)):
                threading.Thread(target=self._pass_on, args=(one, other), daemon=True).start()

    def _pass_on(self, one, other):
        with contextlib.suppress(OSError):
            while part := one.recv(1 << 16):
                self._open.wait()
                other.sendall(part)
        for sock in (one, other):
            with contextlib.suppress(OSError):
                sock.shutdown(socket.SHUT_RDWR)

    def cut(self):
        self._open.clear()

    def mend(self, is_late=False):
        """Lets bytes through again: also those that have waited, where it is late."""
        for pair in [] if is_late else self._pairs:
            for sock in pair:
                with contextlib.suppress(OSError):
                    sock.shutdown(socket.SHUT_RDWR)
        self._open.set()


class Agent:
    """A run of the agent as a host of this name."""

    def __init__(self, folder, host, address, *words, before=()):
        self.host, self.door, self._address, self.log = host, Path(folder) / f"{host}.door", address, Path(folder) / f"{host}.log"
        self._words = [*before, AGENT, "serve", "--host", host, "--socket", self.door, *words]
        self.start()

    def start(self):
        self.door.unlink(missing_ok=True)
        with self.log.open("ab") as log:
            environment = {**os.environ, "CANVAS_DATABASE": self._address}
            self.process = subprocess.Popen(self._words, stdin=subprocess.DEVNULL, stdout=log, stderr=log, env=environment)
        if not wait_for(self._listens):
            raise RuntimeError(f"the agent does not start: {self.said()}")

    def _listens(self):
        with contextlib.suppress(OSError), contextlib.closing(Store(self.door)):
            return True
        return False

    def hold(self, name, seconds=60):
        return Store.hold(self.door, name, seconds)

    def said(self):
        return self.log.read_text()

    def kill(self):
        self.process.kill()
        self.process.wait()

    def end(self):
        """Ends it as systemd does, and gives its status."""
        self.process.terminate()
        return self.process.wait(60)


class Bench:
    """The database, and two hosts, of which the first one's way can be cut."""

    def __init__(self, folder, rounds):
        self.folder, self.rounds = Path(folder), rounds
        self.database = Database(folder)
        self.relay = Relay(folder, self.database)
        self.first = Agent(folder, "first", self.database.address.replace(str(self.database.folder), str(self.relay.folder)))
        self.second = Agent(folder, "second", self.database.address)
        self.figures = []

    def close(self):
        for agent in (self.first, self.second):
            agent.kill()
        self.database.kill()


def made(agent, name):
    """A document that has begun, held."""
    store = agent.hold(name)
    store.begin(1, OPENING)
    return store


def ending_of(call):
    """The last word of the agent in a call, and its text."""
    try:
        call()
    except Ended as fault:
        return fault.word, fault.text
    return "none", ""


# -- what is kept ------------------------------------------------------------------------------------------------------

def test_kept(bench):
    """What was answered comes back."""
    agent = bench.first
    with agent.hold("kept") as store:
        assert (store.epoch, store.generation, store.opening, store.journal) == (1, 0, b"", b""), "a document that is not there"
        store.begin(1, OPENING)
        store.sync()
        for at, data in ((0, b"0123456789"), (3, b"abc"), (10, b"end"), (9, b"xyzuvw"), (0, b"A")):
            store.write(at, data)
        store.sync()
        store.write(2, b"B")
    with agent.hold("kept") as store:
        found = store.epoch, store.generation, store.opening, store.journal
        assert found == (2, 1, OPENING, b"A12abc678xyzuvw"), "what was synced, and nothing else"
        store.cut(5)
        store.write(5, b"more")
        store.cut(8)
        store.sync()
        store.cut(0)
    with agent.hold("kept") as store:
        assert store.journal == b"A12abmor", "cuts"
        store.begin(2, b"{}")
        store.write(0, b"second")
        store.sync()
    with agent.hold("kept") as store:
        assert (store.generation, store.opening, store.journal) == (2, b"{}", b"second"), "the next generation"
        assert ending_of(lambda: store.begin(4, b"{}"))[0] == "error", "one that is none"
    large = random.Random(1).randbytes(20_000_000)
    with made(agent, "large") as store:
        store.write(0, large)
        store.sync()
    with agent.hold("large") as store:
        assert (store.journal == large) is True, "twenty megabytes"


def test_many_turns(bench):
    """Thousands of turns, which are joined meanwhile."""
    count = 5000
    with made(bench.first, "turns") as store:
        journal, begun = Gated(store), time.monotonic()
        for number in range(count):
            journal.turn([b"%d" % number])
        journal.turn([])
        bench.figures.append(f"{count} turns one after another: {1000 * (time.monotonic() - begun) / count:.2f} ms each")
    begun = time.monotonic()
    with bench.first.hold("turns") as store:
        bench.figures.append(f"held again within {time.monotonic() - begun:.2f} s")
        assert lines_of(store.journal) == [b"%d" % number for number in range(count)], "thousands of turns"
    rows = int(bench.database.ask("SELECT count(*) FROM turn JOIN document ON id = document WHERE name = 'turns'"))
    assert rows < 1100, f"they are joined: {rows} rows"


# -- bad input ---------------------------------------------------------------------------------------------------------

NO_HOLDS = (b"", b"\n", b"hold\n", b"hold \n", b"hold A\n", b"hold a.b\n", b"hold ../x\n", b"hold -a\n", b"hold a \n", b"hold a\r\n", b"hold a'--\n",
            b"hold " + b"a" * 64 + b"\n", b"sync\n", b"write 0 1\nx", HTTP, b"\0" * 100 + b"\n", b"x" * 200_000, b"hold a")
NO_REQUESTS = (b"\n", b"Sync\n", b"sync \n", b"hold bad\n", b"write 0\n", b"write 0 0\n", b"write -1 1\nx", b"write 01 1\nx", b"write 1e3 1\nx",
               b"write 100 1\nx", b"cut 100\n", b"cut -1\n", b"write 0 134217729\n", b"write 0 99999999999999999999\n", b"begin 1 1\nx",
               b"begin 3 1\nx", b"begin 2 0\n", b"begin 99999999999 1\nx", HTTP, b"x" * 200_000, b"write 0 5\nabc", b"syn")


def test_bad(bench):
    """Bad input, beside a document that is edited."""
    agent = bench.first
    with made(agent, "beside") as beside:
        journal = Gated(beside)
        for data in NO_HOLDS:
            store = Store(agent.door)
            store.send(data)
            store._socket.shutdown(socket.SHUT_WR)
            word = ending_of(lambda: store.answer("held"))[0]
            assert word == ("error" if data else "nothing"), f"{data[:30]!r} in the place of a hold"
            store.close()
        made(agent, "bad").close()
        for data in NO_REQUESTS:
            with agent.hold("bad") as store:
                store.write(0, b"noted")
                store.send(data)
                store._socket.shutdown(socket.SHUT_WR)
                assert ending_of(lambda: store.answer("ok"))[0] == "error", f"{data[:30]!r} in the place of a request"
        with agent.hold("bad") as store:
            assert store.journal == b"", "nothing of it was kept"
        flood(bench)
        journal.turn([b"still here"])
        journal.turn([])
    with agent.hold("beside") as store:
        assert lines_of(store.journal) == [b"still here"], "the document beside is kept"
    said = agent.said()
    assert "bad: ended, for it sent" in said, ("the log names the document", said[-500:])
    assert "Traceback" not in said, ("it tells of no fault of its own", said[said.index("Traceback"):][:1500])


def flood(bench):
    """Connections that say nothing, many at once, and one that notes without end."""
    idle = [Store(bench.first.door) for _ in range(200)]
    with bench.first.hold("bad") as store:
        part = b"write 0 1\nxcut 0\n" * 5000

        def pour():
            for _ in range(20):
                store.send(part)
            store.answer("ok")

        assert ending_of(pour)[0] == "error", "one that notes without end"
    for store in idle:
        store.close()
    memory = int(Path(f"/proc/{bench.first.process.pid}/status").read_text().partition("VmRSS:")[2].split()[0])
    assert memory < 500_000, f"its memory: {memory} KB"


# -- one host at a time ------------------------------------------------------------------------------------------------

@pytest.mark.long
def test_leases(bench):
    """Another host waits, and has the document when it is free, wanted, or its host is cut off."""
    first, second = bench.first, bench.second
    with made(first, "lease"):
        wanted = "busy", "lease is held by another connection on first"
        assert ending_of(lambda: first.hold("lease")) == wanted, "another connection of the same host"
    begun = time.monotonic()
    with second.hold("lease") as store:
        assert time.monotonic() - begun < 2, f"a document that was given up is free at once: {time.monotonic() - begun:.1f} s"
        assert store.epoch == 2, "the epoch rises"
    with first.hold("lease") as store:
        begun = time.monotonic()
        with second.hold("lease") as other:
            bench.figures.append(f"a document that another host wants changes hosts within {time.monotonic() - begun:.1f} s")
            wanted = "lost", "second wants lease, which first has had for 10 s"
            assert ending_of(lambda: store.answer("ok")) == wanted, "the holder is told, unasked"
            assert 9 < time.monotonic() - begun < 14, f"it has stayed for ten seconds: {time.monotonic() - begun:.1f} s"
            assert other.epoch == 4, "the epoch rises again"


@pytest.mark.parametrize("is_late", [False, True])
def test_a_host_that_is_cut_off(bench, is_late):
    """A host whose way to the database is cut, and that comes back: with what it asked meanwhile, if that is late, and before the next holder has
    changed anything."""
    name = "late" if is_late else "cut"
    with made(bench.first, name) as store:
        journal = Gated(store)
        journal.turn([b"one"])
        bench.relay.cut()
        refused, begun = [], time.monotonic()
        turning = threading.Thread(target=lambda: refused.append(ending_of(lambda: journal.turn([b"two"]))))
        turning.start()
        with bench.second.hold(name) as other:
            bench.figures.append(f"a host that is cut off loses its document within {time.monotonic() - begun:.1f} s")
            assert [word for word, _ in refused] == ["lost"], f"{name}: it was told before, by its own clock"
            assert other.journal == b"\none\n\n", (f"{name}: what was answered is there", other.journal)
            if not is_late:
                journal_there = Gated(other)
            bench.relay.mend(is_late)
            turning.join()
            if is_late:
                journal_there = Gated(other)
            journal_there.turn([b"three"])
            journal_there.turn([])
        assert "the lease of first is over: the database has not answered for 5 s" in refused[0][1], (f"{name}: it is told why", refused)
    with bench.second.hold(name) as other:
        assert lines_of(other.journal) == [b"three"], f"{name}: nothing of it is kept"


def test_a_host_that_stood_still(bench):
    """A host that stood still while another one took its document, of which it asks nothing."""
    with made(bench.second, "frozen") as store:
        bench.second.process.send_signal(19)
        with bench.first.hold("frozen"):
            bench.second.process.send_signal(18)
            assert ending_of(lambda: store.answer("ok"))[0] == "lost", "a host that stood still gives up unasked"


def test_no_look_is_stale(bench):
    """A server whose host was cut off answers no look when another host has its document."""
    with Running(kept_words(bench.folder / "shown", "--store", f"unix:{bench.first.door}")) as server:
        with server.connect() as canvas:
            canvas.create({"kind": "group"})
        answers, over = [], threading.Event()

        def look():
            while not over.is_set():
                with contextlib.suppress(OSError, EOFError), server.connect() as canvas:
                    while not over.is_set():
                        canvas.point(0, 0)
                        answers.append(time.monotonic())
                time.sleep(0.01)

        looking = threading.Thread(target=look)
        looking.start()
        bench.relay.cut()
        with bench.second.hold("shown"):
            held = time.monotonic()
            time.sleep(3)
            over.set()
            looking.join()
        bench.relay.mend()
        bench.figures.append(f"the last look at a host that was cut off: {held - answers[-1]:.2f} s before another one has the document")
        assert answers[-1] < held, f"no look is answered by a host that was cut off: {answers[-1] - held:.2f} s later"
        assert server.end() == LOST_JOURNAL, "its server has ended"


# -- what is around it -------------------------------------------------------------------------------------------------

def test_crowded(bench):
    """More connections than an agent may have."""
    agent = Agent(bench.folder, "small", bench.database.address, before=("prlimit", "--nofile=40"))
    idle = [Store(agent.door) for _ in range(60)]
    assert wait_for(lambda: "can't be accepted: Too many open files" in agent.said()), ("a connection that can't be accepted is told", agent.said())
    time.sleep(3)
    assert len(agent.said()) < 2000, ("in few words", agent.said()[-500:])
    for store in idle:
        store.close()
    with made(agent, "crowded") as store:
        Gated(store).turn([b"one"])
    assert agent.end() == 0, "later ones are served"


def test_names(bench):
    """Names that are none are told to nobody, whatever stands in the database."""
    told = bench.folder / "names"
    agent = Agent(bench.folder, "telling", bench.database.address, "--names", told)
    for name in ("one", "two"):
        made(agent, name).close()
    assert wait_for(lambda: told.is_file() and {"one", "two"} <= {*told.read_text().split("\n")}), ("the names of documents", told.read_text())
    bad_names = ("../../../etc", "a b", "-x", "A", "", "x" * 64, "a\nb")
    bench.database.ask("ALTER TABLE document DROP CONSTRAINT document_name_check; " + "; ".join(f"INSERT INTO document (name) VALUES ('{it}')" for it in (*bad_names, "three")))
    wait_for(lambda: "three\n" in told.read_text())
    lines = told.read_text().split("\n")
    assert ([it for it in bad_names if it in lines[:-1]], "three" in lines) == ([], True), "names that are none"
    assert wait_for(lambda: f"{len(bad_names)} of its names are none" in agent.said()), ("the log tells of them", agent.said()[-500:])
    bench.database.ask("DELETE FROM document WHERE name !~ '^[a-z0-9][a-z0-9-]{0,62}$' OR name = 'three'; "
                       "ALTER TABLE document ADD CHECK (name ~ '^[a-z0-9][a-z0-9-]{0,62}$')")
    agent.end()
    credentials = bench.folder / "credentials"
    credentials.mkdir()
    (credentials / "database").write_text(f"{bench.database.address}\n")
    environment = {**os.environ, "CREDENTIALS_DIRECTORY": str(credentials)}
    done = subprocess.run([AGENT, "list"], capture_output=True, text=True, env=environment)
    assert (done.returncode, "one" in done.stdout) == (0, True), "the database of systemd's credential"


# -- crashes -----------------------------------------------------------------------------------------------------------

class Writer:
    """A client that appends numbered lines without end, over all that ends its connections. It knows which turns were answered."""

    def __init__(self, agent, name):
        self._agent, self.name = agent, name
        self.sent, self.known, self.fault, self.is_over, self.breaks = [], 0, None, False, 0
        self.longest, self._last = 0, time.monotonic()
        self._thread = threading.Thread(target=self._run)
        self._thread.start()

    def _run(self):
        while not self.is_over and not self.fault:
            try:
                with self._agent.hold(self.name) as store:
                    self._append(store)
            except (Ended, OSError):
                self.breaks += 1
                time.sleep(0.02)

    def _append(self, store):
        if store.generation == 0:
            store.begin(1, OPENING)
        journal = Gated(store)
        self._check(journal.lines)
        self.sent = journal.lines
        while not self.is_over:
            before = len(self.sent)
            numbers = range(before, before + random.randrange(4))
            batch = [b"%d %s" % (number, os.urandom(random.randrange(1, 60)).hex().encode()) for number in numbers]
            self.sent = [*self.sent, *batch]
            journal.turn(batch)
            self.known = before
            self.longest, self._last = max(self.longest, time.monotonic() - self._last), time.monotonic()

    def _check(self, lines):
        """What is there has to be the beginning of what was sent, with all that was answered."""
        if lines != self.sent[: len(lines)] or len(lines) < self.known:
            self.fault = f"{self.name}: {len(lines)} lines are there, {self.known} were answered, {len(self.sent)} sent"

    def stop(self):
        """Ends it, and gives what was lost, or None."""
        self.is_over = True
        self._thread.join()
        with self._agent.hold(self.name) as store:
            self._check(lines_of(store.journal))
        return self.fault


def crashes(bench, what, rounds, crash):
    """Crashes while eight clients append."""
    writers = [Writer(bench.second, f"{what}-{number}") for number in range(8)]
    for _ in range(rounds):
        time.sleep(random.uniform(0.05, 0.6))
        crash()
    time.sleep(1)
    wait_for(lambda: all(it.known >= 10 or it.fault for it in writers))
    faults = [it for it in [writer.stop() for writer in writers] if it]
    known, breaks = sum(it.known for it in writers), sum(it.breaks for it in writers)
    bench.figures.append(f"{rounds} kills of {what}: {known} answered lines, {breaks} connections ended or refused, "
                         f"{max(it.longest for it in writers):.1f} s without an answer at most")
    assert faults == [], f"nothing is lost by kills of {what}"
    assert [it.name for it in writers if it.known < 10] == [], f"each client went on after kills of {what}"


def test_killed_database(bench):
    """The database is killed, also within commits, and no connection of canvasd ends."""
    def crash():
        bench.database.kill()
        bench.database.start()

    crashes(bench, "the-database", max(3, bench.rounds // 8), crash)


def test_killed_agent(bench):
    """The agent is killed."""
    def crash():
        bench.second.kill()
        bench.second.start()

    crashes(bench, "the-agent", bench.rounds, crash)
    assert bench.second.end() == 0, "it ends by SIGTERM"
    assert bench.database.ask("SELECT name FROM document WHERE holder = 'second'") == "", "it has given all up"
    bench.second.start()


# -- controls and load -------------------------------------------------------------------------------------------------

WRONG = {
    "a change is made whoever holds the document": (
        "cut_off or stood_still or stale", "        WHERE id = %(id)s AND epoch = %(epoch)s AND generation = %(generation)s AND turn = %(turn)s",
        "        WHERE id = %(id)s AND %(epoch)s > 0 AND generation = %(generation)s AND turn = %(turn)s"),
    "an answer before the commit": (
        "killed_agent", "            await (holding.begin(int(first), data) if word else holding.sync())\n"
        "            writer.write(b\"\" if holding.is_told else b\"ok\\n\")",
        "            writer.write(b\"ok\\n\")\n            await (holding.begin(int(first), data) if word else holding.sync())"),
    "it does not look at its own clock": ("cut_off or stood_still or stale", "agent.beat(), agent.watch(),", "agent.beat(),"),
    "it takes no care of names": ("test_names", "if re.fullmatch(NAME, name)]", "]"),
    "what is on its way when the database ends counts as kept": (
        "killed_database", "            if found[0] == after:\n                break", "            break")}
"""Agents that are wrong, each with the part that tells so, a text of the agent and what stands in its place."""


@pytest.mark.long
@pytest.mark.parametrize("name", WRONG)
def test_an_agent_that_is_wrong_is_found(tmp_path, name):
    part, text, wrong = WRONG[name]
    shutil.copytree(TOP / "python" / "canvas", tmp_path / "python" / "canvas")
    (tmp_path / "bin").mkdir()
    shutil.copy(AGENT, tmp_path / "bin" / "canvas-store")
    modules = [it for it in (tmp_path / "python" / "canvas" / "store").glob("*.py") if text in it.read_text()]
    assert [it.read_text().count(text) for it in modules] == [1]
    modules[0].write_text(modules[0].read_text().replace(text, wrong))
    words = [sys.executable, "-m", "pytest", "-q", "-p", "no:cacheprovider", "--times", "2", "-k", part, __file__]
    environment = {**os.environ, "CANVAS_STORE": str(tmp_path / "bin" / "canvas-store")}
    done = subprocess.run(words, cwd=TOP, capture_output=True, text=True, env=environment, timeout=600)
    assert done.returncode == 1, done.stdout[-1000:] + done.stderr[-500:]


@pytest.mark.long
def test_load(bench):
    """Many documents at once."""
    count, seconds, turns = 64, 5, []
    over = threading.Event()

    def edit(name):
        with made(bench.second, name) as store:
            journal, made_here = Gated(store), []
            while not over.is_set():
                begun = time.monotonic()
                journal.turn([b"a line of a hundred bytes, as an edit of a rectangle is, with its id, its place and colour, and no mo"])
                made_here.append(time.monotonic() - begun)
            turns.extend(made_here)

    used = seconds_of(bench.second.process.pid)
    threads = [threading.Thread(target=edit, args=(f"load-{number}",)) for number in range(count)]
    for thread in threads:
        thread.start()
    time.sleep(seconds)
    over.set()
    for thread in threads:
        thread.join()
    used, turns = seconds_of(bench.second.process.pid) - used, sorted(turns)
    size = int(bench.database.ask("SELECT pg_total_relation_size('turn')")) / int(bench.database.ask("SELECT sum(turn) FROM document"))
    middle, late = (1000 * turns[len(turns) * share // 100] for share in (50, 99))
    bench.figures.append(f"{count} documents with a writer each: {len(turns) / seconds:.0f} turns a second, {middle:.1f} ms in the middle, {late:.0f} of "
                         f"99 in 100; the agent takes {100 * used / seconds:.0f} % of a processor; {size:.0f} bytes a turn in the database")
    assert (len(turns) > count) is True, "there were some"


# -- folders -----------------------------------------------------------------------------------------------------------

def test_folders(bench):
    """In from a folder, and out again."""
    environment = {**os.environ, "CANVAS_DATABASE": bench.database.address}

    def store(*words):
        done = subprocess.run([AGENT, *words], capture_output=True, text=True, env=environment)
        return done.returncode, (done.stdout + done.stderr).strip()

    folder, out = bench.folder / "folder", bench.folder / "out"
    with Running(kept_words(folder, "--open", TOP / "examples" / "poster.json")) as server:
        with server.connect() as canvas:
            for number in range(50):
                canvas.create({"kind": "rect", "w": 5 + number, "h": 5, "fill": "ff0000"})
            saved = canvas.export()
        assert store("import", str(folder), "drawn") == (1, f"canvas-store: {folder} is served: stop its canvasd first"), "a folder that is served is not imported"
    assert store("import", str(folder), "drawn") == (0, ""), "a folder is imported"
    assert store("import", str(folder), "drawn") == (1, "canvas-store: there is a document drawn already: choose another name"), "once"
    assert store("import", str(folder), "A b")[0] == 1, "a name that is none"
    assert store("list")[1].count("drawn 1 1 -") == 1, "it is listed"
    with bench.first.hold("drawn") as held:
        assert (held.journal == (folder / "1" / "journal.jsonl").read_bytes()) is True, "it is what the folder has"
        wanted = 1, "canvas-store: there is no document drawn that nobody serves: `canvas-store list` says who serves it"
        assert store("remove", "drawn") == wanted, "one that is served is not removed"
        assert store("export", "drawn", str(out)) == (0, ""), "it is exported meanwhile"
    assert store("export", "drawn", str(out)) == (1, f"canvas-store: there is a {out} already: name a new folder"), "not over what is there"
    done = subprocess.run([BUILT_KEEPER, "check", out], capture_output=True, text=True)
    assert difference(done.returncode, 0) is None, ("canvasd finds it good", done.stdout + done.stderr)
    with Running(kept_words(out)) as server, server.connect() as canvas:
        assert canvas.export() == saved, "canvasd serves it"
    assert store("export", "none", str(bench.folder / "none"))[0] == 1, "no document is not exported"
    assert (store("remove", "drawn"), store("list")[1].count("drawn")) == ((0, ""), 0), "it is removed"
    assert bench.database.ask("SELECT count(*) FROM turn WHERE document NOT IN (SELECT id FROM document)") == "0", "its turns are gone"
    assert [store(*it)[0] for it in ((), ("serv",), ("import",), ("list", "x"))] == [2] * 4, "no words"
    environment["CANVAS_DATABASE"] = "host=/nowhere"
    assert store("list")[0] == 1, "no database"
