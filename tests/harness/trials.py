"""A server of a kept document, clients of all kinds at it, and what they were told, against what the folder holds in the end.

- Each edit that was answered is in the journal, under its version, with its id;
- the newest version is no less than any that a reply named, also where the reply's body was cut off;
- the journal's lines are those that counted before the start, and begin with those of the rounds before;
- each picture, point and export is that of the plain model after as many of the journal's edits as its version says;
- the export is, byte for byte, that of the plain model.
"""

import json
import random
import signal
import socket
import threading
import time
from pathlib import Path

from harness.folders import JOURNAL, counted, newest
from canvas.client import line_of
from harness.lossy_disk import Disk
from harness.random_requests import EDITS, Reply, Requests, look_fault
from harness.running import BAD_DOCUMENT, Running, kept_words
from plain_model import Model, Refused

CONTROLS = {"early": {"syncs": "late", "late": 100}, "nosync": {"syncs": "none", "late": 400}}
GAP = 60
"""How many seconds a server may take until it listens, and a client until it ends."""


def with_all_members(request):
    """An edit with each member that its verb may have."""
    full = dict(request)
    if full["verb"] == "create":
        full = {"hidden": False, "parent": None, "spot": "front", "pose": {}, **full}
    if "pose" in full:
        full["pose"] = {"dx": 0, "dy": 0, "flip": False, "quarter": 0, **full["pose"]}
    if "shape" in full:
        full["shape"] = {**({"fill": None} if full["shape"]["kind"] == "frame" else {}), **full["shape"]}
        if full["shape"].get("fill"):
            full["shape"]["fill"] = full["shape"]["fill"].lower()
    return full


# -- clients -----------------------------------------------------------------------------------------------------------

class Gone(Exception):
    """The server is gone, or has ended the session."""


class Told:
    """All that the clients of a round were told."""

    def __init__(self, base):
        self.base, self.newest = base, base
        self.edits, self.looks, self.faults = {}, [], []
        self.replies = 0
        self._lock = threading.Lock()

    def name(self, version, seen):
        """A reply names a version to a session that had seen another one."""
        with self._lock:
            self.replies += 1
            self.newest = max(self.newest, version)
            if version < max(seen, self.base):
                self.faults.append(f"taken back: version {version} was shown after {max(seen, self.base)}")

    def keep(self, entry):
        """What an edit or a look was answered in full."""
        version = entry.reply["version"]
        with self._lock:
            if entry.request["verb"] not in EDITS:
                self.looks.append(entry)
            elif version in self.edits:
                self.faults.append(f"version {version} was answered twice")
            else:
                self.edits[version] = entry


class Session:
    """One connection of a client."""

    def __init__(self, port, told, chance, known, room=None):
        self._told, self._chance, self._known, self._seen = told, chance, known, 0
        try:
            self._socket = socket.socket()
            self._socket.settimeout(GAP)
            if room:
                self._socket.setsockopt(socket.SOL_SOCKET, socket.SO_RCVBUF, room)
            self._socket.connect(("127.0.0.1", port))
            self._socket.setsockopt(socket.IPPROTO_TCP, socket.TCP_NODELAY, 1)
        except OSError:
            raise Gone from None
        self._stream = self._socket.makefile("rb")

    def close(self):
        self._stream.close()
        self._socket.close()

    def send(self, data):
        try:
            self._socket.sendall(data)
        except OSError:
            raise Gone from None

    def read(self, request, pause=0):
        """Reads the reply to a request; `pause` is how long it waits before each piece of the body."""
        try:
            line = self._stream.readline()
            if not line.endswith(b"\n"):
                raise Gone
            reply = json.loads(line)
            if not reply["ok"]:
                return
            self._told.name(reply["version"], self._seen)
            self._seen = max(self._seen, reply["version"])
            body = self._body(reply["body"], pause)
        except OSError:
            raise Gone from None
        self._told.keep(Reply(self._chance, request, reply, body))
        if "id" in reply:
            self._known.append(reply["id"])

    def _body(self, length, pause):
        body = b""
        while len(body) < length:
            time.sleep(pause)
            part = self._stream.read(min(length - len(body), 20_000 if pause else length))
            if not part:
                raise Gone
            body += part
        return body


def ask(session, requests, pause=0):
    session.send(b"".join(line_of(it) for it in requests))
    for it in requests:
        session.read(it, pause)


def editor(session, random_requests, chance):
    for _ in range(100):
        ask(session, [random_requests.edit()])


def pipeliner(session, random_requests, chance):
    for _ in range(20):
        ask(session, [random_requests.request() for _ in range(chance.choice([2, 8, 30]))])


def breaker(session, random_requests, chance):
    """Breaks off with edits on their way, some inside a line."""
    requests = [random_requests.edit() for _ in range(chance.choice([1, 5, 40]))]
    data = b"".join(line_of(it) for it in requests)
    session.send(data[: len(data) - chance.choice([0, 0, 9])])
    for it in requests[: chance.choice([0, 0, 1, 3])]:
        session.read(it)


def viewer(session, random_requests, chance):
    for _ in range(50):
        ask(session, [{"verb": "export"}] if chance.random() < 0.05 else [random_requests.look() for _ in range(chance.choice([1, 1, 4]))])


def slow_reader(session, random_requests, chance):
    """Asks for more than fits into the sockets between, among it edits, and reads little by little."""
    tiles = [{"verb": "tile", "col": k, "row": 0} for k in range(5)]
    ask(session, [*tiles, random_requests.edit(), *tiles, random_requests.edit()], 0.005)


KINDS = [editor, pipeliner, viewer, editor, breaker, slow_reader]


class Client(threading.Thread):
    """One session after another, of one kind, until the server is gone."""

    def __init__(self, kind, port, told, seed, known):
        super().__init__(daemon=True)
        self._kind, self._port, self._told, self._known = kind, port, told, known
        self._chance = random.Random(seed)
        self.is_over = threading.Event()

    def run(self):
        requests = Requests(self._chance, self._known)
        room = 4096 if self._kind is slow_reader else None
        while not self.is_over.is_set():
            try:
                session = Session(self._port, self._told, self._chance, self._known, room)
            except Gone:
                time.sleep(0.005)
                continue
            try:
                self._kind(session, requests, self._chance)
            except Gone:
                pass
            finally:
                session.close()


# -- rounds ------------------------------------------------------------------------------------------------------------

class Fault(Exception):
    """What a round found to be wrong."""


class Trial:
    """A folder, and what is known of its history: the journal's lines so far and the plain model after them."""

    def __init__(self, room, name, opening, chance, how=None, clients=12, seconds=3):
        self._chance, self._how, self._clients, self._seconds = chance, how, clients, seconds
        self._seed = chance.random()
        self._room = Path(room, name.replace(" ", "-"))
        self._room.mkdir()
        self.folder, self._disk = self._room / "kept", Disk(self._room)
        self._opening = self._room / "opening.json"
        self._opening.write_bytes(opening)
        self.model, self.lines, self.known, self.starts = Model.opened(opening), [], [], []
        self.answers = self.edits = self.killed_again = 0
        self.server = None
        self.start(self._environment())
        self.look(Told(0))

    # -- starting --

    def words(self):
        begun = [] if (self.folder / "1" / JOURNAL).exists() else ["--open", self._opening]
        return kept_words(self.folder, *begun)

    def _environment(self, **more):
        """No disk of our own, or one that is honest; that of the control where this is one."""
        wait = self._chance.choice([0, 300, 3000, 20_000])
        seed = self._chance.randrange(1 << 30)
        if self._how is not None:
            return self._disk.environment(seed=seed, wait=wait, **self._how)
        return self._disk.environment(seed=seed, wait=wait, **more) if more or self._chance.random() < 0.5 else {}

    def start(self, environment):
        begun = time.monotonic()
        self.server = Running(self.words(), environment)
        self.starts.append(time.monotonic() - begun)
        if self.server.port is None:
            status, said = self.server.end(), self.server.errors()
            raise Fault(f"{'lost: the journal' if status == BAD_DOCUMENT else 'it'} does not open: status {status}, {said!r}")

    def _kill_while_it_opens(self):
        """Kills it at one of its first calls that change the folder, or after a while; it may end up listening."""
        for _ in range(self._chance.choice([1, 1, 3])):
            run = Running(self.words(), self._environment(kills=self._chance.randrange(1, 7)))
            run.kill()
            self.killed_again += 1

    # -- one round --

    def round(self, number):
        told = self.play(number, lambda told: self._kill(number, told))
        before = counted((newest(self.folder) / JOURNAL).read_bytes())
        if self._how is None and number % 3 == 0:
            self._kill_while_it_opens()
        self.start(self._environment())
        self.look(told, before)

    def _kill(self, number, told):
        """Kills the server at a random moment: right after some reply, or a little or a while later."""
        replies, end = self._chance.choice([1, 10, 100, 1000]) * self._chance.random(), time.monotonic() + self._seconds
        while told.replies < replies and time.monotonic() < end:
            time.sleep(0.0005)
        time.sleep(self._chance.choice([0, 0, 0.02, 0.2]) * self._chance.random())
        self.server.process.send_signal(signal.SIGTERM if number % 8 == 7 else signal.SIGKILL)

    def play(self, number, stop):
        """Clients at work, until the server has ended, which `stop` sees to; it is given what they are told."""
        told = Told(len(self.lines))
        clients = [Client(KINDS[k % len(KINDS)], self.server.port, told, f"{self._seed} {number} {k}", self.known)
                   for k in range(self._clients)]
        for client in clients:
            client.start()
        stop(told)
        self.server.end()
        for client in clients:
            client.is_over.set()
        for client in clients:
            client.join(GAP)
            if client.is_alive():
                raise Fault("a client is still waiting after the server's end")
        self.answers += told.replies
        self.edits += len(told.edits)
        return told

    def look(self, told, before=None):
        """Compares what was told, what the journal holds, and what the server now says."""
        if told.faults:
            raise Fault(told.faults[0])
        lines = counted((newest(self.folder) / JOURNAL).read_bytes())
        if len(lines) < told.newest:
            raise Fault(f"lost: version {told.newest} was told, and {len(lines)} edits are kept")
        if before is not None and lines != before:
            raise Fault(f"{len(before)} lines counted before the start, and {len(lines)} or others do after it")
        if lines[: len(self.lines)] != self.lines:
            raise Fault("the journal does not begin as it did")
        with self.server.connect() as canvas:
            reply, text = canvas.ask(verb="export")
        self._replay(lines, told)
        if (reply["version"], text) != (len(lines), self.model.saved()):
            raise Fault(f"the export of version {reply['version']} is not that of the journal's {len(lines)} edits")
        self.known[:] = list(self.model.records)[-60:]

    def _replay(self, lines, told):
        looks = {}
        for entry in told.looks:
            looks.setdefault(entry.reply["version"], []).append(entry)
        for version in range(len(self.lines), len(lines) + 1):
            if version > len(self.lines):
                self._make(version, lines[version - 1], told.edits.get(version))
            for entry in looks.get(version, []):
                fault = look_fault(self.model, entry)
                if fault:
                    raise Fault(f"version {version}: {fault}")
        self.lines = lines

    def _make(self, version, line, answered):
        """Makes the edit of a line, which was perhaps answered."""
        edit = json.loads(line)
        try:
            made = self.model.edit(edit)
        except Refused as refused:
            raise Fault(f"line {version} is refused by {refused.code}") from None
        if answered is None:
            return
        if with_all_members(answered.request) != with_all_members(edit):
            raise Fault(f"lost: version {version} was told of {answered.request}, and the journal has {line}")
        if made != answered.reply.get("id"):
            raise Fault(f"version {version} was answered the id {answered.reply.get('id')}, and the journal makes {made}")

    def end(self):
        if self.server is not None:
            self.server.kill()
