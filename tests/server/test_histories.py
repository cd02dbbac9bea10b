"""Many clients make random edits and look at the document at once.

Afterwards the accepted edits are replayed, in the order of their versions, in plain_model.py, and each picture, colour, refusal and id is compared with the
document after exactly the version that its reply names. Everything is bounded in count and in time.
"""

import hashlib
import itertools
import random
import threading
import time

import pytest

from canvas import Refused
from harness.random_requests import BAD_LINES, EDITS, Reply, Requests, look_fault
from plain_model import Model, Refused as PlainRefused
from plain_session import window_of

pytestmark = pytest.mark.slow


class Client(threading.Thread):
    """A session that makes random edits and looks at the document, and keeps what it was answered: so many requests, or fewer where that takes long."""

    def __init__(self, server, seed, known, requests, least, end):
        super().__init__()
        self.replies = []
        self.fault = None
        self._server, self._chance, self._known = server, random.Random(seed), known
        self._random, self._requests, self._least, self._end = Requests(self._chance, known), requests, least, end

    def run(self):
        try:
            with self._server.connect() as canvas:
                while len(self.replies) < (self._requests if time.monotonic() < self._end else self._least):
                    self._burst(canvas, self._chance.choice([1, 1, 1, 2, 8]))
        except (OSError, EOFError, ValueError) as fault:
            self.fault = repr(fault)

    def _burst(self, canvas, count):
        requests = [self._random.request() for _ in range(count)]
        for request in requests:
            canvas.send(**request)
        for request in requests:
            try:
                reply, body = canvas.read()
            except Refused as refused:
                reply, body = refused.reply, b""
            if "id" in reply:
                self._known.append(reply["id"])
            self.replies.append(Reply(self._chance, request, reply, body))


class History:
    """The replies of all clients, compared with the plain model."""

    def __init__(self, clients):
        self.faults = []
        self.checked = 0
        self.refusals = {}
        self._edits = {}
        self._looks = {}
        self._pending = []
        for number, client in enumerate(clients):
            if client.fault:
                self._say(f"client {number} ended by {client.fault}")
            self._sort(client.replies)
            self.checked += len(client.replies)

    def _say(self, fault):
        if len(self.faults) < 10:
            self.faults.append(fault)

    def _sort(self, replies):
        """Puts the replies of one session in order under the versions at which they are to be checked."""
        seen, waiting = 0, []
        for entry in replies:
            reply = entry.reply
            if not reply["ok"]:
                self._sort_refusal(entry, seen, waiting)
                continue
            version = reply["version"]
            if version < seen:
                self._say(f"version {version} after {seen}, to {entry.request}")
            seen = version
            for pending in waiting:
                pending[1] = version
            waiting.clear()
            if entry.request["verb"] in EDITS:
                if version in self._edits:
                    self._say(f"version {version} was answered twice")
                self._edits[version] = entry
            else:
                self._looks.setdefault(version, []).append(entry)

    def _sort_refusal(self, entry, seen, waiting):
        code = entry.reply["code"]
        self.refusals[code] = self.refusals.get(code, 0) + 1
        bad = next((wanted for line, wanted in BAD_LINES if line == entry.request), None)
        if bad is not None or entry.request["verb"] not in EDITS:
            if code != bad:
                self._say(f"{entry.request} was refused by {code}")
            return
        # from, to, the request and its code; the end is the next version that the session saw
        pending = [seen, None, entry.request, code]
        self._pending.append(pending)
        waiting.append(pending)

    def check(self, text):
        """Replays the edits; `text` is the document that was saved at the end."""
        count = len(self._edits)
        if sorted(self._edits) != list(range(1, count + 1)):
            self._say(f"the versions of {count} accepted edits are not 1 to {count}")
            return
        model = Model()
        begins = {}
        for pending in self._pending:
            begins.setdefault(pending[0], []).append(pending)
        pending = []
        for version in range(count + 1):
            if version:
                self._replay(model, self._edits[version])
            for entry in self._looks.pop(version, []):
                fault = look_fault(model, entry)
                if fault:
                    self._say(fault)
            pending = self._still_pending(model, version, pending + begins.get(version, []))
        for _, _, request, code in pending:
            self._say(f"{request} was refused by {code}, which is right at no version")
        for version in self._looks:
            self._say(f"version {version} was shown, and there are {count}")
        if text != model.saved():
            self._say("the saved document is not that of the model")

    def _replay(self, model, entry):
        try:
            made = model.edit(entry.request)
        except PlainRefused as refused:
            self._say(f"{entry.request} was accepted as {entry.reply}, and the model refuses it by {refused.code}")
            return
        if made != entry.reply.get("id"):
            self._say(f"{entry.request} was answered {entry.reply}, and the model's id is {made}")

    def _still_pending(self, model, version, pending):
        """The refusals that are not right at this version, and may be at a later one."""
        left = []
        for refusal in pending:
            _, end, request, code = refusal
            if model.refusal(request) == code:
                continue
            if end is not None and version >= end:
                self._say(f"{request} was refused by {code}, which is right at no version from {refusal[0]} to {end}")
            else:
                left.append(refusal)
        return left


@pytest.mark.parametrize("count", [8, 60])
def test_a_history(program, count, seed, is_long):
    """Some clients for some seconds, and the check of what they were answered."""
    seconds = 60 if is_long else 10 if program.is_kept else 20
    with program.start(workers=str(1 + count % 2)) as server:
        known, end = [], time.monotonic() + seconds
        clients = [Client(server, f"{seed} {number}", known, 24_000 // count, 4_000 // count, end) for number in range(count)]
        for client in clients:
            client.start()
        for client in clients:
            client.join()
        with server.connect() as canvas:
            _, text = canvas.ask(verb="export")
    found = History(clients)
    found.check(text)
    print(f"{found.checked} replies checked, {len(found._edits)} edits accepted, {sum(found.refusals.values())} requests refused by {len(found.refusals)} codes")
    assert not found.faults
    assert {2, 3, 4, 5, 8, 9, 10, 11, 12, 14, 30, 34, 52, 53, 54} <= found.refusals.keys(), "not each refusal came"


# -- pictures that the server may keep ---------------------------------------------------------------------------------

WINDOWS = [
    {"verb": "tile", "col": 0, "row": 0},
    {"verb": "tile", "col": 1, "row": 0},
    {"verb": "patch", "x": 245, "y": 3, "w": 20, "h": 9},
    {"verb": "tile", "col": 0, "row": 0, "level": 1},
    {"verb": "patch", "x": -3, "y": 0, "w": 40, "h": 9, "level": 3},
]
"""What the viewers look at, again and again."""
SPOTS = [0, 600, 246, 247, 256, 600, -10, -9, 255, 9000]
"""Where a shape goes in turn: in these windows, between them and beside them."""
MOST_MOVES = 20_000
LEAST_STEPS = 200
"""How often the editor does something at least, of which each seventh is seen in the windows."""


class Looker(threading.Thread):
    """A session that asks for the same windows again and again, and keeps the version and a digest of each picture."""

    def __init__(self, server, is_over):
        super().__init__()
        self.looks = []
        self.fault = None
        self._server, self._is_over = server, is_over

    def run(self):
        try:
            with self._server.connect() as canvas:
                while not self._is_over.is_set():
                    for window in range(len(WINDOWS)):
                        reply, body = canvas.ask(**WINDOWS[window])
                        self.looks.append((reply["version"], window, digest(body)))
        except (OSError, EOFError, ValueError, Refused) as fault:
            self.fault = repr(fault)


def digest(body):
    return hashlib.blake2b(body, digest_size=16).digest()


def move_about(server, seed, end):
    """The edits of an editor that moves a shape in and out of the windows, and another one far away, most often."""
    chance, edits = random.Random(seed), [
        {"verb": "create", "shape": {"kind": "ellipse", "w": 12, "h": 9, "fill": "ff0000"}},
        {"verb": "create", "shape": {"kind": "rect", "w": 10, "h": 10, "fill": "00ff00"}, "pose": {"dx": 9000}},
        {"verb": "create", "shape": {"kind": "rect", "w": 300, "h": 40, "fill": "0000ff"}, "pose": {"dx": 90, "dy": 5}, "spot": "back"},
    ]
    with server.connect() as editor:
        for request in edits:
            editor.ask(**request)
        for step in itertools.count():
            if len(edits) > MOST_MOVES or step > LEAST_STEPS and time.monotonic() > end:
                return edits
            what = chance.random()
            if what < 0.1:
                request = {"verb": "pose", "id": 1, "pose": {"dx": chance.choice(SPOTS)}}
            elif what < 0.15:
                request = {"verb": "show", "id": 1, "hidden": chance.random() < 0.5}
            else:
                request = {"verb": "pose", "id": 2, "pose": {"dx": 9000 + len(edits) % 50}}
            for _ in range(chance.choice([1, 1, 1, 70])):
                editor.ask(**request)
                edits.append(request)
            time.sleep(chance.choice([0, 0.001, 0.01]))


class Album:
    """The pictures of a model's windows, painted once for all documents that show the same there."""

    def __init__(self, model):
        self.painted = {}
        self._model = model

    def picture(self, window):
        x, y, w, h, level = window_of(WINDOWS[window])
        near = str(list(self._model.leaves_near(*(it << level for it in (x, y, w, h)))))
        if (window, near) not in self.painted:
            self.painted[window, near] = digest(self._model.image(x, y, w, h, level))
        return self.painted[window, near]


def wrong_looks(edits, looks):
    """What is wrong with looks: each is to be the picture of the document after as many edits as its version says."""
    model, made = Model(), 0
    album = Album(model)
    for version, window, seen in sorted(looks):
        if version > len(edits):
            yield f"version {version} was shown, and there are {len(edits)}"
            return
        while made < version:
            model.edit(edits[made])
            made += 1
        if seen != album.picture(window):
            yield f"{WINDOWS[window]} at version {version} is another picture"
    if len(album.painted) < 12:
        yield f"only {len(album.painted)} pictures were seen"


def test_windows_that_are_looked_at_again(program, seed):
    """Viewers that ask for the same windows again and again, while a shape moves in and out of them."""
    with program.start() as server:
        is_over = threading.Event()
        viewers = [Looker(server, is_over) for _ in range(2)]
        for viewer in viewers:
            viewer.start()
        edits = move_about(server, seed, time.monotonic() + 10)
        is_over.set()
        for viewer in viewers:
            viewer.join()
    looks = [look for viewer in viewers for look in viewer.looks]
    faults = [viewer.fault for viewer in viewers if viewer.fault] + list(wrong_looks(edits, looks))
    print(f"{len(looks)} pictures, {len(edits)} edits")
    assert not faults
    for viewer in viewers:
        versions = [look[0] for look in viewer.looks]
        assert versions == sorted(versions)
