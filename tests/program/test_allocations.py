"""Every allocation of a program refused in turn, and what it answers.

Runs the program again and again with the N-th allocation refused, N rising until a run meets no refusal. A run of `canvas script` must
end by itself in one of these ways:

- status 5 with `canvas: 1 OutOfMemory` on standard error, and nothing written;
- status 0, each line answered by its reply or by the reply for want of memory.

Of the shortest session all that may be written is listed: nothing, its two replies, or one of them with the other refused.

An edit that was accepted is never answered by want of memory: each version in a reply is the number of edits that were
answered as accepted before it.

A run of `canvas serve` must end with status 5 and that message before it answers anything, or serve a conversation of two clients,
in turns. One request of it may be answered by want of memory, or one connection be closed before its first reply and made anew; all
else is answered as plain_session.py says for the edits that were accepted, by both sessions. Afterwards the saved document has exactly
these edits, and all seats are free.

A run of canvasd may besides end with its status for a lost journal, where memory was refused for that. Then its folder is opened again, and has
exactly the edits that were answered, and perhaps the one that was not. Before it answers it may end with its own words for want of memory, or say
that it accepts nothing, where the thread of its door could not be started.

Another conversation asks for one window again and again, whose pictures the server may keep: it is answered by the picture of the
version that it names, whether that was kept or not.

With `--long` the conversation is longer, is painted by two workers too, and several allocations are refused in a row.
"""

import io
import json
import os
import shutil
import subprocess
from pathlib import Path

import pytest

from canvas.client import line_of, replies
from harness.lossy_disk import preload
from harness.running import (
    BAD_PLACE, EMPTY, LOST_JOURNAL, NO_MEMORY, NO_SEATS, Running, free_port, kept_words, seats_left, wait_for,
)
from plain_session import Session, open_document
from repository import BUILT, TOP

pytestmark = [pytest.mark.slow, pytest.mark.needs("cc")]
SECONDS = 120
WANT_OF_MEMORY = {"body": 0, "code": 1, "name": "OutOfMemory", "ok": False}
MOST_RUNS = 20_000

FIRST_PATH = [
    {"verb": "create", "shape": {"kind": "rect", "w": 2, "h": 1, "fill": "ff0000"}},
    {"verb": "patch", "x": 0, "y": 0, "w": 3, "h": 1},
]
CREATED = b'{"body":0,"id":1,"ok":true,"version":1}\n'
WANT_LINE = b'{"body":0,"code":1,"name":"OutOfMemory","ok":false}\n'
# All that a run of the first path may write: nothing refused, the picture, or the edit.
FIRST_ENDS = [
    CREATED + b'{"body":20,"ok":true,"version":1}\nP6\n3 1\n255\n' + b"\xff\0\0\xff\0\0\xff\xff\xff",
    CREATED + WANT_LINE,
    WANT_LINE + b'{"body":20,"ok":true,"version":0}\nP6\n3 1\n255\n' + 9 * b"\xff",
]
EVERY_VERB = [
    {"verb": "create", "shape": {"kind": "frame", "w": 9, "h": 7, "fill": "00ff00"}, "pose": {"dx": 1, "quarter": 1}},
    {"verb": "create", "shape": {"kind": "rect", "w": 2, "h": 1, "fill": "ff0000"}, "parent": 1, "spot": "back"},
    {"verb": "create", "shape": {"kind": "ellipse", "w": 4, "h": 4, "fill": "0000ff"}, "parent": 1, "spot": {"over": 2}},
    {"verb": "create", "shape": {"kind": "polygon", "points": [[0, 0], [4, 0], [0, 4]], "fill": "010203"}, "spot": {"at": "a5"}},
    {"verb": "create", "shape": {"kind": "group"}, "hidden": True},
    {"verb": "move", "id": 4, "parent": 5, "spot": "front"},
    {"verb": "pose", "id": 2, "pose": {"dx": 3, "dy": 1, "quarter": 2, "flip": True}},
    {"verb": "reshape", "id": 4, "shape": {"kind": "polygon", "points": [[0, 0], [5, 0], [5, 5], [0, 5]], "fill": "0a0b0c"}},
    {"verb": "show", "id": 5, "hidden": False},
    {"verb": "respace", "parent": None},
    {"verb": "tile", "col": 0, "row": 0},
    {"verb": "patch", "x": -1, "y": 0, "w": 9, "h": 9},
    {"verb": "tile", "col": 0, "row": 0, "level": 2},
    {"verb": "patch", "x": -1, "y": 0, "w": 9, "h": 9, "level": 1},
    {"verb": "patch", "x": 0, "y": 0, "w": 1, "h": 1, "level": 7},
    {"verb": "point", "x": 1, "y": 1},
    {"verb": "export"},
    {"verb": "delete", "id": 1},
    {"verb": "export"},
]
# Who asks what, in turns.
CONVERSATION = [
    (0, EVERY_VERB[0]),
    (1, {"verb": "point", "x": 1, "y": 1}),
    (1, EVERY_VERB[1]),
    (0, EVERY_VERB[3]),
    (1, {"verb": "move", "id": 3, "parent": 1, "spot": "front"}),
    (0, {"verb": "delete", "id": 9}),
    (1, {"verb": "patch", "x": -2, "y": 0, "w": 12, "h": 12}),
    (0, {"verb": "patch", "x": -2, "y": 0, "w": 12, "h": 12, "level": 1}),
    (0, {"verb": "respace", "parent": None}),
    (1, {"verb": "paint"}),
    (0, {"verb": "export"}),
    (1, {"verb": "delete", "id": 2}),
    (0, {"verb": "point", "x": 0, "y": 0}),
]
WINDOW = {"verb": "patch", "x": 0, "y": 0, "w": 16, "h": 16}
# One asks for the same window again and again, while the other changes what is elsewhere, then moves a shape out of the window and into it.
SAME_WINDOW = [
    (0, {"verb": "create", "shape": {"kind": "rect", "w": 10, "h": 10, "fill": "ff0000"}}),
    (1, WINDOW),
    (1, WINDOW),
    (0, {"verb": "create", "shape": {"kind": "rect", "w": 9, "h": 9, "fill": "00ff00"}, "pose": {"dx": 500}}),
    (1, WINDOW),
    (0, {"verb": "pose", "id": 1, "pose": {"dx": 100}}),
    (1, WINDOW),
    (0, WINDOW),
    (1, WINDOW),
    (1, {"verb": "pose", "id": 2, "pose": {"dx": 12, "dy": 3}}),
    (0, WINDOW),
    (1, WINDOW),
    (1, {**WINDOW, "x": 1}),
    (1, {**WINDOW, "level": 2}),
    (1, WINDOW),
    (1, {**WINDOW, "level": 2}),
]
LONG_CONVERSATION = CONVERSATION + [(k % 2, request) for k, request in enumerate(EVERY_VERB * 2)]
EDITS = {"create", "move", "pose", "reshape", "show", "delete", "respace"}


def text(requests):
    return "".join(json.dumps(request, separators=(",", ":")) + "\n" for request in requests).encode()


def run(shim, number, given):
    """What the program writes and its status, and whether it came to the allocation that is refused."""
    refused = shim.with_suffix(".refused")
    refused.unlink(missing_ok=True)
    environment = {**os.environ, "LD_PRELOAD": str(shim), "REFUSE_AT": str(number), "REFUSED_FILE": str(refused)}
    done = subprocess.run([str(BUILT), "script", "1"], input=given, capture_output=True, env=environment, timeout=SECONDS)
    return (done.stdout, done.stderr, done.returncode), refused.exists()


def first_fault(out, errors, status):
    """What is wrong with a run of the first path, or None."""
    if (out, errors, status) == (b"", b"canvas: 1 OutOfMemory\n", 5):
        return None
    return None if (errors, status) == (b"", 0) and out in FIRST_ENDS else f"ends with {(out, errors, status)}"


def fault(requests, wanted, out, errors, status):
    """What is wrong with a run, or None. `wanted` are the replies of a run with all the memory that it asks for."""
    if status == 5:
        return None if (out, errors) == (b"", b"canvas: 1 OutOfMemory\n") else "ends with 5 in another way"
    if status != 0 or errors:
        return f"ends with {status} and {errors!r}"
    found = list(replies(io.BufferedReader(io.BytesIO(out))))
    if len(found) != len(requests):
        return f"{len(found)} replies to {len(requests)} requests"
    accepted = 0
    is_same_so_far = True
    for request, (reply, body), (usual, usual_body) in zip(requests, found, wanted):
        if reply == WANT_OF_MEMORY:
            is_same_so_far = is_same_so_far and request["verb"] not in EDITS
            continue
        if reply["ok"]:
            accepted += request["verb"] in EDITS
            if reply["version"] != accepted:
                return f"{request} is answered {reply} where {accepted} edits were accepted"
        if is_same_so_far and (reply, body) != (usual, usual_body):
            return f"{request} is answered {reply}, and with enough memory {usual}"
    return None


@pytest.fixture
def shim(tmp_path):
    """The library that refuses an allocation."""
    library = preload("refuse_allocation.c", tmp_path)
    if not run(library, 1, b"")[1]:
        pytest.skip(f"{BUILT} has an allocator of its own, as what was built with --unproved: name one that is proved, by --canvas and --canvasd")
    return library


@pytest.mark.parametrize("requests", [FIRST_PATH, EVERY_VERB], ids=["the first path", "every verb"])
def test_a_script(shim, requests):
    given = text(requests)
    (out, errors, status), _ = run(shim, 0, given)
    assert (errors, status) == (b"", 0), "with all memory"
    wanted = list(replies(io.BufferedReader(io.BytesIO(out))))
    for number in range(1, MOST_RUNS):
        end, is_refused = run(shim, number, given)
        if not is_refused:
            break
        found = first_fault(*end) if requests is FIRST_PATH else fault(requests, wanted, *end)
        assert found is None, f"allocation {number} refused"
    assert number < MOST_RUNS - 1


# -- the server --------------------------------------------------------------------------------------------------------

class Wrong(Exception):
    """Something that no refused allocation allows."""


class Server(Running):
    """A run that serves a document, with some allocations refused."""

    def __init__(self, program, shim, number, count, file, workers):
        self.refused = shim.with_suffix(".refused")
        self.refused.unlink(missing_ok=True)
        environment = {"LD_PRELOAD": str(shim), "REFUSE_AT": str(number), "REFUSE_COUNT": str(count), "REFUSED_FILE": str(self.refused)}
        port = free_port()
        words = program.words(port, file, workers)
        self.is_kept, self.seats = program.is_kept, program.seats
        self.still_threads = 3 if self.is_kept else 1
        self.folder = words[1] if self.is_kept else None
        super().__init__(words, environment, port)
        self.is_listening = self.port is not None
        self.has_answered = False

    def __exit__(self, *_):
        super().__exit__()
        if self.folder:
            shutil.rmtree(Path(self.folder).parent)


class Client:
    """A session with the server, which is begun anew where its connection is closed before the first reply."""

    def __init__(self, server):
        self._server = server
        self.turned_away = 0
        self._connect()

    def _connect(self):
        self._socket = self._server.socket()
        self._stream = self._socket.makefile("rb")
        self._is_answered = False

    def close(self):
        self._stream.close()
        self._socket.close()

    def ask(self, request):
        """The bytes of the reply and its body."""
        try:
            self._socket.sendall(line_of(request))
            line = self._stream.readline()
        except ConnectionError:
            line = b""
        if line:
            self._is_answered = self._server.has_answered = True
            return line + self._stream.read(json.loads(line)["body"])
        if self._is_answered or self.turned_away > 9:
            raise Wrong(f"the session ends at {request}")
        self.turned_away += 1
        self.close()
        self._connect()
        return self.ask(request)


def model_of(text):
    return Session(open_document(text))


LOOKS = {}
"""What the model answers to looks, by the document and the edits that it has had: many runs ask for the same."""


def answer(model, known, request):
    """What the model answers; `known` is the document's text and the edits so far."""
    line = line_of(request)[:-1]
    if request["verb"] in EDITS:
        known.append(line)
        return model.reply(line)
    key = (*known, line)
    if key not in LOOKS:
        LOOKS[key] = model.reply(line)
    return LOOKS[key]


class Story:
    """A document's model after all that was answered, and the request that waits for its answer."""

    def __init__(self, text):
        self.text, self.model, self.waiting = text, model_of(text), None


def converse(server, story, requests, most):
    """A conversation. Raises Wrong unless each answer is the model's or one for want of memory, and these are not too many."""
    clients, known, spared = [Client(server), Client(server)], [story.text], 0
    try:
        for number, request in requests:
            story.waiting = request
            got = clients[number].ask(request)
            if got == WANT_LINE:
                spared += 1
                continue
            wanted = answer(story.model, known, request)
            if got != wanted:
                raise Wrong(f"{request} is answered {got[:200]}, wanted {wanted[:200]}")
        disturbed = spared + sum(client.turned_away for client in clients)
        if disturbed > most:
            raise Wrong(f"{disturbed} requests were answered by want of memory or by the end of a connection")
    finally:
        for client in clients:
            client.close()


EXPORT = {"verb": "export"}


def serving_fault(server, text, requests, most):
    """What is wrong with a run that serves, or None, and whether the conversation met a refusal."""
    story = Story(text)
    try:
        converse(server, story, requests, most)
        is_refused = server.refused.exists()
        if not is_refused:
            return None, False
        # A run that refuses several may have some of them left, which these requests then meet.
        client = Client(server)
        saved = next((got for got in (client.ask(EXPORT) for _ in range(most)) if got != WANT_LINE), client.ask(EXPORT))
        client.close()
        if saved != story.model.reply(line_of(EXPORT)[:-1]):
            return f"the saved document is {saved[:300]}", True
        if not wait_for(server.is_still):
            return f"{server.number('Threads')} threads are left", True
        left = seats_left(server, server.seats + 1)
        return (None if left == (server.seats, NO_SEATS) else f"{left} seats are free"), True
    except (Wrong, OSError, ValueError) as wrong:
        has_ended = (server.is_kept or not server.has_answered) and wait_for(lambda: server.process.poll() is not None)
        if has_ended and server.process.returncode == LOST_JOURNAL:
            return lost_fault(server, story), True
        return starting_fault(server) if has_ended and not server.has_answered else f"{wrong!r}", True


def starting_fault(server):
    """What is wrong with a run that ends before it answers, or None."""
    status, said = server.end(SECONDS), server.errors()
    is_right = is_want_at_start(status, said) if server.is_kept else (status, said) == (NO_MEMORY, b"canvas: 1 OutOfMemory\n")
    return None if is_right else f"ends with status {status} and {said!r}"


def is_want_at_start(status, said):
    """Whether canvasd ends so where memory is refused before it serves. Of a door whose thread can't be started it says that it can't be served."""
    return status == NO_MEMORY and b"memory" in said.lower() or (status, said) == (BAD_PLACE, b"canvasd: the server ended: AcceptFault\n")


def lost_fault(server, story):
    """What is wrong with a run of canvasd that lost its journal for want of memory, or with the folder that it leaves; or None."""
    said = server.errors()
    if b"memory" not in said:
        return f"the journal is lost: {said!r}"
    with Running(kept_words(server.folder)) as again, again.connect() as canvas:
        text = canvas.ask(verb="export")[1]
    answered = story.model.model.saved()
    if story.waiting["verb"] in EDITS:
        story.model.reply(line_of(story.waiting)[:-1])
    return None if text in (answered, story.model.model.saved()) else f"the folder has {text[:300]!r}"


POSTERS = [(TOP / "examples" / name).read_bytes() for name in ("poster.json", "poster-format-1.json")]
LOOKS_AND_EDIT = [(0, EXPORT), (1, {"verb": "tile", "col": 0, "row": 0}), (0, EVERY_VERB[4])]
SWEEPS = {
    "two clients": (EMPTY, CONVERSATION),
    "two clients and one window": (EMPTY, SAME_WINDOW),
}
LONG_SWEEPS = {
    "two clients, all verbs": (EMPTY, LONG_CONVERSATION),
    "two clients and two workers": (EMPTY, LONG_CONVERSATION, "2"),
    "two clients, three refused": (EMPTY, LONG_CONVERSATION, "1", 3),
    "two clients and one window, three refused": (EMPTY, SAME_WINDOW * 2, "1", 3),
    "two clients and a poster": (POSTERS[0], LOOKS_AND_EDIT),
    "two clients and a poster of format 1": (POSTERS[1], LOOKS_AND_EDIT[1:]),
}
"""What is tried with `--long`: a document, a conversation, how many workers there are, and how many allocations are refused in a row."""


def pytest_generate_tests(metafunc):
    if "name" in metafunc.fixturenames:
        metafunc.parametrize("name", [*SWEEPS, *(LONG_SWEEPS if metafunc.config.getoption("long") else ())])


def test_a_server(program, shim, name):
    sweep(program, shim, *{**SWEEPS, **LONG_SWEEPS}[name])


def sweep(program, shim, document, requests, workers="1", count=1):
    """Runs a server with each allocation refused in turn."""
    file = program.room / "document.json"
    file.write_bytes(document)
    for number in range(1, MOST_RUNS):
        with Server(program, shim, number, count, file, workers) as server:
            if server.is_listening:
                found, is_refused = serving_fault(server, document, requests, count)
            else:
                found, is_refused = starting_fault(server), True
        assert found is None, f"allocation {number} refused"
        if not is_refused:
            break
    assert number < MOST_RUNS - 1
