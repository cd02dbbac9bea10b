"""A document that is served to clients of all kinds for some minutes: the server does not grow.

The clients are editors, viewers, clients that send hundreds of requests before they read, clients that break off inside a request or
inside a body, clients that send garbage or lines without end, silent and slow ones, and crowds that find no seat. Each makes one session
after another. They all stop each minute: then the server must be back at one thread and at the open files that it began with, and its
resident memory may not be more than 8 MiB and the pictures that its seats may keep (63 seats, 8 tiles each) above what it was after a first
short round. That round brings what the C library keeps for threads, and what it keeps goes up and down by some four MiB after it. What a
server loses for each connection adds up: in the 35,000 connections of one minute, 8 MiB are 240 bytes for each.

The document keeps its size, and the edits stay below the million that a server takes. Replies are checked: each is a whole line with its
body, and versions of one session never go back. At the end all seats must be free, and the document must be saved and opened again.
"""

import json
import random
import socket
import struct
import threading
import time

import pytest

import key_rows
from canvas.client import line_of, replies
from harness.running import NO_SEATS, seats_left, wait_for

WARM_UP = 10
KEPT_PICTURES = 63 * 8 * 196_623 // 1024
MOST_GROWTH = 8 * 1024 + KEPT_PICTURES
MOST_EDITS = 900_000
FIRST_SHAPES = 200
CODES_OF_GARBAGE = {50, 51, 52, 53, 54}


def first_document():
    """Groups with rectangles, ellipses and polygons in them, as a saved text of format 2."""
    chance, shapes = random.Random(1), []
    for number in range(1, FIRST_SHAPES + 1):
        kind = chance.choice(["rect", "ellipse", "polygon"]) if number > 10 else "group"
        shape = {"kind": kind}
        if kind == "polygon":
            shape.update(points=[[0, 0], [90, 10], [40, 80]], fill=f"{chance.randrange(1 << 24):06x}")
        elif kind != "group":
            shape.update(w=chance.randrange(1, 90), h=chance.randrange(1, 90), fill=f"{chance.randrange(1 << 24):06x}")
        parent = None if number <= 10 else chance.randrange(1, 11)
        pose = {"dx": chance.randrange(300), "dy": chance.randrange(300), "quarter": 0, "flip": False}
        place = {"index": key_rows.fresh(number), "parent": parent}
        shapes.append({"id": number, "place": place, "hidden": False, "pose": pose, "shape": shape})
    return json.dumps({"format": 2, "next": FIRST_SHAPES + 1, "shapes": shapes}).encode()


class TurnedAway(Exception):
    """No seat was free."""


class Session:
    """One connection: sends requests, reads and checks replies."""

    def __init__(self, server):
        self.server = server
        self.version = 0
        self.is_seated = False
        self._socket = server.socket()
        self._socket.setsockopt(socket.IPPROTO_TCP, socket.TCP_NODELAY, 1)
        self._stream = self._socket.makefile("rb")
        self._replies = replies(self._stream)

    def __enter__(self):
        return self

    def __exit__(self, *_):
        self._stream.close()
        self._socket.close()

    def send(self, *requests):
        self.send_bytes(b"".join(line_of(request) for request in requests))

    def send_bytes(self, data):
        self._socket.sendall(data)

    def read(self):
        reply, _ = next(self._replies, (None, None))
        if reply is None:
            raise EOFError("the session has ended")
        if reply.get("code") == 19:
            raise TurnedAway
        self.is_seated = True
        if reply["ok"]:
            if reply["version"] < self.version:
                raise ValueError(f"version {reply['version']} after {self.version}")
            self.version = reply["version"]
        return reply

    def ask(self, **request):
        self.send(request)
        return self.read()

    def read_some(self, count):
        return self._socket.recv(count)

    def end_sending(self):
        self._socket.shutdown(socket.SHUT_WR)

    def reset(self):
        """Closes the connection so that the other side is told at once that it is gone."""
        self._socket.setsockopt(socket.SOL_SOCKET, socket.SO_LINGER, struct.pack("ii", 1, 0))


# -- the kinds of clients ----------------------------------------------------------------------------------------------

def any_shape(chance):
    return chance.randrange(11, FIRST_SHAPES + 1)


def edit_of(chance):
    number = any_shape(chance)
    pose = {"dx": chance.randrange(300), "dy": chance.randrange(300), "quarter": chance.randrange(4)}
    return chance.choice([
        {"verb": "pose", "id": number, "pose": pose},
        {"verb": "show", "id": number, "hidden": chance.random() < 0.2},
        {"verb": "move", "id": number, "parent": chance.randrange(1, 11), "spot": chance.choice(["front", "back"])},
        {"verb": "reshape", "id": number, "shape": {"kind": "rect", "w": 30, "h": 20, "fill": "00ff00"}},
        {"verb": "respace", "parent": chance.randrange(1, 11)},
    ])


def look_of(chance):
    x, y, level = chance.randrange(300), chance.randrange(300), chance.choice([0, 0, 0, 1, 2, 3, 4, 5, 6])
    what = chance.random()
    if what < 0.03:
        return {"verb": "tile", "col": chance.randrange(2), "row": chance.randrange(2), "level": level}
    if what < 0.04:
        return {"verb": "export"}
    if what < 0.3:
        return {"verb": "patch", "x": x >> level, "y": y >> level, "w": chance.randrange(1, 100), "h": chance.randrange(1, 60),
                "level": level}
    return {"verb": "point", "x": x, "y": y}


def editor(session, chance, pace):
    """Changes shapes, and makes shapes that it deletes again."""
    for _ in range(chance.randrange(20, 60)):
        session.ask(**edit_of(chance))
        shape = {"kind": "rect", "w": chance.randrange(1, 50), "h": 9, "fill": "0000ff"}
        made = session.ask(verb="create", shape=shape, parent=chance.randrange(1, 11))
        if made["ok"]:
            session.ask(verb="delete", id=made["id"])
        time.sleep(3 * pace)


def viewer(session, chance, pace):
    for _ in range(chance.randrange(20, 200)):
        session.ask(**look_of(chance))


def pipeliner(session, chance, pace):
    """Sends hundreds of requests in one piece, and then reads; a few of them are edits."""
    requests = [edit_of(chance) if chance.random() < 0.05 else {"verb": "point", "x": 1, "y": 1} for _ in range(chance.randrange(100, 500))]
    session.send(*requests)
    session.end_sending()
    for _ in requests:
        session.read()
    time.sleep(len(requests) * 0.05 * pace)


def breaks_request(session, chance, pace):
    """Goes away inside a request."""
    session.ask(verb="point", x=0, y=0)
    line = line_of({"verb": "tile", "col": 0, "row": 0})
    session.send_bytes(line + line[: chance.randrange(len(line))])
    if chance.random() < 0.5:
        session.reset()


def breaks_body(session, chance, pace):
    """Goes away inside a body."""
    session.send(*[{"verb": "tile", "col": 0, "row": 0}] * chance.choice([1, 1, 4, 60]))
    if session.read_some(chance.choice([1, 10, 1000, 70_000])).startswith(NO_SEATS[:20]):
        raise TurnedAway
    if chance.random() < 0.5:
        session.reset()


def garbage(session, chance, pace):
    """Sends lines that are no requests, and at the end perhaps one that is too long."""
    lines = [bytes(chance.choice(b'{}[]",:0x\\ \x80verb') for _ in range(chance.randrange(60))) for _ in range(40)]
    session.send_bytes(b"\n".join(lines) + b"\n")
    for _ in lines:
        code = session.read()["code"]
        if code not in CODES_OF_GARBAGE:
            raise ValueError(f"garbage is answered by {code}")
    if chance.random() < 0.5:
        session.send_bytes(b"x" * 70_000)
        if session.read()["code"] != 70:
            raise ValueError("a long line is not answered by 70")


def silent(session, chance, pace):
    time.sleep(chance.random() * 2)


def slow(session, chance, pace):
    """Sends a request in single bytes, with pauses."""
    for byte in line_of({"verb": "point", "x": 5, "y": 5}):
        session.send_bytes(bytes([byte]))
        time.sleep(0.02)
    session.read()


def crowd(session, chance, pace):
    """Many more connections at once."""
    session.ask(verb="point", x=0, y=0)
    others = [session.server.socket() for _ in range(20)]
    for other in others:
        try:
            other.sendall(line_of({"verb": "point", "x": 0, "y": 0}))
            other.recv(100)
        except OSError:
            pass  # turned away, and closed before it was read
        other.close()
    time.sleep(0.2)


KINDS = [editor, viewer, pipeliner, editor, viewer, breaks_request, breaks_body, garbage, silent, slow, viewer, crowd]


class Client(threading.Thread):
    """One session after another, of one kind, until a time."""

    def __init__(self, server, kind, seed, end, pace):
        super().__init__()
        self.sessions = self.turned_away = 0
        self.fault = None
        self._server, self._kind, self._chance, self._end, self._pace = server, kind, random.Random(seed), end, pace

    def run(self):
        while time.monotonic() < self._end and self.fault is None:
            try:
                self._session()
            except TurnedAway:
                self.turned_away += 1
                time.sleep(0.05)
            except (OSError, EOFError, ValueError) as fault:
                self.fault = f"{self._kind.__name__}: {fault!r}"

    def _session(self):
        with Session(self._server) as session:
            try:
                self._kind(session, self._chance, self._pace)
            except (OSError, EOFError) as fault:
                if session.is_seated or isinstance(fault, TimeoutError):
                    raise
                # Where all seats are taken the connection may be gone before its reply was read.
                raise TurnedAway from None
        self.sessions += 1


# -- rounds ------------------------------------------------------------------------------------------------------------

class Sizes:
    """The server's resident memory in KiB, its threads and its open files, when it has no connection."""

    def __init__(self, server):
        wait_for(server.is_still)
        self.memory, self.threads, self.files = server.number("VmRSS"), server.number("Threads"), server.files()

    def __str__(self):
        return f"{self.memory} KiB, {self.threads} threads, {self.files} files"


def play(server, count, number, seconds, pace):
    """A round of all clients; gives them when they have ended."""
    end = time.monotonic() + seconds
    clients = [Client(server, KINDS[k % len(KINDS)], f"{number} {k}", end, pace) for k in range(count)]
    for client in clients:
        client.start()
    for client in clients:
        client.join()
    return clients


def version_of(server):
    with Session(server) as session:
        return session.ask(verb="point", x=0, y=0)["version"]


@pytest.mark.long
@pytest.mark.alone
def test_clients_of_all_kinds(program, request):
    """For a minute, or as many as `--times` says; and the document as it is at the end, saved, opens and is saved as the same text."""
    with program.start(first_document(), "2") as server:
        rounds(program, server, request.config.getoption("times"), 60)
        wait_for(lambda: seats_left(server, 1)[0] == 1)
        with server.connect() as canvas:
            text = canvas.ask(verb="export")[1]
    with program.start(text) as other, other.connect() as canvas:
        assert canvas.ask(verb="export")[1] == text


def rounds(program, server, minutes, count):
    """Plays all rounds, after each of which the server is as it was."""
    editors = sum(KINDS[k % len(KINDS)] in (editor, pipeliner) for k in range(count))
    pace = max(0.0, editors * (minutes * 60 + WARM_UP) / MOST_EDITS)
    start, settled, sessions, turned_away, done = Sizes(server), None, 0, 0, 0
    for number, seconds in enumerate([WARM_UP] + [60] * minutes):
        clients = play(server, count, number, seconds, pace)
        now = Sizes(server)
        done += seconds
        sessions += sum(client.sessions for client in clients)
        turned_away += sum(client.turned_away for client in clients)
        print(f"after {done} s: {now}; {sessions} sessions, {turned_away} turned away, version {version_of(server)}", flush=True)
        assert [client.fault for client in clients if client.fault] == [], number
        assert (now.threads, now.files) == (start.threads, start.files), number
        settled = settled or now
        assert now.memory - settled.memory <= MOST_GROWTH, number
    assert seats_left(server, 70) == (program.seats, NO_SEATS)
