"""Asks a served document how it does: the counts of /metrics, /healthz, other requests, silent connections, followers, a disk that is slow or lost."""

import contextlib
import re
import resource
import socket
import subprocess
import tempfile
import time
from pathlib import Path

import pytest

from harness.running import LOST_JOURNAL, SECONDS, read_all, read_line, wait_for
from harness.watched import Watched, body_of, status_of
from repository import TOP

pytestmark = pytest.mark.quick
VERSION = (TOP / "VERSION").read_text().strip()
VERBS = ("create", "move", "pose", "reshape", "show", "delete", "respace", "tile", "patch", "point", "export", "unread")
GROUP_LINE = b'{"verb":"create","shape":{"kind":"group"}}\n'
TILE = b'{"verb":"tile","col":0,"row":0}\n'
MOST_WAIT = 2
"""After how many seconds a connection is ended that does not say what it asks."""
POLYGON = b'{"verb":"create","shape":{"kind":"polygon","points":%s,"fill":"336699"}}\n' % str([[k % 17 * 1000, k * 1000] for k in range(250)]).encode()
LONG_EDITS = 400
"""So many of them are more bytes than a connection takes of which nothing is read."""


@contextlib.contextmanager
def watched(*more, under=()):
    with tempfile.TemporaryDirectory() as room, Watched(Path(room, "kept"), *more, under=under) as server:
        yield server


def converse(sock, lines):
    """Sends each line and reads its reply; gives how many bytes came, and the replies' lines."""
    count, replies = 0, []
    for line in lines:
        sock.sendall(line)
        reply = read_line(sock)
        left = int(re.search(rb'"body":(\d+)', reply)[1])
        count += len(reply) + left
        while left:
            left -= len(sock.recv(left))
        replies.append(reply)
    return count, replies


def differing(got, wanted):
    """The samples that are not as they should be, or None."""
    wrong = {name: (got.get(name), number) for name, number in wanted.items() if got.get(name) != number}
    return f"(got, wanted): {wrong}" if wrong else None


def test_counts():
    """Two sessions, whose requests are counted."""
    with watched() as server:
        wait_for(lambda: server.samples()["canvas_generation"])  # the first of four looks a second
        before = server.samples()
        assert differing(before, {
            'canvas_build_info{version="%s"}' % VERSION: 1, "canvas_generation": 1, "canvas_version": 0, "canvas_kept_version": 0, "canvas_seats": 62,
            "canvas_open_sessions": 0, "canvas_sessions_total": 0, "canvas_refused_connections_total": 0, "canvas_missed_connections_total": 0, "canvas_sent_bytes_total": 0,
            "canvas_painted_pictures_total": 0, "canvas_kept_pictures_total": 0,
            **{'canvas_requests_total{verb="%s"}' % verb: 0 for verb in VERBS}, 'canvas_refusals_total{name="NoSuchShape"}': 0,
        }) is None, "all counts begin with 0"
        with server.socket() as first, server.socket() as second:
            sent, _ = converse(first, [GROUP_LINE] * 3 + [
                b'{"verb":"create","shape":{"kind":"rect","w":10,"h":10,"fill":"ff0000"}}\n',
                b'{"verb":"pose","id":4,"pose":{"dx":1,"dy":2}}\n',
                b'{"verb":"show","id":4,"hidden":false}\n', b'{"verb":"move","id":4,"parent":2,"spot":"front"}\n', b'{"verb":"respace","parent":null}\n', b'{"verb":"delete","id":1}\n',
                b'{"verb":"reshape","id":4,"shape":{"kind":"rect","w":20,"h":10,"fill":"ff0000"}}\n',
            ])
            more, replies = converse(second, [
                TILE, TILE, TILE, b'{"verb":"patch","x":0,"y":0,"w":3,"h":2}\n', b'{"verb":"point","x":1,"y":1}\n', b'{"verb":"export"}\n',
                b'{"verb":"delete","id":99}\n', b'{"verb":"delete","id":1}\n', b"no json\n", b'{"verb":"draw"}\n', b'{"verb":"tile","col":0,"row":0,"level":9}\n',
            ])
            open_now = server.samples()
            refused = [re.search(rb'"name":"(\w+)"', it)[1].decode() for it in replies if b'"ok":false' in it]
            assert refused == ["NoSuchShape", "NoSuchShape", "BadJson", "BadVerb", "BadLevel"], "the refusals are those that were wanted"
            assert differing(open_now, {"canvas_open_sessions": 2, "canvas_sessions_total": 2}) is None, "two sessions are open"
        ended = wait_for(lambda: server.samples()["canvas_open_sessions"] == 0)
        assert ended, "no session is open after both have ended"
        after = server.samples()
        told = {"create": 4, "pose": 1, "show": 1, "move": 1, "respace": 1, "delete": 3, "reshape": 1, "tile": 4, "patch": 1, "point": 1, "export": 1, "unread": 2}
        assert differing(after, {'canvas_requests_total{verb="%s"}' % verb: told[verb] for verb in VERBS}) is None, "each request is counted by its verb"
        assert differing(after, {
            'canvas_refusals_total{name="NoSuchShape"}': 2, 'canvas_refusals_total{name="BadJson"}': 1, 'canvas_refusals_total{name="BadVerb"}': 1,
            'canvas_refusals_total{name="BadLevel"}': 1, 'canvas_refusals_total{name="BadField"}': 0, 'canvas_refusals_total{name="BadWindow"}': 0,
        }) is None, "each refusal is counted by its name"
        assert differing(after, {"canvas_sent_bytes_total": sent + more}) is None, "each byte is counted"
        assert differing(after, {"canvas_painted_pictures_total": 3, "canvas_kept_pictures_total": 1}) is None, "pictures are counted, painted and kept"
        kept = wait_for(lambda: server.samples()["canvas_kept_version"] == 10)
        assert kept, f"all ten edits are kept: {server.samples()['canvas_kept_version']} are kept"
        assert differing(server.samples(), {"canvas_version": 10}) is None, "the newest version is the tenth"
        syncs, seconds = (after[name] - before[name] for name in ("canvas_syncs_total", "canvas_sync_seconds_total"))
        assert 1 <= syncs <= 20 and 0 < seconds < 60, f"syncs are counted and timed: {syncs} syncs took {seconds} seconds"
        assert 0 <= after["canvas_uptime_seconds"] < 120, ("seconds are those since the start", str(after["canvas_uptime_seconds"]))


@pytest.mark.needs("promtool")
def test_page():
    """The page as promtool and a reader see it."""
    with watched() as server:
        answer = server.get("/metrics")
        head = answer.partition(b"\r\n\r\n")[0].decode()
        assert re.findall(r"Content-Type: (.*)", head) == ["text/plain; version=0.0.4; charset=utf-8\r"], "the page is of the text format"
        assert re.findall(r"Content-Length: (\d+)", head) == [str(len(body_of(answer)))], "its length is told"
        assert re.findall("(?i)access-control", head) == [], "no page of elsewhere may read it"
        judged = subprocess.run(["promtool", "check", "metrics"], input=body_of(answer), capture_output=True, timeout=SECONDS)
        assert (judged.returncode, judged.stdout + judged.stderr) == (0, b""), "promtool finds nothing wrong"


def test_refused_connections():
    """A connection without a seat is counted."""
    with watched("--seats", "1") as server, server.socket() as first:
        converse(first, [TILE])
        with server.socket() as second:
            read_all(second)
        counted = {"canvas_refused_connections_total": 1, "canvas_open_sessions": 1, "canvas_seats": 1}
        assert wait_for(lambda: not differing(server.samples(), counted)), "a connection without a seat is counted"


REQUESTS = (
    ("health", b"GET /healthz HTTP/1.1\r\nHost: a\r\n\r\n", "HTTP/1.1 200 OK", b"ok\n"),
    ("health of HTTP/1.0", b"GET /healthz HTTP/1.0\r\n\r\n", "HTTP/1.1 200 OK", b"ok\n"),
    ("health with a query", b"GET /healthz?now HTTP/1.1\r\nHost: a\r\n\r\n", "HTTP/1.1 200 OK", b"ok\n"),
    ("the head of health", b"HEAD /healthz HTTP/1.1\r\nHost: a\r\n\r\n", "HTTP/1.1 200 OK", b""),
    ("another path", b"GET / HTTP/1.1\r\nHost: a\r\n\r\n", "HTTP/1.1 404 Not Found", b"there are /healthz and /metrics\n"),
    ("the head of another path", b"HEAD /health HTTP/1.1\r\nHost: a\r\n\r\n", "HTTP/1.1 404 Not Found", b""),
    ("another method", b"POST /metrics HTTP/1.1\r\nContent-Length: 3\r\n\r\nabc", "HTTP/1.1 405 Method Not Allowed", b"pages are only read here\n"),
    ("no request", b"hello\r\n\r\n", "HTTP/1.1 400 Bad Request", b"this is no request\n"),
    ("an edit", GROUP_LINE, "HTTP/1.1 400 Bad Request", b"this is no request\n"),
    ("a field that is none", b"GET /healthz HTTP/1.1\r\nno field\r\n\r\n", "HTTP/1.1 400 Bad Request", b"this is no request\n"),
    ("a head above 8 KiB", b"GET /healthz HTTP/1.1\r\nA: " + b"a" * 9000 + b"\r\n\r\n", "HTTP/1.1 431 Request Header Fields Too Large", b"the head is too long\n"),
    ("a head with 65 fields", b"GET /healthz HTTP/1.1\r\n" + b"A: a\r\n" * 65 + b"\r\n", "HTTP/1.1 431 Request Header Fields Too Large", b"the head is too long\n"),
    ("two requests", b"GET /healthz HTTP/1.1\r\n\r\nGET /healthz HTTP/1.1\r\n\r\n", "HTTP/1.1 200 OK", b"ok\n"),
)


def test_requests():
    """Each request has its one answer, and none changes anything."""
    with watched() as server:
        for name, data, status, body in REQUESTS:
            answer = server.ask(data)
            assert (status_of(answer), body_of(answer)) == (status, body), name
        assert b"\r\nAllow: GET, HEAD\r\n" in server.get("/metrics", "PUT"), "another method is told which there are"
        assert b"\r\nConnection: close\r\n" in server.get("/healthz"), "the connection is closed behind it"
        with socket.create_connection(("127.0.0.1", server.status_port), timeout=SECONDS) as sock:
            for byte in b"GET /healthz HTTP/1.1\r\n\r\n":
                sock.sendall(bytes([byte]))
            assert body_of(read_all(sock)) == b"ok\n", "a request byte for byte"
        with socket.create_connection(("127.0.0.1", server.status_port), timeout=SECONDS) as sock:
            sock.sendall(b"GET /healthz HT")
            sock.shutdown(socket.SHUT_WR)
            assert status_of(read_all(sock)) == "HTTP/1.1 400 Bad Request", "a request that is cut"
        assert differing(server.samples(), {"canvas_version": 0, "canvas_sessions_total": 0}) is None, "nothing was changed"


def test_silent_ones():
    """Connections that say nothing are ended, and so are those that say too little at a time; meanwhile others are answered."""
    with watched() as server:
        begun = time.monotonic()
        silent = [socket.create_connection(("127.0.0.1", server.status_port), timeout=SECONDS) for _ in range(14)]
        slow = socket.create_connection(("127.0.0.1", server.status_port), timeout=SECONDS)
        assert body_of(server.get("/healthz")) == b"ok\n", "another is answered meanwhile"
        with contextlib.suppress(OSError):
            for byte in b"GET /healthz HTTP/1.1\r\nA: aaaaaaaaaaaaaaaaaaaaaaaaaaaaaaaaa":
                slow.sendall(bytes([byte]))
                time.sleep(0.4)
                if time.monotonic() - begun > MOST_WAIT + 3:
                    break
        ends = []
        for sock in (*silent, slow):
            with contextlib.suppress(ConnectionResetError):
                ends.append(read_all(sock))
            sock.close()
        took = time.monotonic() - begun
        assert set(ends) - {b""} == set(), "all are ended without an answer"
        assert MOST_WAIT - 1 <= took <= MOST_WAIT + 15, f"after two seconds: after {took:.1f} seconds"
        assert body_of(server.get("/healthz")) == b"ok\n", "then it is answered as before"


@pytest.mark.needs("strace")
def test_late():
    """An edit that the disk makes wait is told."""
    slow = ("strace", "-f", "-qq", "-o", "/dev/null", "-e", "trace=fdatasync", "-e", "inject=fdatasync:delay_enter=8000000")
    with watched(under=slow) as server, server.socket() as sock:
        begun, is_well, ends = time.monotonic(), True, []
        sock.sendall(GROUP_LINE)
        while is_well and time.monotonic() < begun + SECONDS:
            is_well = status_of(server.get("/healthz")) == "HTTP/1.1 200 OK"
            ends.append(time.monotonic() - begun)
            time.sleep(0.1)
        assert (ends[-1] > 2, len(ends) > 1) == (True, True), f"an edit that waited for less than two seconds: {ends}"
        answer = server.get("/healthz")
        assert (status_of(answer), body_of(answer)) == ("HTTP/1.1 503 Service Unavailable", b"an edit has waited for over 2 seconds to be kept\n"), "an edit that waited for longer"
        assert differing(server.samples(), {"canvas_version": 1, "canvas_kept_version": 0}) is None, "its version is not kept"
        assert status_of(server.get("/healthz", "HEAD")) == "HTTP/1.1 503 Service Unavailable", "the head alone says so, too"
        read_line(sock)
        well = wait_for(lambda: status_of(server.get("/healthz")) == "HTTP/1.1 200 OK")
        assert well, "all is well once it is kept"


@contextlib.contextmanager
def feeding(under=()):
    """A run with a feed over a unix socket, which takes some 200 KB of which nothing is read."""
    with tempfile.TemporaryDirectory() as room, Watched(Path(room, "kept"), "--feed", f"unix:{room}/feed", under=under) as server:
        yield server


@contextlib.contextmanager
def follower(server, request=None):
    """A connection to the feed, on which this line was sent."""
    with socket.socket(socket.AF_UNIX) as sock:
        sock.settimeout(SECONDS)
        sock.connect(server.feeds[0].removeprefix("unix:"))
        if request is not None:
            sock.sendall(request)
        yield sock


def stands_at(server, followers, lag):
    """What is wrong where there are not so many followers, the farthest of them so many edits behind."""
    wanted = {"canvas_followers": followers, "canvas_follower_lag_edits": lag}
    wait_for(lambda: not differing(server.samples(), wanted))
    return differing(server.samples(), wanted)


def test_followers():
    """Followers of the feed: one that reads, and two that read nothing of more than their connections take."""
    with feeding() as server, server.socket() as editor:
        assert stands_at(server, 0, 0) is None, "nobody follows at first"
        converse(editor, [POLYGON] * LONG_EDITS)
        with follower(server), follower(server, b"no request\n") as refused:
            read_all(refused)
            assert stands_at(server, 0, 0) is None, "who asks for nothing, or is refused, is no follower"
        with follower(server, b'{"since":%d}\n' % (LONG_EDITS - 1)) as quick, quick.makefile("rb") as lines:
            lines.readline()
            assert stands_at(server, 1, 0) is None, "one that reads has all"
            with follower(server, b'{"since":100}\n'):
                assert stands_at(server, 2, LONG_EDITS - 100) is None, "one that reads nothing is told beside it"
                with follower(server, b'{"since":0}\n') as last, last.makefile("rb") as lines_of_last:
                    assert stands_at(server, 3, LONG_EDITS) is None, "of two the one farther behind is told"
                    converse(editor, [GROUP_LINE])
                    assert stands_at(server, 3, LONG_EDITS + 1) is None, "one more edit is one more behind"
                    version = [lines_of_last.readline() for _ in range(LONG_EDITS + 1)][-1].rpartition(b":")[2]
                    assert version == b"%d}\n" % (LONG_EDITS + 1), "it is sent all once it reads"
                    assert stands_at(server, 3, LONG_EDITS + 1 - 100) is None, "then the other is farthest behind"
        converse(editor, [GROUP_LINE])
        assert stands_at(server, 0, 0) is None, "nobody follows once all are gone"


def test_lost():
    """A journal that can't be written is told while the server ends. A follower that reads nothing keeps it from ending for five seconds."""
    with feeding(under=("env", "--ignore-signal=XFSZ")) as server, server.socket() as editor:
        converse(editor, [POLYGON] * LONG_EDITS)
        with follower(server, b'{"since":0}\n'):
            assert stands_at(server, 1, LONG_EDITS) is None, "there is a follower"
            assert status_of(server.get("/healthz")) == "HTTP/1.1 200 OK", "all is well before"
            resource.prlimit(server.process.pid, resource.RLIMIT_FSIZE, (0, 0))  # (no file takes a byte more)
            editor.sendall(GROUP_LINE)
            assert read_all(editor) == b"", "the edit is not answered"
            is_told = wait_for(lambda: status_of(server.get("/healthz")) != "HTTP/1.1 200 OK")
            answer = server.get("/healthz") if is_told else b""
            assert (status_of(answer), body_of(answer)) == ("HTTP/1.1 503 Service Unavailable", b"the journal is lost: no more edits are kept\n"), "the journal is lost"
            assert differing(server.samples(), {"canvas_version": LONG_EDITS + 1, "canvas_kept_version": LONG_EDITS}) is None, "its version is not kept"
        assert server.end() == LOST_JOURNAL, "the server ends by itself"


def test_at_a_path():
    """The status over a unix socket, and at two doors."""
    with tempfile.TemporaryDirectory() as room:
        path = Path(room, "status")
        with Watched(Path(room, "kept"), "--status", f"unix:{path}") as server:
            assert server.process.stdout.readline() == f"status on unix:{path}\n".encode(), "the second door is told"
            with socket.socket(socket.AF_UNIX) as sock:
                sock.connect(str(path))
                sock.sendall(b"GET /healthz HTTP/1.1\r\n\r\n")
                assert body_of(read_all(sock)) == b"ok\n", "health over a unix socket"
