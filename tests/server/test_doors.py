"""What a web page can make a browser send is no session: at each door it gets one reply, none of its lines is read as a request, and it keeps no seat.

Lines that only resemble HTTP are answered one by one. tests/viewer tries the same with pages in a browser.
"""

import contextlib
import socket
import time

import pytest

from canvas.client import line_of
from harness.running import BAD_JSON, NO_SEATS, POINT, WHITE_POINT, Program, Running, kept_words, read_all, read_line, wait_for

pytestmark = pytest.mark.quick
METHODS = ("GET", "HEAD", "POST", "PUT", "PATCH", "DELETE", "OPTIONS", "CONNECT", "TRACE", "PRI")
EDIT = line_of({"verb": "create", "shape": {"kind": "rect", "w": 9, "h": 9, "fill": "ff0000"}})
NOT_OBJECT = b'{"body":0,"code":51,"name":"NotObject","ok":false}\n'
SHORT = 2000
"""Below so many bytes a text is sent byte by byte, too."""


class Door:
    """A server's door, over TCP or a unix socket."""

    def __init__(self, family, address):
        self.family, self.address = family, address

    def socket(self):
        sock = socket.socket(self.family)
        sock.settimeout(20)
        sock.connect(self.address)
        if self.family == socket.AF_INET:
            sock.setsockopt(socket.IPPROTO_TCP, socket.TCP_NODELAY, 1)
        return sock

    def answer(self, pieces, ends=False):
        """What a connection reads until the server ends it. The client sends these pieces, and ends what it sends or leaves that to the server."""
        with self.socket() as sock:
            with contextlib.suppress(BrokenPipeError, ConnectionResetError):
                for piece in pieces:
                    sock.sendall(piece)
                if ends:
                    sock.shutdown(socket.SHUT_WR)
            return read_all(sock)

    def edits(self):
        """How many edits were made."""
        return self.answer([POINT], ends=True).partition(b'"version":')[2]


@pytest.fixture(scope="module", params=["canvas", "canvasd", "canvasd at a unix socket"])
def door(request, tmp_path_factory):
    room = tmp_path_factory.mktemp("door")
    if request.param == "canvasd at a unix socket":
        with Running(kept_words(room / "kept", "--listen", f"unix:{room}/door")):
            yield Door(socket.AF_UNIX, f"{room}/door")
    else:
        with Program(request.param, room).start() as server:
            yield Door(socket.AF_INET, ("127.0.0.1", server.port))


def bytewise(text):
    return [text[k : k + 1] for k in range(len(text))]


def requests_of(method):
    """HTTP requests of a method, by name."""
    head = f"{method} / HTTP/1.1\r\nHost: 127.0.0.1:7878\r\nContent-Type: text/plain\r\nContent-Length: %d\r\n".encode()
    long = b"".join(b"X-Header-%d: %s\r\n" % (number, b"a" * 1000) for number in range(70))
    many = EDIT * 3 + b"\n" + EDIT
    yield "one line", head % len(EDIT) + b"\r\n" + EDIT
    yield "a body without an LF", head % (len(EDIT) - 1) + b"\r\n" + EDIT[:-1]
    yield "many lines", head % len(many) + b"\r\n" + many
    yield "many lines after 70,000 bytes of headers", head % len(many) + long + b"\r\n" + many
    yield "an edit right behind its first line", f"{method} /\n".encode() + EDIT


@pytest.mark.parametrize("method", METHODS)
def test_no_request_of_http_is_read(door, method):
    """In one piece, in two, and byte by byte."""
    before, cut = door.edits(), len(method)
    for name, text in requests_of(method):
        ways = [[text], [text[:cut], text[cut:]], [text[: cut + 1], text[cut + 1 :]], *([bytewise(text)] if len(text) < SHORT else [])]
        for pieces in ways:
            assert door.answer(pieces) == BAD_JSON, f"{name} in {len(pieces)} pieces"
    assert door.edits() == before


def test_a_session_behind_requests_of_http(door):
    door.answer([b"GET / HTTP/1.1\r\n\r\n"])
    assert door.answer([EDIT + POINT], ends=True).count(b'"ok":true') == 2


FOREIGN = [
    ("a method in small letters", b"patch / HTTP/1.1\r\n"), ("one whose first letter is small", b"pOST / HTTP/1.1\r\n"),
    ("one that is none of HTTP's", b"foo / HTTP/1.1\r\n"), ("another method", b"LINK / HTTP/1.1\n"), ("the version alone", b"HTTP/1.1\n"),
    ("a blank before the method", b" GET / HTTP/1.1\n"), ("a tab before it", b"\tfoo / HTTP/1.0\n"), ("a method in the middle", b"X GET / HTTP/1.1\n"),
    ("another version", b"foo / HTTP/9.9\n"), ("a request before the version", POINT[:-1] + b" HTTP/1.1\n"), ("no text", b"\xff\xfefoo / HTTP/1.1\n"),
    ("the longest line", b"foo /" + b"a" * 65521 + b" HTTP/1.1\n"), ("a NUL", b"\0"), ("TURN", b"\0\3\0\x08\x21\x12\xa4\x42"),
    ("TLS", b"\x16\3\1\2\0\1\0\1\xfc\3\3" + b"r" * 32 + b" "), ("an escape", b"\x1b[A"), ("the last control byte", b"\x1f"),
]
"""What a browser can send, and what is like it: no session. Behind it nothing is read as a request."""
RESEMBLING = [
    ("a method with no blank", b"GETx / HTTP/1.\n", 1), ("a method in small letters", b"get /\n", 1), ("small letters", b"GETx / http/1.1\n", 1),
    ("a blank behind the version", b"foo / HTTP/1.1 \n", 1), ("two CRs behind it", b"foo / HTTP/1.1\r\r\n", 1), ("no point in it", b"foo / HTTP/11\n", 1),
    ("no digit in it", b"foo / HTTP/1.x\n", 1), ("a shorter version", b"TP/1.1\n", 1), ("half a version", b"foo / HTTP/1\n", 1),
    ("a method alone", b"POST\n", 1), ("a method and a tab", b"POST\t/\n", 1), ("a blank before the method", b" GET /\n", 1),
    ("an LF before the method", b"\nGET / HTTP/1.1\n", 2), ("an object behind the method", b'PUT{"verb":"point"}\n', 1),
    ("half a method", b"OPTION / \n", 1), ("a longer word", b"PRIVATE / \n", 1), ("bytes that are no text", b"\xff\xfeGET / \n", 1),
    ("a number and a letter", b"7x\n", 1), ("a tab", b"\tx\n", 1), ("a CR", b"\rx\n", 1), ("a CR alone", b"\r\n", 1), ("a DEL", b"\x7f\n", 1),
]
"""Lines that only resemble it, and how many they are."""


def named(table):
    """The rows of a table as parameters with their names."""
    return [pytest.param(*row, id=name) for name, *row in table]


@pytest.mark.parametrize("text", named(FOREIGN))
def test_what_is_no_session_is_ended_before_anything_in_it_is_read(door, text):
    """In one piece, cut near its end, and byte by byte."""
    before = door.edits()
    ways = [[text + EDIT * 3], *([text[:cut], text[cut:] + EDIT] for cut in range(max(1, len(text) - 12), len(text)))]
    for pieces in [*ways, *([bytewise(text + EDIT)] if len(text) < SHORT else [])]:
        assert door.answer(pieces) == BAD_JSON, pieces[0][:100]
    assert door.edits() == before


def answers_of(door, count):
    """What so many lines that are none, and a look behind them, are answered, whatever the document is."""
    return BAD_JSON * count + door.answer([POINT], ends=True)


@pytest.mark.parametrize("line, count", named(RESEMBLING))
def test_lines_that_only_resemble_it_are_answered(door, line, count):
    """And so is what follows them, wherever they are cut."""
    text, wanted = line + POINT, answers_of(door, count)
    for cut in range(len(text)):
        assert door.answer([text[:cut], text[cut:]] if cut else [text], ends=True) == wanted, cut
    assert door.answer(bytewise(text), ends=True) == wanted


def test_requests_that_are_cut(door):
    white = answers_of(door, 0)
    for cut in range(len(POINT)):
        assert door.answer([POINT[:cut], POINT[cut:] + POINT] if cut else [POINT * 2], ends=True) == white * 2, cut
    for method in METHODS:
        assert door.answer([method.encode()], ends=True) == b"", method
        assert door.answer([method.encode() + b"\n" + POINT], ends=True) == BAD_JSON + white, method
    assert door.answer([POINT + b"GET / HTTP/1.1\n" + POINT], ends=True) == white + BAD_JSON + white
    assert door.answer([], ends=True) == b""
    for line in (b"7\n", b"\t7\r\n"):
        assert door.answer([line + POINT], ends=True) == NOT_OBJECT + white, line


def test_tls_is_told_at_its_first_byte(door):
    assert door.answer([b"\x16"]) == BAD_JSON


def test_a_session_is_not_held_back(door):
    with door.socket() as sock:
        sock.sendall(POINT[:7])
        sock.sendall(POINT[7:])
        assert b'"ok":true' in read_line(sock)
        sock.sendall(POINT + b"foo / HTTP/1.1\r\n" + POINT)
        assert b'"ok":true' in read_line(sock)
        assert read_line(sock) == BAD_JSON
        assert b'"ok":true' in read_line(sock)


def test_the_longest_first_line_is_a_request(door):
    line = POINT[:-1] + b" " * (65_536 - len(POINT) + 1) + b"\n"
    assert b'"ok":true' in door.answer([line], ends=True)
    assert b'"code":70' in door.answer([b" " + line[:-1] + b" HTTP/1.1\n"])


def test_no_request_of_http_keeps_a_seat(program):
    """Each connection stays open on the client's side."""
    with program.start() as server, contextlib.ExitStack() as held:
        for number in range(3 * program.seats):
            sock = held.enter_context(server.socket())
            sock.sendall(b"GET / HTTP/1.1\r\n\r\n")
            assert read_line(sock) == BAD_JSON, number
        assert looks(server) == WHITE_POINT


def looks(server):
    with server.socket() as sock:
        sock.sendall(POINT)
        sock.shutdown(socket.SHUT_WR)
        return read_all(sock)


def test_silent_connections_keep_seats(program):
    """One connection more is told so at once."""
    with program.start() as server, contextlib.ExitStack() as held:
        silent = [held.enter_context(server.socket()) for _ in range(program.seats)]
        full = server.still_threads + program.seats
        assert wait_for(lambda: server.number("Threads") == full)
        begun = time.monotonic()
        with server.socket() as sock:
            assert read_all(sock) == NO_SEATS
        assert time.monotonic() - begun < 5
        for sock in silent[:3]:
            sock.sendall(POINT)
            assert read_line(sock) == WHITE_POINT
        silent[0].close()
        assert wait_for(lambda: server.number("Threads") < full)
        assert looks(server) == WHITE_POINT, "a seat that was left"
        assert wait_for(lambda: server.number("Threads") < full)
        half = held.enter_context(server.socket())
        half.sendall(b"GE")
        with server.socket() as sock:
            assert read_all(sock) == NO_SEATS, "one more, beside half a method"
        half.sendall(b"T / HTTP/1.1\r\n\r\n" + EDIT)
        assert read_all(half) == BAD_JSON, "the rest of the method"
        assert wait_for(lambda: server.number("Threads") < full)
        assert looks(server) == WHITE_POINT, "the seat that it had"
