"""The doors of canvasd: TCP and unix, several at once, HTTP, seats, idle sessions, and what is logged."""

import contextlib
import re
import socket
import time

import pytest

from canvas import Canvas
from canvas.client import line_of
from harness.folders import GROUP, exported, fault_of, run, started
from harness.running import (
    BAD_JSON, BAD_PLACE, BAD_WORDS, NO_SEATS, POINT, Running, SECONDS, WHITE_POINT, free_port, kept_words, read_all,
    read_line, wait_for,
)
from repository import BUILT_KEEPER

pytestmark = pytest.mark.quick


# -- doors -------------------------------------------------------------------------------------------------------------

def asked_at(path):
    """What a point is answered over a unix socket."""
    with socket.socket(socket.AF_UNIX) as sock:
        sock.settimeout(SECONDS)
        sock.connect(str(path))
        sock.sendall(POINT)
        return read_line(sock)


def first_lines(server, count):
    return [server.first_line, *(server.process.stdout.readline() for _ in range(count - 1))]


def test_doors(tmp_path):
    folder, path, port = tmp_path / "doors", tmp_path / "door", free_port()
    given = [BUILT_KEEPER, folder, "--listen", f"127.0.0.1:{port}", "--listen", f"unix:{path}", "--listen", "127.0.0.1:0", "--listen", "[::1]:0"]
    for name in ("three doors and one more", "the same after a kill"):
        with Running(given) as server:
            lines = first_lines(server, 4)
            patterns = [rb"listening on 127\.0\.0\.1:%d\n" % port, rb"listening on unix:%s\n" % re.escape(str(path).encode()),
                        rb"listening on 127\.0\.0\.1:[1-9]\d*\n", rb"listening on \[::1\]:[1-9]\d*\n"]
            are_right = [bool(re.fullmatch(*it)) for it in zip(patterns, lines)]
            assert all(are_right), (name, f"it says {lines} and {server.errors()!r}")
            assert asked_at(path) == WHITE_POINT, f"{name}: unix"
            for line in (lines[0], lines[2], lines[3]):
                with Canvas.connect(line.decode().split()[-1]) as canvas:
                    assert canvas.ask(verb="point", x=0, y=0)[0]["version"] == 0, f"{name}: {line!r}"
    with socket.create_server(("127.0.0.1", 0)) as taken:
        address = f"127.0.0.1:{taken.getsockname()[1]}"
        assert fault_of(run(folder, "--listen", address), BAD_PLACE, address, "ddress already in use") is None, "an address in use"
    assert fault_of(run(folder, "--listen", "192.0.2.1:7878"), BAD_PLACE, "192.0.2.1:7878", "annot assign") is None, "an address of another machine"
    for address in ("7878", "127.0.0.1:", "127.0.0.1:65536", "no.such.host.invalid:1", "unix:"):
        out, said, status = run(folder, "--listen", address)
        assert status in (BAD_WORDS, BAD_PLACE) and not out and said, f"the address {address}: {(out, said, status)}"
    nowhere = f"unix:{tmp_path}/no/door"
    assert fault_of(run(folder, "--listen", nowhere), BAD_PLACE, nowhere.removeprefix("unix:"), "No such file") is None, "a path in no folder"
    plain = tmp_path / "plain"
    plain.write_bytes(b"mine")
    assert fault_of(run(folder, "--listen", f"unix:{plain}"), BAD_PLACE, plain) is None, "a path that is a file"
    assert plain.read_bytes() == b"mine", "the file stays"


def test_http(tmp_path):
    """HTTP is refused at each door; tests/server/test_doors.py tries all ways of it at one."""
    path = tmp_path / "http"
    with Running([*kept_words(tmp_path / "of http"), "--listen", f"unix:{path}"]) as server:
        request = b"POST / HTTP/1.1\r\nHost: a\r\n\r\n" + line_of(GROUP)
        with server.socket() as sock:
            sock.sendall(request)
            assert read_all(sock) == BAD_JSON, "HTTP at a TCP door"
        with socket.socket(socket.AF_UNIX) as sock:
            sock.connect(str(path))
            sock.sendall(request)
            assert read_all(sock) == BAD_JSON, "HTTP at a unix door"
        assert exported(server)[0] == 0, "nothing of it is an edit"


def test_seats(tmp_path):
    with started(tmp_path / "seats", "--seats", "2") as server, contextlib.ExitStack() as held:
        guests = [held.enter_context(server.socket()) for _ in range(2)]
        for guest in guests:
            guest.sendall(POINT)
            assert read_line(guest) == WHITE_POINT, "a seat of two"
        refusals = set()
        for _ in range(30):
            with server.socket() as sock:
                refusals.add(read_all(sock))
        assert refusals == {NO_SEATS}, "a third one, thirty times"
        guests[0].close()
        assert wait_for(lambda: has_seat(server)), "a seat that was left"
    words = [BUILT_KEEPER, tmp_path / "seats", "--listen", "127.0.0.1:0", "--seats", "1"]
    with Running(words) as server, server.socket() as sock:
        sock.sendall(POINT)
        read_line(sock)
        before, begun = server.errors().count(b"\n"), time.monotonic()
        for _ in range(30):
            with server.socket() as other:
                read_all(other)
        told, most = server.errors().count(b"\n") - before, 2 + time.monotonic() - begun
        assert 1 <= told <= most, f"a full house is told at most once a second: {told} lines, {server.errors()!r}"


def has_seat(server):
    with contextlib.suppress(ConnectionResetError), server.socket() as sock:
        sock.sendall(POINT)
        return b'"ok":true' in read_line(sock)


def test_idle(tmp_path):
    """A session whose client sends nothing is ended, and its edits stay; one that speaks now and then is not."""
    with started(tmp_path / "idle", "--idle", "3", "--seats", "2") as server, server.socket() as silent, server.connect() as speaking:
        silent.sendall(line_of(GROUP))
        read_line(silent)
        begun = time.monotonic()
        for _ in range(12):
            speaking.ask(verb="point", x=0, y=0)
            time.sleep(0.5)
        assert read_all(silent) == b"", "a silent session is ended"
        assert speaking.ask(verb="point", x=0, y=0)[0]["version"] == 1, "one that speaks goes on"
        assert wait_for(lambda: has_seat(server)), "its seat is free"
        assert time.monotonic() - begun < 20, "how soon"
    with started(tmp_path / "idle", "--idle", "0") as server, server.socket() as silent:
        silent.settimeout(2)
        with contextlib.suppress(TimeoutError):
            pytest.fail(f"a session that may be silent: it reads {silent.recv(1)!r}")
        silent.sendall(POINT)
        assert b'"version":1' in read_line(silent), "it goes on"


def test_levels(tmp_path):
    """What is logged at each level: nothing, or lines of the begin and the end of sessions."""
    counts = []
    for level in ("off", "error", "warn", "info", "debug", "trace"):
        with Running([BUILT_KEEPER, tmp_path / "levels", "--listen", "127.0.0.1:0", "--log", level]) as server:
            exported(server)
            assert wait_for(server.is_still)
            counts.append(server.errors().count(b"\n"))
    assert counts[:3] == [0, 0, 0], "lines at off, error and warn"
    assert 0 < counts[3] <= counts[4] <= counts[5], f"lines at the others: {counts}"
