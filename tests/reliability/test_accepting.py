"""A server goes on where no connection can be accepted for a while, for want of files, and counts it."""

import contextlib
import re
import resource
import socket
import time

import pytest

from harness.running import POINT, Running, kept_words, read_all, read_line, wait_for

pytestmark = pytest.mark.slow
CROWD = 70


def crowd(held, address):
    """Connections that say nothing. Those that are not accepted wait in the kernel's queue."""
    for _ in range(CROWD):
        with contextlib.suppress(OSError):
            held.enter_context(socket.create_connection(address, timeout=20))


def missed(address):
    with socket.create_connection(address, timeout=20) as sock:
        sock.sendall(b"GET /metrics HTTP/1.0\r\n\r\n")
        return int(re.search(rb"\ncanvas_missed_connections_total (\d+)\n", read_all(sock))[1])


def is_answered(address):
    try:
        with socket.create_connection(address, timeout=20) as sock:
            sock.sendall(POINT)
            return b'"ok":true' in read_line(sock)
    except OSError:
        return False


def is_fed(address):
    """Whether the feed tells a follower of the document. While the crowd's connections have its places, it ends others."""
    try:
        with socket.create_connection(address, timeout=20) as sock:
            sock.sendall(b'{"since":0,"opening":true}\n')
            return b'"opening"' in read_line(sock)
    except OSError:
        return False


def limit_files(server):
    """From now on the server may have few more files than it has. (A thread that waits for a connection holds the number of a file for it.)"""
    _, hard = resource.prlimit(server.process.pid, resource.RLIMIT_NOFILE)
    resource.prlimit(server.process.pid, resource.RLIMIT_NOFILE, (server.files() + server.number("Threads") + 8, hard))


def test_canvas_serve_goes_on(canvas):
    with canvas.start() as server:
        limit_files(server)
        with contextlib.ExitStack() as held:
            crowd(held, ("127.0.0.1", server.port))
            time.sleep(3)
            assert server.process.poll() is None
        assert wait_for(lambda: is_answered(("127.0.0.1", server.port)))


@pytest.mark.parametrize("where", ["sessions", "feed", "status"])
def test_canvasd_goes_on_and_counts(tmp_path, where):
    words = kept_words(tmp_path / "kept", "--feed", "127.0.0.1:0", "--status", "127.0.0.1:0")
    with Running(words) as server:
        feed = ("127.0.0.1", int(server.feeds[0].rpartition(":")[2]))
        status = ("127.0.0.1", int(server.process.stdout.readline().rpartition(b":")[2]))
        doors = {"sessions": ("127.0.0.1", server.port), "feed": feed, "status": status}
        assert is_answered(doors["sessions"]) and missed(status) == 0
        assert wait_for(lambda: server.number("Threads") < 25)
        limit_files(server)
        with contextlib.ExitStack() as held:
            for door in {"sessions", where}:
                crowd(held, doors[door])
            time.sleep(3)
            assert server.process.poll() is None
        assert wait_for(lambda: is_answered(doors["sessions"]))
        assert missed(status) > 0
        assert wait_for(lambda: is_fed(feed))
