"""A line, a follower's request and a status request have their time, however they come."""

import contextlib
import socket
import threading
import time

import pytest

from harness.running import POINT, Running, kept_words, read_line

pytestmark = pytest.mark.slow
LINE, FOLLOWER, STATUS = 30, 10, 2
"""How many seconds each has."""
BUSY = 15
"""What a busy machine may add."""


class Dribbler(threading.Thread):
    """A client that sends some bytes at once and then one now and then, and notes after how long it is ended and what it was sent."""

    def __init__(self, address, text, before=b"", pause=1.0, most=60):
        super().__init__()
        self.text, self.pause, self.most, self.took, self.got = text, pause, most, None, b""
        self.sock = socket.create_connection(address, timeout=most)
        self.sock.sendall(before)
        self.start()

    def run(self):
        begun = time.monotonic()
        with self.sock, contextlib.suppress(OSError):
            self.sock.settimeout(self.pause)
            for place in range(len(self.text)):
                self.sock.sendall(self.text[place : place + 1])
                with contextlib.suppress(TimeoutError):
                    part = self.sock.recv(4096)
                    self.got += part
                    if not part:
                        break
                if time.monotonic() - begun > self.most:
                    return
        self.took = time.monotonic() - begun


def test_a_line_has_thirty_seconds(program):
    with program.start() as server:
        address = ("127.0.0.1", server.port)
        slow = [Dribbler(address, b" " * 60), Dribbler(address, b" " * 60, before=POINT), Dribbler(address, b"{" * 60, before=b"\n")]
        with socket.create_connection(address) as silent, socket.create_connection(address) as patient:
            silent.settimeout(LINE + BUSY)
            patient.settimeout(LINE + BUSY)
            # A line that takes its time, and one behind it that begins with a time of its own.
            for piece in (POINT[:9], POINT[9:] + POINT[:5], POINT[5:]):
                patient.sendall(piece)
                time.sleep(LINE * 0.7)
            assert b'"ok":true' in read_line(patient) and b'"ok":true' in read_line(patient)
            for client in slow:
                client.join()
                assert client.took is not None and LINE - 1 <= client.took <= LINE + BUSY + 3, client.took
            assert b'"ok":true' in slow[1].got
            silent.sendall(POINT)
            assert b'"ok":true' in read_line(silent)


def test_a_follower_has_ten_seconds_and_a_status_request_two(tmp_path):
    words = kept_words(tmp_path / "kept", "--feed", "127.0.0.1:0", "--status", "127.0.0.1:0")
    with Running(words) as server:
        feed = ("127.0.0.1", int(server.feeds[0].rpartition(":")[2]))
        status = ("127.0.0.1", int(server.process.stdout.readline().rpartition(b":")[2]))
        follower = Dribbler(feed, b'{"since":' + b" " * 60, most=LINE)
        silent = socket.create_connection(feed, timeout=LINE)
        request = Dribbler(status, b"GET /healthz HTTP/1.1\r\nA: " + b"a" * 60, pause=0.3, most=LINE)
        begun = time.monotonic()
        with silent:
            assert b"this is no request of a feed" in read_line(silent)
        assert FOLLOWER - 1 <= time.monotonic() - begun <= FOLLOWER + BUSY
        follower.join()
        request.join()
        assert follower.took is not None and FOLLOWER - 1 <= follower.took <= FOLLOWER + BUSY
        assert request.took is not None and STATUS - 1 <= request.took <= STATUS + BUSY


def test_a_client_is_not_charged_for_what_the_server_does(tmp_path):
    """A line that was sent at once is answered, though the server is busy with those before it for longer than a line has."""
    with Running(kept_words(tmp_path / "kept")) as server, server.socket() as sock:
        sock.settimeout(2 * LINE)
        sock.sendall(POINT[:11])
        time.sleep(LINE * 0.5)
        sock.sendall(POINT[11:] + POINT[:3])
        time.sleep(LINE * 0.7)
        sock.sendall(POINT[3:])
        assert b'"ok":true' in read_line(sock) and b'"ok":true' in read_line(sock)
