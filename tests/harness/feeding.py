"""Servers with doors of their feed, and followers."""

import contextlib
import json
import re
import socket
from pathlib import Path

from harness.folders import JOURNAL, counted
from harness.running import Running, SECONDS, kept_words, read_all

MOST_FEEDS = 256
THREADS = 6
"""How many threads a server with its feed has that serves nobody: one for each of three doors, the scribe's, the guard's, and the first."""


class Feeding(Running):
    """A run of canvasd on a folder with two doors of its feed: over TCP, and over a unix socket."""

    def __init__(self, folder, *more):
        self.folder = Path(folder)
        self.door = str(folder) + ".feed"
        super().__init__(kept_words(folder, "--feed", "127.0.0.1:0", "--feed", f"unix:{self.door}", *more))
        self.feeds = [self.process.stdout.readline() for _ in range(2)]
        found = re.fullmatch(rb"feeding on 127.0.0.1:(\d+)\n", self.feeds[0])
        self.feed_port = int(found[1]) if found else None

    def follower(self, request=None, unix=False, seconds=SECONDS):
        """A connection to the feed, on which this line was sent."""
        if unix:
            sock = socket.socket(socket.AF_UNIX)
            sock.settimeout(seconds)
            sock.connect(self.door)
        else:
            sock = socket.create_connection(("127.0.0.1", self.feed_port), timeout=seconds)
        if request is not None:
            sock.sendall(request if isinstance(request, bytes) else json.dumps(request).encode() + b"\n")
        return sock

    def journal(self, generation=1):
        return counted((self.folder / str(generation) / JOURNAL).read_bytes())

    def opening(self, generation=1):
        return (self.folder / str(generation) / "opening.json").read_bytes()


def lines_from(sock, count):
    """So many lines of a feed, or those that come before it ends."""
    with sock.makefile("rb") as file:
        return [line for line in (file.readline() for _ in range(count)) if line]


def asked(server, request, count, **how):
    with server.follower(request, **how) as sock:
        return lines_from(sock, count)


def answered(server, request, **how):
    """All that a connection is sent until it is closed by the server."""
    with server.follower(request, **how) as sock, contextlib.suppress(ConnectionResetError):
        return read_all(sock)
