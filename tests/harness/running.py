"""Runs the two programs for the tests: free ports, servers, and sessions that send lines and read replies."""

import asyncio
import contextlib
import functools
import os
import random
import re
import signal
import socket
import subprocess
import tempfile
import threading
import time
from pathlib import Path

from canvas import Canvas
from repository import BUILT, BUILT_KEEPER

SECONDS = 120
SEATS = {"canvas": 63, "canvasd": 62}
"""How many sessions a server has at once. One more seat of a kept document is the journal's."""
BAD_WORDS, BAD_DOCUMENT, BAD_PLACE, NO_MEMORY, LOST_JOURNAL, ELSEWHERE = range(2, 8)
"""How canvasd ends, by its status: words that are no command, a document or a journal that is none, a file, a folder or an address that can't be used,
memory that was refused at the start, a journal that can't be kept any longer, and a store that has given the document to another."""
EMPTY = b'{"format":2,"next":1,"shapes":[]}'
NO_SEATS = b'{"body":0,"code":19,"name":"NoSeats","ok":false}\n'
BAD_JSON = b'{"body":0,"code":50,"name":"BadJson","ok":false}\n'
POINT = b'{"verb":"point","x":0,"y":0}\n'
WHITE_POINT = b'{"body":0,"colour":"ffffff","ok":true,"version":0}\n'


# -- bytes -------------------------------------------------------------------------------------------------------------

def free_port():
    """A port at which nobody listens, none of those that the system gives to connections. It is chosen by chance, so that two who look at once find two."""
    while True:
        port = random.SystemRandom().randrange(10_000, 32_000)
        with contextlib.suppress(OSError), socket.create_server(("127.0.0.1", port)):
            return port


def read_all(sock):
    """What comes until the other side ends. One that has not read all that was sent to it ends by a reset."""
    parts = []
    with contextlib.suppress(ConnectionResetError):
        while part := sock.recv(1 << 16):
            parts.append(part)
    return b"".join(parts)


def read_line(sock):
    """A line, or what comes of it before the other side ends."""
    line = b""
    with contextlib.suppress(ConnectionResetError):
        while not line.endswith(b"\n") and (part := sock.recv(1)):
            line += part
    return line


def talk(sock, data):
    """What a session writes for these bytes, which are all that it gets."""
    def send():
        with contextlib.suppress(BrokenPipeError, ConnectionResetError):  # (a session may end before it has read all)
            sock.sendall(data)
            sock.shutdown(socket.SHUT_WR)

    sender = threading.Thread(target=send)
    sender.start()
    got = read_all(sock)
    sender.join()
    return got


def bytes_of(file):
    """What is in a file that a process writes to. The place at which it writes, which it shares, stays."""
    return os.pread(file.fileno(), os.fstat(file.fileno()).st_size, 0)


def difference(got, wanted):
    """What differs, or None."""
    return None if got == wanted else f"got {str(got)[:300]}, wanted {str(wanted)[:300]}"


def wait_for(test, seconds=SECONDS):
    """Whether something is so before these seconds are over: many more than it takes, for a busy machine."""
    end = time.monotonic() + seconds
    while not (found := test()) and time.monotonic() < end:
        time.sleep(0.01)
    return bool(found)


async def until(is_so, seconds=SECONDS):
    """Waits until something is so; raises TimeoutError where that takes longer than anything should."""
    end = time.monotonic() + seconds
    while not is_so():
        if time.monotonic() > end:
            raise TimeoutError(f"not within {seconds} s")
        await asyncio.sleep(0.01)


def first_difference(got, wanted):
    """Where two texts part, with a little of both."""
    at = next((k for k, (a, b) in enumerate(zip(got, wanted)) if a != b), min(len(got), len(wanted)))
    begin = max(0, at - 40)
    return f"at byte {at} got {got[begin : at + 80]!r}, wanted {wanted[begin : at + 80]!r}"


def seconds_of(process):
    """How many seconds of a processor a process has used."""
    words = Path(f"/proc/{process}/stat").read_text().rpartition(") ")[2].split()
    return (int(words[11]) + int(words[12])) / os.sysconf("SC_CLK_TCK")


def times_as_busy():
    """How many times as much this machine has to do as it has processors for, which is how many times as long it takes; 1 at least."""
    return max(1, os.getloadavg()[0] / len(os.sched_getaffinity(0)))


# -- servers -----------------------------------------------------------------------------------------------------------

def port_of(line):
    """The port that a first line of canvasd names."""
    found = re.fullmatch(rb"listening on \S+:(\d+)\n", line)
    return int(found[1]) if found else None


def feed_of(line):
    """The address that a line of canvasd names as that of a feed door."""
    found = re.fullmatch(rb"feeding on (\S+)\n", line)
    return found[1].decode() if found else None


class Running:
    """A program that says on its first line that it listens; `port` is where, or None where it says anything else or ends."""

    still_threads = 3
    """How many threads it has while it has no session: canvasd has one for its door, and one that looks after what it stands on."""

    def __init__(self, words, environment=None, port=None):
        self.said = tempfile.TemporaryFile()
        self.process = subprocess.Popen([str(it) for it in words], stdin=subprocess.DEVNULL, stdout=subprocess.PIPE, stderr=self.said,
                                        env={**os.environ, **(environment or {})}, preexec_fn=default_signals)
        self.first_line = self.process.stdout.readline()
        self.port = port if self.first_line == b"listening\n" else port_of(self.first_line)
        self.address = f"127.0.0.1:{self.port}"
        self._doors = words.count("--feed")

    @functools.cached_property
    def feeds(self):
        """The addresses of the feed doors, which it says behind that of the one other door; none where it has ended."""
        return [feed_of(self.process.stdout.readline()) for _ in range(self._doors if self.port else 0)]

    def __enter__(self):
        return self

    def __exit__(self, *_):
        self.kill()

    def connect(self, seconds=SECONDS):
        return Canvas.connect(self.address, seconds)

    def socket(self):
        return socket.create_connection(("127.0.0.1", self.port), timeout=SECONDS)

    def number(self, word):
        """A number of the process, as VmRSS in KiB or Threads."""
        text = Path(f"/proc/{self.process.pid}/status").read_text()
        return int(re.search(rf"^{word}:\s+(\d+)", text, re.MULTILINE).group(1))

    def is_still(self):
        """Whether it has no thread for a session."""
        return self.number("Threads") == self.still_threads

    def files(self):
        return len(list(Path(f"/proc/{self.process.pid}/fd").iterdir()))

    def errors(self):
        """What stands on standard error so far."""
        return bytes_of(self.said)

    def kill(self):
        """Kills it (kill -9), and gives the status that it ended with."""
        self.process.kill()
        return self.end()

    def end(self, seconds=SECONDS):
        """Waits until it has ended by itself, and gives its status, or None where it does not end."""
        try:
            status = self.process.wait(seconds)
        except subprocess.TimeoutExpired:
            return None
        self.process.stdout.close()
        return status


def default_signals():
    """A shell has Ctrl-C ignored by what it starts in the background, and nohup the end of a terminal."""
    for number in (signal.SIGINT, signal.SIGHUP):
        signal.signal(number, signal.SIG_DFL)


def kept_words(folder, *more):
    """The words that start canvasd on a folder, at a port that the system chooses."""
    return [BUILT_KEEPER, folder, "--listen", "127.0.0.1:0", "--log", "error", *more]


FEED = ("--feed", "127.0.0.1:0")
"""Has canvasd open a feed door too."""


class Program:
    """A program under test as its sessions see it, with its files in a room: `canvas` (`canvas serve`, and `canvas script` where a session is alone), or
    `canvasd`, each time on a new folder."""

    def __init__(self, name, room):
        self.name, self.room, self.is_kept, self.seats = name, Path(room), name == "canvasd", SEATS[name]

    def words(self, port, file, workers="1"):
        """The words that start a server of a saved document, and a port, which canvasd does not take."""
        if self.is_kept:
            return kept_words(Path(tempfile.mkdtemp(dir=self.room), "kept"), "--open", file, "--workers", workers)
        return [BUILT, "serve", f"127.0.0.1:{port}", file, workers]

    def serve(self, file, workers="1", environment=None, more=()):
        """A run that is to serve the document of a file at a free port. It may have ended."""
        for _ in range(20):
            port = free_port()
            run = Running([*self.words(port, file, workers), *more], environment, port)
            run.still_threads = 3 if self.is_kept else 1
            if run.port or run.errors() != b"canvas: input or output fault\n":
                break  # else another program took the port
        return run

    def start(self, text=EMPTY, workers="1", environment=None, more=()):
        """A run that serves a saved document."""
        file = Path(tempfile.mkdtemp(dir=self.room), "document.json")
        file.write_bytes(text)
        run = self.serve(file, workers, environment, more)
        if run.port is None:
            raise RuntimeError(f"the server says {run.first_line!r} and {run.errors()!r}")
        return run

    def is_refusal(self, run, code):
        """Whether a server ended as it does for a text that is refused by this code, as b'61 BadRecord'."""
        status, said = run.end(), run.errors()
        if run.first_line or status != BAD_DOCUMENT:
            return False
        return code in said if self.is_kept else said == b"canvas: %s\n" % code

    def answers_to(self, data, workers="2"):
        """What a session over an empty document of its own writes for these bytes, and the status of `canvas script`, or 0 of a server."""
        if not self.is_kept:
            done = subprocess.run([str(BUILT), "script", workers], input=data, capture_output=True, timeout=SECONDS)
            return done.stdout, done.returncode
        with self.start(workers=workers) as server, server.socket() as sock:
            return talk(sock, data), 0


class Stored(Program):
    """canvasd whose documents a store keeps: `canvasd --store`. Each has a name of its own there."""

    def __init__(self, room, store):
        super().__init__("canvasd", room)
        self._store = store

    def words(self, port, file, workers="1"):
        folder, *rest = super().words(port, file, workers)[1:]
        name = folder.parent.name.replace("_", "-")
        return [BUILT_KEEPER, folder.with_name(name), *rest, "--store", self._store.address]


class Following(Running):
    """A follower, and the leader that it follows."""

    def __init__(self, folder, leader, more):
        self._leader = leader
        words = [BUILT_KEEPER, "follow", leader.feeds[0], folder, "--leader", leader.address, "--listen", "127.0.0.1:0", "--log", "error", *more]
        super().__init__(words)

    def kill(self):
        self._leader.kill()
        return super().kill()


class Followed(Program):
    """Followers, each of a leader with a document of its own: sessions are at the follower."""

    def __init__(self, room):
        super().__init__("canvasd", room)

    def start(self, text=EMPTY, workers="1", environment=None, more=()):
        leader = super().start(text, workers, environment, FEED)
        follower = Following(Path(tempfile.mkdtemp(dir=self.room), "kept"), leader, more)
        if follower.port is None:
            raise RuntimeError(f"the follower says {follower.first_line!r} and {follower.errors()!r}")
        return follower


def seats_left(server, most):
    """The connections that are answered while all of them are open, and the first that is not, if there is one."""
    open_ones, refusal = [], None
    try:
        for _ in range(most):
            sock = server.socket()
            open_ones.append(sock)
            sock.sendall(POINT)
            line = read_line(sock)
            if b'"ok":true' not in line:
                refusal = line
                break
        return len(open_ones) - (refusal is not None), refusal
    finally:
        for sock in open_ones:
            sock.close()
