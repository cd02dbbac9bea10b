"""Streams of all kinds, good and bad: statuses, messages and bytes.

Standard input, output and error are files, pipes, sockets, terminals, closed, full, or lose their other side; and the program is stopped and continued
while it waits for a stream. Each run ends with the status of the table in docs/STATUS.md.
"""

import os
import pty
import signal
import socket
import struct
import subprocess
import termios
import threading
import time
import tty
from contextlib import contextmanager, suppress
from pathlib import Path

import pytest

from harness.running import EMPTY, POINT, WHITE_POINT, free_port, read_all, read_line
from repository import BUILT

pytestmark = pytest.mark.quick
SECONDS = 120
CREATE = b'{"verb":"create","shape":{"kind":"rect","w":2,"h":1,"fill":"ff0000"}}\n'
PATCH = b'{"verb":"patch","x":0,"y":0,"w":3,"h":1}\n'
CREATED = b'{"body":0,"id":1,"ok":true,"version":1}\n'
PAINTED = b'{"body":20,"ok":true,"version":1}\nP6\n3 1\n255\n' + bytes([255, 0, 0] * 2 + [255] * 3)
GIVEN, ANSWERS = CREATE + PATCH, CREATED + PAINTED

TILE = b'{"verb":"tile","col":0,"row":0}\n'
TILE_BYTES = len(b'{"body":196623,"ok":true,"version":0}\n') + 196_623
READ_FAULT, WRITE_FAULT = b"canvas: 71 ReadFault\n", b"canvas: 72 WriteFault\n"
LONG_LINE = b"canvas: 70 LineTooLong\n"
LONG_REPLY = b'{"body":0,"code":70,"name":"LineTooLong","ok":false}\n'
IO_FAULT = b"canvas: input or output fault\n"
USAGE = b"usage: canvas script [workers] | canvas serve <address> <file> [workers]\n"


class Closed:
    """Stands for a stream that is closed when the program starts."""


def start(words, stdin=subprocess.PIPE, stdout=subprocess.PIPE, stderr=subprocess.PIPE):
    """A run of the program; each stream is a file, what subprocess takes, or Closed."""
    streams = [stdin, stdout, stderr]
    closed = [number for number, stream in enumerate(streams) if stream is Closed]
    given = [subprocess.DEVNULL if stream is Closed else stream for stream in streams]

    def prepare():
        signal.signal(signal.SIGINT, signal.SIG_DFL)  # a shell has it ignored by what it starts in the background
        for number in closed:
            os.close(number)

    return subprocess.Popen([str(BUILT), *words], stdin=given[0], stdout=given[1], stderr=given[2], bufsize=0, preexec_fn=prepare)


def end(process, given=None):
    """What was written to the pipes of a run, and its status."""
    if process.stdin is not None and process.stdin.closed:
        process.stdin = None
    try:
        out, said = process.communicate(given, SECONDS)
    except subprocess.TimeoutExpired:
        process.kill()
        out, said = process.communicate()
        return out, said, "no end"
    return out, said, process.returncode


def run(words=("script",), given=None, **streams):
    return end(start(words, **streams), given)


@contextmanager
def opened(path, flags):
    file = os.open(path, flags)
    try:
        yield file
    finally:
        os.close(file)


@contextmanager
def pair():
    """Two connected sockets."""
    near, far = socket.socketpair()
    with near, far:
        yield near, far


@contextmanager
def connection():
    """Two ends of a connection over the loopback."""
    with socket.create_server(("127.0.0.1", 0)) as listener:
        near = socket.create_connection(listener.getsockname())
        far, _ = listener.accept()
    with near, far:
        yield near, far


@contextmanager
def terminal(is_raw):
    """A terminal's two sides, without echo."""
    near, far = pty.openpty()
    if is_raw:
        tty.setraw(far)
    else:
        switch_echo_off(far)
    sides = [near, far]
    try:
        yield sides
    finally:
        for side in sides:
            with suppress(OSError):
                os.close(side)


def switch_echo_off(side):
    settings = termios.tcgetattr(side)
    settings[3] &= ~termios.ECHO
    termios.tcsetattr(side, termios.TCSANOW, settings)


def read_terminal(side, count):
    got = b""
    while len(got) < count:
        got += os.read(side, count - len(got))
    return got


def reset(sock):
    sock.setsockopt(socket.SOL_SOCKET, socket.SO_LINGER, struct.pack("ii", 1, 0))
    sock.close()


# -- standard input ----------------------------------------------------------------------------------------------------

def test_inputs(tmp_path):
    good = (ANSWERS, b"", 0)
    path = Path(tmp_path) / "requests"
    path.write_bytes(GIVEN)
    with path.open("rb") as file:
        assert run(stdin=file) == good, "input from a file"
    assert run(given=GIVEN) == good, "input from a pipe"
    assert run(stdin=subprocess.DEVNULL) == (b"", b"", 0), "input from an empty device"
    with pair() as (near, far):
        far.sendall(GIVEN)
        far.shutdown(socket.SHUT_WR)
        assert run(stdin=near) == good, "input from a socket"
    with connection() as (near, far):
        far.sendall(GIVEN)
        far.close()
        assert run(stdin=near) == good, "input from a connection"
    with terminal(False) as (near, far):
        process = start(["script"], stdin=far)
        os.write(near, GIVEN + b"\x04")
        assert end(process) == good, "input from a terminal, ended by Ctrl-D"
    with terminal(False) as (near, far):
        process = start(["script"], stdin=far)
        os.write(near, CREATE + PATCH[:9] + b"\x04\x04")
        assert end(process) == (CREATED, b"canvas: 74 CutLine\n", 4), "a line from a terminal, cut by Ctrl-D"


def test_bad_inputs(tmp_path):
    fault = (b"", READ_FAULT, 4)
    assert run(stdin=Closed) == fault, "input closed"
    with opened(tmp_path, os.O_RDONLY) as file:
        assert run(stdin=file) == fault, "input from a folder"
    with opened("/dev/null", os.O_WRONLY) as file:
        assert run(stdin=file) == fault, "input that may only be written"
    with opened("/dev/full", os.O_RDONLY) as file:
        assert run(stdin=file) == (LONG_REPLY, LONG_LINE, 4), "input from /dev/full, which gives zeros without end"
    out, into = os.pipe()
    os.set_blocking(out, False)
    assert run(stdin=out) == fault, "input that has nothing and does not wait"
    os.close(out)
    os.close(into)
    with connection() as (near, far):
        process = start(["script"], stdin=near)
        far.sendall(CREATE)
        first = process.stdout.read(len(CREATED))
        reset(far)
        assert (first, *end(process)) == (CREATED, *fault), "input from a connection that is reset"
    with terminal(True) as sides:
        process = start(["script"], stdin=sides[1])
        os.write(sides[0], CREATE)
        first = process.stdout.read(len(CREATED))
        os.close(sides[0])
        # Linux may tell a reader of such a terminal of an end or of a fault.
        result = end(process)
        assert (first, result in (fault, (b"", b"", 0))) == (CREATED, True), "input from a terminal that is gone"


# -- standard output ---------------------------------------------------------------------------------------------------

def test_outputs(tmp_path):
    path = Path(tmp_path) / "answers"
    with path.open("wb") as file:
        assert run(given=GIVEN, stdout=file)[1:] == (b"", 0), "output to a file"
    assert path.read_bytes() == ANSWERS, "the bytes in that file"
    with pair() as (near, far):
        result = run(given=GIVEN, stdout=near)[1:]
        assert (result, far.recv(1000)) == ((b"", 0), ANSWERS), "output to a socket"
    with connection() as (near, far):
        result = run(given=GIVEN, stdout=near)[1:]
        assert (result, far.recv(1000)) == ((b"", 0), ANSWERS), "output to a connection"
    with terminal(True) as (near, far):
        result = run(given=GIVEN, stdout=far)[1:]
        assert (result, read_terminal(near, len(ANSWERS))) == ((b"", 0), ANSWERS), "output to a terminal"
    assert run(given=b"", stdout=Closed)[1:] == (b"", 0), "output closed, and none to write"
    with opened("/dev/full", os.O_WRONLY) as file:
        assert run(given=b"", stdout=file)[1:] == (b"", 0), "output to a full device, and none to write"


def test_bad_outputs():
    fault = (WRITE_FAULT, 4)
    assert run(given=GIVEN, stdout=Closed)[1:] == fault, "output closed"
    with opened("/dev/full", os.O_WRONLY) as file:
        assert run(given=GIVEN, stdout=file)[1:] == fault, "output to a full device"
    with opened("/dev/null", os.O_RDONLY) as file:
        assert run(given=GIVEN, stdout=file)[1:] == fault, "output that may only be read"
    out, into = os.pipe()
    os.close(out)
    assert run(given=GIVEN, stdout=into)[1:] == fault, "output to a pipe that nobody reads"
    os.close(into)
    assert leaves() == (CREATED, *fault), "a reader that goes away after the first bytes"
    with pair() as (near, far):
        far.close()
        assert run(given=GIVEN, stdout=near)[1:] == fault, "output to a socket whose other side is gone"
    out, into = os.pipe()
    os.set_blocking(into, False)
    assert run(given=TILE, stdout=into)[1:] == fault, "output that is full and does not wait"
    os.close(out)
    os.close(into)
    with pair() as (near, far):
        far.close()
        out = run(given=b" " * 70_000, stdout=near)[1:]
        assert out == fault, "a closing reply that nobody reads"


def leaves():
    """A reader that takes the first reply and goes, while the program still writes."""
    process = start(["script"])
    process.stdin.write(CREATE)
    first = process.stdout.read(len(CREATED))
    process.stdout.close()
    with suppress(BrokenPipeError):
        process.stdin.write(TILE * 20)
        process.stdin.close()
    said = process.stderr.read()
    return first, said, process.wait(SECONDS)


def test_errors():
    """Where standard error takes nothing, the status alone tells."""
    for name, words, status in [("a command that is none", ["paint"], 2), ("a cut line", ["script"], 4)]:
        given = b"{"
        assert run(words, given, stderr=Closed)[::2] == (b"", status), f"{name}, errors closed"
        with opened("/dev/full", os.O_WRONLY) as file:
            assert run(words, given, stderr=file)[::2] == (b"", status), f"{name}, errors to a full device"
        out, into = os.pipe()
        os.close(out)
        assert run(words, given, stderr=into)[::2] == (b"", status), f"{name}, errors to a pipe that nobody reads"
        os.close(into)
    assert run(["paint"], b"", stdout=Closed)[1:] == (USAGE, 2), "a command that is none, output closed"
    assert run(stdin=Closed, stdout=Closed, stderr=Closed)[2] == 4, "all streams closed"


# -- the server --------------------------------------------------------------------------------------------------------

def serving(process, port):
    """What a session with a server is answered, before the server is ended."""
    try:
        for _ in range(100 * SECONDS):
            with suppress(ConnectionRefusedError), socket.create_connection(("127.0.0.1", port), timeout=SECONDS) as sock:
                sock.sendall(POINT)
                return read_line(sock)
            if process.poll() is not None:
                return f"ended with {process.returncode}"
            time.sleep(0.01)
        return "no connection"
    finally:
        process.kill()
        process.communicate()


def test_servers(tmp_path):
    path = Path(tmp_path) / "empty.json"
    path.write_bytes(EMPTY)

    def words(file=path):
        return ["serve", f"127.0.0.1:{free_port()}", str(file)]

    def served(file=path, **streams):
        command = words(file)
        return serving(start(command, **streams), int(command[1].rpartition(":")[2]))

    assert served(stdin=Closed) == WHITE_POINT, "a server without input"
    assert served(stderr=Closed) == WHITE_POINT, "a server without errors"
    assert served(stdin=Closed, stderr=Closed) == WHITE_POINT, "a server without input and errors"
    with path.open("rb") as file:
        assert served("/dev/stdin", stdin=file) == WHITE_POINT, "a document from standard input"
    fifo = Path(tmp_path) / "fifo"
    os.mkfifo(fifo)
    writer = threading.Thread(target=lambda: fifo.write_bytes(EMPTY))
    writer.start()
    assert served(fifo) == WHITE_POINT, "a document from a named pipe"
    writer.join()
    assert run(words("/dev/null")) == (b"", b"canvas: 50 BadJson\n", 3), "a document from an empty device"
    assert run(words("/dev/zero")) == (b"", b"canvas: 60 BadFormat\n", 3), "a document from a device without end"
    assert run(words(tmp_path)) == (b"", IO_FAULT, 4), "a document from a folder"
    assert run(words("/dev/stdin"), stdin=Closed) == (b"", IO_FAULT, 4), "a document from closed input"
    for name, stream in [("closed", Closed), ("full", "/dev/full"), ("read by nobody", None)]:
        assert without(stream, "stderr", words("/dev/null"))[::2] == (b"", 3), f"a bad document, errors {name}"
        assert without(stream, "stdout", words())[1:] == (IO_FAULT, 4), f"a server whose output is {name}"


def without(stream, name, words):
    """A run with a stream that takes nothing: closed, a full device, or a pipe that nobody reads."""
    if stream is Closed:
        return run(words, **{name: Closed})
    if stream is not None:
        with opened(stream, os.O_WRONLY) as file:
            return run(words, **{name: file})
    out, into = os.pipe()
    os.close(out)
    try:
        return run(words, **{name: into})
    finally:
        os.close(into)


# -- stopped and continued ---------------------------------------------------------------------------------------------

def disturb(process):
    """Stops and continues the program again and again, and sends it signals that it does not care for."""
    for _ in range(10):
        time.sleep(0.005)
        process.send_signal(signal.SIGSTOP)
        os.waitid(os.P_PID, process.pid, os.WSTOPPED | os.WNOWAIT)
        process.send_signal(signal.SIGCONT)
        process.send_signal(signal.SIGWINCH)


def test_interruptions():
    good = (ANSWERS, b"", 0)
    process = start(["script"])
    process.stdin.write(CREATE + PATCH[:9])
    disturb(process)
    assert end(process, PATCH[9:]) == good, "stopped while it reads a pipe"
    with pair() as (near, far):
        process = start(["script"], stdin=near)
        far.sendall(CREATE + PATCH[:9])
        disturb(process)
        far.sendall(PATCH[9:])
        far.shutdown(socket.SHUT_WR)
        assert end(process) == good, "stopped while it reads a socket"
    with terminal(False) as (near, far):
        process = start(["script"], stdin=far)
        os.write(near, CREATE)
        disturb(process)
        os.write(near, PATCH + b"\x04")
        assert end(process) == good, "stopped while it reads a terminal"
    process = start(["script"])
    process.stdin.write(TILE * 5)
    disturb(process)
    out, said, status = end(process)
    assert (len(out), said, status) == (5 * TILE_BYTES, b"", 0), "stopped while it writes to a full pipe"
    with pair() as (near, far):
        process = start(["script"], stdout=near)
        near.close()
        process.stdin.write(TILE * 5)
        disturb(process)
        process.stdin.close()
        got = len(read_all(far))
        assert (got, end(process)[1:]) == (5 * TILE_BYTES, (b"", 0)), "stopped while it writes to a full socket"


def test_server_interruptions(tmp_path):
    path = Path(tmp_path) / "empty.json"
    path.write_bytes(EMPTY)
    port = free_port()
    process = start(["serve", f"127.0.0.1:{port}", str(path)])
    try:
        process.stdout.read(len(b"listening\n"))
        disturb(process)
        with socket.create_connection(("127.0.0.1", port), timeout=SECONDS) as sock:
            sock.sendall(POINT[:9])
            disturb(process)
            sock.sendall(POINT[9:])
            assert read_line(sock) == WHITE_POINT, "a server stopped while it accepts and reads"
            sock.sendall(TILE * 20)
            disturb(process)
            sock.shutdown(socket.SHUT_WR)
            assert len(read_all(sock)) == 20 * TILE_BYTES, "a server stopped while it writes"
        with socket.create_connection(("127.0.0.1", port), timeout=SECONDS) as sock:
            sock.sendall(b" " * 70_000)
            disturb(process)
            assert read_all(sock) == LONG_REPLY, "a server stopped after a closing reply"
        process.send_signal(signal.SIGINT)
        assert end(process) == (b"", b"", -signal.SIGINT), "a server at Ctrl-C"
    finally:
        process.kill()
        process.communicate()
