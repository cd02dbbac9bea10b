"""Connections that come and go, full houses, and clients beside bad neighbours."""

import contextlib
import multiprocessing
import os
import random
import socket
import statistics
import tempfile
import threading
import time
from pathlib import Path

import pytest

from canvas.client import line_of
from harness.running import NO_SEATS, POINT, Program, SECONDS, read_all, read_line, seats_left, wait_for

pytestmark = pytest.mark.slow
RECTANGLE = {"verb": "create", "shape": {"kind": "rect", "w": 1, "h": 1, "fill": "ff0000"}}
MEMORY = "/dev/shm"
TIMES_AS_LONG = 3 * max(1, 4 / len(os.sched_getaffinity(0)))
"""What a bad neighbour may make of a viewer's wait. The server, the viewer and both neighbours want a processor each."""


def come_and_go(server, chance):
    """A connection that ends in one of many ways."""
    with server.socket() as sock:
        way = chance.randrange(7)
        try:
            if way == 1:
                sock.sendall(POINT)
                read_line(sock)
            elif way == 2:
                sock.sendall(POINT[: chance.randrange(1, 20)])
            elif way == 3:
                sock.sendall(b'{"verb":"tile","col":0,"row":0}\n' * 20)
                sock.recv(100)
            elif way == 4:
                sock.sendall(line_of(RECTANGLE) * 50)
            elif way == 5:
                sock.sendall(b" " * 70_000)
            elif way == 6:
                sock.sendall(POINT[:9])
                sock.setsockopt(socket.SOL_SOCKET, socket.SO_LINGER, b"\1\0\0\0\0\0\0\0")
        except OSError:
            pass  # closed by the server, as it may


def fill(server, seats):
    """Has each seat look at a picture, which the server keeps."""
    with contextlib.ExitStack() as held:
        for viewer in [held.enter_context(server.connect()) for _ in range(seats)]:
            viewer.ask(verb="tile", col=0, row=0)


@pytest.mark.alone
def test_comings_and_goings(program, seed):
    """A thousand connections; all seats are there afterwards, and nothing has grown but the document."""
    with program.start() as server:
        chance = random.Random(seed)
        for _ in range(100):
            come_and_go(server, chance)
        wait_for(server.is_still)
        fill(server, program.seats)
        wait_for(server.is_still)
        files, memory = server.files(), server.number("VmRSS")
        crowd = [threading.Thread(target=lambda: [come_and_go(server, random.Random(chance.random())) for _ in range(125)]) for _ in range(8)]
        for part in crowd:
            part.start()
        for part in crowd:
            part.join()
        assert wait_for(server.is_still), f"threads after 1,000 connections: {server.number('Threads')} are left"
        assert server.files() == files, "open files after 1,000 connections"
        grown = server.number("VmRSS") - memory
        assert grown < 20_000, f"memory after 1,000 connections: {grown} KiB more"
        assert seats_left(server, 70) == (program.seats, NO_SEATS), "seats after 1,000 connections"
        assert wait_for(lambda: seats_left(server, 1) == (1, None)), "a seat after a full house"


def test_full_house(program):
    """The 64th connection is told that no seat is free, at once, and is served when one is."""
    with program.start() as server:
        guests = [server.connect() for _ in range(program.seats)]
        for guest in guests:
            guest.ask(verb="point", x=0, y=0)
        refusals = set()
        for _ in range(40):
            with server.socket() as sock:
                refusals.add(read_all(sock))
        assert refusals == {NO_SEATS}, f"connection {program.seats + 1}, forty times"
        guests.pop().close()
        assert wait_for(lambda: seats_left(server, 1)[0] == 1), "a seat that was given back"
        for guest in guests:
            guest.close()


# -- bad neighbours ----------------------------------------------------------------------------------------------------

def flood(port, lines, end):
    """Sends requests and reads no reply; where the server takes no more, begins anew."""
    piece = b"".join(lines) * 20
    while time.monotonic() < end:
        try:
            with socket.create_connection(("127.0.0.1", port), timeout=0.2) as sock:
                while time.monotonic() < end:
                    sock.sendall(piece)
        except OSError:
            pass


def crawl(port, end):
    """Sends a byte a second."""
    with socket.create_connection(("127.0.0.1", port), timeout=SECONDS) as sock:
        while time.monotonic() < end:
            sock.sendall(b" ")
            time.sleep(1)


def latency(viewer, seconds):
    """The middle time of a tile, in seconds, for a viewer that waits a little between them."""
    times, end = [], time.monotonic() + seconds
    while time.monotonic() < end:
        begin = time.perf_counter()
        viewer.ask(verb="tile", col=0, row=0)
        times.append(time.perf_counter() - begin)
        time.sleep(0.005)
    return statistics.median(times)


@pytest.mark.alone
@pytest.mark.parametrize("name", ["canvas", "canvasd"])
def test_bad_neighbours(name):
    """A viewer beside a client that floods and one that crawls: its tiles take no more than TIMES_AS_LONG. A kept document lies in
    memory, since a tile that shows an edit waits until that is on the disk, however slow the disk is."""
    room = tempfile.TemporaryDirectory(dir=MEMORY if Path(MEMORY).is_dir() else None)
    with room as folder, Program(name, folder).start() as server, server.connect() as viewer:
        viewer.ask(**RECTANGLE)
        ratios = []
        for _ in range(5):
            alone = latency(viewer, 1)
            end = time.monotonic() + 3
            lines = [POINT, line_of({"verb": "pose", "id": 1, "pose": {"dx": 5}})]
            others = [multiprocessing.Process(target=flood, args=(server.port, lines, end)),
                      multiprocessing.Process(target=crawl, args=(server.port, end))]
            for other in others:
                other.start()
            time.sleep(0.5)
            beside = latency(viewer, 2)
            for other in others:
                other.join()
            ratios.append(beside / alone)
            if ratios[-1] <= TIMES_AS_LONG:
                break
        assert min(ratios) <= TIMES_AS_LONG
