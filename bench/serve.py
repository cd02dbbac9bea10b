#!/usr/bin/env python3
"""Requests a second and waiting times of the built program as a server, beside a server that answers fixed bytes.

usage: bench/serve.py [seconds for each server and line, 3 where it is left out]

Clients in C (bench/serve_client.c) each send a request when they have the last reply: points, small edits (poses) and tiles over a
hundred records, by 1, 8 and 60 clients. The tiles are windows of a tile's size, 2,048 for each client, so that they are painted
anew. Beside the program an echo server has a thread for each connection and answers as many bytes; it is the limit of the
loopback. The two are asked in three turns, which share the seconds, so that both see the machine as fast as it is then. Printed are the
mean of the rates and the medians of the turns' p50 and p99, and the greatest memory of the program. Then 8 and 60 clients ask for the
same 64 tiles again and again, each for all, in turn with tiles that are painted anew. Last 60 viewers ask for 20 tiles a second each.
"""

import re
import statistics
import subprocess
import sys
import tempfile
from contextlib import contextmanager
from pathlib import Path

from requests import TOP, hundred

sys.path[:0] = [str(TOP / it) for it in ("python", "tools", "tests", "tests/models")]
from canvas.client import PROGRAM  # noqa: E402
from plain_model import Model  # noqa: E402
from harness.running import free_port  # noqa: E402

WORKERS = "1"
TILE = 196_623
TURNS = 3
BODIES = {"points": 0, "edits": 0, "tiles": TILE}


def started(words):
    """A server, when it listens."""
    server = subprocess.Popen(words, stdout=subprocess.PIPE)
    if server.stdout.readline() != b"listening\n":
        server.kill()
        sys.exit(f"{words} does not listen")
    return server


@contextmanager
def running(words):
    """A server, from when it listens until the block ends."""
    server = started(words)
    try:
        yield server
    finally:
        server.kill()
        server.wait()


def asked_and_counted(client, port, what, clients, seconds, pace=()):
    """The rate, the two times, and how many requests were answered."""
    words = [client, "ask", str(port), what, str(clients), str(seconds), *map(str, pace)]
    return [float(word) for word in subprocess.run(words, stdout=subprocess.PIPE, check=True).stdout.split()]


def asked(client, port, what, clients, seconds, pace=()):
    """The rate and the two times."""
    return asked_and_counted(client, port, what, clients, seconds, pace)[:3]


def memory_of(server):
    text = Path(f"/proc/{server.pid}/status").read_text()
    return int(re.search(r"VmRSS:\s+(\d+)", text).group(1))


def document():
    """The saved text of a hundred records."""
    model = Model()
    for request in hundred():
        model.edit(request)
    return model.saved()


@contextmanager
def served(file):
    """The program as a server of a file's document, and its port. It is a new one each time, since one accepts a million edits."""
    port = free_port()
    with running([str(PROGRAM), "serve", f"127.0.0.1:{port}", str(file), WORKERS]) as server:
        yield server, port


@contextmanager
def echoed(client, body):
    """The port of a server that answers so many fixed bytes."""
    port = free_port()
    with running([client, "echo", str(port), str(body)]):
        yield port


def in_turns(client, file, what, clients, seconds):
    """What `asked` finds of the program and of the echo server, each over its turns, and the greatest memory of the program."""
    program, echo, memory = [], [], 0
    for _ in range(TURNS):
        with served(file) as (server, port):
            program.append(asked(client, port, what, clients, seconds / TURNS))
            memory = max(memory, memory_of(server))
        with echoed(client, BODIES[what]) as port:
            echo.append(asked(client, port, what, clients, seconds / TURNS))
    return over_turns(program), over_turns(echo), memory


def over_turns(turns):
    """The mean of the rates, and the medians of the two times."""
    rates, halves, mosts = zip(*turns)
    return statistics.mean(rates), statistics.median(halves), statistics.median(mosts)


def measure(client, file, seconds):
    for what in BODIES:
        for clients in (1, 8, 60):
            (rate, half, most), (fixed, fixed_half, fixed_most), memory = in_turns(client, file, what, clients, seconds)
            print(f"{what}, {clients} clients: {rate:,.0f} requests/s, p50 {half:.0f}, p99 {most:.0f} microseconds; "
                  f"fixed bytes {fixed:,.0f} requests/s, {fixed_half:.0f}, {fixed_most:.0f}; share {rate / fixed:.2f}; "
                  f"memory {memory} KiB", flush=True)


def measure_kept(client, server, port, seconds):
    """The same 64 tiles, which the server may keep, beside tiles that are painted anew."""
    with echoed(client, TILE) as echo_port:
        for clients in (8, 60):
            anew, anew_half, anew_most = asked(client, port, "tiles", clients, seconds)
            rate, half, most = asked(client, port, "shared", clients, seconds)
            fixed, _, _ = asked(client, echo_port, "shared", clients, seconds)
            print(f"the same 64 tiles, {clients} clients: {rate:,.0f} requests/s, p50 {half:.0f}, p99 {most:.0f} microseconds; "
                  f"painted anew {anew:,.0f} requests/s, {anew_half:.0f}, {anew_most:.0f}; ratio {rate / anew:.2f}; "
                  f"share of fixed bytes {rate / fixed:.2f}, anew {anew / fixed:.2f}; memory {memory_of(server)} KiB", flush=True)


def measure_viewers(client, port, seconds):
    rate, half, most = asked(client, port, "tiles", 60, max(seconds, 5), [20])
    print(f"60 viewers with 20 tiles a second each: {rate:,.0f} tiles/s, p50 {half:.0f}, p99 {most:.0f} microseconds")


def main():
    seconds = float(sys.argv[1]) if len(sys.argv) > 1 else 3
    subprocess.run([str(PROGRAM), "script"], stdin=subprocess.DEVNULL, check=True)
    with tempfile.TemporaryDirectory() as folder:
        client, file = f"{folder}/serve_client", Path(folder) / "document.json"
        subprocess.run(["cc", "-O2", "-pthread", "-o", client, str(TOP / "bench" / "serve_client.c")], check=True)
        file.write_bytes(document())
        measure(client, file, seconds)
        with served(file) as (server, port):
            measure_kept(client, server, port, seconds)
            measure_viewers(client, port, seconds)


if __name__ == "__main__":
    main()
