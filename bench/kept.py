#!/usr/bin/env python3
"""Times of pictures that the server has kept, beside pictures that are painted anew and a server that sends the same bytes.

usage: bench/kept.py [seconds of each run, 3 where it is left out]

Clients in C (bench/serve_client.c), one and then eight, each ask for eight windows of a tile's size again and again, over a document
that stays as it is: a hundred records, and 4,000 squares of 10 by 10. The bytes of a kept picture are only copied to the socket, and
that is what the echo server does with as many bytes: what a kept picture costs above them is finding it. Then an editor moves one
of the 4,000 squares in a corner of the page, 500 times a second, while others look elsewhere. Which pictures were kept is not in the
replies: where half of them come as fast as over the still document, at least half of them were. (crates/canvas_session_tests counts them.)
"""

import subprocess
import sys
import tempfile
from pathlib import Path

from requests import TOP
from serve import TILE, asked, document, started

sys.path[:0] = [str(TOP / it) for it in ("python", "tools", "tests", "tests/models")]
import key_rows  # noqa: E402
from canvas.client import PROGRAM  # noqa: E402
from plain_model import Model  # noqa: E402
from harness.running import free_port  # noqa: E402

SQUARES = 4000
MOVES = 500


def squares():
    """The saved text of small squares, 36 pixels apart in rows of 64: some fifty meet each of nine by nine tiles."""
    model = Model()
    for place in range(SQUARES):
        pose = {"dx": place % 64 * 36, "dy": place // 64 * 36}
        shape = {"kind": "rect", "w": 10, "h": 10, "fill": f"{place * 4099 % (1 << 24):06x}"}
        model.records[place + 1] = {"shape": shape, "pose": pose, "parent": None, "index": key_rows.fresh(place), "hidden": False}
    model.next = SQUARES + 1
    return model.saved()


def shown(times):
    rate, half, most = times
    return f"{rate:,.0f} requests/s, p50 {half:.0f}, p99 {most:.0f} microseconds"


def measure_still(client, port, echo_port, name, what, seconds):
    for clients in (1, 8):
        anew = asked(client, port, "tiles", clients, seconds)
        kept = asked(client, port, what, clients, seconds)
        fixed = asked(client, echo_port, what, clients, seconds)
        print(f"{name}, {clients} clients: eight windows each {shown(kept)}; painted anew {shown(anew)}; fixed bytes {shown(fixed)}; "
              f"half of them take {kept[1] / fixed[1]:.2f} of the time of fixed bytes, painted anew {anew[1] / fixed[1]:.2f}", flush=True)


def measure_moving(client, port, seconds):
    """Viewers elsewhere, while a square moves in a corner."""
    for clients in (1, 8):
        still = asked(client, port, "beside", clients, seconds)
        words = [client, "ask", str(port), "edits", "1", str(seconds + 1), str(MOVES)]
        editor = subprocess.Popen(words, stdout=subprocess.PIPE)
        beside = asked(client, port, "beside", clients, seconds)
        edits = float(editor.communicate()[0].split()[0])
        print(f"{SQUARES} squares, one of which moves {edits:.0f} times a second, {clients} clients elsewhere: {shown(beside)}; "
              f"with none that moves {shown(still)}; ratio {beside[0] / still[0]:.2f}", flush=True)


def serve(client, folder, text, measure):
    """Measures a server of a saved document."""
    file, port = Path(folder) / "document.json", free_port()
    file.write_bytes(text)
    server = started([str(PROGRAM), "serve", f"127.0.0.1:{port}", str(file), "1"])
    try:
        measure(port)
    finally:
        server.kill()
        server.wait()


def main():
    seconds = float(sys.argv[1]) if len(sys.argv) > 1 else 3
    subprocess.run([str(PROGRAM), "script"], stdin=subprocess.DEVNULL, check=True)
    with tempfile.TemporaryDirectory() as folder:
        client, echo_port = f"{folder}/serve_client", free_port()
        subprocess.run(["cc", "-O2", "-pthread", "-o", client, str(TOP / "bench" / "serve_client.c")], check=True)
        echo = started([client, "echo", str(echo_port), str(TILE)])
        try:
            serve(client, folder, document(),
                  lambda port: measure_still(client, port, echo_port, "100 records", "same", seconds))
            serve(client, folder, squares(), lambda port: (
                measure_still(client, port, echo_port, f"{SQUARES} squares", "beside", seconds),
                measure_moving(client, port, seconds)))
        finally:
            echo.kill()
            echo.wait()


if __name__ == "__main__":
    main()
