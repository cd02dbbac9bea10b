#!/usr/bin/env python3
"""The server's processor time for exports by eight clients at once, of one built program or of several in turn.

usage: bench/exports.py [PROGRAM ..]

A program is a built `canvas`; where none is named it is that of this repository. Each serves a mixture of 4,096 records (that of bench/documents.py).
Eight clients each ask for 50 exports of the document as it is; then, 50 times, one client edits, and all eight ask for an export at once, each of
the new version. Three turns; of each are printed the milliseconds of processor time for an export, and their ratio to those of the first program.
"""

import os
import subprocess
import sys
import tempfile
import threading
from pathlib import Path

from documents import document, mixed
from requests import TOP
from serve import running

sys.path[:0] = [str(TOP / it) for it in ("python", "tools", "tests", "tests/models")]
from canvas.client import PROGRAM, Canvas  # noqa: E402
from harness.running import free_port  # noqa: E402

CLIENTS = 8
EXPORTS = 50
TURNS = 3


def processor(pid):
    """The seconds of processor time that a process has had."""
    fields = Path(f"/proc/{pid}/stat").read_text().rsplit(")", 1)[1].split()
    return (int(fields[11]) + int(fields[12])) / os.sysconf("SC_CLK_TCK")


def all_at_once(clients, work):
    """Does a work for each client, on a thread each."""
    threads = [threading.Thread(target=work, args=(client,)) for client in clients]
    for thread in threads:
        thread.start()
    for thread in threads:
        thread.join()


def unchanged(clients):
    """Exports of the document as it is."""
    def work(client):
        for _ in range(EXPORTS):
            client.ask(verb="export")

    all_at_once(clients, work)


def changed(clients):
    """Exports of a new version each time."""
    meet = threading.Barrier(CLIENTS)

    def work(client):
        for turn in range(EXPORTS):
            if client is clients[0]:
                client.ask(verb="show", id=1, hidden=turn % 2 == 0)
            meet.wait()
            client.ask(verb="export")
            meet.wait()

    all_at_once(clients, work)


def measured(program, file):
    """The milliseconds of processor time for an export of an unchanged document, and of one that changes."""
    port = free_port()
    with running([str(program), "serve", f"127.0.0.1:{port}", str(file), "1"]) as server:
        clients = [Canvas.connect(f"127.0.0.1:{port}") for _ in range(CLIENTS)]
        found = []
        for work in (unchanged, changed):
            before = processor(server.pid)
            work(clients)
            found.append((processor(server.pid) - before) * 1000 / CLIENTS / EXPORTS)
        for client in clients:
            client.close()
        return found


def main():
    programs = [Path(word) for word in sys.argv[1:]] or [PROGRAM]
    subprocess.run([str(programs[0]), "script"], stdin=subprocess.DEVNULL, check=True)  # builds it where it is not built
    with tempfile.TemporaryDirectory() as folder:
        file = Path(folder) / "document.json"
        file.write_bytes(document(4096, mixed).saved())
        for turn in range(TURNS):
            first = None
            for program in programs:
                still, moving = measured(program, file)
                first = first or (still, moving)
                print(f"turn {turn + 1}, {program}: unchanged {still:.2f} ms ({still / first[0]:.2f}), after an edit {moving:.2f} ms ({moving / first[1]:.2f})", flush=True)


if __name__ == "__main__":
    main()
