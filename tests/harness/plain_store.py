#!/usr/bin/env python3
"""A store of documents for the checks, in plain Python over SQLite. It answers `canvasd --store unix:SOCKET` as the README of canvas_store says.

usage: tests/harness/plain_store.py SOCKET FILE [--lease 5] [--late 0] [--early 0]

FILE has all documents; what was answered by `ok` is in it, on the disk. It says `listening` once it does. `--lease` is how many seconds a document's
name is waited for while another holds it, `--late` how many seconds each `ok` is late. With `--early` it breaks its word: it says `ok` so many
seconds before it keeps something. A check that imports this decides besides what is answered in
place of what is so (`Store.answers`), and takes a lease away (`Store.take`). It is no store for use: one machine has it.
"""

import argparse
import contextlib
import re
import socket
import sqlite3
import threading
import time
from pathlib import Path

NAME = re.compile(rb"[a-z0-9][a-z0-9-]{0,62}")
NUMBER = re.compile(rb"0|[1-9][0-9]*")
MOST = 1 << 60
TABLES = """
CREATE TABLE IF NOT EXISTS document (name TEXT PRIMARY KEY, epoch INTEGER NOT NULL, generation INTEGER NOT NULL);
CREATE TABLE IF NOT EXISTS opening (name TEXT, generation INTEGER, text BLOB NOT NULL, PRIMARY KEY (name, generation));
CREATE TABLE IF NOT EXISTS change (name TEXT, generation INTEGER, number INTEGER, place INTEGER NOT NULL, bytes BLOB,
    PRIMARY KEY (name, generation, number));
"""


class Ended(Exception):
    """The connection is over."""


class Lost(Exception):
    """The lease is another's, or a change can't be kept."""


class Documents:
    """All that is kept."""

    def __init__(self, file):
        self._lock = threading.Lock()
        self._base = sqlite3.connect(file, isolation_level=None, check_same_thread=False, timeout=60)
        self._base.executescript("PRAGMA journal_mode = WAL; PRAGMA synchronous = FULL;" + TABLES)

    @contextlib.contextmanager
    def _change(self):
        with self._lock:
            self._base.execute("BEGIN IMMEDIATE")
            try:
                yield self._base
                self._base.execute("COMMIT")
            except BaseException:
                self._base.execute("ROLLBACK")
                raise

    def hold(self, name):
        """A new epoch, and what is kept: its number, the newest generation, the opening and the journal."""
        with self._change() as base:
            base.execute("INSERT INTO document VALUES (?, 1, 0) ON CONFLICT (name) DO UPDATE SET epoch = epoch + 1", [name])
            epoch, generation = base.execute("SELECT epoch, generation FROM document WHERE name = ?", [name]).fetchone()
            if not generation:
                return epoch, 0, b"", b""
            opening = base.execute("SELECT text FROM opening WHERE name = ? AND generation = ?", [name, generation]).fetchone()[0]
            return epoch, generation, opening, self._journal(base, name, generation)

    @staticmethod
    def _journal(base, name, generation):
        journal = bytearray()
        for place, data in base.execute("SELECT place, bytes FROM change WHERE name = ? AND generation = ? ORDER BY number", [name, generation]):
            if data is None:
                del journal[place:]
            else:
                journal[place : place + len(data)] = data
        return bytes(journal)

    def _newest(self, base, name, epoch):
        held, generation = base.execute("SELECT epoch, generation FROM document WHERE name = ?", [name]).fetchone()
        if held != epoch:
            raise Lost(f"another holds it since lease {held}")
        return generation

    def begin(self, name, epoch, generation, opening):
        with self._change() as base:
            if self._newest(base, name, epoch) + 1 != generation:
                raise Lost(f"generation {generation} does not come next")
            base.execute("INSERT INTO opening VALUES (?, ?, ?)", [name, generation, opening])
            base.execute("UPDATE document SET generation = ? WHERE name = ?", [generation, name])

    def keep(self, name, epoch, changes):
        """Keeps changes of the newest generation's journal, all or none: each a place, and bytes or None for a cut."""
        with self._change() as base:
            generation = self._newest(base, name, epoch)
            count = base.execute("SELECT count(*) FROM change WHERE name = ? AND generation = ?", [name, generation]).fetchone()[0]
            base.executemany("INSERT INTO change VALUES (?, ?, ?, ?, ?)",
                             [(name, generation, count + k, place, data) for k, (place, data) in enumerate(changes)])

    def forget(self, name):
        """Loses a document."""
        with self._change() as base:
            base.execute("DELETE FROM document WHERE name = ?", [name])

    def spoil(self, name, data):
        """Writes over the beginning of a journal."""
        with self._change() as base:
            base.execute("INSERT INTO change SELECT name, generation, 1 << 40, 0, ? FROM document WHERE name = ?", [data, name])

    def take(self, name):
        """Takes the lease of a document away."""
        with self._change() as base:
            base.execute("UPDATE document SET epoch = epoch + 1 WHERE name = ?", [name])

    def put(self, name, opening, journal):
        """Keeps a document of one generation."""
        epoch = self.hold(name)[0]
        self.begin(name, epoch, 1, opening)
        self.keep(name, epoch, [(0, journal)])

    def kept(self, name):
        """The newest generation of a document and its journal."""
        with self._lock:
            found = self._base.execute("SELECT generation FROM document WHERE name = ?", [name]).fetchone()
            return (found[0], self._journal(self._base, name, found[0])) if found else (0, b"")


class Connection(threading.Thread):
    """One connection, which holds one document at most."""

    def __init__(self, store, sock):
        super().__init__(daemon=True)
        self._store, self._socket, self._stream = store, sock, sock.makefile("rb")
        self.document = self.epoch = None
        self._changes, self._length = [], 0

    def run(self):
        try:
            while line := self._stream.readline(400):
                self._answer(line)
        except (Ended, OSError):
            pass
        except Lost as why:
            with contextlib.suppress(OSError):
                self._socket.sendall(b"lost %s\n" % str(why).encode())
        except (ValueError, sqlite3.Error) as why:
            with contextlib.suppress(OSError):
                self._socket.sendall(b"error %s\n" % re.sub(r"[^ -~]", "?", str(why))[:200].encode())
        finally:
            self.end()

    def end(self):
        self._store.give_up(self)
        with contextlib.suppress(OSError):
            self._socket.shutdown(socket.SHUT_RDWR)
        self._socket.close()

    def _say(self, verb, data):
        """Sends an answer, or what the check put in its place: bytes, None for silence, or b"" for the end."""
        time.sleep(self._store.late if verb in ("begin", "sync") else 0)
        instead = self._store.answers.get(verb, data)
        if instead is None:
            self._store.over.wait()
        if not instead:
            raise Ended
        self._socket.sendall(instead)
        if instead is not data:
            raise Ended

    def _answer(self, line):
        verb, *words = line.removesuffix(b"\n").split(b" ")
        self._store.heard.append((time.monotonic(), line))
        if not line.endswith(b"\n"):
            raise Ended
        if verb == b"hold" and self.document is None and len(words) == 1 and NAME.fullmatch(words[0]):
            return self._hold(words[0].decode())
        if self.document is None:
            raise ValueError("nothing is held")
        numbers = [int(it) for it in words if NUMBER.fullmatch(it) and int(it) <= MOST]
        if len(numbers) != len(words):
            raise ValueError(f"no message: {line[:80]!r}")
        match verb, numbers:
            case b"begin", [generation, length] if not self._changes:
                opening = self._read(length)
                self._store.documents.begin(self.document, self.epoch, generation, opening)
                self._length = 0
                self._say("begin", b"ok\n")
            case b"write", [place, length] if 0 < length and place <= self._length:
                self._changes.append((place, self._read(length)))
                self._length = max(self._length, place + length)
            case b"cut", [length] if length <= self._length:
                self._changes.append((length, None))
                self._length = length
            case b"sync", []:
                if self._store.early:
                    self._say("sync", b"ok\n")
                    time.sleep(self._store.early)
                self._store.documents.keep(self.document, self.epoch, self._changes)
                self._changes = []
                if not self._store.early:
                    self._say("sync", b"ok\n")
            case _:
                raise ValueError(f"no message: {line[:80]!r}")

    def _read(self, length):
        data = self._stream.read(length)
        if len(data) < length:
            raise Ended
        return data

    def _hold(self, name):
        holder = self._store.wait_for(name, self)
        if holder:
            self._say("hold", b"busy %s holds it\n" % holder.encode())
            raise Ended
        self.document = name
        self.epoch, generation, opening, journal = self._store.documents.hold(name)
        self._length = len(journal)
        head = b"held %d %d %d %d\n" % (self.epoch, generation, len(opening), len(journal))
        self._say("hold", head + opening + journal)

    def tell(self, data):
        """Says something that was not asked for."""
        self._socket.sendall(data)


class Store:
    """A store at a unix socket."""

    def __init__(self, path, file, lease=5.0, late=0.0, early=0.0):
        self.documents, self.lease, self.late, self.early = Documents(file), lease, late, early
        self.answers = {}
        """What is said in place of the answer to `hold`, `begin` or `sync`, which is done all the same; then the connection ends."""
        self.heard = []
        """Each line that came, and when."""
        self.over = threading.Event()
        self._holders, self._word = {}, threading.Condition()
        Path(path).unlink(missing_ok=True)
        self.address = f"unix:{path}"
        self._listener = socket.socket(socket.AF_UNIX)
        self._listener.bind(str(path))
        self._listener.listen(64)
        self._thread = threading.Thread(target=self.serve, daemon=True)

    def __enter__(self):
        self._thread.start()
        return self

    def __exit__(self, *_):
        self.over.set()
        with contextlib.suppress(OSError):
            self._listener.shutdown(socket.SHUT_RDWR)
        self._listener.close()
        for holder in list(self._holders.values()):
            holder.end()

    def serve(self):
        with contextlib.suppress(OSError):
            while True:
                Connection(self, self._listener.accept()[0]).start()

    def wait_for(self, name, connection):
        """Waits until nobody else holds a document, for as long as a lease at most: who does then, if somebody does."""
        with self._word:
            if not self._word.wait_for(lambda: name not in self._holders, self.lease):
                return f"connection {id(self._holders[name]) % 1000}"
            self._holders[name] = connection
            return None

    def give_up(self, connection):
        with self._word:
            if self._holders.get(connection.document) is connection:
                del self._holders[connection.document]
            self._word.notify_all()

    def holder(self, name):
        """The connection that holds a document, or None."""
        return self._holders.get(name)

    def take(self, name):
        """Takes the lease away from whoever has it: the next change is not kept."""
        self.documents.take(name)


def main():
    parser = argparse.ArgumentParser(description=__doc__.splitlines()[0])
    parser.add_argument("socket")
    parser.add_argument("file")
    parser.add_argument("--lease", type=float, default=5.0)
    parser.add_argument("--late", type=float, default=0.0)
    parser.add_argument("--early", type=float, default=0.0)
    given = parser.parse_args()
    store = Store(given.socket, given.file, given.lease, given.late, given.early)
    print("listening", flush=True)
    store.serve()


if __name__ == "__main__":
    main()
