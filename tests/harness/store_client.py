"""A client of canvas-store's agent, as canvasd is one, for checks.

    with Store.hold("/run/canvas-store/door", "poster") as store:
        store.begin(1, opening)
        journal = Gated(store)
        journal.turn([b"one", b"two"])      # kept behind a closed gate
        journal.turn([])                    # they count from now on
"""

import re
import socket


class Ended(Exception):
    """The agent ended the connection: its last word (`busy`, `error`, `lost`, or nothing) and its text."""

    def __init__(self, word, text=""):
        super().__init__(f"{word} {text}")
        self.word, self.text = word, text


class Store:
    """A connection that holds a document: its epoch, generation, opening, and the journal as it was when it was held."""

    def __init__(self, path, seconds=60):
        self._socket = socket.socket(socket.AF_UNIX)
        self._socket.settimeout(seconds)
        self._socket.connect(str(path))
        self._stream = self._socket.makefile("rb")

    @classmethod
    def hold(cls, path, name, seconds=60):
        store = cls(path, seconds)
        try:
            store.send(b"hold %s\n" % name.encode())
            numbers = store.answer("held").split()
            store.epoch, store.generation, opening, journal = map(int, numbers)
            store.opening, store.journal = store._bytes(opening), store._bytes(journal)
        except BaseException:
            store.close()
            raise
        return store

    def __enter__(self):
        return self

    def __exit__(self, *_):
        self.close()

    def close(self):
        self._stream.close()
        self._socket.close()

    def send(self, data):
        try:
            self._socket.sendall(data)
        except ConnectionError:
            pass  # (its last word may be there)

    def answer(self, wanted):
        """What stands behind a word that is wanted."""
        try:
            line = self._stream.readline(300)
        except ConnectionError:
            line = b""
        found = re.fullmatch(rb"([a-z]+)(?: ([ -~]+))?\n", line)
        word, text = (it.decode() if it else "" for it in found.groups()) if found else ("nothing", repr(line))
        if word != wanted:
            raise Ended(word, text)
        return text

    def begin(self, generation, opening):
        self.send(b"begin %d %d\n%s" % (generation, len(opening), opening))
        self.answer("ok")

    def write(self, at, data):
        self.send(b"write %d %d\n%s" % (at, len(data), data))

    def cut(self, length):
        self.send(b"cut %d\n" % length)

    def sync(self):
        self.send(b"sync\n")
        self.answer("ok")

    def _bytes(self, length):
        data = self._stream.read(length)
        if len(data) != length:
            raise Ended("nothing", f"after {len(data)} of {length} bytes")
        return data


def lines_of(journal):
    """The lines of a journal that count."""
    found = []
    for line in journal.splitlines(keepends=True):
        if not (line.startswith(b" ") and line.endswith(b"\n")):
            break
        found.append(line[1:-1])
    return found


class Gated:
    """The journal of a held document, as canvasd keeps one: each turn opens the gate of the lines before it."""

    def __init__(self, store):
        self._store, self._staged = store, b""
        self.lines = lines_of(store.journal)
        self._end = sum(len(it) + 2 for it in self.lines)
        store.cut(self._end)
        store.write(self._end, b"\n")
        store.sync()

    def turn(self, lines):
        """Has those of the turn before count, and keeps these."""
        text = b"".join(b" %s\n" % it for it in lines)
        opened = self._end + len(self._staged)
        if self._staged:
            self._store.write(self._end, b" ")
        if text:
            self._store.write(opened + 1, text[1:] + b"\n")
        self._store.sync()
        self._end, self._staged = opened, text
