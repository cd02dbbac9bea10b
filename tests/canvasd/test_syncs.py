"""Watches canvasd by strace: nothing leaves it before what it tells of is on the disk.

Clients edit and look at once, on a new folder and over the end of a generation. From the calls that the program made, in the order in which
strace saw them, this finds at each moment what a disk holds for certain: what was written to a file before a sync of it began, once the
sync has returned; a name in a folder, once the folder was synced. Then it must be that

- where a reply begins to leave on a socket, its version is no more than the number of lines that count in what the disk holds of the journal;
- an opening has its name only when all of it is on the disk, and a journal is made only where the opening's name is;
- before `listening` and before the first reply of a generation all names and files of the folder are on the disk (but the lock's).

The same calls without their syncs must not pass: that shows that this looks.
"""

import json
import os
import random
import re
import threading
from pathlib import Path

import pytest

from canvas import Canvas, Refused
from harness.folders import JOURNAL, counted
from harness.random_requests import Requests
from harness.running import Running, SECONDS, kept_words

pytestmark = [pytest.mark.slow, pytest.mark.needs("strace")]
CLIENTS = 6
LIMIT = 60  # edits of a generation: about a third of the requests are accepted, so a run goes over the end of several
CALLS = "pwrite64,write,writev,sendto,sendmsg,sendfile,fdatasync,fsync,openat,open,creat,rename,renameat,renameat2,mkdir,mkdirat,ftruncate,accept,accept4"
HEX = re.compile(r"\\x([0-9a-f]{2})")
FIRST_FD = re.compile(r"^(\d+)<([^>]*)>")


# -- the calls of a trace ----------------------------------------------------------------------------------------------

class Call:
    """A call of the system: its name, its arguments as strace writes them, and what it returned, or None where it has not."""

    def __init__(self, name, text):
        self.name, self.text, self.result = name, text, None

    def path(self):
        """The file of the first argument."""
        found = FIRST_FD.match(self.text)
        return plain(found[2]).decode() if found else ""

    def fd(self):
        return int(FIRST_FD.match(self.text)[1])

    def strings(self):
        return [plain(it) for it in re.findall(r'"([^"]*)"', self.text)]

    def numbers(self):
        """The last arguments that are numbers."""
        return [int(it) for it in re.findall(r", (\d+)(?=,|$)", self.text)]


def plain(text):
    """The bytes that strace writes in hexadecimal digits."""
    return bytes.fromhex("".join(HEX.findall(text)))


def moments(lines):
    """Each begin and end of a call, in order: whether it is the end, and the call."""
    begun = {}
    for line in lines:
        number, _, rest = line.strip().partition(" ")
        rest = rest.strip()
        resumed = re.match(r"<\.\.\. (\w+) resumed>\s?(.*)", rest)
        if resumed:
            call, text = begun.pop(number), resumed[2]
        else:
            name, bracket, text = rest.partition("(")
            if not bracket or not name.isidentifier():
                continue
            call = Call(name, "")
            yield False, begin(call, text)
        if text.endswith("<unfinished ...>"):
            begun[number] = call
            continue
        head, _, result = text.rpartition(" = ")
        call.text = (call.text if resumed else "") + head.rstrip().removesuffix(")")
        call.result = int(re.match(r"-?\d+", result)[0]) if re.match(r"-?\d", result) else -1
        yield True, call


def begin(call, text):
    """Gives a call the arguments that are known at its begin: all but what it answers."""
    call.text = text.removesuffix("<unfinished ...>").rpartition(" = ")[0].rstrip().removesuffix(")") if " = " in text else text.removesuffix(
        "<unfinished ...>").rstrip()
    return call


# -- what the disk holds -----------------------------------------------------------------------------------------------

class File:
    """A file: what was written, and what is on the disk for certain."""

    def __init__(self):
        self.written = self.held = b""

    def write(self, at, data):
        self.written = self.written[:at].ljust(at, b"\0") + data + self.written[at + len(data) :]


class Replies:
    """What leaves on a connection: the lines of its replies, each with what was kept when it began to leave."""

    def __init__(self, journal):
        self.journal = journal
        self._line, self._kept, self._body = b"", 0, 0

    def feed(self, data, kept):
        """The reply lines that end in these bytes, with what was kept when each began."""
        while data:
            if self._body:
                cut = min(self._body, len(data))
                self._body, data = self._body - cut, data[cut:]
                continue
            if not self._line:
                self._kept = kept
            piece, end, data = data.partition(b"\n")
            self._line += piece
            if end:
                reply = json.loads(self._line)
                self._line, self._body = b"", reply["body"]
                yield reply, self._kept


class Watch:
    """Goes over the calls of a run, and finds what is wrong."""

    def __init__(self, folder):
        self._folder = str(folder)
        self._files, self._journal, self._sessions, self._snapshots, self._kept = {}, None, {}, {}, {}
        self._names = set()
        self.replies = self.syncs = 0
        self.journals, self.faults = [], []

    def follow(self, trace):
        for is_end, call in moments(trace):
            kind = getattr(self, f"_{call.name}", None)
            if kind:
                kind(call, is_end)
        return self

    def _say(self, fault):
        self.faults.append(fault)

    def _is_ours(self, path):
        return path == self._folder or path.startswith(self._folder + "/")

    def _unsynced(self):
        """What is not on the disk, but for the lock."""
        dirty = {path for path, file in self._files.items() if file.written != file.held and Path(path).name != JOURNAL}
        return sorted(it for it in dirty | self._names if Path(it).name != "lock")

    # -- files --

    def _openat(self, call, is_end):
        path = (call.strings() or [b""])[0].decode()
        if not is_end or call.result < 0 or not self._is_ours(path) or not re.search(r"O_(WRONLY|RDWR)", call.text):
            return
        if path not in self._files:
            self._files[path] = File()
            self._names.add(path)
            if Path(path).name == JOURNAL:
                self._check_opening(path)
        if Path(path).name == JOURNAL and path not in self.journals:
            self.journals.append(path)
            self._kept[path] = 0

    _open = _openat

    def _check_opening(self, journal):
        opening = str(Path(journal).parent / "opening.json")
        left = [it for it in self._unsynced() if it != journal]
        if opening not in self._files or left:
            self._say(f"{journal} is made where {left or opening} is not on the disk")

    def _mkdir(self, call, is_end):
        path = (call.strings() or [b""])[0].decode()
        if is_end and call.result == 0 and self._is_ours(path):
            self._names.add(path)

    _mkdirat = _mkdir

    def _rename(self, call, is_end):
        strings = [it.decode() for it in call.strings()]
        if not is_end or call.result != 0 or not self._is_ours(strings[0]):
            return
        old, new = strings
        file = self._files.pop(old, None)
        if file is None or file.written != file.held:
            self._say(f"{old} is renamed before all of it is on the disk")
        self._files[new] = file or File()
        if new in self._kept:  # until its name is kept, too, a crash may leave either
            self._kept[new] = min(self._kept[new], len(counted(self._files[new].held)))
        self._names.discard(old)
        self._names.add(new)

    _renameat = _renameat2 = _rename

    def _pwrite64(self, call, is_end):
        path = call.path()
        if is_end and call.result > 0 and path in self._files:
            self._files[path].write(call.numbers()[-1], call.strings()[0][: call.result])

    def _ftruncate(self, call, is_end):
        path = call.path()
        if is_end and call.result == 0 and path in self._files:
            self._files[path].written = self._files[path].written[: call.numbers()[-1]]

    def _fsync(self, call, is_end):
        path = call.path()
        if not self._is_ours(path) and path != str(Path(self._folder).parent):
            return
        if not is_end:
            self._snapshots[id(call)] = (self._files[path].written if path in self._files else None, {it for it in self._names if str(Path(it).parent) == path})
            return
        written, names = self._snapshots.pop(id(call))
        if call.result != 0:
            return
        self.syncs += 1
        self._names -= names
        if path in self._files:
            self._files[path].held = written
            if path in self._kept:
                self._kept[path] = len(counted(written))

    _fdatasync = _fsync

    # -- sockets --

    def _accept4(self, call, is_end):
        if is_end and call.result >= 0:
            self._sessions[call.result] = Replies(self.journals[-1])

    _accept = _accept4

    def _write(self, call, is_end):
        path = call.path()
        if path in self._files:
            if is_end and call.result > 0:
                self._files[path].write(len(self._files[path].written), call.strings()[0][: call.result])
        elif call.fd() == 1 and not is_end:
            if self._unsynced():
                self._say(f"it listens before {self._unsynced()} is on the disk")
        elif "socket:" in path or "TCP" in path or "UNIX" in path:
            self._leave(call, is_end)

    def _sendto(self, call, is_end):
        self._leave(call, is_end)

    def _leave(self, call, is_end):
        session = self._sessions.get(call.fd())
        if session is None:
            return
        if not is_end:
            self._snapshots[id(call)] = self._kept[session.journal]
            if self._unsynced():
                self._say(f"a reply leaves before {self._unsynced()} is on the disk")
            return
        kept = self._snapshots.pop(id(call))
        for reply, at_begin in session.feed(call.strings()[0][: max(0, call.result)], kept):
            self.replies += 1
            if reply["ok"] and reply["version"] > at_begin:
                self._say(f"{reply} began to leave when {at_begin} edits were on the disk")

    def _other(self, call, is_end):
        if not is_end and self._sessions.get(call.fd()):
            self._say(f"a reply leaves by {call.name}, which this does not follow")

    _writev = _sendmsg = _sendfile = _other


# -- a run -------------------------------------------------------------------------------------------------------------

def client(port, seed, count, known):
    """Edits and looks, alone and some together, on one session after another."""
    chance = random.Random(seed)
    requests = Requests(chance, known)
    while count > 0:
        try:
            with Canvas.connect(f"127.0.0.1:{port}", SECONDS) as canvas:
                while count > 0:
                    together = chance.choice([1, 1, 1, 5])
                    count -= together
                    for _ in range(together):
                        canvas.send(**(requests.edit() if chance.random() < 0.7 else {"verb": "point", "x": 1, "y": 1}))
                    read(canvas, together, known)
        except (EOFError, OSError):
            count -= 1  # the end of a generation


def read(canvas, count, known):
    for _ in range(count):
        try:
            reply, _ = canvas.read()
            known += [reply["id"]] if "id" in reply else []
        except Refused:
            pass


def watched(room, count):
    """The folder of a run, and the calls that it made."""
    folder, trace = Path(room, "kept"), Path(room, "trace")
    words = ["strace", "-f", "-qq", "-y", "-xx", "-s", "400000", "-e", f"trace={CALLS}", "-o", str(trace), *kept_words(folder, "--limit", str(LIMIT))]
    known = []
    with Running(words) as server:
        assert server.port, server.errors()
        clients = [threading.Thread(target=client, args=(server.port, k, count, known)) for k in range(CLIENTS)]
        for it in clients:
            it.start()
        for it in clients:
            it.join()
        end(server)
    return folder, trace.read_text().splitlines()


def end(server):
    """Ends what strace runs, and with it strace."""
    for it in Path(f"/proc/{server.process.pid}/task/{server.process.pid}/children").read_text().split():
        os.kill(int(it), 15)
    server.end()


def test_nothing_leaves_before_it_is_kept(tmp_path, is_long):
    count = 600 if is_long else 150
    folder, trace = watched(os.path.realpath(tmp_path), count)
    watch = Watch(folder).follow(trace)
    print(f"{watch.replies} replies, {watch.syncs} syncs, {len(watch.journals)} generations")
    assert not watch.faults
    assert watch.replies > CLIENTS * count // 2
    assert len(watch.journals) > 1, "generations"
    without = [it for it in trace if "fdatasync" not in it and "fsync" not in it]
    assert Watch(folder).follow(without).faults, "the same calls without their syncs pass"
