"""A leader and followers of its document (`canvasd follow`)."""

import contextlib
import subprocess
from pathlib import Path

from canvas import Canvas
from harness.folders import JOURNAL, counted
from harness.running import SECONDS, default_signals, wait_for
from repository import BUILT_KEEPER

FOLLOWERS = 4
RECT = {"kind": "rect", "w": 30, "h": 20, "fill": "3366cc"}


class Server:
    """A run of canvasd at unix doors of its own, which can be ended and started again at the same place."""

    def __init__(self, room, name, *words, wait=True):
        self.folder = Path(room, name)
        self.door, self.feed = (f"unix:{room}/{name}.{kind}" for kind in ("door", "feed"))
        self.words = [*words, self.folder, "--listen", self.door, "--feed", self.feed]
        self.process, self.log = None, Path(room, f"{name}.log")
        self.start(wait)

    def start(self, wait=True):
        with open(self.log, "ab") as log:
            self.process = subprocess.Popen([str(BUILT_KEEPER), *map(str, self.words)], stdin=subprocess.DEVNULL, stdout=subprocess.PIPE, stderr=log,
                                            preexec_fn=default_signals)
        if wait:
            for _ in range(2):
                self.process.stdout.readline()
        return self

    def kill(self):
        self.process.kill()
        self.process.wait()
        self.process.stdout.close()

    def end(self, seconds=SECONDS):
        """The status with which it ends by itself, or None where it does not."""
        with contextlib.suppress(subprocess.TimeoutExpired):
            return self.process.wait(seconds)
        return None

    def said(self):
        return self.log.read_text()

    def connect(self):
        return Canvas.connect(self.door, SECONDS)

    def export(self):
        with self.connect() as canvas:
            return canvas.export()

    def version(self):
        with self.connect() as canvas:
            return canvas.point(0, 0)["version"]

    def reaches(self, version):
        """Whether it comes to a version in a while."""
        with self.connect() as canvas:
            return wait_for(lambda: canvas.point(0, 0)["version"] >= version)

    def journal(self, generation=1):
        return counted((self.folder / str(generation) / JOURNAL).read_bytes())

    def opening(self, generation=1):
        return (self.folder / str(generation) / "opening.json").read_bytes()

    def opening_is(self, other):
        """Whether it has the newest generation of another one."""
        number = max(int(it.name) for it in other.folder.iterdir() if it.name.isdigit())
        return (self.folder / str(number) / JOURNAL).is_file() and self.opening(number) == other.opening(number)


class Follower(Server):
    def __init__(self, room, name, leader, *more, edits=True, wait=True):
        super().__init__(room, name, "follow", leader.feed, *(("--leader", leader.door) if edits else ()), *more, wait=wait)


@contextlib.contextmanager
def servers(*begun):
    try:
        yield begun
    finally:
        for server in begun:
            if server.process.poll() is None:
                server.kill()


@contextlib.contextmanager
def family(room, followers=FOLLOWERS, *more):
    """A leader and so many followers."""
    leader = Server(room, "leader", *more)
    with servers(leader, *(Follower(room, f"follower{number}", leader) for number in range(followers))) as begun:
        yield leader, list(begun[1:])
