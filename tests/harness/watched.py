"""Servers with a door for those who ask how they do."""

import os
import re
import signal
import socket
from pathlib import Path

from harness.running import Running, SECONDS, kept_words, read_all


class Watched(Running):
    """A run of canvasd with a door for those who ask how it does."""

    def __init__(self, folder, *more, under=()):
        super().__init__([*under, *kept_words(folder, "--status", "127.0.0.1:0", *more)])
        feeds, line = self.feeds, self.process.stdout.readline()
        found = re.fullmatch(rb"status on 127\.0\.0\.1:(\d+)\n", line)
        if not found:
            raise RuntimeError(f"the line behind {feeds} is {line!r}: {self.errors()!r}")
        self.status_port = int(found[1])

    def kill(self):
        """Kills it. Where it runs under strace, that would let it run on."""
        if self.process.poll() is None:
            for child in Path(f"/proc/{self.process.pid}/task/{self.process.pid}/children").read_text().split():
                os.kill(int(child), signal.SIGKILL)
        return super().kill()

    def ask(self, data):
        """What it answers to the bytes of a connection."""
        with socket.create_connection(("127.0.0.1", self.status_port), timeout=SECONDS) as sock:
            sock.sendall(data)
            return read_all(sock)

    def get(self, path, method="GET"):
        return self.ask(f"{method} {path} HTTP/1.1\r\nHost: here\r\n\r\n".encode())

    def samples(self):
        """The samples of /metrics, by name and labels."""
        return samples_of(body_of(self.get("/metrics")))


def body_of(answer):
    return answer.partition(b"\r\n\r\n")[2]


def samples_of(page):
    lines = [line for line in page.decode().splitlines() if not line.startswith("#")]
    return {name: float(value) for name, value in (line.rsplit(" ", 1) for line in lines)}


def status_of(answer):
    return answer.partition(b"\r\n")[0].decode()
