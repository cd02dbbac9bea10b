"""The last version of a script, and of a server."""

import socket
import subprocess
import threading

import pytest

from canvas.client import line_of
from harness.running import POINT, read_all
from repository import BUILT

pytestmark = pytest.mark.slow
MOST = 900
"""So many seconds may a million requests take: many more than they do."""
SHOW = b'{"verb":"show","id":1,"hidden":false}\n'
CREATE = b'{"verb":"create","shape":{"kind":"rect","w":2,"h":1,"fill":"ff0000"}}\n'
PATCH = b'{"verb":"patch","x":0,"y":0,"w":3,"h":1}\n'


def test_a_script_makes_a_million_versions():
    """It may make as many versions as it may have requests, so it never runs out of versions."""
    done = subprocess.run([BUILT, "script"], input=CREATE + SHOW * 999_999 + PATCH, capture_output=True, timeout=MOST)
    last = b'{"body":0,"ok":true,"version":1000000}\n{"body":0,"code":73,"name":"TooManyRequests","ok":false}\n'
    assert (done.stdout[-len(last) :], done.stderr, done.returncode) == (last, b"canvas: 73 TooManyRequests\n", 4)


def last_replies(server, lines, count):
    """The last lines that a session is answered."""
    with server.socket() as sock:
        sock.settimeout(MOST)
        sender = threading.Thread(target=lambda: (sock.sendall(lines), sock.shutdown(socket.SHUT_WR)))
        sender.start()
        replies = read_all(sock)
        sender.join()
    return replies.splitlines(True)[-count:]


def test_most_versions(canvas):
    """Two sessions spend all versions: edits are refused then, before anything else about them is, and looks go on."""
    with canvas.start() as server:
        create = line_of({"verb": "create", "shape": {"kind": "rect", "w": 1, "h": 1, "fill": "ff0000"}})
        show = line_of({"verb": "show", "id": 1, "hidden": False})
        accepted = b'{"body":0,"ok":true,"version":%d}\n'
        assert last_replies(server, create + show * 499_999, 1) == [accepted % 500_000], "half of all versions"
        spent = b'{"body":0,"code":16,"name":"VersionsSpent","ok":false}\n'
        red = b'{"body":0,"colour":"ff0000","ok":true,"version":1000000}\n'
        unknown = line_of({"verb": "delete", "id": 9})
        got = last_replies(server, show * 500_000 + show + unknown + POINT, 4)
        assert got == [accepted % 1_000_000, spent, spent, red], "the last version, and edits behind it"
