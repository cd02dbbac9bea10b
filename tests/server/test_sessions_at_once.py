"""Small sessions with a server, alone and beside each other."""

import socket
import threading

import pytest

from harness.running import POINT, WHITE_POINT, read_all, read_line, wait_for

pytestmark = pytest.mark.quick
LONG_LINE = b'{"body":0,"code":70,"name":"LineTooLong","ok":false}\n'


def rectangle(dx, fill):
    return {"verb": "create", "shape": {"kind": "rect", "w": 1, "h": 1, "fill": fill}, "pose": {"dx": dx}}


def test_two_editors_and_a_viewer(any_program):
    """Two editors at once, and a viewer that sees both of their shapes."""
    with any_program.start() as server:
        versions = []

        def edit(request):
            with server.connect() as canvas:
                versions.append(canvas.ask(**request)[0]["version"])

        editors = [threading.Thread(target=edit, args=(rectangle(*what),)) for what in [(0, "ff0000"), (1, "0000ff")]]
        with server.connect() as viewer:
            for editor in editors:
                editor.start()
            assert wait_for(lambda: viewer.point(0, 0)["version"] == 2), "their viewer"
            assert viewer.ask(verb="patch", x=0, y=0, w=2, h=1)[1] == b"P6\n2 1\n255\n\xff\0\0\0\0\xff", "what it sees"
        for editor in editors:
            editor.join()
        assert sorted(versions) == [1, 2], "two editors"


def test_small_sessions(any_program):
    with any_program.start(workers="2") as server:
        with server.socket() as sock:
            sock.sendall(POINT * 1000)
            sock.shutdown(socket.SHUT_WR)
            assert read_all(sock) == WHITE_POINT * 1000, "a thousand requests in one piece"
        with server.socket() as sock:
            for byte in POINT:
                sock.sendall(bytes([byte]))
            assert read_line(sock) == WHITE_POINT, "a request in single bytes"
        with server.socket() as sock:
            sock.sendall(POINT + b" " * 65537)
            sock.sendall(b" " * 200_000)
            assert read_all(sock) == WHITE_POINT + LONG_LINE, "a line that is too long, and more behind it"
        with server.socket() as sock:
            sock.sendall(POINT + POINT[:9])
            sock.shutdown(socket.SHUT_WR)
            assert read_all(sock) == WHITE_POINT, "a line that is cut"
        with server.connect() as canvas:
            _, tile = canvas.ask(verb="tile", col=0, row=0)
            assert tile == b"P6\n256 256\n255\n" + b"\xff" * (3 * 256 * 256), "a tile"


def test_kept_level(any_program):
    """A picture at a level, which the server keeps: shapes beside the pixels shown change no byte of it."""
    picture = {"verb": "patch", "x": 0, "y": 0, "w": 2, "h": 2, "level": 3}
    red = b"P6\n2 2\n255\n" + b"\xff\0\0" * 4
    with any_program.start() as server, server.connect() as canvas:
        canvas.ask(verb="create", shape={"kind": "rect", "w": 10, "h": 10, "fill": "ff0000"})
        looks = [canvas.ask(**picture)]
        for dx, dy in ((20, 0), (15, 15)):
            canvas.ask(verb="create", shape={"kind": "rect", "w": 1, "h": 1, "fill": "00ff00"}, pose={"dx": dx, "dy": dy})
            looks.append(canvas.ask(**picture))
        found = [(reply["version"], image) for reply, image in looks]
        assert found == [(version, red) for version in (1, 2, 3)], "a picture at a level, three times"
        canvas.ask(verb="pose", id=3, pose={"dx": 8, "dy": 8})
        assert canvas.ask(**picture)[1] == red[:-3] + b"\0\xff\0", "a shape that moves onto a pixel shown"
