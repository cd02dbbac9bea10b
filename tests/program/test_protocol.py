"""The examples of docs/PROTOCOL.md.

A block marked `session` is a session of its own, written as harness/stored_sessions.py says. In a block marked `feed`, which takes canvasd, a line `>> ..`
is sent over a new connection to a feed door, and the lines `<< ..` behind it are what comes.
"""

import pytest

from canvas.client import connected
from harness.running import FEED, SECONDS, read_line, talk
from harness.stored_sessions import session_of
from repository import TOP

pytestmark = pytest.mark.quick


def blocks(kind):
    """The lines of each block of a kind, with the number of the first one."""
    lines = (TOP / "docs" / "PROTOCOL.md").read_text().splitlines()
    begin = None
    for number, line in enumerate(lines, start=1):
        if line == f"```{kind}":
            begin = number
        elif line == "```" and begin is not None:
            yield pytest.param(lines[begin : number - 1], begin + 1, id=f"line {begin + 1}")
            begin = None


@pytest.mark.parametrize("block, begin", blocks("session"))
def test_a_session_of_the_page(any_program, block, begin):
    case = session_of(block, begin)
    out, status = any_program.answers_to(case.data)
    assert case.difference(out) is None
    assert status == 0


@pytest.mark.parametrize("block, begin", blocks("feed"))
def test_a_feed_of_the_page(canvasd, block, begin):
    """First its session is held, and then one connection after another to the feed door."""
    with canvasd.start(more=FEED) as server:
        with server.socket() as sock:
            replies = talk(sock, "".join(line[2:] + "\n" for line in block if line.startswith("> ")).encode()).decode().splitlines()
        assert replies == [line[2:] for line in block if line.startswith("< ")]
        sock = None
        for number, line in enumerate(block, start=begin):
            if line.startswith(">> "):
                sock = connected(server.feeds[0], SECONDS)
                sock.sendall(line[3:].encode() + b"\n")
            elif line.startswith("<< "):
                assert read_line(sock).decode() == line[3:] + "\n", f"docs/PROTOCOL.md:{number}"
