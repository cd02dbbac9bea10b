"""Saved documents that a server opens, and those that it refuses."""

import socket
import subprocess
from pathlib import Path

import pytest

from canvas import Refused
from harness.documents import BAD_FORMAT, PLACES, bad_documents, groups
from harness.running import EMPTY, SECONDS, free_port
from repository import BUILT, TOP

pytestmark = pytest.mark.quick
MOST_BYTES = 134_217_728
RED = (b'{"format":%d,"next":2,"shapes":[{"hidden":false,"id":1,%s,"pose":{"dx":0,"dy":0,"flip":false,"quarter":0},'
       b'"shape":{"fill":"ff0000","h":1,"kind":"rect","w":2}}]}')
REDS = [RED % (form, PLACES[form] % (b"a0", b"null")) for form in (1, 2)]
POSTERS = [(TOP / "examples" / name).read_bytes() for name in ("poster-format-1.json", "poster.json")]
OPENED = {
    "the empty document of format 1": lambda: (EMPTY.replace(b"2", b"1", 1), EMPTY),
    "a red rectangle of format 1": lambda: REDS,
    "a red rectangle": lambda: (REDS[1], REDS[1]),
    "a poster of format 1": lambda: POSTERS,
    "a poster": lambda: (POSTERS[1], POSTERS[1]),
    "4,096 records of format 1": lambda: (groups(1, 4096), groups(2, 4096)),
    "4,097 records": lambda: (groups(2, 4097), groups(2, 4097)),
    "16,384 records": lambda: (groups(2, 16_384), groups(2, 16_384)),
    "a document as long as one may be": lambda: (EMPTY[:-1] + b" " * (MOST_BYTES - len(EMPTY)) + EMPTY[-1:], EMPTY),
}
"""Texts that open, and what is saved of them: always format 2."""


@pytest.mark.parametrize("name", OPENED)
def test_a_document_is_saved_again(program, name):
    text, wanted = OPENED[name]()
    with program.start(text) as server, server.connect() as canvas:
        assert canvas.ask(verb="export")[1] == wanted


def test_full_document(program):
    """Of a document of format 1 with its most records there may be more: as many as there may be at all."""
    with program.start(groups(1, 4096)) as server, server.connect() as canvas:
        shape = {"kind": "group"}
        for _ in range(12):
            for _ in range(1024):
                canvas.send(verb="create", shape=shape)
            ids = [canvas.read()[0]["id"] for _ in range(1024)]
        assert ids[-1] == 16_384, "the last of 16,384 records"
        with pytest.raises(Refused, match="7 TooMany"):
            canvas.ask(verb="create", shape=shape)
        canvas.ask(verb="respace", parent=None)
        assert canvas.ask(verb="export")[1] == groups(2, 16_384), "16,384 records that were made"


# -- how the program starts --------------------------------------------------------------------------------------------

def run(words):
    done = subprocess.run([str(BUILT), *words], stdin=subprocess.DEVNULL, capture_output=True, timeout=SECONDS)
    return done.stdout, done.stderr, done.returncode


@pytest.mark.parametrize("name, code, text", bad_documents(), ids=lambda it: it if isinstance(it, str) else "")
def test_a_document_that_is_refused(program, name, code, text):
    assert refuses(program, text, code)


def test_a_document_that_is_too_large(program):
    with (program.room / "large.json").open("wb") as hole:
        hole.truncate(MOST_BYTES + 1)
    with program.serve(program.room / "large.json") as server:
        assert program.is_refusal(server, BAD_FORMAT), (server.first_line, server.errors())


def refuses(program, text, code):
    file = program.room / "bad.json"
    file.write_bytes(text)
    with program.serve(file) as server:
        return program.is_refusal(server, code)


def test_starts_that_fail(tmp_path):
    """What `canvas serve` says where it can't serve."""
    usage = b"usage: canvas script [workers] | canvas serve <address> <file> [workers]\n"
    io = b"canvas: input or output fault\n"
    address, good = f"127.0.0.1:{free_port()}", str(tmp_path / "empty.json")
    Path(good).write_bytes(EMPTY)
    for words in [["serve"], ["serve", "a"], ["serve", address, good, "0"], ["serve", address, good, "2", "3"]]:
        assert run(words) == (b"", usage, 2), words
    assert run(["serve", address, str(tmp_path / "none")]) == (b"", io, 4), "no file"
    assert run(["serve", address, str(tmp_path)]) == (b"", io, 4), "a folder for a file"
    assert run(["serve", "127.0.0.1", good]) == (b"", io, 4), "no address"
    with socket.create_server(("127.0.0.1", 0)) as taken:
        words = ["serve", f"127.0.0.1:{taken.getsockname()[1]}", good]
        assert run(words) == (b"", io, 4), "an address in use"
