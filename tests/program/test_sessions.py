"""The stored sessions of tests/sessions (harness/stored_sessions.py says how they are written), beside the plain models.

Each case is held as it stands, and with a CR before each LF. It is a run of `canvas script`, which is then held twice more with one byte a read, and
each time with other workers; or one connection to a server of the document that it begins with. To try one: `pytest tests -k 'WORDS OF ITS NAME'`.
"""

import socket
import subprocess
import threading
from contextlib import suppress

import pytest

from harness.running import SECONDS, talk
from harness.stored_sessions import BadLine, cases_of
from plain_model import Model, Refused
from plain_session import NAMES, Session, open_document
from repository import BUILT, TOP

pytestmark = pytest.mark.quick


def ended(out, said, status):
    """What `canvas script` wrote, and the fault that it ended with, or None."""
    if (status, said) == (0, b""):
        return out, None
    fault = said.decode().removeprefix("canvas: ").removesuffix("\n")
    return out, fault if status == 4 else f"{fault} with status {status}"


def script(data, workers):
    """What `canvas script` writes for these bytes, and its fault."""
    done = subprocess.run([str(BUILT), "script", workers], input=data, capture_output=True, timeout=SECONDS)
    return ended(done.stdout, done.stderr, done.returncode)


def dripped(data, workers):
    """The same where each read gives one byte: each byte is a packet of a socket."""
    given, taken = socket.socketpair(socket.AF_UNIX, socket.SOCK_SEQPACKET)
    with given:
        with taken:
            run = subprocess.Popen([str(BUILT), "script", workers], stdin=taken, stdout=subprocess.PIPE, stderr=subprocess.PIPE)
        sender = threading.Thread(target=drip, args=(given, data))
        sender.start()
        out, said = run.communicate(timeout=SECONDS)
        sender.join()
    return ended(out, said, run.returncode)


def drip(given, data):
    with suppress(BrokenPipeError):  # (a session may end before it has read all)
        for byte in data:
            given.send(bytes([byte]))
        given.shutdown(socket.SHUT_WR)


def served(program, document, data, wanted):
    """What a server of a saved document writes for these bytes, and the fault that keeps it from opening, or None. (A connection's end tells none.)"""
    file = program.room / "document.json"
    file.write_bytes(document)
    with program.serve(file) as run:
        if run.port is None:
            is_so = wanted is not None and program.is_refusal(run, wanted.encode())
            return b"", wanted if is_so else run.errors().decode().strip()
        with run.socket() as sock:
            return talk(sock, data), wanted if data else None


def connected(program, case, data):
    """The same in the session of a case."""
    if case.document is not None:
        return served(program, case.document, data, case.fault)
    return program.answers_to(data)[0], case.fault


def models(case, data):
    """The same of the plain models."""
    try:
        session = Session(Model() if case.document is None else open_document(case.document))
    except Refused as refused:
        return b"", named(refused.code)
    session.feed(data)
    out, code, _ = session.end()
    return out, None if code is None else named(code)


def named(code):
    return f"{code} {NAMES[code]}"


def runs_of(program, case):
    """Who is asked, and the function that tells what it writes and its fault."""
    lines, with_crs = case.data, case.data.replace(b"\n", b"\r\n")
    found = {"the plain model": lambda: models(case, lines)}
    if case.document is not None or program.is_kept:
        return found | {"the server": lambda: connected(program, case, lines), "the server, with CRs": lambda: connected(program, case, with_crs)}
    return found | {
        "the program": lambda: script(lines, "2"),
        "the program, with CRs": lambda: script(with_crs, "1"),
        "the program, byte by byte": lambda: dripped(lines, "16"),
        "the program, byte by byte and with CRs": lambda: dripped(with_crs, "3"),
    }


def all_cases():
    """The cases of all files; one that can't be read is told as a case."""
    for path in sorted((TOP / "tests" / "sessions").glob("*.session")):
        try:
            yield from (pytest.param(case, id=case.name) for case in cases_of(path))
        except BadLine as fault:
            yield pytest.param(f"{path.name}:{fault.number}: {fault}", id=path.name)


CASES = [*all_cases()]


@pytest.mark.parametrize("case", CASES)
def test_a_stored_session(program, case):
    assert not isinstance(case, str), case
    for who, run in runs_of(program, case).items():
        out, fault = run()
        number, words = case.difference(out) or (case.number, None)
        assert words is None, f"{case.file}:{number}: {who}: {words}"
        assert fault == case.fault, f"{case.file}:{number}: {who}"


@pytest.mark.no_program
def test_names_of_cases_differ():
    names = [case.id for case in CASES]
    assert sorted(set(names)) == sorted(names)
