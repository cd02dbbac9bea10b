"""Random sessions and random saved documents, by grammar, against the plain model of plain_session.py, byte by byte.

What a program writes, and its status, must be exactly what the model says. Each case has a seed of its own, made of `--seed` and its number. What differs is
cut down to a short input and shown. `--times N` tries N times as many.
"""

import random
import subprocess

import pytest

from plain_model import Refused
from harness.grammar import large_text, pieces_of, saved_text
from harness.running import SECONDS, Program, first_difference, talk
from plain_session import NAMES, Session, open_document, run_script
from repository import BUILT

pytestmark = pytest.mark.quick
MOST_SHRINKING_RUNS = 600
SESSIONS = {"canvas": 300, "canvasd": 100}
DOCUMENT_FOR_EVERY = 5
LARGE_DOCUMENT_OF = 100


def written(program, data):
    """What the program writes for the bytes of a session, and its status; of canvasd the answers alone."""
    if program.is_kept:
        return program.answers_to(data)[:1]
    done = subprocess.run([str(BUILT), "script", "1"], input=data, capture_output=True, timeout=SECONDS)
    return done.stdout, done.stderr, done.returncode


def wanted_of(program, data):
    """What it is to write."""
    return run_script(data)[: 1 if program.is_kept else 3]


def shorter(parts, test, runs):
    """Leaves parts out of a list, many at first and then one by one, as long as the test holds of what is left."""
    size = max(1, len(parts) // 2)
    while size and runs[0] > 0:
        at = 0
        while at < len(parts) and runs[0] > 0:
            runs[0] -= 1
            if test(parts[:at] + parts[at + size :]):
                parts = parts[:at] + parts[at + size :]
            else:
                at += size
        size //= 2
    return parts


def shrunk(pieces, test):
    """A short input of which the test still holds: fewer lines, then fewer bytes."""
    runs = [MOST_SHRINKING_RUNS]
    lines = shorter([line for piece in pieces for line in piece.splitlines(True)], lambda parts: test(b"".join(parts)), runs)
    single = shorter([bytes([byte]) for byte in b"".join(lines)], lambda parts: test(b"".join(parts)), runs)
    return b"".join(single)


def told_session(program, pieces):
    """What differs for a session, and a short input that shows it."""
    def differs(data):
        return written(program, data) != wanted_of(program, data)

    if not differs(b"".join(pieces)):
        return f"the answers to {b''.join(pieces)!r} differed once, and not again"
    data = shrunk(pieces, differs)
    parts = zip(("standard output", "standard error", "status"), written(program, data), wanted_of(program, data))
    faults = [f"{name} {first_difference(got, wanted) if isinstance(got, bytes) else f'got {got}, wanted {wanted}'}"
              for name, got, wanted in parts if got != wanted]
    return f"the session {data!r}: {'; '.join(faults)}"


def opened_code(data):
    """The code that a saved text is refused with, or None."""
    try:
        open_document(data)
    except Refused as refused:
        return refused.code
    return None


def opening_fault(program, data, lines, wanted=None):
    """What is wrong with how the program opens a saved text and answers the lines then, or None; `wanted` are these answers, if known."""
    code = None if wanted else opened_code(data)
    file = program.room / "document.json"
    file.write_bytes(data)
    with program.serve(file) as server:
        if server.port is None:
            is_right = code and program.is_refusal(server, b"%d %s" % (code, NAMES[code].encode()))
            return None if is_right else f"it ends with {server.end()} and {server.errors()!r}, wanted {code or 'that it serves'}"
        if code:
            return f"it serves, wanted {code} {NAMES[code]}"
        with server.socket() as sock:
            got = talk(sock, lines)
    if wanted is None:
        session = Session(open_document(data))
        session.feed(lines)
        wanted = session.out
    return None if got == wanted else f"its session {lines!r}: {first_difference(got, wanted)}"


CREATE, EXPORT = b'{"verb":"create","shape":{"kind":"group"}}\n', b'{"verb":"export"}\n'


def fuzz_document(program, chance, data, begin=b""):
    """A saved text, and the lines of its session, where the program does otherwise than the model; or None."""
    try:
        session = Session(open_document(data))
    except Refused:
        return (data, EXPORT) if opening_fault(program, data, EXPORT) else None
    session.feed(begin)
    pieces = [begin, *pieces_of(chance, session, 8), EXPORT]
    session.feed(EXPORT)
    lines = b"".join(pieces)
    return (data, lines) if opening_fault(program, data, lines, session.out) else None


def told_document(program, data, lines):
    if not opening_fault(program, data, lines):
        return f"the saved text {data!r} with the session {lines!r} differed once, and not again"
    runs = [MOST_SHRINKING_RUNS // 2]
    if len(data) < 5_000:
        lines = b"".join(shorter(lines.splitlines(True), lambda parts: opening_fault(program, data, b"".join(parts)), runs))
        data = b"".join(shorter([bytes([byte]) for byte in data], lambda parts: opening_fault(program, b"".join(parts), lines), runs))
    return f"the saved text {data[:5_000]!r}: {opening_fault(program, data, lines)}"


def pytest_generate_tests(metafunc):
    """Each number of a seed is a case of its own; canvasd has fewer."""
    cases = [(name, number) for name, count in SESSIONS.items() for number in range(count * metafunc.config.getoption("times"))]
    if metafunc.function is test_a_document:
        cases = [(name, number // DOCUMENT_FOR_EVERY) for name, number in cases if number % DOCUMENT_FOR_EVERY == 0]
    metafunc.parametrize("name, number", cases)


def test_a_session(name, number, tmp_path, seed):
    program = Program(name, tmp_path)
    chance, session = random.Random(f"session {seed} {number}"), Session()
    pieces = pieces_of(chance, session, chance.choice([6, 14, 14, 30, 70]))
    out, code, status = session.end()
    said = b"" if code is None else b"canvas: %d %s\n" % (code, NAMES[code].encode())
    if written(program, b"".join(pieces)) != ((out,) if program.is_kept else (out, said, status)):
        pytest.fail(told_session(program, pieces))


def test_a_document(name, number, tmp_path, seed):
    """It is refused with the model's code, or served: then a session of it is compared, which ends by an export."""
    program, is_large = Program(name, tmp_path), number % LARGE_DOCUMENT_OF == 9
    chance = random.Random(f"{'large document' if is_large else 'document'} {seed} {number}")
    data, begin = (large_text(chance), CREATE * 2) if is_large else (saved_text(chance), b"")
    if found := fuzz_document(program, chance, data, begin):
        pytest.fail(told_document(program, *found))
