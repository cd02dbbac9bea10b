"""Exit statuses, messages and the bytes that `canvas script` writes."""

import io
import os
import subprocess

import pytest

from canvas.client import replies
from harness.examples import EXAMPLE, readme_example
from repository import BUILT, TOP

pytestmark = pytest.mark.quick
SECONDS = 120

USAGE = b"usage: canvas script [workers] | canvas serve <address> <file> [workers]\n"
CREATE = b'{"verb":"create","shape":{"kind":"rect","w":2,"h":1,"fill":"ff0000"}}\n'
PATCH = b'{"verb":"patch","x":0,"y":0,"w":3,"h":1}\n'
CREATED = b'{"body":0,"id":1,"ok":true,"version":1}\n'
PAINTED = b'{"body":20,"ok":true,"version":1}\nP6\n3 1\n255\n' + bytes([255, 0, 0] * 2 + [255] * 3)


def refused(code, name):
    return b'{"body":0,"code":%d,"name":"%s","ok":false}\n' % (code, name)


def run(words, given=b"", sink=subprocess.PIPE):
    """What the program writes to standard output and standard error, and its status."""
    done = subprocess.run([str(BUILT), *words], input=given, stdout=sink, stderr=subprocess.PIPE, timeout=SECONDS)
    return done.stdout, done.stderr, done.returncode


NO_COMMANDS = [[], ["paint"], *(["script", it] for it in ("0", "17", "02", "+2", "-1", "", " 2", "2 ", "two", "100", "4294967298")), ["script", "2", "3"],
               ["Script"], ["Script", "", ""], ["serve"], ["serve", "a"], ["serve", "a", "b", "0"], ["serve", "a", "b", "3", "4"], ["Serve", "a", "b"],
               [b"script", b"\xff"]]


@pytest.mark.parametrize("words", NO_COMMANDS, ids=repr)
def test_words_that_are_no_command(words):
    assert run(words, CREATE) == (b"", USAGE, 2)


def test_sessions():
    assert run(["script"]) == (b"", b"", 0), "nothing read"
    assert run(["script", "1"], CREATE + PATCH) == (CREATED + PAINTED, b"", 0), "a red rectangle"
    assert run(["script", "16"], CREATE + PATCH) == (CREATED + PAINTED, b"", 0), "sixteen workers"
    assert run(["script"], b" " * 65536 + b"\n" + CREATE) == (refused(50, b"BadJson") + CREATED, b"", 0), "a line of 65,536 bytes"
    assert run(["script"], CREATE + b" " * 65537 + b"\n" + CREATE) == (
        CREATED + refused(70, b"LineTooLong"), b"canvas: 70 LineTooLong\n", 4), "a line of 65,537 bytes"
    assert run(["script"], b"\n" * 1_000_002) == (
        refused(50, b"BadJson") * 1_000_000 + refused(73, b"TooManyRequests"), b"canvas: 73 TooManyRequests\n", 4), "too many requests"
    with open("/dev/full", "wb") as full:
        out = run(["script"], CREATE + PATCH, full)
    assert out == (None, b"canvas: 72 WriteFault\n", 4), "a full device"


@pytest.mark.parametrize("end", range(len(CREATE + PATCH) + 1))
def test_an_input_that_ends_at_a_byte_of_two_lines(end):
    """The whole lines are answered."""
    given, answers = (CREATE + PATCH)[:end], {0: b"", 1: CREATED, 2: CREATED + PAINTED}
    is_whole = end == 0 or given.endswith(b"\n")
    assert run(["script"], given) == (answers[given.count(b"\n")], *((b"", 0) if is_whole else (b"canvas: 74 CutLine\n", 4)))


def requests(*lines):
    """The bytes of request lines."""
    return "".join(line + "\n" for line in lines).encode()


def image(version, w, h, colours):
    """The reply to a picture with these colours, as hex digits."""
    head = b"P6\n%d %d\n255\n" % (w, h)
    return b'{"body":%d,"ok":true,"version":%d}\n' % (len(head) + 3 * w * h, version) + head + bytes.fromhex(colours)


def create(number, version):
    return b'{"body":0,"id":%d,"ok":true,"version":%d}\n' % (number, version)


TEN = '{"verb":"create","shape":{"kind":"rect","w":10,"h":10,"fill":"ff0000"}}'
ONE = '{"verb":"create","shape":{"kind":"rect","w":1,"h":1,"fill":"ff0000"},"pose":{"dx":%d,"dy":%d}}'
LINE = '{"verb":"patch","x":%d,"y":0,"w":%d,"h":1,"level":%d}'


def test_levels():
    """Pixel (i, j) of a picture of a level k shows the page pixel (i 2^k, j 2^k), and no other of its block."""
    given = requests(TEN, LINE % (0, 3, 3), LINE % (-1, 2, 3), LINE % (0, 3, 0), LINE % (9, 2, 0), LINE % (0, 2, 6))
    wanted = (image(1, 3, 1, "ff0000 ff0000 ffffff"), image(1, 2, 1, "ffffff ff0000"), image(1, 3, 1, "ff0000 ff0000 ff0000"),
              image(1, 2, 1, "ff0000 ffffff"), image(1, 2, 1, "ff0000 ffffff"))
    assert run(["script"], given) == (create(1, 1) + b"".join(wanted), b"", 0), "a rectangle at levels"
    given = requests(ONE % (1, 0), LINE % (0, 2, 1), ONE % (2, 0), LINE % (0, 2, 1), LINE % (0, 3, 0))
    wanted = (image(1, 2, 1, "ffffff ffffff"), create(2, 2), image(2, 2, 1, "ffffff ff0000"), image(2, 3, 1, "ffffff ff0000 ff0000"))
    assert run(["script"], given) == (create(1, 1) + b"".join(wanted), b"", 0), "a pixel that a level does not show"


def test_a_tile_of_a_level():
    """A square of 64 by 64 that ends with the page's pixels: the last pixel of the last tile at level 6."""
    square = '{"verb":"create","shape":{"kind":"rect","w":64,"h":64,"fill":"0000ff"},"pose":{"dx":1048512,"dy":-64}}'
    given = requests(square, '{"verb":"tile","col":63,"row":-1,"level":6}')
    colours = bytearray(b"\xff" * (3 * 256 * 256))
    colours[-3:] = b"\0\0\xff"
    assert run(["script"], given) == (create(1, 1) + image(1, 256, 256, colours.hex()), b"", 0)


WINDOWS = [
    ('{"verb":"tile","col":127,"row":0,"level":6}', None),
    ('{"verb":"tile","col":-128,"row":0,"level":6}', None),
    ('{"verb":"tile","col":128,"row":0,"level":6}', (30, b"BadWindow")),
    ('{"verb":"tile","col":0,"row":-129,"level":6}', (30, b"BadWindow")),
    ('{"verb":"tile","col":8191,"row":-8192,"level":0}', None),
    ('{"verb":"tile","col":8192,"row":0,"level":0}', (30, b"BadWindow")),
    ('{"verb":"tile","col":128,"row":0,"level":7}', (34, b"BadLevel")),
    ('{"verb":"tile","col":0,"row":0,"level":7}', (34, b"BadLevel")),
    ('{"verb":"tile","col":0,"row":0,"level":255}', (34, b"BadLevel")),
    ('{"verb":"tile","col":0,"row":0,"level":256}', (53, b"BadField")),
    ('{"verb":"tile","col":0,"row":0,"level":-1}', (53, b"BadField")),
    ('{"verb":"tile","col":0,"row":0,"level":1.0}', (53, b"BadField")),
    ('{"verb":"tile","col":0,"row":0,"level":null}', (53, b"BadField")),
    ('{"verb":"tile","col":0,"row":0,"level":"1"}', (53, b"BadField")),
    ('{"verb":"tile","col":0,"row":0,"level":7,"x":0}', (54, b"ExtraField")),
    ('{"verb":"patch","x":32767,"y":-32768,"w":1,"h":1,"level":6}', None),
    ('{"verb":"patch","x":32767,"y":0,"w":2,"h":1,"level":6}', (30, b"BadWindow")),
    ('{"verb":"patch","x":0,"y":-32769,"w":1,"h":1,"level":6}', (30, b"BadWindow")),
    ('{"verb":"patch","x":0,"y":0,"w":257,"h":1,"level":1}', (30, b"BadWindow")),
    ('{"verb":"patch","x":0,"y":0,"w":0,"h":257,"level":7}', (34, b"BadLevel")),
    ('{"verb":"patch","x":2147483647,"y":-2147483648,"w":4294967295,"h":1,"level":6}', (30, b"BadWindow")),
    ('{"verb":"patch","x":0,"y":0,"w":1,"h":1,"level":256}', (53, b"BadField")),
    ('{"verb":"point","x":0,"y":0,"level":0}', (54, b"ExtraField")),
]
"""Windows, with the refusal of those that are refused."""


@pytest.mark.parametrize("line, refusal", WINDOWS)
def test_windows(line, refusal):
    out, said, status = run(["script"], requests(line))
    first = out.partition(b"\n")[0] + b"\n"
    is_white = b'"ok":true' in first and set(out.partition(b"255\n")[2]) == {255}
    assert (is_white or first, said, status) == (refusal is None or refused(*refusal), b"", 0)


EXPORT = '{"verb":"export"}'
STILL = '"pose":{"dx":0,"dy":0,"flip":false,"quarter":0}'
RED = ('{"format":2,"next":2,"shapes":[{"hidden":false,"id":1,"place":{"index":"a0","parent":null},' + STILL
       + ',"shape":{"fill":"ff0000","h":1,"kind":"rect","w":2}}]}').encode()


def exported(version, text):
    return b'{"body":%d,"ok":true,"version":%d}\n' % (len(text), version) + text


def test_exports():
    empty = b'{"format":2,"next":1,"shapes":[]}'
    assert run(["script"], requests(EXPORT)) == (exported(0, empty), b"", 0), "the empty document, saved"
    assert run(["script"], CREATE + requests(EXPORT)) == (CREATED + exported(1, RED), b"", 0), "a red rectangle, saved"


def test_most_records():
    """16,384 groups: one more is refused, and changes nothing, until one is deleted; new indexes go up to the key of rank 16,383."""
    group = '{"verb":"create","shape":{"kind":"group"}}'
    given = [group] * 16_384 + [EXPORT, group, EXPORT, '{"verb":"respace","parent":null}', EXPORT, '{"verb":"delete","id":1}', group]
    out, said, status = run(["script"], requests(*given))
    groups = b"".join(create(number, number) for number in range(1, 16_385))
    made, before, rest = out[: len(groups)], *out[len(groups) :].split(refused(7, b"TooMany"), 1)
    assert made == groups, "16,384 records"
    assert (before.startswith(b'{"body":'), rest.startswith(before)) == (True, True), "16,384 records, exported"
    rest = rest.removeprefix(before)
    foremost = ('{"hidden":false,"id":16384,"place":{"index":"c3FF","parent":null},' + STILL + ',"shape":{"kind":"group"}}]}').encode()
    changed = b'{"body":0,"ok":true,"version":%d}\n'
    assert rest.splitlines(True)[0] == changed % 16_385, "new indexes"
    end = foremost + changed % 16_386 + create(16_385, 16_387)
    assert (rest[-len(end):], said, status) == (end, b"", 0), "the foremost, and a new one for one"


AT, OVER = '{"verb":"create","shape":{"kind":"group"},"spot":{"at":"%s"}}', '{"verb":"create","shape":{"kind":"group"},"spot":{"over":%d}}'


@pytest.mark.parametrize("side, count", {"below": 756, "above": 630, "in turn": 756}.items())
def test_keys_until_there_is_no_room(side, count):
    """Groups between a0 and a1, each at a key below that of the last one, above it, or in turn (key_rows.py)."""
    low, given = 1, [AT % "a0", AT % "a1"]
    for number in range(count + 1):
        given.append(OVER % low)
        if side == "above" or (side == "in turn" and number % 2 == 1):
            low = number + 3
    wanted = b"".join(create(number, number) for number in range(1, count + 3)) + refused(13, b"NoRoom")
    assert run(["script"], requests(*given)) == (wanted, b"", 0)


def test_read_fault():
    """A folder as standard input: each read of it fails."""
    folder = os.open("/", os.O_RDONLY)
    try:
        done = subprocess.run([str(BUILT), "script"], stdin=folder, capture_output=True, timeout=SECONDS)
    finally:
        os.close(folder)
    assert (done.stdout, done.stderr, done.returncode) == (b"", b"canvas: 71 ReadFault\n", 4), "a read that fails"


def test_readme_command():
    done = subprocess.run(["bash", "-c", EXAMPLE.replace("bin/canvas", str(BUILT))], cwd=TOP, capture_output=True, timeout=SECONDS)
    assert (done.stdout, done.returncode) == (readme_example(), 0), "the example of README.md"


@pytest.mark.parametrize("path", sorted((TOP / "examples").glob("*.jsonl")), ids=lambda path: path.stem)
def test_each_request_of_the_examples_is_answered(path):
    given = path.read_bytes()
    out, said, status = run(["script"], given)
    assert ([reply["ok"] for reply, _ in replies(io.BytesIO(out))], said, status) == ([True] * given.count(b"\n"), b"", 0)


def test_waiting_client():
    """A client that sends its next bytes only when it has the reply to the last."""
    child = subprocess.Popen([str(BUILT), "script"], stdin=subprocess.PIPE, stdout=subprocess.PIPE, bufsize=0)
    got = []
    for given, wanted in [(CREATE, CREATED), (PATCH[:9], b""), (PATCH[9:], PAINTED)]:
        child.stdin.write(given)
        read = b""
        while len(read) < len(wanted):
            piece = child.stdout.read(len(wanted) - len(read))
            if not piece:
                break
            read += piece
        got.append(read == wanted)
    child.stdin.close()
    rest = child.stdout.read()
    assert (got, rest, child.wait(timeout=SECONDS)) == ([True, True, True], b"", 0), "a client that waits for each reply"
