"""The clients in Python and in JavaScript, beside the programs: each call and each feed gives the same in both, and the blocks of docs/CLIENT.md run.

test_fake.py and fake.test.mjs try them beside servers that are made up.
"""

import json
import os
import re
import shutil
import signal
import subprocess
import sys
from pathlib import Path

import pytest

from canvas import Canvas, Feed, FeedRefused
from harness.clients import answer_of, told
from harness.node import faults_of
from harness.running import FEED
from repository import BUILT, TOP

pytestmark = [pytest.mark.quick, pytest.mark.needs("node")]
HERE = Path(__file__).parent
PAGE = (TOP / "docs" / "CLIENT.md").read_text()
PYTHON = {"PYTHONPATH": str(TOP / "python"), "PYTHONDONTWRITEBYTECODE": "1"}
"""Where the client in Python is found."""
CLIENT = TOP / "web" / "client.mjs"
PLACES = ("127.0.0.1:7878", "127.0.0.1:7879")
"""Where the page has a server listen, and where it has its feed door."""
SECONDS = 300


def run(words, folder=TOP, environment=None):
    """What a program writes, and its status. One that takes too long is ended, with all that it started."""
    environment = {**os.environ, "CANVAS": str(BUILT), **(environment or {})}
    process = subprocess.Popen(words, cwd=folder, stdin=subprocess.DEVNULL, stdout=subprocess.PIPE, stderr=subprocess.PIPE, text=True,
                               env=environment, start_new_session=True)
    try:
        out, said = process.communicate(timeout=SECONDS)
    except subprocess.TimeoutExpired:
        os.killpg(process.pid, signal.SIGKILL)
        out, said = process.communicate()
        said += f"it took longer than {SECONDS} seconds"
    return subprocess.CompletedProcess(words, process.returncode, out, said)


@pytest.mark.parametrize("file", sorted(HERE.glob("*.test.mjs")), ids=lambda it: it.name)
def test_the_client_in_javascript(file):
    assert faults_of(file) == []


CALLS = json.loads((HERE / "calls.json").read_text())


# -- each call in both ---------------------------------------------------------------------------------------------------

def answers_in_javascript(words):
    done = run(["node", str(HERE / "calls.mjs"), *words])
    return [json.loads(line) for line in done.stdout.splitlines()], done.stderr


def compared(canvas, words):
    """The answers of a session in Python, beside those of one in JavaScript."""
    given = [answer_of(canvas, *call) for call in CALLS]
    others, said = answers_in_javascript(words)
    assert (len(others), said) == (len(CALLS), "")
    for call, got, wanted in zip(CALLS, others, given):
        assert without_words(got) == without_words(wanted), call


def without_words(told):
    """What is told of a call, without the words of a fault, which are each language's own."""
    return {"fault": told["fault"]} if isinstance(told, dict) and "fault" in told else told


def test_each_call_to_a_server(any_program):
    with any_program.start() as one, any_program.start() as other:
        compared(Canvas.connect(one.address, SECONDS), [other.address])


def test_each_call_to_a_program_of_its_own():
    compared(Canvas(), [])


def feed_answer(address, wanted, count):
    """What a feed gives first, and so many edits of it, as calls.mjs tells it."""
    try:
        with Feed.connect(address, seconds=SECONDS, **wanted) as feed:
            edits = [told(next(feed)) for _ in range(count)]
            return {"generation": feed.generation, "opening": feed.opening, "edits": edits, "version": feed.version}
    except FeedRefused as refused:
        return {"refused": str(refused)}


def test_each_feed(canvasd):
    """Feeds of one server, whose edits are those of calls.json that it takes."""
    feeds = json.loads((HERE / "feeds.json").read_text())
    with canvasd.start(more=FEED) as server:
        door = server.feeds[0]
        with server.connect(SECONDS) as canvas:
            made = [answer_of(canvas, *call).get("version") for call in CALLS[:26]]
        given = [feed_answer(door, *feed) for feed in feeds]
        others, said = answers_in_javascript(["feeds", door])
    assert (len(others), said) == (len(feeds), "")
    for feed, got, wanted in zip(feeds, others, given):
        assert got == wanted, feed
    assert [it["version"] for it in given[0]["edits"]] == sorted(set(filter(None, made)))
    assert sum("refused" in it for it in given) == 6, "feeds that are refused"


def test_names_of_calls():
    """Each call of the one client is one of the other, and among those that are compared. (Loops over a feed have names of their own.)"""
    names, of_feeds = (sorted(name for name in vars(kind) if not name.startswith("_")) for kind in (Canvas, Feed))
    in_javascript = sorted(re.sub(r"_(.)", lambda it: it[1].upper(), name) for name in names)
    found, _ = answers_in_javascript(["names"])
    assert found == [in_javascript, sorted([*of_feeds, "next", "return"])], "the names of the calls"
    tried = {call[0] for call in CALLS} | {"connect"}
    assert sorted(tried) == names, "calls that are tried"
    table = set(re.findall(r"`(?:await )?(?:new )?[Cc]anvas\.(\w+)\(", PAGE))
    assert sorted(table | {"ask"}) == sorted({*names, *in_javascript}), "calls that docs/CLIENT.md names"
    of_page = set(re.findall(r"`(?:await )?[Ff]eed\.(\w+)\(", PAGE))
    assert sorted(of_page) == of_feeds, "calls of feeds that docs/CLIENT.md names"


# -- the page ------------------------------------------------------------------------------------------------------------

def words_of(language, script, folder, python=sys.executable):
    """How a block of the page is run."""
    if language == "bash":
        return ["bash", "-ec", script]
    ending, command = ("py", python) if language == "python" else ("mjs", "node")
    file = Path(folder) / f"example.{ending}"
    file.write_text(script)
    return [command, str(file)]


BLOCKS = re.findall(r"```(python|js|bash)\n(.*?)```\n(?:\n```text\n(.*?)```)?", PAGE, re.DOTALL)


def example(program, number, python=sys.executable, environment=PYTHON):
    """Runs a block in a folder with nothing but a copy of the client in JavaScript, beside a server: its status, and what it writes and is to write. A
    block of plain text that follows one directly is what it prints."""
    language, script, prints = BLOCKS[number]
    shutil.copy(CLIENT, program.room)
    with program.start((TOP / "examples" / "poster.json").read_bytes(), more=FEED if program.is_kept else ()) as server:
        for place, address in zip(PLACES, [server.address, *server.feeds]):
            script = script.replace(place, address).replace(place.replace(":", "/"), address.replace(":", "/"))
        done = run(words_of(language, script, program.room, python), program.room, environment)
    return (done.returncode, done.stderr, done.stdout if prints else ""), (0, "", prints)


@pytest.mark.parametrize("number", range(len(BLOCKS)))
def test_a_block_of_the_page(program, number):
    if PLACES[1] not in BLOCKS[number][1] or program.is_kept:  # (`canvas serve` has no feed)
        got, wanted = example(program, number)
        assert got == wanted


# -- the command ---------------------------------------------------------------------------------------------------------

COMMAND = str(TOP / "bin" / "canvas-client")
REPLIES = """{"body":0,"id":1,"ok":true,"version":1}
{"body":20,"ok":true,"version":1}
{"body":0,"code":50,"name":"BadJson","ok":false}
"""


@pytest.mark.parametrize("is_served", [False, True], ids=["script", "server"])
def test_the_command_sends_requests_and_saves_bodies(program, tmp_path, is_served):
    requests = f"(cat {TOP}/examples/red-rectangle.jsonl && echo nothing)"
    with program.start() as server:
        where = server.address if is_served else ""
        done = run(["bash", "-c", f"{requests} | {COMMAND} {where} --bodies {tmp_path}/saved"], tmp_path)
    assert (done.returncode, done.stderr, done.stdout) == (0, "", REPLIES)
    assert (tmp_path / "saved" / "2.ppm").read_bytes() == b"P6\n3 1\n255\n" + bytes.fromhex("ff0000 ff0000 ffffff")


@pytest.mark.parametrize("where, why", [("no-address", "'no-address' is neither HOST:PORT nor unix:PATH"),
                                        ("unix:none", "No such file or directory; `canvasd FOLDER` starts a server, and says where it listens")])
def test_the_command_says_what_is_wrong(tmp_path, where, why):
    done = run([COMMAND, where], tmp_path)
    assert (done.returncode, done.stderr) == (1, f"canvas-client: {why}\n")


def test_the_command_without_its_program(tmp_path):
    done = run([COMMAND], tmp_path, {"CANVAS": f"{tmp_path}/none"})
    why = f"canvas-client: there is no program {tmp_path}/none; docs/INSTALL.md says how to install it\n"
    assert (done.returncode, done.stderr) == (1, why)


def test_the_package_is_installed(program, tmp_path):
    """As Debian's pip builds it, in a new environment that has nothing else, with no network: its first example runs, and its commands are there."""
    source, place = tmp_path / "python", tmp_path / "place"
    shutil.copytree(TOP / "python", source, ignore=shutil.ignore_patterns("build", "*.egg-info", "__pycache__"))
    pip = ["-m", "pip", "--disable-pip-version-check", "--no-input"]
    for words in (["/usr/bin/python3", *pip, "wheel", "--quiet", "--no-index", "--no-build-isolation", "--wheel-dir", tmp_path, str(source)],
                  ["/usr/bin/python3", "-m", "venv", str(place)],
                  [f"{place}/bin/python", *pip, "install", "--quiet", "--no-index", "--find-links", tmp_path, "canvas"]):
        done = run(words, tmp_path)
        assert done.returncode == 0, done.stderr[-2000:]
    first = next(number for number, block in enumerate(BLOCKS) if block[0] == "python")
    got, wanted = example(program, first, f"{place}/bin/python", {"PYTHONPATH": ""})
    assert got == wanted
    for name in ("canvas-client", "canvas-backup"):
        said = run([str(place / "bin" / name), "--help"], tmp_path)
        assert (said.returncode, said.stdout.startswith(f"usage: {name} ")) == (0, True)


@pytest.mark.parametrize("language", ["python", "js"])
def test_the_page_has_blocks(language):
    assert sum(it[0] == language for it in BLOCKS) >= 5
