"""bin/canvas, bin/canvasd and bin/canvas-demo in small trees (harness/trees.py), with a stub in the place of `rt`: what they say and do.

- bin/canvas and bin/canvasd answer --help and --version with nothing built;
- they build where the program is missing or was made from other sources, whatever the times of the files are, and else need no `rt`;
- a signal during a build ends all that it started, and leaves no temporary folder;
- before a build they say how long it takes, by the table of tools/build_times.py, which has each crate; the longest chain has what stands idle;
- a release's libraries are taken where they are of this toolchain and of these sources; of others a line says why not, of a torn file nothing is taken;
- with --unproved they run a program that was built with no proof, or say why there is none;
- before it serves bin/canvas says what is wrong with the address or the file;
- bin/canvas-demo, over the program that CANVASD names or that bin/canvasd builds, keeps its drawing, and ends with status 1 when one of its programs ends.
"""

import os
import re
import shutil
import signal
import socket
import subprocess
import tarfile
from contextlib import contextmanager, suppress
from pathlib import Path

import pytest

import build_times
from canvas import Canvas
from harness.trees import BUILT, FIRST, KIT, LIBRARIES, MAIN, SECONDS, TAKEN, VERSION, packed, take, tree, unbuilt
from harness.running import wait_for
from repository import BUILT_KEEPER, TOP

pytestmark = pytest.mark.quick


# -- words that the scripts answer themselves --------------------------------------------------------------------------

TOLD = ("canvas script [WORKERS]", "canvas serve ADDRESS FILE [WORKERS]", "HOST:PORT", "1 to 16", "63 connections", "16,384",
        "$ canvas serve 127.0.0.1:7878 examples/poster.json", "1,000,000 accepted edits", "65,536", "134,217,728", "docs/PROTOCOL.md",
        "128 and a signal's number")
"""What the help says, among other things."""


def test_words():
    with tree() as made:
        for word in ("--help", "-h", "help"):
            out, said, status = made.run(word, has_rt=False)
            missing = [it for it in TOLD if it not in out]
            assert (out.partition(" - ")[0], missing, said, status) == (f"canvas {VERSION}", [], "", 0), f"bin/canvas {word}"
        for word in ("--version", "version"):
            assert made.run(word, has_rt=False) == (f"canvas {VERSION}\n", "", 0), f"bin/canvas {word}"
        assert (made.calls(), (made.top / "crates" / "canvas" / "out").exists()) == ([], False), "nothing is built for a word of help"
        named = re.findall(r"[\w./-]+\.(?:md|jsonl|json)\b", made.run("help")[0])
        assert (len(named) > 5, [it for it in named if not (TOP / it).exists()]) == (True, []), "the files that the help names"


TOLD_BY_CANVASD = ("canvasd FOLDER [OPTIONS]", "canvasd check FOLDER", "canvasd history FOLDER [VERSION]", "--listen ADDRESS", "--open FILE", "--seats N",
                   "--workers N", "--keep N", "--idle SECONDS", "--limit N", "--log LEVEL", "docs/KEEPING.md", "128 and a signal's number")


def test_words_of_canvasd():
    with tree(name="canvasd") as made:
        for word in ("--help", "-h"):
            out, said, status = made.run(word, has_rt=False)
            missing = [it for it in TOLD_BY_CANVASD if it not in out]
            assert (out.partition(" - ")[0], missing, said, status) == (f"canvasd {VERSION}", [], "", 0), f"bin/canvasd {word}"
        assert made.run("--version", has_rt=False) == (f"canvasd {VERSION}\n", "", 0), "bin/canvasd --version"
        assert (made.calls(), (made.top / "crates" / "canvasd" / "out").exists()) == ([], False), "nothing is built for a word of help"
        for given in (("help",), ("version",), ("folder", "--help"), ()):
            out, said, status = made.run(*given)
            assert (out, status) == (f"first program: {' '.join(given)}\n", 7), f"words that are left to canvasd: {given}"


# -- when it builds ----------------------------------------------------------------------------------------------------


def ran(made, **how):
    """What the program wrote, its status, and the calls of `rt` before."""
    out, said, status = made.run("script", "2", **how)
    return (out, status), made.calls()


@pytest.mark.parametrize("name", ["canvas", "canvasd"])
def test_builds(name):
    with tree(name=name) as made:
        assert made.run("script", has_rt=False)[::2] == ("", 4), "no program and no rt"
        assert ran(made) == (FIRST, ["lib in low", f"run in {name}"]), "a first run"
        assert ran(made) == (FIRST, []), "a second run"
        assert ran(made, has_rt=False) == (FIRST, []), "a second run without rt"
        os.utime(made.top / "crates" / "low" / "src" / "lib.rt")
        assert ran(made, has_rt=False) == (FIRST, []), "a source that was touched"
        shutil.copytree(made.top, made.top.parent / "copy", copy_function=shutil.copyfile)
        for file in (f"bin/{name}", "tools/made_from.sh", f"crates/{name}/out/{name}"):
            (made.top.parent / "copy" / file).chmod(0o755)
        assert ran(made, has_rt=False, top=made.top.parent / "copy") == (FIRST, []), "a copy with new times, without rt"
        assert os.listdir(made.temporary) == [], "no temporary folder is left"


def test_changes():
    with tree(is_built=True) as made:
        os.utime(made.write("crates/canvas/src/main.rt", MAIN.replace("first", "second")), (0, 0))
        out, said, status = made.run("script", has_rt=False)
        assert (out, "rt of the Rattle toolchain" in said, status) == ("", True, 4), "a changed source with an old time, without rt"
        (out, status), calls = ran(made)
        assert (out, status, calls[-1:]) == ("second program: script 2\n", 7, ["run in canvas"]), "a changed source with an old time"
        os.utime(made.write("crates/low/specs/New.antt", "new\n"), (0, 0))
        assert ran(made)[1][-1:] == ["run in canvas"], "a new source"
        (made.top / "crates" / "low" / "specs" / "New.antt").unlink()
        assert ran(made)[1][-1:] == ["run in canvas"], "a source that is gone"
        os.utime(made.write("crates.txt", "low:\ncanvas: low\n"), (0, 0))
        assert ran(made)[1][-1:] == ["run in canvas"], "other crates"
        assert ran(made)[1] == [], "the same again"


def test_built_by_rt_alone():
    with tree(is_built=True) as made:
        out = made.top / "crates" / "canvas" / "out"
        (out / "canvas.made-from").unlink()
        assert ran(made, has_rt=False) == (FIRST, []), "a program without checksums that is newer than the sources"
        assert (out / "canvas.made-from").exists() == True, "it has its checksums then"
        (out / "canvas").write_text(MAIN.replace("first", "third"))
        assert ran(made, has_rt=False) == (("third program: script 2\n", 7), []), "a newer program than the checksums say"
        os.utime(out / "canvas", (0, 0))
        (out / "canvas.made-from").unlink()
        assert ran(made)[1][-1:] == ["run in canvas"], "an old program without checksums"


def test_failing_builds():
    with tree() as made:
        out, said, status = made.run("script", does="fail")
        assert (out, "no proof\n" in said, "low was not built" in said, status) == ("", True, True, 4), "a build that fails"
        assert os.listdir(made.temporary) == [], "its temporary folders"


# -- how long it takes -------------------------------------------------------------------------------------------------

CHAIN = {"long": 9, "middle": 5, "short": 2, "other": 1}
"""The lengths of four chains."""


def test_times():
    with tree() as made:
        said = made.run("script")[1]
        found = re.search(r"about (\d+) minutes on (\d+) processors", said)
        assert (bool(found), "release" in said, "docs/INSTALL.md" in said) == (True, True, True), "what is said before a first build"
        assert (found and int(found[2])) == len(os.sched_getaffinity(0)), "how many processors"
        assert re.search("built, in 0 min .*", said)[0][-2:] == " s", "what is said behind it"
        made.write("crates/canvas/src/main.rt", MAIN.replace("first", "second"))
        assert ("release" in made.run("script")[1]) == False, "over built libraries no release is offered"
    assert [it for it in build_times.crates() if it not in build_times.read_table()] == [], "each crate of the programs has a line in the table"
    assert [it for it in build_times.read_table() if it not in build_times.crates()] == [], "each line of the table is of such a crate"
    for ready, running, idle, wanted in (
        ([], [], 4, {}), (["long"], [], 4, {"long": 4}), (["long", "middle"], [], 2, {"long": 1, "middle": 1}), (["long", "middle"], [], 4, {"long": 3, "middle": 1}),
        (["long", "middle", "short", "other"], [], 4, {"long": 2, "middle": 1, "short": 1}), (["short", "other"], ["long"], 2, {"short": 1, "other": 1}),
        (["short"], ["long"], 3, {"short": 3}), (["short"], ["long"], 0, {}), (["short"], ["long"], -1, {}), (["long"], ["short"], 1, {"long": 1})):
        assert build_times.to_begin(ready, running, CHAIN, idle) == wanted, f"begun of {ready} beside {running} on {idle}"


RECORD = 'x[{"aux": [], "name": "a", "steps": [3000000, 2000000, 9]}, {"aux": [], "name": "b", "steps": [1, 1600000, 0]}]y'
"""What a kept module has between other bytes: the steps of its declarations."""


def test_tables():
    """What tools/build_times.py writes of what checks kept."""
    with packed() as made:
        table = made.write("tools/build_times.txt", "canvas 7\ngone 8\n")
        made.write("crates/low/out/incremental/build/records/Rattle-low-proofs.f.Proof.decls.oantt", RECORD)
        made.write("crates/middle/out/incremental/build/records/Rattle-middle-proofs.f.Tie.decls.oantt", RECORD.replace("3000000", "1"))
        out, said, status = made.run("--write", command="tools/build_times.py")
        told = ["canvas: no check kept anything of it; its line is as it was", "canvasd: no check kept anything of it; it has no line"]
        assert (out.splitlines()[:2], said, status) == (told, "", 0), "a table is written"
        assert [it for it in table.read_text().splitlines() if it[0] != "#"] == ["low 7", "middle 4", "canvas 7"], "the table"
        assert re.findall(r"^(\w+): \d+ minutes on \d+ processors, \d+ over built libraries$", out, re.M) == ["canvas", "canvasd"], "the minutes"


# -- a release's libraries ---------------------------------------------------------------------------------------------

COPIES = """
import sys, tempfile
from pathlib import Path
sys.path.insert(0, sys.argv[1] + "/tools")
from repository import copy_for
with tempfile.TemporaryDirectory() as room:
    copy_for("canvas", Path(room, "plain"))
    copy_for("canvas", Path(room, "taken"), with_taken=True)
    print(*(sum(1 for _ in Path(room, it).glob("crates/*/out/rlib/stamp")) for it in ("plain", "taken")))
"""
"""Prints how many libraries stand in a copy for wrong bodies, and in one for a build."""


def test_libraries():
    with packed() as made:
        top = unbuilt(made, "taking")
        assert take(made, top) == ([TAKEN], 0, ["run in canvas"], ["low", "middle"]), "libraries that are taken"
        assert [(top / f"crates/{it}/out/rlib/{it}.rlib/format").read_text() for it in ("low", "middle")] == ["low\n", "middle\n"], "what is in them"
        assert take(made, top) == ([TAKEN], 0, [], ["low", "middle"]), "the same again"
        assert made.run("script", "2", top=top, has_rt=False)[::2] == FIRST, "the program over them"
        made.write(top / "crates/canvas/src/main.rt", MAIN.replace("first", "second"))
        said = made.run("script", top=top)[1]
        assert ("2 of its libraries were taken from a release, and nothing here proved them" in said) == True, "a build over them says so"
        assert made.run("-c", COPIES, str(top), command="/usr/bin/python3", top=top)[::2] == ("0 2\n", 0), "they are left out where wrong bodies are tried"
        made.calls()
        again = made.run("pack", "/nowhere/at.tar", command="tools/libraries.py", top=top)
        assert again == ("", "libraries: the library low rests on low, which was taken from a release; bin/canvasd builds it\n", 4), "they are not packed again"
        assert [it for it in top.glob("crates/*/out/taking-*")] == [], "what is left in out/"
        libraries_of_others(made)
        bad_libraries(made)
        packing(made)


def libraries_of_others(made):
    other = {"STUB_KIT": "stub-kit logic 34cd"}
    why = f"none is taken, since they were made by {KIT}, and here is stub-kit logic 34cd"
    assert take(made, unbuilt(made, "toolchain"), stub=other) == ([why], 0, BUILT, ["low", "middle"]), "libraries of another toolchain"
    top = unbuilt(made, "changed")
    made.write(top / "crates/middle/proofs/new.antt", "new\n")
    why = ["middle is not taken: it was made of other sources", TAKEN.replace("2 of", "1 of", 1)]
    assert take(made, top) == (why, 0, BUILT[1:], ["low", "middle"]), "a library of other sources"
    top = unbuilt(made, "below")
    made.write(top / "crates/low/src/lib.rt", "lower\n")
    why = ["low is not taken: it was made of other sources", "middle is not taken: it was made over other sources of low", TAKEN.replace("2 of", "0 of", 1)]
    assert take(made, top) == (why, 0, BUILT, ["low", "middle"]), "a library over one of other sources"
    top = unbuilt(made, "line")
    made.write(top / "crates.txt", "low may_wait=1:\ncanvas: low\ncanvasd: low\n")
    why = ["low is not taken: it was made of other sources", "middle is not taken: there is no such crate here", TAKEN.replace("2 of", "0 of", 1)]
    assert take(made, top) == (why, 0, [BUILT[0], BUILT[2]], ["low"]), "other lines of crates.txt"
    top = unbuilt(made, "stamps")
    why = ["low is not taken: rt takes it for another", "middle is not taken: rt takes it for another", TAKEN.replace("2 of", "0 of", 1)]
    assert take(made, top, stub={"STUB_STAMP": "another"}) == (why, 0, BUILT, ["low", "middle"]), "a library with another stamp"


def bad_libraries(made):
    whole, torn = (made.top.parent / LIBRARIES).read_bytes(), made.top.parent / "torn.tar"
    with tarfile.open(made.top.parent / LIBRARIES) as archive:
        entries = archive.getmembers()
    top = unbuilt(made, "torn")
    for length in (0, 100, 700, *(it.offset_data + part for it in entries for part in (0, it.size // 2, it.size - 1))):
        torn.write_bytes(whole[:length])
        told, *rest = take(made, top, torn)
        assert (len(told), told[0].startswith(f"{torn} is torn, or no file of libraries: "), *rest) == (1, True, 4, [], []), f"a file that is torn after {length} bytes"
    for entry in entries:
        at = entry.offset_data + entry.size // 2
        torn.write_bytes(whole[:at] + bytes([whole[at] ^ 1]) + whole[at + 1 :])
        assert take(made, top, torn)[1:] == (4, [], []), f"{entry.name} with another byte"
    assert [*top.glob("crates/*/out/*")] == [], "what is left of them"
    assert take(made, top, "/nowhere/at.tar") == (["/nowhere/at.tar can't be used: No such file or directory"], 4, [], []), "no file"
    assert made.run("--libraries", top=top) == ("", "canvas: --libraries takes the file of a release's libraries (docs/INSTALL.md)\n", 2), "no word"
    assert made.run("--libraries", "x", top=top, has_rt=False)[::2] == ("", 4), "no rt"


def packing(made):
    stamp, target = made.top / "crates/low/out/rlib/stamp", made.top.parent / "again.tar"

    def pack(*words):
        return made.run("pack", str(target), *words, command="tools/libraries.py")[1:]

    assert (pack(), target.read_bytes() == (made.top.parent / LIBRARIES).read_bytes()) == (("", 0), True), "libraries, packed again"
    stamp.write_text("another")
    refused = "libraries: the library low is not built of these sources, by its stamp; bin/canvasd builds it\n", 4
    assert pack() == refused, "a library with another stamp"
    stamp.unlink()
    assert pack() == refused, "a library without a stamp"
    assert pack("--built") == refused, "one without a stamp beside one with it"
    (made.top / "crates/middle/out/rlib/stamp").unlink()
    assert (pack("--built"), target.read_bytes() == (made.top.parent / LIBRARIES).read_bytes()) == (("", 0), True), "libraries of rt ci"
    shutil.rmtree(stamp.parent)
    assert pack("--built") == ("libraries: the library low is not built; bin/canvasd builds it\n", 4), "a library that is not built"


# -- with nothing proved -----------------------------------------------------------------------------------------------

UNPROVED = MAIN.replace("echo", "case $* in 'script 1' | --version) exit ;; esac\necho", 1)
"""A program whose first words end well."""


@pytest.mark.parametrize("name", ["canvas", "canvasd"])
def test_unproved(name):
    with tree(name=name) as made:
        made.write(f"crates/{name}/src/main.rt", UNPROVED)
        assert made.run("--unproved", "script", has_rt=False)[::2] == ("", 4), f"{name} --unproved without rt"
        out, said, status = made.run("--unproved", "script", "2")
        assert (out, said.splitlines()[-1], status) == (FIRST[0], f"{name}: nothing is proved in this run; the program was compiled with checks of its memory", 7), f"{name} --unproved"
        assert (made.calls(), (made.top / f"crates/{name}/out/{name}").exists()) == ([f"try in {name}"], False), "how it was built"
        assert (made.run("--unproved", "script", "2", has_rt=False)[::2], made.calls()) == (FIRST, []), "again, without rt"
        made.write("crates/low/src/lib.rt", "changed\n")
        assert (made.run("--unproved", "script", "2")[::2], made.calls()) == (FIRST, [f"try in {name}"]), "with other sources"
        for does, why in (("fail", "rt try failed"), ("elsewhere", "rt try of this toolchain compiles in another way"), ("unlinked", "what rt try compiled can't be linked")):
            made.write("crates/low/src/lib.rt", does)
            out, said, status = made.run("--unproved", "script", does=does)
            wanted = f"{why}, so nothing can be run unproved; bin/{name} without --unproved builds the proved program"
            assert (out, said.splitlines()[-1].removeprefix(f"{name}: "), status) == ("", wanted, 4), f"a build without proof: {why}"
        made.write(f"crates/{name}/src/main.rt", MAIN)
        assert ("what was built ends with status 7" in made.run("--unproved", "script")[1]) == True, "a program that fails at its first words"
        assert os.listdir(made.temporary) == [], "what is left"


def test_an_unproved_program_looks_before_it_serves():
    with tree() as made:
        out, said, status = made.run("--unproved", "serve", "127.0.0.1:0", "/nowhere/at.json")
        why = "canvas: there is no file /nowhere/at.json; serve a saved document, as examples/poster.json\n"
        assert (said, status, made.calls()) == (why, 4, []), "canvas --unproved looks before it serves"


# -- signals -----------------------------------------------------------------------------------------------------------

@pytest.mark.parametrize("is_below", [True, False], ids=["a library is built", "the program is built"])
@pytest.mark.parametrize("number", [signal.SIGTERM, signal.SIGINT, signal.SIGHUP])
def test_a_signal_while_something_is_built(number, is_below):
    got, wanted = stopped(number, is_below)
    assert got == wanted


def stopped(number, is_below):
    """A build that a signal ends: its status, the processes and the folders that are left, and what is wanted of them."""
    with tree(is_built=not is_below) as made:
        made.write("crates/canvas/src/main.rt", MAIN.replace("first", "second"))
        process = subprocess.Popen([str(made.top / "bin" / "canvas"), "script"], env=made.environment(does="hang"), start_new_session=True,
                                   stdin=subprocess.DEVNULL, stdout=subprocess.PIPE, stderr=subprocess.STDOUT,
                                   preexec_fn=lambda: signal.signal(signal.SIGINT, signal.SIG_DFL))
        try:
            started = started_by(made)
            process.send_signal(number)
            process.communicate(timeout=SECONDS)
            status = process.returncode
        finally:
            process.kill()
            process.communicate()

        def left():
            return [*os.listdir(made.temporary), *(made.top / "crates" / "canvas" / "out").glob("rt-work-*")]

        wait_for(lambda: not (any(map(is_alive, started)) or left()), 10)
        alive = [pid for pid in started if is_alive(pid)]
        for pid in alive:
            os.kill(int(pid), signal.SIGKILL)
        return (status, len(started), alive, left()), (-number, 2, [], [])


def is_alive(pid):
    with suppress(OSError):
        return " Z " not in Path(f"/proc/{pid}/stat").read_text()
    return False


def started_by(made):
    """The processes of a stub that hangs, once they run."""
    def found():
        lines = made.log.read_text().splitlines() if made.log.exists() else []
        return next((it.split()[1:] for it in lines if it.startswith("started ")), [])

    wait_for(found)
    return found()


# -- before it serves --------------------------------------------------------------------------------------------------

def test_servings():
    with tree(is_built=True) as made, socket.create_server(("127.0.0.1", 0)) as taken:
        port = taken.getsockname()[1]
        good = str(made.top / "VERSION")

        def served(address, file=good, *more, **how):
            return made.run("serve", address, file, *more, has_rt=False, **how)

        def refused(text):
            return "", f"canvas: {text}\n", 4

        def started(*words):
            return f"first program: {' '.join(words)}\n", "", 7

        no_file = refused("there is no file /nowhere/at.json; serve a saved document, as examples/poster.json")
        assert served("127.0.0.1:0", "/nowhere/at.json") == no_file, "no file"
        assert served("127.0.0.1:0", "/") == refused("/ is a folder, and no saved document; canvasd serves a folder"), "a folder"
        secret = made.write("secret", "")
        secret.chmod(0)
        other = {"user": 65534, "group": 65534, "extra_groups": []} if os.geteuid() == 0 else {}
        no_right = refused(f"the file {secret} can't be read: permission denied; ls -l tells whom it belongs to")
        assert served("127.0.0.1:0", str(secret), **other) == no_right, "a file of others"
        assert served("7878") == refused("the address 7878 has no port: it is HOST:PORT, as 127.0.0.1:7878"), "no port"
        assert served(":7878") == refused("the address :7878 has no host: it is HOST:PORT, as 127.0.0.1:7878"), "no host"
        for address in ("127.0.0.1:", "127.0.0.1:65536", "127.0.0.1:http", "127.0.0.1:-1", "127.0.0.1:1 "):
            assert served(address) == refused(f"the address {address} has no port from 0 to 65535 behind its colon"), f"the address {address}"
        for address in ("*:7878", "no host:7878"):
            assert served(address) == refused(f"the host of the address {address} is not known; 127.0.0.1 is this machine"), f"the address {address}"
        for address in (f"127.0.0.1:{port}", f"0.0.0.0:{port}", f"localhost:{port}"):
            is_there = served(address)
            wanted = refused(f"the address {address} can't be used: address already in use; ss -ltnp tells which program listens there")
            assert is_there == (started("serve", address, good) if has_other_place(address) else wanted), f"a port that is taken, as {address[:9]}"
        other = refused("the address 192.0.2.1:7878 can't be used: cannot assign requested address; ip addr tells the addresses of this machine")
        assert served("192.0.2.1:7878") == other, "an address of another machine"
        for address in ("127.0.0.1:0", "localhost:0", "127.0.0.1:+0", "127.0.0.1:00000"):
            assert served(address) == started("serve", address, good), f"the address {address}"
        assert served("127.0.0.1:0", good, "16") == started("serve", "127.0.0.1:0", good, "16"), "sixteen workers"
        for given in (["serve"], ["serve", "7878"], ["serve", "7878", "none", "17"], ["serve", "7878", "none", "2", "3"], ["script", "7878", "none"]):
            assert made.run(*given, has_rt=False) == started(*given), f"words that are left to the program: {given}"


def has_other_place(address):
    """Whether a name stands for more than one address, as localhost may; the port of one being taken does not keep a server from the other."""
    host, _, port = address.rpartition(":")
    return len({it[0] for it in socket.getaddrinfo(host, int(port), type=socket.SOCK_STREAM)}) > 1


# -- the demo ----------------------------------------------------------------------------------------------------------

@contextmanager
def demo(made, *words):
    """A running demo over the real program, a stub for the gateway, and no bots."""
    environment = {**made.environment(has_rt=False), "CANVASD": str(BUILT_KEEPER)}
    words = ["--no-bots", "--folder", str(made.top / "drawing"), *words]
    process = subprocess.Popen([str(made.top / "bin" / "canvas-demo"), *words], env=environment, text=True, start_new_session=True,
                               stdin=subprocess.DEVNULL, stdout=subprocess.PIPE, stderr=subprocess.PIPE,
                               preexec_fn=lambda: signal.signal(signal.SIGINT, signal.SIG_DFL))
    try:
        yield process
    finally:
        process.terminate()
        process.communicate(timeout=SECONDS)


def below(process):
    """The processes that a process started, by their names."""
    found = {}
    for entry in Path("/proc").iterdir():
        with suppress(OSError):
            if entry.name.isdigit():
                name, _, rest = (entry / "stat").read_text().partition("(")[2].rpartition(")")
                if int(rest.split()[1]) == process.pid:
                    found[name] = int(entry.name)
    return found


def below_with(process, name):
    """The same, once one of that name runs: the gateway's stub has another name before it sleeps."""
    wait_for(lambda: name in below(process))
    return below(process)


def test_demos():
    with tree() as made:
        for name, killed in (("server", "canvasd"), ("gateway", "sleep")):
            with demo(made) as process:
                line = process.stdout.readline()
                assert line, f"the demo ends before its line, and says {process.stderr.read()!r}"
                started = below_with(process, killed)
                with Canvas.connect(line.partition("server is at ")[2].partition(";")[0]) as canvas:
                    assert canvas.ask(verb="point", x=0, y=0)[0] == {"body": 0, "colour": "f4ead5", "ok": True, "version": 1069}, "the demo's drawing, made once"
                os.kill(started[killed], signal.SIGKILL)
                _, said = process.communicate(timeout=SECONDS)
                alive = [it for it in started.values() if Path(f"/proc/{it}").exists()]
                why = f"canvas-demo: the {name} ended by signal 9; docs/STATUS.md says why; canvas-demo goes on from it\n"
                assert (said, process.returncode, alive) == (why, 1, []), f"a demo whose {name} dies"
        for name, number, send in (("Ctrl-C", signal.SIGINT, os.killpg), ("SIGTERM", signal.SIGTERM, os.kill)):
            with demo(made) as process:
                process.stdout.readline()
                started = below(process)
                send(process.pid, number)
                _, said = process.communicate(timeout=SECONDS)
                alive = [it for it in started.values() if Path(f"/proc/{it}").exists()]
                assert (len(started), said, process.returncode, alive) == (2, "", 0, []), f"a demo at {name}"
        with demo(made, "--folder", str(made.top / "other"), "--document", "/nowhere/at.json") as process:
            _, said = process.communicate(timeout=SECONDS)
            why = "canvas-demo: the server did not start; the line above says why, and docs/STATUS.md what to do"
            assert (said.splitlines()[-1], process.returncode) == (why, 1), "a demo without its document"
