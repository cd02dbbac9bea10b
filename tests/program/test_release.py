"""A release, made twice and compared, and what is in it.

The libraries are those of a small tree, with a stub in the place of `rt`. The tarball is
unpacked into an empty folder, the Debian package into a root folder that has the C library and nothing else; both run the example of README.md and
servers, and canvasd again on the folder that it made.
The second takes the right to change the root, so it runs as root or in a user namespace.
"""

import gzip
import os
import re
import shutil
import signal
import subprocess
import tempfile
import time
import urllib.request
from contextlib import contextmanager

import pytest

from canvas import Canvas
from harness.examples import EXAMPLE, readme_example
from harness.running import free_port, port_of
from harness.trees import TAKEN, packed, take, unbuilt
from release import COMMANDS, COMPLETED, COMPLETION, INSTALLED, OF_CANVAS, OF_SCRIPTS, PYTHON, SHARED, UNDER_DEBIAN, files_of, put_python
from repository import BUILT, BUILT_KEEPER, PROGRAMS, TOP

pytestmark = pytest.mark.slow
SECONDS = 300
VERSION = (TOP / "VERSION").read_text().strip()
TARBALL = f"canvas-{VERSION}-x86_64-linux"
PACKAGE = f"canvas_{VERSION}_amd64.deb"
C_LIBRARY = ("/lib/x86_64-linux-gnu/libc.so.6", "/lib64/ld-linux-x86-64.so.2")
NEWEST_GLIBC = (2, 34)
FILES = {"canvas": BUILT, "canvasd": BUILT_KEEPER}
PLAIN = {"PATH": "/usr/sbin:/usr/bin:/sbin:/bin", "LANG": "C.UTF-8"}


def call(words, folder=None, **how):
    """What a command writes to standard output and standard error, and its status."""
    done = subprocess.run(words, cwd=folder, capture_output=True, timeout=SECONDS, **{"env": PLAIN, "stdin": subprocess.DEVNULL, **how})
    return done.stdout, done.stderr, done.returncode


@pytest.fixture(scope="module")
def made(tmp_path_factory):
    """The same release, made twice in other circumstances."""
    folder = tmp_path_factory.mktemp("releases")
    for number, mask in enumerate((0o022, 0o077)):
        words = [str(TOP / "tools" / "release.py"), "--canvas", str(BUILT), "--canvasd", str(BUILT_KEEPER), "--to", str(folder / str(number)), "--programs-alone"]
        done = subprocess.run(words, umask=mask, capture_output=True, text=True, timeout=SECONDS)
        assert (done.stderr, done.returncode) == ("", 0)
    yield folder
    shutil.rmtree(folder)


def test_a_release_is_the_same_again(made):
    one, other = ({it.name: it.read_bytes() for it in (made / number).iterdir()} for number in "01")
    assert sorted(one) == sorted([f"{TARBALL}.tar.gz", PACKAGE, "SHA256SUMS"])
    assert [name for name in one if other.get(name) != one[name]] == []
    assert call(["sha256sum", "--check", "--quiet", "SHA256SUMS"], made / "0") == (b"", b"", 0)


@pytest.mark.parametrize("name", PROGRAMS)
def test_no_program_to_release(name):
    assert call([str(TOP / "tools" / "release.py"), f"--{name}", "/nowhere"])[2] == 1


# -- its libraries -----------------------------------------------------------------------------------------------------

def test_libraries():
    """A release with libraries, of a small tree whose programs and libraries are stubs; another copy of its sources takes them."""
    with packed() as tree:
        for path in files_of((*SHARED, *OF_SCRIPTS, *PYTHON, *(f"bin/{it}" for it in COMMANDS), "tools/release.py")):
            target = tree.top / path.relative_to(TOP)
            target.parent.mkdir(parents=True, exist_ok=True)
            shutil.copy2(path, target)
        put_python(tree.top / "python" / "canvas")
        words = ("--canvasd", str(tree.top / "crates" / "canvas" / "out" / "canvas"), "--to")
        names = sorted([f"{TARBALL}.tar.gz", PACKAGE, f"canvas-{VERSION}-libraries.tar", "SHA256SUMS"])
        twice = [tree.top.parent / name for name in ("dist", "again")]
        for dist in twice:
            assert tree.run(*words, str(dist), command="tools/release.py")[1:] == ("", 0), "a release with libraries"
            assert sorted(os.listdir(dist)) == names, "the names of its files"
            assert call(["sha256sum", "--check", "--quiet", "SHA256SUMS"], dist) == (b"", b"", 0), "their checksums"
        assert [(it / names[1]).read_bytes() == (twice[0] / names[1]).read_bytes() for it in twice] == [True, True], "made twice"
        top = unbuilt(tree, "taking")
        found = take(tree, top, twice[0] / f"canvas-{VERSION}-libraries.tar")
        assert found == ([TAKEN], 0, ["run in canvas"], ["low", "middle"]), "its libraries are taken"
        shutil.rmtree(tree.top / "crates" / "low" / "out")
        said = "release.py: the library low is not built; bin/canvasd builds it; --programs-alone makes a release without\n"
        assert tree.run(*words, str(tree.top.parent / "none"), command="tools/release.py") == ("", said, 1), "a release of a library that is not built"
        assert os.listdir(tree.top.parent / "none") == [], "nothing is made then"


# -- what runs in both -------------------------------------------------------------------------------------------------

@contextmanager
def serving(words, folder=None):
    """A server, and the address at which it listens."""
    address = f"127.0.0.1:{free_port()}"
    process = subprocess.Popen([address if it == "ADDRESS" else it for it in words], cwd=folder, env=PLAIN, stdin=subprocess.DEVNULL,
                               stdout=subprocess.PIPE, stderr=subprocess.DEVNULL)
    try:
        port = port_of(process.stdout.readline())
        yield f"127.0.0.1:{port}" if port else address
    finally:
        process.kill()
        process.communicate()


def served(address):
    """Whether a server serves the poster, takes an edit, and paints a tile."""
    with Canvas.connect(address) as canvas:
        _, text = canvas.ask(verb="export")
        made, _ = canvas.ask(verb="create", shape={"kind": "rect", "w": 2, "h": 1, "fill": "ff0000"})
        reply, image = canvas.ask(verb="tile", col=0, row=0)
    return text == (TOP / "examples" / "poster.json").read_bytes().strip(), made["version"], reply["version"], image[:15]


SERVED = (True, 1, 1, b"P6\n256 256\n255\n")


def kept(name, keeper, folder, poster, where=None):
    """What canvasd does on a new folder, and again when it was killed; `keeper` are the words that start it."""
    with serving([*keeper, folder, "--open", poster, "--listen", "127.0.0.1:0"], where) as address:
        assert served(address) == SERVED, f"canvasd of {name}"
    with serving([*keeper, folder, "--listen", "127.0.0.1:0"], where) as address, Canvas.connect(address) as canvas:
        assert canvas.ask(verb="point", x=0, y=0)[0]["version"] == 1, f"canvasd of {name} again"


def commands(folder, environment):
    """What each command of the package in Python says of itself."""
    for name in COMMANDS:
        out, said, status = call([str(next(it for it in (folder / "bin" / name, folder / "sbin" / name) if it.exists())), "--help"], env=environment)
        yield f"{name} --help", (out.decode().startswith(f"usage: {name} "), said, status), (True, b"", 0)


def shown(demo, environment):
    """What a demo says, and the page that it shows."""
    address = f"127.0.0.1:{free_port()}"
    folder = tempfile.TemporaryDirectory()
    words = [str(demo), "--folder", f"{folder.name}/drawing", "--listen", address]
    process = subprocess.Popen(words, env=environment, stdin=subprocess.DEVNULL, stdout=subprocess.PIPE)
    try:
        line = process.stdout.readline().decode()
        assert line.partition(" (")[0] == f"look at http://{address}/", f"what {demo} says"
        if line:
            with urllib.request.urlopen(f"http://{address}/", timeout=SECONDS) as page:
                wanted = (TOP / "web" / "page" / "index.html").read_text().replace("<title>", "<title>drawing – ")
                assert page.read().decode() == wanted, "its page"
    finally:
        process.terminate()
        process.communicate(timeout=SECONDS)


# -- the tarball -------------------------------------------------------------------------------------------------------


def passed(begin=(0, 0)):
    """The seconds since another time by the clock, and those of a processor in what was started and has ended."""
    used = os.times()
    now = time.monotonic(), used.children_user + used.children_system
    return now[0] - begin[0], now[1] - begin[1]


@pytest.mark.alone
def test_first_commands(made):
    """The first commands of README.md, on a release that was just downloaded, take less than ten seconds until the page is there; on a machine that
    has more to do than it has processors, ten of a processor."""
    first = re.search(r"^```\n(.*?)^```", (TOP / "README.md").read_text(), re.M | re.S)[1]
    room = made / "first"
    room.mkdir()
    shutil.copy(made / "0" / f"{TARBALL}.tar.gz", room)
    words = f"--folder {room}/drawing --listen 127.0.0.1:{free_port()}"
    begin = passed()
    process = subprocess.Popen(["bash", "-ec", f"{first.rstrip()} {words}"], cwd=room, env=PLAIN, start_new_session=True,
                               stdin=subprocess.DEVNULL, stdout=subprocess.PIPE)
    try:
        line = process.stdout.readline().decode()
        by_clock, _ = passed(begin)
    finally:
        os.killpg(process.pid, signal.SIGTERM)
        process.communicate(timeout=SECONDS)
    _, of_processor = passed(begin)
    is_busy = os.getloadavg()[0] > len(os.sched_getaffinity(0))
    assert (line.startswith("look at http://"), (of_processor if is_busy else by_clock) < 10) == (True, True), "the first commands of README.md"


def test_tarball(made):
    room = made / "unpacked"
    room.mkdir()
    assert call(["tar", "xf", str(made / "0" / f"{TARBALL}.tar.gz")], room) == (b"", b"", 0), "the tarball is unpacked"
    top = room / TARBALL
    assert os.listdir(room) == [TARBALL], "it has one folder"
    assert call(["sha256sum", "--check", "--quiet", "SHA256SUMS"], top) == (b"", b"", 0), "its checksums"
    named = {line.split("  ")[1] for line in (top / "SHA256SUMS").read_text().splitlines()} | {"SHA256SUMS"}
    assert {str(it.relative_to(top)) for it in top.rglob("*") if it.is_file()} ^ named == set(), "each file has a checksum"
    for name in PROGRAMS:
        assert ((top / "libexec" / name).read_bytes() == FILES[name].read_bytes()) == True, f"the program {name}"
        assert call([str(top / "bin" / name), "--version"]) == (f"{name} {VERSION}\n".encode(), b"", 0), f"the version of {name}"
        assert call([str(top / "bin" / name), "--help"])[1:] == (b"", 0), f"the help of {name}"
        assert words_missing(name, (top / "share" / "man" / "man1" / f"{name}.1").read_text()) == [], f"the man page of {name} tells what the help tells"
    assert call(["bash", "-c", EXAMPLE], top) == (readme_example(), b"", 0), "README.md's example"
    assert call([str(top / "bin" / "canvas"), "paint"])[::2] == (b"", 2), "a command that is none"
    for word, rest in (("--unproved", ["script"]), ("--libraries", ["file"])):
        refused = f"canvas: {word} builds the program, and there are no sources here (docs/INSTALL.md)\n".encode()
        assert call([str(top / "bin" / "canvas"), word, *rest], top) == (b"", refused, 4), f"{word} in a release"
    assert call([str(top / "bin" / "canvas"), "serve", "127.0.0.1:0", "none"])[1:] == (b"canvas: there is no file none; serve a saved document, as examples/poster.json\n", 4), "a document that is none"
    served_by_tarball(top)
    kept("the tarball", ["bin/canvasd"], "drawing", "examples/poster.json", top)
    copied(top)


def copied(top):
    """A copy of a document that the tarball's canvasd serves, by its feed."""
    feed = f"127.0.0.1:{free_port()}"
    words = ["bin/canvasd", "followed", "--open", "examples/poster.json", "--listen", "127.0.0.1:0", "--feed", feed]
    with serving(words, top) as address:
        assert served(address) == SERVED, "a document that is followed"
        assert call(["bin/canvas-backup", feed, "copy", "--once"], top)[1:] == (b"", 0), "its copy is made"
    assert call(["bin/canvasd", "history", "copy", "1"], top) == call(["bin/canvasd", "history", "followed", "1"], top), "its copy"


def served_by_tarball(top):
    with serving(["bin/canvas", "serve", "ADDRESS", "examples/poster.json"], top) as address:
        assert served(address) == SERVED, "a server of the tarball"
        assert call(["env", "PYTHONPATH=python", "examples/visit.py", address, "poster"], top)[1:] == (b"", 0), "a visit"
    commands(top, PLAIN)
    shown(top / "bin" / "canvas-demo", PLAIN)


def words_missing(name, page):
    """The words of a program's help that its man page lacks."""
    text = page.replace("\\-", "-").replace("\\&", "").replace("\\e", "\\").split()
    return [it for it in (TOP / "tools" / f"{name}.help").read_text().split() if it not in text and it not in ("VERSION", "$")]


# -- the Debian package ------------------------------------------------------------------------------------------------

def test_package(made):
    file, root = made / "0" / PACKAGE, made / "root"
    told = call(["dpkg-deb", "--field", str(file), "Package", "Version", "Architecture", "Depends"])[0].decode().splitlines()
    needs = f"Depends: libc6 (>= {NEWEST_GLIBC[0]}.{NEWEST_GLIBC[1]}), python3 (>= 3.9)"
    assert told == ["Package: canvas", f"Version: {VERSION}", "Architecture: amd64", needs], "what the package says of itself"
    assert call(["dpkg-deb", "--extract", str(file), str(root)]) == (b"", b"", 0), "the package is unpacked"
    for name in PROGRAMS:
        used = {tuple(map(int, it)) for it in re.findall(rb"GLIBC_(\d+)\.(\d+)", (root / UNDER_DEBIAN[name]).read_bytes())}
        assert (bool(used) and max(used) <= NEWEST_GLIBC) == True, f"the newest version of the C library that {name} uses"
        page = gzip.decompress((root / "usr" / "share" / "man" / "man1" / f"{name}.1.gz").read_bytes()).decode()
        assert words_missing(name, page) == [], f"the man page of {name} in the package"
    for name, target in INSTALLED.items():
        assert ((root / target).read_bytes() == (TOP / "packaging" / name).read_bytes()) == True, f"{target} of the package"
        assert os.access(root / target, os.X_OK) == (name == "canvas-admin"), f"the rights of {target}"
    control = made / "control"
    assert call(["dpkg-deb", "--control", str(file), str(control)]) == (b"", b"", 0), "what is done after it is unpacked"
    for name in ("postinst", "prerm"):
        assert (call(["sh", "-n", str(control / name)]), os.access(control / name, os.X_OK)) == ((b"", b"", 0), True), f"{name} is a script"
    environment = {**PLAIN, "PATH": f"{root}/usr/bin:{PLAIN['PATH']}", "PYTHONPATH": f"{root}/usr/lib/python3/dist-packages"}
    commands(root / "usr", environment)
    shown(root / "usr" / "bin" / "canvas-demo", environment)
    answers(root)
    bare_root(root, made / "bare")


def answers(root):
    """The command `canvas` of the package is the tarball's; what bash completes is there by the name of each command."""
    top, canvas = root / "usr" / "lib" / "canvas", str(root / "usr" / "bin" / "canvas")
    assert [it for it in OF_CANVAS if (top / it).read_bytes() != (TOP / it).read_bytes()] == [], "the script and what it reads"
    told = (TOP / "tools" / "canvas.help").read_text().replace("VERSION", VERSION, 1).encode()
    assert call([canvas, "--help"]) == (told, b"", 0), "canvas --help of the package"
    assert call([canvas, "--version"]) == (f"canvas {VERSION}\n".encode(), b"", 0), "canvas --version of the package"
    assert call([canvas, "serve", "127.0.0.1:0", "none"])[1:] == (b"canvas: there is no file none; serve a saved document, as examples/poster.json\n", 4), "a document that is none"
    with (TOP / "examples" / "red-rectangle.jsonl").open("rb") as given:
        assert call([canvas, "script"], stdin=given) == (readme_example(), b"", 0), "README.md's example by the package's command"
    folder = root / "usr" / "share" / "bash-completion" / "completions"
    assert sorted(os.listdir(folder)) == sorted(COMPLETED), "what bash completes"
    assert [it for it in COMPLETED if (folder / it).read_bytes() != (TOP / COMPLETION).read_bytes()] == [], "how"


def bare_root(unpacked, root):
    """The programs of the package and the poster, with the C library alone."""
    for name in C_LIBRARY:
        (root / name[1:]).parent.mkdir(parents=True, exist_ok=True)
        shutil.copy(name, root / name[1:])
    shutil.copytree(unpacked / "usr", root / "usr", symlinks=True)
    outside = [*([] if os.geteuid() == 0 else ["unshare", "--map-root-user"]), "chroot", str(root)]
    inside = [*outside, f"/{UNDER_DEBIAN['canvas']}"]
    with (TOP / "examples" / "red-rectangle.jsonl").open("rb") as given:
        assert call([*inside, "script"], stdin=given) == (readme_example(), b"", 0), "README.md's example in a bare root"
    assert call(inside)[::2] == (b"", 2), "a command that is none in a bare root"
    with serving([*inside, "serve", "ADDRESS", "/usr/share/canvas/examples/poster.json"]) as address:
        assert served(address) == SERVED, "a server in a bare root"
    kept("a bare root", [*outside, f"/{UNDER_DEBIAN['canvasd']}"], "/drawing", "/usr/share/canvas/examples/poster.json")
