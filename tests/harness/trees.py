"""Small trees of the repository with a stub in the place of `rt`."""

import os
import shutil
import subprocess
import tempfile
from contextlib import contextmanager
from pathlib import Path

from repository import TOP

SECONDS = 120
VERSION = (TOP / "VERSION").read_text().strip()
PARTS = ("VERSION", "HANDLES", "bin/canvas", "bin/canvasd", "bin/canvas-demo", "python", "tools/command.sh", "tools/program.sh", "tools/build_program.py",
         "tools/build_times.py", "tools/build_times.txt", "tools/build_unproved.py", "tools/libraries.py", "tools/records.py", "tools/repository.py",
         "tools/made_from.sh", "tools/before_serve.py", "tools/canvas.help", "tools/canvasd.help", "examples")
"""What of the repository a small tree has."""

RT = """#!/bin/bash
[ "$1" != version ] || { echo "${STUB_KIT:-stub-kit logic 12ab}"; exit; }
echo "$1 in ${PWD##*/}" >>"$STUB_LOG"
case $STUB_DOES in
fail) echo "no proof"; exit 1 ;;
hang) mktemp -d >/dev/null; mkdir -p out/rt-work-$$-1; (trap "" TERM; sleep 600) & echo "started $! $$" >>"$STUB_LOG"; sleep 600 ;;
esac
mkdir -p out
case $1 in
run) cp src/main.rt "out/${PWD##*/}" && chmod +x "out/${PWD##*/}" ;;
try)
    cp src/main.rt "$TMPDIR/module.bc"
    [ "$STUB_DOES" = elsewhere ] || "$(dirname "$0")/../toolchain/bin/clang" -x ir "$TMPDIR/module.bc" -o "$TMPDIR/module.o" -O0 -fsanitize=address
    ;;
*) mkdir -p "out/rlib/${PWD##*/}.rlib" && cat src/*.rt >"out/rlib/${PWD##*/}.rlib/format" && printf %s "${STUB_STAMP-stamp}" >out/rlib/stamp ;;
esac
"""
RTLIB = """import os
class Crate:
    def __init__(self, name):
        self.name = name
    def stamp(self):
        return os.environ.get("STUB_STAMP", "stamp")
def crates_below(top):
    return [Crate(it) for it in sorted(os.listdir(top + "/crates"))]
"""
CLANG = """#!/bin/bash
[ "$6" = -O1 ] && cp "$3" "$5"
"""
LINK = """#!/bin/bash
[ "$STUB_DOES" != unlinked ] || { echo "no link"; exit 1; }
while [ "$1" != -o ]; do shift; done
cp "$3" "$2" && chmod +x "$2"
"""
MAIN = """#!/bin/bash
echo "first program: $*"
exit 7
"""
FAKE_GATEWAY = """import os, sys
print(f"http://{sys.argv[3]}/", flush=True)
os.execvp("sleep", ["sleep", "600"])
"""


class Tree:
    """A repository of two crates, with a stub for `rt`, whose calls it notes, and a folder for temporary files."""

    def __init__(self, folder, name):
        self.name = name
        self.top, self.kit, self.log, self.temporary = folder / "tree", folder / "kit", folder / "log", folder / "temporary"
        for part in PARTS:
            target = self.top / part
            target.parent.mkdir(parents=True, exist_ok=True)
            (shutil.copytree if (TOP / part).is_dir() else shutil.copy2)(TOP / part, target)
        self.write("crates.txt", f"# lowest first\nlow:\n{name}: low\n")
        self.write("crates/low/src/lib.rt", "low\n")
        self.write(f"crates/{name}/src/main.rt", MAIN)
        self.write("python/canvas/gateway/__main__.py", FAKE_GATEWAY)
        for name, text in (("bin/rt", RT), ("bin/rattle-link", LINK), ("bin/rtlib.py", RTLIB), ("toolchain/bin/clang", CLANG)):
            self.write(self.kit / name, text).chmod(0o755)
        self.temporary.mkdir()

    def write(self, name, text):
        path = self.top / name
        path.parent.mkdir(parents=True, exist_ok=True)
        path.write_text(text)
        return path

    def environment(self, has_rt=True, does="", **more):
        found = {name: value for name, value in os.environ.items() if name != "CANVAS"}
        path = f"{self.kit}/bin:/usr/bin:/bin" if has_rt else "/usr/bin:/bin"
        return {**found, "PATH": path, "TMPDIR": str(self.temporary), "STUB_LOG": str(self.log), "STUB_DOES": does, **more}

    def run(self, *words, command=None, has_rt=True, does="", top=None, stub=None, **how):
        """What the program's script, or another command of the tree, writes to standard output and standard error, and its status."""
        done = subprocess.run([str((top or self.top) / (command or f"bin/{self.name}")), *words], env=self.environment(has_rt, does, **(stub or {})),
                              text=True, stdin=subprocess.DEVNULL, capture_output=True, timeout=SECONDS, **how)
        return done.stdout, done.stderr, done.returncode

    def calls(self):
        """How `rt` was called since this was asked last."""
        said = self.log.read_text().splitlines() if self.log.exists() else []
        self.log.unlink(missing_ok=True)
        return said


@contextmanager
def tree(is_built=False, name="canvas"):
    with tempfile.TemporaryDirectory() as folder:
        os.chmod(folder, 0o755)
        made = Tree(Path(folder), name)
        if is_built:
            made.run("script")
            made.calls()
        yield made


KIT = "stub-kit logic 12ab"
LIBRARIES = "canvas 0 libraries.tar"


@contextmanager
def packed():
    """A tree of both programs and two libraries that are built, with a file of these."""
    with tree() as made:
        made.write("crates.txt", "low:\nmiddle: low\ncanvas: middle\ncanvasd: low\n")
        made.write("crates/middle/src/lib.rt", "middle\n")
        made.write("crates/canvasd/src/main.rt", MAIN)
        made.run("script")
        made.run("pack", str(made.top.parent / LIBRARIES), command="tools/libraries.py")
        made.calls()
        yield made


def unbuilt(made, name):
    """A copy of a tree's sources alone."""
    return shutil.copytree(made.top, made.top.parent / name, ignore=shutil.ignore_patterns("out"))


def take(made, top, file=None, **how):
    """What is said where a tree takes libraries and builds over them, the status, how `rt` was called, and which libraries there are then."""
    out, said, status = made.run("--libraries", str(file or made.top.parent / LIBRARIES), top=top, **how)
    told = [it.removeprefix("libraries: ") for it in said.splitlines() if it.startswith("libraries: ")]
    return told, status, made.calls(), sorted(it.parts[-4] for it in top.glob("crates/*/out/rlib/stamp"))


FIRST = ("first program: script 2\n", 7)
"""What the program of a tree writes for the words `script 2`, and its status."""
TAKEN = "2 of 2 are taken, of release VERSION. That they are proved is the release's word; nothing here checks it".replace("VERSION", VERSION)
BUILT = ["lib in low", "lib in middle", "run in canvas"]
