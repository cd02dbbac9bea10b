#!/usr/bin/env python3
"""Builds the program canvas or canvasd with nothing proved, as crates/NAME/out/NAME-unproved, and says what it was made from beside it.

usage: tools/build_unproved.py canvas|canvasd

`rt try` compiles with no proof, but runs a program for a minute at most, and shows what it wrote only then: nothing can serve so. So `rt try` runs here in
a folder of links to the toolchain, whose clang also keeps what it compiles with checks of addresses; the toolchain's linker makes a program of
that. Where another toolchain's `rt try` works otherwise nothing is kept, or the program does not answer its first words. Then one line says
so, and the status is 4.
"""

import os
import shlex
import shutil
import signal
import subprocess
import sys
import tempfile
from pathlib import Path

from repository import FIRST_RUNS, TOP

# The clang of the folder of links: it compiles with checks as it is told to, but so that the program is quick, and keeps the object.
CLANG = """#!/usr/bin/env bash
words=()
kept=
for word; do
    case $word in
    -fsanitize=address) kept=yes ;;
    -O0) word=-O1 ;;
    *.o) object=$word ;;
    esac
    words+=("$word")
done
[ -n "$kept" ] || exec CLANG "$@"
CLANG "${words[@]}" && cp "$object" KEPT
"""
# Files of the toolchain's bin/ that find it by their own place are smaller, and are copied.
LARGE = 1_000_000
LINKED = ("libos_c.a", "liblibc_c.a", "asan.a")
FLAGS = ("--target", "x86_64-unknown-linux-gnu")


class NotBuilt(Exception):
    """The program could not be built: why."""


def call(words, folder, **environment):
    """Runs a command, and gives its status and what it said. Where this ends, so does the command."""
    how = {"stdin": subprocess.DEVNULL, "stdout": subprocess.PIPE, "stderr": subprocess.STDOUT, "text": True, "errors": "replace"}
    command = subprocess.Popen(words, cwd=folder, env={**os.environ, **environment}, **how)
    try:
        said, _ = command.communicate()
    except BaseException:
        command.terminate()
        command.wait()
        raise
    return command.returncode, said


def link_kit(kit, folder, kept):
    """Makes a folder of links to the toolchain, but for its scripts, which find it by their own place, and its clang."""
    shutil.copytree(kit / "bin", folder / "bin", copy_function=lambda source, to: (os.symlink if os.path.getsize(source) > LARGE else shutil.copy2)(source, to))
    (folder / "toolchain" / "bin").mkdir(parents=True)
    for parent, names in (("", {"bin", "toolchain"}), ("toolchain", {"bin"}), ("toolchain/bin", {"clang"})):
        for it in (kit / parent).iterdir():
            if it.name not in names:
                (folder / parent / it.name).symlink_to(it)
    clang = folder / "toolchain" / "bin" / "clang"
    clang.write_text(CLANG.replace("CLANG", shlex.quote(str(kit / "toolchain" / "bin" / "clang"))).replace("KEPT", shlex.quote(str(kept))))
    clang.chmod(0o755)


def build(name, room):
    """Builds the program in the room, and gives its file."""
    kit, kept, made = Path(shutil.which("rt")).resolve().parent.parent, room / "kept.o", room / name
    try:
        link_kit(kit, room / "kit", kept)
    except OSError as why:
        raise NotBuilt(f"this toolchain is laid out in another way: {why}") from why
    status, said = call([room / "kit" / "bin" / "rt", "try", "--", *FIRST_RUNS[name]], TOP / "crates" / name, TMPDIR=str(room), RT_SECONDS="900")
    if status:
        raise NotBuilt(f"{said.strip()}\nrt try failed")
    if not kept.is_file():
        raise NotBuilt("rt try of this toolchain compiles in another way")
    status, said = call([kit / "bin" / "rattle-link", *FLAGS, "--toolchain", kit / "toolchain", "-o", made, kept, *(kit / "c" / it for it in LINKED)], room)
    if status:
        raise NotBuilt(f"{said.strip()}\nwhat rt try compiled can't be linked")
    status, said = call([made, *FIRST_RUNS[name]], room)
    if status:
        raise NotBuilt(f"{said.strip()}\nwhat was built ends with status {status}")
    return made


def sums(name):
    """The checksums of the program and of what it is made from."""
    words = [TOP / "tools" / "made_from.sh", name, f"{name}-unproved"]
    return subprocess.run(words, stdout=subprocess.PIPE, stderr=subprocess.DEVNULL, text=True, check=True).stdout.splitlines()


def main():
    if sys.argv[1:] not in ([it] for it in FIRST_RUNS):
        sys.exit("usage: tools/build_unproved.py canvas|canvasd")
    name = sys.argv[1]
    for number in (signal.SIGINT, signal.SIGTERM, signal.SIGHUP):
        signal.signal(number, lambda number, _: sys.exit(128 + number))
    out = TOP / "crates" / name / "out"
    out.mkdir(exist_ok=True)
    made_from = sums(name)[1]
    print(f"{name}: compiling the program once with nothing proved, in some minutes", file=sys.stderr, flush=True)
    with tempfile.TemporaryDirectory(prefix="canvas-unproved-") as room:
        try:
            shutil.move(build(name, Path(room)), out / f"{name}-unproved")
        except NotBuilt as why:
            print(f"{name}: {why}, so nothing can be run unproved; bin/{name} without --unproved builds the proved program", file=sys.stderr)
            sys.exit(4)
    (out / f"{name}-unproved.made-from").write_text(f"{sums(name)[0]}\n{made_from}\n")


if __name__ == "__main__":
    main()
