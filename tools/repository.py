"""The crates of this repository, and copies of some of them, in which `rt` can work beside other runs of it.

Two runs of `rt` never work over one library at once. In a copy of its own, with the built libraries below it, a crate can be checked
while others are. A crate's built library and what its checks kept hold no path, so they are good in any copy of the same sources.
"""

import contextlib
import fcntl
import json
import os
import shutil
import subprocess
import sys
from pathlib import Path

TOP = Path(__file__).resolve().parent.parent
sys.path.append(str(TOP / "python"))  # (for all of tools/: who imports the package `canvas` imports this module first)
SOURCES = ("src", "specs", "proofs")
FIRST_RUNS = {"canvas": ["script", "1"], "canvasd": ["--version"]}
"""The two programs, and the words of a run that ends by itself, with nothing on standard input."""
PROGRAMS = (*FIRST_RUNS,)
BUILT = Path(os.environ.get("CANVAS", TOP / "crates" / "canvas" / "out" / "canvas"))
"""The program itself, where the script bin/canvas would be in the way: it has words, streams and allocations of its own. The environment's
CANVAS names another one."""
BUILT_KEEPER = Path(os.environ.get("CANVASD", TOP / "crates" / "canvasd" / "out" / "canvasd"))
"""The same of the program canvasd."""


def lines():
    """The line of each crate in crates.txt, by its name."""
    found = {}
    for line in (TOP / "crates.txt").read_text().splitlines():
        head, colon, _ = line.partition(":")
        if colon and not line.startswith("#"):
            found[head.split()[0]] = line
    return found


def uses():
    """The crates of the repository that each of its crates names in crates.txt."""
    found = lines()
    return {name: [it for it in line.partition(":")[2].split() if it in found] for name, line in found.items()}


def below(name, used=None):
    """The crates below a crate, each after those that it uses."""
    used = used or uses()
    found = []
    for it in used[name]:
        found += [lower for lower in [*below(it, used), it] if lower not in found]
    return found


def sources(name):
    """The source files of a crate."""
    folder = TOP / "crates" / name
    return [it for part in SOURCES for it in sorted((folder / part).rglob("*")) if it.is_file()]


def link_or_copy(source, target):
    """Another name for a file, or a copy of it on a file system that has no such names. `rt` replaces files and never writes into them."""
    try:
        os.link(source, target)
    except OSError:
        shutil.copy2(source, target)


def copy_crate(name, target, parts):
    """Copies a crate's sources, and links these parts of its out/."""
    source = TOP / "crates" / name
    for part in SOURCES:
        if (source / part).is_dir():
            shutil.copytree(source / part, target / part)
    for part in parts:
        if (source / "out" / part).is_dir():
            shutil.copytree(source / "out" / part, target / "out" / part, copy_function=link_or_copy)


def copy_for(name, folder, with_taken=False):
    """Makes a repository of the crate with what its checks kept and of the built libraries below it, and gives the crate's folder in it. Libraries that
    were taken from a release, and those over them, are left out unless they are asked for."""
    names = below(name)
    (folder / ".git").mkdir(parents=True)
    known = lines()
    (folder / "crates.txt").write_text("".join(known[it] + "\n" for it in [*names, name]))
    shutil.copy2(TOP / "HANDLES", folder)
    for it in names:
        copy_crate(it, folder / "crates" / it, [] if taken(it) and not with_taken else ["rlib"])
    copy_crate(name, folder / "crates" / name, ["rlib", "incremental"])
    return folder / "crates" / name


def taken(name):
    """The libraries, of a crate and of those below it, that were taken from a release (tools/libraries.py): nothing proved them here."""
    return [it for it in [*below(name), name] if (TOP / "crates" / it / "out" / "rlib" / "taken").exists()]


@contextlib.contextmanager
def alone():
    """Waits until no other build works in this repository, of either program, since they share libraries."""
    with open(TOP / "tools" / "build_program.py") as lock:
        fcntl.flock(lock, fcntl.LOCK_EX)
        yield


def take_over(made, kept):
    """Puts what was built in a copy in the place of what the crate has, while no run of `rt` works there."""
    kept.mkdir(exist_ok=True)
    folder = os.open(kept.parent, os.O_RDONLY)
    try:
        fcntl.flock(folder, fcntl.LOCK_EX)
        for part in ("rlib", "incremental"):
            if (made / part).is_dir():
                shutil.rmtree(kept / part, ignore_errors=True)
                shutil.move(made / part, kept / part)
    finally:
        os.close(folder)


STAMPS = """
import json, os, sys
sys.path.insert(0, os.path.dirname(os.path.realpath(sys.argv[1])))
import rtlib
made, seen = rtlib.Crate.stamp, {}
def stamp(crate):
    if crate.name not in seen:
        seen[crate.name] = made(crate)
    return seen[crate.name]
rtlib.Crate.stamp = stamp
print(json.dumps({it.name: it.stamp() for it in rtlib.crates_below(os.getcwd())}))
"""


def stamps(folder):
    """The stamp by which `rt` knows each crate's library for one of the sources as they are; none where this `rt` keeps stamps in another way."""
    rt = shutil.which("rt")
    done = rt and subprocess.run([sys.executable, "-c", STAMPS, rt], cwd=folder, stdin=subprocess.DEVNULL, stdout=subprocess.PIPE, stderr=subprocess.DEVNULL)
    return json.loads(done.stdout) if done and done.returncode == 0 else {}


def stamp_libraries(folder):
    """Has `rt` take the built libraries of such a repository for those of its sources. `rt ci` builds them so, and leaves no stamp beside them. Where
    this `rt` keeps stamps in another way nothing is written, and it builds the libraries anew."""
    for name, stamp in stamps(folder).items():
        built = folder / "crates" / name / "out" / "rlib"
        if (built / f"{name}.rlib").is_dir() and not (built / "stamp").exists():
            (built / "stamp").write_text(stamp)


def copy_again(folder, target):
    """Makes another such repository, and links all that was built and kept in the first one."""

    def copy(source, to):
        (link_or_copy if "out" in Path(source).relative_to(folder).parts else shutil.copy2)(source, to)

    shutil.copytree(folder, target, copy_function=copy)
