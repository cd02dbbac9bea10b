#!/usr/bin/env python3
"""Packs the built libraries of the crates for a release, or takes those of a release in the place of building them.

usage: tools/libraries.py pack FILE [--built]    packs what is built in crates/*/out; with --built also libraries without a stamp, as `rt ci` leaves them
       tools/libraries.py take FILE              (bin/canvas --libraries FILE calls it)

A library is a checked proof, and nothing checks it again: who takes one trusts the release that it was proved, as who runs its program does. No verdict of
the gate rests on it: `rt ci` proves all anew, and tools/try_wrong_bodies.py leaves out what was taken, by the file `taken` beside it.

A library is taken if it was made by this toolchain, as `rt version` names it, and of these sources: the crate's, its line of crates.txt, and the same of all
crates below. For others a line says why not. From a file that is torn nothing is taken, and the status is 4.

The file is a tar file. It begins with manifest.json: the version, the toolchain, and for each library the checksums of its crate's own sources and of
its part. Each part NAME.tar.xz has the folder rlib of a crate's out/.
"""

import argparse
import hashlib
import io
import json
import shutil
import subprocess
import sys
import tarfile
import tempfile
from concurrent.futures import ThreadPoolExecutor
from contextlib import ExitStack
from lzma import LZMAError
from pathlib import Path, PurePosixPath

from build_times import crates, processors
from repository import PROGRAMS, TOP, alone, below, lines, sources, stamps, take_over, taken

MANIFEST = "manifest.json"
VERSION = TOP / "VERSION"


class NoLibraries(Exception):
    """Libraries could not be packed or taken: why."""


def toolchain():
    """The toolchain, as `rt version` names it."""
    if not shutil.which("rt"):
        raise NoLibraries("there is no command rt of the Rattle toolchain on the path")
    done = subprocess.run(["rt", "version"], stdin=subprocess.DEVNULL, stdout=subprocess.PIPE, text=True)
    if done.returncode:
        raise NoLibraries("rt version failed")
    return done.stdout.strip()


def own_sum(name):
    """The checksum of a crate's own sources, and of its line in crates.txt."""
    found = hashlib.sha256(lines()[name].encode())
    for file in sources(name):
        found.update(repr((str(file.relative_to(TOP)), file.read_bytes())).encode())
    return found.hexdigest()


def sum_of(content):
    return hashlib.sha256(content).hexdigest()


def built_folder(name):
    return TOP / "crates" / name / "out" / "rlib"


# -- packing -----------------------------------------------------------------------------------------------------------

def plain(entry, seconds=0):
    """An entry of a tar file without what differs between two builds of the same: owners, times and rights."""
    entry.uid = entry.gid = 0
    entry.mtime = seconds
    entry.uname = entry.gname = "root"
    entry.mode = 0o755 if entry.isdir() or entry.mode & 0o100 else 0o644
    return entry


def put(archive, name, content):
    """Adds a file with this content."""
    entry = tarfile.TarInfo(name)
    entry.size = len(content)
    archive.addfile(plain(entry), io.BytesIO(content))


def stamp_of(name):
    """The stamp beside a crate's library, or None."""
    file = built_folder(name) / "stamp"
    return file.read_text() if file.is_file() else None


def why_not_packed(name, stamp):
    """Why a crate's library is not fit for a release, or None. `stamp` is the one that it must have."""
    if not (built_folder(name) / f"{name}.rlib").is_dir():
        return "is not built"
    if taken(name):
        return f"rests on {taken(name)[0]}, which was taken from a release"
    return None if stamp_of(name) == stamp else "is not built of these sources, by its stamp"


def part_of(name, stamp, room):
    """Packs a library, and gives the file."""
    file = room / f"{name}.tar.xz"
    with tarfile.open(file, "w:xz", preset=3, format=tarfile.GNU_FORMAT) as archive:
        archive.add(built_folder(name) / f"{name}.rlib", f"rlib/{name}.rlib", filter=plain)
        put(archive, "rlib/stamp", stamp.encode())
    return file


def pack(target, built=False):
    """Packs all libraries of the programs."""
    names, known = [it for it in crates() if it not in PROGRAMS], stamps(TOP)
    if not known:
        raise NoLibraries("this rt keeps no stamps of libraries, or in another way")
    # (`rt ci` leaves no stamps; what it built and what others built do not go together)
    has_stamps = not built or any(map(stamp_of, names))
    for name in names:
        why = why_not_packed(name, known[name] if has_stamps else None)
        if why:
            raise NoLibraries(f"the library {name} {why}; bin/canvasd builds it")
    with tempfile.TemporaryDirectory(prefix="canvas-libraries-") as room, ThreadPoolExecutor(processors()) as pool:
        parts = dict(zip(names, pool.map(lambda it: part_of(it, known[it], Path(room)), names)))
        told = {name: {"sources": own_sum(name), "stamp": known[name], "part": sum_of(file.read_bytes())} for name, file in parts.items()}
        with tarfile.open(target, "w", format=tarfile.GNU_FORMAT) as archive:
            manifest = {"version": VERSION.read_text().strip(), "toolchain": toolchain(), "libraries": told}
            put(archive, MANIFEST, json.dumps(manifest, indent=1).encode())
            for file in parts.values():
                archive.add(file, file.name, filter=plain)


# -- taking ------------------------------------------------------------------------------------------------------------

def reasons(told):
    """For each library of a release why it is not taken here, or None."""
    known, found = stamps(TOP), {}
    changed = {name for name in lines() if name not in told or told[name]["sources"] != own_sum(name)}
    for name, it in told.items():
        under = [lower for lower in below(name) if lower in changed] if name in lines() else []
        if name not in lines():
            found[name] = "there is no such crate here"
        elif name in changed:
            found[name] = "it was made of other sources"
        elif under:
            found[name] = f"it was made over other sources of {under[0]}"
        else:
            found[name] = "rt takes it for another" if known.get(name, it["stamp"]) != it["stamp"] else None
    return found


def read_manifest(archive):
    first = archive.next()
    if first is None or first.name != MANIFEST:
        raise ValueError("it does not begin with a manifest of libraries")
    found = json.load(archive.extractfile(first))
    told = {name: {key: it[key] for key in ("sources", "stamp", "part")} for name, it in found["libraries"].items()}
    return {"version": found["version"], "toolchain": found["toolchain"], "libraries": told}


def unpack(packed, room):
    """Unpacks a library into a folder."""
    with tarfile.open(fileobj=io.BytesIO(packed), mode="r:xz") as archive:
        for entry in archive:
            path = PurePosixPath(entry.name)
            if path.parts[:1] != ("rlib",) or ".." in path.parts or not (entry.isdir() or entry.isfile()):
                raise ValueError(f"{entry.name} is no part of a library")
            target = room / path
            (target if entry.isdir() else target.parent).mkdir(parents=True, exist_ok=True)
            if entry.isfile():
                with target.open("wb") as file:
                    shutil.copyfileobj(archive.extractfile(entry), file)


def unpack_part(source, entry, wanted, room):
    """Unpacks a part of the file of libraries, if it has the bytes that the manifest tells of."""
    with open(source, "rb") as file:
        file.seek(entry.offset_data)
        packed = file.read(entry.size)
    if sum_of(packed) != wanted:
        raise ValueError(f"{entry.name} has not its checksum")
    unpack(packed, room)


def unpack_all(archive, told, rooms):
    """Unpacks the libraries that have rooms, each into its own."""
    parts = {entry.name.removesuffix(".tar.xz"): entry for entry in archive}
    if rooms.keys() - parts.keys():
        raise ValueError(f"it has no {min(rooms.keys() - parts.keys())}.tar.xz")
    with ThreadPoolExecutor(processors()) as pool:
        begun = [pool.submit(unpack_part, archive.name, parts[name], told[name]["part"], room) for name, room in rooms.items()]
        for it in begun:
            it.result()


def put_in_place(rooms, version):
    """Puts unpacked libraries in the place of what is built, and removes what is built over others than these."""
    for name, room in rooms.items():
        (room / "rlib" / "taken").write_text(f"canvas {version}\n")
        (room / "rlib" / "stamp").touch()
        take_over(room, built_folder(name).parent)
    for name in lines():
        if name not in rooms and rooms.keys() & {*below(name)}:
            shutil.rmtree(built_folder(name), ignore_errors=True)


def take_from(archive):
    """Takes the libraries of a release, and says which not."""
    manifest = read_manifest(archive)
    told, here = manifest["libraries"], toolchain()
    if manifest["toolchain"] != here:
        say(f"none is taken, since they were made by {manifest['toolchain']}, and here is {here}")
        return
    why = reasons(told)
    with ExitStack() as stack:
        rooms = {}
        for name in [it for it in why if not why[it]]:
            built_folder(name).parent.mkdir(exist_ok=True)
            rooms[name] = Path(stack.enter_context(tempfile.TemporaryDirectory(prefix="taking-", dir=built_folder(name).parent)))
        unpack_all(archive, told, rooms)
        put_in_place(rooms, manifest["version"])
    for name in [it for it in why if why[it]]:
        say(f"{name} is not taken: {why[name]}")
    say(f"{len(rooms)} of {len(why)} are taken, of release {manifest['version']}. That they are proved is the release's word; nothing here checks it")


def say(text):
    print(f"libraries: {text}", file=sys.stderr)


def take(source):
    try:
        with tarfile.open(source, "r:") as archive:
            take_from(archive)
    except (tarfile.TarError, LZMAError, EOFError, ValueError, KeyError, TypeError, AttributeError) as why:
        raise NoLibraries(f"{source} is torn, or no file of libraries: {why or type(why).__name__}") from why


def main():
    asked = argparse.ArgumentParser(description=__doc__, formatter_class=argparse.RawDescriptionHelpFormatter)
    asked.add_argument("verb", choices=["pack", "take"])
    asked.add_argument("file", type=Path, metavar="FILE")
    asked.add_argument("--built", action="store_true", help="with pack: libraries without a stamp are of these sources too")
    words = asked.parse_args()
    try:
        with alone():
            if words.verb == "pack":
                pack(words.file, words.built)
            else:
                take(words.file)
    except NoLibraries as why:
        say(why)
        sys.exit(4)
    except OSError as why:
        say(f"{why.filename or words.file} can't be used: {why.strerror or why}")
        sys.exit(4)


if __name__ == "__main__":
    main()
