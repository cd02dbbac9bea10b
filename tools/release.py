#!/usr/bin/env python3
"""Makes a release from the two built programs and the built libraries: a tarball, a Debian package, a file of the libraries for those who
change the program (tools/libraries.py), and a file with their checksums.

usage: tools/release.py [--canvas crates/canvas/out/canvas] [--canvasd crates/canvasd/out/canvasd] [--to dist] [--built | --programs-alone]

With --built the libraries need no stamp, as just after `rt ci`; with --programs-alone they are left out.
The same programs and files give the same bytes: times are the day of the version in CHANGELOG.md, owners are root, and names are in order.
The texts of the man pages are tools/canvas.help and tools/canvasd.help. Prints the names of the files that it made.
"""

import argparse
import gzip
import hashlib
import io
import os
import re
import shutil
import subprocess
import sys
import tarfile
import tempfile
import tomllib
from datetime import datetime, timezone
from pathlib import Path

from libraries import NoLibraries, pack, plain
from repository import PROGRAMS, TOP

VERSION = (TOP / "VERSION").read_text().strip()
SHARED = ("README.md", "CHANGELOG.md", "VERSION", "docs/*.md", "docs/pictures/*.png", "examples/*.json*", "examples/visit.py", "web/client.mjs",
          "web/package.json", "web/README.md", "packaging/*", "packaging/*/*")
"""The files of the repository that both packages have."""
PYTHON = ("python/pyproject.toml", "python/README.md", "python/VERSION")
"""The files beside the package in Python that the tarball has; `pip install python/` needs them."""
DRAWN = ("chart.jsonl", "poster.jsonl")
"""The examples that canvas-demo draws."""
COMMANDS = tomllib.loads((TOP / "python" / "pyproject.toml").read_text())["project"]["scripts"]
"""The commands of the package in Python: of each its module and its function."""
OF_ROOT = ("canvas-store",)
"""Those of them that the Debian package has in /usr/sbin."""
COMMAND = """#!/usr/bin/python3
from {module} import {function}

{function}()
"""
"""A command of the Debian package."""
INSTALLED = {"canvas-admin": "usr/sbin/canvas-admin", "systemd/canvas@.service": "lib/systemd/system/canvas@.service",
             "systemd/canvas.sysusers": "usr/lib/sysusers.d/canvas.conf",
             **{f"systemd/{it}": f"lib/systemd/system/{it}" for it in ("canvas-gateway.service", "canvas-store.service", "canvas-door@.socket",
                                                                      "canvas-door@.service", "canvas-documents.service", "canvas-documents.timer")}}
"""Where the Debian package has files of packaging/ once more, for systemd and root to find them."""
AFTER = """#!/bin/sh
# Makes the user of the servers, has systemd know their units, and compiles the package in Python; nothing is started.
set -e
if [ "$1" = configure ] && command -v systemd-sysusers >/dev/null; then
    systemd-sysusers canvas.conf
    [ ! -d /run/systemd/system ] || systemctl daemon-reload
fi
if [ "$1" = configure ] && command -v py3compile >/dev/null; then
    py3compile -p canvas
fi
"""
BEFORE = """#!/bin/sh
# Takes away what was compiled of the package in Python.
set -e
if command -v py3clean >/dev/null; then
    py3clean -p canvas
fi
"""
OF_CANVAS = ("VERSION", "bin/canvas", "tools/program.sh", "tools/canvas.help", "tools/before_serve.py")
"""What bin/canvas is, which both packages have over the program: it answers --help, and says what is wrong with an address or a file."""
OF_SCRIPTS = (*OF_CANVAS, "bin/canvasd", "tools/command.sh", "tools/canvasd.help")
"""What the commands in bin/ are, which the tarball has over the programs and the package in Python."""
UNDER_DEBIAN = {"canvas": "usr/lib/canvas/libexec/canvas", "canvasd": "usr/bin/canvasd"}
"""Where the Debian package has each program. Over `canvas` stands its script; `canvasd` answers --help itself."""
COMPLETION = "packaging/bash-completion.sh"
"""What bash completes behind the commands. It is looked for by the name of each."""
COMPLETED = (*PROGRAMS, "canvas-admin", *COMMANDS)
"""The commands that it is for."""
CONTROL = f"""Package: canvas
Version: {VERSION}
Architecture: amd64
Maintainer: Yurdepla
Section: graphics
Priority: optional
Depends: libc6 (>= 2.34), python3 (>= 3.9)
Recommends: python3-aiohttp, python3-pil
Suggests: systemd, nginx, libnginx-mod-stream, haproxy, python3-psycopg, python3-prometheus-client, patroni, etcd-server, postgresql
Installed-Size: SIZE
Description: proved server behind a shared drawing tool
 It keeps one design document of frames, groups and shapes, takes edits as
 lines of JSON, and paints rectangles of the document as P6 images. canvasd
 keeps the document in a folder, where no crash loses what was answered.
"""
COPYRIGHT = "canvas, of Yurdepla. No licence has been chosen yet.\n"


# -- the man page ------------------------------------------------------------------------------------------------------

def escaped(text):
    """A text as roff takes it."""
    text = text.replace("\\", "\\e").replace("-", "\\-")
    return "\\&" + text if text.startswith((".", "'")) else text


def man_page(name, day):
    """The man page of a program's help: its headings, terms with what they mean, commands, and paragraphs."""
    title, *lines = (TOP / "tools" / f"{name}.help").read_text().splitlines()
    out = [f'.TH {name.upper()} 1 {day} "canvas {VERSION}"', ".SH NAME", escaped(title.replace(" VERSION", "")), ".SH DESCRIPTION"]
    for number, line in enumerate(lines):
        following = lines[number + 1] if number + 1 < len(lines) else ""
        words = line.strip()
        if line.isupper() and line == words:
            out.append(f".SH {words}")
        elif words.startswith("$ "):
            out += [".PP", f".B {escaped(words[2:])}"]
        elif line.startswith("  ") and line[2] != " " and following.startswith(6 * " "):
            out += [".TP", f".B {escaped(words)}"]
        elif words:
            out.append(escaped(words))
    return "\n".join(out) + "\n"


# -- what is in the packages -------------------------------------------------------------------------------------------

def day_of_version():
    """The day that CHANGELOG.md names for this version."""
    found = re.search(rf"^## {re.escape(VERSION)} \((\d{{4}}-\d\d-\d\d)\)$", (TOP / "CHANGELOG.md").read_text(), re.M)
    return found[1] if found else sys.exit(f"CHANGELOG.md has no line '## {VERSION} (YEAR-MONTH-DAY)'")


def files_of(patterns):
    """The files of the repository with these names, in order."""
    return [path for it in patterns for path in sorted(TOP.glob(it)) if path.is_file()]


def put(folder, name, content, is_program=False):
    """Writes a file with the rights of all others."""
    target = folder / name
    target.parent.mkdir(parents=True, exist_ok=True)
    target.write_bytes(content)
    target.chmod(0o755 if is_program else 0o644)


def put_files(folder, patterns):
    for path in files_of(patterns):
        put(folder, path.relative_to(TOP), path.read_bytes(), os.access(path, os.X_OK))


def put_python(folder):
    """Writes the package in Python, with the page and the examples that its commands show."""
    top = TOP / "python" / "canvas"
    for place, folders, names in os.walk(top):
        folders[:] = sorted(it for it in folders if not it.startswith((".", "__")))
        for name in sorted(names):
            put(folder, Path(place, name).relative_to(top), Path(place, name).read_bytes())
    for path in files_of(["web/page/*"]):
        put(folder, f"gateway/page/{path.name}", path.read_bytes())
    for name in DRAWN:
        put(folder, f"examples/{name}", (TOP / "examples" / name).read_bytes())


def put_commands(folder):
    """Writes the commands of the package in Python, for the system's own."""
    for name, place in COMMANDS.items():
        module, function = place.split(":")
        target = f"usr/{'sbin' if name in OF_ROOT else 'bin'}/{name}"
        put(folder, target, COMMAND.format(module=module, function=function).encode(), True)


def link(folder, name, target):
    """Makes a link to a file beside it, or to one that stands by a relative path."""
    (folder / name).parent.mkdir(parents=True, exist_ok=True)
    (folder / name).symlink_to(target)


def put_completion(folder):
    """Writes what bash completes, under the name of each command."""
    first, *others = COMPLETED
    put(folder, first, (TOP / COMPLETION).read_bytes())
    for name in others:
        link(folder, name, first)


def checksums(folder, names):
    return "".join(f"{hashlib.sha256((folder / it).read_bytes()).hexdigest()}  {it}\n" for it in names).encode()


def all_files(folder):
    return sorted(str(it.relative_to(folder)) for it in folder.rglob("*") if it.is_file() and not it.is_symlink())


def fill_tarball(folder, programs, pages):
    put_files(folder, SHARED + OF_SCRIPTS + PYTHON + tuple(f"bin/{it}" for it in COMMANDS))
    put_python(folder / "python" / "canvas")
    for name in PROGRAMS:
        put(folder, f"libexec/{name}", programs[name], True)
        put(folder, f"share/man/man1/{name}.1", pages[name])
    put(folder, "SHA256SUMS", checksums(folder, all_files(folder)))


def fill_package(folder, programs, pages):
    put_files(folder / "usr/share/canvas", SHARED)
    put_files(folder / "usr/lib/canvas", OF_CANVAS)
    link(folder, "usr/bin/canvas", "../lib/canvas/bin/canvas")
    put_completion(folder / "usr/share/bash-completion/completions")
    for name in PROGRAMS:
        put(folder, UNDER_DEBIAN[name], programs[name], True)
        put(folder, f"usr/share/man/man1/{name}.1.gz", gzip.compress(pages[name], mtime=0))
    put_python(folder / "usr/lib/python3/dist-packages/canvas")
    put_commands(folder)
    for name, target in INSTALLED.items():
        path = TOP / "packaging" / name
        put(folder, target, path.read_bytes(), os.access(path, os.X_OK))
    put(folder, "usr/share/doc/canvas/copyright", COPYRIGHT.encode())
    put(folder, "usr/share/doc/canvas/changelog.gz", gzip.compress((TOP / "CHANGELOG.md").read_bytes(), mtime=0))
    size = sum((folder / it).stat().st_size for it in all_files(folder))
    sums = "".join(f"{hashlib.md5((folder / it).read_bytes()).hexdigest()}  {it}\n" for it in all_files(folder))
    put(folder, "DEBIAN/control", CONTROL.replace("SIZE", str(-(-size // 1024))).encode())
    put(folder, "DEBIAN/md5sums", sums.encode())
    put(folder, "DEBIAN/postinst", AFTER.encode(), True)
    put(folder, "DEBIAN/prerm", BEFORE.encode(), True)


# -- the packages ------------------------------------------------------------------------------------------------------

def tarball(folder, top, seconds):
    """The compressed tar file of a folder, under the name of its top."""
    out = io.BytesIO()
    with tarfile.open(fileobj=out, mode="w", format=tarfile.GNU_FORMAT) as archive:
        archive.add(folder, top, filter=lambda it: plain(it, seconds))  # (it adds what a folder has by the order of names)
    return gzip.compress(out.getvalue(), mtime=0)


def make_package(folder, target, seconds):
    """Makes the Debian package of a folder."""
    for it in [folder, *folder.rglob("*")]:
        if it.is_dir():
            it.chmod(0o755)
        os.utime(it, (seconds, seconds), follow_symlinks=False)
    words = ["dpkg-deb", "--root-owner-group", "-Zxz", "--threads-max=1", "--build", str(folder), str(target)]
    subprocess.run(words, env={**os.environ, "SOURCE_DATE_EPOCH": str(seconds)}, stdout=subprocess.DEVNULL, check=True)


def make(files, to, with_libraries=False, built=False):
    """Makes the release of the programs in these files, and gives the names of its own."""
    day = day_of_version()
    seconds = int(datetime.fromisoformat(day).replace(tzinfo=timezone.utc).timestamp())
    pages = {name: man_page(name, day).encode() for name in PROGRAMS}
    programs = {name: files[name].read_bytes() for name in PROGRAMS}
    top = f"canvas-{VERSION}-x86_64-linux"
    names = [f"{top}.tar.gz", f"canvas_{VERSION}_amd64.deb"]
    to.mkdir(parents=True, exist_ok=True)
    if with_libraries:
        names.append(f"canvas-{VERSION}-libraries.tar")
        pack(to / names[-1], built)
    with tempfile.TemporaryDirectory(prefix="canvas-release-") as room:
        fill_tarball(Path(room, top), programs, pages)
        (to / names[0]).write_bytes(tarball(Path(room, top), top, seconds))
        fill_package(Path(room, "package"), programs, pages)
        make_package(Path(room, "package"), to / names[1], seconds)
    (to / "SHA256SUMS").write_bytes(checksums(to, names))
    return [*names, "SHA256SUMS"]


def main():
    words = argparse.ArgumentParser(description="makes a release from the built programs")
    for name in PROGRAMS:
        words.add_argument(f"--{name}", type=Path, default=TOP / "crates" / name / "out" / name, metavar="FILE", help=f"the built program {name}")
    words.add_argument("--to", type=Path, default=TOP / "dist", metavar="FOLDER", help="where the release is put")
    libraries = words.add_mutually_exclusive_group()
    libraries.add_argument("--built", action="store_true", help="the libraries are of these sources, though they have no stamp")
    libraries.add_argument("--programs-alone", action="store_true", help="leave the libraries out")
    given = words.parse_args()
    files = {name: getattr(given, name) for name in PROGRAMS}
    for name, file in files.items():
        if not file.is_file():
            sys.exit(f"release.py: there is no program {file}; bin/{name} builds it")
    if not shutil.which("dpkg-deb"):
        sys.exit("release.py: there is no dpkg-deb, which Debian's package dpkg has")
    try:
        names = make(files, given.to, not given.programs_alone, given.built)
    except NoLibraries as why:
        sys.exit(f"release.py: {why}; --programs-alone makes a release without")
    for name in names:
        print(given.to / name)


if __name__ == "__main__":
    main()
