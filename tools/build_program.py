#!/usr/bin/env python3
"""Builds the program canvas or canvasd, which proves it, and says on standard error how far it is.

usage: tools/build_program.py canvas|canvasd [COMMAND [WORD..]]     where it is built, the command runs in the place of this one

Libraries that do not wait for each other are built side by side, the longest chain first, which gets the processors that stand idle
(tools/build_times.py), each in a copy of what it needs; what is built goes to the crate's out/, and beside the program what it was made
from (tools/made_from.sh). On a terminal one line is written again and again, elsewhere one each minute. The status is 4 where the build
failed. Ctrl-C, SIGTERM and SIGHUP end all that the build started, and then the build.
"""

import contextlib
import os
import shutil
import signal
import subprocess
import sys
import tempfile
import threading
import time
from concurrent.futures import FIRST_COMPLETED, ThreadPoolExecutor, wait
from pathlib import Path

from build_times import chains, minutes, processors, to_begin
from repository import FIRST_RUNS, TOP, alone, below, copy_for, sources, take_over, taken, uses

PROGRAM = sys.argv[1] if sys.argv[1:] and sys.argv[1] in FIRST_RUNS else sys.exit("usage: build_program.py canvas|canvasd [COMMAND [WORD..]]")
OUT = TOP / "crates" / PROGRAM / "out"
# What a check beside others should find free, in bytes, and what each further job takes.
ENOUGH = 4_000_000_000
FURTHER_JOB = 1_500_000_000
# The signals that end a build.
ENDING = (signal.SIGINT, signal.SIGTERM, signal.SIGHUP)


class NotBuilt(Exception):
    """A crate could not be built: its name, and what was said of it."""


class Stopped(Exception):
    """A signal ends the build: its number."""


class Commands:
    """The commands that run for the build, each as the leader of a session, so that what it starts can be found."""

    def __init__(self):
        self._lock, self._leaders, self._is_over = threading.Lock(), set(), False

    def run(self, words, folder, room):
        """Runs a command, whose temporary files go to the room, and gives its status and what it said."""
        how = {"stdin": subprocess.DEVNULL, "stdout": subprocess.PIPE, "stderr": subprocess.STDOUT, "errors": "replace"}
        with self._lock:
            if self._is_over:
                raise NotBuilt(folder.name, "the build was stopped")
            command = subprocess.Popen(words, cwd=folder, start_new_session=True, env={**os.environ, "TMPDIR": str(room)}, **how)
            self._leaders.add(command.pid)
        said, _ = command.communicate()
        end_sessions({command.pid})
        with self._lock:
            self._leaders.discard(command.pid)
        for left in (folder / "out").glob(f"rt-work-{command.pid}-*"):
            shutil.rmtree(left, ignore_errors=True)
        return command.returncode, said

    def end(self):
        """Ends all commands with all that they started, and lets none begin any more."""
        with self._lock:
            self._is_over = True
            end_sessions(self._leaders)


COMMANDS = Commands()


def sessions():
    """The processes that run, each with its session."""
    for entry in Path("/proc").iterdir():
        if entry.name.isdigit():
            with contextlib.suppress(OSError):
                state, _, _, session = (entry / "stat").read_text(errors="replace").rpartition(")")[2].split()[:4]
                if state not in "ZX":
                    yield int(entry.name), int(session)


def end_sessions(leaders):
    """Kills what runs in these sessions, until nothing does."""
    while found := [pid for pid, session in sessions() if session in leaders]:
        for pid in found:
            with contextlib.suppress(ProcessLookupError):
                os.kill(pid, signal.SIGKILL)
        time.sleep(0.02)


def say(text):
    print(f"{PROGRAM}: {text}", file=sys.stderr, flush=True)


def free_memory():
    for line in Path("/proc/meminfo").read_text().splitlines():
        if line.startswith("MemAvailable:"):
            return 1024 * int(line.split()[1])
    return 0


def seems_built(name):
    """Whether a library was built after all that it is made from was written; `rt run` compares what these files hold."""
    stamp = TOP / "crates" / name / "out" / "rlib" / "stamp"
    made_from = [it for crate in [*below(name), name] for it in sources(crate)] + [TOP / "crates.txt"]
    return stamp.is_file() and all(it.stat().st_mtime < stamp.stat().st_mtime for it in made_from)


class Progress:
    """The one line that says how far the build is."""

    def __init__(self, count):
        self._count, self._begin, self._said = count, time.monotonic(), 0.0
        self._on_terminal = sys.stderr.isatty()

    def passed(self):
        minutes, seconds = divmod(int(time.monotonic() - self._begin), 60)
        return f"{minutes} min {seconds} s"

    def show(self, done, running):
        text = f"{PROGRAM}: {done} of {self._count} crates proved and built, now {', '.join(sorted(running))}; {self.passed()} so far"
        now = time.monotonic()
        if self._on_terminal:
            print(f"\r\x1b[K{text[:os.get_terminal_size(2).columns - 1]}", end="", file=sys.stderr, flush=True)
        elif now - self._said >= 60:
            self._said = now
            print(text, file=sys.stderr, flush=True)

    def end(self):
        if self._on_terminal:
            print("\r\x1b[K", end="", file=sys.stderr, flush=True)


def call(words, folder, room):
    """Runs a command, whose output is kept for where it fails."""
    status, said = COMMANDS.run(words, folder, room)
    if status != 0:
        raise NotBuilt(folder.name, said)


def build_library(name, jobs):
    """Builds a library in a copy."""
    with tempfile.TemporaryDirectory(prefix="canvas-build-") as room:
        crate = copy_for(name, Path(room, "copy"), with_taken=True)
        call(["rt", "lib", "--jobs", str(jobs)], crate, room)
        take_over(crate / "out", TOP / "crates" / name / "out")


def build_program():
    """Builds the program over its libraries, and runs it once."""
    with tempfile.TemporaryDirectory(prefix="canvas-build-") as room:
        jobs = with_memory({PROGRAM: processors()}, False)[PROGRAM]
        call(["rt", "run", "--jobs", str(jobs), "--", *FIRST_RUNS[PROGRAM]], TOP / "crates" / PROGRAM, room)


def made_from():
    """The checksums of the program and of what it is made from, as they are now."""
    done = subprocess.run([TOP / "tools" / "made_from.sh", PROGRAM], stdout=subprocess.PIPE, stderr=subprocess.DEVNULL, text=True, check=True)
    return done.stdout.splitlines()


def with_memory(begun, is_beside):
    """What is to be begun and its jobs, as far as there is memory for it: beside others a check wants ENOUGH, alone it is begun in any case."""
    found, free = {}, free_memory()
    for name, jobs in begun.items():
        if (is_beside or found) and free < ENOUGH:
            break
        found[name] = max(min(jobs, 1 + (free - ENOUGH) // FURTHER_JOB), 1)
        free -= found[name] * FURTHER_JOB
    return found


def build_libraries(progress, pool, chain):
    """Builds each library once those that it uses are built, and first the one with the longest chain behind it."""
    used, done = uses(), set(filter(seems_built, below(PROGRAM)))
    left, running = sorted(set(below(PROGRAM)) - done, key=lambda it: -chain[it]), {}
    while left or running:
        ready = [it for it in left if done.issuperset(used[it])]
        begun = to_begin(ready, {it for it, _ in running.values()}, chain, processors() - sum(jobs for _, jobs in running.values()))
        for name, jobs in with_memory(begun, bool(running)).items():
            running[pool.submit(build_library, name, jobs)] = name, jobs
            left.remove(name)
        progress.show(len(done), [it for it, _ in running.values()])
        for it in wait(running, timeout=1, return_when=FIRST_COMPLETED).done:
            done.add(running.pop(it)[0])
            it.result()


def build_all(progress, pool):
    build_libraries(progress, pool, chains([*below(PROGRAM), PROGRAM], uses()))
    last = pool.submit(build_program)
    while not wait([last], timeout=1).done:
        progress.show(len(below(PROGRAM)), [PROGRAM])
    last.result()


def has_kept(name):
    """Whether earlier checks of a crate left what a build begins with."""
    return any((TOP / "crates" / name / "out" / "incremental").glob("*"))


def say_what_comes():
    """Says how long the build takes at most, and what would take less."""
    names = below(PROGRAM)
    built = [it for it in names if seems_built(it)]
    say(f"building the program, which proves all of it: about {minutes(PROGRAM, built):.0f} minutes on {processors()} processors, twice that if they are slow")
    if any(has_kept(it) for it in [*names, PROGRAM] if it not in built):
        say("it takes less, since it goes on from what earlier checks kept")
    if len(built) < len(names):
        say(f"the program of a release runs at once; over a release's libraries a build takes about {minutes(PROGRAM, names):.0f} minutes (docs/INSTALL.md)")


def not_proved_here():
    count = len(taken(PROGRAM))
    return f"; {count} of its libraries were taken from a release, and nothing here proved them" if count else ""


def build(pool):
    """Builds all, and notes what the program was made from as it was when that began."""
    say_what_comes()
    progress = Progress(len(below(PROGRAM)) + 1)
    sources_before = made_from()[1]
    try:
        build_all(progress, pool)
        (OUT / f"{PROGRAM}.made-from").write_text(f"{made_from()[0]}\n{sources_before}\n")
    finally:
        progress.end()
    say(f"built, in {progress.passed()}{not_proved_here()}")


def fail(fault):
    name, said = fault.args
    print(*said.splitlines()[-20:], sep="\n", file=sys.stderr)
    log = OUT / "build.log"
    log.write_text(said)
    say(f"{name} was not built; what was said of it stands in {log.relative_to(TOP)}")
    sys.exit(4)


def stop(number, _):
    for it in ENDING:
        signal.signal(it, signal.SIG_IGN)
    raise Stopped(number)


def end_by(number):
    """Ends as the signal ends a program that does not care for it."""
    signal.signal(number, signal.SIG_DFL)
    os.kill(os.getpid(), number)


def run_instead(words):
    """Runs a command in the place of this one. (Python ignores two signals, and the command would inherit that.)"""
    for number in (signal.SIGPIPE, signal.SIGXFSZ):
        signal.signal(number, signal.SIG_DFL)
    os.execv(words[0], words)


def build_in_turn(pool):
    """Builds once no other build works here. Where a crate fails the others that are being built go on to their end."""
    OUT.mkdir(exist_ok=True)
    with alone():
        try:
            build(pool)
        except NotBuilt:
            pool.shutdown()
            raise


def main():
    for number in ENDING:
        if signal.getsignal(number) is not signal.SIG_IGN:
            signal.signal(number, stop)
    pool = ThreadPoolExecutor(processors())
    try:
        build_in_turn(pool)
    except NotBuilt as fault:
        fail(fault)
    except Stopped as stopped:
        COMMANDS.end()
        pool.shutdown()
        end_by(stopped.args[0])
    if sys.argv[2:]:
        run_instead(sys.argv[2:])


if __name__ == "__main__":
    main()
