#!/usr/bin/env python3
"""Tries the wrong bodies of a crate: the check must refuse each.

usage: tools/try_wrong_bodies.py NAME [EDIT..] [--jobs N] [--together N]
       tools/try_wrong_bodies.py --record [--dry-run] [--proved] [NAME..] [--jobs N] [--together N]
       tools/try_wrong_bodies.py --check [--built] [--minutes N] [--jobs N] [--together N]

A wrong body is an edit of crates/NAME/wrong-bodies/: a line 'file: src/..', and pairs of lines 'old: TEXT' and 'new: TEXT', where TEXT stands once in the
file. Each is applied to a copy of the crate and checked over what earlier checks kept in its out/, which itself is left as it is. One that changes bodies of
functions is judged by these alone: no proof rests on another function's body. A check tries several that change functions with different names. An edit
that the prover says nothing of there, or that changes anything else, is tried by itself.

Each edit has a line 'refused', 'PROVED' or 'not judged' with the reason; the last line is 'N refused, M proved, K not judged'. The
status is 0 only where all are refused, and 2 where the crate itself is not proved.

--record tries the bodies of these crates, or of all, and writes crates/NAME/wrong-bodies/verdicts, group by group. It leaves out those of which
a record of these sources says that they are refused, so it can be stopped and begun again. --dry-run only says what it would try.

--check compares the records with the sources. Where a record is of others, it tries the crate's bodies, lowest first, and begins no check after
so many minutes (60); the crates that are then left have failed. Before that it tries again 24 of the recorded bodies, of at most three crates, which the commit chooses
(or, where there is no git, the sources). It writes nothing. Its last line is 'N passed, M failed'. With --built it takes the libraries that
stand in out/ for those of the sources, as they are just after `rt ci`; else those with no stamp are built anew.
"""

import argparse
import os
import re
import shutil
import subprocess
import sys
import tempfile
import time
from concurrent.futures import ThreadPoolExecutor, as_completed
from contextlib import contextmanager
from itertools import chain
from pathlib import Path
from queue import Queue

import verdicts
from edits import BadEdit, edited, functions_of
from functions import prover_names, refused_function
from repository import TOP, below, copy_again, copy_for, stamp_libraries

# A goal or an import of a proof that names what the edit took away.
NAMES_WHAT_IS_GONE = re.compile(r"(\./)?proofs/.*(has no field|is not in scope|has no `|was not admitted)")
# An answer that was kept for a goal that holds by itself with this body: nothing is wrong with the body there.
NO_LONGER_FITS = re.compile(r"(?:\./)?proofs/\S+: error(?s:.*)expected type:? `?Unit \{0\}`?\s*$", re.M)
# The status of a check that was called wrongly, as where a name fits no function or several.
MISCALLED = 2
# A place in a file.
PLACE = re.compile(r"(note: )?\S+:\d+:\d+:")
# A text that cannot be read at all, rather than a goal that is not proved.
UNREAD = re.compile(r"is not in scope|has no field|is no name|operand is missing|expected the end|cannot continue")


def check(crate, jobs=1, only=()):
    """The status of a check, and the lines that it printed. It is of these functions alone, if some are given and the prover knows them by these names."""
    words = ["rt", "check", "--jobs", str(jobs), *(word for name in only for word in ("--only", name))]
    done = subprocess.run(words, cwd=crate, stdin=subprocess.DEVNULL, stdout=subprocess.PIPE, stderr=subprocess.STDOUT, errors="replace")
    if only and done.returncode == MISCALLED:
        return check(crate, jobs)
    return done.returncode, done.stdout.rstrip("\n").split("\n")


def is_unread(line, changed):
    """Whether a line says that an edited text, or one beside it, cannot be read."""
    at = re.match(r"(?:\./)?(\S+?):\d+:\d+: error: (?:(`[^`]*`): )?(.*)", line)
    if not at or not (at[1] in changed or at[1].startswith(("src/", "specs/"))):
        return False
    return not at[2] or bool(UNREAD.search(re.sub(r"`[^`]*`", "", at[3])))


def judged(status, lines, changed):
    """What a check of a wrong body says of it, and the line that it goes by."""
    unread = next((it for it in lines if is_unread(it, changed)), None)
    if unread:
        return "not judged", f"the edited text cannot be read: {unread}"
    if status == 0:
        return "PROVED", "it is proved with this body"
    said = told(lines)
    if status != 1 or not any(it.startswith(("logic=not-proved", "only=")) for it in lines):
        return "not judged", f"it did not come to the prover: {' / '.join(said[:2] or lines[-3:])}"
    first = next((it for it in said if not of_proof_alone(it)), None)
    if said and not first:
        return "not judged", f"only a proof file no longer fits: {said[0]}"
    return "refused", first or ""


def told(lines):
    """What the prover said of places in files, each with the lines below it that are set in."""
    found, is_open = [], False
    for line in lines:
        if is_open and line.startswith("  "):
            found[-1] += f"\n{line}"
        else:
            is_open = bool(PLACE.match(line))
            found += [line] * is_open
    return [it for it in found if it.startswith("note: ") or ": error" in it.split("\n")[0]] or found


def of_proof_alone(said):
    """Whether this says only that a proof file names what the edit took away, or answers a goal that now holds by itself."""
    return bool(NAMES_WHAT_IS_GONE.match(said) or NO_LONGER_FITS.match(said))


@contextmanager
def files_kept(crate):
    """Gives what takes the new texts of files and writes them, and puts the old ones back in the end."""
    were = {}

    def write(texts):
        for path, text in texts.items():
            were.setdefault(path, (crate / path).read_text())
            (crate / path).write_text(text)

    try:
        yield write
    finally:
        for path, text in were.items():
            (crate / path).write_text(text)


def tried(edit, crate):
    """What is said of one edit, tried in a copy of the crate, whose files are put back."""
    with files_kept(crate) as write:
        try:
            texts = edited(edit.read_text(), crate)
        except BadEdit as why:
            return "not judged", str(why)
        names = functions_of(edit, crate)
        write(texts)
        return judged(*check(crate, only=paths_of(names or (), texts)), texts)


def paths_of(names, texts):
    """What the prover is told to check for functions with these names in these files."""
    return sorted({end for path, text in texts.items() for name, end in prover_names(path, text) if name in names})


def in_groups(edits, crate, most):
    """Groups of up to so many edits, each with the names of the functions that it changes: no name stands twice in a group."""
    groups = []
    for edit in edits:
        names = functions_of(edit, crate)
        room = (it for it in groups if names and len(it) < most and all(other and names.isdisjoint(other) for other in it.values()))
        group = next(room, None)
        if group is None:
            groups.append(group := {})
        group[edit] = names
    return groups


def refused_together(group, crate):
    """Those edits of a group that a check of them all refuses, each with the line that it goes by."""
    with files_kept(crate) as write:
        texts = {}
        for edit in group:
            try:
                texts.update(edited(edit.read_text(), crate))
            except BadEdit:
                return {}
            write(texts)
        status, lines = check(crate, only=paths_of(set().union(*group.values()), texts))
    if judged(status, lines, texts)[0] != "refused":
        return {}
    found = {}
    for line in told(lines):
        name = None if of_proof_alone(line) else refused_function(line, texts)
        for edit, names in group.items():
            if name in names:
                found.setdefault(edit, line)
    return found


def tried_together(group, crate):
    """What is said of each edit of a group."""
    found = refused_together(group, crate) if len(group) > 1 else {}
    return [(it, "refused", found[it]) if it in found else (it, *tried(it, crate)) for it in group]


def chosen(name, words):
    """The edits with these names, or all."""
    found = {it.stem: it for it in verdicts.edits_of(name)}
    unknown = set(words) - set(found)
    if unknown:
        sys.exit(f"{name} has no wrong body {', '.join(sorted(unknown))}")
    return [found[it] for it in sorted(words or found)]


class NotProved(Exception):
    """The crate itself is not proved, so no wrong body was tried."""


def proved_copy(name, room, given):
    """A repository of the crate in which it is proved, which is made in the room where that has none. While it stands there, `rt` takes
    the libraries that it built for those of other crates. A crate that is known to be proved is not checked again."""
    folder = room / name
    if not folder.is_dir():
        crate = copy_for(name, folder)
        if given.built:
            stamp_libraries(folder)
        status, lines = (0, []) if given.proved else check(crate, given.jobs)
        if status != 0:
            shutil.rmtree(folder)
            raise NotProved("\n".join([*lines[-20:], f"{name} itself is not proved, so no wrong body was tried"]))
    return folder


def try_all(name, edits, given, room, deadline=None, keep=lambda _: None):
    """Tries the edits in groups of up to `given.together`, `given.jobs` groups side by side, each in a copy of its own that later ones use again. Gives what
    is said of each edit by its name, and leaves out those whose check would begin after the deadline. `keep` is given what is known after each edit."""
    jobs = given.jobs
    proved = proved_copy(name, room, given)
    groups = in_groups(edits, proved / "crates" / name, given.together)
    with tempfile.TemporaryDirectory(dir=room) as copies:
        crates = Queue()
        for number in range(min(jobs, len(groups))):
            copy_again(proved, Path(copies) / str(number))
            crates.put(Path(copies) / str(number) / "crates" / name)

        def work(group):
            crate = crates.get()
            try:
                return [] if deadline and time.monotonic() > deadline else tried_together(group, crate)
            finally:
                crates.put(crate)

        found = {}
        with ThreadPoolExecutor(jobs) as pool:
            begun = [pool.submit(work, it) for it in groups]
            try:
                for edit, said, why in chain.from_iterable(it.result() for it in as_completed(begun)):
                    found[edit.stem] = said
                    keep(found)
                    print(f"{edit.stem}: {said}{': ' + why.splitlines()[0][:200] if why else ''}", flush=True)
            finally:
                pool.shutdown(cancel_futures=True)
        return found


def summed(found):
    """The last line for what was said of edits."""
    said = list(found.values())
    return f"{said.count('refused')} refused, {said.count('PROVED')} proved, {said.count('not judged')} not judged"


def all_refused(found):
    """Whether these verdicts are there and are all 'refused'."""
    return found is not None and all(it == verdicts.REFUSED for it in found.values())


def left_to_try(name):
    """The wrong bodies of a crate of which no record of these sources says that they are refused."""
    found = verdicts.begun(name)
    return [it for it in verdicts.edits_of(name) if found.get(it.stem) != verdicts.REFUSED]


def record(names, given, room):
    """Writes the records of crates, and gives whether all their bodies are refused."""
    todo = {it: edits for it in names if (edits := left_to_try(it))}
    groups = {it: len(in_groups(edits, TOP / "crates" / it, given.together)) for it, edits in todo.items()}
    print(f"{len(names) - len(todo)} records stand; to try: {sum(map(len, todo.values()))} bodies of {len(todo)} crates in {sum(groups.values())} checks or more")
    good = True
    for name, edits in todo.items():
        print(f"== {name}: {len(edits)} bodies, {groups[name]} checks or more", flush=True)
        good = (given.dry_run or record_crate(name, edits, given, room)) and good
    return good


class Changed(Exception):
    """The sources are no longer those that the verdicts are of."""


def record_crate(name, edits, given, room):
    """Tries these bodies of a crate, writes each verdict into its record as soon as it is there, and gives whether all are refused."""
    begun, state, known = time.monotonic(), verdicts.state(name), verdicts.begun(name)

    def keep(found):
        if verdicts.state(name) != state:
            raise Changed
        verdicts.place_of(name).write_text(verdicts.written(verdicts.checksums(name), known | found))

    try:
        found = try_all(name, edits, given, room, keep=keep)
    except NotProved as why:
        return bool(print(why))
    except Changed:
        return bool(print(f"{name}: its sources changed meanwhile, so nothing more was written"))
    print(f"{name}: {summed(found)}, in {time.monotonic() - begun:.0f} s", flush=True)
    return all_refused(found)


def check_crate(name, edits, given, room, deadline):
    """The number of these bodies that are refused, and a line for each other thing."""
    if deadline and time.monotonic() > deadline:
        return 0, [f"{name}: no time was left to try {len(edits)} bodies"]
    try:
        found = try_all(name, edits, given, room, deadline)
    except NotProved as why:
        return 0, [str(why)]
    faults = [f"{name}: {it} is {said}" for it, said in found.items() if said != verdicts.REFUSED]
    left = len(edits) - len(found)
    return len(found) - len(faults), faults + ([f"{name}: no time was left to try {left} of {len(edits)} bodies"] if left else [])


def check_records(given, room):
    """Checks the records and a sample of them, and gives the number of things that passed and a line for each that failed."""
    deadline = time.monotonic() + 60 * given.minutes
    names = verdicts.crates_with_bodies()
    records = {it: verdicts.recorded(it) for it in names}
    current = {it: found for it, found in records.items() if found is not None}
    faults = [f"{name}: {it} is recorded as {said}" for name, found in current.items() for it, said in found.items() if said != verdicts.REFUSED]
    passed = sum(map(all_refused, current.values()))
    again = verdicts.sample(verdicts.seed(), current, {it: below(it) for it in names}, verdicts.without_edit(names))
    work = [(f"{name}: {len(words)} recorded bodies again", name, chosen(name, words), None) for name, words in again.items()]
    work += [(f"{name}: no whole record of these sources", name, left_to_try(name), deadline) for name in names if name not in current]
    for why, name, edits, until in work:
        print(f"== {why}", flush=True)
        refused, wrong = check_crate(name, edits, given, room, until)
        passed += refused
        faults += wrong
    return passed, faults


def try_named(given, room):
    """Tries edits of one crate, and gives the status."""
    if not given.names:
        sys.exit("of which crate?")
    name, *words = given.names
    edits = chosen(name, [it.removesuffix(".edit") for it in words])
    try:
        found = try_all(name, edits, given, room) if edits else {}
    except NotProved as why:
        print(why)
        return 2
    print(summed(found))
    return 0 if all_refused(found) else 1


def main():
    asked = argparse.ArgumentParser(description=__doc__.split("\n\n")[0])
    asked.add_argument("names", nargs="*", metavar="NAME", help="the crate and edits of it, without .edit (none: all of wrong-bodies/); with --record crates")
    asked.add_argument("--record", action="store_true", help="write the records of these crates, or of all")
    asked.add_argument("--dry-run", action="store_true", help="with --record: say only what would be tried")
    asked.add_argument("--check", action="store_true", help="check the records of all crates")
    asked.add_argument("--built", action="store_true", help="with --check: the libraries in out/ are of these sources, though they have no stamp")
    asked.add_argument("--proved", action="store_true", help="the crates are known to be proved: only what the changed functions call is checked")
    asked.add_argument("--minutes", type=int, default=60, metavar="N", help="with --check: begin no check of a crate with no record after so many minutes (60)")
    asked.add_argument("--jobs", type=int, metavar="N", help="checks that run side by side (1, with --check one for each processor)")
    asked.add_argument("--together", type=int, default=8, metavar="N", help="edits that one check tries at most (8)")
    given = asked.parse_args()
    given.jobs = max(1, given.jobs or (os.cpu_count() if given.check else 1))
    with tempfile.TemporaryDirectory(prefix="wrong-bodies-") as room:
        sys.exit(done(given, Path(room)))


def done(given, room):
    """Does what is asked, and gives the status."""
    if given.check:
        passed, faults = check_records(given, room)
        print(*faults, sep="\n", end="\n" if faults else "")
        print(f"{passed} passed, {len(faults)} failed")
        return 1 if faults else 0
    if given.record:
        known = verdicts.crates_with_bodies()
        unknown = set(given.names) - set(known)
        if unknown:
            sys.exit(f"no wrong bodies of {', '.join(sorted(unknown))}")
        return 0 if record([it for it in known if not given.names or it in given.names], given, room) else 1
    return try_named(given, room)


if __name__ == "__main__":
    main()
