"""The record of a crate's wrong bodies: crates/NAME/wrong-bodies/verdicts.

Each line has a body, the checksum of all that its verdict rests on, and its verdict, in the order of their names.
"""

import hashlib
import subprocess
from functools import cache

from edits import edited, functions_of
from functions import functions, without_layout
from repository import SOURCES, TOP, below, lines
from statements import OF_ONE_FUNCTION, files, own_statements, seen_below

REFUSED = "refused"


@cache
def logic():
    """The sum of the kit's logic, as `rt version` and the last line of each check print it. Two kits that share it judge alike, whatever their names."""
    version = subprocess.run(["rt", "version"], stdin=subprocess.DEVNULL, stdout=subprocess.PIPE, text=True, check=True).stdout
    return version.split()[-1]


def edits_of(name):
    """The wrong bodies of a crate."""
    return sorted((TOP / "crates" / name / "wrong-bodies").glob("*.edit"))


def crates_with_bodies():
    """The crates that have wrong bodies, lowest first."""
    return [it for it in lines() if edits_of(it)]


def under_all(name):
    """What the verdicts of all wrong bodies of a crate rest on: the kit's logic, the crate's line and handles, what the crate itself states, and what it
    sees of the crates below."""
    return (logic(), lines()[name], (TOP / "HANDLES").read_text(), own_statements(name), seen_below(name))


def under_body(edit, crate):
    """What the verdict of one wrong body rests on beside that: the functions with their new bodies and what proves them. No proof rests on another
    function's body. Of an edit that changes anything else it is all that the crate has."""
    names = functions_of(edit, crate)
    if names is None:
        return edit.read_text(), [pair for part in SOURCES for pair in files(crate.name, part)]
    bodies = [(path, it) for path, text in edited(edit.read_text(), crate).items() for it in texts_of(text, names)]
    return bodies, [(path, text) for path, text in files(crate.name, "proofs") if path.split("/")[-1] in OF_ONE_FUNCTION and names & set(path.split("/"))]


def texts_of(source, names):
    """The texts of the functions of a source with these names."""
    rows = source.split("\n")
    return [without_layout("\n".join(rows[it.begins - 1:it.ends])) for it in functions(source) if it.name in names]


@cache
def checksums(name):
    """For each wrong body of a crate the checksum of what its verdict rests on. How a source is laid out is left out: a clause may be broken at another
    place."""
    crate, under = TOP / "crates" / name, hashlib.sha256(repr(under_all(name)).encode()).hexdigest()
    return {it.stem: hashlib.sha256(repr((under, it.stem, under_body(it, crate))).encode()).hexdigest()[:32] for it in edits_of(name)}


def state(name):
    """The sum of all sources of a crate, of its edits and of the crates below: while it stays the same, so do the checksums."""
    found = hashlib.sha256()
    for crate in [*below(name), name]:
        for path in sorted(it for part in (*SOURCES, "wrong-bodies") for it in (TOP / "crates" / crate / part).rglob("*") if it.is_file() and it.name != "verdicts"):
            found.update(path.read_bytes())
    return found.digest()


def place_of(name):
    """Where a crate's record stands."""
    return TOP / "crates" / name / "wrong-bodies" / "verdicts"


def read(text):
    """The checksums and verdicts that a record has, by the names of the bodies; None where it is no record."""
    rows = [it.split(" ", 2) for it in text.splitlines()]
    if not rows or any(len(it) != 3 or not it[0].endswith(":") for it in rows) or len({it[0] for it in rows}) != len(rows):
        return None
    return {name[:-1]: (total, said) for name, total, said in rows}


def written(totals, said):
    """The text of a record of these verdicts."""
    return "".join(f"{name}: {totals[name]} {said[name]}\n" for name in sorted(said))


def begun(name):
    """The verdicts of a crate's record that rest on what is there now: others went stale, or were never given."""
    place, totals = place_of(name), checksums(name)
    found = read(place.read_text()) if place.is_file() else None
    return {it: said for it, (total, said) in (found or {}).items() if totals.get(it) == total}


def recorded(name):
    """The verdicts of a crate's record, or None where one of its bodies has none that stands."""
    found = begun(name)
    return found if len(found) == len(edits_of(name)) else None


def seed():
    """What chooses a sample: the commit, or where there is no git the checksum of the sources."""
    try:
        done = subprocess.run(["git", "rev-parse", "HEAD"], cwd=TOP, stdout=subprocess.PIPE, stderr=subprocess.DEVNULL, text=True)
        if done.returncode == 0:
            return done.stdout.strip()
    except OSError:
        pass
    return hashlib.sha256(repr([checksums(it) for it in crates_with_bodies()]).encode()).hexdigest()


def without_edit(names):
    """Those of these crates of which the gate tries no body beside the proof, since that takes as long as the proof itself."""
    return {it for it in names if not (TOP / "crates" / it / "must-fail").is_dir()}


def sample(begin, records, under, unedited, count=24, most=3):
    """So many recorded bodies of at most a few crates, by crate: of one that `begin` chooses, then of crates below it, whose libraries are built for it
    anyway, then of the lowest. Each second time the first is one of the unedited crates, of which the gate tries nothing else. Of these and of the others each
    body is as likely. `records` has the bodies of each crate, lowest first, `under` the crates below each."""

    def mixed(*words):
        return hashlib.sha256(" ".join([begin, *words]).encode()).digest()

    bodies = {(name, it) for name, found in records.items() for it in found}
    if not bodies:
        return {}
    is_second = mixed("second")[0] % 2 == 1
    first, _ = min(bodies, key=lambda it: ((it[0] in unedited) != is_second, mixed("first", *it)))
    order = [first, *sorted((it for it in under[first] if it in records), key=mixed)]
    crates = [*order, *(it for it in records if it not in order)][:most]
    chosen = sorted((it for it in bodies if it[0] in crates), key=lambda it: mixed(*it))[:count]
    return {name: sorted(it for crate, it in chosen if crate == name) for name in crates if any(crate == name for crate, _ in chosen)}
