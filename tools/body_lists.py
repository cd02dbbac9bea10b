"""The lists of wrong bodies, crates/NAME/wrong-bodies/README.md: which promise each body breaks, and what it changes.

A list has a heading for each promise that refuses bodies of the crate, in the words of a table of docs/PROOFS.md, and a row for each of these bodies.
Headings, which bodies stand below them, and remarks are written by hand. The rest is made from the edits: what each changes, the order of the
rows, and which bodies stand in must-fail/ too.
"""

import re

from functions import HEAD
from repository import TOP, lines

CRATES = TOP / "crates"
ROW = re.compile(r"\| `(\w+)` \| .*? \|(?: (.*?) \|)?$")
INTRODUCTION = """# Wrong bodies of `{crate}`

Each is an edit that a contract of this crate refuses. They stand below the promises of [PROOFS.md](../../../docs/PROOFS.md) that they break;
[GATE.md](../../../docs/GATE.md) says how to try them. `tools/write_docs.py` makes this page anew from the edits. Headings, what stands
below each, and remarks are written by hand.
"""


def place_of(crate):
    """Where the list of a crate stands."""
    return CRATES / crate / "wrong-bodies" / "README.md"


def bodies_of(crate, folder="wrong-bodies"):
    """The edits of a folder of a crate, by their names."""
    return {it.stem: it for it in sorted((CRATES / crate / folder).glob("*.edit"))}


def crates_with_bodies():
    """The crates that have edits to be refused, lowest first."""
    return [it for it in lines() if bodies_of(it) or bodies_of(it, "must-fail")]


def changes_of(path, crate):
    """What an edit changes: functions, the contract of one, or another place of a file."""
    file, old, texts, found = None, "", {}, {}
    for line in path.read_text().splitlines():
        if line.startswith("file: "):
            file = line.removeprefix("file: ").strip()
            texts.setdefault(file, (CRATES / crate / file).read_text())
        elif line.startswith("old: "):
            old = line.removeprefix("old: ")
        elif line.startswith("new:"):
            new = line.removeprefix("new:").removeprefix(" ")
            found.setdefault(file, {})[place_in(texts[file], old, new)] = None
            texts[file] = texts[file].replace(old, new)
    return "; ".join(f"{', '.join(filter(None, places))} in `{it}`" if any(places) else f"`{it}`" for it, places in found.items())


def place_in(source, old, new):
    """The function in whose body a text stands that another one replaces, its contract, or nothing if it stands in no function. The nearest head above
    it counts, unless that function, or what it stands in, ends before; its contract may have blank lines. What is put behind the brace that opens a
    body is in it."""
    at = source.find(old)
    if at < 0:
        return "a text that is gone"
    lines = source.split("\n")
    number = source.count("\n", 0, at)
    first = next((it for it in range(number, -1, -1) if HEAD.match(lines[it])), None)
    if first is None:
        return ""
    indent, name = HEAD.match(lines[first]).groups()
    above = lines[first:number]
    if any(it.lstrip() == "}" and len(it) <= len(indent) + 1 for it in above):
        return ""
    is_open = f"{indent}{{" in above or lines[number].endswith(" {") and new.startswith(old) or any(it.endswith(" {") and (it is above[0] or it.startswith(f"{indent})")) for it in above)
    return f"`{name}`" if is_open else f"the contract of `{name}`"


def rows_of(text):
    """The rows of a list, in order: promise, name and remark."""
    promise = None
    for line in text.splitlines():
        row = ROW.match(line)
        if line.startswith("## "):
            promise = line.removeprefix("## ")
        elif row:
            yield promise, row[1], row[2] or ""


def gate_line(crate):
    """Which of the crate's bodies the gate tries beside its proof."""
    names = bodies_of(crate, "must-fail")
    return [f"\nThe gate tries {' and '.join(f'`{it}`' for it in names)} in each run.\n"] if names else []


def as_it_stands(crate):
    """The list of a crate as its edits are now; bodies of which it does not say what refuses them stand below a heading of their own."""
    place, there = place_of(crate), bodies_of(crate)
    rows = [it for it in rows_of(place.read_text() if place.is_file() else "") if it[1] in there]
    listed = {name for _, name, _ in rows}
    rows += [(UNKNOWN, name, "") for name in bodies_of(crate) if name not in listed]
    text = INTRODUCTION.format(crate=crate) + "".join(gate_line(crate))
    for promise in dict.fromkeys(it for it, _, _ in rows):
        below = {name: remark for of, name, remark in rows if of == promise}
        text += f"\n## {promise}\n\n| Body | Changes | Remark |\n|---|---|---|\n"
        text += "".join(f"| `{name}` | {changes_of(there[name], crate)} |{f' {below[name]} ' if below[name] else ' '}|\n" for name in sorted(below))
    return text


UNKNOWN = "Not said yet"


def promises():
    """The promises of each crate: the first cells of the tables of promises in the sections of docs/PROOFS.md that name it, or name none."""
    found, crates, of_promises = {}, [], False
    for line in (TOP / "docs" / "PROOFS.md").read_text().splitlines():
        if line.startswith("## "):
            crates = [it for it in lines() if f"`{it}`" in line] or [*lines()]
        if not line.startswith("|"):
            of_promises = False
        elif line.startswith("| Promise |"):
            of_promises = True
        elif of_promises:
            for crate in crates:
                found.setdefault(crate, set()).add(line.removeprefix("| ").split(" | ")[0])
    return found


def faults_of_lists():
    """A line for each thing that is looked at: None, or what is wrong with it."""
    known = promises()
    for crate in crates_with_bodies():
        place = place_of(crate)
        inside = place.relative_to(TOP)
        now = as_it_stands(crate)
        is_same = place.is_file() and place.read_text() == now
        yield None if is_same else f"{inside}: not as the edits are (tools/write_docs.py writes it as they are)"
        bodies = bodies_of(crate)
        for name, path in bodies_of(crate, "must-fail").items():
            is_body = name in bodies and path.read_text() == bodies[name].read_text()
            yield None if is_body else f"{path.relative_to(TOP)}: it is not the body of that name in wrong-bodies/"
        for promise in dict.fromkeys(it for it, _, _ in rows_of(now)):
            yield None if promise in known.get(crate, ()) else f"{inside}: docs/PROOFS.md has no promise '{promise}' in a section of {crate}"


def write_lists():
    """Writes each list as its edits are now."""
    for crate in crates_with_bodies():
        place = place_of(crate)
        if not place.is_file() or place.read_text() != as_it_stands(crate):
            place.parent.mkdir(exist_ok=True)
            place.write_text(as_it_stands(crate))
            print(f"wrote {place.relative_to(TOP)}")
