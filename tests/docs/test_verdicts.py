"""How tools/try_wrong_bodies.py reads what the prover prints, how records are written, read and sampled, and how lists name what a body changes."""

import json
import shutil
import subprocess
import sys

import pytest

import verdicts
from body_lists import place_in
from functions import refused_function, without_bodies, without_layout
from repository import TOP
from try_wrong_bodies import judged, told

pytestmark = [pytest.mark.quick, pytest.mark.no_program]
NOT_PROVED = "logic=not-proved"
SEARCHED = "note: src/reader.rt:5:1: it is not proved that what the function ensures holds when it returns (`returns`)"
DIFFERS = """./proofs/reader/read/Answers.antt:34:94: error: `returns`: as printed, the two types first differ where one has `◌*◌`
  (expected), right after `◌<◌ (`, and the other has `◌+◌` (found)
  expected type `◌<◌ (◌*◌ 3 c.w) c.len`
  but this has type `◌<◌ (◌+◌ 3 c.w) c.len`
./proofs/reader/read/Answers.antt:25:5: note: the two sides may simply be different"""
TRIVIAL = """./proofs/reader/read/Answers.antt:34:94: error: `returns`: as printed, the two types first differ where one has `Unit {0}`
  (expected) and the other has `◌≡◌` (found)
  expected type `Unit {0}`
  but this has type `◌≡◌ c.w c.h`"""
BARE = "proofs/reader/read/Answers.antt:34:94: error: `returns`: expected type Unit {0}"
FOUND_UNIT = """./proofs/reader/read/Answers.antt:34:94: error: `returns`: the two types differ
  expected type `◌≡◌ c.w c.h`
  but this has type `Unit {0}`"""
INNER_UNIT = """./proofs/reader/read/Answers.antt:34:94: error: `returns`: the two types differ
  expected type `Unit {0} × ◌≡◌ c.w c.h`
  but this has type `Unit {0}`"""
GONE = "./proofs/reader/read/Answers.antt:9:4: error: `returns`: `c` has no field `w`"
ABSENT = "src/reader.rt:7:3: error: `side` is not in scope"
SOURCE = "pub fn read(\n    side: u32,\n) -> u32 {\n    side\n    // a line\n}\n\nfn other() {\n    1\n}\n"

WITH_ATTRIBUTES = SOURCE.replace("fn other", "#[derive(Drop)]\nstruct Side;\n\n#[tactic(\n    auto\n)]\n#[inline(always)]\nfn other")

# What a check printed, its status, and what that says of the body.
CASES = (
    ("a goal that search does not prove", SEARCHED, 1, "refused"),
    ("an answer that does not fit", DIFFERS, 1, "refused"),
    ("an answer of a trivial goal", TRIVIAL, 1, "not judged"),
    ("an answer of a trivial goal, on one line", BARE, 1, "not judged"),
    ("an answer that gives Unit where more is wanted", FOUND_UNIT, 1, "refused"),
    ("an answer of a pair with Unit in it", INNER_UNIT, 1, "refused"),
    ("an answer of a trivial goal, and a false goal after it", f"{TRIVIAL}\n{DIFFERS}", 1, "refused"),
    ("an answer of a trivial goal, and a false goal before it", f"{SEARCHED}\n{TRIVIAL}", 1, "refused"),
    ("an answer that names what is gone", GONE, 1, "not judged"),
    ("both kinds of answer alone", f"{GONE}\n{TRIVIAL}", 1, "not judged"),
    ("a text that cannot be read", ABSENT, 1, "not judged"),
    ("a proved crate", "logic=proved", 0, "PROVED"),
    ("a check that was stopped", "Killed", 137, "not judged"),
)


@pytest.mark.parametrize("printed, status, wanted", [pytest.param(*case, id=name) for name, *case in CASES])
def test_what_a_check_says(printed, status, wanted):
    lines = [*printed.split("\n"), *[NOT_PROVED] * (status == 1)]
    assert judged(status, lines, {"src/reader.rt": SOURCE})[0] == wanted


def test_parsing():
    texts = {"src/reader.rt": SOURCE}
    for printed, wanted in ((SEARCHED, "read"), (DIFFERS, "read"), (SEARCHED.replace(":5:", ":9:"), "other"), ("help: no place", None)):
        found = [refused_function(it, texts) for it in told(printed.split("\n"))]
        assert found == [wanted] * bool(wanted), f"{printed}: refuses {found}, not {wanted}"
    for line, wanted in ((8, None), (11, "other"), (14, "other"), (15, "other"), (1, "read")):
        found = refused_function(SEARCHED.replace(":5:", f":{line}:"), {"src/reader.rt": WITH_ATTRIBUTES})
        assert found == wanted, f"the goal at line {line} refuses {found}, not {wanted}"
    assert len(told(f"{TRIVIAL}\nlogic: x\n  set in".split("\n"))[0].split("\n")) == 4, "a line that is set in goes to the wrong place"


def test_contracts():
    bare = "pub fn read(\n    side: u32,\n) -> u32 {\n}\n\nfn other() {\n}\n"
    assert without_bodies(SOURCE) == bare, f"without bodies a source reads {without_bodies(SOURCE)!r}"
    for what, text, is_same in (
        ("a comment and a body", "// why\n" + SOURCE.replace("    side\n", "    side + 1\n"), True),
        ("a parameter", SOURCE.replace("side: u32,", "side: u64,"), False),
        ("a clause", SOURCE.replace(") -> u32 {", ") -> u32\n    ensures { result ≡ side }\n{"), False),
    ):
        assert (without_bodies(text) == bare) == is_same, f"{what}: without bodies it reads {without_bodies(text)!r}"
    parted = SOURCE.replace(") -> u32 {", ") -> u32\n    ensures { result ≡ side }\n\n    ensures { result ≤ side }\n{")
    assert "    side\n" not in without_bodies(parted), "the body below a contract of two parts is still there"
    constant = SOURCE.replace("pub fn", "pub const fn")
    assert "    side\n" in without_bodies(constant), "the body of a const fn is gone"


def test_layout():
    clause = 'ensures { a "b  // c" \'"\' } // d'
    for what, text, is_same in (
        ("a broken line and a comment", 'ensures {\n    // e\n    a "b  // c" \'"\'\n}\n', True),
        ("a word", clause.replace("a ", "e ", 1), False),
        ("space in a text", clause.replace("b  //", "b //"), False),
        ("space that is gone", clause.replace("ensures {", "ensures{"), False),
    ):
        assert (without_layout(text) == without_layout(clause)) == is_same, f"{what}: without layout it reads {without_layout(text)!r}"


def test_places():
    source = f"const LIMIT: u32 = 1;\n\n{SOURCE}"
    for old, new, wanted in (
        ("    side\n", "    0\n", "`read`"),
        (") -> u32 {", ") -> u32 { return 0;", "`read`"),
        ("    side: u32", "    side: u8", "the contract of `read`"),
        ("LIMIT", "MOST", ""),
        ("none of it", "some", "a text that is gone"),
    ):
        found = place_in(source, old, new)
        assert found == wanted, f"{old!r} stands in {found!r}, not {wanted!r}"


def test_records():
    said = {"b": "refused", "a": "PROVED", "c": "not judged"}
    text = verdicts.written(dict.fromkeys(said, "12ab"), said)
    assert text == "a: 12ab PROVED\nb: 12ab refused\nc: 12ab not judged\n", f"a record reads {text!r}"
    assert verdicts.read(text) == {it: ("12ab", said[it]) for it in said}, "a record is not read as it was written"
    for bad in ("", "a refused\n", "a: refused\n", "a: 1 refused\na: 1 PROVED\n"):
        assert verdicts.read(bad) is None, f"{bad!r} is read as a record"


# A repository of three crates, by its files. `top` names `mid` alone, and `mid` names `low`.
SMALL = {
    "HANDLES": "Handles allowed: none.\n",
    "crates.txt": "low:\nmid: low\ntop: mid\n",
    "crates/low/src/lib.rt": """/// A list.
pub struct List {
    items: Vec<u8>,
}

impl Model for List {
    ghost Value = { Listed };

    ghost invariant = { λ it. IsSmall it };
}

/// A mark.
pub enum Mark {
    Red,
}

/// A size.
pub fn size(list: &List) -> usize
    ensures { result ≡ 1 }
{
    1
}
""",
    "crates/low/specs/Marks.antt": "abbrev pub marked : ℕ\n",
    "crates/low/specs/Sizes.antt": "abbrev pub sized : ℕ\n",
    "crates/mid/src/lib.rt": """#![tactic(auto)]

ghost use Rattle.low.specs.Marks.{marked};
ghost use Rattle.low.specs.Sizes.{sized};

use low::{List, Mark};

/// A page.
pub struct Page {
    list: List,
}

impl Model for Page {
    ghost Value = { Marked };
}

impl Page {
    /// Its mark.
    pub fn mark(&self) -> Mark
        ensures { result ≡ marked self }
    {
        self.inner()
    }

    fn inner(&self) -> Mark
        ensures { result ≡ sized self }
    {
        Mark::Red
    }
}
""",
    "crates/mid/specs/Pages.antt": "abbrev pub paged : ℕ\n",
    "crates/top/src/lib.rt": """use mid::Page;

/// Shows a page.
pub fn show(page: &Page) -> u8
    ensures { result ≡ 1 }
{
    let shown = 1;
    shown
}

fn other() -> u8 {
    let shown = 2;
    shown
}
""",
    "crates/top/proofs/show/Answers.antt": "answer = 1\n",
    "crates/top/proofs/other/Answers.antt": "answer = 2\n",
    "crates/top/wrong-bodies/shows_none.edit": "file: src/lib.rt\nold: let shown = 1;\nnew: let shown = 0;\n",
    "crates/top/wrong-bodies/promises_less.edit": "file: src/lib.rt\nold: result ≡ 1\nnew: result ≡ result\n",
}
BODY, CONTRACT = "shows_none", "promises_less"
# What is changed: a file, a text there, the new text, and which of the two records then go stale.
CHANGES = (
    ("a comment below", "low/src/lib.rt", "/// A size.", "/// Its size.", set()),
    ("a public contract of a crate that is not named", "low/src/lib.rt", "result ≡ 1", "result ≡ 2", set()),
    ("a private contract below", "mid/src/lib.rt", "sized self", "sized result", set()),
    ("a body below", "mid/src/lib.rt", "self.inner()", "Mark::Red", set()),
    ("a field of a type with a model", "mid/src/lib.rt", "list: List", "list: Vec<List>", set()),
    ("a type that only such a field names", "low/src/lib.rt", "items: Vec<u8>", "items: [u8]", set()),
    ("what the model of a type means that only such a field names", "low/src/lib.rt", "IsSmall it", "IsLarge it", set()),
    ("a definition that only a private contract cites", "low/specs/Sizes.antt", "ℕ", "ℤ", set()),
    ("a definition that nothing cites", "mid/specs/Pages.antt", "ℕ", "ℤ", set()),
    ("a public contract", "mid/src/lib.rt", "marked self", "marked result", {BODY, CONTRACT}),
    ("what clauses see of a type", "mid/src/lib.rt", "{ Marked }", "{ Listed }", {BODY, CONTRACT}),
    ("a type that a public contract names", "low/src/lib.rt", "    Red,", "    Red,\n    Blue,", {BODY, CONTRACT}),
    ("a definition that a public contract cites", "low/specs/Marks.antt", "ℕ", "ℤ", {BODY, CONTRACT}),
    ("a public field", "mid/src/lib.rt", "    list: List", "    pub list: List", {BODY, CONTRACT}),
    ("the crate's own contract", "top/src/lib.rt", "result ≡ 1", "result ≡ 1 + 0", {BODY, CONTRACT}),
    ("the function's own body", "top/src/lib.rt", "    shown\n}\n\nfn other", "    { shown }\n}\n\nfn other", {BODY, CONTRACT}),
    ("another function's body", "top/src/lib.rt", "let shown = 2", "let shown = 3", {CONTRACT}),
    ("what proves the function", "top/proofs/show/Answers.antt", "1", "3", {BODY, CONTRACT}),
    ("what proves another function", "top/proofs/other/Answers.antt", "2", "3", {CONTRACT}),
)


def checksums_of(folder):
    """The checksums of the wrong bodies of `top`, as the tools of a small repository find them."""
    words = [sys.executable, "-c", "import json, verdicts; print(json.dumps(verdicts.checksums('top')))"]
    return json.loads(subprocess.run(words, cwd=folder / "tools", stdout=subprocess.PIPE, text=True, check=True).stdout)


@pytest.fixture(scope="module")
def small(tmp_path_factory):
    """The repository of three crates, and the checksums of its records."""
    folder = tmp_path_factory.mktemp("small")
    (folder / "tools").mkdir()
    for name in ("edits", "functions", "repository", "statements", "verdicts"):
        shutil.copy2(TOP / "tools" / f"{name}.py", folder / "tools")
    for path, text in SMALL.items():
        (folder / path).parent.mkdir(parents=True, exist_ok=True)
        (folder / path).write_text(text)
    return folder, checksums_of(folder)


@pytest.mark.parametrize("path, old, new, wanted", [pytest.param(*change, id=name) for name, *change in CHANGES])
def test_which_records_go_stale(small, path, old, new, wanted):
    folder, before = small
    place = folder / "crates" / path
    was = place.read_text()
    assert old in was
    try:
        place.write_text(was.replace(old, new, 1))
        after = checksums_of(folder)
    finally:
        place.write_text(was)
    assert {it for it in before if before[it] != after.get(it)} == wanted


def test_samples():
    records = {name: {f"{name}{number}": "refused" for number in range(size)} for name, size in (("low", 30), ("mid", 5), ("top", 40), ("side", 50))}
    under = {"low": [], "mid": ["low"], "top": ["low", "mid"], "side": []}
    firsts = []
    for begin in map(str, range(40)):
        found = verdicts.sample(begin, records, under, {"mid"})
        chosen = [it for names in found.values() for it in names]
        good = len(chosen) == len(set(chosen)) == 24 and len(found) <= 3 and all(it in records[name] for name, names in found.items() for it in names)
        assert good, f"the sample of {begin} is {found}"
        assert found == verdicts.sample(begin, records, under, {"mid"}), f"the sample of {begin} is another the second time"
        firsts.append(next(iter(found)))
    assert set(firsts) == set(records), f"samples begin with {set(firsts)} alone"
    assert 12 <= firsts.count("mid") <= 28, f"{firsts.count('mid')} of 40 samples begin with the crate that has no edit"
    assert verdicts.sample("1", {}, under, set()) == {}, "a sample of nothing"
