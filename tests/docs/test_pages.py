"""The pages, compared with what is there: the wrong bodies, and the files, crates and commands that a page names; and how long pages and clauses are.

- each wrong body can be applied to the sources, and the list in crates/NAME/wrong-bodies/README.md is as the crate's edits are, below promises that
  docs/PROOFS.md has of the crate (tools/body_lists.py);
- each definition that a page shows (`<!-- from FILE: NAME.. -->` before a block of code) is as it stands in its file;
- each name in those definitions stands on the page before it, or is linked, if the page has an index (tools/homes.py);
- each file, crate and command that README.md, CHANGELOG.md, docs/*.md or a crate's README.md names exists, and each function that is named
  behind its file;
- no page, and not all together, have more words than MOST, MOST_AS_IT_STANDS and MOST_OF_ALL say (count_of says what counts);
- each link to a heading leads to one, and the pages of CONTENTS begin with links to all their headings;
- no more lines of clauses are wide than MOST_WIDE says;
- tools/README.md and examples/README.md name each file beside them;
- docs/PROOFS.md names each crate of the kit that crates.txt has among those that are trusted;
- each heading that docs/QUESTIONS.md names stands in its page;
- each number of docs/LIMITS.md stands in the sources that its row names, and the programs' help and man pages have the same (tools/limits.py);
- the gate that README.md names is what .ci/run runs (tests/program runs its example);
- CHANGELOG.md begins with the version in the file VERSION, and the packages that README.md and docs/INSTALL.md name are of that version;
- the minutes of a first build that README.md names are at most FACTOR from what tools/build_times.py gives for four processors.

`tools/write_docs.py` writes what is cut out of sources and edits.
"""

import re

import pytest

from body_lists import faults_of_lists
from build_times import minutes
from edits import BadEdit
from excerpts import faults_of_excerpts
from functions import clause_lines
from homes import faults_of_homes
from limits import faults_of_helps, faults_of_limits
from repository import PROGRAMS, TOP, below, lines
from try_wrong_bodies import edited
from write_docs import INDEXES, PAGES

pytestmark = [pytest.mark.quick, pytest.mark.no_program]
CRATES = TOP / "crates"
FOLDERS = ("must-fail", "wrong-bodies")
PLACES = ("crates", "docs", "tools", "tests", "python", "web", "bin", "bench", "examples", "packaging", ".ci")
PARTS = ("src", "specs", "proofs", "must-fail", "wrong-bodies")
VERBS = "all check ci doc expand fmt lemma lib must-fail new plant run seed test tidy try verdict version".split()


MOST = {"docs/ARCHITECTURE.md": 1_500, "docs/DECISIONS.md": 3_000, "docs/HEADLINE.md": 1_500, "docs/PROOFS.md": 4_500, "docs/RUNNING.md": 1_500,
        "docs/SPEED.md": 2_000, "docs/VIEWER.md": 700}
"""How many words a page may have."""
MOST_AS_IT_STANDS = {"README.md": 800, "docs/TUTORIAL.md": 1_500}
"""The same as `wc -w` counts, commands and code too."""
MOST_OF_ALL = 30_000
"""How many words README.md, docs/ and the READMEs of crates, tools, tests, python, web and examples may have together."""

CONTENTS = ("PROTOCOL.md", "RUNNING.md", "PROOFS.md", "HEADLINE.md")
"""The pages of docs/ that begin with a list of their contents."""

FACTOR = 1.5
"""How far the minutes that README.md names may be from those that are reckoned."""
MOST_WIDE = {100: 60, 150: 0}
"""How many lines of clauses may be wider than so many columns."""


def count_of(text):
    """How many words a page has to be read: what has a letter and stands outside of blocks of code, of `code` and of comments. Blocks are definitions
    cut out of the sources, examples and commands, which other checks compare; `code` is names, and tables of figures have numbers."""
    for part in (r"^```.*?^```$", r"<!--.*?-->", r"`[^`\n]*`"):
        text = re.sub(part, "", text, flags=re.M | re.S)
    return sum(bool(re.search(r"[A-Za-z]", it)) for it in text.split())


def headings(text, signs="#{1,6}"):
    """The names by which links lead to a page's headings."""
    plain = re.sub(r"^```.*?^```", "", text, flags=re.M | re.S)
    return [re.sub(r"[^\w -]", "", it).lower().replace(" ", "-") for it in re.findall(rf"^{signs} (.*)$", plain, re.M)]


def code_words(text):
    """What stands in backticks in a text."""
    return re.findall(r"`([^`\n]+)`", text)


def bodies():
    """The wrong bodies that there are: the path of each by its crate and name."""
    found = {}
    for folder in FOLDERS:
        for path in sorted(CRATES.glob(f"*/{folder}/*.edit")):
            found[path.parts[-3], path.stem] = path
    return found


def faults_of_bodies():
    """What is wrong with wrong bodies: a line for each thing that is looked at, or None."""
    for (crate, _), path in bodies().items():
        try:
            edited(path.read_text(), CRATES / crate)
            yield None
        except BadEdit as why:
            yield f"{path.relative_to(TOP)}: {why}"


def exists(word, page):
    """Whether a path that a page names is there: NAME and * stand for any name, CALLER for any path; a part of a crate may be of any crate.
    What is built may be missing."""
    if "out" in word.split("/"):
        return True
    pattern = word.replace("NAME", "*").replace("CALLER", "**").rstrip("/")
    if word.split("/")[0] in PARTS:
        folders = [page.parent] if page.parent.parent == CRATES else [it for it in CRATES.iterdir() if it.is_dir()]
    else:
        folders = [CRATES if word.split("/")[0] in {*lines()} - {*PLACES} else TOP]
    return any(next(folder.glob(it), None) for folder in folders for it in (pattern, f"{pattern}.antt", f"{pattern}.rt"))


def paths_in(text):
    """The paths of the repository in a text's code, and the first words of its commands."""
    for block in re.findall(r"^```\n(.*?)^```", text, re.M | re.S):
        yield from re.findall(r"(?:^|[|<] ?)((?:bin|tools|tests|python|web|bench|examples|\.ci)/[\w./-]+)", block, re.M)
    for word in code_words(text):
        first = word.split()[0]
        if "/" in first and first.split("/")[0] in (*PLACES, *PARTS, *lines()) and re.fullmatch(r"[\w./*-]+", first):
            yield first


def faults_of_page(page):
    """What is wrong with the files, crates and commands that a page names."""
    text, inside = page.read_text(), page.relative_to(TOP)
    for link in re.findall(r"\]\((?!https?:)([^)#]+)", text):
        yield None if (page.parent / link).exists() else f"{inside}: no file {link}"
    for word in paths_in(text):
        yield None if exists(word, page) else f"{inside}: no file {word}"
    for word in code_words(text):
        if re.fullmatch(r"(canvas|bench)_\w+", word):
            yield None if word in lines() else f"{inside}: no crate {word}"
    for verb in re.findall(r"(?:^|`)rt ([\w-]+)", text, re.M):
        yield None if verb in VERBS else f"{inside}: no command rt {verb}"


def faults_of_functions(page):
    """What is wrong with the functions that a page names behind their file, as in `canvas_line/src/desk.rt`: `apply`, `close`."""
    inside = page.relative_to(TOP)
    for file, names in re.findall(r"`(\w+/src/[\w/]+\.rt)`:\s+(`\w+`(?:(?:,\s+|\s+and\s+)`\w+`)*)", page.read_text()):
        source = (CRATES / file).read_text() if (CRATES / file).is_file() else ""
        yield None if source else f"{inside}: no file {file}"
        for name in code_words(names):
            yield None if re.search(rf"\bfn {name}\b", source) else f"{inside}: no function {name} in {file}"


def faults_of_questions():
    """What is wrong with the headings that docs/QUESTIONS.md names."""
    for link, heading in re.findall(r"^\| .* \| \[\w+\]\((\S+)\) \| (.*) \|$", (TOP / "docs" / "QUESTIONS.md").read_text(), re.M):
        page = (TOP / "docs" / link).resolve()
        headings = re.findall(r"^#+ (.*)$", page.read_text(), re.M) if page.is_file() else []
        yield None if heading in headings else f"docs/QUESTIONS.md: {page.relative_to(TOP)} has no heading '{heading}'"


def faults_of_links(page):
    """What is wrong with the links of a page to headings, of its own and of others."""
    for file, name in re.findall(r"\]\((?!https?:)([^)#]*)#([^)]+)\)", page.read_text()):
        target = page.parent / file if file else page
        is_there = target.is_file() and name in headings(target.read_text())
        yield None if is_there else f"{page.relative_to(TOP)}: {file} has no heading #{name}"


def faults_of_contents(page):
    """What is wrong with the list of a page's contents, which stands before its first part."""
    text = page.read_text()
    named = re.findall(r"\]\(#([^)]+)\)", re.split(r"^## ", text, maxsplit=1, flags=re.M)[0])
    for name in headings(text, "##"):
        yield None if name in named else f"{page.relative_to(TOP)}: its contents do not lead to #{name}"


def faults_of_index(page):
    """What is wrong with a page that names each file beside it."""
    named = {it.rstrip("/") for it in code_words(page.read_text())}
    for it in sorted(page.parent.iterdir()):
        if it != page and not it.name.startswith((".", "__")):
            yield None if it.name in named else f"{page.relative_to(TOP)}: it does not name {it.name}"


def faults_of_lengths(pages):
    """What is wrong with how many words pages have."""
    counts = {str(it.relative_to(TOP)): count_of(it.read_text()) for it in pages if it.name != "CHANGELOG.md"}
    for page, most in [*MOST.items(), ("all pages", MOST_OF_ALL)]:
        count = counts.get(page, sum(counts.values()))
        yield None if count <= most else f"{page}: {count} words, and {most} may be"
    for page, most in MOST_AS_IT_STANDS.items():
        count = len((TOP / page).read_text().split())
        yield None if count <= most else f"{page}: {count} words with its commands and code, and {most} may be"


def faults_of_widths():
    """What is wrong with how wide the lines of clauses are."""
    widths = [len(line) for it in sorted(CRATES.glob("*/src/**/*.rt")) for line in clause_lines(it.read_text())]
    for columns, most in MOST_WIDE.items():
        count = sum(it > columns for it in widths)
        yield None if count <= most else f"crates: {count} lines of clauses are over {columns} columns, and {most} may be"


def faults_of_trusted():
    """What is wrong with the crates of the kit that docs/PROOFS.md trusts."""
    used = {it for line in lines().values() for it in line.partition(":")[2].split()} - {*lines()}
    named = set(code_words((TOP / "docs" / "PROOFS.md").read_text().partition("## What is trusted")[2].partition("\n## ")[0]))
    for name in sorted(used):
        yield None if name in named else f"docs/PROOFS.md: it does not name {name} among the crates that are trusted"


def faults_of_gate():
    """What is wrong with the command of README.md that is the gate."""
    commands = [it for it in re.findall(r"^```\n(.*?)\n```", (TOP / "README.md").read_text(), re.M | re.S) if it.startswith("rt ")]
    gate = (TOP / ".ci" / "run").read_text()
    for command in commands or ["rt"]:
        is_run = re.search(rf"^[^#\n]*\b{re.escape(command)}$", gate, re.M)
        yield None if is_run else f"README.md: .ci/run does not run {command}"


def faults_of_version():
    """What is wrong with the pages that name the version."""
    version = (TOP / "VERSION").read_text().strip()
    newest = re.search(r"^## (\S+) \(\d{4}-\d\d-\d\d\)$", (TOP / "CHANGELOG.md").read_text(), re.M)
    yield None if newest and newest[1] == version else f"CHANGELOG.md: the first version is not {version}"
    for page in ("README.md", "docs/INSTALL.md"):
        for other in re.findall(r"canvas[-_](\d+\.\d+\.\d+)", (TOP / page).read_text()):
            yield None if other == version else f"{page}: {other} is not the version {version}"


def faults_of_times():
    """What is wrong with the minutes of a build that README.md names."""
    told = re.search(r"of `canvas` takes some (\d+) minutes on four cores, of `canvasd` some (\d+); over the libraries of a release, (\d+) and (\d+)\.",
                     " ".join((TOP / "README.md").read_text().split()))
    wanted = [minutes(program, below(program) if is_over else (), 4) for is_over in (False, True) for program in PROGRAMS]
    if not told:
        yield "README.md: it does not say how many minutes a first build takes"
        return
    for found, count in zip(map(int, told.groups()), wanted):
        is_near = count / FACTOR <= found <= count * FACTOR
        yield None if is_near else f"README.md: a build of {found} minutes, and tools/build_times.py says {count:.0f}"


WHOLE = (faults_of_bodies, faults_of_lists, faults_of_questions, faults_of_trusted, faults_of_gate, faults_of_version, faults_of_times, faults_of_limits,
         faults_of_helps, faults_of_widths)
OF_PAGES = (faults_of_page, faults_of_functions, faults_of_links, faults_of_excerpts, faults_of_homes)


@pytest.mark.parametrize("faults_of", WHOLE, ids=lambda it: it.__name__.removeprefix("faults_of_"))
def test_all_of_it(faults_of):
    assert [*filter(None, faults_of())] == []


def test_lengths():
    assert [*filter(None, faults_of_lengths(PAGES))] == []


@pytest.mark.parametrize("page", CONTENTS)
def test_contents(page):
    assert [*filter(None, faults_of_contents(TOP / "docs" / page))] == []


@pytest.mark.parametrize("page", INDEXES, ids=lambda it: str(it.relative_to(TOP)))
def test_an_index(page):
    assert [*filter(None, faults_of_index(page))] == []


@pytest.mark.parametrize("faults_of", OF_PAGES, ids=lambda it: it.__name__.removeprefix("faults_of_"))
@pytest.mark.parametrize("page", PAGES, ids=lambda it: str(it.relative_to(TOP)))
def test_a_page(page, faults_of):
    assert [*filter(None, faults_of(page))] == []
