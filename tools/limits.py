"""The numbers of docs/LIMITS.md beside those of the functions that judge them, and those of the programs' help beside the page.

A row has the limit, its number, where it is judged, and what is beyond it. Each number of the row stands in one of the files that it names, as it
is or as the value of a constant that is named there. Where the row names an option, its numbers stand below that option in the help too. Each number
of the help stands on the page, and so do those of its section LIMITS, in a row with the same words. The man page has the numbers of the help, and what
`canvasd` itself says of an option has none that the help lacks.
"""

import ast
import operator
import re

from release import man_page
from repository import PROGRAMS, TOP

CONSTANT = re.compile(r"\bconst ([A-Z][A-Z_]*): [^=;]+ = ([^;]+);")
NUMBER = re.compile(r"\b\d+\^\d+\b|\b\d[\d,]*\b")
ADDRESS = re.compile(r"\b[\d.]+:\d+\b|\(\d+\)|^ *\$ .*$", re.M)
"""What has digits in a help and names no limit: an address, the code of a refusal, an example."""
STEPS = {ast.Add: operator.add, ast.Sub: operator.sub, ast.Mult: operator.mul, ast.LShift: operator.lshift}


def without_comments(text):
    """A source of Rattle or Python with no comments."""
    return re.sub(r"(//|#(?!\[)).*", "", text)


def value_of(expression, names):
    """The number that an expression of numbers and known names is, or None."""

    def value(it):
        if isinstance(it, ast.Constant) and isinstance(it.value, int):
            return it.value
        if isinstance(it, ast.Name):
            return names.get(it.id)
        if isinstance(it, ast.BinOp) and type(it.op) in STEPS:
            left, right = value(it.left), value(it.right)
            return None if None in (left, right) else STEPS[type(it.op)](left, right)
        return None

    try:
        return value(ast.parse(expression.strip(), mode="eval").body)
    except SyntaxError:
        return None


def constants():
    """The values of the constants in numbers of each crate, by crate and name."""
    found = {}
    for path in sorted((TOP / "crates").glob("*/src/**/*.rt")):
        crate = found.setdefault(path.relative_to(TOP / "crates").parts[0], {})
        for name, expression in CONSTANT.findall(without_comments(path.read_text())):
            value = value_of(expression, crate)
            if value is not None:
                crate[name] = value
    return found


def numbers_in(path, known):
    """The numbers that stand in a source, and those of the constants that it names."""
    text = without_comments(path.read_text())
    crates = [re.sub(r".*/crates/(\w+)/.*", r"\1", str(path)), *re.findall(r"^\s*(?:pub )?use (\w+)::", text, re.M)]
    named = set(re.findall(r"\b[A-Z][A-Z_]+\b", text))
    here = {int(it.replace("_", "")) for it in re.findall(r"(?<![\w.])\d[\d_]*\b", text)}
    here |= {value_of(it, {}) for it in re.findall(r"\b\d+ << \d+\b", text)}
    return here | {value for crate in crates for name, value in known.get(crate, {}).items() if name in named}


def wanted(cell):
    """The numbers of a cell."""
    for word in NUMBER.findall(re.sub(r"`[^`]*`|\bformat \d+", "", cell)):
        base, _, power = word.replace(",", "").partition("^")
        yield word, int(base) ** int(power or 1)


def place_of(file):
    """Where a file stands that a row names."""
    return TOP / file if file.startswith("python/") else TOP / "crates" / file


def rows():
    """The cells of each row of the page."""
    for row in (TOP / "docs" / "LIMITS.md").read_text().splitlines():
        cells = [it.strip() for it in row.strip("|").split("|")]
        if len(cells) == 4:
            yield cells


def faults_of_limits():
    """A line for each number of the page: None, or what is wrong with it."""
    known = constants()
    for cells in rows():
        files = [place_of(it) for it in re.findall(r"`([\w/]+\.(?:rt|py))`", cells[2])]
        there = set().union(*(numbers_in(it, known) for it in files if it.is_file()))
        for word, number in wanted(cells[1]) if files else ():
            yield None if number in there else f"docs/LIMITS.md: {cells[0]}: no {word} in {', '.join(str(it.relative_to(TOP)) for it in files)}"


# -- the help of the programs ------------------------------------------------------------------------------------------

def limits_in(text):
    """The numbers of a text that may be limits: a range may begin with 0 or 1, and an option may be 0 for never."""
    return {number for _, number in wanted(ADDRESS.sub("", text)) if number > 1}


def sections_of(name):
    """The sections of a program's help, by their headings."""
    parts = re.split(r"^([A-Z ]+)$", (TOP / "tools" / f"{name}.help").read_text(), flags=re.M)
    return dict(zip(parts[1::2], parts[2::2]))


def options_of(name):
    """What a program's help says of each option."""
    return dict(re.findall(r"^  (--[\w-]+).*\n((?: {6}.*\n)+)", sections_of(name).get("OPTIONS", ""), re.M))


def told_by_canvasd():
    """What `canvasd` says to --help of each option that is a number."""
    text = (TOP / "crates" / "canvasd" / "src" / "words.rt").read_text()
    return re.findall(r'number_word\(\s*alloc,\s*"([\w-]+)",\s*"([^"]*)"', text)


def faults_of_option(name, option, numbers):
    """What is wrong with what a program's help says of an option, whose numbers these are."""
    missing = numbers - limits_in(options_of(name).get(option, ""))
    return f"tools/{name}.help: {option} does not name {', '.join(map(str, sorted(missing)))}" if missing else None


def faults_of_help(name):
    """The same of a program's help, its man page, and the page's rows that name its options."""
    sections = sections_of(name)
    by_words = [(limits_in(number), limit) for limit, number, *_ in rows()]
    there = set().union(*(numbers for numbers, _ in by_words))
    for number in sorted(limits_in("".join(sections.get(it, "") for it in ("WORDS", "OPTIONS")))):
        yield None if number in there else f"docs/LIMITS.md: it has no {number:,}, which tools/{name}.help names"
    for item in " ".join(sections["LIMITS"].split()).rstrip(".").split("; "):
        words = {*re.findall(r"[\w']+", re.sub(r" \(.*\)", "", item.partition(" ")[2]))}
        is_there = any(limits_in(item) <= numbers and words <= {*re.findall(r"[\w']+", limit)} for numbers, limit in by_words)
        yield None if is_there else f"docs/LIMITS.md: it has no '{item}', which tools/{name}.help names"
    for numbers, limit in by_words:
        for option in re.findall(rf"`(?:{name}(?: \w+)* )?(--[\w-]+)`", limit) if options_of(name) else ():
            yield faults_of_option(name, option, numbers)
    is_same = limits_in("".join(sections.values())) <= limits_in(man_page(name, "2000-01-01").replace("\\", ""))
    yield None if is_same else f"the man page of {name} lacks a number of tools/{name}.help"


def faults_of_helps():
    """What is wrong with the numbers of the programs' help: a line for each thing that is looked at, or None."""
    for name in PROGRAMS:
        yield from faults_of_help(name)
    for option, told in told_by_canvasd():
        yield faults_of_option("canvasd", f"--{option}", limits_in(told))
