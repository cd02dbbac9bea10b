"""Where the names stand that a page's blocks use (tools/excerpts.py has the blocks).

A name that a block takes from its file, or from what its file imports, has a home on the page where the same block or an earlier one shows it, the table
of signs has it, a link has it as its text (`[`NAME`](..)`), or the page's index does. The index, behind the line `<!-- names that no block shows -->`,
leads to the files of all names that no block shows; tools/write_docs.py writes it.
"""

import re

from excerpts import SHOWN
from repository import TOP

INDEX = re.compile(r"(<!-- names that no block shows -->\n)(.*?)(?=\n\n|\Z)", re.S)
IMPORT = re.compile(r"^\s*(?:ghost |pub )?use ([\w.:]+?)(?:(?:::|\.)\{([^}]*)\})?(?: as (\w+))?;?$", re.M)
DEFINITION = re.compile(r"^(?:abbrev |unfoldable )?(?:pub )?(?:record |data )?([^\W\d]\w*)(?= [:(])", re.M)
DATA = re.compile(r"^(?:pub )?data (\w+).*\n((?:  .*\n)+)", re.M)
ITEM = re.compile(r"^(?:pub )?(?:enum|struct|trait|fn) (\w+)", re.M)
VARIANT = re.compile(r"^    (\w+)(?=,$|\(| \{)", re.M)
SPECS = re.compile(r"Rattle\.(canvas_\w+)\.specs\.([\w.]+?)\.(\w+)")
WORD = re.compile(r"(?<![\w.:«])[^\W\d][\w']*")


def origin_of(path, name):
    """Which name an import stands for, and the file that has it: None if that is no file of the repository. A variant stands for its enum."""
    found = SPECS.fullmatch(f"{path}.{name}" if name else path)
    if not found:
        return name or path, None
    crate, module, last = found.groups()
    parts = module.split(".")
    if "TheVariants" in (last, parts[-1]):
        last = parts[-1] if last == "TheVariants" else parts[-2]
    if parts[0] != "declared":
        inside = f"crates/{crate}/specs/{'/'.join(parts)}.antt"
        return variants(TOP / inside).get(last, last), inside
    inside = f"crates/{crate}/src/{parts[1]}.rt"
    return last, inside if (TOP / inside).is_file() else f"crates/{crate}/src/lib.rt"


def imported(text):
    """The name and the file that each imported name of a source stands for."""
    names = {}
    for path, inner, alias in IMPORT.findall(text):
        for item in (inner.split(",") if inner else [""]):
            name, _, other = item.strip().partition(" as ")
            last = re.split(r"\.|::", path)[-1]
            if name or not inner:
                names[other.strip() or alias or name or last] = declared(path, name) if "::" in path else origin_of(path, name)
    return names


def declared(path, name):
    """The same of an import of code."""
    parts = [*path.split("::"), *([name] if name else [])]
    if not parts[0].startswith("canvas_"):
        return parts[-1], None
    sources = sorted((TOP / "crates" / parts[0] / "src").rglob("*.rt"))
    item = re.compile(rf"^ *pub (?:struct|enum|trait|fn) {parts[-1]}\b", re.M)
    return parts[-1], next((str(it.relative_to(TOP)) for it in sources if item.search(it.read_text())), None)


def variants(path):
    """The `data` of a file that each of its variants stands for."""
    return {it: name for name, body in DATA.findall(path.read_text()) for it in re.findall(r"^  (\w+) :", body, re.M)}


def own(path, text):
    """The same of the names that a source has itself."""
    if path.endswith(".rt"):
        return {it: (it, path) for it in ITEM.findall(text)}
    return {it: (it, path) for it in DEFINITION.findall(text)} | {it: (name, path) for it, name in variants(TOP / path).items()}


def names_in(path, block):
    """The names that a block of a file takes from there or from elsewhere: what each stands for, and its file."""
    text = (TOP / path).read_text()
    known = own(path, text) | imported(text)
    code = re.sub(r'"[^"\n]*"|^\s*(--|//).*$', "", block, flags=re.M)
    return {known[it] for it in {*WORD.findall(code)} - {*VARIANT.findall(code)} if it in known}


def linked(text):
    """The names that a page links."""
    return {it for found in re.findall(r"\[((?:`[^`\n]+`(?:, | and )?)+)\]\(", text) for it in re.findall(r"`(\w+)`", found)}


def index_of(text):
    """The index that a page should have."""
    shown = {it for found in SHOWN.finditer(text) for it in found[3].split()}
    files = {}
    for found in SHOWN.finditer(text):
        for name, file in names_in(found[2], found[4]):
            if file and name not in shown:
                files.setdefault(file, set()).add(name)
    rows = [f"| [`{it.removeprefix('crates/')}`](../{it}) | {', '.join(f'`{name}`' for name in sorted(files[it]))} |" for it in sorted(files)]
    return "\n".join(["| File | Names |", "|---|---|", *rows])


def with_index(text):
    """A page with the index that it should have, where it has one."""
    return INDEX.sub(lambda found: found[1] + index_of(text), text)


def faults_of_homes(page):
    """A line for each name of a page's blocks that stands nowhere before it, if the page has an index."""
    text, inside = page.read_text(), page.relative_to(TOP)
    if not INDEX.search(text):
        return
    yield None if with_index(text) == text else f"{inside}: the index is not as its blocks are (tools/write_docs.py writes it)"
    signs = {it for code in re.findall(r"`([^`\n]+)`", text.partition("| Sign |")[2].partition("\n\n")[0]) for it in re.findall(r"[^\W\d]\w*", code)}
    homes = signs | linked(text) | {it for row in INDEX.search(text)[2].split("\n") for it in re.findall(r"`(\w+)`", row)}
    for found in SHOWN.finditer(text):
        homes |= {*found[3].split()}
        for name, _ in sorted(names_in(found[2], found[4]), key=str):
            yield None if name in homes else f"{inside}:{text.count(chr(10), 0, found.start()) + 1}: {name} stands nowhere before"
