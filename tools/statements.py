"""What a crate says to the crates above it: the statements on which their proofs rest.

These are, of a crate that another one names in crates.txt, its public types, constants, traits and contracts; and of any crate below, the definitions, types
and lemmas that these or the crate's own sources import, one after another. Bodies of functions and what is private are left out. Of a type with a model
clauses see its `Value` alone, so its fields, its view and its invariant are left out too, where no field is public.
"""

import re
from dataclasses import dataclass
from functools import cache

from functions import without_bodies, without_layout
from repository import SOURCES, TOP, uses

KIND = re.compile(r"(pub |pub\([a-z]+\) )?(?:const )?(fn|struct|enum|type|const|static|trait) (\w+)")
IMPORT = re.compile(r"(?:ghost use|use|pub use) ([\w.:]+?)(?:[.:]+\{([^}]*)\}|::\*)?(?: as \w+)?;?$")
MODEL = re.compile(r"impl(?:<.*>)? Model for (\w+)")
IMPL = re.compile(r"impl\b(?:<.*?>)? (?:.* for )?&?(\w+)", re.S)
OF_ONE_FUNCTION = {"Answers.antt", "Invariants.antt", "Proof.antt"}
"""The files of proofs/ that belong to one function's body."""


@dataclass(frozen=True)
class Item:
    """An item of a source, or a member of one: its text, and whether all may use it."""

    kind: str
    name: str
    is_public: bool
    text: str


def parts(text):
    """The items of a text that rt fmt laid out, each with the attributes above it: an item ends where a line that is not set in closes it."""
    found, lines, is_attribute = [], [], False
    for line in text.split("\n"):
        if not lines and (not line.strip() or line.startswith("#!")):
            continue
        lines.append(line)
        if line.startswith((" ", ")")) or not line.strip():
            continue
        is_attribute = is_attribute or line.startswith("#")
        if is_attribute:
            is_attribute = not line.endswith("]")
        elif line.startswith("}") or line.endswith((";", "}", "},")):
            found.append("\n".join(lines))
            lines = []
    return found + ["\n".join(lines)] * bool(lines)


def head(text):
    """An item's text from below its attributes on."""
    return re.sub(r"\A(?:#.*\n(?:[ \])].*\n)*)+", "", text)


def item(text):
    """The item that a text is."""
    first = head(text)
    found = KIND.match(first)
    if found:
        return Item(found[2], found[3], found[1] == "pub ", text)
    for kind in ("ghost use", "use", "pub use", "mod", "pub mod", "impl", "ghost"):
        if first.startswith(f"{kind} ") or kind == "impl" and first.startswith("impl<"):
            return Item(kind, "", kind.startswith("pub"), text)
    return Item("other", "", True, text)


def split_block(text):
    """The head of a block with its opening brace, and what stands inside, no longer set in."""
    lines = text.split("\n")
    opens = next((at for at, line in enumerate(lines) if line.endswith("{") and not line.startswith("#")), None)
    if opens is None:
        return text, ""
    return "\n".join(lines[: opens + 1]), "\n".join(it.removeprefix("    ") for it in lines[opens + 1 : -1])


class Source:
    """What a source file states, by the names of its items."""

    def __init__(self, text):
        found = [item(it) for it in parts(without_bodies(text))]
        models = {it[1] for piece in found if (it := MODEL.match(head(piece.text)))}
        self.imports = [it.text for it in found if it.kind in ("ghost use", "use", "pub use")]
        self.items = {}
        for it in found:
            if it.kind == "impl":
                self._add(self_type(it.text), Item("impl", "", False, seen_of_impl(it.text)))
            elif it.kind == "struct" and it.name in models and not re.search(r"^    pub \w+:", it.text, re.M):
                self._add(it.name, Item(it.kind, it.name, it.is_public, split_block(it.text)[0]))
            elif it.kind not in ("ghost use", "use", "pub use", "mod", "pub mod"):
                self._add(it.name, it)

    def _add(self, name, found):
        self.items.setdefault(name, []).append(found)


def self_type(text):
    """The name of the type that an impl is of."""
    found = IMPL.match(head(text))
    return found[1] if found else ""


def seen_of_impl(text):
    """What others see of an impl: of a model the value, of a trait all that it states, else what is public. An import stays if it is of a name that is
    seen."""
    first, inside = split_block(text)
    members = [item(it) for it in parts(inside)]
    if MODEL.match(head(text)):
        kept = [it for it in members if it.text.lstrip().startswith("ghost Value")]
    elif " for " in head(first).split("{")[0]:
        kept = [it for it in members if it.kind != "ghost use"]
    else:
        kept = [it for it in members if it.is_public or it.kind == "ghost"]
    if not kept:
        return ""
    seen = "\n".join(it.text for it in kept)
    imports = [f"{it.text}" for it in members if it.kind == "ghost use" and any(is_named(name, seen) for _, _, name in imported(it.text))]
    return "\n".join([first, *imports, seen])


def imported(line):
    """What an import brings in: for each name the path, the name there, and the name here."""
    found = IMPORT.match(" ".join(line.split()))
    for whole in (found[2] or re.split(r"[.:]+", found[1])[-1]).split(",") if found else ():
        name, _, other = whole.strip().partition(" as ")
        if name:
            yield found[1], name.rsplit("::", 1)[-1], other or name.rsplit("::", 1)[-1]


def is_named(name, text):
    """Whether a text has a name, or each part of an operator's."""
    return all(re.search(rf"\b{re.escape(it)}\b" if it[0].isalnum() else re.escape(it), text) for it in name.split("◌") if it.strip())


@cache
def source(crate, path):
    """A source file of a crate."""
    return Source((TOP / "crates" / crate / path).read_text())


@cache
def sources(crate):
    """The paths of a crate's sources."""
    folder = TOP / "crates" / crate
    return tuple(str(it.relative_to(folder)) for it in sorted((folder / "src").rglob("*.rt")))


@cache
def files(crate, part):
    """The paths and the texts of a part of a crate's sources."""
    folder = TOP / "crates" / crate
    return [(str(it.relative_to(folder)), it.read_text()) for it in sorted((folder / part).rglob("*")) if it.is_file()]


def imports_of(text):
    """What a text imports, or names by a crate's name."""
    yield from ((crate, name, name) for crate, name in re.findall(r"\b(\w+)::(\w+)", text))
    for line in re.findall(r"^ *((?:ghost |pub )?use [^;{\n]*(?:\{[^}]*\})?[^;\n]*;?)$", text, re.M):
        yield from imported(line)


class Seen:
    """What a crate sees of the crates below it: texts by their crate and place."""

    def __init__(self, crate):
        self.texts, self._crate = {}, crate
        for below in uses()[crate]:
            for path in sources(below):
                for name, found in source(below, path).items.items():
                    if any(it.is_public for it in found):
                        self._see_item(below, name)
        for part in SOURCES:
            for _, text in files(crate, part):
                self._follow(imports_of(text), with_lemmas=True)

    def _see(self, crate, place, text):
        """Notes a text, and gives whether it is new."""
        is_new = (crate, place) not in self.texts
        self.texts.setdefault((crate, place), text)
        return is_new

    def _see_item(self, crate, name):
        """Sees all items of a crate that have this name, and what they cite."""
        for path in sources(crate):
            found = source(crate, path).items.get(name) if name else None
            text = "\n".join(it.text for it in found or () if it.text)
            if not found or not self._see(crate, f"{path} {name}", without_layout(text)):
                continue
            self._follow(it for line in source(crate, path).imports for it in imported(line) if is_named(it[2], text))
            self._follow(imports_of(text))
            words = set(re.findall(r"\w+", text)) - {name}
            for cited in sorted(words & types_of(crate)):
                self._see_item(crate, cited)

    def _see_file(self, crate, path):
        """Sees a file of definitions or lemmas, and the definitions and types that it cites."""
        text = (TOP / "crates" / crate / path).read_text()
        if self._see(crate, path, text):
            self._follow(imports_of(text))

    def _follow(self, names, with_lemmas=False):
        """Sees what these imports bring in from crates of the repository below."""
        for path, name, _ in names:
            words = re.split(r"[.:]+", path)
            if words[0] == "Rattle" and len(words) > 3 and words[1] in uses() and words[1] != self._crate:
                self._see_path(words[1], words[2], words[3:], name, with_lemmas)
            elif words[0] in uses() and words[0] != self._crate:
                self._see_item(words[0], name)

    def _see_path(self, crate, part, words, name, with_lemmas):
        """Sees what an import from a crate's definitions, declared types or lemmas brings in."""
        if words[0] == "declared":
            types = [it for it in words[1:] if it[0].isupper() and not it.startswith("The")]
            self._see_item(crate, types[-1] if types else name)
        elif part == "specs" or with_lemmas:
            for count in range(len(words), 0, -1):
                path = f"{part}/{'/'.join(words[:count])}.antt"
                if (TOP / "crates" / crate / path).is_file():
                    return self._see_file(crate, path)


@cache
def types_of(crate):
    """The names of a crate's items but functions, which no statement cites."""
    found = (pair for path in sources(crate) for pair in source(crate, path).items.items())
    return {name for name, items in found if name and any(it.kind != "fn" for it in items)}


@cache
def seen_below(crate):
    """The texts that a crate sees of the crates below it, in order."""
    return tuple(sorted(Seen(crate).texts.items()))


@cache
def own_statements(crate):
    """What a crate's sources state, without the bodies of functions and without what proves these: paths and texts, in order."""
    told = [(path, without_layout(without_bodies(text))) for path, text in files(crate, "src")]
    return tuple([*told, *files(crate, "specs"), *((path, text) for path, text in files(crate, "proofs") if path.rsplit("/", 1)[-1] not in OF_ONE_FUNCTION)])
