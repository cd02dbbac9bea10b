"""Definitions that a page shows as they stand in the sources.

A page names them in a line of its own, `<!-- from crates/NAME/specs/File.antt: first second -->`, and shows them in the block of code that
follows. A definition is cut with the comment above it; of a function of Rattle the head is, up to its body.
"""

import re
from textwrap import dedent

from repository import TOP

SHOWN = re.compile(r"(<!-- from (\S+): ([^>]*?) -->\n```\n)(.*?)(^```$)", re.M | re.S)


class NoDefinition(Exception):
    """A page names a definition, or a file, that is not there."""


def definition(path, name):
    """The text of a definition in a file of the repository."""
    if not (TOP / path).is_file():
        raise NoDefinition(f"no file {path}")
    is_code = path.endswith(".rt")
    before = r"^ *(?:pub )?(?:fn|enum|struct) " if is_code else r"^(?:abbrev |unfoldable )?(?:pub )?(?:record |data )?"
    head = re.compile(rf"{before}{re.escape(name)}(?:[<(]| [:({{])", re.M)
    for part in (TOP / path).read_text().split("\n\n"):
        if head.search(part):
            return head_of(part) if is_code else part.strip("\n")
    raise NoDefinition(f"no definition of {name} in {path}")


def head_of(part):
    """An item of Rattle, without its attributes, comments on its implementation, and the body that a function may have."""
    lines = [it for it in dedent(part.strip("\n")).splitlines() if not it.startswith(("#[", "// "))]
    end = next((it for it, line in enumerate(lines) if line == "{"), len(lines))
    return "\n".join(lines[:end])


def as_they_stand(text):
    """A page with all the definitions that it names as they stand in the sources."""
    def shown(found):
        parts = [definition(found[2], name) for name in found[3].split()]
        return f"{found[1]}{''.join(it + chr(10) + chr(10) for it in parts)[:-1]}{found[5]}"

    return SHOWN.sub(shown, text)


def faults_of_excerpts(page):
    """A line for each definition file that a page names: None, or what is wrong with it."""
    text, inside = page.read_text(), page.relative_to(TOP)
    for found in SHOWN.finditer(text):
        line = text.count("\n", 0, found.start()) + 1
        try:
            now = as_they_stand(found[0])
        except NoDefinition as why:
            yield f"{inside}:{line}: {why}"
            continue
        yield None if now == found[0] else f"{inside}:{line}: not as in {found[2]} (tools/write_docs.py shows it as it stands)"
    if text.count("<!-- from ") != len(SHOWN.findall(text)):
        yield f"{inside}: a line '<!-- from ..' has no block of code after it"
