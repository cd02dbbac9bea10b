#!/usr/bin/env python3
"""Writes what pages have of sources and edits: the definitions that a page shows (`<!-- from FILE: NAME.. -->` before a block of code), as they stand in
their files, the index of names that no block shows (tools/homes.py), and the lists of wrong bodies, crates/NAME/wrong-bodies/README.md (tools/body_lists.py).

usage: tools/write_docs.py

tests/docs compares them.
"""

import sys

from body_lists import write_lists
from excerpts import NoDefinition, as_they_stand
from homes import with_index
from repository import TOP

INDEXES = [TOP / "tools" / "README.md", TOP / "examples" / "README.md"]
"""Pages that name each file beside them."""
PAGES = [TOP / "README.md", TOP / "CHANGELOG.md", *sorted((TOP / "docs").glob("*.md")), *INDEXES, TOP / "tests" / "README.md",
         TOP / "python" / "README.md", TOP / "web" / "README.md",
         *sorted((TOP / "crates").glob("*/README.md"))]


def write(page):
    """Writes a page with its definitions as they stand, where they can be found."""
    text = page.read_text()
    try:
        now = with_index(as_they_stand(text))
    except NoDefinition:
        return
    if now != text:
        page.write_text(now)
        print(f"wrote {page.relative_to(TOP)}")


def main():
    if sys.argv[1:]:
        sys.exit("usage: tools/write_docs.py")
    for page in PAGES:
        write(page)
    write_lists()


if __name__ == "__main__":
    main()
