"""What the checker counted of a crate's proof: the steps of each declaration, as the records in crates/NAME/out/incremental have them.

Steps are the same on any machine. What was kept of functions that have changed since is counted too, so begin with a new out/ where that matters. The
modules of paths through a function have no record.
"""

import json
import re

from repository import TOP

ENDING = ".decls.oantt"
# A list of what was counted of one declaration, in a kept module.
COUNTED = re.compile(rb'\[\{"aux":.*?\}\]', re.S)


def modules(name, top=TOP):
    """The kept modules of a crate that have a record: the name of each without the crate's, and its file."""
    for file in (top / "crates" / name / "out").glob(f"incremental/*/records/*{ENDING}"):
        yield file.name.removesuffix(ENDING).removeprefix(f"Rattle-{name}-"), file


def counted(file):
    """The names of the declarations of a kept module, each with its steps of search and of the kernel."""
    for found in COUNTED.finditer(file.read_bytes()):
        try:
            declarations = json.loads(found.group(0))
        except ValueError:
            continue
        for it in declarations:
            yield it["name"], *it["steps"][:2]


def steps(name, top=TOP):
    """All steps of a crate's proof; 0 where nothing was kept."""
    return sum(search + kernel for _, file in modules(name, top) for _, search, kernel in counted(file))
