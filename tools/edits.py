"""Edits of a crate: how one is read, and which functions it changes."""

from functions import changed_functions


class BadEdit(Exception):
    """The edit cannot be applied, for the reason given."""


def edited(text, crate):
    """The files that an edit changes, with their new texts."""
    path, old, texts = None, None, {}
    for line in text.splitlines():
        if line.startswith("file: "):
            path = line[len("file: "):].strip()
        elif line.startswith("old: "):
            old = line[len("old: "):]
        elif line.startswith("new:"):
            if not path or not old or not (crate / path).is_file():
                raise BadEdit("a 'new:' line has no 'old:' line or no file")
            found = texts.setdefault(path, (crate / path).read_text())
            if found.count(old) != 1:
                raise BadEdit(f"an 'old:' text stands in {path} {found.count(old)} times")
            texts[path], old = found.replace(old, line[len("new:"):].removeprefix(" ")), None
    if not texts:
        raise BadEdit("it has no pair of 'old:' and 'new:'")
    return texts


def functions_of(edit, crate):
    """The names of the functions whose bodies an edit changes, or None where it changes anything else."""
    try:
        texts = edited(edit.read_text(), crate)
    except BadEdit:
        return None
    found = [path.startswith("src/") and changed_functions((crate / path).read_text(), text) for path, text in texts.items()]
    return set().union(*found) if all(found) else None
