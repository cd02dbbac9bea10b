"""pyflakes reads all scripts in Python, and shellcheck all of the shell. What begins with `#!` may be run. mypy and flake8 read the package in Python, tsc
the JavaScript of web/, and both have lines of at most WIDTH columns."""

import os
import subprocess

import pytest

from harness.needs import need
from repository import TOP

pytestmark = [pytest.mark.quick, pytest.mark.no_program]
FOLDERS = ("tools", "tests", "python", "bench", "examples", "bin", "packaging", ".ci")
SHELLCHECK = ["shellcheck", "-x", "-P", str(TOP), "-f", "gcc"]
READERS = {"python": ["pyflakes3"], "bash": SHELLCHECK, "/bin/sh": SHELLCHECK}
ENDINGS = {".py": "python", ".sh": "bash"}
WIDTH = 120
WIDE = (".js", ".mjs", ".css", ".html")
TYPED = {
    "python/": [["flake8", "canvas"], ["mypy", "--cache-dir", os.devnull, "--no-error-summary"]],
    "web/": [["tsc", "--pretty", "false", "-p", it] for it in ("tsconfig.json", "tsconfig.page.json")],
}
"""What reads the types and the lines of a folder."""


def language_of(path):
    """The language of a script, by its ending or its first line, or None."""
    if path.suffix:
        return ENDINGS.get(path.suffix)
    first = path.read_bytes().split(b"\n", 1)[0].decode(errors="replace")
    return next((it for it in READERS if first.startswith("#!") and it in first), None)


def scripts():
    """The paths of all scripts, by their language."""
    found = {it: [] for it in READERS}
    for path in [TOP / "do", *(it for folder in FOLDERS for it in sorted((TOP / folder).rglob("*")))]:
        language = language_of(path) if path.is_file() and "node_modules" not in path.parts else None
        if language:
            found[language].append(str(path.relative_to(TOP)))
    return found


def may_be_run(path):
    """Whether a script is a module, or a command that may be run."""
    return not (TOP / path).read_bytes().startswith(b"#!") or os.access(TOP / path, os.X_OK)


@pytest.mark.parametrize("language", READERS)
def test_a_reader_has_nothing_to_say(language):
    command, *words = READERS[language]
    need(command)
    paths = scripts()[language]
    done = subprocess.run([command, *words, *paths], cwd=TOP, stdout=subprocess.PIPE, stderr=subprocess.STDOUT, text=True)
    assert (len(paths) > 0, done.stdout) == (True, "")


@pytest.mark.parametrize("path", [path for paths in scripts().values() for path in paths])
def test_what_begins_as_a_command_may_be_run(path):
    assert may_be_run(path)


@pytest.mark.parametrize("folder, words", [(folder, words) for folder, all_words in TYPED.items() for words in all_words],
                         ids=lambda it: it if isinstance(it, str) else " ".join(it))
def test_a_folder_with_types(folder, words):
    need(words[0], *(["/usr/share/nodejs/@types/node"] if folder == "web/" else []))
    done = subprocess.run(words, cwd=TOP / folder, stdout=subprocess.PIPE, stderr=subprocess.STDOUT, text=True)
    assert (done.returncode, done.stdout) == (0, "")


@pytest.mark.parametrize("path", [it for it in sorted((TOP / "web").rglob("*")) if it.suffix in WIDE], ids=lambda it: str(it.relative_to(TOP)))
def test_lines_are_not_wide(path):
    assert [number for number, line in enumerate(path.read_text().splitlines(), 1) if len(line) > WIDTH] == []


def test_the_package_in_python_has_the_version_of_all_else():
    """pip wants a file of the package's own, and `rt ci` takes no link."""
    assert (TOP / "python" / "VERSION").read_bytes() == (TOP / "VERSION").read_bytes()
