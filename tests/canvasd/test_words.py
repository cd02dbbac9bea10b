"""The words of canvasd: help, version, and what is no command."""

import pytest

from harness.folders import fault_of, run
from harness.running import BAD_WORDS
from repository import TOP

pytestmark = pytest.mark.quick
VERSION = (TOP / "VERSION").read_text().strip()


OPTIONS = ("--listen", "--feed", "--status", "--open", "--store", "--seats", "--workers", "--keep", "--idle", "--limit", "--log", "--help", "--version")


def test_help_and_version():
    out, said, status = run("--help")
    assert (said, status, [it for it in OPTIONS if it.encode() not in out]) == (b"", 0, []), "--help"
    assert b"check" in out and b"history" in out, ("--help tells of the two other commands", out)
    assert run("--version") == (f"canvasd {VERSION}\n".encode(), b"", 0), "--version"


@pytest.mark.parametrize("given", [[], ["--paint"], ["check"], ["history"], ["ROOM", "one more"], ["history", "ROOM", "x"], ["history", "ROOM", "-1"],
                                   ["check", "ROOM", "more"]], ids=repr)
def test_words_that_are_no_command(tmp_path, given):
    assert fault_of(run(*(tmp_path if it == "ROOM" else it for it in given)), BAD_WORDS) is None


@pytest.mark.parametrize("given", [("--seats", "0"), ("--seats", "63"), ("--seats", "x"), ("--workers", "0"), ("--workers", "17"), ("--keep", "257"),
                                   ("--idle", "x"), ("--limit", "0"), ("--limit", "1000001"), ("--log", "loud"), ("--seats",), ("--open",)], ids=" ".join)
def test_options_that_are_none(tmp_path, given):
    """They leave no folder."""
    assert fault_of(run(tmp_path / "words", *given), BAD_WORDS) is None
    assert not (tmp_path / "words").exists()
