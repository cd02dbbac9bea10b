"""What bash completes behind the commands (packaging/bash-completion.sh), by bash itself: the options and verbs of each are those that its --help
tells, and a Tab in a terminal completes a word."""

import os
import pty
import re
import select
import subprocess
import time

import pytest

from release import COMMANDS, COMPLETED, COMPLETION
from repository import PROGRAMS, TOP

pytestmark = [pytest.mark.quick, pytest.mark.no_program]
SECONDS = 60
NEEDS = {"canvas-gateway": "aiohttp", "canvas-demo": "aiohttp", "canvas-store": "psycopg"}
"""What a command needs to say its help."""
VERBS = {"canvas": "script serve", "canvasd": "check follow history", "canvas-admin": "create follow list move remove",
         "canvas-store": "create export import list remove schema serve"}
"""What stands behind a command first."""
ASK = """
source {completion}
PATH={top}/bin:{top}/packaging:$PATH
COMP_WORDS=("$@"); COMP_CWORD=$(($# - 1))
_canvas "$1" "${{COMP_WORDS[COMP_CWORD]}}" "${{COMP_WORDS[COMP_CWORD - 1]}}"
printf '%s\\n' "${{COMPREPLY[@]}}"
"""
"""Prints what is completed behind the words that are given, of which the last is the one to complete."""


def completed(*words):
    script = ASK.format(completion=TOP / COMPLETION, top=TOP)
    done = subprocess.run(["bash", "--norc", "-c", script, "bash", *words], capture_output=True, text=True, timeout=SECONDS, stdin=subprocess.DEVNULL)
    assert (done.stderr, done.returncode) == ("", 0), words
    return done.stdout.split()


def help_of(name):
    place = next(it for it in (TOP / "bin" / name, TOP / "packaging" / name) if it.exists())
    return subprocess.run([place, "--help"], capture_output=True, text=True, timeout=SECONDS, stdin=subprocess.DEVNULL, check=True).stdout


def test_each_command_is_completed():
    registered = re.search(r"^complete .* -F _canvas (.*)$", (TOP / COMPLETION).read_text(), re.M)[1].split()
    assert sorted(registered) == sorted(COMPLETED) == sorted((*PROGRAMS, *COMMANDS, "canvas-admin"))


@pytest.mark.parametrize("name", COMPLETED)
def test_options_and_verbs_are_those_of_the_help(name):
    pytest.importorskip(NEEDS.get(name, "canvas"))
    told = {*re.findall(r"--[a-z]+(?:-[a-z]+)*", help_of(name))}
    found = completed(name, "--")
    assert (len(found) > 0, [it for it in found if it not in told]) == (True, [])
    listed = {*re.findall(r"^ +(?:-\w, )?(--[a-z-]+)", help_of(name), re.M)}
    assert listed - {*found} == set(), "options that the help lists"
    assert " ".join(completed(name, "")) == VERBS.get(name, "")


@pytest.mark.parametrize("words, wanted", [
    (("canvasd", "drawing", "--lis"), ["--listen"]),
    (("canvasd", "drawing", "--log", "e"), ["error"]),
    (("canvasd", "drawing", "--seats", ""), []),
    (("canvasd", "h"), ["history"]),
    (("canvas", "se"), ["serve"]),
    (("canvas-admin", "remove", "--p"), ["--purge"]),
    (("canvas-nowhere", "--"), []),
], ids=lambda it: " ".join(it) if isinstance(it, tuple) else None)
def test_a_word(words, wanted):
    assert completed(*words) == wanted


def read_until(terminal, wanted):
    """What a terminal shows until it shows this."""
    end, shown = time.monotonic() + SECONDS, b""
    while wanted not in shown and time.monotonic() < end:
        if select.select([terminal], [], [], 1)[0]:
            shown += os.read(terminal, 4096)
    return shown


def test_a_tab_in_a_terminal():
    """A function stands for the program; bash completes behind it, and calls it when the line ends."""
    master, slave = pty.openpty()
    environment = {**os.environ, "PS1": "", "TERM": "dumb", "INPUTRC": "/dev/null"}
    with subprocess.Popen(["bash", "--norc", "--noprofile", "-i"], stdin=slave, stdout=slave, stderr=slave, env=environment, start_new_session=True) as shell:
        os.close(slave)
        try:
            os.write(master, f"source {TOP / COMPLETION}\n".encode())
            os.write(master, f"canvasd() {{ [ \"$1\" = --help ] && cat {TOP}/tools/canvasd.help || echo \"=$*=\"; }}; echo rea''dy\n".encode())
            read_until(master, b"ready")
            os.write(master, b"canvasd drawing --sha\t7\n")
            assert b"=drawing --share 7=" in read_until(master, b"7=")
        finally:
            shell.kill()
            os.close(master)
