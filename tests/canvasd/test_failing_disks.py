"""Lets canvasd's disk fail while clients of all kinds are at work: nobody is answered by what is not kept.

- Each write and each sync fails in turn, once and for good, by a fault of the disk or since it is full (lossy_disk.c; a failed sync drops what it should
  have kept, and a full disk takes half of a write);
- a real small disk gets full: a tmpfs.

Each time the program has to end by itself, with its status for a lost journal and a message that names the file and the system's reason. Then the folder is
opened on a good disk, and is compared with all that the clients were told.
"""

import contextlib
import errno
import os
import random
import subprocess

import pytest

from harness.folders import JOURNAL, counted, newest
from harness.lossy_disk import Disk
from harness.running import BAD_PLACE, EMPTY, LOST_JOURNAL, Running
from harness.trials import Trial

pytestmark = [pytest.mark.slow, pytest.mark.needs("cc")]
MOST_CALLS = 40
SIZE = "4m"
WAYS = [("a fault", errno.EIO, 1), ("a fault for good", errno.EIO, 1 << 30), ("a full disk", errno.ENOSPC, 1 << 30)]
"""How a call fails: the error, and how many calls do."""


def end_fault(server, number, *parts):
    """What is wrong with how a server ended that lost its disk while it served, or None."""
    status, said = server.end(), server.errors()
    if status != LOST_JOURNAL:
        return f"it ended with status {status} and said {said!r}"
    missing = [it for it in (*parts, os.strerror(number)[1:]) if it.encode() not in said]
    return f"it said {said!r}, and not {missing}" if missing else None


def fails_at(trial, disk, call, number, times):
    """A run in which a call fails, and what is wrong with its end; None where no such call came, since the disk failed at none."""
    trial.server.kill()
    trial.server = Running(trial.words(), disk.environment(fails=call, error=number, times=times, seed=call))
    if trial.server.port is None:
        status, said = trial.server.end(), trial.server.errors()
        trial.start({})
        wanted = os.strerror(number)[1:].encode()
        return None if status in (BAD_PLACE, LOST_JOURNAL) and wanted in said else f"while it opened: status {status}, {said!r}"
    told = trial.play(call, lambda told: trial.server.end(60) or trial.server.kill())
    fault = end_fault(trial.server, number, JOURNAL)
    before = counted((newest(trial.folder) / JOURNAL).read_bytes())
    trial.start({})
    trial.look(told, before)
    return fault


@pytest.mark.parametrize("name, number, times", WAYS, ids=[name for name, *_ in WAYS])
def test_calls_that_fail(tmp_path, seed, name, number, times):
    """Each of the first calls fails in turn."""
    disk, trial = Disk(tmp_path), Trial(tmp_path, name, EMPTY, random.Random(f"{seed} {name}"), clients=6, seconds=0)
    try:
        for call in range(1, MOST_CALLS + 1):
            assert fails_at(trial, disk, call, number, times) is None, call
            assert disk.has_told(), call
    finally:
        trial.end()


@contextlib.contextmanager
def small_disk(folder):
    """A file system of little room at a folder."""
    folder.mkdir()
    subprocess.run(["mount", "-t", "tmpfs", "-o", f"size={SIZE}", "tmpfs", str(folder)], check=True, capture_output=True)
    try:
        yield
    finally:
        subprocess.run(["umount", "-l", str(folder)], check=True)


@pytest.mark.root
def test_a_small_disk_gets_full(tmp_path, seed):
    """It is made larger, and so again."""
    with small_disk(tmp_path / "small"):
        trial = Trial(tmp_path / "small", "kept", EMPTY, random.Random(seed), clients=6, seconds=0)
        try:
            trial.server.kill()
            trial.start({})
            for number in range(3):
                until_full(trial, tmp_path / "small" / "rest", number)
        finally:
            trial.end()


def until_full(trial, rest, number):
    rest.write_bytes(b"")
    fill(rest, 200_000 if number == 0 else 100_000)
    told = trial.play(number, lambda told: trial.server.end(60) or trial.server.kill())
    assert end_fault(trial.server, errno.ENOSPC, JOURNAL) is None, number
    before = counted((newest(trial.folder) / JOURNAL).read_bytes())
    rest.unlink()
    trial.start({})
    trial.look(told, before)


def fill(path, left):
    """Fills the disk of a path, until so many bytes are left."""
    about = os.statvfs(path.parent)
    path.write_bytes(b"\0" * max(0, about.f_bavail * about.f_frsize - left))
