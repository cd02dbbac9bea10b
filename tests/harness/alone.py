"""Tests that run side by side in processes of xdist, and those beside which none may."""

import contextlib
import fcntl
import os
import tempfile
from pathlib import Path


@contextlib.contextmanager
def turn(is_alone):
    """The time of a test: others' are not within it where it is alone. Where tests run in one process there is nothing to wait for."""
    run = os.environ.get("PYTEST_XDIST_TESTRUNUID")
    if not run:
        yield
        return
    with open(Path(tempfile.gettempdir(), f"canvas-tests-{run}"), "w") as lock:
        fcntl.flock(lock, fcntl.LOCK_EX if is_alone else fcntl.LOCK_SH)
        yield
