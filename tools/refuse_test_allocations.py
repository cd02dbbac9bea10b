#!/usr/bin/env python3
"""Refuses every allocation of the tests of want of memory in turn.

usage: tools/refuse_test_allocations.py [--built]

Proves and builds the tests (with --built it takes what was built before), and runs each of them again and again, with the N-th
allocation refused, N rising until a run meets no refusal. A run is right where the test passes, or where want of memory ends it, at a
call that it needs. It is wrong where an assertion fails, where another refusal ends the test, or where the run ends in another way.
Prints a last line 'N passed, M failed'. Needs a C compiler.
"""

import os
import re
import subprocess
import sys
import tempfile
from pathlib import Path

TOP = Path(__file__).resolve().parent.parent
TESTS = {
    "canvas_list_tests": ["memory::changes_with_little_memory"],
    "canvas_doc_tests": [
        "memory::edits_with_little_memory", "memory::changes_in_place_with_little_memory", "memory::refusals_with_little_memory",
        "memory::restored_with_little_memory", "saved::memory::saved_with_little_memory", "saved::memory::opened_with_little_memory",
    ],
    "canvas_wire_tests": ["memory::spans_with_little_memory", "memory::clones_with_little_memory", "memory::read_with_little_memory"],
    "canvas_picture_tests": [
        "memory::scenes_with_little_memory", "memory::three_workers_with_little_memory", "memory::strips_with_little_memory",
        "memory::rows_with_little_memory", "memory::images_with_little_memory", "memory::files_with_little_memory",
        "walks::memory::events_with_little_memory", "lines::memory::an_edit_that_wanted_memory_is_made_again",
    ],
    "canvas_session_tests": [
        "alone::memory::an_edit_and_a_picture_with_little_memory", "alone::memory::an_export_with_little_memory",
        "memory::a_square_moves_away_with_little_memory", "memory::two_boards_share_pictures_with_little_memory",
    ],
    "canvas_keep_tests": ["memory::kept_edits_with_little_memory"],
    "canvas_server_tests": ["memory::a_server_with_little_memory"],
}
MOST_RUNS = 5_000
# The status of a test that an error ends, and the line that it prints then: the error is std's or a refusal of one of the crates.
FAILED = 101
WANT_OF_MEMORY = re.compile(r"^error: .*\b(OutOfMemory|AllocError|AllocFailed)\b", re.MULTILINE)


def program(crate):
    return TOP / "crates" / crate / "out" / f"{crate}_tests"


def run(shim, crate, test, number):
    """How a run of a test ends, and whether it came to the allocation that is refused."""
    refused = shim.with_suffix(".refused")
    refused.unlink(missing_ok=True)
    environment = {**os.environ, "LD_PRELOAD": str(shim), "REFUSE_AT": str(number), "REFUSED_FILE": str(refused)}
    done = subprocess.run([str(program(crate)), test], capture_output=True, text=True, env=environment, timeout=60)
    return done, refused.exists()


def fault(done):
    """What is wrong with a run, or None."""
    if done.returncode == 0 or done.returncode == FAILED and WANT_OF_MEMORY.search(done.stderr):
        return None
    return f"status {done.returncode}: {(done.stdout + done.stderr).strip()}"


def sweep(shim, crate, test):
    """How many runs of a test were right and how many were wrong."""
    done, _ = run(shim, crate, test, 0)
    if done.returncode != 0:
        sys.exit(f"{test}: with all memory it ends with {done.returncode}: {done.stdout}{done.stderr}")
    passed = failed = 0
    for number in range(1, MOST_RUNS):
        done, is_refused = run(shim, crate, test, number)
        if not is_refused:
            return passed, failed
        found = fault(done)
        if found:
            failed += 1
            print(f"{test}, allocation {number} refused: {found}")
        else:
            passed += 1
    print(f"{test}: no end of allocations after {MOST_RUNS} runs")
    return passed, failed + 1


def main():
    if "--built" not in sys.argv[1:]:
        for crate in TESTS:
            subprocess.run(["rt", "test"], cwd=TOP / "crates" / crate, stdout=subprocess.DEVNULL, check=True)
    with tempfile.TemporaryDirectory() as folder:
        shim = Path(folder) / "refuse_allocation.so"
        source = TOP / "tests" / "harness" / "refuse_allocation.c"
        subprocess.run(["cc", "-shared", "-fPIC", "-O1", "-o", shim, source, "-ldl"], check=True)
        counts = [sweep(shim, crate, test) for crate, tests in TESTS.items() for test in tests]
    passed, failed = (sum(column) for column in zip(*counts))
    print(f"{passed} passed, {failed} failed")
    sys.exit(1 if failed else 0)


if __name__ == "__main__":
    main()
