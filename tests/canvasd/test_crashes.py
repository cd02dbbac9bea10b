"""Kills canvasd again and again while clients of all kinds edit and look: nothing is lost that any of them was told.

Clients edit one by one and in bursts, break off with edits on their way, look at points, patches, tiles and exports, and read slowly. At a
random moment of each round the server is killed (kill -9; one in eight by SIGTERM). In a third of the rounds it is then killed again while it
opens the folder, up to three times. After the last
start all is compared with what they were told (harness/trials.py).

A kill keeps what the system has in its memory, so a sync that is missing would not be seen. Therefore the folder lies on a disk of our own in
half of the rounds (lossy_disk.c): what is written reaches the file only by a sync, and of what was not synced any part. Half of the rounds are on a
new folder, half on one that began with a poster.

Two controls show that this finds losses. Each is the same program on a disk that lies, and has to be caught:

- `early`: a sync returns at once, and what it covers reaches the file 100 ms later. So replies leave before their bytes are kept, as
  they would if the program sent them before the sync;
- `nosync`: a sync does nothing, and what is written reaches the file 400 ms later, as it would if the program never synced.

`--times N` makes N times as many rounds.
"""

import random
import statistics
import subprocess

import pytest

from canvas.client import line_of
from harness.folders import POSTER
from harness.running import EMPTY
from harness.trials import CONTROLS, Fault, Trial
from repository import BUILT

pytestmark = [pytest.mark.slow, pytest.mark.needs("cc")]
CONTROL_ROUNDS = 20
ROUNDS = 10


def script_fault(trial):
    """What is wrong with the last export, by `canvas script` on the journal's lines, or None. Its document begins empty."""
    given = b"".join(line + b"\n" for line in trial.lines) + line_of({"verb": "export"})
    out = subprocess.run([str(BUILT), "script", "1"], input=given, stdout=subprocess.PIPE, check=True).stdout
    return None if out.endswith(b"\n" + trial.model.saved()) else "`canvas script` makes another document of the journal's lines"


@pytest.mark.parametrize("name, opening, first", [("a new folder", EMPTY, 1), ("a poster", POSTER.read_bytes(), ROUNDS + 1)], ids=["a new folder", "a poster"])
def test_rounds(tmp_path, seed, request, name, opening, first):
    rounds = ROUNDS * request.config.getoption("times")
    trial = Trial(tmp_path, name, opening, random.Random(f"{seed} {name} 0"))
    try:
        for number in range(first, first + rounds):
            trial.round(number)
        if opening == EMPTY:
            assert script_fault(trial) is None
    finally:
        trial.end()
    starts = sorted(trial.starts)
    print(f"{trial.answers} replies, {trial.edits} edits answered, {len(trial.lines)} kept, {trial.killed_again} kills while it opened; "
          f"it listens after {statistics.median(starts) * 1000:.0f} ms, {starts[-1] * 1000:.0f} at most")


@pytest.mark.parametrize("name", CONTROLS)
def test_a_disk_that_lies_is_found(tmp_path, seed, name):
    trial = Trial(tmp_path, name, EMPTY, random.Random(f"{seed} {name}"), CONTROLS[name])
    try:
        with pytest.raises(Fault, match="^lost: "):
            for number in range(1, CONTROL_ROUNDS + 1):
                trial.round(number)
    finally:
        trial.end()
