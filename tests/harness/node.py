"""Tests in JavaScript, by node's own runner."""

import os
import re
import subprocess

from repository import BUILT, TOP

SECONDS = 300


def faults_of(file):
    """What is said of the tests of a file that fail; nothing where all pass."""
    words = ["node", "--test", "--test-reporter=tap", str(file)]
    done = subprocess.run(words, cwd=TOP, stdin=subprocess.DEVNULL, capture_output=True, text=True, timeout=SECONDS, env={**os.environ, "CANVAS": str(BUILT)})
    failed = re.findall(r"^ *not ok .*$", done.stdout, re.M)
    return [*failed, done.stdout[-4000:], done.stderr[-1000:]] if done.returncode or failed or not re.search(r"^# pass [1-9]", done.stdout, re.M) else []
