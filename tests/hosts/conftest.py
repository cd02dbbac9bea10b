"""Tests that make machines run in namespaces of their own: their mounts, processes and network are nobody else's, and end with them.

The tests of a file that were asked for run together, by a pytest of their own in there, which writes its reports to a file; each is told in its turn.
"""

import json
import os
import subprocess
import sys
import tempfile
from pathlib import Path

import pytest

from harness import machine
from harness.alone import turn
from harness.needs import missing

REPORTS = "CANVAS_TESTS_REPORT_TO"
"""Where a pytest that runs inside writes its reports."""


@pytest.fixture(scope="session", autouse=True)
def network():
    if REPORTS in os.environ:
        machine.bring_up()


@pytest.hookimpl(tryfirst=True)
def pytest_runtest_protocol(item):
    if REPORTS in os.environ or "hosts" not in item.keywords or missing(item):
        return None
    reports = reports_of(item)
    item.ihook.pytest_runtest_logstart(nodeid=item.nodeid, location=item.location)
    for report in reports.get(name_of(item)) or [pytest.TestReport(item.nodeid, item.location, item.keywords, "failed", reports[None], "call")]:
        item.ihook.pytest_runtest_logreport(report=report)
    item.ihook.pytest_runtest_logfinish(nodeid=item.nodeid, location=item.location)
    return True


def reports_of(item):
    """The reports of all tests of the same file, which run once."""
    found = item.session.stash.setdefault(STASH, {})
    if item.path not in found:
        names = [name_of(it) for it in item.session.items if it.path == item.path and "hosts" in it.keywords]
        with turn(is_alone=True):
            found[item.path] = run_inside(item.config, names)
    return found[item.path]


def name_of(item):
    """A test's name without its group, which xdist adds."""
    return item.nodeid.removesuffix(f"@{item.path.stem}")


@pytest.hookimpl(tryfirst=True)
def pytest_collection_modifyitems(items):
    """The tests of a file are one group: they are run by one process."""
    for item in items:
        if item.path.parent == Path(__file__).parent:
            item.add_marker(pytest.mark.xdist_group(item.path.stem))


STASH = pytest.StashKey()


def run_inside(config, names):
    """Runs tests in namespaces, and gives their reports by their names, and what is said of those that have none."""
    with tempfile.NamedTemporaryFile() as file:
        words = [*machine.NAMESPACES, sys.executable, "-m", "pytest", "-q", "-p", "no:cacheprovider", "-p", "no:xdist", "--times", str(config.getoption("times"))]
        words += ["--seed", config.getoption("seed"), *(f"--{it}" for it in ("long", "gate") if config.getoption(it)), *(config.rootpath / it for it in names)]
        environment = {name: value for name, value in os.environ.items() if not name.startswith("PYTEST_")}
        said = subprocess.run(words, cwd=config.rootpath, env={**environment, REPORTS: file.name}, capture_output=True, text=True)
        if config.getoption("capture") == "no":
            print(said.stdout, said.stderr)
        found = {None: f"it ended without a report: {said.stdout[-2000:]}{said.stderr[-1000:]}"}
        for line in Path(file.name).read_text().splitlines():
            report = config.hook.pytest_report_from_serializable(config=config, data=json.loads(line))
            found.setdefault(report.nodeid, []).append(report)
        return found


def pytest_runtest_logreport(report):
    if REPORTS in os.environ:
        data = CONFIG[0].hook.pytest_report_to_serializable(config=CONFIG[0], report=report)
        with open(os.environ[REPORTS], "a") as file:
            file.write(json.dumps(data) + "\n")


CONFIG = []


def pytest_collection_finish(session):
    CONFIG[:] = [session.config]
