"""Options and fixtures of all tests, and what is said of those that can't run.

    pytest tests --canvas PATH --canvasd PATH      tries these programs; else the environment's CANVAS and CANVASD, else those that were built
    pytest tests --gate                            fails for each test that was skipped and that tests/skips.txt does not allow
"""

import asyncio
import fnmatch
import inspect
import os
import shutil
import signal
import threading
from pathlib import Path

import pytest

TESTS = Path(__file__).resolve().parent
TOP = TESTS.parent


def pytest_addoption(parser):
    group = parser.getgroup("canvas")
    for name in ("canvas", "canvasd"):
        group.addoption(f"--{name}", metavar="PATH", help=f"the program {name} that is tried")
    group.addoption("--gate", action="store_true", help="fail for each skip that tests/skips.txt does not allow, and end with 'N passed, M failed'")
    group.addoption("--long", action="store_true", help="try longer what can be tried longer")
    group.addoption("--times", type=int, default=1, help="how many times as many random cases are tried")
    group.addoption("--seed", default="1", help="what random tests are made of; 1 where it is left out")


def pytest_configure(config):
    for name in ("canvas", "canvasd"):
        built = TOP / "crates" / name / "out" / name
        os.environ[name.upper()] = os.path.abspath(config.getoption(name) or os.environ.get(name.upper()) or built)
    heed_signals()
    config.counts = {"passed": 0, "failed": 0, "skipped": 0}
    if getattr(config.option, "dist", None) == "load":
        config.option.dist = "loadgroup"  # (tests of one group share what takes long to make)


def heed_signals():
    """A shell has Ctrl-C ignored by what it starts in the background, and nohup the end of a terminal. What tests start is to heed both."""
    if threading.current_thread() is threading.main_thread():
        for number in (signal.SIGINT, signal.SIGHUP):
            if signal.getsignal(number) is signal.SIG_IGN:
                signal.signal(number, lambda *_: None)  # (a handler of this process is none of those that it starts)


def pytest_collection_modifyitems(config, items):
    """Leaves out what takes minutes, where that is not asked for."""
    left = [it for it in items if "long" in it.keywords and not config.getoption("long")]
    config.hook.pytest_deselected(items=left)
    items[:] = [it for it in items if it not in {*left}]


# -- what can't run ----------------------------------------------------------------------------------------------------

def pytest_runtest_setup(item):
    from harness.needs import missing

    if why := missing(item):
        pytest.skip(why)


@pytest.hookimpl(hookwrapper=True)
def pytest_make_collect_report(collector):
    """A file that imports a package which is not there is skipped, in one line."""
    from harness.needs import missing_import

    report = (yield).get_result()
    fault = report.call.excinfo.value.__cause__ if report.failed and report.call.excinfo else None
    if why := missing_import(fault):
        report.outcome, report.longrepr = "skipped", (str(collector.path), 1, f"Skipped: {why}")
    judge(collector, report)


@pytest.hookimpl(hookwrapper=True)
def pytest_runtest_makereport(item):
    judge(item, (yield).get_result())


def judge(node, report):
    """In the gate a skip that is not allowed is a failure."""
    if report.skipped and not hasattr(report, "wasxfail") and node.config.getoption("gate"):
        allowed = (line.split("#")[0].strip() for line in (TESTS / "skips.txt").read_text().splitlines())
        if not any(line and fnmatch.fnmatch(node.nodeid, line) for line in allowed):
            why = report.longrepr[2] if isinstance(report.longrepr, tuple) else str(report.longrepr)
            report.outcome, report.longrepr = "failed", f"{why.removeprefix('Skipped: ')} (skipped, which tests/skips.txt does not allow)"


@pytest.hookimpl(tryfirst=True)
def pytest_pyfunc_call(pyfuncitem):
    """A test that is a coroutine is run by the `runner` of one of its fixtures, or by one of its own."""
    if not inspect.iscoroutinefunction(pyfuncitem.obj):
        return None
    given = {name: pyfuncitem.funcargs[name] for name in pyfuncitem._fixtureinfo.argnames}
    run = next((it.runner.run for it in given.values() if hasattr(it, "runner")), asyncio.run)
    run(pyfuncitem.obj(**given))
    return True


# -- the last line -----------------------------------------------------------------------------------------------------

def pytest_terminal_summary(terminalreporter, config):
    stats = terminalreporter.stats
    config.counts["passed"] = len(stats.get("passed", ()))
    config.counts["failed"] = len(stats.get("failed", ())) + len(stats.get("error", ()))
    config.counts["skipped"] = len(stats.get("skipped", ()))


@pytest.hookimpl(trylast=True)
def pytest_unconfigure(config):
    if config.getoption("gate") and not hasattr(config, "workerinput"):
        print("{skipped} skipped\n{passed} passed, {failed} failed".format(**config.counts), flush=True)


# -- fixtures ----------------------------------------------------------------------------------------------------------

@pytest.fixture(autouse=True)
def its_turn(request):
    """Lets nothing run beside a test that is `alone`, whichever processes of xdist they are in."""
    from harness.alone import turn

    with turn("alone" in request.keywords):
        yield


@pytest.fixture
def tmp_path(tmp_path):
    """A folder of the test's own, which goes with it."""
    yield tmp_path
    shutil.rmtree(tmp_path, ignore_errors=True)


@pytest.fixture
def seed(request):
    return request.config.getoption("seed")


@pytest.fixture
def is_long(request):
    """Whether what can be tried longer is."""
    return request.config.getoption("long")


@pytest.fixture(params=["canvas", "canvasd"])
def program(request, tmp_path):
    """Each program in turn."""
    from harness.running import Program

    return Program(request.param, tmp_path)


@pytest.fixture(params=["canvas", "canvasd", "canvasd --store", "a follower"])
def any_program(request, tmp_path):
    """Each program in turn, in each way in which it serves."""
    from harness.plain_store import Store
    from harness.running import Followed, Program, Stored

    if request.param == "canvasd --store":
        with Store(tmp_path / "socket", tmp_path / "base") as store:
            yield Stored(tmp_path, store)
    else:
        yield Followed(tmp_path) if request.param == "a follower" else Program(request.param, tmp_path)


@pytest.fixture
def canvas(tmp_path):
    from harness.running import Program

    return Program("canvas", tmp_path)


@pytest.fixture
def canvasd(tmp_path):
    from harness.running import Program

    return Program("canvasd", tmp_path)
