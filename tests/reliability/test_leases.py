"""A host whose lease is over answers nobody: neither edits nor looks, in old sessions and new ones, before another host has its document."""

import contextlib
import re
import threading
import time

import pytest

from canvas.store import agent, lease
from harness import agents
from harness.agents import Base, Host
from harness.running import BUILT_KEEPER, LOST_JOURNAL, SECONDS, Running, kept_words, wait_for

GROUP = {"verb": "create", "shape": {"kind": "group"}}


class Looking:
    """Sessions that look without a pause, each for a tenth of a second, until this is over."""

    def __init__(self, server):
        self._server, self.last, self.over = server, 0, threading.Event()
        self._thread = threading.Thread(target=self._look)
        self._thread.start()

    def _look(self):
        while not self.over.is_set():
            with contextlib.suppress(OSError, EOFError, ValueError), self._server.connect(5) as canvas:
                end = time.monotonic() + 0.1
                while time.monotonic() < end:
                    canvas.point(0, 0)
                    self.last = time.monotonic()
            time.sleep(0.001)

    def stop(self):
        self.over.set()
        self._thread.join()


def cut(how):
    """What cuts a host off from the database, which then says nothing, or is refused at once."""
    def harm(host):
        host.way.cut = how
    return harm


def frozen(host):
    """What has a host's agent stand still, as a process that is stopped."""
    host.freeze(8)


@pytest.fixture(autouse=True)
def short_times(monkeypatch):
    monkeypatch.setattr(agent, "BEAT", agents.BEAT)
    for name in ("LEASE", "OWN"):
        monkeypatch.setattr(lease, name, getattr(agents, name))


@pytest.fixture
def tells_nothing(monkeypatch):
    """Agents don't know how to tell of a lease."""
    monkeypatch.setattr(agent, "LASTS", re.compile(b"(?!)"))


def behind(folder, harm, watches=True, seconds=SECONDS):
    """By how many seconds the last look of a host that was harmed comes after another one has its document, and how its server ended, if it did in so
    many seconds. Its agent may be one that doesn't look at its clock."""
    base = Base()
    hosts = [Host(base, "first", folder, watches), Host(base, "second", folder)]
    try:
        with Running(kept_words(folder / "a" / "shown", "--store", hosts[0].address)) as server, contextlib.ExitStack() as held:
            with server.connect() as canvas:
                canvas.ask(**GROUP)
            looking = Looking(server)
            held.callback(looking.stop)
            time.sleep(0.5)
            harm(hosts[0])
            other = held.enter_context(Running(kept_words(folder / "b" / "shown", "--store", hosts[1].address)))
            with other.connect() as canvas:
                assert canvas.ask(**GROUP)[0]["version"] == 2
            time.sleep(1)
            looking.stop()
            taken, = [at for host, _, at in base.taken if host == "second"]
            return looking.last - taken, server.end(seconds)
    finally:
        hosts[0].way.cut = None
        for host in hosts:
            host.end()


@pytest.fixture
def folder(tmp_path):
    for name in "ab":
        (tmp_path / name).mkdir()
    return tmp_path


@pytest.mark.parametrize("harm", [cut("silent"), cut("refused"), frozen], ids=["silent", "refused", "frozen"])
def test_a_host_behind_its_lease_answers_no_look(folder, harm):
    late, status = behind(folder, harm)
    assert (late < 0, status) == (True, LOST_JOURNAL)


def test_by_the_servers_own_clock_alone(folder):
    late, status = behind(folder, cut("silent"), watches=False)
    assert (late < 0, status) == (True, LOST_JOURNAL)


@pytest.mark.usefixtures("tells_nothing")
def test_by_the_agents_clock_alone(folder):
    late, status = behind(folder, cut("silent"))
    assert (late < 0, status) == (True, LOST_JOURNAL)


@pytest.mark.usefixtures("tells_nothing")
def test_without_either_it_is_found_out(folder):
    late, status = behind(folder, cut("silent"), watches=False, seconds=1)
    assert (late > 0.5, status) == (True, None)


@pytest.mark.usefixtures("tells_nothing")
def test_an_agent_that_can_not_tell_of_leases_is_named_once(folder):
    host = Host(Base(), "first", folder)
    words = [BUILT_KEEPER, folder / "a" / "shown", "--listen", "127.0.0.1:0", "--log", "warn", "--store", host.address]
    with Running(words) as server:
        for _ in range(2):
            with server.connect() as canvas:
                canvas.ask(**GROUP)
        assert wait_for(server.errors)
        time.sleep(2.5)
        assert server.process.poll() is None
        assert server.errors().count(b"does not say how long a lease lasts") == 1
    host.end()


def test_an_agent_that_runs_is_asked_again_and_again(folder):
    host = Host(Base(), "first", folder)
    with Running(kept_words(folder / "a" / "shown", "--store", host.address)) as server, server.connect() as canvas:
        for number in range(1, 8):
            assert canvas.ask(**GROUP)[0]["version"] == number
            time.sleep(1)
    host.end()
