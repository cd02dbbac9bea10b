"""Sessions that come, edit, look and go, and a server that is killed and started again, as a machine of states: hypothesis finds a short way to what differs.

What each session is answered is that of plain_session.py, byte by byte; a kept document is the same after each kill.
"""

import random
import shutil
import tempfile
from pathlib import Path

import pytest
from hypothesis import HealthCheck, settings
from hypothesis import strategies as st
from hypothesis.stateful import RuleBasedStateMachine, initialize, precondition, rule, run_state_machine_as_test

from canvas.client import line_of
from harness.grammar import Requests
from harness.running import Program, Running, kept_words, read_line
from plain_session import Session

pytestmark = pytest.mark.slow
MOST_SESSIONS = 4


class Server(RuleBasedStateMachine):
    """A server, its sessions, and the plain model of its document."""

    name = "canvas"

    @initialize()
    def begin(self):
        self.room = Path(tempfile.mkdtemp(prefix="canvas-machine-"))
        self.model, self.sessions = Session(), []
        self.server = Running(kept_words(self.room / "kept")) if self.name == "canvasd" else Program("canvas", self.room).start()

    def teardown(self):
        self.leave_all()
        self.server.kill()
        shutil.rmtree(self.room)

    def leave_all(self):
        for sock in self.sessions:
            sock.close()
        self.sessions.clear()

    @precondition(lambda self: len(self.sessions) < MOST_SESSIONS)
    @rule()
    def come(self):
        self.sessions.append(self.server.socket())

    @precondition(lambda self: self.sessions)
    @rule(number=st.integers(0, MOST_SESSIONS - 1))
    def go(self, number):
        self.sessions.pop(number % len(self.sessions)).close()

    @precondition(lambda self: self.sessions)
    @rule(number=st.integers(0, MOST_SESSIONS - 1), seed=st.integers(0, 1 << 16), habit=st.sampled_from(["any", "deep", "flat", "pictures"]))
    def ask(self, number, seed, habit):
        """One request, which may be refused."""
        request = line_of(Requests(random.Random(seed), self.model, habit).request()) if habit != "pictures" else b'{"verb":"export"}\n'
        sock = self.sessions[number % len(self.sessions)]
        sock.sendall(request)
        wanted, got = self.model.reply(request[:-1]), read_line(sock)
        while len(got) < len(wanted) and (part := sock.recv(len(wanted) - len(got))):
            got += part
        assert got == wanted, request

    @precondition(lambda self: self.name == "canvasd")
    @rule()
    def die(self):
        """A kill, and another start on the folder: the sessions are gone, and the document is what it was."""
        self.leave_all()
        self.server.kill()
        self.server = Running(kept_words(self.room / "kept"))
        with self.server.connect() as canvas:
            reply, text = canvas.ask(verb="export")
        assert text == self.model.model.saved()


class KeptServer(Server):
    name = "canvasd"


@pytest.mark.parametrize("machine", [Server, KeptServer], ids=["canvas", "canvasd"])
def test_a_server(machine, request):
    """The same ways each time; `--times N` goes N times as many."""
    how = settings(max_examples=40 * request.config.getoption("times"), stateful_step_count=60, deadline=None, derandomize=True, database=None,
                   suppress_health_check=list(HealthCheck))
    run_state_machine_as_test(machine, settings=how)
