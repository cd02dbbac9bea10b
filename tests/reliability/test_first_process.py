"""As the first process of a container a server ends by SIGTERM and SIGINT, where packaging/first-process starts it."""

import os
import signal
import subprocess
import time
from pathlib import Path

import pytest

from repository import BUILT, TOP
from harness.running import BAD_PLACE, EMPTY, SECONDS, Running, free_port, kept_words

CONTAINER = ["unshare", "--pid", "--fork", "--mount-proc", "--kill-child"]
FIRST = TOP / "packaging" / "first-process"

pytestmark = pytest.mark.skipif(subprocess.run([*CONTAINER, "true"], capture_output=True, check=False).returncode != 0,
                                reason="only root has process identifiers of its own (unshare --pid)")


def words_of(program, folder):
    """The words that start a server, and its port where these name it."""
    if program == "canvasd":
        return kept_words(folder / "kept"), None
    (folder / "document.json").write_bytes(EMPTY)
    port = free_port()
    return [BUILT, "serve", f"127.0.0.1:{port}", folder / "document.json"], port


def told(server, number, seconds=SECONDS):
    """Tells the container's first process to end, as `docker stop` does; how it ends, or None where it does not."""
    first, = Path(f"/proc/{server.process.pid}/task/{server.process.pid}/children").read_text().split()
    os.kill(int(first), number)
    return server.end(seconds)


@pytest.mark.parametrize("program", ["canvasd", "canvas"])
@pytest.mark.parametrize("number", [signal.SIGTERM, signal.SIGINT])
def test_it_ends_by_a_signal(tmp_path, program, number):
    words, port = words_of(program, tmp_path)
    with Running([*CONTAINER, FIRST, *words], port=port) as server:
        with server.connect() as canvas:
            assert canvas.ask(verb="create", shape={"kind": "group"})[0]["version"] == 1
        assert told(server, number) == 128 + number
        assert server.errors() == b""


@pytest.mark.parametrize("number", [signal.SIGTERM, signal.SIGINT])
def test_without_it_the_kernel_keeps_the_signal(tmp_path, number):
    words, port = words_of("canvasd", tmp_path)
    with Running([*CONTAINER, *words], port=port) as server:
        assert told(server, number, 3) is None


def test_its_status_is_the_servers(tmp_path):
    with Running([*CONTAINER, FIRST, *kept_words(tmp_path / "no" / "kept")]) as server:
        assert server.end() == BAD_PLACE
        assert server.errors().startswith(b"canvasd: the folder ")


def test_a_server_that_was_killed(tmp_path):
    with Running([*CONTAINER, FIRST, *kept_words(tmp_path / "kept")]) as server:
        first, = Path(f"/proc/{server.process.pid}/task/{server.process.pid}/children").read_text().split()
        child, = Path(f"/proc/{first}/task/{first}/children").read_text().split()
        os.kill(int(child), signal.SIGKILL)
        assert server.end() == 128 + signal.SIGKILL


def test_signals_one_after_another(tmp_path):
    """A command that takes its time to end is waited for, however often it is told."""
    slowly = 'trap "echo told; sleep 1; exit 3" TERM; echo listening; while :; do sleep 0.05; done'
    with Running([*CONTAINER, FIRST, "sh", "-c", slowly]) as command:
        first, = Path(f"/proc/{command.process.pid}/task/{command.process.pid}/children").read_text().split()
        for _ in range(5):
            os.kill(int(first), signal.SIGTERM)
            time.sleep(0.1)
        assert command.end() == 3
