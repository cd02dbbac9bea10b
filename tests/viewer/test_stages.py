"""The viewer in a headless Chromium, beside the programs.

Two tabs look at one document: what is done in one is seen in the other; pictures of the canvas are compared, pixel by pixel, with the server's own patches;
at the end no console has an error. Each module of stages/ has the stages of one matter, of which each goes on from the one before: one process runs all.
A stage yields its cases, each a name and a fault or None.
"""

import asyncio
import contextlib
import importlib
import inspect

import pytest

from browser import Browser
from stages.desk import POSTER, Desk, Gateway, Server

pytestmark = [pytest.mark.slow, pytest.mark.browser, pytest.mark.xdist_group("stages")]
MODULES = (
    "drawing", "undo", "selecting", "keys", "drags", "stretching", "frames", "drafts", "grid", "files", "svg", "small_things", "menu", "finding", "looking",
    "layers", "naming", "night", "sharing", "company", "readers", "outages", "live", "backwards", "past", "demo",
)
STAGES = [pytest.param(stage, id=f"{name}-{stage.__name__}") for name in MODULES for stage in importlib.import_module(f"stages.{name}").STAGES]


@pytest.fixture(scope="module")
def room(tmp_path_factory):
    """A server of the poster, a gateway, a browser, and the tabs of Ann and Ben."""
    file = tmp_path_factory.mktemp("viewer") / "document.json"
    file.write_bytes(POSTER.read_bytes())
    with asyncio.Runner() as runner, contextlib.ExitStack() as stack:
        server = Server(file)
        stack.callback(server.kill)
        server.start()
        gateway = stack.enter_context(contextlib.closing(Gateway(server)))
        runner.things = {"server": server, "gateway": gateway}
        browser = runner.things["browser"] = Browser()
        runner.run(browser.__aenter__())
        stack.callback(lambda: runner.run(browser.__aexit__(None, None, None)))
        for name in ("ann", "ben"):
            runner.things[name] = runner.run(Desk.open(browser, gateway, server))
        yield runner


@pytest.mark.parametrize("stage", STAGES)
def test_a_stage(room, stage):
    """It gets those things of the room that it names."""
    names = [name for name, it in inspect.signature(stage).parameters.items() if it.default is it.empty]

    async def faults():
        return [(case, fault) async for case, fault in stage(**{name: room.things[name] for name in names}) if fault is not None]

    assert room.run(faults()) == []


@pytest.mark.parametrize("name", ["ann", "ben"])
def test_the_console_at_the_end(room, name):
    assert room.things[name].tab.faults == []
