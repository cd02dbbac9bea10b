"""What the tests of the gateway's modules start finds the package, too. They need no program."""

from pathlib import Path

import pytest

from repository import TOP


@pytest.fixture(autouse=True)
def package(monkeypatch):
    monkeypatch.setenv("PYTHONPATH", str(TOP / "python"))


def pytest_collection_modifyitems(items):
    for item in items:
        if item.path.parent == Path(__file__).parent:
            item.add_marker(pytest.mark.quick)
            item.add_marker(pytest.mark.no_program)
