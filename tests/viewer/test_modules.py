"""The tests of the page's pure modules, by node (unit/)."""

from pathlib import Path

import pytest

from harness.node import faults_of

pytestmark = [pytest.mark.quick, pytest.mark.no_program, pytest.mark.needs("node")]


@pytest.mark.parametrize("file", sorted((Path(__file__).parent / "unit").glob("*.test.js")), ids=lambda it: it.name)
def test_a_module(file):
    assert faults_of(file) == []
