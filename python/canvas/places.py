"""Where the package has its files: beside its modules where it was installed, else in the repository."""

from __future__ import annotations

from pathlib import Path

TOP = Path(__file__).resolve().parents[2]
"""The folder that has the folder python, of a repository or a release."""


def beside(installed: Path, name: str) -> Path:
    """A folder of the package as a release has it, or else the one of the repository that it is made of."""
    return installed.resolve() if installed.is_dir() else TOP / name
