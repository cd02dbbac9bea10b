"""What a command says where a package is missing that it needs."""

from __future__ import annotations

import sys
from typing import NoReturn

PACKAGES = {"aiohttp": "python3-aiohttp", "PIL": "python3-pil", "prometheus_client": "python3-prometheus-client",
            "psycopg": "python3-psycopg"}
"""The package of Debian that has a module."""


def end_without(command: str, missing: ModuleNotFoundError) -> NoReturn:
    """Ends a command that needs a module; a line names that, and what installs it."""
    module = (missing.name or "").partition(".")[0]
    package = PACKAGES.get(module)
    if package is None:
        raise missing
    sys.exit(f"{command}: there is no {module}, which `apt install {package}` installs, as root")
