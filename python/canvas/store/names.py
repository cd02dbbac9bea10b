"""Names of documents, and the file that tells them to `canvas-admin follow`."""

from __future__ import annotations

import asyncio
import contextlib
import logging
import re
from pathlib import Path

from canvas.store import statements
from canvas.store.database import Away, Database

NAME = "[a-z0-9][a-z0-9-]{0,62}"
TOLD = 5
"""Each so many seconds an agent tells which documents there are."""

log = logging.getLogger("canvas-store")


async def tell_names(database: Database, path: str) -> None:
    """Writes which documents there are to a file, again and again. It has its old text or all of the new one at any
    time. What is no name is left out, whatever the database says."""
    told: list[str] | None = None
    part = Path(f"{path}.part")
    while True:
        with contextlib.suppress(Away):
            found = [name for name, in await database.once(statements.NAMES)]
            good = [name for name in found if re.fullmatch(NAME, name)]
            if found != told and len(good) < len(found):
                log.error("somebody has changed the store: %d of its names are none", len(found) - len(good))
            if found != told:
                part.write_text("".join(f"{name}\n" for name in good))
                part.rename(path)
            told = found
        await asyncio.sleep(TOLD)
