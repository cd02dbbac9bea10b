"""What a canvasd asks of the document that it holds."""

from __future__ import annotations

import asyncio
import re

from canvas.store.holding import MOST_BYTES, Bad, Holding

NUMBER = "(0|[1-9][0-9]{0,18})"
REQUEST = re.compile(f"(?:(begin|write) {NUMBER} {NUMBER}|(cut) {NUMBER}|(sync))\n".encode())


async def answer(holding: Holding, reader: asyncio.StreamReader, writer: asyncio.StreamWriter) -> None:
    """Does what a connection asks, until it ends or the document is given up."""
    holding.is_asked = False
    while not holding.over:
        found = REQUEST.fullmatch(await reader.readuntil(b"\n"))
        if not found:
            raise Bad("what is no request")
        word, first, length, _, place, _ = found.groups()
        data = await bytes_of(reader, int(length)) if word else b""
        if word == b"write":
            holding.note(int(first), data)
        elif place is not None:
            holding.note(int(place), None)
        else:
            holding.is_asked = True
            await (holding.begin(int(first), data) if word else holding.sync())
            writer.write(b"" if holding.is_told else b"ok\n")
            await holding.tidy()
            holding.is_asked = False
    holding.say_lost(holding.over)


async def bytes_of(reader: asyncio.StreamReader, length: int) -> bytes:
    if not 0 < length <= MOST_BYTES:
        raise Bad(f"{length} bytes, where 1 to {MOST_BYTES} may be")
    return await reader.readexactly(length)
