"""The lease of a host: without it the host has no documents."""

from __future__ import annotations

import time

from canvas.store import statements
from canvas.store.holding import Host

LEASE = 6
"""After how many seconds without its agent a host has no documents any more, by the database's clock."""
OWN = 5
"""After how many seconds by its own clock, from when it asked for its lease, an agent gives all up: before another host
may have it."""


def clock() -> float:
    """Seconds by a clock that nobody sets, and that goes on while the machine sleeps."""
    return time.clock_gettime(time.CLOCK_BOOTTIME)


class Lease:
    """The right of a host to hold documents. It lasts by the host's own clock less long than by the database's, which
    began to count later."""

    def __init__(self, host: Host) -> None:
        self._host, self._until = host, 0.0

    async def renew(self) -> bool:
        """Renews the lease; gives whether it was over."""
        asked = clock()
        (was_over,), = await self._host.database.once(statements.RENEW, host=self._host.name, lease=LEASE)
        self._until = asked + OWN
        return bool(was_over)

    def left(self) -> float:
        """For how many seconds the host has its lease for certain."""
        return self._until - clock()

    def fault(self) -> str | None:
        """Why the host has no lease now, or None."""
        late = clock() - self._until
        if late <= 0:
            return None
        return f"the database has not answered for {late + OWN:.0f} s: {self._host.database.fault or 'it is silent'}"
