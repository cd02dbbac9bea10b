"""Which tabs share a session."""

import asyncio
import collections

import pytest

from canvas.gateway import seats as module
from canvas.gateway.seats import Seats
from canvas.gateway.session import Away


class Server:
    """A server with so many seats. It opens a session when a moment has passed."""

    def __init__(self, seats):
        self.seats, self.made, self.tries = seats, [], 0

    async def open(self, _):
        self.tries += 1
        await asyncio.sleep(0.01)
        self.made.append(Session(self))
        return self.made[-1]

    @property
    def taken(self):
        return sum(not session.is_over for session in self.made)


class Session:
    def __init__(self, server):
        self._server, self.is_over, self.is_spent = server, False, False

    async def version(self):
        await asyncio.sleep(0)
        if self._server.taken > self._server.seats:
            raise Away("NoSeats")
        return 0

    def close(self):
        self.is_over = True


@pytest.fixture
def made(monkeypatch):
    """Makes the gateway's seats at a server that has so many."""
    def make(count=62, own=None):
        server = Server(count)
        monkeypatch.setattr(module.Session, "open", server.open)
        monkeypatch.setattr(module, "MOST_SESSIONS", 4)
        return Seats(None, *([own] if own else [])), server

    return make


def counts(sessions):
    return sorted(collections.Counter(sessions).values())


async def test_the_first_tabs_have_a_session_each_and_all_others_share(made):
    seats, server = made()
    first = [await seats.take() for _ in range(4)]
    others = await asyncio.gather(*(seats.take() for _ in range(9)))
    assert (counts(first), counts(first + others), server.taken) == ([1, 1, 1, 1], [3, 3, 3, 4], 4)


@pytest.mark.parametrize("count, tabs, wanted", [(62, 10, [2, 2, 3, 3]), (2, 5, [2, 3])], ids=["they are spread", "where no seat is left they share"])
async def test_tabs_that_come_at_once(made, count, tabs, wanted):
    seats, server = made(count)
    assert (counts(await asyncio.gather(*(seats.take() for _ in range(tabs)))), server.taken) == (wanted, len(wanted))


async def test_without_any_seat_all_who_wait_are_told_at_once(made):
    seats, server = made(0)
    found = await asyncio.gather(*(seats.take() for _ in range(5)), return_exceptions=True)
    assert ([str(it) for it in found], server.tries, server.taken) == (["NoSeats"] * 5, 1, 0)


async def test_a_session_is_closed_when_its_last_tab_has_left(made):
    seats, server = made()
    taken = [await seats.take() for _ in range(5)]
    assert server.taken == 4
    for session in taken:
        seats.leave(session)
    assert server.taken == 0


async def test_a_session_that_is_over_or_spent_is_given_to_nobody(made):
    seats, _ = made()
    over, spent = [await seats.take() for _ in range(2)]
    over.is_over = spent.is_spent = True
    found = {await seats.take() for _ in range(4)}
    assert ({over, spent} & found, len(found)) == (set(), 4)


async def test_whoever_does_not_wait_any_more_leaves_no_session_behind(made):
    seats, server = made()
    waiting = asyncio.create_task(seats.take())
    await asyncio.sleep(0)
    waiting.cancel()
    await asyncio.sleep(0.05)
    await seats.take()
    assert server.taken == 1


async def test_a_server_that_is_away(made, monkeypatch):
    async def nobody(_):
        raise Away("no server answers")

    seats, _ = made()
    monkeypatch.setattr(module.Session, "open", nobody)
    with pytest.raises(Away, match="no server answers"):
        await seats.take()


async def test_where_no_seat_is_left_tabs_share_that_of_the_gateway(made):
    seats, server = made(1, lambda: own)
    own = await server.open(None)
    found = [await seats.take() for _ in range(3)]
    for session in found:
        seats.leave(session)
    again = await seats.take()
    seats.close()
    assert ({*found, again}, own.is_over) == ({own}, False)


async def test_while_seats_are_left_that_of_the_gateway_is_not_taken(made):
    seats, server = made(own=lambda: own)
    own = await server.open(None)
    assert own not in [await seats.take() for _ in range(3)]
