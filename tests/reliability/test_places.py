"""Places at the doors go back at once, and no address has them all."""

import contextlib
import json
import socket

import pytest

from harness.feeding import MOST_FEEDS, THREADS, Feeding, lines_from
from harness.folders import GROUP
from harness.running import NO_SEATS, POINT, Running, kept_words, read_all, read_line, wait_for

pytestmark = pytest.mark.slow
SEATS = 62
GATEWAY_SEATS = 16
LATEST = 10
"""How many seconds a busy machine may take to see that a follower has left. It is looked for once a second."""


def test_a_follower_that_has_left_gives_its_place_back_while_nobody_edits(tmp_path):
    with Feeding(tmp_path / "kept") as server:
        for unix in (False, True):
            for _ in range(MOST_FEEDS + 40):
                with server.follower({"since": 0}, unix=unix):
                    pass
        assert wait_for(lambda: server.number("Threads") == THREADS)
        with server.connect() as canvas:
            canvas.ask(**GROUP)
        with server.follower({"since": 0}) as sock:
            assert json.loads(lines_from(sock, 1)[0])["version"] == 1


def test_a_place_is_free_within_a_second(tmp_path):
    with Feeding(tmp_path / "kept") as server, contextlib.ExitStack() as held:
        followers = [held.enter_context(server.follower({"since": 0})) for _ in range(MOST_FEEDS)]
        assert wait_for(lambda: server.number("Threads") == THREADS + MOST_FEEDS)
        followers[7].close()
        assert wait_for(lambda: server.number("Threads") < THREADS + MOST_FEEDS, LATEST)
        with server.follower({"since": 0}) as sock, server.connect() as canvas:
            canvas.ask(**GROUP)
            assert json.loads(lines_from(sock, 1)[0])["version"] == 1
        assert {json.loads(lines_from(sock, 1)[0])["version"] for sock in followers[:7]} == {1}


def test_a_follower_that_sends_no_more_is_sent_all_first(tmp_path):
    with Feeding(tmp_path / "kept") as server:
        with server.connect() as canvas:
            for _ in range(20):
                canvas.ask(**GROUP)
        with server.follower({"since": 0}) as sock:
            sock.shutdown(socket.SHUT_WR)
            assert read_all(sock).count(b"\n") == 20


def own_address():
    """An address of this machine that is no loopback, or None."""
    with socket.socket(socket.AF_INET, socket.SOCK_DGRAM) as sock:
        with contextlib.suppress(OSError):
            sock.connect(("192.0.2.1", 9))
            return sock.getsockname()[0]
    return None


def held_by(held, address, most):
    """How many of so many connections are answered while all of them are open."""
    answered = 0
    for _ in range(most):
        sock = held.enter_context(socket.socket(socket.AF_UNIX if isinstance(address, str) else socket.AF_INET))
        sock.settimeout(20)
        sock.connect(address)
        sock.sendall(POINT)
        line = read_line(sock)
        answered += b'"ok":true' in line
        if line == NO_SEATS:
            break
    return answered


@pytest.mark.parametrize("words, share", [((), SEATS // 2), (("--share", "5"), 5), (("--share", "62"), SEATS), (("--seats", "3"), 1)])
def test_one_address_has_its_share_of_the_seats(tmp_path, words, share):
    address = own_address()
    if address is None or address.startswith("127."):
        pytest.skip("this machine has no address but the loopback")
    seats = 3 if "--seats" in words else SEATS
    words = [word if word != "127.0.0.1:0" else "0.0.0.0:0" for word in kept_words(tmp_path / "kept", "--listen", f"unix:{tmp_path}/door", *words)]
    with Running(words) as server, contextlib.ExitStack() as held:
        assert held_by(held, (address, server.port), SEATS + 1) == share
        # The seats that are left are for others: programs of this machine may have all.
        assert held_by(held, f"{tmp_path}/door", SEATS + 1) == seats - share
        assert held_by(held, ("127.0.0.1", server.port), 1) == 0


def test_a_gateway_has_seats_of_its_own(tmp_path):
    with Running(kept_words(tmp_path / "kept", "--gateway", f"unix:{tmp_path}/gateway")) as server, contextlib.ExitStack() as held:
        assert held_by(held, ("127.0.0.1", server.port), SEATS + 1) == SEATS - GATEWAY_SEATS
        assert held_by(held, f"{tmp_path}/gateway", SEATS + 1) == GATEWAY_SEATS


def test_a_gateway_may_have_all_seats(tmp_path):
    with Running(kept_words(tmp_path / "kept", "--seats", "5", "--gateway", f"unix:{tmp_path}/gateway")) as server, contextlib.ExitStack() as held:
        assert held_by(held, f"{tmp_path}/gateway", 6) == 5
        assert held_by(held, ("127.0.0.1", server.port), 1) == 0
