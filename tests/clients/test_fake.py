"""The clients in Python and in JavaScript beside servers that are made up here: each sends the bytes that a test names, cut where it names, and ends as it
names. fake.test.mjs has what concerns the one in JavaScript alone."""

import io
import json
import re
import socket
import struct
import threading
import time
from contextlib import contextmanager, suppress

import pytest

from canvas.client import Canvas, Feed, line_of, picture_of, replies
from harness.clients import Connected, JavaScript, Python, told
from harness.running import SECONDS, wait_for

pytestmark = [pytest.mark.quick, pytest.mark.no_program, pytest.mark.needs("node")]
MADE = b'{"body":0,"id":1,"ok":true,"version":1}\n'
PATCH = b'{"body":20,"ok":true,"version":1}\n'
IMAGE = b"P6\n3 1\n255\n" + bytes.fromhex("ff0000 ff0000 ffffff")
POINT = b'{"body":0,"colour":"ff0000","ok":true,"version":2}\n'
REFUSAL = b'{"body":0,"code":2,"name":"NoSuchShape","ok":false}\n'
NO_SEATS = b'{"body":0,"code":19,"name":"NoSeats","ok":false}\n'
BAD_JSON = b'{"body":0,"code":50,"name":"BadJson","ok":false}\n'
ALL = MADE + PATCH + IMAGE + REFUSAL + POINT
LOOK = {"verb": "point", "x": 0, "y": 0}
GROUP = '{"hidden":false,"parent":null,"pose":{"dx":0,"dy":0,"flip":false,"quarter":0},"shape":{"kind":"group"},"spot":"front","verb":"create"}'
SHOW = '{"hidden":true,"id":1,"verb":"show"}'
FIRST = b'{"damage":[0,0,0,0],"edit":%s,"id":1,"version":1}\n' % GROUP.encode()
SECOND = b'{"damage":[-12,3,40,1048576],"edit":%s,"id":null,"version":2}\n' % SHOW.encode()
KEPT = [{"version": 1, "id": 1, "damage": [0, 0, 0, 0], "edit": json.loads(GROUP), "text": GROUP},
        {"version": 2, "id": None, "damage": [-12, 3, 40, 1_048_576], "edit": json.loads(SHOW), "text": SHOW}]
"""The edits of FIRST and SECOND."""
DOCUMENT = '{"format":2,"next":1,"shapes":[]}'
OPENING = b'{"generation":3,"opening":%s}\n' % DOCUMENT.encode()
BEYOND = "since 15 is beyond the history: 12 edits are kept"


# -- servers and clients -----------------------------------------------------------------------------------------------

@contextmanager
def served(serve, listener=None):
    """The address of a server that treats its connection so."""
    with listener or socket.create_server(("127.0.0.1", 0)) as listener:
        done = threading.Event()

        def accept():
            sock, _ = listener.accept()
            with sock, suppress(OSError):
                serve(sock)
                done.wait(SECONDS)

        server = threading.Thread(target=accept)
        server.start()
        try:
            name = listener.getsockname()
            yield f"unix:{name}" if listener.family == socket.AF_UNIX else f"127.0.0.1:{name[1]}"
        finally:
            done.set()
            server.join()


def answering(*pieces, end=lambda sock: None):
    """A server that answers the first bytes that come by pieces, one after another, and may end then."""
    def serve(sock):
        sock.recv(1 << 16)
        for piece in pieces:
            sock.sendall(piece)
            time.sleep(0.001)
        end(sock)
    return serve


def end_sending(sock):
    sock.shutdown(socket.SHUT_WR)


def reset(sock):
    sock.setsockopt(socket.SOL_SOCKET, socket.SO_LINGER, struct.pack("ii", 1, 0))
    sock.close()


@pytest.fixture(scope="module")
def clients():
    with Python() as python, JavaScript() as javascript:
        yield {Python: python, JavaScript: javascript}


@pytest.fixture(params=[Python, JavaScript], ids=["python", "javascript"])
def client(request, clients):
    return clients[request.param]


@pytest.fixture
def beside(client):
    """A session with such a server."""
    @contextmanager
    def begin(serve, seconds=20):
        with served(serve) as address, Connected(client, "Canvas", address, seconds) as canvas:
            yield canvas
    return begin


@pytest.fixture
def following(client):
    """A feed of such a server, or how it fails."""
    @contextmanager
    def begin(serve, seconds=20, **wanted):
        with served(serve) as address, Connected(client, "Feed", address, seconds=seconds, **wanted) as feed:
            yield feed
    return begin


def answer(line, body=b""):
    """What a client tells of a reply."""
    return told([json.loads(line), body])


def refused(line):
    reply = json.loads(line)
    return {"refused": [reply["code"], reply["name"], f"{reply['code']} {reply['name']}", reply]}


def check_fault(found, fault, message=""):
    """A call failed so, with a short message like that."""
    assert found["fault"] == fault, found
    assert re.search(message, found["message"]) and len(found["message"]) < 250, found


def check_ended(canvas):
    check_fault(canvas("ask", **LOOK), "Ended")


# -- replies -----------------------------------------------------------------------------------------------------------

def test_replies_that_are_cut():
    assert len(list(replies(io.BytesIO(ALL)))) == 4
    for cut in range(1, len(MADE)):
        with pytest.raises(EOFError, match="^the replies end inside the line"):
            list(replies(io.BytesIO(ALL[:cut])))
    for cut in range(len(IMAGE)):
        with pytest.raises(EOFError, match=f" ends after {cut} bytes$"):
            list(replies(io.BytesIO((MADE + PATCH + IMAGE)[: len(MADE + PATCH) + cut])))
    assert picture_of(json.loads(PATCH), IMAGE) == (3, 1, 1, IMAGE[11:])
    assert line_of({"verb": "export", "name": "a\nb"}) == b'{"verb":"export","name":"a\\nb"}\n'


BEGIN = len(MADE + PATCH)


@pytest.mark.parametrize("cut", [0, 1, len(MADE) - 1, len(MADE), BEGIN, BEGIN + 9, len(ALL) - 1])
def test_replies_over_a_socket(beside, cut):
    with beside(answering(ALL[:cut], ALL[cut:])) as canvas:
        canvas("send", **LOOK)
        assert [canvas("read") for _ in range(4)] == [answer(MADE), answer(PATCH, IMAGE), refused(REFUSAL), answer(POINT)]


def test_a_body_that_is_cut_off(beside):
    with beside(answering(PATCH, IMAGE[:19], end=end_sending)) as canvas:
        check_fault(canvas("ask", **LOOK), "Ended", " ends after 19 bytes$")
        check_ended(canvas)


@pytest.mark.parametrize("pieces", [[], [MADE[:9]]])
@pytest.mark.parametrize("end", [end_sending, reset])
def test_a_line_that_is_cut_off_and_a_connection_that_ends(beside, end, pieces):
    with beside(answering(*pieces, end=end)) as canvas:
        check_ended(canvas)
        check_ended(canvas)


def test_a_reply_that_came_before_the_end(beside):
    with beside(answering(POINT + REFUSAL, end=end_sending)) as canvas:
        canvas("send", **LOOK)
        assert canvas("read") == answer(POINT)
        time.sleep(0.05)
        canvas("send", **LOOK)
        assert canvas("read") == refused(REFUSAL)
        check_fault(canvas("read"), "Ended")


def full(sock):
    sock.sendall(NO_SEATS)
    end_sending(sock)


@pytest.mark.parametrize("wait", [0, 0.05])
def test_a_full_house(beside, wait):
    with beside(full) as canvas:
        time.sleep(wait)
        assert canvas("ask", **LOOK) == refused(NO_SEATS)
        check_ended(canvas)


def reading(sock):
    full(sock)
    while sock.recv(1 << 16):
        pass


def gone(sock):
    full(sock)
    sock.close()


@pytest.mark.parametrize("client, serve", [(Python, reading), (Python, gone), (JavaScript, reading)], indirect=["client"])
def test_a_full_house_while_many_requests_are_sent(beside, serve):
    """(Node gives nothing more of a connection that was reset.)"""
    with beside(serve) as canvas:
        for x in range(2000):
            canvas("send", verb="point", x=x, y=0)
            time.sleep(0.1 if x == 300 else 0)  # what was sent by then is refused, and the refusal of a server that is gone comes
        assert canvas("read") == refused(NO_SEATS)
        check_fault(canvas("read"), "Ended")


def test_http(beside):
    with beside(answering(BAD_JSON, end=end_sending)) as canvas:
        canvas("send_line", "GET / HTTP/1.1\r\n\r\n")
        assert canvas("read") == refused(BAD_JSON)
        check_fault(canvas("read"), "Ended")


@pytest.mark.parametrize("other", [b"HTTP/1.1 400 Bad Request\r\n\r\n", b"[]\n", b'{"ok":true}\n', b'{"body":-1,"ok":true}\n', b'{"body":0,"ok":1}\n',
                                   b'{"body":0,"ok":false}\n', b"9" * 70_000], ids=lambda it: repr(it[:20]))
def test_what_is_no_reply(beside, other):
    with beside(answering(other)) as canvas:
        check_fault(canvas("ask", **LOOK), "BadReply", "^this is no reply of canvas: ")
        check_ended(canvas)


def test_what_is_no_picture(beside):
    with beside(answering(b'{"body":3,"ok":true,"version":1}\nP6\n')) as canvas:
        check_fault(canvas("tile", 0, 0), "BadReply", "^this is no picture of canvas: ")


def test_a_server_that_says_nothing_and_one_that_is_slow(beside):
    with beside(lambda sock: None, 0.4) as canvas:
        check_fault(canvas("point", 0, 0), "TimedOut")
        check_fault(canvas("send", verb="export"), "Ended")

    def slowly(sock):
        sock.recv(1 << 16)
        for byte in MADE:
            sock.sendall(bytes([byte]))
            time.sleep(0.06)

    with beside(slowly, 2) as canvas:
        assert canvas("ask", **LOOK) == answer(MADE)


def test_a_server_that_takes_nothing():
    with served(lambda sock: None) as address, Canvas.connect(address, 4) as canvas:
        with pytest.raises(TimeoutError):
            for _ in range(20_000):
                canvas.send_line(b" " * 3000)
        with pytest.raises(EOFError):
            canvas.ask(**LOOK)
        begin = time.monotonic()
        canvas.close()
        assert time.monotonic() - begin < 2  # it does not wait again


def test_requests_are_sent_together_as_they_are():
    came = []

    def listening(sock):
        while piece := sock.recv(1 << 16):
            came.append(piece)
            sock.sendall(POINT * piece.count(b"\n"))

    with served(listening) as address, Canvas.connect(address) as canvas:
        for x in (1, 2, 3):
            canvas.send(verb="point", x=x, y=0)
        assert [canvas.read()[0] for _ in range(3)] == [json.loads(POINT)] * 3
        assert came == [b"".join(b'{"verb":"point","x":%d,"y":0}\n' % x for x in (1, 2, 3))]
        canvas.send_line(b'{"verb":')
        canvas.send_line(b'"export"}\n')
        canvas.read()
        assert came[-1] == b'{"verb":"export"}\n'


def test_an_ask_beside_replies_that_are_still_to_be_read(beside):
    with beside(answering(MADE, POINT)) as canvas:
        canvas("send", **LOOK)
        canvas("send", **LOOK)
        check_fault(canvas("ask", **LOOK), "Error", "^2 replies are to be read before$")
        assert [canvas("read"), canvas("read")] == [answer(MADE), answer(POINT)]


# -- places and times --------------------------------------------------------------------------------------------------

def connecting(client, kind, address, seconds=20):
    """How a session or a feed is not connected."""
    words = [[address, seconds], {}] if kind == "Canvas" else [[address], {"seconds": seconds}]
    return client.call(None, kind, *words)


@pytest.mark.parametrize("kind", ["Canvas", "Feed"])
def test_addresses_times_and_nobody_there(client, kind):
    faults = ("BadReply", "BadReply") if isinstance(client, Python) else ("TypeError", "RangeError")  # (a ValueError is both in Python)
    for address in ("localhost", "127.0.0.1", ":7878", "127.0.0.1:", "127.0.0.1:http", "127.0.0.1:65536", "127.0.0.1:-1", ""):
        check_fault(connecting(client, kind, address), faults[0], " is neither HOST:PORT nor unix:PATH$")
    for seconds in (0, -1):
        check_fault(connecting(client, kind, "127.0.0.1:7878", seconds), faults[1])
    with socket.create_server(("127.0.0.1", 0)) as listener:
        address = f"127.0.0.1:{listener.getsockname()[1]}"
        with Connected(client, "Canvas", address, None) as canvas:
            assert canvas.is_there
    check_fault(connecting(client, kind, address), "ECONNREFUSED")
    check_fault(connecting(client, kind, "unix:/nowhere/door"), "ENOENT")


def test_a_time_that_is_no_number():
    for connect in (Canvas.connect, Feed.connect):
        with pytest.raises(ValueError, match=" are no time to wait$"):
            connect("127.0.0.1:7878", seconds=float("nan"))


def test_the_end(beside):
    came = []

    def listening(sock):
        while piece := sock.recv(1 << 16):
            came.append(piece)

    with beside(listening) as canvas:
        canvas("send", **LOOK)
        assert canvas("close") is None
        check_fault(canvas("send", **LOOK), "Ended")
        check_ended(canvas)
        check_fault(canvas("read"), "Ended")
        assert canvas("close") is None
    assert b"".join(came) == line_of(LOOK)  # what was sent before is on its way


# -- feeds -------------------------------------------------------------------------------------------------------------

def state_of(feed):
    return feed("version"), feed("generation"), feed("opening")


@pytest.mark.parametrize("cut", [0, 1, len(FIRST) - 1, len(FIRST), len(FIRST) + 1, len(FIRST + SECOND) - 1])
def test_a_feed_that_is_cut_anywhere(following, cut):
    whole = FIRST + SECOND
    with following(answering(whole[:cut], whole[cut:], end=end_sending)) as feed:
        assert state_of(feed) == (0, None, None)
        assert (feed("all"), feed("version"), feed("next"), feed("batch")) == (KEPT, 2, None, [])


@pytest.mark.parametrize("end", [end_sending, reset])
@pytest.mark.parametrize("cut", [1, len(SECOND) - 1])
def test_a_feed_that_ends_inside_a_line(following, end, cut):
    with following(answering(FIRST, SECOND[:cut], end=end)) as feed:
        assert feed("next") == KEPT[0]
        time.sleep(0.05)
        assert (feed("all"), feed("version")) == ([], 1)


@pytest.mark.parametrize("wanted, line", [({}, b'{"since":0}\n'), ({"since": 12}, b'{"since":12}\n'),
                                          ({"since": 12, "generation": 3}, b'{"since":12,"generation":3}\n'),
                                          ({"opening": True}, b'{"since":0,"opening":true}\n')])
def test_what_is_asked_of_a_feed(following, wanted, line):
    came = []

    def serve(sock):
        came.append(sock.recv(1 << 16))
        sock.sendall(OPENING)

    with following(serve, **wanted) as feed:
        assert state_of(feed) == (wanted.get("since", 0), *((3, DOCUMENT) if "opening" in wanted else (None, None)))
        assert wait_for(lambda: came == [line])


@pytest.mark.parametrize("cut", [1, len(OPENING) - 1, len(OPENING), len(OPENING) + 1, len(OPENING + SECOND) - 1])
def test_a_feed_with_its_opening(following, cut):
    whole = OPENING + SECOND
    with following(answering(whole[:cut], whole[cut:], end=end_sending), since=1, opening=True, generation=3) as feed:
        assert (feed("generation"), feed("opening"), feed("all")) == (3, DOCUMENT, KEPT[1:])


def test_a_large_opening_and_one_that_is_cut(following):
    text = json.dumps({"format": 2, "next": 1, "shapes": ["x" * 300_000]})
    with following(answering(b'{"generation":1,"opening":%s}\n' % text.encode()), opening=True) as feed:
        assert (feed("generation"), feed("opening")) == (1, text)
    with following(answering(OPENING[:-1], end=end_sending), opening=True) as feed:
        check_fault(feed.number, "Ended", "^the feed has ended before its opening document$")


def test_a_feed_that_is_refused(following):
    refusal = b'{"error":"%s","ok":false}\n' % BEYOND.encode()
    with following(answering(refusal, end=end_sending), since=15) as feed:
        assert (feed("next"), feed("all")) == ({"refused": BEYOND}, [])
    with following(answering(refusal, end=end_sending), since=15, opening=True) as feed:
        assert feed.number == {"refused": BEYOND}

    def taken(sock):
        sock.sendall(b'{"error":"all 256 feeds are taken","ok":false}\n')
        end_sending(sock)

    with following(taken) as feed:
        assert feed("batch") == {"refused": "all 256 feeds are taken"}


NO_LINES = [b"HTTP/1.1 400 Bad Request\r\n\r\n", b"[]\n", NO_SEATS, FIRST.replace(b":1}", b':"1"}'), FIRST.replace(b":1}", b":1,}"),
            FIRST.replace(b"[0,", b"[0, "), FIRST.replace(b"[0,", b"["), FIRST.replace(b'"kind"', b"kind"), FIRST.replace(b"null", b"["),
            OPENING, b'{"error":1,"ok":false}\n', b"9" * 70_000]
NO_TEXT_AND_TOO_DEEP = [FIRST.replace(b'"front"', b'"\xff"'), FIRST.replace(b"null", b"[" * 40_000)]
"""What node's own reader of JSON takes, or as it tells it."""
CASES = [*((kind, line) for kind in (Python, JavaScript) for line in NO_LINES), *((Python, line) for line in NO_TEXT_AND_TOO_DEEP)]


@pytest.mark.parametrize("client, line", CASES, indirect=["client"], ids=[f"{kind.__name__} {number}" for number, (kind, _) in enumerate(CASES)])
def test_lines_that_are_none_of_a_feed(following, line):
    with following(answering(line), 5) as feed:
        check_fault(feed("next"), "BadReply", "^this is no line of a feed: ")
        assert (feed("all"), feed("version")) == ([], 0)


def test_an_opening_that_is_none(following):
    with following(answering(FIRST), opening=True) as feed:
        check_fault(feed.number, "BadReply", "^this is no line of a feed: ")


@pytest.mark.parametrize("line, since", [(SECOND, 0), (FIRST, 1), (FIRST, 2)])
def test_versions_that_do_not_follow(following, line, since):
    with following(answering(line), since=since) as feed:
        check_fault(feed("next"), "BadReply", f"^version . came after {since}$")


def test_edits_that_come_together(following):
    with following(answering(FIRST + SECOND[:9])) as feed:
        assert feed("batch") == KEPT[:1]
    third = SECOND.replace(b":2}", b":3}")
    with following(answering(FIRST + SECOND + third, end=end_sending)) as feed:
        assert [kept["version"] for kept in [*feed("batch"), *feed("batch")]] == [1, 2, 3]
        assert feed("batch") == []


def test_a_feed_that_says_nothing_and_one_that_is_slow(following):
    with following(answering(FIRST), 0.4) as feed:
        assert feed("next") == KEPT[0]
        check_fault(feed("next"), "TimedOut", "^nothing came for 0.4 seconds$")
        assert (feed("all"), feed("version")) == ([], 1)
    with following(answering(), 0.4, opening=True) as feed:
        check_fault(feed.number, "TimedOut")
    with following(answering(*(bytes([byte]) for byte in FIRST)), 2) as feed:
        assert feed("next") == KEPT[0]


def test_a_feed_and_a_session_by_a_unix_socket(client, tmp_path):
    listener = socket.create_server(f"{tmp_path}/door", family=socket.AF_UNIX)
    with served(answering(FIRST), listener) as address, Connected(client, "Feed", address) as feed:
        assert feed("next") == KEPT[0]
    listener = socket.create_server(f"{tmp_path}/other", family=socket.AF_UNIX)
    with served(answering(POINT), listener) as address, Connected(client, "Canvas", address) as canvas:
        assert canvas("point", 0, 0) == json.loads(POINT)


def test_the_server_is_told_that_a_feed_was_left():
    ends = []

    def note_end(sock):
        sock.settimeout(SECONDS)
        ends.append(sock.recv(1))

    with served(answering(FIRST, end=note_end)) as address:
        feed = Feed.connect(address)
        assert next(feed).version == 1
        with feed._socket.dup():  # (as where another process was started meanwhile)
            feed.close()
            assert wait_for(lambda: ends == [b""])


def test_the_end_of_a_feed(following):
    came = []

    def listening(sock):
        while piece := sock.recv(1 << 16):
            came.append(piece)
        came.append(b"end")

    with following(listening) as feed:
        feed("close")
        assert (feed("all"), feed("batch")) == ([], [])
        feed("close")
    assert came == [b'{"since":0}\n', b"end"]
