"""Who may open a session, where the gateway listens, and what tabs are told."""

import argparse
import asyncio
import re
import subprocess
import sys
from http.client import HTTPConnection
from types import SimpleNamespace

import pytest

from canvas.gateway.main import door_of, listener_at, parts_of
from canvas.gateway.application import PAGE, is_own, page_of
from canvas.gateway.session import Presence
from canvas.gateway.tabs import MOST_BATCH, MOST_LINE, Bad, News, Tab, message_of


def request(host, origin=None):
    return SimpleNamespace(host=host, headers={} if origin is None else {"Origin": origin})


@pytest.mark.parametrize("host, origin", [
    ("127.0.0.1:8080", "http://127.0.0.1:8080"), ("localhost:8080", "http://localhost:8080"), ("[::1]:8080", "http://[::1]:8080"),
    ("drawing:8080", "http://drawing:8080"), ("127.0.0.1:8080", None),
])
def test_the_own_page_may(host, origin):
    assert is_own(request(host, origin), {"drawing"})


@pytest.mark.parametrize("host, origin", [
    ("127.0.0.1:8080", "http://elsewhere.example"), ("127.0.0.1:8080", "http://127.0.0.1:9090"), ("127.0.0.1:8080", "null"),
    ("elsewhere.example:8080", "http://elsewhere.example:8080"), ("elsewhere.example", None), ("", None),
])
def test_other_pages_may_not(host, origin):
    assert not is_own(request(host, origin), {"127.0.0.1"})


def page_at(name, *words):
    """The status and the text of the page, asked for by a name of a gateway with these words more."""
    command = [sys.executable, "-m", "canvas.gateway", "127.0.0.1:1", "--listen", "127.0.0.1:0", *words]
    with subprocess.Popen(command, stdout=subprocess.PIPE) as run:
        port = int(run.stdout.readline().decode().strip(" /\n").rpartition(":")[2])
        connection = HTTPConnection("127.0.0.1", port)
        connection.request("GET", "/", headers={"Host": f"{name}:{port}"})
        answer = connection.getresponse()
        found = answer.status, answer.read().decode()
        connection.close()
        run.terminate()
    return found


def test_a_name_that_is_not_allowed_is_told_so():
    status, text = page_at("mybox")
    assert (status, text) == (421, "This gateway does not answer to the name 'mybox'. Whoever started it may add: --host mybox\n")


def test_a_name_that_is_allowed():
    status, text = page_at("mybox", "--host", "other", "--host", "MyBox")
    assert status == 200 and "<title>" in text
    assert is_own(request("mybox:8080", "http://mybox:8080"), {"127.0.0.1", "mybox"})
    assert not is_own(request("mybox:8080", "http://elsewhere.example"), {"127.0.0.1", "mybox"})


@pytest.mark.parametrize("text, wanted", [("127.0.0.1:80", ("127.0.0.1", 80)), ("[::1]:8080", ("::1", 8080)), (":0", ("", 0))])
def test_an_address(text, wanted):
    assert parts_of(text) == wanted


def test_the_door_of_a_server():
    assert (door_of("127.0.0.1:80"), door_of("unix:here/door")) == (("127.0.0.1", 80), "here/door")


@pytest.mark.parametrize("text", ["", "8080", "host", "host:", "host:x", "host:65536", "host:-1"])
def test_what_is_no_address(text):
    with pytest.raises(argparse.ArgumentTypeError):
        parts_of(text)


def test_the_page_is_there():
    assert (PAGE / "index.html").is_file()


def test_behind_a_unix_socket_any_name_is_known_but_no_other_site():
    assert is_own(request("canvas.example", "https://canvas.example"), None)
    assert not is_own(request("canvas.example", "https://elsewhere.example"), None)


def test_the_scripts_of_the_page_lie_at_one_address():
    assert '"page/main.js"' in page_of("a", "") and "<title>a – canvas" in page_of("a", "")
    assert '"../../page/main.js"' in page_of("<b>", "/d/{name}") and "<title>&lt;b&gt; – canvas" in page_of("<b>", "/d/{name}")


def test_a_socket_at_which_nobody_listens_makes_way(tmp_path):
    path = str(tmp_path / "door")
    first, address = listener_at(path)
    assert address == f"unix:{path}"
    with pytest.raises(OSError):
        listener_at(path)
    first.close()
    listener_at(path)[0].close()
    (tmp_path / "file").write_text("kept")
    with pytest.raises(OSError):
        listener_at(str(tmp_path / "file"))
    assert (tmp_path / "file").read_text() == "kept"


@pytest.mark.parametrize("words", [[], ["127.0.0.1:1", "--documents", "here"], ["--documents", "here", "--feed", "127.0.0.1:1"]])
def test_words_that_are_no_command(words):
    said = subprocess.run([sys.executable, "-m", "canvas.gateway", *words], capture_output=True, text=True)
    assert said.returncode == 2 and "either the ADDRESS of a server is wanted, or --documents FOLDER" in said.stderr


@pytest.mark.parametrize("text", ["", "{", "[]", "7", '{"batch":1}', '{"batch":1,"requests":{}}', '{"at":1,"requests":[]}', "[" * 100_000,
                                  '{"batch":1,"requests":["%s"]}' % ("a" * (MOST_LINE - 2))])
def test_what_is_no_message(text):
    with pytest.raises(Bad):
        message_of(text)


def test_a_message_has_the_lines_of_its_requests():
    assert message_of('{"batch":1,"requests":[{"verb":"export"},"%s"]}' % ("a" * (MOST_LINE - 3)))["lines"][0] == b'{"verb":"export"}\n'
    assert len(message_of('{"batch":1,"requests":[%s]}' % ",".join("1" * (MOST_BATCH + 1)))["lines"]) == MOST_BATCH
    assert message_of('{"pointer":null}') == {"pointer": None}


class Session:
    def __init__(self, first, last):
        self.presence = Presence()
        self.presence._since, self.presence._until = first, last


async def heard(session, own, seen, *versions):
    """What a tab with a session of its own, which has seen a version, is told where another session was told of versions."""
    said, news = [], News()
    tab = Tab(SimpleNamespace(closed=False, send_str=None), SimpleNamespace(past=None))
    tab._session, tab.seen = own, seen

    async def say(**what):
        said.append(what["version"])

    tab._say = say
    news.tabs.add(tab)
    for version in versions:
        news.tell(session, version)
    await asyncio.sleep(0)
    return said


@pytest.mark.parametrize("own, seen, versions, wanted", [((0, 9), 3, (2, 3, 4, 4, 6), [4, 6]), ((10, 19), 3, (4,), []), (None, 0, (4,), [])],
                         ids=["what it has not seen", "its own run alone", "nothing without a session"])
async def test_a_tab_is_told_of(own, seen, versions, wanted):
    assert await heard(Session(0, 9), own and Session(*own), seen, *versions) == wanted


def test_what_is_missing_is_said_in_words():
    said = subprocess.run([sys.executable, "-S", "-m", "canvas.gateway", "127.0.0.1:1"], capture_output=True, text=True)
    assert (said.returncode, said.stdout) == (1, "")
    assert re.fullmatch(r"gateway: there is no aiohttp, which `apt install python3-aiohttp` installs, as root\n", said.stderr)
