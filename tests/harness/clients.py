"""The clients in Python and in JavaScript, called in one way: what a call gives, or how it fails, is told in the same words of both."""

import errno
import hashlib
import json
import os
import subprocess

from canvas import Canvas, Feed, FeedRefused, Refused
from repository import BUILT, TOP

KINDS = {"Canvas": Canvas, "Feed": Feed}
CALLS = TOP / "tests" / "clients" / "calls.mjs"
FAULTS = {"EOFError": "Ended", "TimeoutError": "TimedOut", "ValueError": "BadReply", "RuntimeError": "Error"}
"""What a fault of Python is in JavaScript."""


def told(value):
    """What a call gives, as calls.mjs tells it."""
    if isinstance(value, bytes):
        return {"bytes": len(value), "sha256": hashlib.sha256(value).hexdigest()}
    if hasattr(value, "_asdict"):
        value = value._asdict()
    if isinstance(value, (list, tuple)):
        return [told(it) for it in value]
    return {name: told(it) for name, it in value.items()} if isinstance(value, dict) else value


def answer_of(thing, name, given=(), more=None):
    """What a call of a session or a feed gives, or how it fails."""
    words = [text.encode() for text in given] if name == "send_line" else given
    try:
        return told(getattr(thing, name)(*words, **(more or {})))
    except Refused as refused:
        return {"refused": [refused.code, refused.name, str(refused), refused.reply]}
    except FeedRefused as refused:
        return {"refused": str(refused)}
    except (EOFError, OSError, ValueError, RuntimeError) as fault:
        name = errno.errorcode.get(getattr(fault, "errno", None)) or FAULTS.get(type(fault).__name__, type(fault).__name__)
        return {"fault": name, "message": str(fault)}


class Python:
    """Sessions and feeds of the client in Python, by their numbers."""

    def __init__(self):
        self._things = []

    def __enter__(self):
        return self

    def __exit__(self, *_):
        pass

    def call(self, number, name, given, more):
        """What a call gives of the thing of a number; with none the name is the kind of a thing to be connected, whose number is given."""
        if number is None:
            found = answer_of(self, "_connect", [KINDS[name], *given], more)
            return found if isinstance(found, dict) else len(self._things) - 1
        thing = self._things[number]
        if name in ("version", "generation", "opening"):
            return getattr(thing, name)
        if name in ("next", "all"):
            return answer_of(self, f"_{name}", [thing])
        return answer_of(thing, name, given, more)

    def _connect(self, kind, *given, **more):
        self._things.append(kind.connect(*given, **more))

    @staticmethod
    def _next(feed):
        return next(feed, None)

    @staticmethod
    def _all(feed):
        return list(feed)


class JavaScript:
    """The same of the client in JavaScript, in one process of node."""

    def __enter__(self):
        environment = {**os.environ, "CANVAS": str(BUILT)}
        self._process = subprocess.Popen(["node", CALLS, "driven"], stdin=subprocess.PIPE, stdout=subprocess.PIPE, text=True, env=environment)
        return self

    def __exit__(self, *_):
        self._process.kill()
        self._process.communicate()

    def call(self, *what):
        self._process.stdin.write(json.dumps(what) + "\n")
        self._process.stdin.flush()
        return json.loads(self._process.stdout.readline())


class Connected:
    """A session or a feed of a client, which is called by the names of its calls."""

    def __init__(self, client, kind, *given, **more):
        self._client, self.number = client, client.call(None, kind, given, more)

    @property
    def is_there(self):
        return isinstance(self.number, int)

    def __call__(self, name, *given, **more):
        return self._client.call(self.number, name, given, more or None)

    def __enter__(self):
        return self

    def __exit__(self, *_):
        if self.is_there:
            self("close")
