"""Sessions that are written down: what is sent, and which replies and bodies are wanted. The blocks of docs/PROTOCOL.md are such, and the cases of
tests/sessions/*.session. A line is one of

    # WORDS         a comment
    == NAME         begins a case: a session over a document of its own
    = DOCUMENT      the saved document that it begins with, a JSON text or a file's path from the repository's top; an empty one where it is left out
    =+ MEMBERS      what is other in that document, as {"next":99,"groups":[1,9]}: its next id; groups more on the page with the ids 1 to 9, each with
                    the key of the rank that its id is, the greatest first
    > LINE          a line that is sent
    < LINE          the line of the reply that is wanted to the next line that has none yet
    (BODY)          the body behind that line, which may go over several lines
    ! FAULT         what ends the session, or keeps it from beginning, as `70 LineTooLong`: the last line of a case

Behind `=%` and `>%` stand such lines in which %ff is a byte, and %25 the sign % itself. A body is

    {JSON}                                                      a text
    a P6 file of 4 by 2 white pixels                            a picture; what stands behind a colon here is a remark
    a P6 file of 4 by 2 pixels: red, 3 white; 2 red, 2 white    its colours row by row; what stands behind `, which` is a remark
    a P6 file of 4 by 9 pixels: 8 rows of 4 red; 4 white        the same
    a P6 file of 256 by 256 pixels with the SHA-256 0123..      the checksum of the whole body
    a text with the SHA-256 0123..                              the same
    the same as before                                          the last body that was named

where a colour is red, green, blue, white, black, or six hexadecimal digits.
"""

import hashlib
import json
import os
import re
from dataclasses import dataclass, field
from typing import Optional
from urllib.parse import unquote_to_bytes

import key_rows
from plain_model import saved_record
from repository import TOP

COLOURS = {"red": "ff0000", "green": "00ff00", "blue": "0000ff", "white": "ffffff", "black": "000000"}
PICTURE = re.compile(r"a P6 file of (\d+) by (\d+)(?: (\w+))? pixels(?:: (.*))?", re.S)
CHECKSUM = re.compile(r"(?:a text|a P6 file of (\d+) by (\d+) pixels) with the SHA-256 ([0-9a-f]{64})")
ROWS = re.compile(r"(?:(\d+) rows of )?(.*)", re.S)
PIXELS = re.compile(r"(?:(\d+) )?(\w+)")
AGAIN = "(the same as before)"


class BadLine(Exception):
    """A line of a file that is no line of a session, with its number."""

    def __init__(self, number, fault):
        super().__init__(fault)
        self.number = number


# -- bodies ------------------------------------------------------------------------------------------------------------

def head_of(w, h):
    return b"P6\n%d %d\n255\n" % (w, h)


def colour_of(word):
    """The bytes of a pixel of this colour."""
    digits = COLOURS.get(word, word)
    if not re.fullmatch("[0-9a-f]{6}", digits):
        raise ValueError(f"{word} is no colour")
    return bytes.fromhex(digits)


def rows_of(words, w):
    """The pixels of one or more rows."""
    count, pixels = ROWS.fullmatch(words.strip()).groups()
    row = b""
    for item in pixels.split(","):
        found = PIXELS.fullmatch(item.strip())
        if found is None:
            raise ValueError(f"{item.strip()!r} is no colour of pixels")
        row += colour_of(found[2]) * int(found[1] or 1)
    if len(row) != 3 * w:
        raise ValueError(f"the row '{words.strip()}' has {len(row) // 3} pixels, and not {w}")
    return row * int(count or 1)


def picture(w, h, colour, words):
    """The bytes of a P6 file: of one colour, or of the rows that the words name."""
    if colour:
        return head_of(w, h) + colour_of(colour) * (w * h)
    raster = b"".join(rows_of(row, w) for row in (words or "").split(", which")[0].split(";"))
    if len(raster) != 3 * w * h:
        raise ValueError(f"there are {len(raster) // (3 * w)} rows, and not {h}")
    return head_of(w, h) + raster


def body_test(words):
    """A function that says whether bytes are the body that these words name; raises ValueError where they name none."""
    if words.startswith("{"):
        return words.encode().__eq__
    if found := CHECKSUM.fullmatch(words):
        head = head_of(int(found[1]), int(found[2])) if found[1] else b""
        return lambda body: body.startswith(head) and hashlib.sha256(body).hexdigest() == found[3]
    if found := PICTURE.fullmatch(words):
        return picture(int(found[1]), int(found[2]), found[3], found[4]).__eq__
    raise ValueError(f"({words}) names no body")


# -- cases -------------------------------------------------------------------------------------------------------------

@dataclass
class Reply:
    """The line of a reply that is wanted, with the number that it has in its file, and the words that name its body."""

    number: int
    line: str
    body: Optional[str] = None


@dataclass
class Case:
    """A session over a document of its own: its place and name, the saved document that it begins with, the bytes that are sent, the replies that are
    wanted, and the fault that ends it, each None where there is none."""

    number: int
    name: str = ""
    file: str = ""
    document: Optional[bytes] = None
    sent: list = field(default_factory=list)
    replies: list = field(default_factory=list)
    fault: Optional[str] = None

    @property
    def data(self):
        return b"".join(line + b"\n" for line in self.sent)

    @property
    def last_body(self):
        return next((it.body for it in reversed(self.replies) if it.body is not None), None)

    def check(self):
        """Raises BadLine where it is no whole case."""
        if not self.sent and self.fault is None:
            raise BadLine(self.number, "nothing is sent")
        if self.fault is None and len(self.sent) != len(self.replies):
            raise BadLine(self.number, f"{len(self.sent)} lines are sent, and {len(self.replies)} replies are wanted")
        for reply in self.replies:
            try:
                length = json.loads(reply.line)["body"]
                if reply.body is not None:
                    body_test(reply.body)
            except (ValueError, KeyError, TypeError) as fault:
                raise BadLine(reply.number, str(fault)) from None
            if bool(length) != (reply.body is not None):
                raise BadLine(reply.number, "its body is not named" if length else "it has no body")

    def difference(self, given):
        """Where these bytes are other than the replies that are wanted: the number of a line, and what is wrong; or None."""
        for reply in self.replies:
            line, _, given = given.partition(b"\n")
            if line != reply.line.encode():
                return reply.number, f"{shown(line)} is answered, and not {reply.line}"
            length = json.loads(line)["body"]
            body, given = given[:length], given[length:]
            if length and not body_test(reply.body)(body):
                return reply.number, f"the body is {shown(body)}, and not {reply.body}"
        if given:
            return self.number, f"{shown(given)} is answered behind all replies that are wanted"
        return None


def shown(data):
    """Some of the bytes, as a text."""
    text = data[:400].decode(errors="backslashreplace")
    return (text if text.isprintable() else repr(data[:400])) or "nothing"


def line_of(sign, rest):
    """The bytes that stand behind a sign: as they are, or with %ff for bytes."""
    return unquote_to_bytes(rest) if sign.endswith("%") else rest.encode()


def document_of(sign, rest):
    """The bytes of a saved document that stand behind a sign, or in the file that is named there."""
    if sign == "=" and not rest.startswith("{"):
        return (TOP / rest).read_bytes()
    return line_of(sign, rest)


def with_more(document, members):
    """A saved document with another next id or more groups, as `=+` says."""
    saved, more = json.loads(document), json.loads(members)
    first, last = more.pop("groups", (1, 0))
    for number in range(last, first - 1, -1):
        group = {"shape": {"kind": "group"}, "pose": {}, "hidden": False, "index": key_rows.fresh(number), "parent": None}
        saved["shapes"].append(saved_record(number, group, saved["format"]))
    return json.dumps({**saved, **more}, separators=(",", ":")).encode()


def take_line(case, number, line):
    """Adds a line of a file to a case."""
    sign, _, rest = line.partition(" ")
    if case.fault is not None:
        raise BadLine(number, "the case has ended")
    if line.startswith("(") and case.replies and case.replies[-1].body is None:
        case.replies[-1].body = case.last_body if line == AGAIN else line[1:-1]
    elif sign in (">", ">%"):
        case.sent.append(line_of(sign, rest))
    elif sign == "<":
        case.replies.append(Reply(number, rest))
    elif sign in ("=", "=%") and case.document is None and not case.sent:
        case.document = document_of(sign, rest)
    elif sign == "=+" and case.document is not None and not case.sent:
        case.document = with_more(case.document, rest)
    elif sign == "!":
        case.fault = rest
    else:
        raise BadLine(number, f"{line} is no line of a session here")


def whole_lines(lines, begin):
    """The lines with their numbers, of which a body over several ones is one, without comments and empty ones."""
    open_body = None
    for number, line in enumerate(lines, start=begin):
        if open_body:
            open_body = (open_body[0], f"{open_body[1]} {line.strip()}")
        elif line.startswith("("):
            open_body = (number, line)
        elif line and not line.startswith("#"):
            yield number, line
        if open_body and line.endswith(")"):
            yield open_body
            open_body = None
    if open_body:
        raise BadLine(open_body[0], "the bracket is not closed")


def session_of(lines, begin):
    """The case of lines without a name, of which the first has this number. Raises BadLine."""
    case = Case(begin)
    for number, line in whole_lines(lines, begin):
        take_line(case, number, line)
    case.check()
    return case


def cases_of(path):
    """The cases of a file. Raises BadLine."""
    cases = []
    for number, line in whole_lines(path.read_text().split("\n"), 1):
        if line.startswith("== "):
            cases.append(Case(number, line[3:], os.path.relpath(path, TOP)))
        elif cases:
            take_line(cases[-1], number, line)
        else:
            raise BadLine(number, "no case has begun")
    for case in cases:
        case.check()
    return cases
