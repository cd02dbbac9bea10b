"""A plain model of whole sessions and of opening: which bytes `canvas script` writes for which bytes, and what a saved text opens as.

It is written from docs/PROTOCOL.md, docs/DOCUMENTS.md and the section 'Requests and JSON' of docs/DECISIONS.md, over plain_model.py,
and shares nothing with the program. It has a JSON reader of its own: Python's takes texts that are no JSON (NaN, lone surrogates), and
has other limits.
"""

import re

import key_rows
from plain_model import Model, Refused, check_polygon, check_pose, check_shape, refuse_if

NAMES = {
    2: "NoSuchShape", 3: "NoSuchParent", 4: "NotAContainer", 5: "Cycle", 6: "TooDeep", 7: "TooMany", 8: "BadSize", 9: "BadPose",
    10: "BadPolygon", 11: "SpotNotSibling", 12: "IndexTaken", 13: "NoRoom", 14: "WrongKind", 15: "IdsSpent", 16: "VersionsSpent",
    19: "NoSeats", 30: "BadWindow", 34: "BadLevel", 50: "BadJson", 51: "NotObject", 52: "BadVerb", 53: "BadField", 54: "ExtraField", 60: "BadFormat",
    61: "BadRecord", 62: "BadTree", 70: "LineTooLong", 73: "TooManyRequests", 74: "CutLine",
}
MOST_NESTING = 127
MOST_LINE = 65_536
MOST_REQUESTS = 1_000_000
MOST_VERSIONS = 1_000_000
MOST_SHAPES = {1: 4_096, 2: 16_384}
"""How many records a saved document of a format may have."""
MOST_STEPS = 32
MOST_LEVEL = 6
EDGE = 1 << 21


# -- JSON --------------------------------------------------------------------------------------------------------------

TOKEN = re.compile(
    r'[ \t\r\n]*(?:([{}\[\],:])'
    r'|"((?:[^"\\\x00-\x1f]|\\["\\/bfnrt]|\\u[0-9a-fA-F]{4})*)"'
    r'|(-?(?:0|[1-9][0-9]*)(?:\.[0-9]+)?(?:[eE][+-]?[0-9]+)?)'
    r"|(true|false|null))"
)
END = re.compile(r"[ \t\r\n]*\Z")
ESCAPE = re.compile(r"\\(u[0-9a-fA-F]{4}|.)")
ESCAPED = {"b": "\b", "f": "\f", "n": "\n", "r": "\r", "t": "\t"}
WORDS = {"true": True, "false": False, "null": None}


class NotJson(Exception):
    """The bytes are no JSON text."""


class OtherNumber:
    """A number that is not a whole number of 64 bits: one with a point or an exponent, a greater one, or -0."""


def unescaped(match):
    text = match.group(1)
    return chr(int(text[1:], 16)) if len(text) > 1 else ESCAPED.get(text, text)


def string_of(text):
    if "\\" not in text:
        return text
    # Two escapes may make one character; one that lacks its other half is no text.
    try:
        return ESCAPE.sub(unescaped, text).encode("utf-16-le", "surrogatepass").decode("utf-16-le")
    except UnicodeDecodeError:
        raise NotJson from None


def number_of(text):
    if text != "-0" and not set(text) & set(".eE") and len(text) < 25 and -(1 << 63) <= int(text) < 1 << 63:
        return int(text)
    if abs(float(text)) == float("inf"):
        raise NotJson
    return OtherNumber


class Reader:
    """The tokens of a text, one after another."""

    def __init__(self, text):
        self._text = text
        self._at = 0

    def token(self):
        found = TOKEN.match(self._text, self._at)
        if found is None:
            raise NotJson
        self._at = found.end()
        return found.group(found.lastindex), found.lastindex

    def value(self, nesting=0):
        return self._value_at(self.token(), nesting)

    def end(self):
        if not END.match(self._text, self._at):
            raise NotJson

    def _value_at(self, token, nesting):
        text, sort = token
        if sort == 2:
            return string_of(text)
        if sort == 3:
            return number_of(text)
        if sort == 4:
            return WORDS[text]
        if text not in "[{" or nesting == MOST_NESTING:
            raise NotJson
        return self._list(nesting + 1) if text == "[" else self._object(nesting + 1)

    def _list(self, nesting):
        items, token = [], self.token()
        if token == ("]", 1):
            return items
        while True:
            items.append(self._value_at(token, nesting))
            if self._closes("]"):
                return items
            token = self.token()

    def _object(self, nesting):
        members, token = {}, self.token()
        if token == ("}", 1):
            return members
        while True:
            name, sort = token
            if sort != 2 or self.token() != (":", 1):
                raise NotJson
            members[string_of(name)] = self.value(nesting)  # the last of a name counts
            if self._closes("}"):
                return members
            token = self.token()

    def _closes(self, bracket):
        token = self.token()
        if token not in ((",", 1), (bracket, 1)):
            raise NotJson
        return token[0] == bracket


def read_json(data):
    """The value that the bytes are: None, a bool, an int, OtherNumber, a str, a list or a dict. Raises NotJson."""
    try:
        reader = Reader(data.decode())
    except UnicodeDecodeError:
        raise NotJson from None
    value = reader.value()
    reader.end()
    return value


# -- members -----------------------------------------------------------------------------------------------------------

class Wrong(Exception):
    """A member that is missing, of the wrong type or out of range."""


def whole(least, most):
    def read(value):
        if type(value) is not int or not least <= value <= most:
            raise Wrong
        return value
    return read


signed = whole(-(1 << 31), (1 << 31) - 1)
unsigned = whole(0, (1 << 32) - 1)
byte = whole(0, 255)


def truth(value):
    if type(value) is not bool:
        raise Wrong
    return value


def text(value):
    if type(value) is not str:
        raise Wrong
    return value


def members_of(value):
    if type(value) is not dict:
        raise Wrong
    return value


def items_of(value):
    if type(value) is not list:
        raise Wrong
    return value


def colour(value):
    if not re.fullmatch("[0-9a-fA-F]{6}", text(value)):
        raise Wrong
    return value.lower()


def colour_or_none(value):
    return None if value is None else colour(value)


def parent(value):
    return None if value is None else unsigned(value)


def key(value):
    if key_rows.fault(text(value)) is not None:
        raise Wrong
    return value


def point(value):
    if len(items_of(value)) != 2:
        raise Wrong
    return [signed(value[0]), signed(value[1])]


def points(value):
    return [point(item) for item in items_of(value)]


def spot(value):
    if type(value) is str:
        if value not in ("back", "front"):
            raise Wrong
        return value
    if "over" in members_of(value):
        return {"over": unsigned(value["over"])}
    return {"at": key(required(value, "at"))}


def required(value, name):
    if name not in value:
        raise Wrong
    return value[name]


def read_members(value, readers):
    """The members of an object by their readers. A reader alone is of a member that must be there; a pair has what a missing one is."""
    found = {}
    for name, reader in readers.items():
        if type(reader) is not tuple:
            found[name] = reader(required(value, name))
        else:
            found[name] = reader[0](value[name]) if name in value else reader[1]
    return found


SIDED = {"w": unsigned, "h": unsigned, "fill": colour}
POLYGON = {"fill": colour, "points": points}
KINDS = {"group": {}, "frame": {**SIDED, "fill": (colour_or_none, None)}, "rect": SIDED, "ellipse": SIDED, "polygon": POLYGON}
SAVED_KINDS = {**KINDS, "frame": {**SIDED, "fill": colour_or_none}}
POSE = {"dx": (signed, 0), "dy": (signed, 0), "quarter": (byte, 0), "flip": (truth, False)}
SAVED_POSE = {"dx": signed, "dy": signed, "quarter": byte, "flip": truth}
STILL = {"dx": 0, "dy": 0, "quarter": 0, "flip": False}


def kind_of(value):
    kind = text(required(members_of(value), "kind"))
    if kind not in KINDS:
        raise Wrong
    return kind


def shape(value):
    kind = kind_of(value)
    return {"kind": kind, **read_members(value, KINDS[kind])}


def pose(value):
    return read_members(members_of(value), POSE)


VERBS = {
    "create": {"shape": shape, "pose": (pose, STILL), "hidden": (truth, False), "parent": (parent, None), "spot": (spot, "front")},
    "move": {"id": unsigned, "parent": parent, "spot": spot},
    "pose": {"id": unsigned, "pose": pose},
    "reshape": {"id": unsigned, "shape": shape},
    "show": {"id": unsigned, "hidden": truth},
    "delete": {"id": unsigned},
    "respace": {"parent": parent},
    "tile": {"col": signed, "row": signed, "level": (byte, 0)},
    "patch": {"x": signed, "y": signed, "w": unsigned, "h": unsigned, "level": (byte, 0)},
    "point": {"x": signed, "y": signed},
    "export": {},
}
EDITS = ("create", "move", "pose", "reshape", "show", "delete", "respace")


def has_extra(value, verb):
    """Whether a request, all whose members can be read, has one too many, or an object inside it has."""
    inner = {"pose": POSE, "shape": None, "spot": None}
    if "shape" in value and "shape" in VERBS[verb]:
        inner["shape"] = {"kind", *KINDS[value["shape"]["kind"]]}
    if type(value.get("spot")) is dict:
        inner["spot"] = {"over"} if "over" in value["spot"] else {"at"}
    if set(value) - {"verb", *VERBS[verb]}:
        return True
    return any(set(value[name]) - set(known) for name, known in inner.items() if known is not None and type(value.get(name)) is dict)


def read_request(line):
    """The request of a line, as a dict with every member; raises Refused with 50 to 54."""
    try:
        value = read_json(line)
    except NotJson:
        raise Refused(50) from None
    if type(value) is not dict:
        raise Refused(51)
    verb = value.get("verb")
    if type(verb) is not str or verb not in VERBS:
        raise Refused(52)
    try:
        request = read_members(value, VERBS[verb])
    except Wrong:
        raise Refused(53) from None
    if has_extra(value, verb):
        raise Refused(54)
    return {"verb": verb, **request}


# -- sessions ----------------------------------------------------------------------------------------------------------

def refusal(code):
    return b'{"body":0,"code":%d,"name":"%s","ok":false}\n' % (code, NAMES[code].encode())


def window_of(request):
    """The window that a tile or a patch asks for: x, y, w, h and the level."""
    level = request.get("level", 0)
    if request["verb"] == "tile":
        return 256 * request["col"], 256 * request["row"], 256, 256, level
    return request["x"], request["y"], request["w"], request["h"], level


class Session:
    """A session: `feed` takes bytes, `out` is what is written for them; `fault` is the code that ended it, or None."""

    def __init__(self, model=None):
        self.model = model or Model()
        self.version = 0
        self.out = b""
        self.fault = None
        self._lines = 0
        self._rest = b""

    def feed(self, data):
        *lines, rest = (self._rest + data).split(b"\n")
        self._rest = rest
        for line in lines:
            self._take(line)
        if len(rest) > MOST_LINE:
            self._close(70)

    def end(self):
        """The end of the input: gives what was written, the code of the fault, or None, and the status of `canvas script`."""
        if self.fault is None and self._rest:
            self.fault = 74
        return self.out, self.fault, 0 if self.fault is None else 4

    def _close(self, code):
        if self.fault is None:
            self.fault = code
            self.out += refusal(code)

    def _take(self, line):
        if len(line) > MOST_LINE:
            self._close(70)
        elif self._lines == MOST_REQUESTS:
            self._close(73)
        elif self.fault is None:
            self._lines += 1
            self.out += self.reply(line)

    def reply(self, line):
        """The reply's line and body."""
        try:
            request = read_request(line)
            if request["verb"] in EDITS:
                return self._edit(request)
            return self._look(request)
        except Refused as refused:
            return refusal(refused.code)

    def _edit(self, request):
        refuse_if(self.version == MOST_VERSIONS, 16)
        made = self.model.edit(request)
        self.version += 1
        if made is None:
            return b'{"body":0,"ok":true,"version":%d}\n' % self.version
        return b'{"body":0,"id":%d,"ok":true,"version":%d}\n' % (made, self.version)

    def _look(self, request):
        verb = request["verb"]
        if verb == "point":
            colour = self.model.colour(request["x"], request["y"]).encode()
            return b'{"body":0,"colour":"%s","ok":true,"version":%d}\n' % (colour, self.version)
        if verb == "export":
            body = self.model.saved()
        else:
            body = self._picture(*window_of(request))
        return b'{"body":%d,"ok":true,"version":%d}\n' % (len(body), self.version) + body

    def _picture(self, x, y, w, h, level):
        refuse_if(level > MOST_LEVEL, 34)
        edge = EDGE >> level
        is_inside = -edge <= x and x + w <= edge and -edge <= y and y + h <= edge
        refuse_if(not (1 <= w <= 256 and 1 <= h <= 256 and is_inside), 30)
        return self.model.image(x, y, w, h, level)


def run_script(data):
    """What `canvas script` writes to standard output and standard error, and its status."""
    session = Session()
    session.feed(data)
    out, code, status = session.end()
    said = b"" if code is None else b"canvas: %d %s\n" % (code, NAMES[code].encode())
    return out, said, status


# -- saved documents ---------------------------------------------------------------------------------------------------

def exactly(value, readers):
    """The members of an object that has these and no other."""
    if set(members_of(value)) != set(readers):
        raise Wrong
    return read_members(value, readers)


def saved_shape(value):
    kind = kind_of(value)
    found = exactly(value, {"kind": text, **SAVED_KINDS[kind]})
    check_shape(found)
    check_polygon(found)
    return found


def saved_pose(value):
    found = exactly(value, SAVED_POSE)
    check_pose(found)
    return found


PLACE = {"index": key, "parent": parent}
VALUES = {"hidden": truth, "id": unsigned, "pose": saved_pose, "shape": saved_shape}
RECORDS = {1: {**VALUES, **PLACE}, 2: {**VALUES, "place": lambda value: exactly(value, PLACE)}}
"""The members of a record, by the format."""


def read_record(value, form, number):
    """An element of the list as a record, where the next id is `number`; raises Refused with 61."""
    try:
        record = exactly(value, RECORDS[form])
    except (Wrong, Refused):
        raise Refused(61) from None
    record.update(record.pop("place", {}))
    if not 1 <= record["id"] < number:
        raise Refused(61)
    return record


def reaches_page(record, first):
    """Whether following parents from a record reaches the page within 32 steps."""
    for _ in range(MOST_STEPS):
        if record["parent"] is None:
            return True
        if record["parent"] not in first:
            return False
        record = first[record["parent"]]
    return False


def check_tree(records):
    """Raises Refused with 62 where the records are no tree."""
    first = {}
    for record in records:
        first.setdefault(record["id"], record)
    ids, places = set(), set()
    for record in records:
        place, under = (record["parent"], record["index"]), record["parent"]
        bad_parent = under is not None and (under not in first or first[under]["shape"]["kind"] not in ("group", "frame"))
        if record["id"] in ids or bad_parent or place in places or not reaches_page(record, first):
            raise Refused(62)
        ids.add(record["id"])
        places.add(place)


def open_document(data):
    """The model of a saved text's document; raises Refused with 50, 60, 61 or 62."""
    try:
        value = read_json(data)
    except NotJson:
        raise Refused(50) from None
    try:
        head = exactly(value, {"format": whole(1, 2), "next": whole(1, (1 << 32) - 1), "shapes": items_of})
    except Wrong:
        raise Refused(60) from None
    if len(head["shapes"]) > MOST_SHAPES[head["format"]]:
        raise Refused(60)
    records = [read_record(element, head["format"], head["next"]) for element in head["shapes"]]
    check_tree(records)
    model = Model()
    model.next = head["next"]
    model.records = {record.pop("id"): record for record in records}
    return model
