"""Random sessions and random saved documents, by grammar: requests that mostly fit a document, texts of JSON, good and broken, and saved texts of both
formats.
"""

import json

import key_rows
from plain_session import Session

BIG, SIDE = 1 << 20, 1 << 16


# -- texts of JSON -----------------------------------------------------------------------------------------------------

class Raw(str):
    """A piece of text that stands as it is."""


ODD = [
    None, True, False, 0, 1, -1, 7, "", "x", "a0", "front", "ff0000", [], {}, [[0, 0]], {"kind": "group"}, {"over": 1}, {"at": "a1"},
    Raw("-0"), Raw("1.0"), Raw("1e0"), Raw("0.5"), Raw("1E400"), Raw("-1e999"), Raw("1e-999"), Raw("01"), Raw("+1"), Raw("1."), Raw(".5"),
    Raw("-"), Raw("NaN"), Raw("Infinity"), Raw("-Infinity"), Raw("nul"), Raw("True"), Raw("'a'"), Raw("1.7976931348623157e308"),
    Raw("1.7976931348623159e308"), Raw("9" * 309), Raw("9" * 308), Raw("[1,]"), Raw("[,1]"), Raw('{"a":1,}'), Raw('{"a"}'), Raw("[1 2]"),
    Raw(r'"\ud800"'), Raw(r'"\ud83d\ude00"'), Raw(r'"\ude00\ud83d"'), Raw(r'"\uD800x"'), Raw(r'"\u0066ront"'), Raw(r'"\x41"'),
    Raw('"a\tb"'), Raw(r'"\u00"'), Raw('"\x7f"'), Raw('"unended'), Raw("\x00"), Raw("\ufeff1"), Raw("/*c*/1"), Raw('"\u00e9"'),
    6, 255, 256, 4095, 4096, BIG, BIG + 1, -BIG, -BIG - 1, SIDE, SIDE + 1, 2**31 - 1, 2**31, -(2**31), -(2**31) - 1, 2**32 - 1, 2**32,
    2**63 - 1, 2**63, -(2**63), -(2**63) - 1, 2**64 - 1, 2**64,
]


def blank(chance):
    return chance.choice([" ", "  ", "\t", "\r", " \r\t "]) if chance.random() < 0.3 else ""


def string_text(chance, value):
    if chance.random() < 0.01 and value:
        at = chance.randrange(len(value))
        return json.dumps(value[:at])[:-1] + f"\\u{ord(value[at]):04x}" + json.dumps(value[at + 1 :])[1:]
    return json.dumps(value, ensure_ascii=chance.random() < 0.5)


def text_of(chance, value, is_loose):
    """The JSON text of a value; a loose one has blanks and repeated members."""
    gap = (lambda: blank(chance)) if is_loose else str
    if isinstance(value, Raw):
        return str(value)
    if isinstance(value, str):
        return string_text(chance, value)
    if isinstance(value, list):
        return "[" + gap() + ",".join(gap() + text_of(chance, item, is_loose) + gap() for item in value) + "]"
    if not isinstance(value, dict):
        return json.dumps(value)
    members = list(value.items())
    if is_loose:
        chance.shuffle(members)
        if members and chance.random() < 0.3:
            members.insert(chance.randrange(len(members) + 1), (chance.choice(members)[0], chance.choice(ODD)))
    texts = (gap() + string_text(chance, name) + gap() + ":" + gap() + text_of(chance, item, is_loose) for name, item in members)
    return "{" + gap() + ",".join(texts) + gap() + "}"


def objects_in(value):
    """All lists and objects of a value, itself among them."""
    if isinstance(value, (dict, list)):
        yield value
        for item in value.values() if isinstance(value, dict) else value:
            yield from objects_in(item)


EXTRA = ["x", "verb", "id", "level", "place", "at", "over", "kind", "fill", "w", "points", "dx", "Verb", "pose", "shape", "spot", "index",
         ""]


def spoil_value(chance, value):
    """Changes one place of a value: another value there, one too few, or one too many."""
    part = chance.choice(list(objects_in(value)))
    places = list(part) if isinstance(part, dict) else list(range(len(part)))
    what = chance.random()
    if places and what < 0.5:
        part[chance.choice(places)] = chance.choice(ODD)
    elif places and what < 0.75:
        del part[chance.choice(places)]
    elif isinstance(part, dict):
        part[chance.choice(EXTRA)] = chance.choice(ODD)
    else:
        part.insert(chance.randrange(len(part) + 1), chance.choice(ODD))


BYTES = [b"", b'"', b"{", b"}", b"[", b"]", b",", b":", b"\\", b"\n", b"\r", b"\x00", b"\x1f", b"\x7f", b"\x80", b"\xff", b"\xc0\xaf",
         b"\xed\xa0\x80", b"\xf4\x90\x80\x80", b"\xc3\xa9", b"\xef\xbb\xbf", b"0", b"-", b".", b"e", b" ", b"\x0b", b"\xc2\xa0"]


def spoil_bytes(chance, data):
    """Puts bytes in, takes bytes out, repeats some, or cuts the text."""
    for _ in range(chance.choice([1, 1, 1, 2, 4])):
        at = chance.randrange(len(data) + 1)
        end = min(len(data), at + chance.choice([0, 0, 1, 1, 2, 9]))
        what = chance.random()
        if what < 0.7:
            data = data[:at] + chance.choice(BYTES) + data[end:]
        elif what < 0.85:
            data = data[:end] + data[at:]
        else:
            data = data[:at]
    return data


# -- requests ----------------------------------------------------------------------------------------------------------

LONG_KEYS = [
    "a0" + "z" * 126, "a0" + "z" * 125, "a0" + "z" * 127, "a0" + "0" * 125 + "1", "z" * 27, "z" * 27 + "V", "z" * 27 + "z" * 101,
    "z" * 26 + "y", "A" + "0" * 26, "A" + "0" * 26 + "1", "A" + "0" * 26 + "0" * 100 + "1", "A" + "0" * 25 + "1", "A" + "0" * 26 + "V",
]
KEYS = [
    "a0", "a1", "a2", "a5", "az", "a0V", "a0G", "a00V", "a01", "a001", "Zz", "Zy", "Zz1", "b00", "b0z", "bzz", "Y00", "Yzz", "c000", "a0zz",
    "a00", "0", "", "b1", "a-", "a", "b", "Z", "a0 ", "a\u00e9", "aa\n", "@0", "[0", "`0", "{0", "Z0", "ZzV0", *LONG_KEYS,
]


def within(level):
    """A level that there is: the level itself, or 0."""
    return level if type(level) is int and level in range(7) else 0


def with_level(request, level):
    return request if level is None else {**request, "level": level}


EDIT_WEIGHTS = {"create": 36, "move": 14, "pose": 9, "reshape": 9, "show": 3, "delete": 5, "respace": 3}
LOOK_WEIGHTS = {"tile": 0.8, "patch": 9, "point": 9, "export": 3}
"""How often each verb comes."""
WRONG_LEVELS = [Raw("null"), True, "1", [1], {}, Raw("1.0"), Raw("-0"), Raw("1e0"), 2**63]


class Requests:
    """Random requests for a session, most of which fit the document as it then is."""

    def __init__(self, chance, session, habit):
        self._chance = chance
        self._session = session
        self._habit = habit

    def _any_id(self):
        model, chance = self._session.model, self._chance
        if model.records and chance.random() < 0.93:
            return chance.choice(list(model.records))
        return chance.choice([0, 1, 2, 3, model.next - 1, model.next, model.next + 1, 99, 2**32 - 1, 2**32])

    def _parent(self):
        model, chance = self._session.model, self._chance
        inner = [number for number, record in model.records.items() if record["shape"]["kind"] in ("group", "frame")]
        if self._habit == "deep" and inner and chance.random() < 0.9:
            return max(inner, key=model.depth)
        if self._habit == "flat" or not inner or chance.random() < 0.3:
            return None
        return chance.choice(inner) if chance.random() < 0.85 else chance.choice([self._any_id(), self._any_id(), 0, 99, 2**32 - 1])

    def _spot(self, parent):
        model, chance = self._session.model, self._chance
        what = chance.random()
        if what < 0.5:
            return chance.choice(["front", "back"])
        siblings = model.children(parent)
        if what < 0.75:
            return {"over": chance.choice(siblings) if siblings and chance.random() < 0.9 else self._any_id()}
        if siblings and what < 0.8:
            return {"at": model.records[chance.choice(siblings)]["index"]}
        return {"at": chance.choice(KEYS)}

    def _number(self, usual, limits):
        return self._chance.choice(limits) if self._chance.random() < 0.03 else self._chance.randrange(*usual)

    def _far(self):
        usual = (-12, 40) if self._chance.random() < 0.97 else (-BIG, BIG + 1)
        return self._number(usual, [BIG, BIG + 1, -BIG, -BIG - 1, 2**31 - 1, 2**31, -(2**31), -(2**31) - 1])

    def _pose(self):
        chance = self._chance
        pose = {"dx": self._far(), "dy": self._far(), "quarter": self._number((0, 4), [4, 255, 256, -1]), "flip": chance.random() < 0.5}
        for name in list(pose):
            if chance.random() < 0.25:
                del pose[name]
        return pose

    def _fill(self):
        if self._chance.random() < 0.03:
            return self._chance.choice(["ff000", "ff00000", "gg0000", "", " ff000", "+f0000", "0x0000", "ff00\u0660\u0660", None])
        fill = f"{self._chance.randrange(1 << 24):06x}"
        return fill.upper() if self._chance.random() < 0.2 else fill

    def _shape(self, kind=None):
        chance = self._chance
        kind = kind or chance.choice(["group", "frame", "frame", "rect", "rect", "ellipse", "polygon"])
        if self._habit == "deep":
            kind = chance.choice(["group", "frame", "group", "group", kind])
        if kind == "group":
            return {"kind": kind}
        if kind == "polygon":
            count = chance.choice([2, 256, 257]) if chance.random() < 0.03 else chance.randrange(3, 8)
            place = (lambda: chance.randint(-BIG, BIG)) if chance.random() < 0.15 else self._far
            return {"kind": kind, "points": [[place(), place()] for _ in range(count)], "fill": self._fill()}
        sides, usual = [0, SIDE, SIDE + 1, 2**32 - 1, 2**32, -1], (1, 30) if chance.random() < 0.85 else (1, SIDE + 1)
        made = {"kind": kind, "w": self._number(usual, sides), "h": self._number(usual, sides), "fill": self._fill()}
        if kind == "frame" and chance.random() < 0.5:
            if chance.random() < 0.5:
                del made["fill"]
            else:
                made["fill"] = None
        return made

    def _create(self):
        chance = self._chance
        made = {"shape": self._shape()}
        if chance.random() < 0.7:
            made["pose"] = self._pose()
        if chance.random() < 0.1:
            made["hidden"] = chance.random() < 0.5
        parent = self._parent()
        if parent is not None or chance.random() < 0.2:
            made["parent"] = parent
        if chance.random() < 0.6:
            made["spot"] = self._spot(parent)
        return made

    def _move(self):
        parent = self._parent()
        return {"id": self._any_id(), "parent": parent, "spot": self._spot(parent)}

    def _reshape(self):
        number = self._any_id()
        record = self._session.model.records.get(number)
        return {"id": number, "shape": self._shape(record and self._chance.random() < 0.8 and record["shape"]["kind"])}

    def _level(self):
        """The level of a picture, or None where it is left out."""
        chance, what = self._chance, self._chance.random()
        if what < 0.4:
            return None
        if what < 0.46:
            return chance.choice([7, 8, 32, 255, 255, 256, -1])
        return chance.randrange(7) if what < 0.98 else chance.choice(WRONG_LEVELS)

    def _tile(self):
        level = self._level()
        most = 8192 >> within(level)
        ends = [most - 1, most, -most, -most - 1, 8191, 8192, 2**31 - 1, 2**31, -(2**31), -(2**31) - 1]
        place = lambda: self._chance.choice(ends) if self._chance.random() < 0.5 else self._chance.randrange(-3, 4)
        return with_level({"col": place(), "row": place()}, level)

    def _pixel(self, edges, level=0):
        """A place near the middle of the page, or on the border of a shape that shows, in a window of the level."""
        chance, leaves = self._chance, self._session.model.leaves()
        if not leaves or chance.random() < 0.4:
            return {"x": self._number((-15, 45), edges), "y": self._number((-15, 45), edges)}
        left, top, right, bottom = chance.choice(leaves)[1]
        x, y = chance.choice([left, right, (left + right) // 2, chance.randint(left, right)]), chance.randint(top, bottom)
        x, y = (x, y) if chance.random() < 0.5 else (chance.randint(left, right), chance.choice([top, bottom, (top + bottom) // 2]))
        return {"x": (x >> level) - chance.randrange(12), "y": (y >> level) - chance.randrange(9)}

    def _patch(self):
        level = self._level()
        edge = 2**21 >> within(level)
        edges = [edge, edge - 1, edge - 5, -edge, -edge - 1, 2**21, 2**31 - 1, 2**31, -(2**31), -(2**31) - 1]
        sides = [0, 257, 2**31, 2**32 - 1, 2**32, -1]
        made = self._pixel(edges, within(level))
        made.update(w=self._number((1, 16), sides), h=self._number((1, 12), sides))
        if self._chance.random() < 0.02:
            made[self._chance.choice("wh")] = 256
        return with_level(made, level)

    def _point(self):
        return self._pixel([2**31 - 1, 2**31, -(2**31), -(2**31) - 1, BIG, -BIG, 2**21])

    def request(self):
        """A request, as a dict."""
        weights = {**EDIT_WEIGHTS, **LOOK_WEIGHTS}
        if self._habit == "pictures":
            weights["patch"] = 40
        if self._habit == "deep":
            weights.update(create=90, delete=1)
        return self._one_of(weights)

    def edit(self):
        """A request that is an edit, as a dict."""
        return self._one_of(EDIT_WEIGHTS)

    def _one_of(self, weights):
        verb = self._chance.choices(list(weights), list(weights.values()))[0]
        members = {
            "create": self._create,
            "move": self._move,
            "pose": lambda: {"id": self._any_id(), "pose": self._pose()},
            "reshape": self._reshape,
            "show": lambda: {"id": self._any_id(), "hidden": self._chance.random() < 0.4},
            "delete": lambda: {"id": self._any_id()},
            "respace": lambda: {"parent": self._parent()},
            "tile": self._tile,
            "patch": self._patch,
            "point": self._point,
            "export": dict,
        }[verb]()
        return {"verb": verb, **members}

    def piece(self):
        """The bytes of a request or of something that is none, with the LF that ends it."""
        chance = self._chance
        if chance.random() < 0.02:
            return chance.choice(STRANGE)(chance)
        request = self.request()
        if chance.random() < 0.12:
            spoil_value(chance, request)
        if chance.random() < 0.01:
            request["verb"] = chance.choice(["Create", "paint", "", "tile ", "\u0074ile\u0000", None, 1, ["create"]])
        line = text_of(chance, request, chance.random() < 0.1).encode()
        if chance.random() < 0.06:
            line = spoil_bytes(chance, line)
        return line + (b"\r\n" if chance.random() < 0.05 else b"\n")


def nested(chance):
    depth = chance.choice([1, 126, 127, 128, 129, 500])
    inner = chance.choice([b"", b"1", b"{}"])
    return chance.choice([b"[" * depth + inner + b"]" * depth, b'{"a":' * depth + b"1" + b"}" * depth]) + b"\n"


def nested_member(chance):
    depth = chance.choice([125, 126, 127, 128])
    return b'{"verb":"export","x":' + b"[" * depth + b"]" * depth + b"}\n"


def long_line(chance):
    """A line of 65,536 bytes, or a few more or less; now and then a request."""
    length = chance.choice([65_530, 65_535, 65_536, 65_536, 65_537, 65_538, 70_000])
    line = chance.choice([b"", b'{"verb":"export"}', b'{"verb":"point","x":1,"y":1}'])
    return line + chance.choice([b" ", b" ", b"x", b"\r"]) * (length - len(line)) + b"\n"


STRANGE = [
    lambda chance: chance.choice([b"\n", b"\r\n", b" \n", b"\t\r\n", b"\n\n\n", b"\x00\n"]),
    lambda chance: chance.choice([b"null\n", b"[]\n", b"7\n", b'"x"\n', b"{}\n", b"true\n"]),
    lambda chance: text_of(chance, chance.choice(ODD), False).encode("utf-8", "surrogatepass") + b"\n",
    nested,
    nested_member,
    lambda chance: long_line(chance) if chance.random() < 0.1 else b"{\n",
    lambda chance: bytes(chance.randrange(256) for _ in range(chance.randrange(1, 40))) + b"\n",
]


def pieces_of(chance, session, most):
    """The pieces of a random session, given to a model of it while they are made."""
    habit = chance.choices(["any", "deep", "flat", "pictures"], [10, 1, 3, 3])[0]
    requests, pieces = Requests(chance, session, habit), []
    for _ in range(chance.randrange(1, most) if habit != "deep" else 110):
        pieces.append(requests.piece())
        session.feed(pieces[-1])
        if session.fault is not None:
            break
    if chance.random() < 0.1:
        pieces.append(requests.piece()[:-1][: chance.choice([0, 1, 5, 99_999])])
        session.feed(pieces[-1])
    return pieces


# -- saved documents ---------------------------------------------------------------------------------------------------

def saved_value(chance):
    """A saved document of either format that mostly opens, as a value."""
    session, form = Session(), chance.choice([1, 2, 2])
    pieces_of(chance, session, chance.choice([3, 14, 40]))
    value = json.loads(session.model.saved(form))
    what = chance.random()
    if what < 0.1:
        value["next"] = chance.choice([2**32 - 1, 2**32 - 2, 2**32, 0, 1, value["next"] - 1])
    elif what < 0.2:
        chance.shuffle(value["shapes"])
    elif what < 0.3:
        value["shapes"] = chain(chance, form, chance.choice([31, 32, 33, 34]))
        value["next"] = 99
    elif what < 0.4:
        value["format"] = chance.choice([3 - form, 3 - form, 0, 3, 3, -1, Raw("2.0"), Raw("1e0"), chance.choice(ODD)])
    elif what < 0.5 and value["shapes"]:
        spoil_value(chance, chance.choice(value["shapes"]).get("place", {}))
    return value


QUIET = {"dx": 0, "dy": 0, "flip": False, "quarter": 0}


def group(form, number, index, parent):
    place = {"index": index, "parent": parent}
    return {"hidden": False, "id": number, **({"place": place} if form == 2 else place), "pose": dict(QUIET), "shape": {"kind": "group"}}


def chain(chance, form, length):
    """Groups one in another; the first may have one of them for its parent, or none that is there."""
    first = chance.choice([None, None, None, length, 98])
    return [group(form, k, "a0", k - 1 if k > 1 else first) for k in range(1, length + 1)]


LARGE = [(1, 4095), (1, 4096), (1, 4097), (1, 16_384), (2, 4097), (2, 16_383), (2, 16_384), (2, 16_385)]
"""Formats, and numbers of records about as many as they may have."""


def large_text(chance):
    """The bytes of a saved document with about as many records as there may be."""
    form, count = chance.choice(LARGE)
    groups = [group(form, k + 1, key_rows.fresh(k), None) for k in range(count)]
    return json.dumps({"format": form, "next": count + 1, "shapes": groups}).encode()


RECORD_VALUES = {
    "id": [0, 1, 2, 3, 2**32 - 1, 2**32],
    "index": KEYS,
    "parent": [None, 0, 1, 2, 3, 99, 2**32 - 1, 2**32, -1],
    "place": [None, {}, "a0", [], {"index": "a0"}, {"parent": None}, {"index": "a0", "parent": None}, {"index": "a00", "parent": None},
              {"index": "a1", "parent": None, "x": 1}, {"index": "Zz", "parent": 1}],
    "hidden": [0, None, "true"],
    "pose": [{}, {**QUIET, "dx": BIG}, {**QUIET, "dx": BIG + 1}, {**QUIET, "quarter": 4}, {**QUIET, "dy": -BIG - 1}, {**QUIET, "z": 0}],
    "shape": [
        {"kind": "frame", "w": 1, "h": 1},
        {"kind": "frame", "w": 1, "h": 1, "fill": None},
        {"kind": "rect", "w": SIDE, "h": SIDE + 1, "fill": "000000"},
        {"kind": "rect", "w": 0, "h": 1, "fill": "000000"},
        {"kind": "rect", "w": SIDE, "h": SIDE, "fill": "ABCDEF"},
        {"kind": "group", "w": 1},
        {"kind": "polygon", "points": [[0, 0], [1, 1]], "fill": "000000"},
        {"kind": "polygon", "points": [[0, 0], [BIG, -BIG], [1, 0]], "fill": "000000"},
        {"kind": "polygon", "points": [[0, 0], [BIG + 1, 0], [1, 0]], "fill": "000000"},
        {"kind": "ellipse", "w": 1, "h": 1, "fill": None},
    ],
}


def set_member(chance, record, name, value):
    """Gives a record another value of a member: of format 2 index and parent lie in the place, and now and then elsewhere."""
    place = record.get("place")
    is_inside = name in ("index", "parent") and type(place) is dict and chance.random() < 0.9
    (place if is_inside else record)[name] = value


def saved_text(chance):
    """The bytes of a saved document, good or spoiled."""
    value = saved_value(chance)
    for _ in range(chance.choice([0, 0, 1, 2])):
        name = chance.choice(list(RECORD_VALUES))
        if value["shapes"]:
            set_member(chance, chance.choice(value["shapes"]), name, chance.choice(RECORD_VALUES[name]))
    if value["shapes"] and chance.random() < 0.1:
        value["shapes"].append(dict(chance.choice(value["shapes"])))
    if chance.random() < 0.15:
        spoil_value(chance, value)
    data = text_of(chance, value, chance.random() < 0.3).encode("utf-8", "surrogatepass")
    data = data if chance.random() < 0.8 else chance.choice([b" ", b"\n", b"\r\n\t"]) + data + chance.choice([b"\n", b" \n", b""])
    return spoil_bytes(chance, data) if chance.random() < 0.1 else data
