"""Random requests for checks that have many clients at one server, what is kept of the answers, and what a plain model says of a look."""

from plain_session import window_of

MOST_SHAPES = 60
BAD_LINES = [
    ({"verb": "paint"}, 52),
    ({"verb": "delete"}, 53),
    ({"verb": "respace", "parent": None, "extra": 1}, 54),
    ({"verb": "patch", "x": 0, "y": 0, "w": 257, "h": 1}, 30),
    ({"verb": "patch", "x": 0, "y": 0, "w": 257, "h": 1, "level": 7}, 34),
    ({"verb": "tile", "col": 128, "row": 0, "level": 6}, 30),
    ({"verb": "tile", "col": 0, "row": 0, "level": 256}, 53),
]
EDITS = ("create", "move", "pose", "reshape", "show", "delete", "respace")


class Requests:
    """Random requests. `known` are the ids of shapes that were made, which all clients of a server share."""

    def __init__(self, chance, known):
        self._chance, self._known = chance, known

    def request(self):
        """An edit, a look, or now and then a line that is refused."""
        chance = self._chance
        what = chance.random()
        if what < 0.45:
            return self.edit()
        return self.look() if what < 0.98 else chance.choice(BAD_LINES)[0]

    def look(self):
        """A point, a patch or now and then a tile."""
        chance = self._chance
        what = chance.random()
        if what < 0.57:
            return {"verb": "point", "x": chance.randrange(-10, 300), "y": chance.randrange(-10, 300)}
        if what < 0.94:
            level = chance.choice([0, 0, 0, 1, 2, 3, 4, 5, 6])
            x, y = (chance.randrange(-10, 290) >> level for _ in range(2))
            w, h = (chance.randrange(*ends) for ends in ((1, 13), (1, 9)))
            return {"verb": "patch", "x": x, "y": y, "w": w, "h": h, "level": level}
        tile = {"verb": "tile", "col": chance.randrange(-1, 2), "row": chance.randrange(-1, 2)}
        return {**tile, "level": chance.randrange(7)} if chance.random() < 0.5 else tile

    def edit(self):
        chance, known = self._chance, self._known
        number = chance.choice(known[-MOST_SHAPES:]) if known else 1
        parent = chance.choice([None, None, number, chance.choice(known[-20:] or [1])])
        spot = chance.choice(["front", "front", "back", {"over": number}, {"at": chance.choice(["a0", "a1", "a5", "Zz", "a0V"])}])
        what = chance.random()
        if what < 0.30:
            return {"verb": "create", "shape": self._shape(), "pose": self._pose(), "hidden": chance.random() < 0.05,
                    "parent": parent, "spot": spot}
        if what < 0.50:
            return {"verb": "move", "id": number, "parent": parent, "spot": spot}
        if what < 0.65:
            return {"verb": "pose", "id": number, "pose": self._pose()}
        if what < 0.75:
            return {"verb": "reshape", "id": number, "shape": self._shape()}
        if what < 0.80:
            return {"verb": "show", "id": number, "hidden": chance.random() < 0.3}
        if what < 0.95:
            return {"verb": "delete", "id": known.pop(0) if len(known) > MOST_SHAPES else number}
        return {"verb": "respace", "parent": parent}

    def _pose(self):
        chance = self._chance
        pose = {"dx": chance.randrange(-20, 300), "dy": chance.randrange(-20, 300)}
        if chance.random() < 0.02:
            pose["dx"] = 1048577
        if chance.random() < 0.3:
            pose.update(quarter=chance.randrange(4), flip=chance.random() < 0.5)
        return pose

    def _shape(self):
        chance = self._chance
        kind = chance.choice(["group", "frame", "frame", "rect", "rect", "ellipse", "polygon"])
        fill = f"{chance.randrange(1 << 24):06x}"
        if kind == "group":
            return {"kind": kind}
        if kind == "polygon":
            corners = chance.choice([2, 3, 4, 5, 6])
            return {"kind": kind, "points": [[chance.randrange(-40, 80), chance.randrange(-40, 80)] for _ in range(corners)], "fill": fill}
        sides = {"w": chance.choice([0, 5, 20, 50, 120, 250]), "h": chance.choice([5, 20, 50, 120, 250])}
        return {"kind": kind, **sides, "fill": None if kind == "frame" and chance.random() < 0.5 else fill}


class Reply:
    """What one request of a session was answered; of a tile a few pixels are kept."""

    def __init__(self, chance, request, reply, body):
        self.request, self.reply = request, reply
        self.body = some_pixels(chance, body) if request["verb"] == "tile" and body else body


def some_pixels(chance, body):
    """The head of a tile, its length, and the colours of some of its pixels."""
    places = [(chance.randrange(256), chance.randrange(256)) for _ in range(12)]
    at = [15 + 3 * (256 * y + x) for x, y in places]
    return body[:15], len(body), [(x, y, body[k : k + 3].hex()) for (x, y), k in zip(places, at)]


def look_fault(model, entry):
    """What is wrong with what a look was answered, where the document is the model's, or None."""
    request, got = entry.request, entry.body
    if request["verb"] == "point":
        got, wanted = entry.reply["colour"], model.colour(request["x"], request["y"])
    elif request["verb"] == "export":
        wanted = model.saved()
    elif request["verb"] == "patch":
        wanted = model.image(*window_of(request))
    else:
        left, top, _, _, level = window_of(request)
        colours = [(x, y, model.colour((left + x) << level, (top + y) << level)) for x, y, _ in entry.body[2]]
        wanted = (b"P6\n256 256\n255\n", 15 + 3 * 256 * 256, colours)
    return None if got == wanted else f"{request} was answered {entry.reply} and {got}, and the model has {wanted}"
