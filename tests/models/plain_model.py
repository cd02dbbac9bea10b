"""A plain, slow model of a document: what each edit does or is refused as, and which colour a pixel has.

It is written from the rules in docs/PROTOCOL.md and docs/DOCUMENTS.md and shares nothing with the program, so that the two can
be compared. Index keys are those of key_rows.py.
"""

import json

import key_rows

MOST_RECORDS = 16384
MOST_DEPTH = 32
MOST_IDS = 4294967295
MOST_SIDE = 65536
MOST_COORDINATE = 1 << 20
WHITE = "ffffff"


class Refused(Exception):
    """An edit that the document does not allow."""

    def __init__(self, code):
        super().__init__(code)
        self.code = code


def refuse_if(wrong, code):
    if wrong:
        raise Refused(code)


def carried(pose, point):
    """Where a pose carries a point: flip, then quarter turns, then the translation."""
    x, y = point
    if pose.get("flip", False):
        x = -x
    for _ in range(pose.get("quarter", 0)):
        x, y = -y, x
    return x + pose.get("dx", 0), y + pose.get("dy", 0)


def box_of(points):
    """The least box of some points: left, top, right, bottom."""
    across, down = [x for x, _ in points], [y for _, y in points]
    return min(across), min(down), max(across), max(down)


def meet(a, b):
    """What two boxes have in common; None stands for the whole page."""
    if a is None or b is None:
        return a or b
    return max(a[0], b[0]), max(a[1], b[1]), min(a[2], b[2]), min(a[3], b[3])


def least_box(boxes):
    """The least box round some boxes, to which empty ones add nothing: four times 0 where there is none."""
    full = [it for it in boxes if it[0] < it[2] and it[1] < it[3]]
    return box_of([corner for it in full for corner in (it[:2], it[2:])]) if full else (0, 0, 0, 0)


def in_box(box, x, y):
    left, top, right, bottom = box
    return left <= x < right and top <= y < bottom


def in_ellipse(box, x, y):
    left, top, right, bottom = box
    w, h = right - left, bottom - top
    across, down = 2 * x + 1 - 2 * left - w, 2 * y + 1 - 2 * top - h
    return across**2 * h**2 + down**2 * w**2 <= w**2 * h**2


def crosses(start, end, x, y):
    """Whether an edge crosses the row's centre line strictly to the right of the pixel's centre."""
    (x1, y1), (x2, y2) = start, end
    if (y1 <= y) == (y2 <= y):
        return False
    height = y2 - y1
    side = (2 * x1 - 2 * x - 1) * height + (2 * y + 1 - 2 * y1) * (x2 - x1)
    return side * height > 0


def in_polygon(points, x, y):
    return sum(crosses(points[k - 1], points[k], x, y) for k in range(len(points))) % 2 == 1


def check_shape(shape):
    """The sides, and then the points, of a shape."""
    if "w" in shape:
        refuse_if(not (1 <= shape["w"] <= MOST_SIDE and 1 <= shape["h"] <= MOST_SIDE), 8)


def check_polygon(shape):
    if "points" in shape:
        small = all(abs(c) <= MOST_COORDINATE for point in shape["points"] for c in point)
        refuse_if(not (3 <= len(shape["points"]) <= 256 and small), 10)


def check_pose(pose):
    reach = max(abs(pose.get("dx", 0)), abs(pose.get("dy", 0)))
    refuse_if(reach > MOST_COORDINATE or pose.get("quarter", 0) > 3, 9)


def first_colour(leaves, x, y):
    """The fill of the first leaf that holds a pixel, or white."""
    for holds, where, clip, fill in leaves:
        if (clip is None or in_box(clip, x, y)) and holds(where, x, y):
            return fill.lower()
    return WHITE


def head_of(w, h):
    """What stands before the pixels of an image."""
    return b"P6\n%d %d\n255\n" % (w, h)


def saved_record(number, record, form):
    """A record as it is saved, with all its members."""
    shape = dict(record["shape"])
    if shape["kind"] == "frame":
        shape.setdefault("fill", None)
    if shape.get("fill"):
        shape["fill"] = shape["fill"].lower()
    place = {"index": record["index"], "parent": record["parent"]}
    pose = {"dx": 0, "dy": 0, "flip": False, "quarter": 0, **record["pose"]}
    return {"id": number, "hidden": record["hidden"], "pose": pose, "shape": shape, **({"place": place} if form == 2 else place)}


class Model:
    """A document, empty at first: records by their ids."""

    def __init__(self):
        self.records = {}
        self.next = 1
        self._leaves = None

    @classmethod
    def opened(cls, text):
        """The document of a saved text."""
        model, saved = cls(), json.loads(text)
        model.next = saved["next"]
        for record in saved["shapes"]:
            record.update(record.pop("place", {}))
            model.records[record.pop("id")] = record
        return model

    # -- edits -------------------------------------------------------------------------------------------------------

    def edit(self, request):
        """Makes an edit; gives the id of a shape that was made, or None. Raises Refused."""
        made = getattr(self, "_" + request["verb"])(request)
        self._leaves = None
        return made

    def damage(self, request):
        """Makes an edit; gives what `edit` does, and the box of the page outside of which it can change no pixel: that round the changed shape and
        all below it, hidden and clipped ones too, before and after. New keys alone change none."""
        number = request.get("id", self.next)
        before = self._extent(number)
        made = self.edit(request)
        return made, least_box([*before, *self._extent(number)] if request["verb"] != "respace" else [])

    def refusal(self, request):
        """The code that an edit is refused with, or None where it is allowed; the document stays."""
        records, number, leaves = dict(self.records), self.next, self._leaves
        try:
            self.edit(request)
        except Refused as refused:
            return refused.code
        finally:
            self.records, self.next, self._leaves = records, number, leaves
        return None

    def children(self, parent):
        """The ids of a parent's children, from front to back."""
        found = [number for number, record in self.records.items() if record["parent"] == parent]
        return sorted(found, key=lambda number: self.records[number]["index"], reverse=True)

    def _line(self, number):
        """A shape and all that it lies in, up to the page."""
        line = []
        while number is not None:
            line.append(number)
            number = self.records[number]["parent"]
        return line

    def depth(self, number):
        """How many levels a shape lies below the page; a child of the page has depth 1."""
        return len(self._line(number))

    def _height(self, number):
        return 1 + max((self._height(child) for child in self.children(number)), default=0)

    def _known(self, number):
        refuse_if(number not in self.records, 2)
        return self.records[number]

    def _check_parent(self, parent):
        if parent is not None:
            refuse_if(parent not in self.records, 3)
            refuse_if(self.records[parent]["shape"]["kind"] not in ("group", "frame"), 4)

    def _index(self, parent, spot, moved):
        """The key of a spot among the parent's other children."""
        keys = {number: self.records[number]["index"] for number in self.children(parent) if number != moved}
        rising = sorted(keys.values())
        if spot == "front":
            low, high = (rising[-1] if rising else None), None
        elif spot == "back":
            low, high = None, (rising[0] if rising else None)
        elif "over" in spot:
            refuse_if(spot["over"] not in keys, 11)
            low = keys[spot["over"]]
            high = next((key for key in rising if key > low), None)
        else:
            refuse_if(spot["at"] in rising, 12)
            return spot["at"]
        try:
            return key_rows.between(low, high)
        except key_rows.NoRoom:
            raise Refused(13) from None

    def _create(self, request):
        shape, pose, parent = request["shape"], request.get("pose", {}), request.get("parent")
        self._check_parent(parent)
        refuse_if(self.depth(parent) + 1 > MOST_DEPTH, 6)
        refuse_if(len(self.records) >= MOST_RECORDS, 7)
        refuse_if(self.next == MOST_IDS, 15)
        check_shape(shape)
        check_pose(pose)
        check_polygon(shape)
        index = self._index(parent, request.get("spot", "front"), None)
        number, self.next = self.next, self.next + 1
        hidden = request.get("hidden", False)
        self.records[number] = {"shape": shape, "pose": pose, "parent": parent, "index": index, "hidden": hidden}
        return number

    def _move(self, request):
        number, parent = request["id"], request["parent"]
        record = self._known(number)
        self._check_parent(parent)
        refuse_if(number in self._line(parent), 5)
        refuse_if(self.depth(parent) + self._height(number) > MOST_DEPTH, 6)
        index = self._index(parent, request["spot"], number)
        self.records[number] = {**record, "parent": parent, "index": index}

    def _pose(self, request):
        record = self._known(request["id"])
        check_pose(request["pose"])
        self.records[request["id"]] = {**record, "pose": request["pose"]}

    def _reshape(self, request):
        record, shape = self._known(request["id"]), request["shape"]
        refuse_if(record["shape"]["kind"] != shape["kind"], 14)
        check_shape(shape)
        check_polygon(shape)
        self.records[request["id"]] = {**record, "shape": shape}

    def _show(self, request):
        record = self._known(request["id"])
        self.records[request["id"]] = {**record, "hidden": request["hidden"]}

    def _delete(self, request):
        self._known(request["id"])
        self._take_out(request["id"])

    def _take_out(self, number):
        for child in self.children(number):
            self._take_out(child)
        del self.records[number]

    def _respace(self, request):
        self._check_parent(request["parent"])
        for place, number in enumerate(reversed(self.children(request["parent"]))):
            self.records[number] = {**self.records[number], "index": key_rows.fresh(place)}

    # -- pictures ----------------------------------------------------------------------------------------------------

    def _all_children(self):
        """The ids of each parent's children, from front to back."""
        found = {}
        for number in sorted(self.records, key=lambda number: self.records[number]["index"], reverse=True):
            found.setdefault(self.records[number]["parent"], []).append(number)
        return found

    def _leaves_of(self, children, parent, out, clip):
        """What may give a colour, from front to back: whether it holds a pixel, what clips it, and its colour."""
        for number in children.get(parent, ()):
            record = self.records[number]
            if record["hidden"]:
                continue
            shape, pose = record["shape"], record["pose"]
            inner = lambda point, pose=pose: out(carried(pose, point))
            if shape["kind"] == "group":
                yield from self._leaves_of(children, number, inner, clip)
            elif shape["kind"] == "polygon":
                points = [inner(tuple(point)) for point in shape["points"]]
                yield in_polygon, points, clip, shape["fill"]
            else:
                box = box_of([inner((0, 0)), inner((shape["w"], shape["h"]))])
                if shape["kind"] == "frame":
                    yield from self._leaves_of(children, number, inner, meet(clip, box))
                if shape.get("fill"):
                    yield in_ellipse if shape["kind"] == "ellipse" else in_box, box, clip, shape["fill"]

    def leaves(self):
        """Each leaf, from front to back, with the box that it lies in."""
        if self._leaves is None:
            leaves = self._leaves_of(self._all_children(), None, lambda point: point, None)
            self._leaves = [(leaf, box_of(leaf[1]) if leaf[0] is in_polygon else leaf[1]) for leaf in leaves]
        return self._leaves

    def leaves_near(self, x, y, w, h):
        """The leaves, from front to back, without those that lie wholly beside a window."""
        for leaf, (left, top, right, bottom) in self.leaves():
            if left <= x + w and x <= right and top <= y + h and y <= bottom:
                yield leaf

    def colour(self, x, y):
        """The colour of a pixel: that of the first leaf that holds it, walked from front to back."""
        return first_colour(self.leaves_near(x, y, 1, 1), x, y)

    def image(self, x, y, w, h, level=0):
        """The P6 file of a window: pixel (i, j) shows the page pixel ((x + i) * 2^level, (y + j) * 2^level)."""
        scale = 1 << level
        near = list(self.leaves_near(x * scale, y * scale, w * scale, h * scale))
        if not near:
            return head_of(w, h) + bytes.fromhex(WHITE) * (w * h)
        rows = ("".join(first_colour(near, (x + i) * scale, (y + j) * scale) for i in range(w)) for j in range(h))
        return head_of(w, h) + bytes.fromhex("".join(rows))

    def _extent(self, number):
        """The boxes of a shape and of all below it, on the page."""
        above = [self.records[it]["pose"] for it in self._line(number)[1:]] if number in self.records else []

        def to_page(point):
            for pose in above:
                point = carried(pose, point)
            return point

        return list(self._boxes_of(self._all_children(), number, to_page)) if number in self.records else []

    def _boxes_of(self, children, number, out):
        shape, pose = self.records[number]["shape"], self.records[number]["pose"]
        inner = lambda point: out(carried(pose, point))
        if shape["kind"] != "group":
            yield box_of([inner(tuple(it)) for it in shape.get("points") or ((0, 0), (shape["w"], shape["h"]))])
        for child in children.get(number, ()):
            yield from self._boxes_of(children, child, inner)

    # -- the saved text ----------------------------------------------------------------------------------------------

    def saved(self, form=2):
        """The text of the saved document, in format 2, which is what an export has, or in format 1."""
        shapes = [saved_record(number, record, form) for number, record in sorted(self.records.items())]
        saved = {"format": form, "next": self.next, "shapes": shapes}
        return json.dumps(saved, separators=(",", ":"), sort_keys=True).encode()
