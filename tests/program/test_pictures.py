"""Pictures of random documents, beside the plain model.

The documents are of the forms below, as many of each as FORMS says, and `--times` as many:

- any: of all sizes, and a window of each level from 0 to 6. Sides are of any length, so edges fall between the pixels that a level shows, and on them;
- deep: 40 shapes, most in the newest group or frame, near the origin and at two corners of the plane;
- flat: 24 shapes there, mostly in one group, painted by 1, 2 or 3 workers;
- wide: 60 shapes that fill a wide window, by 1 to 4 workers;
- walls: shapes up to 140 wide, most of them rectangles, in windows of one pixel to many cells;
- crowd: more small shapes than are painted at once, and a rectangle in front of some, at the levels 0 and 3.
"""

import random

import pytest

from canvas.client import line_of
from harness.running import first_difference
from plain_session import Session

pytestmark = pytest.mark.slow
LEVELS = range(7)
PLANE = 1 << 21
CORNERS = [(0, 0, 0), (1 << 20, PLANE - 80, -PLANE), (-1 << 20, -PLANE, PLANE - 30)]
"""How far each of two groups, one in another, moves to the right and up, and near which place windows are then."""


def colour(chance):
    return f"{chance.randrange(1 << 24):06x}"


def create(shape, pose=None, **more):
    return {"verb": "create", "shape": shape, "pose": pose or {}, **more}


def near(chance, least, width, height):
    """Any pose near the origin."""
    dx, dy = least + chance.randrange(width), least + chance.randrange(height)
    return {"dx": dx, "dy": dy, "quarter": chance.randrange(4), "flip": chance.random() < 0.5}


def boxed(chance, kind, most_wide, most_high):
    """A shape with sides; half of the frames have no fill."""
    made = {"kind": kind, "w": chance.randint(1, most_wide), "h": chance.randint(1, most_high), "fill": colour(chance)}
    return {**made, "fill": None} if kind == "frame" and chance.random() < 0.5 else made


def polygon(chance, corners, least, most):
    """A polygon, which mostly crosses itself."""
    points = [[chance.randrange(least, most), chance.randrange(least, most)] for _ in range(corners)]
    return {"kind": "polygon", "points": points, "fill": colour(chance)}


def shape_of(chance, kind, sides, corners, span):
    """A shape of a kind, with the longest sides, and the numbers of corners and the places that a polygon may have."""
    if kind == "group":
        return {"kind": kind}
    return polygon(chance, chance.randint(*corners), *span) if kind == "polygon" else boxed(chance, kind, *sides)


def patch(x, y, w, h, level=0):
    return {"verb": "patch", "x": x, "y": y, "w": w, "h": h, "level": level}


# -- documents of all sizes --------------------------------------------------------------------------------------------

def far(chance, least, end, scale):
    """A length from `least` to `end`, so many times as great; one in three on a pixel that the scale shows, the others anywhere."""
    return scale * chance.randrange(least, end) + (0 if chance.random() < 0.3 else chance.randrange(scale))


def shape(chance, kind, scale):
    side = lambda: scale * chance.choice([1, 2, 5, 12, 24, 40]) + chance.randrange(scale)
    if kind == "group":
        return {"kind": "group"}
    if kind == "polygon":
        corners = chance.randrange(3, 12)
        points = [[far(chance, -20, 40, scale), far(chance, -20, 40, scale)] for _ in range(corners)]
        return {"kind": "polygon", "points": points, "fill": colour(chance)}
    made = {"kind": kind, "w": side(), "h": side()}
    if kind != "frame" or chance.random() < 0.5:
        made["fill"] = colour(chance)
    return made


def window(chance, model, level):
    """A window of the level over a corner of a shape that shows, or near the middle of the page."""
    left, top, right, bottom = chance.choice([box for _, box in model.leaves()] or [(-20, -20, 30, 30)])
    w, h = chance.randrange(1, 71), chance.randrange(1, 40)
    x, y = (chance.choice(ends) >> level for ends in ((left, right), (top, bottom)))
    return patch(x - chance.randrange(w + 1), y - chance.randrange(h + 1), w, h, level)


def any_document(chance, session, _):
    containers, scale = [None], 1 << chance.choice([0, *LEVELS])
    for number in range(1, chance.randrange(2, 41)):
        made = shape(chance, chance.choice(["group", "frame", "rect", "ellipse", "polygon", "polygon"]), scale)
        pose = {"dx": far(chance, -12, 40, scale), "dy": far(chance, -12, 40, scale), "quarter": chance.randrange(4), "flip": chance.random() < 0.5}
        yield create(made, pose, parent=chance.choice(containers[-8:]), hidden=chance.random() < 0.08)
        if made["kind"] in ("group", "frame"):
            containers.append(number)
    for level in LEVELS:
        yield window(chance, session.model, level)


# -- documents at the corners of the plane -----------------------------------------------------------------------------

def far_groups(away):
    """Two groups, one in the other, each of which moves as far."""
    pose = {"dx": away, "dy": -away}
    return [create({"kind": "group"}, pose), create({"kind": "group"}, pose, parent=1)]


def window_near(chance, x, y, before, width):
    """A window near a place, cut at the edges of the plane."""
    left, top = (max(-PLANE, at + chance.randrange(24) - before) for at in (x, y))
    return patch(left, top, min(chance.randint(1, width), PLANE - left), min(chance.randint(1, 24), PLANE - top))


def deep_document(chance, session, number):
    away, x, y = CORNERS[number % 3]
    yield from far_groups(away)
    last = 2
    for _ in range(40):
        kind = chance.choices(["group", "frame", "rect", "ellipse", "polygon"], [2, 3, 2, 1, 2])[0]
        made = shape_of(chance, kind, (60, 40), (3, 11), (-12, 28))
        parent = last if chance.random() < 2 / 3 else chance.randint(2, last)
        made_of = session.model.next
        yield create(made, near(chance, -6, 14, 14), parent=parent, hidden=chance.random() < 1 / 12, spot=chance.choice(["front", "back"]))
        if kind in ("group", "frame") and made_of in session.model.records:
            last = made_of
    yield window_near(chance, x, y, 12, 70)


def flat_document(chance, session, number):
    away, x, y = CORNERS[number // 3 % 3]
    yield from far_groups(away)
    for count in range(24):
        kind = chance.choice(["group", "frame", "frame", "rect", "ellipse", "polygon", "polygon"])
        made = shape_of(chance, kind, (20, 20), (3, 8), (-6, 18))
        parent = max(2, chance.randrange(count + 1))
        yield create(made, near(chance, -8, 24, 24), parent=parent, hidden=chance.random() < 1 / 9, spot=chance.choice(["front", "back"]))
    yield window_near(chance, x, y, 8, 90)


# -- documents that fill their windows ---------------------------------------------------------------------------------

def leaf(chance, reach, corners):
    """A shape that is no group and no frame, with sides up to `reach`."""
    return shape_of(chance, chance.choice(["rect", "ellipse", "polygon"]), (reach, reach), corners, (-reach, reach))


def wide_document(chance, session, _):
    for _ in range(60):
        yield create(leaf(chance, 120, (9, 9)), near(chance, -40, 300, 140))
    yield patch(3, 5, 250, 96)


WALLS = [patch(70, 60, 1, 1), patch(3, -7, 33, 256), patch(-2, 90, 255, 17), patch(5, 5, 9, 8), patch(31, 18, 97, 130)]


def walls_document(chance, session, number):
    for _ in range(24):
        made = shape_of(chance, chance.choice(["rect", "rect", "rect", "rect", "ellipse", "polygon"]), (140, 140), (3, 11), (-12, 28))
        yield create(made, {**near(chance, -40, 290, 290), "flip": False})
    yield WALLS[number % len(WALLS)]


def crowd_document(chance, session, number):
    level = (0, 3)[number % 2]
    for _ in range(320):
        reach = (40 if chance.random() < 1 / 12 else 6) << level
        made = leaf(chance, reach, (3, 11))
        yield create(made, {**near(chance, -8 << level, 90 << level, 60 << level), "flip": False})
    yield create({"kind": "rect", "w": 20 << level, "h": 16 << level, "fill": "010203"}, {"dx": 10 << level, "dy": 10 << level})
    yield patch(-3, -2, 70, 43, level)


# -- comparisons -------------------------------------------------------------------------------------------------------

FORMS = {"any": (any_document, 40), "deep": (deep_document, 360), "flat": (flat_document, 450), "wide": (wide_document, 4),
         "walls": (walls_document, 15), "crowd": (crowd_document, 2)}
WORKERS = {"flat": 3, "wide": 4}
"""Up to how many workers paint a form; else 2."""


def pytest_generate_tests(metafunc):
    times = metafunc.config.getoption("times")
    metafunc.parametrize("form, number", [(form, number) for form, (_, count) in FORMS.items() for number in range(times * count)])


def test_a_document(program, form, number, seed):
    """All wide ones are the same, by other workers."""
    chance = random.Random(f"{seed} {form} {number}" if form != "wide" else f"{seed} {form}")
    session, data = Session(), b""
    for request in FORMS[form][0](chance, session, number):
        data += line_of(request)
        session.feed(line_of(request))
    got, _ = program.answers_to(data, str(number % WORKERS[form] + 1 if form in WORKERS else 2))
    if got != session.out:
        pytest.fail(f"{first_difference(got, session.out)} of the session {data!r}")
