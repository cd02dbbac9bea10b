"""The damage that a feed tells: worked boxes, and those of random edits, by a plain model. No pixel changes outside of them."""

import contextlib
import json
import random
from pathlib import Path

import pytest

from canvas import Refused
from canvas.client import line_of
from harness.feeding import Feeding, asked
from harness.nested import nested, turns
from plain_model import Model, Refused as PlainRefused, in_box
from plain_session import Session, open_document, read_request

pytestmark = pytest.mark.quick


# -- damage ------------------------------------------------------------------------------------------------------------

def create(shape, pose=None, **more):
    return {"verb": "create", "shape": shape, "pose": pose or {}, **more}


def red(w, h):
    return {"kind": "rect", "w": w, "h": h, "fill": "ff0000"}


def polygon(*points):
    return {"kind": "polygon", "points": points, "fill": "ff0000"}


def move(number, parent):
    return {"verb": "move", "id": number, "parent": parent, "spot": "front"}


def pose(number, **moved):
    return {"verb": "pose", "id": number, "pose": moved}


def reshape(number, shape):
    return {"verb": "reshape", "id": number, "shape": shape}


def show(number, hidden):
    return {"verb": "show", "id": number, "hidden": hidden}


def delete(number):
    return {"verb": "delete", "id": number}


def respace(parent):
    return {"verb": "respace", "parent": parent}


DRAWING = [
    create({"kind": "frame", "w": 4, "h": 4}, {"dx": 10, "dy": 20}),
    create(red(6, 2), {"dx": 2}, parent=1),
    create({"kind": "ellipse", "w": 3, "h": 3, "fill": "ff0000"}, {"dx": -5, "dy": 1}, parent=1, hidden=True),
    create({"kind": "group"}, {"dx": 100, "quarter": 1, "flip": True}),
    create(polygon([0, 0], [4, 0], [0, 6]), {"dy": 2}, parent=4),
    create({"kind": "group"}, {"dx": 7, "dy": 7}),
    create(red(2, 2), {"dx": -9}, hidden=True),
]
"""A frame 1 with a rectangle 2 that it clips and a hidden ellipse 3 beside it; a turned and flipped group 4 with a triangle 5; an empty group 6; a
hidden rectangle 7."""
NOTHING = [0, 0, 0, 0]
DAMAGES = [
    # Groups alone, and keys.
    (create({"kind": "group"}, spot="back"), NOTHING),
    (create({"kind": "group"}, parent=4, spot="back"), NOTHING),
    (delete(6), NOTHING),
    (show(6, True), NOTHING),
    (pose(6, dx=50, dy=50), NOTHING),
    (move(6, 1), NOTHING),
    (respace(None), NOTHING),
    (respace(1), NOTHING),
    # Hidden and clipped shapes count.
    (show(7, False), [-9, 0, -7, 2]),
    (show(3, True), [5, 21, 8, 24]),
    (show(1, True), [5, 20, 18, 24]),
    (delete(1), [5, 20, 18, 24]),
    (move(2, 1), [12, 20, 18, 22]),
    (move(3, 4), [5, 2, 99, 24]),
    (reshape(1, {"kind": "frame", "w": 20, "h": 1}), [5, 20, 30, 24]),
    (reshape(2, red(1, 3)), [12, 20, 18, 23]),
    # A turned and flipped group carries its shapes.
    (show(5, True), [92, -4, 98, 0]),
    (delete(4), [92, -4, 98, 0]),
    (pose(5), [92, -4, 100, 0]),
    (pose(4), [0, -4, 98, 8]),
    (move(5, None), [0, -4, 98, 8]),
    (reshape(5, polygon([1, 1], [2, 1], [2, 3], [1, 3])), [92, -4, 98, 0]),
    (create(red(1, 2), parent=4, spot="back"), [98, -1, 100, 0]),
]
"""Edits of the drawing, and their damage."""


def saved_by(edits):
    """The text of the document that these edits make."""
    model = Model()
    for edit in edits:
        model.edit(edit)
    return model.saved()


def damage_of(folder, text, edits):
    """The damage that the feed tells of edits of a saved document. One that is refused has none."""
    file = Path(str(folder) + ".json")
    file.write_bytes(text)
    with Feeding(folder, "--open", file) as server, server.connect() as canvas:
        made = 0
        for edit in edits:
            with contextlib.suppress(Refused):
                made = canvas.ask(**edit)[0]["version"]
        return [json.loads(line)["damage"] for line in asked(server, {"since": 0}, made)]


@pytest.mark.parametrize("edit, box", DAMAGES)
def test_worked_damage(tmp_path, edit, box):
    text = saved_by(DRAWING)
    assert damage_of(tmp_path / "kept", text, [edit]) == [box]
    assert [*Model.opened(text).damage(edit)[1]] == box


def test_the_damage_of_a_square_that_moves(tmp_path):
    text, edit = saved_by([create(red(10, 10))]), pose(1, dx=100)
    assert damage_of(tmp_path / "kept", text, [edit]) == [[0, 0, 110, 10]] == [[*Model.opened(text).damage(edit)[1]]]


def changed_beside(chance, before, after, box):
    """A pixel beside a box whose colour changed, of some near it and some near the origin; or None."""
    left, top, right, bottom = box
    x, y = chance.randint(left, max(left, right - 1)), chance.randint(top, max(top, bottom - 1))
    near = [(chance.randint(-20, 20), chance.randint(-20, 20)) for _ in range(4)]
    for pixel in [(left - 1, y), (right, y), (x, top - 1), (x, bottom), *near]:
        if not in_box(box, *pixel) and before.colour(*pixel) != after.colour(*pixel):
            return f"{pixel} changes outside of {box}"
    return None


@pytest.mark.parametrize("levels", range(31))
def test_random_damage(tmp_path, levels):
    """Random edits of so many groups and frames, each in the one before, every other one a pose."""
    chance, text = random.Random(f"damage {levels}"), nested(levels)
    session = Session(open_document(text))
    edits, boxes, fault = [], [], None
    for edit in turns(60, chance, session):
        before = Model()
        before.records = dict(session.model.records)
        edits.append(edit)
        with contextlib.suppress(PlainRefused):
            boxes.append([*session.model.damage(read_request(line_of(edit)[:-1]))[1]])
            fault = fault or changed_beside(chance, before, session.model, boxes[-1])
    assert fault is None
    assert damage_of(tmp_path / "kept", text, edits) == boxes
