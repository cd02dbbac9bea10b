"""Documents of groups in groups, and edits that turn what is there."""

import json

import key_rows
from harness.grammar import Requests

STILL = {"dx": 0, "dy": 0, "flip": False, "quarter": 0}


def record(number, parent, rank, shape, pose=STILL):
    place = {"index": key_rows.fresh(rank), "parent": parent}
    return {"hidden": False, "id": number, "place": place, "pose": pose, "shape": shape}


def saved(records):
    """The saved text of these records, of which the last has the greatest id."""
    return json.dumps({"format": 2, "next": len(records) + 1, "shapes": records}, separators=(",", ":")).encode()


def nested(levels):
    """Groups and a few frames, each of which holds the next."""
    frame = {"fill": None, "h": 30, "kind": "frame", "w": 30}
    return saved([record(k + 1, k or None, 2, frame if k % 8 == 7 else {"kind": "group"}) for k in range(levels)])


def turns(count, chance, session):
    """Edits of which every other one is a pose of what is there."""
    for number in range(count):
        ids = list(session.model.records)
        turn = {"dx": chance.randint(-20, 20), "dy": chance.randint(-20, 20), "quarter": chance.randrange(4), "flip": chance.random() < 0.5}
        is_turn = number % 2 and ids
        yield {"verb": "pose", "id": chance.choice(ids), "pose": turn} if is_turn else Requests(chance, session, "any").edit()
