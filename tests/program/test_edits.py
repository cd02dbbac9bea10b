"""Random edits of documents of many forms and sizes, beside the plain models, one by one.

After each edit the reply, the whole saved document and some colours have to be those of plain_session.py. The edits are those of harness/grammar.py; many
are refused. They begin with

- nothing: 30 times 80 edits, and 6 pixels after each;
- 2 to 31 groups and frames, each in the one before: 60 edits each, and 6 pixels after each;
- none to 19 of them: 60 edits each, every other one a pose, and a window of 12 by 12 pixels after each;
- 10, 100, 1,000 and 4,096 squares on the page, and the same in groups of 63: 1,000 edits each;
- the same in the last of 31 groups, each in the one before: 200 edits each, and then nearly all is deleted;
- 1,000 squares in groups, of which the children of one move away and back, and 4,096, of which the children of some get new keys.

Of more than 100 records no pixel is looked at.
"""

import json
import random
from functools import partial

import pytest

from canvas.client import line_of
from harness.grammar import Requests
from harness.nested import STILL, nested, record, saved, turns
from harness.running import first_difference
from plain_model import Model, saved_record
from plain_session import Session, open_document

pytestmark = pytest.mark.slow
RED = "ff0000"
EXPORT = {"verb": "export"}
DEEPEST = 31
"""In so many groups the records of a deep document lie."""
FEW = 100
"""How many records a document may have whose pixels are looked at."""


# -- documents ---------------------------------------------------------------------------------------------------------


HOLDERS = {
    "on the page": lambda number: None,
    "in groups": lambda number: number & ~63 if number % 64 and number > 63 else None,
    "32 deep": lambda number: min(number - 1, DEEPEST) or None,
}
"""In which group a record of each form of a document lies, or None for the page."""
IS_GROUP = {"on the page": lambda number: False, "in groups": lambda number: number % 64 == 0, "32 deep": lambda number: number <= DEEPEST}


def filled(form, count):
    """So many squares somewhere near the middle of the page, and groups, which lie as the form says."""
    def one(number):
        parent = HOLDERS[form](number)
        if IS_GROUP[form](number):
            return record(number, parent, number, {"kind": "group"})
        pose = {**STILL, "dx": number % 41 - 20, "dy": number % 37 - 20}
        return record(number, parent, number, {"fill": RED, "h": 3, "kind": "rect", "w": 3}, pose)

    return saved([one(number) for number in range(1, count + 1)])


# -- edits -------------------------------------------------------------------------------------------------------------

def some_edits(count, chance, session):
    """Edits of any verb, which may be refused."""
    for _ in range(count):
        yield Requests(chance, session, "any").edit()


def deep_edits(count, chance, session):
    """Edits that delete none of the 31 groups, and then one that deletes the first of them, with nearly all that is there."""
    for edit in some_edits(count, chance, session):
        if edit["verb"] != "delete" or edit["id"] > DEEPEST:
            yield edit
    yield {"verb": "delete", "id": 1}


def away_and_back(chance, session):
    """All children of group 64 move to another group, back, and to the page, one after the other; each time the parent's children get new keys."""
    for parent in (128, 64, None):
        yield from ({"verb": "move", "id": 65 + number, "parent": parent, "spot": "front"} for number in range(63))
        yield {"verb": "respace", "parent": parent}


def new_keys(chance, session):
    yield from ({"verb": "respace", "parent": group} for group in (64, 2_048, 4_032))


# -- looks -------------------------------------------------------------------------------------------------------------

def pixels(chance, session):
    """The looks at six pixels, where there are few records."""
    count = 6 if len(session.model.records) <= FEW else 0
    return [{"verb": "point", "x": chance.randrange(-25, 25), "y": chance.randrange(-25, 25)} for _ in range(count)]


def window(chance, session):
    return [{"verb": "patch", "x": chance.randint(-20, 20), "y": chance.randint(-20, 20), "w": 12, "h": 12}]


# -- comparisons -------------------------------------------------------------------------------------------------------

class QuickModel(Model):
    """The plain model of a saved text's document, which saves only those records anew that have changed."""

    def __init__(self, text):
        super().__init__()
        opened = open_document(text)
        self.records, self.next, self._texts = opened.records, opened.next, {}

    def saved(self, form=2):
        return b'{"format":%d,"next":%d,"shapes":[%s]}' % (form, self.next, b",".join(self._text(number, form) for number in sorted(self.records)))

    def _text(self, number, form):
        record, text = self._texts.get(number, (None, None))
        if record is not self.records[number]:
            record = self.records[number]
            text = json.dumps(saved_record(number, record, form), separators=(",", ":"), sort_keys=True).encode()
            self._texts[number] = record, text
        return text


def read_exactly(stream, wanted):
    """As many bytes as are wanted, and the rest of a line or a body that is longer."""
    got = stream.read(len(wanted))
    return got if got == wanted else got + stream.peek()


def fault_of(program, text, edits, looks, chance):
    """What differs after one of the edits of a document, or None."""
    session = Session(QuickModel(text))
    with program.start(text) as server, server.socket() as sock:
        with sock.makefile("rb") as stream:
            for number, edit in enumerate(edits(chance, session)):
                replies = [session.reply(line_of(edit)[:-1])]
                asked = [EXPORT, *looks(chance, session)]
                sock.sendall(b"".join(line_of(request) for request in [edit, *asked]))
                replies += [session.reply(line_of(request)[:-1]) for request in asked]
                for request, wanted in zip([edit, *asked], replies):
                    if (got := read_exactly(stream, wanted)) != wanted:
                        return f"{request} after {number} edits, of which the last is {edit}: {first_difference(got, wanted)}"
    return None


def jobs():
    """A document as a function and its words, its edits, and the looks after each; by name."""
    yield from ((f"an empty document, {k}", (nested, 0), partial(some_edits, 80), pixels) for k in range(30))
    yield from ((f"{k} groups", (nested, k), partial(some_edits, 60), pixels) for k in range(2, 32))
    yield from ((f"{k} groups that are turned", (nested, k), partial(turns, 60), window) for k in range(20))
    for form in HOLDERS:
        edits = partial(deep_edits, 200) if form == "32 deep" else partial(some_edits, 1_000)
        yield from ((f"{count} records {form}", (filled, form, count), edits, pixels) for count in (4_096, 1_000, 100, 10))
    yield "children that move away and back", (filled, "in groups", 1_000), away_and_back, pixels
    yield "new keys of few of many", (filled, "in groups", 4_096), new_keys, pixels


JOBS = {name: job for name, *job in jobs()}


@pytest.mark.parametrize("name", JOBS)
def test_edits(canvas, name, seed):
    (make, *words), edits, looks = JOBS[name]
    assert fault_of(canvas, make(*words), edits, looks, random.Random(f"{seed} {name}")) is None
