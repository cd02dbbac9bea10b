"""Which tab may be given another one's answer."""

import asyncio

import pytest

from canvas.gateway.looks import MOST_AT_ONCE, Look, Looks, is_look
from canvas.gateway.pictures import Answer, Pictures, UNANSWERED
from canvas.gateway.session import Away, Presence


class Stub:
    """A session that answers each line with a version, and notes what it was asked."""

    def __init__(self, version):
        self.version, self.asked = version, []
        self.presence = Presence()
        self.presence._since, self.presence._until = 0, 9

    async def ask(self, lines):
        self.asked += lines
        return [({"body": 0, "ok": True, "version": self.version}, b"") for _ in lines]


def test_only_tiles_and_exports_are_looks():
    assert is_look({"verb": "tile"}) and is_look({"verb": "export"})
    assert not any(is_look(it) for it in [{"verb": "pose"}, {}, None, "tile", []])


async def test_an_answer_serves_those_who_have_seen_no_newer_version():
    look = Look(Stub(3), 3)
    look.end(Answer(3, "{}"))
    assert [look.may_serve(Stub(3), seen) for seen in (2, 3, 4)] == [True, True, False]


async def test_what_is_on_its_way_serves_those_who_have_seen_as_much():
    look = Look(Stub(9), 3)
    assert [look.may_serve(Stub(9), seen) for seen in (3, 4)] == [True, False]


async def test_an_answer_of_another_run_serves_no_one():
    look, other = Look(Stub(3), 3), Stub(3)
    look.end(Answer(3, "{}"))
    other.presence._since, other.presence._until = 10, 20
    assert not look.may_serve(other, 0)


async def test_what_has_no_answer_serves_no_one():
    look = Look(Stub(3), 3)
    look.end(UNANSWERED)
    assert not look.may_serve(Stub(3), 0)


async def test_the_first_answer_counts():
    look = Look(Stub(3), 3)
    look.end(Answer(1, "one"))
    look.end(Answer(2, "two"))
    assert look.answer.result().text == "one"


async def test_one_tab_asks_for_two():
    looks, ann, ben = Looks(Pictures()), Stub(5), Stub(5)
    first = await looks.answers(ann, [b"a", b"b"], 0)
    second = await looks.answers(ben, [b"b", b"c"], 5)
    assert (ann.asked, ben.asked, [answer.version for answer in first + second]) == ([b"a", b"b"], [b"c"], [5, 5, 5, 5])


async def test_a_line_that_stands_twice_is_asked_once():
    ann = Stub(5)
    found = await Looks(Pictures()).answers(ann, [b"a", b"a"], 0)
    assert (ann.asked, len(found)) == ([b"a"], 2)


async def test_an_older_answer_is_asked_anew():
    looks, ann, ben = Looks(Pictures()), Stub(5), Stub(6)
    await looks.answers(ann, [b"a"], 0)
    found = await looks.answers(ben, [b"a"], 6)
    assert (ben.asked, found[0].version) == ([b"a"], 6)


async def test_where_the_server_goes_those_who_wait_ask_for_themselves():
    gone = asyncio.Event()

    class Gone(Stub):
        async def ask(self, lines):
            await gone.wait()
            raise OSError

    looks, ben = Looks(Pictures()), Stub(5)
    first = asyncio.create_task(looks.answers(Gone(5), [b"a"], 0))
    await asyncio.sleep(0)
    second = asyncio.create_task(looks.answers(ben, [b"a"], 0))
    await asyncio.sleep(0)
    gone.set()
    assert ((await second)[0].version, ben.asked) == (5, [b"a"])
    with pytest.raises(OSError):
        await first


async def test_what_is_older_than_what_was_seen_is_asked_again():
    class Late(Stub):
        async def ask(self, lines):
            self.version += 1
            return await super().ask(lines)

    session = Late(2)
    found = await Looks(Pictures()).answers(session, [b"a", b"b"], 5)
    assert (session.asked, [answer.version for answer in found]) == ([b"a", b"b"] * 3, [5, 5])


async def test_a_server_that_tells_only_what_is_older_counts_as_away():
    with pytest.raises(Away, match="older"):
        await Looks(Pictures()).answers(Stub(4), [b"a"], 5)


async def test_a_tab_that_is_alone_is_given_nothing_of_others():
    looks, ann, ben = Looks(Pictures()), Stub(5), Stub(5)
    await looks.answers(ann, [b"a"], 0)
    await looks.answers(ben, [b"a"], 0, is_alone=True)
    assert ben.asked == [b"a"]


async def test_others_are_answered_between_the_parts_of_many_looks():
    class Slow(Stub):
        async def ask(self, lines):
            await asyncio.sleep(0.01)
            return await super().ask(lines)

    looks, session = Looks(Pictures()), Slow(5)
    many = asyncio.create_task(looks.answers(session, [b"%d" % number for number in range(3 * MOST_AT_ONCE)], 0))
    await asyncio.sleep(0)
    await looks.answers(session, [b"a"], 0)
    await many
    assert session.asked.index(b"a") == MOST_AT_ONCE
