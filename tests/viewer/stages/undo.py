"""Steps are taken back and made again, beside what others do."""

import json

from harness.running import difference
from stages.desk import back, looks_of, sheet


async def taken_back(ann, ben, server):
    """Edits of all kinds are taken back, last first, and made again; what others did since stays."""
    frame, (one, two, three), (x, y) = await sheet(ann, server, (0, 0, 60, 40), (100, 0, 60, 40), (200, 0, 60, 40))
    steps = [
        (f"app.editor.select({one}), app.editor.moveBy([15, 5])"), (f"app.editor.select({two}), app.editor.setFill('00ff00')"),
        (f"app.editor.select({three}), app.editor.turn()"), ("app.editor.toBack()"), ("app.editor.hide()"),
        (f"app.state.select([{one}, {two}]), app.editor.group()"), ("app.editor.fitTo({left: -3000, top: 3100, right: -2800, bottom: 3200})"),
        ("app.editor.duplicate()"), (f"app.editor.select({frame}), app.editor.delete()"),
    ]
    looks = [looks_of(server)]
    for step in steps:
        await ann.tab.value(f"(async () => {{ await ({step}); }})()")
        looks.append(looks_of(server))
    yield "each step changes something", difference([k for k, (a, b) in enumerate(zip(looks, looks[1:])) if a == b], [])
    await ann.settle(0)
    yield "all of it is gone", difference(frame in server.records(), False)
    await back(ann)
    anew = await ann.tab.value(f"app.state.history.resolve({frame})")
    shapes = lambda found: sorted(json.dumps(record[0], sort_keys=True) for record in found[0].values())
    yield "a deletion is taken back: its shapes", difference(shapes(looks_of(server)), shapes(looks[-2]))
    yield "made anew", difference(anew in server.records() and anew != frame, True)
    yield "the picture of it", await ann.wrong_pixels()
    await back(ann, len(steps) - 1)
    now, order = looks_of(server)
    resolved = await ann.tab.value(f"[{frame}, {one}, {two}, {three}].map((id) => app.state.history.resolve(id))")
    wanted, wanted_order = looks[0]
    yield "all steps are taken back", difference([now[number][:3] for number in resolved], [wanted[number][:3] for number in (frame, one, two, three)])
    yield "the order too", difference(order[resolved[0]], [resolved[[frame, one, two, three].index(number)] for number in wanted_order[frame]])
    yield "as many shapes", difference(len(now), len(wanted))
    yield "the picture of all", await ann.wrong_pixels()
    await back(ann, len(steps) - 1, "y")
    yield "all are made again", difference(shapes(looks_of(server)), shapes(looks[-2]))
    yield "the picture of that", await ann.wrong_pixels()
    async for case in with_others(ann, ben, server):
        yield case


async def with_others(ann, ben, server):
    """What others did since stays, and what they deleted is passed over in words."""
    _, (one, two, _), _ = await sheet(ann, server, (0, 0, 60, 40), (100, 0, 60, 40), (200, 0, 60, 40))
    await ann.tab.value(f"(async () => {{ app.editor.select({one}); await app.editor.moveBy([100, 0]); await app.editor.setFill('ff0000'); }})()")
    await ann.settle(0)
    with server.connect() as other:
        pose = {**server.records()[one]["pose"]}
        other.ask(verb="pose", id=one, pose={**pose, "dy": pose["dy"] + 120})
        last, _ = other.ask(verb="reshape", id=one, shape={**server.records()[one]["shape"], "w": 77})
    await ann.settle(last["version"])
    await back(ann, 2)
    record = server.records()[one]
    yield "what others did stays", difference([record["pose"]["dx"], record["pose"]["dy"], record["shape"]["w"], record["shape"]["fill"]],
                                              [pose["dx"] - 100, pose["dy"] + 120, 77, "2880c0"])
    await ann.tab.value(f"(async () => {{ app.editor.select({two}); await app.editor.moveBy([9, 9]); }})()")
    gone, _ = server.ask(verb="delete", id=two)
    await ann.settle(gone["version"])
    await back(ann)
    yield "what is gone is passed over, in words", difference(await ann.text("note"), f"Passed over: Rectangle {two} is not there any more.")
    yield "its button says what comes next", None if await ann.tab.value("document.querySelector('[data-act=undo]').title.includes('Ctrl+Z')") else "no"


async def many_steps(ann, server, count=205):
    """More than 200 steps are taken back and made again."""
    _, (one,), _ = await sheet(ann, server, (0, 0, 60, 40))
    before = server.records()[one]["pose"]
    await ann.tab.value(f"(async () => {{ app.editor.select({one}); for (let k = 0; k < {count}; k++) await app.editor.moveBy([1, k % 2]); }})()")
    yield f"after {count} steps", difference(server.records()[one]["pose"]["dx"], before["dx"] + count)
    await ann.tab.value(f"(async () => {{ for (let k = 0; k < {count}; k++) await app.editor.back(false); }})()")
    yield "all are taken back", difference(server.records()[one]["pose"], before)
    await ann.tab.value(f"(async () => {{ for (let k = 0; k < {count}; k++) await app.editor.back(true); }})()")
    yield "and made again", difference(server.records()[one]["pose"]["dx"], before["dx"] + count)
    await ann.settle(0)


async def many_shapes(ann, server, count=600):
    """More shapes than go into one batch are made, moved, deleted and made anew, as one step each."""
    before = server.records()
    shapes = [{"shape": {"kind": "rect", "w": 9, "h": 9, "fill": f"{k * 97 % 256:02x}4080"}, "pose": {"dx": 4000 + k % 30 * 12, "dy": k // 30 * 12, "quarter": 0, "flip": False}}
              for k in range(count)]
    await ann.look_at(0, (4200, 130))
    await ann.tab.value(f"app.editor.open({json.dumps(shapes)}).then(() => 0)")
    yield "they are made and selected", difference(await ann.tab.value("app.state.selection.length"), count)
    await ann.tab.value("app.editor.moveBy([7, 3])")
    left = min(record["pose"]["dx"] for number, record in server.records().items() if number not in before)
    yield "they are moved", difference(left, 4007)
    await ann.tab.value("app.editor.delete()")
    yield "they are deleted", difference(set(server.records()), set(before))
    for times, wanted in [(1, count), (1, count), (1, 0)]:
        await back(ann, times)
        yield f"{wanted} of them are there", difference(len(server.records()) - len(before), wanted)
    for _ in range(3):
        await back(ann, 1, "y")
    yield "and none is left after all steps again", difference(set(server.records()), set(before))
    yield "the picture of that", await ann.wrong_pixels()


STAGES = (taken_back, many_steps, many_shapes)
