"""In which functions of a source, as `rt fmt` lays it out, a change lies, what a source says without their bodies, which lines its clauses have, and
which function a line of the prover refuses."""

import re
from dataclasses import dataclass

HEAD = re.compile(r"( *)(?:pub(?:\([a-z]+\))? )?(?:const )?fn (\w+)")
# A goal of the prover's own, by its place in the source.
GOAL = re.compile(r"(?:note: )?(?:\./)?(src/\S+\.rt):(\d+):\d+: (?:error: |it is not proved)")
# A text or a character, which stay as they are; or what lays a source out: space and comments.
LAYOUT = re.compile(r"""("(?:\\.|[^"\\])*"|'(?:\\.|[^'\\\n])')|(?:\s|//[^\n]*)+""")
# The line on which a clause begins: one of a contract or of a loop, or a ghost member.
CLAUSE = re.compile(r" *(?:pub )?(?:(?:requires|ensures|invariant)\*?(?: \w+)?|ghost \w+(?: =|:)) \{")
# An answer of a proof file, which stands in a folder with the function's name.
ANSWER = re.compile(r"(?:note: )?(?:\./)?proofs/(?:\S+/)?(\w+)/\w+\.antt:\d+:\d+: error")


@dataclass(frozen=True)
class Function:
    """A function: the numbers, from 1, of its first line, of the one that opens its body, and of its last one."""

    name: str
    begins: int
    opens: int
    ends: int


def functions(text):
    """The functions of a source, but for those with a body on one line."""
    lines = text.split("\n")
    found = []
    for at, line in enumerate(lines):
        head = HEAD.match(line)
        opens = head and opening(lines, at, head[1])
        if opens is not None and f"{head[1]}}}" in lines[opens + 1:]:
            found.append(Function(head[2], at + 1, opens + 1, lines.index(f"{head[1]}}}", opens + 1) + 1))
    return found


def opening(lines, at, indent):
    """Where the body opens of the function whose head stands at this line, if it has one of more than one line."""
    for number in range(at, len(lines)):
        line = lines[number]
        if line == f"{indent}{{" or line.endswith(" {") and (number == at or line.startswith(f"{indent})")):
            return number
        if number > at and HEAD.match(line) or line.endswith(("{}", ";", "}")) and not line.startswith(f"{indent} "):
            return None
    return None


# The head of an impl: the trait, what it is given, and the type.
OF_IMPL = re.compile(r"impl(?:<.*>)? (?:(\w+)(?:<(.*?)>)? for )?&?(\w+)(?:<.*>)? \{$")


def prover_names(path, text):
    """Where the prover's names for the functions of a source end, each with the function's own: in the type whose impl it stands in, with the trait behind
    it, or else in the module, and its name."""
    module, impl = path.removesuffix(".rt").removeprefix("src/").rsplit("/", 1)[-1], None
    for line in text.split("\n"):
        if line and not line.startswith(" "):
            impl = OF_IMPL.match(line)
        head = HEAD.match(line)
        if head and head[1] == "    " and impl:
            yield head[2], f"{impl[3]}{impl[1] or ''}{impl[2] if impl[1] == 'From' else ''}::{head[2]}"
        elif head and not head[1]:
            yield head[2], head[2] if module in ("lib", "main") else f"{module}::{head[2]}"


def innermost(found, number):
    """The function that has this line and none of those inside it has."""
    inside = [it for it in found if it.begins <= number <= it.ends]
    return max(inside, key=lambda it: it.begins, default=None)


def without_bodies(text):
    """What the crates above see of a source: no bodies of functions and no comments. What a `const fn` gives may stand in a type, so its body stays."""
    lines = text.split("\n")
    for it in reversed(functions(text)):
        if not re.search(r"\bconst fn ", lines[it.begins - 1]):
            del lines[it.opens:it.ends - 1]
    return "\n".join(it for it in lines if not it.lstrip().startswith("//"))


def without_layout(text):
    """A source without its comments and with one space wherever there is space: how it is laid out changes no goal of the prover."""
    return LAYOUT.sub(lambda it: it[1] or " ", text).strip()


def clause_lines(text):
    """The lines of a source that clauses take."""
    open_braces = 0
    for line in text.split("\n"):
        if open_braces or CLAUSE.match(line):
            yield line
            bare = LAYOUT.sub("", line)
            open_braces += bare.count("{") - bare.count("}")


def changed_functions(old, new):
    """The names of the functions in whose bodies two texts differ, or None where they differ elsewhere too."""
    before, after = old.split("\n"), new.split("\n")
    found = functions(old)
    names = set()
    for number, (line, other) in enumerate(zip(before, after), 1):
        if line == other:
            continue
        inside = innermost(found, number)
        if inside is None or number < inside.opens or number == inside.opens and not other.startswith(line):
            return None
        names.add(inside.name)
    return names if len(before) == len(after) else None


def refused_function(line, texts):
    """The name of the function that a line of the prover refuses, if it refuses one; `texts` has the sources by their paths."""
    goal, answer = GOAL.match(line), ANSWER.match(line)
    inside = function_at(texts[goal[1]], int(goal[2])) if goal and goal[1] in texts else None
    return inside.name if inside else answer and answer[1]


def function_at(text, number):
    """The function of the goal at this line. That of a whole function stands at the first attribute above it, if it has one."""
    lines, is_open = text.split("\n"), 0
    while number < len(lines) and (is_open or lines[number - 1].lstrip().startswith("#[")):
        is_open += lines[number - 1].count("[") - lines[number - 1].count("]")
        number += 1
    return innermost(functions(text), number)
