#!/usr/bin/env python3
"""Lists what a crate's proof takes most steps for: goals that tactics find by themselves, or answers, by the checker's own count.

usage: tools/slow_goals.py NAME [answers] [--most N]

It reads what `rt check` (of a crate of tests `rt check --test`) kept in crates/NAME/out, and checks nothing. What was kept of functions that have
changed since is listed too, so begin with a new out/ where that matters. A million steps take about half a second. For a goal of a
`Proof` the way out is an answer in proofs/PATH/Answers.antt; for an answer it is a lemma over plain variables in place of a tactic
that reads all of the function's context.

Each line has the steps, the module and the goal; the last line is the sum of all.
"""

import argparse

from records import counted, modules
from repository import lines


def steps_of(name, kind):
    """Steps, function and declaration of a crate's kept modules of a kind, the most first."""
    found = []
    for module, file in modules(name):
        function, _, ending = module.rpartition(".")
        if ending == kind and function.startswith("proofs."):
            found += [(search + kernel, function.removeprefix("proofs."), declaration) for declaration, search, kernel in counted(file)]
    return sorted(found, reverse=True)


def main():
    asked = argparse.ArgumentParser(description=__doc__, formatter_class=argparse.RawDescriptionHelpFormatter)
    asked.add_argument("name", choices=[*lines()], metavar="NAME")
    asked.add_argument("kind", nargs="?", default="goals", choices=["goals", "answers"])
    asked.add_argument("--most", type=int, default=30, help="how many lines (30)")
    words = asked.parse_args()
    found = steps_of(words.name, "Proof" if words.kind == "goals" else "Answers")
    for steps, function, declaration in found[: words.most]:
        print(f"{steps:>12,}  {function}  {declaration}")
    print(f"{sum(steps for steps, _, _ in found):,} steps")


if __name__ == "__main__":
    main()
