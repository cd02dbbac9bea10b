#!/usr/bin/env python3
"""Tells how long a first build takes, and has the order in which a build begins its crates. Both rest on the table tools/build_times.txt.

usage: tools/build_times.py                    for each program the minutes on this machine's processors, all and over a release's libraries
       tools/build_times.py --write [CLONE]    writes the table from what checks kept here, or in another clone of the same sources

The table has a line for each crate that the programs are made of: its name, and the steps of its proof in millions (tools/records.py). A crate
of which no check kept anything keeps its line. One without a line counts by its lines of source.
"""

import argparse
import os
from functools import cache
from pathlib import Path

from records import steps
from repository import PROGRAMS, TOP, below, sources, uses

TABLE = TOP / "tools" / "build_times.txt"
HEAD = "# The steps of each crate's proof, in millions. tools/build_times.py --write writes this.\n"
# Seconds of a processor at 2.5 GHz, from the minutes of the largest crates in one first build of canvas. All of it took 63.5 minutes on four processors
# and 116 of a processor, and is reckoned to have taken 73 and 106. Machines differ by nearly two.
START = 10  # for any crate
EACH_MILLION = 0.86  # for a million steps of its proof
EACH_MILLION_BELOW = 0.12  # to load the proofs of the crates below, for a million of their steps
# What a further job adds to the speed of a proof: four jobs took 404 seconds for one of 880.
FURTHER_JOB = 0.4


def processors():
    """How many processors there are for this process."""
    return len(os.sched_getaffinity(0))


def crates():
    """The crates that the programs are made of, each after those that it uses."""
    found = []
    for program in PROGRAMS:
        found += [it for it in [*below(program), program] if it not in found]
    return found


def read_table():
    """The million steps of each crate that has a line."""
    rows = [line.split() for line in TABLE.read_text().splitlines() if not line.startswith("#")] if TABLE.is_file() else []
    return {name: int(million) for name, million in rows}


def size(name):
    """How many lines a crate's sources have."""
    return sum(it.read_bytes().count(b"\n") for it in sources(name))


@cache
def millions(name):
    """The million steps of a crate's proof."""
    table = read_table()
    if name in table:
        return table[name]
    known = [it for it in table if it in uses()]
    return size(name) * sum(table[it] for it in known) / max(sum(size(it) for it in known), 1)


def seconds(name, jobs=1):
    """How long a crate takes with so many jobs."""
    return START + EACH_MILLION_BELOW * sum(map(millions, below(name))) + EACH_MILLION * millions(name) / (1 + FURTHER_JOB * (jobs - 1))


def chains(names, used):
    """For each crate the seconds of the longest chain of crates that begins with it."""
    found = {}
    for name in reversed(names):
        found[name] = seconds(name) + max((found[it] for it in found if name in used[it]), default=0)
    return found


def to_begin(ready, running, chain, idle):
    """The crates to begin now, and how many jobs each has. `ready` are those that wait for nothing, by their chains, the longest first; the jobs of those
    that run are known, and how many processors stand idle. Each has one job; the first of the longest chain has two where there are three processors or
    more, and what no other crate needs."""
    begun = ready[: max(idle, 0)]
    is_first = all(chain[it] <= chain[ready[0]] for it in running) if ready else False
    if is_first and len(begun) == idle > 2:
        begun = begun[:-1]
    return {name: 1 + (idle - len(begun)) * (name == ready[0]) for name in begun}


def minutes(program, built=(), count=None):
    """How long a build of a program takes, where these libraries are built."""
    used, names, count = uses(), below(program), count or processors()
    chain = chains([*names, program], used)
    left, running, done, now = sorted(set(names) - {*built}, key=lambda it: -chain[it]), {}, {*built}, 0
    while left or running:
        ready = [it for it in left if done.issuperset(used[it])]
        for name, jobs in to_begin(ready, running, chain, count - sum(jobs for _, jobs in running.values())).items():
            running[name] = now + seconds(name, jobs), jobs
            left.remove(name)
        name = min(running, key=running.get)
        now, _ = running.pop(name)
        done.add(name)
    return (now + seconds(program, count)) / 60


def write_table(clone):
    counted = {name: steps(name, clone) for name in crates()}
    table = {**read_table(), **{name: max(round(count / 1e6), 1) for name, count in counted.items() if count}}
    TABLE.write_text(HEAD + "".join(f"{name} {table[name]}\n" for name in crates() if name in table))
    for name in crates():
        if not counted[name]:
            print(f"{name}: no check kept anything of it; " + ("its line is as it was" if name in table else "it has no line"))


def main():
    asked = argparse.ArgumentParser(description=__doc__, formatter_class=argparse.RawDescriptionHelpFormatter)
    asked.add_argument("--write", nargs="?", type=Path, const=TOP, metavar="CLONE", help="write the table from what checks kept")
    words = asked.parse_args()
    if words.write:
        write_table(words.write)
    millions.cache_clear()
    for program in PROGRAMS:
        print(f"{program}: {minutes(program):.0f} minutes on {processors()} processors, {minutes(program, below(program)):.0f} over built libraries")


if __name__ == "__main__":
    main()
