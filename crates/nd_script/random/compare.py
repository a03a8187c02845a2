#!/usr/bin/env python3
"""Runs random scripts by the program and by a model of it in plain Python, and prints each script on which they differ.

    crates/nd_script/random/compare.py [COUNT [SEED [PROGRAM]]]

Texts and statuses must be the same. A run that ends in `out of memory` isn't compared, nor is one with a view of very many elements.
Without a PROGRAM it is built by `rt run`, which first proves what isn't proved yet. It needs nothing but python3.
"""

import collections
import concurrent.futures
import functools
import pathlib
import random
import subprocess
import sys

from meaning import TooLarge, reply_and_rest, text_of
from reading import read_script
from writing import Writer

CRATE = pathlib.Path(__file__).resolve().parent.parent


def built():
    """The program, as `rt run` builds it."""
    ran = subprocess.run(["rt", "run"], cwd=CRATE, input=b"start 0 0\n", capture_output=True)
    if ran.stdout != b"end 0 0\n":
        sys.exit(f"rt run: {ran.stdout!r} {ran.stderr.decode()[-2000:]}")
    return CRATE / "out" / "nd_script"


def expected(text):
    """What is to be written, and the status."""
    start, calls = read_script(text)
    if start is None:
        return f"bad line {calls}\n", 1
    lines = []
    for call in calls:
        reply, start = reply_and_rest(call, start)
        lines.append(reply)
    return "\n".join([*lines, f"end {text_of(start)}", ""]), 0


def run_by(program, text):
    """What the program writes, and its status."""
    ran = subprocess.run([program], input=text, capture_output=True)
    return ran.stdout.decode(errors="replace"), ran.returncode


def kinds_of(written):
    return [line if line.startswith("refused") else line.split()[0] for line in written.splitlines()]


def compare(program, writer):
    """The kinds of lines of one script, with `differs` where program and model differ; none where they weren't compared."""
    try:
        text = writer.script()
        wanted = expected(text)
    except TooLarge:
        return []
    written = run_by(program, text)
    if written[0].endswith("out of memory\n"):
        return []
    if written == wanted:
        return kinds_of(wanted[0])
    print(f"{text!r}\nwanted {wanted}\ngot {written}")
    return [*kinds_of(wanted[0]), "differs"]


def part(program, compare_one, count, seed, nth):
    """How often each kind of line came in one of four parts of the comparisons."""
    writer = Writer(random.Random(f"{seed} {nth}"))
    found = collections.Counter()
    for _ in range(nth, count, 4):
        kinds = compare_one(program, writer)
        found.update(kinds)
        found["compared"] += bool(kinds)
    return found


def counted(program, compare_one, count, seed):
    """How often each kind of line came in so many comparisons, four of which go side by side."""
    with concurrent.futures.ProcessPoolExecutor() as pool:
        parts = pool.map(functools.partial(part, program, compare_one, count, seed), range(4))
        return sum(parts, collections.Counter())


def main(count=10000, seed=1, program=None):
    found = counted(program or built(), compare, int(count), seed)
    compared, differ = found.pop("compared"), found.pop("differs", 0)
    print(f"{compared} scripts compared, {differ} differ; lines: {dict(sorted(found.items()))}")
    return 1 if differ else 0


if __name__ == "__main__":
    sys.exit(main(*sys.argv[1:]))
