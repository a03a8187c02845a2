#!/usr/bin/env python3
"""Runs the same calls by this repository's arrays and by ndarray itself, and compares what they answer.

    tests/beside_ndarray.py SOURCES [--scripts N] [--texts N] [--calls N] [--shapes N] [--seed N] [--program FILE]

SOURCES is a folder that has the sources of ndarray 0.17.2 and of the crates below it, each in a folder NAME-VERSION as `cargo vendor`
or Debian's packages `librust-..-dev` lay them out. It wants `cargo`, `rt` and no network.

- Scripts: random scripts of calls (docs/SCRIPT.md). A call that ndarray refuses, by a panic or by an error, must be refused. They are run by
  `rt try` over a build that isn't proved, or by FILE, which is a built `nd_script`.
- Texts: `{}`, `{:?}` and format options of arrays in many shapes and layouts.
- Calls: calls along an axis, iterators, sums, products, arithmetic and questions about the layout, on views that random steps lead to; and
  `{:?}` of these views, which tells their strides.
- Shapes: how constructors and reshapes end, with the text of the error; `to_shape` must give a view here exactly where it does in ndarray.

Prints the first ten answers that differ, then how often each of the two differences came that docs/DECISIONS.md lists, which count as passed, and
last `N passed, M failed`. Nothing is proved here.
"""

import argparse
import collections
import itertools
import pathlib
import random
import re
import shutil
import subprocess
import sys
import tempfile

TOP = pathlib.Path(__file__).resolve().parent.parent
HERE = TOP / "tests" / "beside_ndarray"
# `rt try` takes at most 1 MiB of output a run.
CASES_A_RUN = 250
MOST_SHOWN = 10


def sources_of(folder):
    """The folder of vendored sources, with what cargo wants of it."""
    return f'[source.crates-io]\nreplace-with = "local"\n[source.local]\ndirectory = "{folder.resolve()}"\n'


def build_peer(folder, sources):
    """Builds the programs over ndarray, and returns the folder that has them."""
    (folder / "src" / "bin").mkdir(parents=True)
    (folder / ".cargo").mkdir()
    (folder / ".cargo" / "config.toml").write_text(sources_of(sources))
    (folder / "Cargo.toml").write_text('[package]\nname = "beside"\nversion = "0.1.0"\nedition = "2021"\n[dependencies]\nndarray = "=0.17.2"\n')
    for name in ("scripts", "texts", "calls", "shapes"):
        shutil.copy(HERE / f"{name}.rs", folder / "src" / "bin")
    subprocess.run(["cargo", "build", "-q", "--release", "--offline"], cwd=folder, check=True)
    return folder / "target" / "release"


def copy_crates(root, programs):
    """Copies all crates without their proofs, and puts programs of this folder beside them."""
    names = [line.split(":")[0] for line in open(TOP / "crates.txt") if line.strip() and line[0] != "#"]
    for name in names:
        for part in ("src", "specs"):
            if (TOP / "crates" / name / part).is_dir():
                shutil.copytree(TOP / "crates" / name / part, root / "crates" / name / part)
    lines = (TOP / "crates.txt").read_text()
    for name in programs:
        (root / "crates" / f"beside_{name}" / "src").mkdir(parents=True)
        shutil.copy(HERE / f"{name}.rt.txt", root / "crates" / f"beside_{name}" / "src" / "main.rt")
        lines += f"beside_{name}: nd_shape_and_slice nd_array_core nd_numbers nd_iter nd_linalg nd_numeric\n"
    (root / "crates.txt").write_text(lines)


def try_all(crate, inputs):
    """What a program writes for each input, by `rt try`."""
    with tempfile.TemporaryDirectory() as folder:
        for name, text in inputs.items():
            pathlib.Path(folder, name).write_text(text)
        # (the interpreter is cut off early: one build is enough)
        ran = subprocess.run(["rt", "try", "--seconds", "300", "--steps", "100000", "--cases", folder], cwd=crate, capture_output=True, text=True)
    found = {}
    for line in ran.stdout.splitlines(keepends=True):
        if line.startswith("== "):
            found[line[3:-1]] = []
        else:
            found[list(found)[-1]].append(line)
    lost = sorted({*inputs} - {*found})
    if lost:
        sys.exit(f"no answer of {' '.join(lost[:5])}:\n{ran.stderr[-2000:]}")
    return {name: "".join(lines) for name, lines in found.items()}


def both(peer, crate, cases):
    """What ndarray's program and ours write for lists of cases."""
    lines = [" ".join(map(str, case)) + "\n" for case in cases]
    firsts = range(0, len(lines), CASES_A_RUN)
    parts = {f"{first:06}": "".join(lines[first : first + CASES_A_RUN]) for first in firsts}
    ours = try_all(crate, parts)
    for name, text in parts.items():
        theirs = subprocess.run([peer], input=text, capture_output=True, text=True, check=True).stdout
        yield text.splitlines(), theirs, ours[name]


class Tally:
    """How many comparisons came out well, and those that didn't."""

    def __init__(self):
        self.passed, self.failed, self.told = 0, 0, collections.Counter()

    def judge(self, is_well, case, theirs, ours, told=None):
        if is_well or told:
            self.passed += 1
            self.told.update([told] if told else [])
            return
        self.failed += 1
        if self.failed <= MOST_SHOWN:
            print(f"{case}\n    ndarray: {theirs[:300]}\n    here:    {ours[:300]}")


# ---- scripts


def replies_of(program, crate, texts):
    """What nd_script writes for each script: the built program, if there is one, or that of the crate by `rt try`."""
    if not program:
        return try_all(crate, texts)
    return {name: subprocess.run([program], input=text, capture_output=True, text=True).stdout for name, text in texts.items()}


def first_difference(due, told):
    """The number of the first line that differs, or that one of the two lacks, and that line of both."""
    lines = itertools.zip_longest(due.splitlines(), told.splitlines(), fillvalue="")
    return next(((at, one, other) for at, (one, other) in enumerate(lines) if one != other), (0, "", ""))


def compare_scripts(tally, peer, root, seed, count, program):
    with tempfile.TemporaryDirectory() as folder:
        subprocess.run([peer / "scripts", folder, str(seed), str(count)], check=True)
        texts = {str(nth): pathlib.Path(folder, f"{nth}.script").read_text() for nth in range(count)}
        due = {name: pathlib.Path(folder, f"{name}.due").read_text() for name in texts}
    for name, replies in replies_of(program, root / "crates" / "nd_script", texts).items():
        told = re.sub(r"(?m)^refused \d+$", "refused", replies)
        at, one, other = first_difference(due[name], told)
        # (the first line of a script has no reply)
        tally.judge(told == due[name], "\n".join(texts[name].splitlines()[: at + 2]), one, other)


# ---- texts


def large_lengths(rng):
    """Lengths about those from which entries are left out."""
    left, lengths = rng.choice([300, 520, 700, 1500, 3000]), []
    for _ in range(rng.randrange(1, 6)):
        lengths.append(min(rng.choice([1, 2, 3, 5, 6, 7, 10, 11, 12, 13, 22, 25, 60, 125, 249, 250, 251, 499, 500, 501]), max(left, 1)))
        left //= lengths[-1]
    rng.shuffle(lengths)
    return lengths


def size_of(lengths):
    size = 1
    for length in lengths:
        size *= length
    return size


def text_cases(rng, count):
    """Formats, layouts, dimensions and lengths: all lengths below 4 of up to three axes, and random ones."""
    for lengths in itertools.chain.from_iterable(itertools.product(range(4), repeat=axes) for axes in range(4)):
        for layout, written in itertools.product(range(5), (0, 5)):
            yield written, layout, 0, *lengths
            if lengths:
                yield written, layout, len(lengths), *lengths
    while count > 0:
        lengths = [rng.choice([0, 1, 1, 2, 2, 3, 3, 4, 5]) for _ in range(rng.randrange(7))] if rng.random() < 0.5 else large_lengths(rng)
        layout, fixed = rng.randrange(5), len(lengths) if 1 <= len(lengths) <= 3 and rng.random() < 0.5 else 0
        if size_of(lengths) * (2 ** len(lengths) if layout == 3 else 1) <= 20_000:
            yield rng.randrange(10), layout, fixed, *lengths
            count -= 1


def compare_texts(tally, peer, root, rng, count):
    for cases, theirs, ours in both(peer / "texts", root / "crates" / "beside_texts", [*text_cases(rng, count)]):
        for case, one, other in zip(cases, theirs.split("\n--\n"), ours.split("\n--\n")):
            tally.judge(one == other, f"text {case}", one, other)


# ---- calls on views


def slice_of(rng, length):
    """The start, the end and the step of a slice that fits an axis of this length, and how many coordinates it keeps."""
    start, end = sorted(rng.randrange(length + 1) for _ in range(2))
    step = rng.choice([1, 1, 1, 2, -1, -2, 3])
    from_end = rng.random() < 0.3
    written = NO_END if end == length and rng.random() < 0.5 else end - length if from_end and end < length else end
    return start - length if from_end and start < length else start, written, step, -(-(end - start) // abs(step))


NO_END = -999


def step_of(rng, lengths):
    """A step that can be taken on a view with these lengths, and the lengths after it."""
    axes, after = len(lengths), [*lengths]
    kind = rng.randrange(9) if axes else rng.choice([3, 5, 8])
    axis = rng.randrange(axes) if axes else 0
    if kind == 0:
        *parts, after[axis] = slice_of(rng, lengths[axis])
        return [0, axis, *parts], after
    if kind == 1:
        other = rng.randrange(axes)
        after[axis], after[other] = after[other], after[axis]
        return [1, axis, other], after
    if kind == 2:
        return [2, axis], after
    if kind == 3 and axes < 5:
        axis = rng.randrange(axes + 1)
        after.insert(axis, 1)
        return [3, axis], after
    if kind in (4, 6) and axes and lengths[axis] > 0 and (kind == 6 or axes > 1):
        at = rng.randrange(lengths[axis])
        after[axis : axis + 1] = [1] if kind == 6 else []
        return [kind, axis, at], after
    if kind == 8 and rng.random() < 0.3:
        return [8], [min(lengths, default=1)]
    return [5], after[::-1]


ALONG, OVER_ALL = range(1, 13), range(20, 36)


def arguments(rng, call, lengths):
    """An axis and a number for which the call's condition holds on a view with these lengths, or nothing if there is none."""
    axis = rng.randrange(len(lengths)) if lengths else 0
    length, size, axes = (lengths or [0])[axis], size_of(lengths), len(lengths)
    fits = {6: True, 8: length > 0, 9: length > 0, 11: length > 0, 12: length > 0, 24: size > 0, 25: axes == 1, 26: axes == 2 and lengths[1] > 0}
    fits |= {27: axes > 0 and lengths[0] > 0, 28: axes == 2, 30: axes > 0, 34: size > 0, 35: size > 0}
    if not fits.get(call, True) or call in ALONG and not lengths:
        return None
    if call in (34, 35):
        return axis, rng.choice([first for first in range(1, size + 1) if size % first == 0])
    most = {8: length, 9: length, 11: length, 12: length, 24: size}.get(call, 3)
    return axis, rng.randrange(most) if call in (8, 9, 11, 12, 24) else 1 + rng.randrange(3)


def call_case(rng):
    while True:
        first = lengths = [rng.choice([0, 1, 1, 2, 2, 3, 3, 4, 5]) for _ in range(rng.randrange(5))]
        steps = []
        for _ in range(rng.randrange(4)):
            step, lengths = step_of(rng, lengths)
            steps += step
        call = 20 if rng.random() < 0.3 else rng.choice([*ALONG, *OVER_ALL])
        found = arguments(rng, call, lengths)
        if found:
            merges = [7, *rng.sample(range(len(lengths)), 2)] if call == 20 and len(lengths) > 1 and rng.random() < 0.3 else []
            return call, *found, len(first), *first, *steps, *merges


TAIL = re.compile(r", shape=\[(.*)\], strides=\[(.*)\], layout=.*\Z")


def free_strides(theirs, ours):
    """Whether two texts differ in nothing but strides that lead nowhere: those of axes of length 1, and of arrays without elements."""
    one, other = TAIL.search(theirs), TAIL.search(ours)
    if not one or not other or theirs[: one.start()] != ours[: other.start()] or one[1] != other[1]:
        return False
    lengths, *strides = ([int(it) for it in text.split(",") if it] for text in (one[1], one[2], other[2]))
    return one[2] != other[2] and (0 in lengths or all(a == b for length, a, b in zip(lengths, *strides) if length > 1))


def difference_of_calls(case, theirs, ours):
    """The kind of a difference that the page on decisions tells."""
    if free_strides(theirs, ours):
        return "another stride of an axis of length 1, or of an array without elements"
    if case.startswith("29 ") and theirs == "true Some([]) None" and ours == "true Some([]) Some([])":
        return "`as_slice_memory_order` of an array without elements is None in ndarray and an empty slice here"
    return None


def compare_calls(tally, peer, root, rng, count):
    for cases, theirs, ours in both(peer / "calls", root / "crates" / "beside_calls", [call_case(rng) for _ in range(count)]):
        for case, one, other in itertools.zip_longest(cases, theirs.split("\n--\n")[:-1], ours.split("\n--\n")[:-1], fillvalue=""):
            tally.judge(one == other, f"call {case}", one, other, one != other and difference_of_calls(case, one, other))


# ---- constructors and reshapes


def strides_of(rng, lengths):
    """Strides that reach each place once as a rule: of a permuted order, some negative, and at times anything."""
    order, strides, step = [*range(len(lengths))], [0] * len(lengths), rng.choice([1, 1, 1, 2])
    rng.shuffle(order)
    for axis in order:
        strides[axis] = step * (-1 if rng.random() < 0.15 else 1)
        step *= max(lengths[axis], 1)
    if strides and rng.random() < 0.25:
        strides[rng.randrange(len(strides))] = rng.randrange(-4, 7)
    return strides


def constructor_case(rng):
    lengths = [rng.choice([0, 1, 2, 2, 3, 3, 4]) for _ in range(rng.randrange(5))]
    order = rng.randrange(3)
    strides = strides_of(rng, lengths) if order == 2 else []
    reach = sum((length - 1) * abs(stride) for length, stride in zip(lengths, strides)) + 1 if strides and 0 not in lengths else size_of(lengths)
    count = max(0, reach + rng.choice([0, 0, 0, 0, 1, -1, 3]))
    if rng.random() < 0.03 and lengths:
        lengths[rng.randrange(len(lengths))] = rng.choice([2**62, 2**63 - 1])
    return rng.randrange(3), order, count, len(lengths), *lengths, *strides


def lengths_with(rng, size):
    """Lengths of which the product is this size as a rule."""
    if size == 0 or rng.random() < 0.1:
        return [rng.choice([0, 1, 2, 3, 6]) for _ in range(rng.randrange(1, 4))]
    lengths = []
    while size > 1 and len(lengths) < 4:
        lengths.append(rng.choice([it for it in range(1, size + 1) if size % it == 0]))
        size //= lengths[-1]
    return lengths + ([size] if size > 1 or rng.random() < 0.3 else [])


def reshape_case(rng):
    layout = rng.randrange(6)
    lengths = [rng.choice([0, 1, 1, 2, 2, 3, 3, 4, 6]) for _ in range(rng.randrange(1 if layout == 5 else 0, 5))]
    call = 3 if layout == 5 else rng.choice([3, 3, 4, 5])
    return call, rng.randrange(2), layout, len(lengths), *lengths, *lengths_with(rng, size_of(lengths))


def compare_shapes(tally, peer, root, rng, count):
    cases = [constructor_case(rng) if rng.random() < 0.5 else reshape_case(rng) for _ in range(count)]
    for cases, theirs, ours in both(peer / "shapes", root / "crates" / "beside_shapes", cases):
        for case, one, other in itertools.zip_longest(cases, theirs.splitlines(), ours.splitlines(), fillvalue=""):
            tally.judge(one == other, f"shapes {case}", one, other)


def main():
    takes = argparse.ArgumentParser(description=__doc__.split("\n\n")[0])
    takes.add_argument("sources", type=pathlib.Path)
    for name, count in (("scripts", 2000), ("texts", 3000), ("calls", 5000), ("shapes", 5000), ("seed", 1)):
        takes.add_argument(f"--{name}", type=int, default=count)
    takes.add_argument("--program", type=pathlib.Path)
    asked = takes.parse_args()
    tally, rng = Tally(), random.Random(asked.seed)
    with tempfile.TemporaryDirectory() as folder:
        peer = build_peer(pathlib.Path(folder, "peer"), asked.sources)
        root = pathlib.Path(folder, "repository")
        root.mkdir()
        copy_crates(root, ["texts", "calls", "shapes"])
        if asked.scripts:
            compare_scripts(tally, peer, root, asked.seed, asked.scripts, asked.program and asked.program.resolve())
        if asked.texts:
            compare_texts(tally, peer, root, rng, asked.texts)
        if asked.calls:
            compare_calls(tally, peer, root, rng, asked.calls)
        if asked.shapes:
            compare_shapes(tally, peer, root, rng, asked.shapes)
    for kind, count in tally.told.most_common():
        print(f"{count}: {kind}")
    print(f"{tally.passed} passed, {tally.failed} failed")
    return 1 if tally.failed else 0


if __name__ == "__main__":
    sys.exit(main())
