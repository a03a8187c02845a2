#!/usr/bin/env python3
"""Compares the program for `.npy` files with numpy, byte for byte, and runs it on mutated files.

    tests/npy_beside_numpy.py [ARRAYS [MUTATED [SEED [PROGRAM]]]]

So many random arrays (4,000 unless told), of each kind, byte order, memory order and version of the head, are taken through up to four
random steps by the program and by numpy. The file that is written must be numpy's. Where the word `describe` asks for it, it must be the dict
in the head of numpy's file; for `shape`, what numpy prints of the shape; and for `print`, the text of the elements, as ndarray prints them, or
a refusal if they are floats or complex numbers. For `sum`, `mean`, `min` and `max` it must be the file of what numpy makes of the lanes along an
axis; floats are added in order here, where numpy adds long lanes in pairs, and of floats a NaN counts as greater than all numbers, and the first
of 0 and -0 is kept. Where numpy's rules refuse a step, the program must end with status 1, a line that names this
step, and no output. Then so many files with a mutated head or end (20,000 unless told) are read by
both. Where both accept one, the arrays must be the same. Where only one of them does, the reason is counted: numpy takes heads that the
program refuses by its README, and the other way round none may be but those listed in TAKEN. Prints these counts, and last `N passed, M
failed`. Without a PROGRAM it is built by `rt run`, which first proves what isn't proved yet. It wants numpy 1.24.
"""

import collections
import concurrent.futures
import io
import pathlib
import random
import re
import subprocess
import sys
import warnings

import numpy

CRATE = pathlib.Path(__file__).resolve().parent.parent / "crates" / "nd_npy_program"
NAME = b"nd_npy_program: "
KINDS = ["b1", "i1", "u1", "i2", "i4", "i8", "u2", "u4", "u8", "f2", "f4", "f8", "c8", "c16"]
# What the program takes and numpy doesn't: a length with a leading zero, which no Python text of a number has.
TAKEN = [re.compile(rb"[(, ]0[0-9]")]


def built():
    """The program, as `rt run` builds it."""
    file = saved(numpy.zeros(1, "<i2"))
    ran = subprocess.run(["rt", "run"], cwd=CRATE, input=file, capture_output=True)
    if ran.stdout != file:
        sys.exit(f"rt run: {ran.stdout!r} {ran.stderr.decode()[-2000:]}")
    return CRATE / "out" / "nd_npy_program"


def saved(array, version=(1, 0)):
    """The file that numpy writes."""
    file = io.BytesIO()
    with warnings.catch_warnings():
        warnings.simplefilter("ignore")
        numpy.lib.format.write_array(file, array, version=version, allow_pickle=False)
    return file.getvalue()


def loaded(file):
    """The array that numpy reads, or None."""
    with warnings.catch_warnings():
        warnings.simplefilter("ignore")
        try:
            array = numpy.lib.format.read_array(io.BytesIO(file), allow_pickle=False)
        except Exception:
            return None
    return array


def run_by(program, words, file):
    ran = subprocess.run([program, *words], input=file, capture_output=True)
    return ran.returncode, ran.stdout, ran.stderr


# ---- steps, as words and by numpy

class Refused(Exception):
    pass


def need(holds):
    if not holds:
        raise Refused


def bound(length, at):
    place = at if at >= 0 else at + length
    need(0 <= place <= length)
    return place


def sliced(array, axis, start, end, step):
    length = array.shape[axis]
    need(step != 0)
    low = bound(length, start)
    high = max(low, length if end is None else bound(length, end))
    part = numpy.moveaxis(array, axis, 0)[low:high]
    part = part[::step] if step > 0 else part[::-1][::-step]
    return numpy.moveaxis(part, 0, axis)


def taken_at(array, axis, index):
    return numpy.moveaxis(array, axis, 0)[index, ...]


def by_list(array, elements):
    reading = [element for element in elements if element is not None]
    need(len(reading) == array.ndim)
    need(sum(not isinstance(element, int) for element in elements) <= 32)
    axis = 0
    for element in elements:
        if element is None:
            array = numpy.expand_dims(array, axis)
            axis += 1
        elif isinstance(element, int):
            need(-array.shape[axis] <= element < array.shape[axis])
            array = taken_at(array, axis, element)
        else:
            array = sliced(array, axis, *element)
            axis += 1
    return array


def squeezed(array):
    kept = [length for length in array.shape if length != 1] or ([1] if array.ndim else [])
    return array.reshape(kept)


def diagonal(array):
    count = min(array.shape, default=1)
    return numpy.array([array[(i,) * array.ndim] for i in range(count)], array.dtype)


def broadcast(array, lengths):
    need(len(lengths) <= 32)
    try:
        return numpy.broadcast_to(array, lengths)
    except ValueError:
        raise Refused


def end_word(end):
    return "_" if end is None else str(end)


class Steps:
    """Random steps, some of which don't fit."""

    def __init__(self, rng):
        self.rng = rng

    def axis(self, array, more=0):
        return self.rng.randrange(array.ndim + more) if array.ndim + more and self.rng.random() < 0.95 else self.rng.randrange(6)

    def slice(self, length):
        end = None if self.rng.random() < 0.4 else self.rng.randint(-length, length)
        off = self.rng.random() < 0.02
        return self.rng.randint(-length - off, length + off), end, self.rng.choice([-3, -2, -1, -1, 1, 1, 1, 2, 3] + [0] * off)

    def index(self, length):
        return self.rng.randrange(length) if length and self.rng.random() < 0.95 else length

    def step(self, array):
        """The words of a step, and what numpy makes of it, or None where the step doesn't fit."""
        ways = [self.cut, self.list, self.one, self.order, self.axes, self.plain, self.wide, self.chosen, self.regrouped]
        words, take = self.rng.choice(ways)(array)
        try:
            return words, take()
        except (Refused, IndexError, ValueError, numpy.AxisError):
            return words, None

    def length(self, array, axis):
        return array.shape[axis] if axis < array.ndim else 2

    def cut(self, array):
        axis = self.axis(array)
        start, end, step = self.slice(self.length(array, axis))
        words = f"cut {axis} {start} {end_word(end)} {step}"
        return words, lambda: sliced(array, axis, start, end, step)

    def list(self, array):
        elements, words = [], []
        for length in array.shape if self.rng.random() < 0.95 else array.shape[1:]:
            if self.rng.random() < 0.2:
                elements.append(None)
                words.append("n")
            if self.rng.random() < 0.4:
                elements.append(self.index(length) - (length if self.rng.random() < 0.3 else 0))
                words.append(f"i {elements[-1]}")
            else:
                elements.append(self.slice(length))
                start, end, step = elements[-1]
                words.append(f"s {start} {end_word(end)} {step}")
        return " ".join(["slice", str(len(elements)), *words]), lambda: by_list(array, elements)

    def one(self, array):
        axis = self.axis(array)
        index = self.index(self.length(array, axis))
        kind = self.rng.choice(["collapse", "index", "remove"])
        if kind == "remove":
            return f"remove {axis}", lambda: taken_at(array, axis, 0)
        if kind == "index":
            return f"index {axis} {index}", lambda: taken_at(array, axis, index)
        return f"collapse {axis} {index}", lambda: numpy.expand_dims(taken_at(array, axis, index), axis)

    def order(self, array):
        axes = list(range(array.ndim))
        self.rng.shuffle(axes)
        if axes and self.rng.random() < 0.05:
            axes[0] = axes[-1] + (array.ndim == 1)

        def take():
            need(sorted(axes) == list(range(array.ndim)))
            return array.transpose(axes)

        return " ".join(map(str, ["permute", len(axes), *axes])), take

    def axes(self, array):
        a, b = self.axis(array), self.axis(array)
        kind = self.rng.choice(["swapaxes", "invert", "insert"])
        if kind == "swapaxes":
            return f"swapaxes {a} {b}", lambda: numpy.swapaxes(array, a, b)
        if kind == "invert":
            return f"invert {a}", lambda: numpy.flip(array, a)
        a = self.axis(array, 1)
        return f"insert {a}", lambda: numpy.expand_dims(array, a)

    def plain(self, array):
        return self.rng.choice([("reverse", lambda: array.T), ("squeeze", lambda: squeezed(array)), ("diag", lambda: diagonal(array))])

    def wide(self, array):
        lengths = [self.rng.randint(1, 3) if length == 1 else length for length in array.shape]
        lengths = [self.rng.randint(1, 2) for _ in range(self.rng.randrange(2))] + lengths
        if lengths and self.rng.random() < 0.1:
            lengths[-1] += 1
        return " ".join(map(str, ["broadcast", len(lengths), *lengths])), lambda: broadcast(array, lengths)


    def chosen(self, array):
        axis = self.axis(array)
        indexes = [self.index(self.length(array, axis)) for _ in range(self.rng.randrange(4))]

        def take():
            need(axis < array.ndim and all(index < array.shape[axis] for index in indexes))
            return numpy.take(array, numpy.array(indexes, int), axis)

        return " ".join(map(str, ["select", axis, len(indexes), *indexes])), take

    def regrouped(self, array):
        lengths = list(array.shape)
        for _ in range(self.rng.randrange(3)):
            at = self.rng.randrange(len(lengths) + 1)
            if at + 1 < len(lengths) and self.rng.random() < 0.5:
                lengths[at : at + 2] = [lengths[at] * lengths[at + 1]]
            elif at < len(lengths) and lengths[at] > 1:
                factor = self.rng.choice([k for k in range(1, lengths[at] + 1) if lengths[at] % k == 0])
                lengths[at : at + 1] = [factor, lengths[at] // factor]
            else:
                lengths[at:at] = [1]
        if lengths and self.rng.random() < 0.1:
            lengths[-1] += 1

        def take():
            need(len(lengths) <= 32 and numpy.prod(lengths, dtype=int) == array.size)
            return array.reshape(lengths)

        return " ".join(map(str, ["reshape", len(lengths), *lengths])), take


def printed(array):
    """The text of an array of integers or truth values, as ndarray prints it."""
    if array.size == 0:
        return "[" * array.ndim + "]" * array.ndim

    def part(depth, array):
        if array.ndim == 0:
            return str(array[()]).lower()
        inner = array.ndim - 1
        between = ", " if inner == 0 else "," + "\n" * inner + " " * (depth + 1)
        limit = 11 if inner < 2 else 6
        if whole or len(array) <= limit:
            return "[" + between.join(part(depth + 1, item) for item in array) + "]"
        ends = [part(depth + 1, item) for item in [*array[: limit // 2], *array[-(limit // 2) :]]]
        return "[" + between.join([*ends[: limit // 2], "...", *ends[limit // 2 :]]) + "]"

    whole = array.size < 500
    return part(0, array)


def in_order(lanes, plus, first=None):
    """What `plus` makes of the parts of an array along its first axis, one after another."""
    total = numpy.zeros(lanes.shape[1:], lanes.dtype) if first is None else first
    for lane in lanes if first is None else lanes[1:]:
        total = plus(total, lane)
    return total


def first_end(name):
    """The lesser or the greater of two floats, the first if they are equal; a NaN is greater than all numbers."""

    def end(one, other):
        if name == "min":
            return numpy.where((other < one) | (numpy.isnan(one) & ~numpy.isnan(other)), other, one)
        return numpy.where((other > one) | (numpy.isnan(other) & ~numpy.isnan(one)), other, one)

    return end


def reduced(array, name, axis):
    """The array of what is made of the lanes along an axis, or the text of why it isn't."""
    if axis >= array.ndim:
        return f"there is no axis {axis}, because the number of axes is {array.ndim}"
    if array.shape[axis] == 0 and name != "sum":
        return f"there are no elements along axis {axis}"
    if array.dtype.kind == "c" or array.dtype.str[1:] == "f2":
        return f"elements of the kind {array.dtype.str[1:]} can't be reduced"
    if array.dtype.kind != "f" and name != "mean":
        return numpy.asarray(getattr(array, name)(axis=axis))
    lanes = numpy.moveaxis(array, axis, 0)
    lanes = lanes.astype(lanes.dtype.newbyteorder("=") if lanes.dtype.kind == "f" else numpy.float64)
    with numpy.errstate(all="ignore"):
        if name in ("min", "max"):
            made = in_order(lanes, first_end(name), lanes[0])
            if not numpy.isnan(lanes).any() and not (made == 0).any():
                assert numpy.array_equal(made, getattr(array, name)(axis=axis))
        else:
            made = in_order(lanes, numpy.add)
            made = made if name == "sum" else made / lanes.dtype.type(len(lanes))
    made = numpy.array(made, lanes.dtype)
    made[numpy.isnan(made)] = numpy.nan
    return made


def random_array(rng):
    kind = rng.choice(KINDS)
    mark = rng.choice("<>") if kind[1:] != "1" else "|"
    shape = [rng.choice([0, 1, 1, 2, 2, 3, 4, 5]) if rng.random() < 0.3 else rng.randint(1, 4) for _ in range(rng.choice([0, 1, 1, 2, 2, 3, 3, 4]))]
    dtype = numpy.dtype(mark + kind)
    count = int(numpy.prod(shape, dtype=int))
    data = bytes(rng.randrange(2) for _ in range(count)) if kind == "b1" else rng.randbytes(count * dtype.itemsize)
    return numpy.ndarray(shape, dtype, data, order=rng.choice("CF"))


def as_bytes(array):
    """The dtype, the shape and the elements' bytes in row-major order; a NaN keeps its bits."""
    return array.dtype.str, array.shape, array.tobytes()


def turn(program, seed):
    """What differs for one random array, or an empty text; and whether a step was refused."""
    rng = random.Random(seed)
    array = random_array(rng)
    file = saved(array, rng.choice([(1, 0), (1, 0), (2, 0), (3, 0)]))
    steps, words, made, number = Steps(rng), [], array, 0
    for _ in range(rng.randrange(5)):
        number += 1
        step, made = steps.step(made)
        words += step.split()
        if made is None:
            break
    asked = rng.choice(["describe", "shape", "print", "print"]) if rng.random() < 0.3 else ""
    along = rng.choice(["sum", "mean", "min", "max"]) if not asked and rng.random() < 0.6 else ""
    axis = steps.axis(made) if along and made is not None else 0
    asked = f"{along} {axis}" if along else asked
    lanes = reduced(made, along, axis) if along and made is not None else None
    status, output, errors = run_by(program, asked.split() + words, file)
    if made is None:
        right = status == 1 and output == b"" and errors.startswith(NAME + b"step %d: " % number) and errors.count(b"\n") == 1
    elif isinstance(lanes, str):
        right = status == 1 and output == b"" and errors == NAME + lanes.encode() + b"\n"
    elif along:
        right = status == 0 and errors == b"" and output == saved(numpy.array(lanes, order="C", copy=True))
    elif asked == "print" and made.dtype.kind in "fc":
        line = NAME + f"elements of the kind {made.dtype.str[1:]} can't be printed\n".encode()
        right = status == 1 and output == b"" and errors == line
    else:
        whole = saved(numpy.array(made, order="C", copy=True))
        texts = {"": whole, "describe": whole[10 : len(whole) - made.nbytes], "shape": f"{made.shape}\n".encode()}
        due = texts[asked] if asked in texts else (printed(made) + "\n").encode()
        right = status == 0 and errors == b"" and output == due
        if right and asked == "" and as_bytes(loaded(output)) != as_bytes(made):
            right = False
    told = "" if right else f"{array.dtype.str} {array.shape} {asked} {' '.join(words)}: status {status} {errors.decode()!r} {output[:200]!r}"
    return told, made is None


# ---- mutated files

def mutated(rng):
    array = random_array(rng)
    file = bytearray(saved(array, rng.choice([(1, 0), (1, 0), (2, 0), (3, 0)])))
    start = len(file) - array.nbytes
    for _ in range(rng.choice([1, 1, 1, 2, 3])):
        at = rng.randrange(min(len(file), start + 4)) if file else 0
        way = rng.randrange(4)
        if way == 0 and file:
            file[at] = rng.choice(b"{}(),:'\" <>|=0123456789bifucSUOVTrueFalsL\n\t\x00") if rng.random() < 0.8 else rng.randrange(256)
        elif way == 1:
            file[at:at] = bytes([rng.choice(b" ,'0123456789\n")])
        elif way == 2:
            del file[at : at + rng.choice([1, 1, 2, 8])]
        else:
            del file[len(file) - rng.randrange(min(len(file), 20) + 1) :]
    return bytes(file)


def read_by_both(program, seed):
    """A kind of outcome, and a text for one that isn't right."""
    rng = random.Random(seed)
    file = mutated(rng)
    status, output, errors = run_by(program, [], file)
    theirs = loaded(file)
    if status not in (0, 1) or (status == 1) != (output == b"") or (status == 1) != errors.startswith(NAME):
        return "no such end", f"{file[:200]!r}: status {status} {errors!r}"
    if status == 0 and theirs is not None:
        ours = loaded(output)
        same = ours is not None and as_bytes(ours) == as_bytes(theirs)
        return "both accept", "" if same else f"{file[:200]!r}: {output[:200]!r}"
    if status == 1 and theirs is None:
        return "both refuse", ""
    if status == 1:
        cause = re.sub(rb"byte \d+: ", b"", errors[len(NAME) :]).decode().strip()
        cause = re.sub(r"\d+ bytes", "so many bytes", cause)
        return f"numpy alone accepts: {cause}", ""
    taken = any(known.search(file[:128]) for known in TAKEN)
    return "the program alone accepts", "" if taken else f"{file[:200]!r}"


def main():
    given = sys.argv[1:]
    arrays, files, seed = (int(given[k]) if len(given) > k else other for k, other in enumerate([4000, 20000, 1]))
    program = given[3] if len(given) > 3 else built()
    passed, failed = 0, []
    with concurrent.futures.ThreadPoolExecutor(2) as pool:
        refused = 0
        for told, was_refused in pool.map(lambda k: turn(program, f"{seed} array {k}"), range(arrays)):
            refused += was_refused
            passed += not told
            failed += [told] if told else []
        print(f"{arrays} arrays, of which {refused} meet a step that is refused")
        kinds = collections.Counter()
        for kind, told in pool.map(lambda k: read_by_both(program, f"{seed} file {k}"), range(files)):
            kinds[kind] += 1
            passed += not told
            failed += [f"{kind}: {told}"] if told else []
    print(f"{files} mutated files")
    for kind, count in kinds.most_common():
        print(f"{count:8} {kind}")
    for told in failed[:40]:
        print(told)
    print(f"{passed} passed, {len(failed)} failed")
    sys.exit(bool(failed))


if __name__ == "__main__":
    main()
