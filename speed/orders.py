"""Times calls over one or two arrays whose axes lie in memory in any order, each by this library, by the best of some plain loops
in Rust, by numpy and, where it is given, by xtensor: all in one process, over the same memory, in turns. A row that misses an aim is
timed again beside the library's own way in plain Rust, and the same with one part of it left out: these tell where the time goes.

    orders.py LIBRARY [--xtensor LIBRARY] [--quick] [--table FILE] [--picture FILE]

Writes the whole table and the rows that miss the aims to the one file, a picture of the ratios to the other, and prints a table of
few rows.
"""

import argparse
import ctypes
import itertools
import time
from dataclasses import dataclass, field

import numpy

from orders_picture import drawn

KINDS = {"i64": numpy.int64, "u8": numpy.uint8}
FORMS = ["slices", "lanes of the left", "lanes of the right", "parts, left", "parts, right"]
LARGE = 1000  # From this side on numpy is not to be faster.
TURNED = 4096  # From so many elements on axes are turned.
SHORT = 512  # Lanes of fewer elements are short.
TINY = 32  # Up to this side a fixed cost of MORE microseconds is allowed where both sides are slices.
MORE = 0.025

# The ways of as_here.rs: the library's own in plain Rust, and what is left out of it or put in.
WAYS = ["as here", "uncut", "shorter", "nested", "plain lanes", "plain both", "wide", "anew"]
INSTEAD = {
    "uncut": "not cut in halves",
    "shorter": "cut to lanes of 128",
    "nested": "from lane to lane by nested loops",
    "wide": "by vectors of 32 bytes",
}
WHY = [
    "Reasons are measured in the same turns as the row. `The same way` is the library's own in plain Rust, by unsafe pointers; behind",
    "it stands what that takes of the best loop (of numpy, where that is the rule) with one part changed, if it then takes at most 0.95:",
    "- not cut in halves, cut to lanes of 128: where to cut is chosen once for elements of all sizes, for arrays that no cache holds;",
    "- nested loops: an index walks from lane to lane, since the number of axes may be known only at run time;",
    "- a lane more here: place and rank of the walk are kept in memory here, the same way in registers;",
    "- memcpy, memcmp: a clone may be refused and `==` is the elements' own, so both are loops here;",
    "- vectors of 32 bytes: this code is compiled for processors without them; numpy chooses as it starts;",
    "- along the left: lanes go along the left side, the one that `assign` writes, in every call and order;",
    "- in order: a vector takes an element behind its last one alone, and the best plain loop writes out of turn;",
    "- what may change read anew: the view that is written, or the vector that is filled, is lent to the loop, so its place in memory",
    "  (or length) is read again after each write, which might have changed it for all that the compiler knows.",
]

# What numpy writes for a call.
CALLS = {
    "assign": lambda a, b: a.__setitem__(..., b),
    "zip_mut_with": lambda a, b: numpy.add(a, b, out=a),
    "==": numpy.array_equal,
    "to_owned": lambda a, b: b.copy(order="K"),
    "to_vec": lambda a, b: b.flatten(),
}
PAIRS = ["assign", "zip_mut_with", "=="]
COPIES = ["to_owned", "to_vec"]


class Side(ctypes.Structure):
    _fields_ = [
        ("items", ctypes.c_void_p),
        ("count", ctypes.c_size_t),
        ("lengths", ctypes.c_size_t * 3),
        ("order", ctypes.c_size_t * 3),
        ("backwards", ctypes.c_bool),
    ]


class Case(ctypes.Structure):
    _fields_ = [
        ("call", ctypes.c_size_t),
        ("axes", ctypes.c_size_t),
        ("bytes", ctypes.c_bool),
        ("left", Side),
        ("right", Side),
    ]


@dataclass(frozen=True)
class Order:
    """The axes as they lie in memory, the nearest one last; and whether each has every second coordinate, from the last one back."""

    name: str
    axes: tuple
    backwards: bool = False

    def stored(self, shape):
        return tuple(shape[axis] * (2 if self.backwards else 1) for axis in self.axes)

    def order(self):
        return tuple(self.axes.index(axis) for axis in range(len(self.axes)))

    def side(self, items, shape):
        stored, order = self.stored(shape), self.order()
        missing = (0,) * (3 - len(shape))
        count = int(numpy.prod(stored))
        return Side(items.ctypes.data, count, (ctypes.c_size_t * 3)(*stored, *missing), (ctypes.c_size_t * 3)(*order, *missing), self.backwards)

    def view(self, items, shape):
        stored = self.stored(shape)
        view = items[: numpy.prod(stored)].reshape(stored).transpose(self.order())
        return view[tuple([slice(None, None, -2)] * len(shape))] if self.backwards else view


C, F, BACK = Order("C", (0, 1)), Order("F", (1, 0)), Order("back", (0, 1), True)
CUBES = [Order("".join(map(str, axes)), axes) for axes in itertools.permutations(range(3))]


@dataclass
class Row:
    call: str
    kind: str
    shape: tuple
    left: Order
    right: Order
    times: dict = field(default_factory=dict)
    beside: dict = field(default_factory=dict)
    form: int = 0
    lanes: int = 1
    memory: str = ""  # The call that does a lane where both sides are slices.

    def orders(self):
        return self.right.name if self.call in COPIES else f"{self.left.name} from {self.right.name}"

    def over(self, who):
        return self.times["here"] / self.times[who] if who in self.times else None

    def most(self):
        """The most of plain Rust that is aimed at."""
        return 1.1 if self.form == 0 and not self.is_tiny() else 1.3

    def misses(self):
        """What the row aims at and misses: 1.1 of plain Rust where places are consecutive and 1.3 elsewhere, 1.0 of numpy from LARGE up. Calls
        over two tiny arrays whose places are consecutive may take some more than plain Rust."""
        if self.form == 0 and self.is_tiny() and self.call in PAIRS:
            if self.times["here"] - self.times["plain"] > MORE:
                yield f"{(self.times['here'] - self.times['plain']) * 1000:.0f} ns more than plain Rust, not {MORE * 1000:.0f}"
        elif self.over("plain") >= self.most() + 0.005:
            yield f"{self.over('plain'):.2f} of plain Rust, not {self.most()}"
        if not self.is_small() and self.over("numpy") >= 1.005:
            yield f"{self.over('numpy'):.2f} of numpy"

    def is_tiny(self):
        return max(self.shape) <= TINY

    def is_small(self):
        return max(self.shape) < LARGE and len(self.shape) == 2

    def reason(self):
        """Where the time of a row goes that misses an aim, by what was measured beside it."""
        here, plain, numpys = (self.beside[who] for who in ["here", "plain", "numpy"])
        if self.elements() < TURNED:
            own = self.beside["own"]
            return f"of its {here:.2f} microseconds {own:.2f} with one element, {(here - own) / self.lanes * 1000:.0f} ns a lane"
        if self.is_small() and here - self.beside["own"] < self.most() * plain:
            return f"the call's own time, {self.beside['own']:.2f} of its {here:.2f} microseconds"
        if self.over("plain") >= self.most() + 0.005:
            return "; ".join(self.causes(plain))
        loop = f"the best plain loop takes {plain / numpys:.2f} of numpy"
        if plain >= 0.995 * numpys and here < 1.1 * plain:
            return loop + self.instead(plain, numpys)
        return "; ".join([loop, *self.causes(plain)])

    def causes(self, plain):
        """What the way costs beside the best plain loop, and what the code costs beside the way."""
        way, here = self.beside["as here"], self.beside["here"]
        yield f"the same way takes {way / plain:.2f} of the best loop" + self.of_the_way(way, plain)
        anew = max(way, self.beside.get("anew", 0))
        if here >= 1.1 * way and anew >= 1.05 * way:
            yield f"what may change read anew {anew / plain:.2f}"
        else:
            anew = way
        if here < 1.1 * anew:
            return
        if self.is_small() and self.lanes == 1:
            yield f"the call takes {here - anew:.2f} of its {here:.2f} microseconds more here"
        elif self.elements() < SHORT * self.lanes:
            yield f"a lane takes {(here - anew) / self.lanes * 1000:.0f} ns of its {here / self.lanes * 1000:.0f} more here"
        else:
            yield f"here {here / anew:.2f} of that"

    def of_the_way(self, way, plain):
        if self.call == "to_vec" and self.form != 0 and way >= 1.1 * plain:
            ordered = min(self.beside[who] for who in ["as here", "nested"] if who in self.beside)
            if ordered >= 1.1 * plain:
                return f", in order by nested loops {self.beside.get('nested', way) / plain:.2f}"
        faster = self.instead(way, plain) if way >= 1.05 * plain else ""
        left = min((self.beside[form] for form in ["lanes of the left", "parts, left"] if form in self.beside), default=plain)
        if self.form in [2, 4] and left >= 1.1 * plain and way >= 0.95 * left:
            faster += f", along the left, as here, the best loop {left / plain:.2f}"
        return faster or (f", which goes by {FORMS[self.form]}" if way >= 1.1 * plain else "")

    def instead(self, time, over):
        """The two least ways that take less than this time, in proportion to another."""
        lanes = self.memory or "lanes as in the plain loops"
        names = INSTEAD | {"plain lanes": lanes, "plain both": f"both by nested loops and {lanes}"}
        least = min(self.beside.get(who, time) for who in names if who != "plain both")
        if self.beside.get("plain both", time) > 0.95 * least:
            names.pop("plain both")
        faster = sorted((self.beside[who], name) for who, name in names.items() if self.beside.get(who, time) <= 0.95 * time)
        return "".join(f", {name} {way / over:.2f}" for way, name in faster[:2])

    def elements(self):
        count = 1
        for length in self.shape:
            count *= length
        return count


def rows(quick):
    sides = [100, 1000, 2048] if quick else [3, 10, 100, 1000, 2048, 4096]
    for kind in KINDS:
        for side in sides:
            for call, left, right in itertools.product(PAIRS, [C, F, BACK], [C, F, BACK]):
                yield Row(call, kind, (side, side), left, right)
            for call, order in itertools.product(COPIES, [C, F, BACK]):
                yield Row(call, kind, (side, side), C, order)
        cubes = [CUBES[0], CUBES[1], CUBES[-1]] if quick else CUBES
        first, others = cubes[0], cubes[1:]
        pairs = [(first, order) for order in cubes] + [(order, first) for order in others]
        for call, (left, right) in itertools.product(PAIRS, pairs):
            yield Row(call, kind, (200, 200, 200), left, right)
        for call, order in itertools.product(COPIES, cubes):
            yield Row(call, kind, (200, 200, 200), first, order)
        for shape in [(4, 1_000_000), (1_000_000, 4)]:
            for call, left, right in itertools.product(PAIRS[:1] if quick else PAIRS, [C, F], [C, F]):
                yield Row(call, kind, shape, left, right)
            for call, order in itertools.product(COPIES, [C, F]):
                yield Row(call, kind, shape, C, order)


class Bench:
    def __init__(self, library, xtensor):
        self.lib = ctypes.CDLL(library)
        self.lib.orders_has_form.restype = ctypes.c_bool
        self.xtensor = xtensor and ctypes.CDLL(xtensor)
        self.lib.orders_has_way.restype = ctypes.c_bool
        self.lib.orders_has_slices.restype = ctypes.c_bool
        self.lib.orders_lanes.restype = ctypes.c_size_t
        for function in [self.lib.orders_here, self.lib.orders_plain, self.lib.orders_as_here] + ([self.xtensor.orders_xtensor] if xtensor else []):
            function.restype = ctypes.c_double
        self.items = {}

    def memory(self, kind, count):
        """The memory of both sides, made anew where more is wanted. All elements are 1, so that any two arrays are equal."""
        if kind not in self.items or self.items[kind][0].size < count:
            self.items = {kind: [numpy.ones(count, dtype=KINDS[kind]) for _ in range(2)]}
        return self.items[kind]

    def measure(self, row, budget):
        """The least times of a call by each, in turns until the budget of seconds is spent."""
        count = max(int(numpy.prod(order.stored(row.shape))) for order in [row.left, row.right])
        left, right = self.memory(row.kind, count)
        left[:count] = 1
        sides = row.left.side(left, row.shape), row.right.side(right, row.shape)
        case = Case(list(CALLS).index(row.call), len(row.shape), row.kind == "u8", *sides)
        a, b = row.left.view(left, row.shape), row.right.view(right, row.shape)
        here = lambda calls: self.lib.orders_here(ctypes.byref(case), ctypes.c_size_t(calls))
        plain = lambda form: lambda calls: self.lib.orders_plain(ctypes.byref(case), ctypes.c_size_t(form), ctypes.c_size_t(calls))
        calls = max(1, min(20_000, int(1000 / min(here(1) for _ in range(2)))))
        forms = [form for form in range(len(FORMS)) if self.lib.orders_has_form(ctypes.byref(case), ctypes.c_size_t(form))]
        row.form = min(forms, key=lambda form: min(plain(form)(calls) for _ in range(2))) if len(forms) > 1 else forms[0]
        makers = {"here": here, "plain": plain(row.form), "numpy": lambda calls: of_numpy(CALLS[row.call], a, b, calls)}
        if self.xtensor:
            makers["xtensor"] = lambda calls: self.xtensor.orders_xtensor(ctypes.byref(case), ctypes.c_size_t(calls))
        self.take_turns(row.times, makers, calls, budget)
        if not list(row.misses()):
            return
        makers.pop("xtensor", None)
        way = lambda number: lambda calls: self.lib.orders_as_here(ctypes.byref(case), ctypes.c_size_t(number), ctypes.c_size_t(calls))
        for number, name in enumerate(WAYS):
            if number == 0 or self.lib.orders_has_way(ctypes.byref(case), ctypes.c_size_t(number)):
                makers[name] = way(number)
        makers |= {FORMS[form]: plain(form) for form in forms if form != row.form}
        row.lanes = self.lib.orders_lanes(ctypes.byref(case))
        if self.lib.orders_has_slices(ctypes.byref(case)):
            row.memory = {"==": "by memcmp", "zip_mut_with": ""}.get(row.call, "by memcpy")
        self.take_turns(row.beside, makers, calls, budget * 2)
        for who in ["here", "plain", "numpy"]:
            row.times[who] = min(row.times[who], row.beside[who])
        if row.is_small():
            row.beside["own"] = self.own_time(row)

    def take_turns(self, times, makers, calls, budget):
        start, turn = time.monotonic(), 0
        while turn < 3 or (turn < 40 and time.monotonic() - start < budget):
            for who, maker in makers.items():
                if who != "xtensor" or turn < 3:
                    times[who] = min(times.get(who, float("inf")), maker(calls))
            turn += 1

    def own_time(self, row):
        """What the call takes beside its elements: with one element; of a run, which may be turned, by a line through two sizes."""
        if row.form != 0 or row.elements() < TURNED:
            return self.least(row, (1, 1), 1000)[0]
        part = tuple(length * 7 // 10 for length in row.shape)
        whole, less = (min(times) for times in zip(*([self.least(row, shape, 10)[0] for shape in [row.shape, part]] for _ in range(20))))
        return min(whole, max(0, whole - (whole - less) / (1 - numpy.prod(part) / row.elements())))

    def least(self, row, shape, calls, ways=()):
        """The least times of the row's call over another shape, here and by ways of as_here.rs."""
        count = max(int(numpy.prod(order.stored(shape))) for order in [row.left, row.right])
        left, right = self.memory(row.kind, count)
        left[:count] = 1
        case = Case(list(CALLS).index(row.call), len(shape), row.kind == "u8", row.left.side(left, shape), row.right.side(right, shape))
        here = [lambda: self.lib.orders_here(ctypes.byref(case), ctypes.c_size_t(calls))]
        makers = here + [lambda way=way: self.lib.orders_as_here(ctypes.byref(case), ctypes.c_size_t(WAYS.index(way)), ctypes.c_size_t(calls)) for way in ways]
        return [min(times) for times in zip(*([maker() for maker in makers] for _ in range(100)))]

    def lane_times(self):
        """Nanoseconds that a lane of bytes takes beside its elements, by a line through four lengths: here, by the same way, by nested loops."""
        lengths = [64, 128, 256, 384]
        for call in PAIRS:
            row = Row(call, "u8", (40, 40, 1), CUBES[0], CUBES[2])
            times = [self.least(row, (40, 40, length), 10, ["as here", "nested"]) for length in lengths]
            yield call, [max(0, numpy.polyfit(lengths, column, 1)[1] / 1600 * 1000) for column in zip(*times)]


def of_numpy(call, a, b, calls):
    start = time.process_time()
    for _ in range(calls):
        call(a, b)
    return (time.process_time() - start) / calls * 1e6


def shown(number):
    return "-" if number is None else f"{number:.0f}" if number >= 100 else f"{number:.1f}" if number >= 1 else f"{number:.3f}"


def ratio(number):
    return "-" if number is None else f"{number:.2f}"


def whole_table(measured, lane_times):
    """The lines of the table of all rows, and of those that miss."""
    yield f"Microseconds of processor time a call, the least of several turns; numpy {numpy.__version__}. F is column-major order; back is"
    yield "every second row and column from the last ones back; 021 names the axes as they lie, the nearest one last. The plain loop is the"
    yield "best of: both as slices; lanes along the left or right side; the same in parts of 128 elements of each lane."
    yield ""
    head = ["call", "of", "shape", "orders", "here", "plain", "the loop", "over plain", "numpy", "over numpy", "xtensor", "over xtensor"]
    lines = [head]
    for row in measured:
        times = [row.times.get(who) for who in ["here", "plain", "numpy", "xtensor"]]
        shape = " x ".join(map(str, row.shape))
        lines.append([row.call, row.kind, shape, row.orders(), shown(times[0]), shown(times[1]), FORMS[row.form], ratio(row.over("plain")),
                      shown(times[2]), ratio(row.over("numpy")), shown(times[3]), ratio(row.over("xtensor"))])
    widths = [max(len(line[at]) for line in lines) for at in range(len(head))]
    left = {0, 1, 2, 3, 6}
    for line in lines:
        yield "  ".join(word.ljust(width) if at in left else word.rjust(width) for at, (word, width) in enumerate(zip(line, widths))).rstrip()
    yield ""
    missing = [(row, list(row.misses())) for row in measured]
    missing = [(row, reasons) for row, reasons in missing if reasons]
    yield from WHY
    yield "Nanoseconds that a lane of bytes takes beside its elements, in the cache, by a line through lengths of 64 to 384:"
    yield "; ".join(
        f"{call} {here:.0f} here, {way:.0f} the same way, {nested:.0f} by nested loops" for call, (here, way, nested) in lane_times) + "."
    yield "The call's own time: what it takes with one element, or where two runs are turned, by a line through two sizes."
    yield ""
    yield f"Rows that miss what is aimed at, {len(missing)} of {len(measured)}:"
    for row, reasons in missing:
        yield f"{row.call} of {row.kind}, {' x '.join(map(str, row.shape))}, {row.orders()}: {'; '.join(reasons)}: {row.reason()}"


def middle(numbers):
    numbers = sorted(number for number in numbers if number is not None)
    return f"{numbers[len(numbers) // 2]:.2f} ({numbers[-1]:.2f})" if numbers else "-"


def short_table(measured):
    """A line for each call and type of elements: the median and the greatest ratio of all rows from LARGE elements a side up."""
    large = [row for row in measured if max(row.shape) >= LARGE or len(row.shape) > 2]
    kinds = [(call, kind) for call in CALLS for kind in KINDS]
    groups = {"two axes, one order": lambda row: row.form == 0, "across orders": lambda row: row.form != 0}
    yield "| median (greatest) | " + " | ".join(f"{group}: over plain | over numpy" for group in groups) + " |"
    yield "|---|" + "--:|" * (2 * len(groups))
    for call, kind in kinds:
        line = []
        for holds in groups.values():
            these = [row for row in large if (row.call, row.kind) == (call, kind) and holds(row)]
            line += [middle(row.over(who) for row in these) for who in ["plain", "numpy"]]
        yield f"| `{call}` of `{kind}` | " + " | ".join(line) + " |"


def main():
    parser = argparse.ArgumentParser()
    parser.add_argument("library")
    parser.add_argument("--xtensor")
    parser.add_argument("--quick", action="store_true")
    parser.add_argument("--table")
    parser.add_argument("--picture")
    given = parser.parse_args()
    bench = Bench(given.library, given.xtensor)
    measured = list(rows(given.quick))
    for row in measured:
        bench.measure(row, 0.2 if given.quick else 0.5)
    if given.table:
        with open(given.table, "w") as out:
            out.writelines(line + "\n" for line in whole_table(measured, list(bench.lane_times())))
    if given.picture:
        with open(given.picture, "w") as out:
            out.write(drawn(measured))
    for line in short_table(measured):
        print(line)
    print(f"{sum(any(row.misses()) for row in measured)} of {len(measured)} rows miss what is aimed at")


if __name__ == "__main__":
    main()
