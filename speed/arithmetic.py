"""Prints three markdown tables, of arrays of 1000 x 1000, 100 x 100 and 10 x 10: the microseconds of a call of arithmetic, over plain Rust's and
over numpy's, from the driver given as an argument. numpy adds and multiplies floats in pairs and not in order, and its quotient of
integers is rounded down: these are the nearest calls that it has."""

import re
import subprocess
import sys
import time
import timeit

import numpy

ROUNDS = 4
SIDES = ("1000", "100", "10")
ORDERS = ("C", "F", "C and F", "every second")
KINDS = {"i64": numpy.int64, "f64": numpy.float64, "u8": numpy.uint8}
NAME = re.compile(r"`(.*)` of `(\w+)`(?:, axis (\d))?: (.*), (\d+)")

CALLS = {
    "add": "a + b",
    "mul_scalar": "a * x",
    "zip_map": "a + b",
    "zip_map_with_two": "a + b + b",
    "zip_fold": "numpy.einsum('ij,ij->', a, b)",
    "zip_for_each": "numpy.einsum('ij,ij->', a, b)",
    "a += &b": "numpy.add(a, b, out=a)",
    "a *= x": "numpy.multiply(a, x, out=a)",
    "scaled_add": "numpy.add(a, b * x, out=a)",
    "sum": "a.sum(dtype=a.dtype)",
    "product": "a.prod(dtype=a.dtype)",
    "min": "a.min()",
    "max": "a.max()",
    "argmin": "a.argmin()",
    "sum_axis": "a.sum({axis})",
    "mean_axis": "a.mean({axis})",
}
MEANS_OF_INTEGERS = "a.sum({axis}) // a.shape[{axis}]"


def list_of(count, kind):
    """The numbers that the driver has."""
    numbers = numpy.arange(count) * 7919 % 1009
    if kind == "f64":
        return numpy.where(numbers % 2 == 0, 1 + numbers / 1e9, 1 - numbers / 1e9)
    return numbers.astype(KINDS[kind])


def array_of(order, side, kind):
    """An array in an order as the driver names it."""
    array = list_of(side * side, kind).reshape(side, side)
    if order == "every second":
        return array[::-2, ::-2]
    return array if order == "C" else array.T


def of_numpy(call, kind, axis, orders, side):
    """The microseconds of numpy's nearest call."""
    arrays = [array_of(order, side, kind) for order in orders.split(" and ")]
    right = arrays[1] if len(arrays) > 1 else array_of(orders, side, kind)
    names = {"a": arrays[0], "b": right, "x": KINDS[kind](1), "numpy": numpy}
    statement = MEANS_OF_INTEGERS if call == "mean_axis" and kind != "f64" else CALLS[call]
    number = max(2, min(2000, 4_000_000 // side**2))
    timer = timeit.Timer(statement.format(axis=axis), globals=names, timer=time.process_time)
    return min(timer.repeat(8, number)) / number * 1e6


def measured():
    """The least of several rounds, since what else goes on in the machine comes and goes: who made a call, and its microseconds."""
    times = {}
    for _ in range(ROUNDS):
        lines = subprocess.run(sys.argv[1:], check=True, capture_output=True, text=True).stdout.splitlines()
        for name, who, microseconds in (line.split("\t") for line in lines):
            of = times.setdefault(name, {})
            of[who] = min(of.get(who, float("inf")), float(microseconds))
        for name, of in times.items():
            call, kind, axis, orders, side = NAME.fullmatch(name).groups()
            of["numpy"] = min(of.get("numpy", float("inf")), of_numpy(call, kind, axis, orders, int(side)))
    return times


def written(microseconds):
    """Three digits, or all before the point."""
    return f"{microseconds:.0f}" if microseconds >= 100 else f"{microseconds:.3g}"


def table(times, side):
    """A line for each call and type of elements, a column for each order."""
    rows = {}
    for name, of in times.items():
        call, kind, axis, orders, of_side = NAME.fullmatch(name).groups()
        if of_side == side:
            row = f"`{call}` of `{kind}`" + (f", axis {axis}" if axis else "")
            rows.setdefault(row, {})[orders] = f"{written(of['here'])} ({of['here'] / of['plain']:.2f}; {of['here'] / of['numpy']:.2f})"
    yield f"| {side} x {side}: microseconds here (over plain Rust; over numpy {numpy.__version__}) | " + " | ".join(ORDERS) + " |"
    yield "|---|" + "---|" * len(ORDERS)
    for row, cells in rows.items():
        yield f"| {row} | " + " | ".join(cells.get(order, "") for order in ORDERS) + " |"


def main():
    times = measured()
    for side in SIDES:
        print("\n".join(table(times, side)) + "\n")


if __name__ == "__main__":
    main()
