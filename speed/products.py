"""Prints one markdown table of microseconds a call of iterators and products, each beside plain Rust's and numpy's, from the
driver given as an argument."""

import subprocess
import sys
import time
import timeit

import numpy

ROUNDS = 3


def product_of(side):
    """Two matrices of a side, a vector, and their elements as one list."""
    left = numpy.arange(side * side, dtype=numpy.int64).reshape(side, side)
    return {"a": left, "b": left * 7, "x": numpy.arange(side, dtype=numpy.int64), "l": left.ravel(), "r": (left * 7).ravel()}


def of_numpy(name):
    """The microseconds of numpy's nearest call; none for loops over elements."""
    call, _, case = name.partition(": ")
    calls = {"`matrix_dot` of `i64`": "a @ b", "`matrix_dot_vector` of `i64`": "a @ x", "`dot` of `i64`": "l @ r"}
    if call not in calls:
        return None
    side = int(case.split(" ")[0])
    number = max(1, min(2000, 1_000_000 // side**2 if call != "`matrix_dot` of `i64`" else 2_000_000 // side**3))
    timer = timeit.Timer(calls[call], globals=product_of(side), timer=time.process_time)
    return min(timer.repeat(3, number)) / number * 1e6


def main():
    times, nearest = {}, {}
    for _ in range(ROUNDS):
        lines = subprocess.run(sys.argv[1:], check=True, capture_output=True, text=True).stdout.splitlines()
        for name, who, microseconds in (line.split("\t") for line in lines):
            of = times.setdefault(name, {})
            of[who] = min(of.get(who, float("inf")), float(microseconds))
        for name in times:
            found = of_numpy(name)
            if found is not None:
                nearest[name] = min(nearest.get(name, float("inf")), found)
    rows = {}
    for name, of in times.items():
        row, _, case = name.partition(": ")
        beside = f"{of['here'] / nearest[name]:.2f}" if name in nearest else "-"
        rows.setdefault(row, []).append(f"{case} {of['here']:.3g} ({of['here'] / of['plain']:.2f}; {beside})")
    print(f"| a call of | microseconds here (over plain Rust; over numpy {numpy.__version__}) |")
    print("|---|---|")
    for row, cases in rows.items():
        print(f"| {row} | " + " | ".join(cases) + " |")


if __name__ == "__main__":
    main()
