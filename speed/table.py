"""Prints one markdown table of nanoseconds a call: each driver's, given as LABEL=PROGRAM, beside numpy's nearest calls."""

import statistics
import subprocess
import sys
import time
import timeit

import numpy

COLUMNS = {"Ix2": "`Ix2`", "2": "`IxDyn`, 2 axes", "4": "4", "8": "8", "16": "16", "32": "32"}

# What numpy writes for a call. The tests of a call's conditions are part of each.
NUMPY = {
    "slice_axis": "a[1::2]",
    "permuted_axes": "a.transpose(order)",
    "slice": "a[bounds]",
    "split_at": "(a[:2], a[2:])",
    "broadcast": "numpy.broadcast_to(narrow, shape)",
    "multi_slice_mut": "(a[even], a[odd])",
    "slices_intersect": "numpy.shares_memory(part, a)",
}

NOTES = {
    "multi_slice_mut": "`multi_slice_mut`, with its tests",
    "fits": "`SliceArg::fits`",
}


def case_of(ndim):
    """The array and arguments of driver.rs."""
    shape = tuple(6 if k == 0 else 4 if k == 1 else 2 if k < 12 else 1 for k in range(ndim))
    a = numpy.arange(numpy.prod(shape), dtype=numpy.uint64).reshape(shape)
    whole = [slice(None)] * ndim
    bounds = tuple(slice(1, None, 2) if k == 0 else slice(None, None, -1 if k % 2 else 1) for k in range(ndim))
    even = tuple([slice(0, None, 2)] + whole[1:])
    odd = tuple([slice(1, None, 2)] + whole[1:])
    return {
        "numpy": numpy, "a": a, "shape": shape, "narrow": a[:1], "order": tuple(range(ndim))[::-1],
        "bounds": bounds, "even": even, "odd": odd, "part": a[bounds],
    }


def median_of(statement, names):
    timer = timeit.Timer(statement, globals=names, timer=time.process_time)
    calls = 64
    while timer.timeit(calls) < 0.002:
        calls *= 2
    empty = timeit.Timer("pass", timer=time.process_time)
    loop = statistics.median(empty.repeat(9, calls)) / calls
    return (statistics.median(timer.repeat(9, calls)) / calls - loop) * 1e9


def of_numpy():
    times = {}
    for column in COLUMNS:
        names = case_of(int(column.removeprefix("Ix")))
        for call, statement in NUMPY.items():
            times[call, column] = median_of(statement, names)
    return times


def of_driver(program):
    lines = subprocess.run([program], check=True, capture_output=True, text=True).stdout.splitlines()
    parts = [line.split("\t") for line in lines]
    return {(call, column): float(ns) for call, column, ns in parts}


def shown(ns):
    return "" if ns is None else f"{ns:.1f}" if ns < 100 else f"{ns:.0f}"


def table(sources, theirs):
    """A line for each call and library: nanoseconds at each dimension, and numpy's in brackets."""
    calls = list(dict.fromkeys(call for _, times in sources for call, _ in times))
    several = len(sources) > 1
    yield f"| ns a call (numpy {numpy.__version__}) |" + (" |" if several else "") + f" {' | '.join(COLUMNS.values())} |"
    yield "|---|" + "---|" * several + "--:|" * len(COLUMNS)
    for call in calls:
        for label, times in sources:
            name = NOTES.get(call, f"`{call}`") + (f" | {label}" if several else "")
            cells = [shown(times.get((call, column))) for column in COLUMNS]
            beside = [shown(theirs.get((call, column))) for column in COLUMNS]
            row = [f"{ours} ({numpys})" if ours and numpys else ours for ours, numpys in zip(cells, beside)]
            yield f"| {name} | " + " | ".join(row) + " |"


def main():
    sources = [(label, of_driver(program)) for label, program in (argument.split("=", 1) for argument in sys.argv[1:])]
    for line in table(sources, of_numpy()):
        print(line)


if __name__ == "__main__":
    main()
