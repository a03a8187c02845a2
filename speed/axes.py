"""Prints one markdown table of microseconds a call along an axis of square arrays, each beside plain Rust's and numpy's, from
the driver given as an argument."""

import time
import timeit

import numpy

import products

CALLS = {
    "fold_axis": "a.sum(axis)",
    "map_axis": "numpy.apply_along_axis(numpy.sum, axis, a)",
    "accumulate_axis_inplace": "numpy.add.accumulate(a, axis, out=a)",
}


def of_numpy(name):
    """The microseconds of numpy's nearest call; none beside a second plain loop."""
    call, _, case = name.partition(": ")
    if " beside " in call:
        return None
    verb = call.split(" of ")[0].strip("`")
    lane, side = case.split(", ")
    _, axis, _, order = lane.split(" ")
    side = int(side)
    array = numpy.ones((side, side), dtype=numpy.int64, order=order)
    number = max(2, min(2000, 4_000_000 // side**2)) if verb != "map_axis" else 2
    timer = timeit.Timer(CALLS[verb], globals={"a": array, "axis": int(axis), "numpy": numpy}, timer=time.process_time)
    return min(timer.repeat(10 if verb != "map_axis" else 3, number)) / number * 1e6


products.of_numpy = of_numpy

if __name__ == "__main__":
    products.main()
