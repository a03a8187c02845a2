"""Prints one markdown table of microseconds a call, each beside plain Rust's and numpy's, from the driver given as an argument."""

import subprocess
import sys
import time
import timeit

import numpy

ROWS, COLUMNS = 1000, 1000
ROUNDS = 4

# What numpy writes for a call in a case.
FILLS = {"all": "a[...] = 7", "every second column": "a[:, ::2] = 7", "turned": "a.T[...] = 7"}
COPIES = {"all": "a.copy(order='K')", "every second column": "a[:, ::2].copy()", "turned": "a.T.copy(order='K')"}
LISTS = {"all": "a.flatten()", "every second column": "a[:, ::2].flatten()", "turned": "a.T.flatten()"}
COMPARISONS = {"both in row-major order": "numpy.array_equal(a, b)", "in both orders": "numpy.array_equal(a, b.T)"}

PARTS = {"all": "a", "turned": "a.T", "every second row and column backwards": "a[::-2, ::-2]"}
CLOSURES = {"fold": "{0}.sum(dtype={0}.dtype)", "map": "{0} + {0}", "map_inplace": "numpy.add({0}, {0}, out={0})"}

RIGHT_SIDES = {"both in row-major order": "b", "the right side one row": "b[:1]", "the right side in column-major order": "b.T"}
PAIRS = {"zip_mut_with": "numpy.add(a, {0}, out=a)", "assign": "a[...] = {0}"}

# Along an axis, other lengths, and rows that come in: what numpy does for the last is its nearest call, which copies all, after
# a copy into the other order where the array has to be laid anew.
ALONG = {
    "`fold_axis` of `i64`, down the columns": "a.sum(axis=0)",
    "`fold_axis` of `i64`, along the rows": "a.sum(axis=1)",
    "`flatten` of `i64`, turned": "a.T.flatten()",
    "a copy of `i64` in row-major order, and a row appended": "numpy.concatenate((a, a[:1]))",
    "a copy of `i64` in column-major order, and a row appended": "numpy.concatenate((numpy.ascontiguousarray(a.T.copy(order='K')), a[:1]))",
}

# Ten tables joined.
JOINS = {
    "`concatenate` of ten arrays of `i64` of 1000 x 100, along the first axis": "numpy.concatenate(tables)",
    "`concatenate` of ten arrays of `i64` of 1000 x 100, along the second axis": "numpy.concatenate(tables, axis=1)",
    "`stack` of ten arrays of `i64` of 1000 x 100, at the first axis": "numpy.stack(tables)",
    "`stack` of ten arrays of `i64` of 1000 x 100, at the second axis": "numpy.stack(tables, axis=1)",
    "`stack` of ten arrays of `i64` of 1000 x 100, at the third axis": "numpy.stack(tables, axis=2)",
}


def least_of(statement, names):
    return min(timeit.Timer(statement, globals=names, timer=time.process_time).repeat(15, 20)) / 20 * 1e6


def of_numpy():
    times = {}
    for kind in ["u64", "u8"]:
        names = {"a": numpy.zeros((ROWS, COLUMNS), dtype={"u64": numpy.uint64, "u8": numpy.uint8}[kind])}
        for case, statement in FILLS.items():
            times[f"`fill` of `{kind}`, {case}"] = least_of(statement, names)
    for kind in ["i64", "u8"]:
        sums = numpy.add.outer(numpy.arange(ROWS), numpy.arange(COLUMNS)).astype({"i64": numpy.int64, "u8": numpy.uint8}[kind])
        names = {"a": sums, "b": sums.copy(), "numpy": numpy}
        for call, statements in [("to_owned", COPIES), ("to_vec", LISTS), ("==", COMPARISONS)]:
            for case, statement in statements.items():
                times[f"`{call}` of `{kind}`, {case}"] = least_of(statement, names)
        for call, statement in CLOSURES.items():
            for case, part in PARTS.items():
                times[f"`{call}` of `{kind}`, {case}"] = least_of(statement.format(part), names)
        for call, statement in PAIRS.items():
            for case, right in RIGHT_SIDES.items():
                times[f"`{call}` of `{kind}`, {case}"] = least_of(statement.format(right), names)
    chosen = {"a": numpy.zeros((ROWS, COLUMNS), dtype=numpy.int64), "rows": numpy.arange(ROWS)[::-1]}
    times["`select` of 1,000 rows of `i64`"] = least_of("a[rows]", chosen)
    for call, statement in ALONG.items():
        times[call] = least_of(statement, {"a": numpy.ones((ROWS, COLUMNS), dtype=numpy.int64), "numpy": numpy})
    tables = list(numpy.arange(10 * 1000 * 100, dtype=numpy.int64).reshape(10, 1000, 100))
    for call, statement in JOINS.items():
        times[call] = least_of(statement, {"tables": tables, "numpy": numpy})
    owned = {"a": numpy.zeros((ROWS, COLUMNS), dtype=numpy.int64)}
    times["`fill` of `i64`, an owned array"] = least_of("a[...] = 7", owned)
    return times


def table(times, nearest):
    """A line for each call and type of elements: of each case the microseconds here, over plain Rust's, over numpy's."""
    rows = {}
    for name, of in times.items():
        call, _, case = name.partition(", ")
        plain = of["plain"] >= 0.1 and f"{of['here'] / of['plain']:.2f}"
        theirs = name in nearest and f"{of['here'] / nearest[name]:.2f}"
        ratios = f" ({plain or '-'}; {theirs or '-'})" if plain or theirs else ""
        rows.setdefault(call, []).append(f"{case} {of['here']:.{0 if of['here'] >= 100 else 1}f}{ratios}".strip())
    most = max(map(len, rows.values()))
    yield f"| a call of | microseconds here (over plain Rust; over numpy {numpy.__version__}) |" + "|" * (most - 1)
    yield "|---|" + "---|" * most
    for call, cases in rows.items():
        yield f"| {call} | " + " | ".join(cases) + " |" + "|" * (most - len(cases))


def main():
    # In rounds, the least of them: what else goes on in the machine comes and goes.
    times, nearest = {}, {}
    for _ in range(ROUNDS):
        lines = subprocess.run(sys.argv[1:], check=True, capture_output=True, text=True).stdout.splitlines()
        for name, who, microseconds in (line.split("\t") for line in lines):
            of = times.setdefault(name, {})
            of[who] = min(of.get(who, float("inf")), float(microseconds))
        for name, microseconds in of_numpy().items():
            nearest[name] = min(nearest.get(name, float("inf")), microseconds)
    for line in table(times, nearest):
        print(line)


if __name__ == "__main__":
    main()
