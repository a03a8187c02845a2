"""Prints one markdown table of nanoseconds a call over small arrays, each beside plain Rust's, from the driver given as an argument.
With --instructions the table has instructions a call instead, which don't depend on what else the machine does.

    small.py [--instructions] DRIVER small
"""

import re
import subprocess
import sys

ROUNDS = 3
FEW, MORE = 200, 1200


def nanoseconds(driver):
    """The least time of a call by row, here and plain."""
    times = {}
    for _ in range(ROUNDS):
        lines = subprocess.run(driver, check=True, capture_output=True, text=True).stdout.splitlines()
        for name, who, microseconds in (line.split("\t") for line in lines):
            of = times.setdefault(name, {})
            of[who] = min(of.get(who, float("inf")), 1000 * float(microseconds))
    return times


def instructions(driver):
    """The instructions of a call by row, here and plain: what some more calls take more."""
    def counted(name, who, calls):
        words = ["valgrind", "--tool=callgrind", "--callgrind-out-file=/dev/null", *driver, name, who, str(calls)]
        said = subprocess.run(words, check=True, capture_output=True, text=True).stderr
        return int(re.search(r"Collected : (\d+)", said)[1])
    names = subprocess.run(driver, check=True, capture_output=True, text=True).stdout.splitlines()
    names = dict.fromkeys(line.split("\t")[0] for line in names)
    return {name: {who: (counted(name, who, MORE) - counted(name, who, FEW)) / (MORE - FEW) for who in ["here", "plain"]} for name in names}


def main():
    words = sys.argv[1:]
    asked = words[0] == "--instructions"
    found = instructions(words[1:]) if asked else nanoseconds(words)
    rows = {}
    for name, of in found.items():
        row, _, side = name.rpartition(": ")
        rows.setdefault(row, {})[side] = f"{of['here']:.0f} ({of['plain']:.0f})"
    sides = list(dict.fromkeys(side for cells in rows.values() for side in cells))
    print(f"| {'instructions' if asked else 'nanoseconds'} a call (a plain loop) | " + " | ".join(f"{side} x {side}" for side in sides) + " |")
    print("|---|" + "--:|" * len(sides))
    for row, cells in rows.items():
        print(f"| {row} | " + " | ".join(cells[side] for side in sides) + " |")


if __name__ == "__main__":
    main()
