#!/usr/bin/env python3
"""tests/check_over_sources.py CRATE --only MODULE [FLAG..]

Checks a crate over the sources of the libraries that it stands on, so that none of them has to be proved first. It is meant for work on a crate
above nd_array_core where no library has been built yet, which takes most of an hour. Flags are handed on to the prover: for example

    tests/check_over_sources.py nd_iter --only outer_axis

checks the functions of the module outer_axis, and those that they call. A module or a function has to be named, since otherwise the prover would
check every function of every library below, some two thousand, which takes hours. The first check takes some minutes, as it reads the definitions and lemmas
of all the libraries; later ones begin with what it kept in the crate's folder out/over_sources. It is no gate: of the libraries it checks only
what these functions call, and whoever lands the change runs `rt ci`.
"""
import os
import pathlib
import shutil
import sys

TOP = pathlib.Path(__file__).resolve().parent.parent


def stands_on():
    """The libraries that each crate stands on, by crates.txt."""
    lines = [line.split(":") for line in open(TOP / "crates.txt") if ":" in line and line[0] != "#"]
    return {before.split()[0]: after.split() for before, after in lines}


def flags_of(name, below, kit):
    """Returns the flags that name each library below the crate, the lowest first: those of the toolchain as built, those of this repository as sources."""
    flags = {}

    def add(library):
        if library in flags:
            return
        if library not in below:
            flags[library] = ["--extern", f"{library}={kit}/rlibs/{library}.rlib"]
            return
        for lower in below[library]:
            add(lower)
        uses = ",".join(["std", *below[library]])
        flags[library] = ["--lib", f"{library}:{uses}=../{library}/src/lib.rt"]

    for library in ["std", *below[name]]:
        add(library)
    return [word for words in flags.values() for word in words]


def main():
    if len(sys.argv) < 2 or sys.argv[1].startswith("-") or not any(word.startswith("--only") for word in sys.argv):
        sys.exit(__doc__)
    name, kit = sys.argv[1], pathlib.Path(shutil.which("rt")).resolve().parent.parent
    folder = TOP / "crates" / name
    kept = folder / "out" / "over_sources"
    kept.mkdir(parents=True, exist_ok=True)
    os.chdir(folder)
    root = "src/main.rt" if (folder / "src" / "main.rt").exists() else "src/lib.rt"
    logic = ["--antt-project", f"{kit}/rattle/logic/antt-project.json", "--logic-built", f"{kit}/logic_built"]
    words = [f"{kit}/bin/rattle", "check", "--crate-name", name, root, *flags_of(name, stands_on(), kit), "-L", f"dependency={kit}/rlibs"]
    os.execv(words[0], [*words, *logic, "--links", f"{name}=", "--incremental", str(kept), *sys.argv[2:]])


if __name__ == "__main__":
    main()
