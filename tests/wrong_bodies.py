#!/usr/bin/env python3
"""Tries the wrong bodies that the gate leaves out. The prover must refuse each of them.

    tests/wrong_bodies.py [CRATE ..]

The gate proves a crate a second time if the crate has a folder must-fail. The wrong bodies of nd_array_core and of the crates above it would
cost it too much at every run, so these stand in tests/wrong_bodies/CRATE/NAME.edit, in the format of must-fail. This script copies the crates into a
temporary repository, where each of these files lies in the must-fail folder of its crate, and calls `rt must-fail` for the crates named, or for all that
have such a file. It wants rt, which begins with what `rt check` has proved on this machine, and so takes minutes if the crates were checked
before and an hour if not. The exit status is that of `rt must-fail`: 0 if every wrong body was refused.
"""

import pathlib
import shutil
import subprocess
import sys
import tempfile

TOP = pathlib.Path(__file__).resolve().parent.parent
KEPT = TOP / "tests" / "wrong_bodies"


def copied_to(root):
    """Copies the sources of all crates into a new repository, without their own must-fail folders."""
    for crate in (TOP / "crates").iterdir():
        for part in ("src", "specs", "proofs"):
            if (crate / part).is_dir():
                shutil.copytree(crate / part, root / "crates" / crate.name / part)
    for name in ("crates.txt", "HANDLES"):
        shutil.copy(TOP / name, root)
    subprocess.run(["git", "init", "-q", root], check=True)


def main():
    names = sys.argv[1:] or sorted(folder.name for folder in KEPT.iterdir())
    with tempfile.TemporaryDirectory() as folder:
        root = pathlib.Path(folder)
        copied_to(root)
        for name in names:
            shutil.copytree(KEPT / name, root / "crates" / name / "must-fail")
        return subprocess.run(["rt", "must-fail", *names], cwd=root).returncode


if __name__ == "__main__":
    sys.exit(main())
