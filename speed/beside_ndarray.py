#!/usr/bin/env python3
"""Times calls of the library beside ndarray itself, and prints one markdown table.

    speed/beside_ndarray.py SOURCES [FOLDER]

SOURCES is a folder that has the sources of ndarray 0.17.2 and of the crates below it, as tests/beside_ndarray.py takes it. With a FOLDER
that library.sh has left libnd_speed.a in, it builds no library. Each cell has the time that one call takes here, in nanoseconds or microseconds,
and in brackets its ratio to ndarray's call. Wants rt and cargo, and no network.
"""

import pathlib
import shutil
import subprocess
import sys
import tempfile

HERE = pathlib.Path(__file__).resolve().parent
ROUNDS = 3
MANIFEST = """[package]
name = "beside"
version = "0.1.0"
edition = "2024"
[dependencies]
ndarray = "=0.17.2"
[[bin]]
name = "beside"
path = "beside_ndarray/main.rs"
"""


def build(folder, sources, library):
    """Builds the driver, and returns its path."""
    shutil.copytree(HERE / "beside_ndarray", folder / "beside_ndarray")
    shutil.copy(HERE / "runtime.rs", folder)
    (folder / "Cargo.toml").write_text(MANIFEST)
    (folder / ".cargo").mkdir()
    flags = f'["-C", "target-cpu=x86-64-v2", "-L", "native={library}", "-l", "static=nd_speed"]'
    settings = f'[build]\nrustflags = {flags}\n[source.crates-io]\nreplace-with = "local"\n[source.local]\ndirectory = "{sources}"\n'
    (folder / ".cargo" / "config.toml").write_text(settings)
    subprocess.run(["cargo", "build", "-q", "--release", "--offline"], cwd=folder, check=True)
    return folder / "target" / "release" / "beside"


def shown(theirs, here):
    time = f"{here * 1000:.0f} ns" if here < 1 else f"{here:.0f} µs"
    return f"{time} ({here / theirs:.2f})"


def main():
    sources = pathlib.Path(sys.argv[1]).resolve()
    times = {}
    with tempfile.TemporaryDirectory() as made:
        folder = pathlib.Path(made)
        library = pathlib.Path(sys.argv[2]).resolve() if len(sys.argv) > 2 else folder
        if library == folder:
            subprocess.run([HERE / "library.sh", folder], check=True)
        driver = build(folder, sources, library)
        for _ in range(ROUNDS):
            for line in subprocess.run([driver], check=True, capture_output=True, text=True).stdout.splitlines():
                name, side, *both = line.split("\t")
                of = times.setdefault(name, {}).setdefault(int(side), [float("inf")] * 2)
                of[:] = map(min, of, map(float, both))
    sides = sorted({side for of in times.values() for side in of})
    print("| one call here (over ndarray 0.17.2) | " + " | ".join(f"{side} x {side}" for side in sides) + " |")
    print("|---|" + "--:|" * len(sides))
    for name, of in times.items():
        print(f"| {name} | " + " | ".join(shown(*of[side]) if side in of else "" for side in sides) + " |")


if __name__ == "__main__":
    main()
