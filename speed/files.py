#!/usr/bin/env python3
"""Times the program for `.npy` files beside numpy: an array of 400 MB comes from a pipe, is taken through steps, and goes into a pipe.

    speed/files.py [LABEL=PROGRAM ..]

Each PROGRAM is an nd_npy_program of another tree (its out/nd_npy_program), run beside the one of this tree. All must write the same bytes. Prints
a table of the processor time (the least of five runs, in turns, user and system together) and of the most memory that each process had. Numpy
reads the pipe piece by piece into its array, and writes the array after the steps piece by piece. Wants rt, and a python3 with numpy (the
variable PYTHON can name one).
"""

import hashlib
import os
import pathlib
import subprocess
import sys
import tempfile

TOP = pathlib.Path(__file__).resolve().parent.parent
PYTHON = os.environ.get("PYTHON", "/usr/bin/python3")
RUNS = 5
NUMPY = """
import sys, numpy

class Pipe:
    def __init__(self, file):
        self.read, self.write = getattr(file, "read", None), getattr(file, "write", None)

a = numpy.lib.format.read_array(Pipe(sys.stdin.buffer))
b = {after}
numpy.lib.format.write_array(Pipe(sys.stdout.buffer), b if b.flags.c_contiguous else b.copy("C"), version=(1, 0))
"""
MAKE = "import sys, numpy; numpy.save(sys.argv[1], numpy.arange(50_000_000, dtype='<f8').reshape({shape}))"
# What is done, the shape, the words of the steps, and the same in numpy.
CASES = [
    ("every second column of 10,000 x 5,000", "10_000, 5_000", "cut 1 0 _ 2", "a[:, ::2]"),
    ("the first half of the rows", "10_000, 5_000", "cut 0 0 5000 1", "a[:5000]"),
    ("no step", "10_000, 5_000", "", "a"),
    ("the rows backwards", "10_000, 5_000", "invert 0", "a[::-1]"),
    ("the columns backwards", "10_000, 5_000", "invert 1", "a[:, ::-1]"),
    ("the transpose", "10_000, 5_000", "reverse", "a.T"),
    ("every second row of 25,000,000 x 2", "25_000_000, 2", "cut 0 0 _ 2", "a[::2]"),
]


def built():
    crate = TOP / "crates" / "nd_npy_program"
    ran = subprocess.run(["rt", "run"], cwd=crate, stdin=open(crate / "stdin"), capture_output=True)
    if not (crate / "out" / "nd_npy_program").exists():
        sys.exit(ran.stderr.decode()[-2000:])
    return crate / "out" / "nd_npy_program"


def run(command, file):
    """The seconds of a process between two pipes, the most MiB that it had, and a digest of what it wrote."""
    feed = subprocess.Popen(["cat", file], stdout=subprocess.PIPE)
    took, gives = os.pipe()
    child = subprocess.Popen(command, stdin=feed.stdout, stdout=gives)
    feed.stdout.close()
    os.close(gives)
    digest = hashlib.blake2b()
    with os.fdopen(took, "rb", 0) as output:
        while piece := output.read(1 << 20):
            digest.update(piece)
    feed.wait()
    _, status, usage = os.wait4(child.pid, 0)
    if status:
        sys.exit(f"{command}: status {status}")
    return usage.ru_utime + usage.ru_stime, usage.ru_maxrss / 1024, digest.hexdigest()


def main():
    labels = dict(given.split("=", 1) for given in sys.argv[1:]) | {"here": str(built())}
    print("| 400 MB of `f64` | numpy |", *(f"{label} |" for label in labels))
    print("|---|--:|" + "--:|" * len(labels))
    with tempfile.TemporaryDirectory() as folder:
        for what, shape, words, after in CASES:
            file = f"{folder}/{shape.replace(', ', 'x')}.npy"
            if not os.path.exists(file):
                subprocess.run([PYTHON, "-c", MAKE.format(shape=shape), file], check=True)
            commands = {"numpy": [PYTHON, "-c", NUMPY.format(after=after)]}
            commands |= {label: [program, *words.split()] for label, program in labels.items()}
            found = {label: [] for label in commands}
            for _ in range(RUNS):
                for label, command in commands.items():
                    found[label].append(run(command, file))
            if len({digest for runs in found.values() for _, _, digest in runs}) != 1:
                sys.exit(f"{what}: not the same bytes")
            least = {label: min(seconds for seconds, _, _ in runs) for label, runs in found.items()}
            most = {label: max(memory for _, memory, _ in runs) for label, runs in found.items()}
            cells = [f"{least[label]:.2f} s ({least[label] / least['numpy']:.2f}), {most[label]:.0f} MiB" for label in labels]
            print(f"| {what} | {least['numpy']:.2f} s, {most['numpy']:.0f} MiB |", *(f"{cell} |" for cell in cells), flush=True)


if __name__ == "__main__":
    main()
