#!/usr/bin/env python3
"""speed/constants.py [CONSTANT ..]

Times the way that the library goes over two arrays, or lists one, in plain Rust (as_here.rs) with other values of its constants: a
line for each shape has the microseconds of a call under each value, and in brackets the time over that of the value in the middle, which
is the library's. Both arrays lie in row-major order (C) or in column-major order (F). Wants rustc alone.
"""

import ctypes
import pathlib
import random
import re
import subprocess
import sys
import tempfile

HERE = pathlib.Path(__file__).resolve().parent
CALLS = {"assign": 0, "zip_mut_with": 1, "to_vec": 4}
ROUNDS = 5
VALUES = {
    "NEAR": [1024, 8192, 65536],
    "LARGE": [1024, 4096, 16384],
    "SHORT": [4, 16, 64],
    "ROW": [128, 512, 2048],
    "LONG": [256, 512, 1024],
    "LINE": [16, 64, 128],
    "FEW": [131072, 524288, 2097152],
    "MOST_ROWS": [64, 128, 256],
    "PART": [16, 32, 64],
    "FAR_TO_LIST": [524288, 2097152, 8388608],
    "LANE_TO_LIST": [256, 1024, 4096],
    "LINE_TO_LIST": [4, 8, 16],
}
LISTED = [(1000, 1000), (1100, 1100), (2048, 2048), (3000, 3000), (4096, 4096), (6, 300000), (24, 100000), (300, 20000)]
SHAPES = {
    "NEAR": [(8, 1000), (16, 4000), (64, 1000), (8, 20000), (256, 256)],
    "LARGE": [(side, side) for side in (20, 36, 50, 64, 100, 127)],
    "SHORT": [(50000, columns) for columns in (4, 8, 12, 24, 48)] + [(4, 50000), (24, 50000)],
    "ROW": [(8000, 100), (4000, 200), (2000, 400), (1000, 1000), (400, 3000)],
    "LONG": [(side, side) for side in (300, 600, 1000, 2048)],
    "LINE": [(side, side) for side in (1000, 2048, 3000)],
}


class Side(ctypes.Structure):
    _fields_ = [("items", ctypes.c_void_p), ("count", ctypes.c_size_t), ("lengths", ctypes.c_size_t * 3), ("order", ctypes.c_size_t * 3), ("backwards", ctypes.c_bool)]


class Case(ctypes.Structure):
    _fields_ = [("call", ctypes.c_size_t), ("axes", ctypes.c_size_t), ("bytes", ctypes.c_bool), ("left", Side), ("right", Side)]


def library(folder, name, value):
    """The timed way with another value of a constant. The library's own calls, which orders.rs declares, aren't there and aren't called."""
    made = pathlib.Path(folder) / f"{name}_{value}"
    made.mkdir()
    for file in ("orders.rs", "as_here.rs", "runtime.rs"):
        text = (HERE / file).read_text()
        if file == "as_here.rs":
            text, count = re.subn(rf"const {name}: usize = [0-9_]+;", f"const {name}: usize = {value};", text)
            assert count == 1, name
        if file == "orders.rs":
            text = re.sub(r'unsafe extern "C" \{\n((?:    fn nd_speed_.*\n)+)\}', lambda it: re.sub(r"fn (.*) -> u64;", r"#[allow(unused)] unsafe fn \1 -> u64 { 0 }", it[1]), text)
        (made / file).write_text(text)
    subprocess.run(["rustc", "--edition", "2024", "-O", "--crate-type", "cdylib", "-o", made / "it.so", made / "orders.rs"], check=True, capture_output=True)
    timed = ctypes.CDLL(made / "it.so").orders_as_here
    timed.restype, timed.argtypes = ctypes.c_double, [ctypes.POINTER(Case), ctypes.c_size_t, ctypes.c_size_t]
    return timed


def cases(name):
    """Shapes, calls, orders of both arrays and whether they are of bytes."""
    if name not in SHAPES:
        return [(shape, "to_vec", "F", "F", are_bytes) for shape in LISTED for are_bytes in (False, True)]
    other = "C" if name == "ROW" else "F"
    return [(shape, call, "C", other, False) for shape in SHAPES[name] for call in ("assign", "zip_mut_with")]


def side(memory, shape, order):
    lengths = [*shape, 1] if order == "C" else [shape[1], shape[0], 1]
    return Side(memory, shape[0] * shape[1], (ctypes.c_size_t * 3)(*lengths), (ctypes.c_size_t * 3)(*([0, 1, 2] if order == "C" else [1, 0, 2])), False)


def main():
    memory = [ctypes.create_string_buffer(8 * 4096 * 4096) for _ in range(2)]
    places = [ctypes.addressof(it) for it in memory]
    with tempfile.TemporaryDirectory() as folder:
        for name in sys.argv[1:] or VALUES:
            timed = [library(folder, name, value) for value in VALUES[name]]
            for shape, call, order, other, are_bytes in cases(name):
                case = Case(CALLS[call], 2, are_bytes, side(places[0], shape, order), side(places[1], shape, other))
                calls = max(1, min(2000, 3_000_000 // (shape[0] * shape[1])))
                least = [float("inf")] * len(timed)
                for _ in range(ROUNDS):
                    for nth in random.sample(range(len(timed)), len(timed)):
                        least[nth] = min(least[nth], timed[nth](ctypes.byref(case), 0, calls))
                told = "  ".join(f"{value}: {took:.1f} ({took / least[1]:.2f})" for value, took in zip(VALUES[name], least))
                print(f"{name} {call} of {'u8' if are_bytes else 'i64'} {shape[0]} x {shape[1]} {order}, {other}  {told}", flush=True)


if __name__ == "__main__":
    main()
