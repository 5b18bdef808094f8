#!/usr/bin/python3
"""Readings a second from Python beside loops in C over the same poses: bench.py [POSES] [ROUNDS].

Three tables are built, whose rows are all Scalar, all read at the nearest vertices, or all interpolated (level 3), and poses drawn.
The loops of bench.c are compiled with cc -O2 over the shared library that simgrale found, and called in this process. All energies are
compared to the bit first; then the three take turns, and the least processor time of each counts. In a repository after make -C hosts/c whole.
"""

import ctypes
import subprocess
import sys
import tempfile
import time
from pathlib import Path

import numpy as np

HERE = Path(__file__).resolve().parent
sys.path.insert(0, str(HERE))
import simgrale
from simgrale.library import _library

TOP = HERE.parents[1]
# the height of random energies that makes a row of this kind under the threshold 0.5
HEIGHTS = {simgrale.Kind.SCALAR: 0.001, simgrale.Kind.NEAREST: 0.05, simgrale.Kind.INTERPOLATED: 2.0}


def compiled(folder):
    made = f"{folder}/bench.so"
    flags = ["-std=c11", "-O2", "-fPIC", "-shared", "-Wall", "-Wextra", "-Werror", f"-I{TOP}/include", f"-I{TOP}/hosts/c"]
    subprocess.run(["cc", *flags, "-o", made, HERE / "bench.c", _library._name], check=True)
    loops = ctypes.CDLL(made)
    for name in "loop_library", "loop_handle":
        getattr(loops, name).restype = ctypes.c_uint64
        getattr(loops, name).argtypes = [ctypes.c_void_p, ctypes.c_size_t] + [ctypes.c_void_p] * 5
    return loops


def built(kind, path):
    settings = simgrale.Settings(rmin=1, rmax=2, dr=1, omega_step=0.5235987755982988, threshold=0.5, beta=1, top=3)
    drawn = np.random.default_rng(3)
    with simgrale.Builder(settings) as build:
        for step in build.steps():
            if step.do is simgrale.Do.SETTLE:
                build.settle(step.ri)
            else:
                n = len(build.vertices())
                build.set(step.ri, step.oi, HEIGHTS[kind] * drawn.random((n, n)))
        build.write(path)
    table = simgrale.Table.open(path)
    assert (table.rows()["kind"] == kind).all(), table.rows()
    return table


def timed(function):
    """Of this thread's own time, so that other work on the machine counts less."""
    start = time.thread_time()
    function()
    return time.thread_time() - start


def compare(table, loops, count, rounds):
    drawn = np.random.default_rng(7)
    r, omega = drawn.uniform(1, 1.5, count), drawn.uniform(-3, 3, count)
    a, b = drawn.normal(size=(2, count, 3))
    energies = np.empty(count)
    with table._handle.lent() as pointer:
        lists = [pointer, count] + [x.ctypes.data for x in (r, omega, a, b, energies)]
        found = table.energies(r, omega, a, b)
        for loop in loops.loop_library, loops.loop_handle:
            assert loop(*lists) == 0 and energies.tobytes() == found.tobytes()
        runs = [lambda: table.energies(r, omega, a, b), lambda: loops.loop_library(*lists), lambda: loops.loop_handle(*lists)]
        times = [[timed(run) for run in runs] for _ in range(rounds)]
    return [min(column) / count * 1e9 for column in zip(*times)]


def main():
    count = int(sys.argv[1]) if len(sys.argv) > 1 else 200_000
    rounds = int(sys.argv[2]) if len(sys.argv) > 2 else 25
    print(f"{count} poses, the least of {rounds} rounds, ns a reading; the library {simgrale.library_version()}")
    print("| rows | Python | loop in C, library's call | loop in C, handle's | Python / library's | readings a second |")
    print("|---|---|---|---|---|---|")
    with tempfile.TemporaryDirectory() as folder:
        loops = compiled(folder)
        for kind in HEIGHTS:
            with built(kind, f"{folder}/{kind.name}") as table:
                python, library, handle = compare(table, loops, count, rounds)
            print(f"| {kind.name} | {python:.1f} | {library:.1f} | {handle:.1f} | {python / library:.2f} | {1e9 / python / 1e6:.2f} million |")


main()
