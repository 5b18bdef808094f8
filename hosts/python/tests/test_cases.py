"""The table of cases that the suites of C, Rust and Python share: hosts/cases/cases.txt, which says what its lines mean."""

import os
import shutil
import signal
import struct
import subprocess
import sys
import tempfile
import unittest
import zlib
from pathlib import Path

import numpy as np

import simgrale

CASES = Path(__file__).resolve().parents[2] / "cases"
HEIGHTS = (1e4, 3.0, 0.05, 3.0)
MASK = 2**64 - 1

# opens a build, makes so many calls and is killed
CHILD = """
import os, signal, sys
from test_cases import Run
run = Run(sys.argv[1])
assert run.do_open(*sys.argv[3:]) == 0 and run.do_go(sys.argv[2]) == 0
os.kill(os.getpid(), signal.SIGKILL)
"""


def mixed(z):
    """splitmix64"""
    z = (z ^ z >> 30) * 0xBF58476D1CE4E5B9 & MASK
    z = (z ^ z >> 27) * 0x94D049BB133111EB & MASK
    return z ^ z >> 31


def meshes(name):
    return CASES / f"{name}.mesh"


class Run:
    """One case, in a folder; do_VERB gives the number that a step is answered with."""

    def __init__(self, folder):
        self.folder = Path(folder)
        self.build = None
        self.table = None

    def at(self, name):
        return self.folder / name

    @staticmethod
    def opened(how, kind, journal, *options):
        top = 0 if "top0" in options else 1
        beta = 2 if "beta2" in options else 1
        common = {"rmin": 0, "dr": 1, "threshold": 0.5, "beta": beta, "top": top}
        named = {"meshes": meshes("foreign") if "foreign" in options else None, "guarded": "unguarded" not in options}
        labels = [option[6:] for option in options if option.startswith("label=")] + ["a\nb"] * ("badlabel" in options)
        named.update(label=labels[0] if labels else None, version_1=not labels and "v2" not in options)
        if kind == "atom":
            return getattr(simgrale.AtomBuilder, how)(simgrale.AtomSettings(rmax=4, **common), journal, **named)
        return getattr(simgrale.Builder, how)(simgrale.Settings(rmax=3, omega_step=3, **common), journal, **named)

    def _open(self, how, kind, journal, *options):
        self.do_close()
        self.build = self.opened(how, kind, self.at(journal), *options)

    def do_begin(self, *words):
        self._open("begin", *words)

    def do_resume(self, *words):
        self._open("resume", *words)

    def do_open(self, *words):
        self._open("open", *words)
        return 0

    def do_also(self, how, kind, journal, *options):
        self.opened(how, kind, self.at(journal), *options).close()

    def _set(self, ri, oi):
        n = len(self.build.vertices())
        atom = isinstance(self.build, simgrale.AtomBuilder)
        drawn = [mixed((ri << 48) + (oi << 40) + i & MASK) % 1000 for i in range(n if atom else n * n)]
        energies = (1000 if ri == 0 else 0) + HEIGHTS[ri % 4] * (np.array(drawn, float) / 1000)
        if atom:
            self.build.set(ri, energies)
        else:
            self.build.set(ri, oi, energies.reshape(n, n))

    def do_set(self, ri, oi):
        self._set(int(ri), int(oi))

    def do_settle(self, ri):
        self.build.settle(int(ri))

    def do_go(self, calls):
        for _, step in zip(range(int(calls)), self.build.steps()):
            if step.do is simgrale.Do.SET:
                self._set(step.ri, step.oi)
            else:
                self.build.settle(step.ri)
        return 0

    def do_write(self, table):
        self.build.write(self.at(table))

    def do_tail(self, table):
        if isinstance(self.build, simgrale.AtomBuilder):
            return 262  # there is no such method
        self.build.write_tail(self.at(table), simgrale.Tail([(-1.5, 0.25, 6)], 17.5))
        return 0

    def do_close(self):
        if self.build is not None:
            self.build.close()
        self.build = None

    def do_kill(self, *words):
        environment = {**os.environ, "PYTHONPATH": os.pathsep.join(sys.path)}
        done = subprocess.run([sys.executable, "-c", CHILD, str(self.folder), *words], env=environment, check=False)
        return 0 if done.returncode == -signal.SIGKILL else 1

    def do_read(self, kind, table, by_hand=None):
        if self.table is not None:
            self.table.close()
        self.table = None
        of = simgrale.AtomTable if kind == "atom" else simgrale.Table
        self.table = of.open(self.at(table), None if by_hand is None else meshes(by_hand))

    def do_energies(self, wanted):
        i = np.arange(32)
        one = np.ones(32)
        a = np.stack([i % 5 - 2, i % 3 - 1, one], axis=-1)
        b = np.stack([one, i % 4 - 2, i % 7 - 3], axis=-1)
        poses = (i / 8, a) if isinstance(self.table, simgrale.AtomTable) else (i / 8, i / 4, a, b)
        return self.summed(struct.pack("<32d", *self.table.energies(*poses)), wanted)

    @staticmethod
    def summed(letters, wanted):
        return 0 if zlib.crc32(letters) == int(wanted, 16) else 1

    def do_copy(self, one, other):
        shutil.copyfile(self.at(one), self.at(other))

    def do_cut(self, name, count):
        self.at(name).write_bytes(self.at(name).read_bytes()[: int(count)])

    def do_append(self, name, count):
        self.at(name).write_bytes(self.at(name).read_bytes() + b"x" * int(count))

    def do_flip(self, name, byte):
        letters = bytearray(self.at(name).read_bytes())
        letters[int(byte)] ^= 64
        self.at(name).write_bytes(letters)

    def do_remove(self, name):
        self.at(name).unlink()

    def do_link(self, name, other):
        os.symlink(name, self.at(other))

    def do_folder(self, name):
        self.at(name).mkdir()

    def do_there(self, name):
        return 0 if self.at(name).exists() else 1

    def do_gone(self, name):
        return 1 if self.at(name).exists() else 0

    def do_sealed(self, table, guarded, whole, label):
        with simgrale.open_table(self.at(table)) as opened:
            seal = opened.seal()
        said = [{None: "unknown", True: "yes", False: "no"}[known] for known in (seal.guarded, seal.whole)]
        return 0 if [*said, seal.label or "-"] == [guarded, whole, label] else 1

    def do_sum(self, name, wanted):
        return self.summed(self.at(name).read_bytes(), wanted)

    def step(self, verb, *words):
        try:
            return getattr(self, f"do_{verb}")(*words) or 0
        except simgrale.Refused as refused:
            return refused.number


def cases():
    """Each case: its name, and its steps, with the number that is wanted."""
    found = []
    for line in (CASES / "cases.txt").read_text().splitlines():
        words, _, number = line.partition(" = ")
        if line.startswith("case "):
            found.append((line.split()[1], []))
        elif line and not line.startswith("#"):
            found[-1][1].append((words.split(), int(number or 0), line))
    return found


class Cases(unittest.TestCase):
    def test_cases(self):
        where = "/dev/shm" if os.access("/dev/shm", os.W_OK) else None
        for name, steps in cases():
            with self.subTest(name), tempfile.TemporaryDirectory(dir=where) as folder:
                run = Run(folder)
                for words, wanted, line in steps:
                    self.assertEqual(run.step(*words), wanted, line)
                run.do_close()
        print(f"cases: {len(cases())} cases in Python", file=sys.stderr)


if __name__ == "__main__":
    unittest.main()
