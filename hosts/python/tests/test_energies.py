"""Readings: equal to C's to the bit, whatever the arrays are like; refused poses; threads; closing."""

import ctypes
import hashlib
import importlib.util
import math
import os
import pickle
import subprocess
import threading
import unittest
from pathlib import Path

import numpy as np

import simgrale
from support import KINDS, PAIR, InFolder, sampled

COUNT = 3000
ANSWER = np.dtype([("number", "u8"), ("energy", "f8"), ("a", "f8"), ("b", "f8")])


def drawn(wide, seed=11):
    """Poses within the table's distances and around them; some of them are refused: a NaN, or a direction without a length."""
    draw = np.random.default_rng(seed)
    poses = draw.normal(size=(COUNT, wide))
    poses[:, 0] = draw.uniform(0, 6, COUNT)
    poses[50::97, 1:] = 0
    poses[60::89, 0] = math.nan
    return poses


@unittest.skipUnless("SIMGRALE_C" in os.environ, "SIMGRALE_C does not name tests/hosts/python.c, compiled")
class BesideC(InFolder):
    def c(self, table, poses, *beta):
        command = [os.environ["SIMGRALE_C"], "read", self.at(table), *map(str, beta)]
        return np.frombuffer(subprocess.run(command, input=poses.tobytes(), stdout=subprocess.PIPE, check=True).stdout, ANSWER)

    def compared(self, wanted, energies, numbers):
        refused = wanted["number"] != 0
        self.assertTrue(20 < refused.sum() < COUNT // 10)
        self.assertTrue(np.array_equal(numbers, wanted["number"]))
        self.assertTrue(np.isnan(energies[refused]).all())
        self.equal_bits(energies[~refused], wanted["energy"][~refused])

    def test_pairs(self):
        p = drawn(8)
        with simgrale.Table.open(self.at("pair")) as table:
            for beta in [()], [(0.7,)]:
                for threads in 1, 2, 5:
                    energies, numbers = table.energies(p[:, 0], p[:, 1], p[:, 2:5], p[:, 5:], *beta[0], threads=threads, numbers=True)
                    self.compared(self.c("pair", p, *beta[0]), energies, numbers)
            wanted = self.c("pair", p)
            good = wanted["number"] == 0
            for found, name in zip(table.distances(p[good, 0], p[good, 1], p[good, 2:5], p[good, 5:]), "ab"):
                self.equal_bits(found, np.ascontiguousarray(wanted[name][good]))
            self.assertTrue((wanted["a"] > 0).any())

    def test_atoms(self):
        p = drawn(4)
        with simgrale.AtomTable.open(self.at("atom")) as table:
            for beta in [], [0.7]:
                energies, numbers = table.energies(p[:, 0], p[:, 1:], *beta, numbers=True)
                self.compared(self.c("atom", p, *beta), energies, numbers)


class Arrays(InFolder):
    def setUp(self):
        self.table = simgrale.Table.open(self.at("pair"))
        self.addCleanup(self.table.close)
        draw = np.random.default_rng(4)
        self.r, self.omega = draw.uniform(1, 5, (6, 5)), draw.uniform(-4, 4, (6, 5))
        self.a, self.b = draw.normal(size=(2, 6, 5, 3))
        self.wanted = self.table.energies(self.r, self.omega, self.a, self.b)

    def test_one_by_one(self):
        for i in np.ndindex(6, 5):
            energy = self.table.energies(float(self.r[i]), self.omega[i], list(self.a[i]), tuple(self.b[i]))
            self.assertIsInstance(energy, np.float64)
            self.equal_bits(energy, self.wanted[i])

    def test_strides(self):
        layouts = [np.asfortranarray, lambda x: np.repeat(x, 2, axis=0)[::2], lambda x: x[::-1].copy()[::-1], lambda x: x.astype(">f8")]
        for layout in layouts:
            self.equal_bits(self.table.energies(*map(layout, (self.r, self.omega, self.a, self.b))), self.wanted)
        flat = [x.reshape((30,) + x.shape[2:]) for x in (self.r, self.omega, self.a, self.b)]
        self.equal_bits(self.table.energies(flat[0], flat[1], np.asfortranarray(flat[2]), np.repeat(flat[3], 2, axis=1)[:, ::2]), self.wanted.reshape(30))
        self.equal_bits(self.table.energies(2, 0, np.broadcast_to(1.0, 3), [0, 0, 1]), self.table.energies(2, 0, [1, 1, 1], [0, 0, 1]))
        odd = np.zeros((6, 5), [("x", "u1"), ("r", "f8"), ("a", "f8", 3)])
        odd["r"], odd["a"] = self.r, self.a
        self.equal_bits(self.table.energies(odd["r"], self.omega, odd["a"], self.b), self.wanted)
        self.equal_bits(self.table.energies(self.r.T, self.omega.T, self.a.swapaxes(0, 1), self.b.swapaxes(0, 1)), self.wanted.T)

    def test_broadcast(self):
        rows = self.table.energies(self.r[:, :1], 0.5, self.a[:1], [0, 0, 1])
        self.assertEqual(rows.shape, (6, 5))
        for i, j in np.ndindex(6, 5):
            self.equal_bits(rows[i, j], self.table.energies(self.r[i, 0], 0.5, self.a[0, j], [0, 0, 1]))
        self.assertEqual(self.table.energies([], 0, [1, 0, 0], [1, 0, 0]).shape, (0,))

    def test_types(self):
        single = self.table.energies(self.r.astype("f4"), 1, self.a.astype("f4"), self.b.astype("f2"))
        double = [x.astype("f4").astype("f8") for x in (self.r, self.a)]
        self.equal_bits(single, self.table.energies(double[0], 1.0, double[1], self.b.astype("f2").astype("f8")))
        for wrong in [1j], ["2"], [None], [True]:
            self.assertRaises(TypeError, self.table.energies, wrong, 0, [1, 0, 0], [1, 0, 0])
        self.assertRaises(ValueError, self.table.energies, 2, 0, [1, 0], [1, 0, 0])
        self.assertRaises(ValueError, self.table.energies, 2, 0, 1, [1, 0, 0])
        self.assertRaises(ValueError, self.table.energies, [2, 2], [0, 0, 0], [1, 0, 0], [1, 0, 0])
        self.assertRaises(ValueError, self.table.energies, 2, 0, [1, 0, 0], [1, 0, 0], threads=0)

    def test_many_blocks(self):
        count = (1 << 18) + 1000
        r = np.full(count, 4.0)
        r[-1] = math.nan
        self.assertEqual(self.refused(18, self.table.energies, r, 0, [1, 0, 0], [0, 1, 0]).index, (count - 1,))
        energies, numbers = self.table.energies(r, 0, [1, 0, 0], [0, 1, 0], threads=2, numbers=True)
        self.assertTrue(numbers[-1] == 18 and numbers.sum() == 18 and len(set(energies[:-1])) == 1)

    def test_refused(self):
        omega = np.zeros((3, 4))
        omega[2, 1] = math.inf
        refusal = self.refused(18, self.table.energies, 2, omega, [1, 0, 0], [1, 0, 0])
        self.assertEqual(refusal.index, (2, 1))
        self.assertIn("refused with 18, pose (2, 1): ", str(refusal))
        self.assertIsNone(self.refused(18, self.table.energies, 2, 0, [0, 0, 0], [1, 0, 0]).index)
        self.assertEqual(self.refused(21, self.table.energies, [2], 0, [1, 0, 0], [1, 0, 0], -1.0).index, (0,))
        energy, number = self.table.energies(2, 0, [0, 0, 0], [1, 0, 0], numbers=True)
        self.assertTrue(math.isnan(energy) and number == 18)
        self.assertEqual(self.table.energies(1, 0, [1, 0, 0], [1, 0, 0]), math.inf)
        self.assertEqual(self.table.energies(9, 0, [1, 0, 0], [1, 0, 0]), 0)

    def test_environment(self):
        """Another rounding is found by every call, also by one of a table that was opened before."""
        math_library = ctypes.CDLL("libm.so.6")
        upward = 0x800
        if math_library.fegetround() != 0:
            self.skipTest("this process does not round to nearest")
        math_library.fesetround(upward)
        try:
            self.assertRaises(simgrale.Refused, self.table.energies, 2, 0, [1, 0, 0], [1, 0, 0])
            self.assertRaises(simgrale.Refused, simgrale.Table.open, self.at("pair"))
        finally:
            math_library.fesetround(0)
        self.equal_bits(self.table.energies(self.r, self.omega, self.a, self.b), self.wanted)

    def test_threads_of_python(self):
        found = [None] * 4

        def work(k):
            found[k] = [self.table.energies(self.r, self.omega, self.a, self.b).tobytes() for _ in range(50)]

        workers = [threading.Thread(target=work, args=(k,)) for k in range(4)]
        for worker in workers:
            worker.start()
        for worker in workers:
            worker.join()
        self.assertEqual(set(sum(found, [])), {self.wanted.tobytes()})

    def test_closed_meanwhile(self):
        """Closed while a reading is under way: it ends, and the next is refused."""
        with self.table._handle.lent() as pointer:
            self.table.close()
            self.assertTrue(self.table.closed)
            self.assertEqual(simgrale.library.call("reader_atom", pointer), 0)
        self.refused(261, self.table.energies, 2, 0, [1, 0, 0], [1, 0, 0])
        self.table.close()
        self.refused(261, self.table.rows)


class Contents(InFolder):
    def test_rows(self):
        with simgrale.Table.open(self.at("pair")) as table:
            rows = table.rows()
            self.assertEqual(rows.shape, (4, 3))
            self.assertTrue((rows["kind"] == np.array(KINDS)[:, None]).all())
            row = simgrale.structs.row()
            with table._handle.lent() as pointer:
                for ri, oi in np.ndindex(4, 3):
                    self.assertEqual(simgrale.library.call("reader_row", pointer, ri, oi, ctypes.byref(row)), 0)
                    self.assertEqual(tuple(rows[ri, oi]), (row.kind, row.level, row.offset, row.scalar))
            step = simgrale.Step(simgrale.Do.SET, 1, 2, 2, 2.0, 4.2)
            self.equal_bits(table.slab(1, 2), sampled(step, 92, False).astype(np.float32))
            at = table.vertices(2)
            self.equal_bits(table.slab(2, 1).astype("f8"), table.energies(3, 2.1, at[:, None], at))
            self.assertRaises(ValueError, table.slab, 0, 0)
            self.refused(8, table.slab, 4, 0)
            self.refused(8, table.slab, -1, 0)
            self.assertRaises(ValueError, table.vertices, 3)
            self.assertEqual(table.grid, simgrale.Grid(1.0, 5.0, 1.0, 2.1, 4, 3))
            self.assertEqual(list(table.grid.r), [1, 2, 3, 4])
            self.assertEqual(list(table.grid.omega), [0, 2.1, 4.2])

    def test_atom(self):
        with simgrale.AtomTable.open(self.at("atom")) as table:
            self.assertEqual(table.rows().shape, (4,))
            self.assertEqual(list(table.rows()["kind"]), KINDS)
            self.equal_bits(table.slab(2).astype("f8"), table.energies(3, table.vertices(table.rows()["level"][2])))
            self.assertIsInstance(table.seal().settings, simgrale.AtomSettings)

    def test_span_and_tail(self):
        with simgrale.Table.open(self.at("pair")) as table:
            span = table.span(3, 4, 0)
            self.assertEqual((span.first, span.last, span.scalar_nans), (2, 3, 0))
            self.assertEqual(span.largest, table.slab(2, 0).max())
            self.refused(26, table.span, 4, 3, 0)
            self.assertEqual(list(table.tail([7, 8])), [0, 0])
            self.assertEqual(self.refused(18, table.tail, [7, math.nan]).index, (1,))
            self.assertEqual((len(table.terms()[0]), table.terms()[1]), (0, None))

    def test_opening(self):
        self.assertIn("No such file", self.refused(266, simgrale.Table.open, self.at("none")).words)
        self.assertIn("AtomTable", self.refused(262, simgrale.Table.open, self.at("atom")).words)
        self.refused(262, simgrale.AtomTable.open, self.at("pair"))
        self.assertIsInstance(simgrale.open_table(self.at("pair").encode()), simgrale.Table)
        self.assertIsInstance(simgrale.open_table(self.at("atom")), simgrale.AtomTable)
        with open(self.at("pair"), "rb") as file:
            whole = file.read()
        with open(self.at("cut"), "wb") as file:
            file.write(whole[:-1])
        self.refused(13, simgrale.open_table, self.at("cut"))
        self.assertRaises(ValueError, simgrale.Table.open, self.at("pair") + "\0x")
        with simgrale.Table.open(self.at("pair")) as table:
            self.assertEqual(table.file(), whole)
            self.assertRaises(TypeError, pickle.dumps, table)
            seal = table.seal()
            self.assertEqual((seal.settings, seal.version), (PAIR, simgrale.library_version()))
            self.assertEqual((seal.own_meshes, seal.journal_sha256, seal.sha256), (True, None, hashlib.sha256(whole).hexdigest()))
            os.rename(self.at("pair.meta"), self.at("away"))
            self.assertIsNone(table.seal())
            os.rename(self.at("away"), self.at("pair.meta"))


class Places(InFolder):
    """Where a distance lies, beside readings and spans; both tables have the distances from 1 to 5."""

    def test_places(self):
        ends = [-math.inf, np.nextafter(1, 0), 1, 5, np.nextafter(5, 6), math.inf, math.nan]
        wanted = [simgrale.Place[name] for name in "NEARER NEARER INSIDE INSIDE BEYOND BEYOND NOWHERE".split()]
        for table in map(simgrale.open_table, (self.at("pair"), self.at("atom"))):
            with table:
                self.assertEqual(table.place(ends).tolist(), wanted)
                self.assertEqual([table.place(r) for r in ends], wanted)
                self.assertEqual(table.place(np.reshape(ends * 2, (7, 2)).T).shape, (2, 7))
                self.assertEqual(table.place(np.reshape(ends * 2, (2, 7)).T).T.tolist(), [wanted, wanted])
                self.assertIs(table.place(0), simgrale.Place.NEARER)
                self.assertEqual(table.place([]).size, 0)
            self.refused(261, table.place, 2)

    def test_a_wall_below_rmin(self):
        r, up = np.array([0.5, 2.0, 9.0]), [0, 0, 1]
        with simgrale.Table.open(self.at("pair")) as table:
            energies = table.energies(r, 0, up, up)
            self.assertEqual((energies[0], energies[2]), (0, 0))
            for at, place in zip(r, table.place(r)):
                if place != simgrale.Place.INSIDE:
                    self.refused(26, table.span, at, at, 0)
            energies[table.place(r) == simgrale.Place.NEARER] = np.inf
            self.assertEqual((energies[0], energies[1] < np.inf, energies[2]), (np.inf, True, 0))



class Plotted(InFolder):
    """examples/plot.py: its mean is over omega, too."""

    def test_the_mean(self):
        place = Path(__file__).resolve().parents[1] / "examples" / "plot.py"
        plot = importlib.util.module_from_spec(importlib.util.spec_from_file_location("plot", place))
        plot.__spec__.loader.exec_module(plot)
        heights = [0.0, 3.0, -2.0]
        with simgrale.Builder(PAIR, guarded=False) as build:
            for oi, height in enumerate(heights):
                build.set(1, oi, np.full(len(build.vertices()) ** 2, height))
            build.write(self.at("plotted"))
        with simgrale.Table.open(self.at("plotted")) as table:
            r, some, mean = plot.profiles(table)
        wanted = -np.log(np.mean(np.exp(-plot.BETA * np.array(heights)))) / plot.BETA
        inside = np.abs(r - 2) < 0.5
        self.assertTrue(np.allclose(mean[inside], wanted, rtol=1e-6), (mean[inside], wanted))
        self.assertEqual(set(np.round(some[inside].reshape(-1), 6)), set(heights))


if __name__ == "__main__":
    unittest.main()
