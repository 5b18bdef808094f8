"""Differences of tables, beside what `icotable diff` says of the same files."""

import os
import re
import subprocess
import unittest
from dataclasses import replace
from pathlib import Path

import numpy as np

import simgrale
from support import PAIR, InFolder, finish


class Diff(InFolder):
    def altered(self, name, at, letters):
        """A copy of a table with other bytes; its seal is left out."""
        with open(self.at(name), "rb") as file:
            whole = bytearray(file.read())
        whole[at : at + len(letters)] = letters
        with open(self.at("altered"), "wb") as file:
            file.write(whole)
        return simgrale.open_table(self.at("altered"))

    def tool(self, a, b):
        """What the tool says, or None without it."""
        if "SIMGRALE_TOOL" not in os.environ:
            return None
        return subprocess.run([os.environ["SIMGRALE_TOOL"], "diff", a.path, b.path], stdout=subprocess.PIPE, text=True).stdout

    def test_same(self):
        a, b = simgrale.open_table(self.at("pair")), simgrale.open_table(self.at("pair"))
        self.assertFalse(simgrale.diff(a, b))
        self.assertEqual(str(simgrale.diff(a, b)), "the same table, byte for byte")
        c = simgrale.open_table(self.at("atom"))
        self.assertTrue(simgrale.diff(a, c) and not simgrale.diff(a, c).same_kind)
        self.assertIn("of two kinds", str(simgrale.diff(a, c)))

    def test_meshes(self):
        mesh = Path(__file__).resolve().parents[2] / "cases" / "foreign.mesh"
        small = replace(PAIR, top=1)
        finish(simgrale.Builder(small), self.at("own"))
        finish(simgrale.Builder(small, meshes=mesh), self.at("turned"))
        with simgrale.Table.open(self.at("own")) as a, simgrale.Table.open(self.at("turned")) as b:
            self.assertEqual(a.file(), b.file())
            self.assertNotEqual(a.meshes_hash(), b.meshes_hash())
            self.assertRaises(ValueError, a.meshes_hash, 3)
            found = simgrale.diff(a, b)
            self.assertTrue(found and found.same_bytes and found.meshes)
            self.assertIn("the meshes differ: ", str(found).splitlines()[0])
            self.assertFalse(simgrale.diff(a, a))
            said = self.tool(a, b)
        if said is not None:
            self.assertIn("byte for byte, over other meshes\nthe meshes differ: ", said)

    def test_energy(self):
        table = simgrale.open_table(self.at("pair"))
        slab, at = table.rows()[1, 1], table._start[4]
        other = self.altered("pair", at + 4 * (int(slab["offset"]) + 7), np.float32(11).tobytes())
        difference = simgrale.diff(table, other)
        self.assertEqual((difference.grid, difference.tails, len(difference.slabs)), ({}, False, 1))
        found = difference.slabs[0]
        most = 11 - float(table.slab(1, 1).reshape(-1)[7])
        self.assertEqual((found["ri"], found["oi"], found["differing"], found["energies"], found["most"]), (1, 1, 1, 92 * 92, most))
        self.assertIn("slab (1, 1): INTERPOLATED of level 2, 1 of 8464 energies differ, by at most", str(difference))
        said = self.tool(table, other)
        if said is not None:
            self.assertIn("1 of 12 slabs have another row; the first is (1, 1)", said)
            self.assertEqual(float(re.search("1 of 8464 energies differ, by at most (.*)", said)[1]), float(f"{most:g}"))

    def test_rows(self):
        table = simgrale.open_table(self.at("pair"))
        first = table._start[3]
        scalar = simgrale.diff(table, self.altered("pair", first + 10 * 10 + 6, np.float32(2).tobytes())).slabs
        self.assertEqual([tuple(s)[:4] for s in scalar], [(3, 1, 0, 0)])
        self.assertEqual(scalar[0]["most"], 2 - float(table.rows()[3, 1]["scalar"]))
        kind = simgrale.diff(table, self.altered("pair", first + 10 * 6, b"\3"))
        self.assertEqual([tuple(s)[:6] for s in kind.slabs], [(2, 0, 2, 3, 2, 2)])
        self.assertEqual(kind.slabs[0]["differing"], 0)
        self.assertIn("NEAREST of level 2 against INTERPOLATED of level 2, 0 of 8464", str(kind))

    def test_grids(self):
        table = simgrale.open_table(self.at("pair"))
        moved = simgrale.diff(table, self.altered("pair", 4, np.float64(2).tobytes()))
        self.assertEqual((moved.grid, len(moved.slabs)), ({"rmin": (1.0, 2.0)}, 0))
        finish(simgrale.Builder(simgrale.Settings(**{**vars(PAIR), "rmax": 4})), self.at("short"))
        short = simgrale.diff(table, simgrale.open_table(self.at("short")))
        self.assertIsNone(short.slabs)
        self.assertEqual(short.grid, {"n_r": (4, 3)})
        atom = simgrale.open_table(self.at("atom"))
        other = self.altered("atom", atom._start[4], np.float32(5).tobytes())
        self.assertEqual([tuple(s)[:2] for s in simgrale.diff(atom, other).slabs], [(1, 0)])


if __name__ == "__main__":
    unittest.main()
