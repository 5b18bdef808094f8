"""Builds: begun, resumed, killed; what the guard and the journal refuse; tails."""

import math
import os
import pickle
import signal
import subprocess
import sys
import unittest
from concurrent.futures import ThreadPoolExecutor

import numpy as np

import simgrale
from support import ATOM, PAIR, InFolder, carry_out, finish, sampled

# builds by a journal, a call for each line that it is sent, and says each call that was answered
CHILD = """
import sys
import simgrale
from support import ATOM, PAIR, carry_out
kind, journal = sys.argv[1:]
build = simgrale.Builder(PAIR, journal) if kind == "pair" else simgrale.AtomBuilder(ATOM, journal)
for line, step in zip(sys.stdin, build.steps()):
    carry_out(build, step)
    print(build.progress().records, flush=True)
"""


class Builds(InFolder):
    def bytes_of(self, name):
        with open(self.at(name), "rb") as file:
            return file.read()

    def kill_after(self, kind, calls):
        """A child that is killed once it has answered so many calls, at whatever moment of the next."""
        command = [sys.executable, "-c", CHILD, kind, self.at("killed")]
        environment = {**os.environ, "PYTHONPATH": os.pathsep.join(sys.path)}
        with subprocess.Popen(command, env=environment, stdin=subprocess.PIPE, stdout=subprocess.PIPE, text=True) as child:
            child.stdin.write("go on\n" * (calls + 1))
            child.stdin.flush()
            for _ in range(calls):
                last = child.stdout.readline()
            child.send_signal(signal.SIGKILL)
        self.assertEqual(child.returncode, -signal.SIGKILL)
        return int(last)

    def test_killed(self):
        for kind, builder, settings in ("pair", simgrale.Builder, PAIR), ("atom", simgrale.AtomBuilder, ATOM):
            for calls in 3, 2:
                answered = self.kill_after(kind, calls)
                with builder.resume(settings, self.at("killed")) as build:
                    self.assertGreaterEqual(build.progress().records, answered)
            finish(builder.resume(settings, self.at("killed")), self.at("resumed"))
            self.assertEqual(self.bytes_of("resumed"), self.bytes_of(kind))
            os.remove(self.at("killed"))

    def test_opening(self):
        journal = self.at("journal")
        self.refused(202, simgrale.Builder.resume, PAIR, journal)
        self.refused(265, simgrale.Builder.resume, PAIR, None)
        with simgrale.Builder.begin(PAIR, journal) as build:
            self.refused(201, simgrale.Builder.begin, PAIR, journal)
            self.refused(203, simgrale.Builder.open, PAIR, journal)
            carry_out(build, build.next())
        self.refused(261, build.progress)
        self.assertIn(journal, self.refused(207, simgrale.AtomBuilder.resume, ATOM, journal).words)
        other = simgrale.Settings(**{**vars(PAIR), "beta": 2})
        self.refused(208, simgrale.Builder.open, other, journal)
        with open(journal, "ab") as file:
            file.write(b"torn")
        with simgrale.Builder(PAIR, journal) as build:
            self.assertEqual(build.progress()[5:], (1, 0, build.progress().length, 2, 4, False))
            self.assertRaises(TypeError, pickle.dumps, build)
        for top, number in (16, 2), (-1, 2):
            self.refused(number, simgrale.Builder, simgrale.Settings(**{**vars(PAIR), "top": top}))
        self.refused(1, simgrale.Builder, simgrale.Settings(**{**vars(PAIR), "dr": math.nan}))
        self.assertRaises(TypeError, simgrale.Builder, ATOM)
        self.assertRaises(TypeError, simgrale.AtomBuilder, PAIR)

    def test_labelled(self):
        journal = self.at("labelled")
        with simgrale.Builder.begin(PAIR, journal, label="water and ethanol, ångström") as build:
            self.assertEqual((build.label, len(build.id)), ("water and ethanol, ångström", 32))
            id = build.id
        error = self.refused(219, simgrale.Builder.resume, PAIR, journal, label="two of water")
        self.assertIn("label 'water and ethanol, ångström', not 'two of water'", str(error))
        for label in "a\nb", "a\0b", "\ud800", "x" * 4097:
            self.refused(218, simgrale.Builder.resume, PAIR, journal, label=label)
        with simgrale.Builder(PAIR, journal) as build:
            self.assertEqual((build.label, build.id), ("water and ethanol, ångström", id))
            finish(build, self.at("labelled.table"))
        with simgrale.Table.open(self.at("labelled.table")) as table:
            seal = table.seal()
        self.assertEqual((seal.guarded, seal.whole, seal.id, seal.label), (True, True, id, "water and ethanol, ångström"))
        with simgrale.AtomBuilder(ATOM, label="in memory") as build:
            self.assertEqual((build.label, build.id), ("in memory", None))
        with simgrale.AtomBuilder(ATOM, self.at("first"), version_1=True) as build:
            self.assertEqual((build.label, build.id), ("", None))

    def test_refused(self):
        build = simgrale.Builder(PAIR)
        n = len(build.vertices())
        self.assertIn("92", str(n))
        good = np.ones((n, n))
        nan = good.copy()
        nan[3, 4] = math.nan
        self.refused(10, build.set, 0, 0, nan)
        self.refused(9, build.set, 0, 0, good[1:])
        self.refused(8, build.set, 0, 3, good)
        self.refused(8, build.set, 0, -1, good)
        self.refused(223, build.set, 1, 0, good)
        self.assertIn("slab (0, 0)", self.refused(222, build.settle, 0).words)
        self.assertIn("12 in all", self.refused(224, build.write, self.at("holes")).words)
        self.assertFalse(os.path.exists(self.at("holes")))
        self.assertRaises(TypeError, build.set, 0, 0, good * 1j)
        self.assertRaises(TypeError, build.set, 0.5, 0, good)
        self.assertEqual(build.progress().set, 0)
        self.assertRaises(ValueError, build.vertices, 3)
        unguarded = simgrale.Builder(PAIR, guarded=False)
        unguarded.write(self.at("empty"))
        self.assertIsInstance(simgrale.open_table(self.at("empty")), simgrale.Table)
        finish(build, self.at("pair2"))
        self.assertIn("no/such", self.refused(267, self.finished().write, self.at("no/such")).words)

    def finished(self):
        build = simgrale.Builder(PAIR)
        for step in build.steps():
            carry_out(build, step)
        return build

    def test_steps(self):
        build = simgrale.Builder(PAIR)
        steps = build.steps()
        first = next(steps)
        self.assertEqual(first, simgrale.Step(simgrale.Do.SET, 0, 0, 2, 1.0, 0.0))
        self.assertRaisesRegex(RuntimeError, "slab .0, 0. was not carried out", next, steps)
        self.assertEqual([step.oi for step in build.missing()], [0, 1, 2])
        build.set(0, 1, sampled(build.missing()[1], 92, False))
        self.assertEqual([step.oi for step in build.missing()], [0, 2])
        for step in build.missing():
            carry_out(build, step)
        self.assertEqual((build.missing(), build.next().do), ([], simgrale.Do.SETTLE))
        finish(build, self.at("outside_in"))
        self.assertEqual(self.bytes_of("outside_in"), self.bytes_of("pair"))

    def test_sampled_side_by_side(self):
        build = simgrale.Builder(PAIR)
        with ThreadPoolExecutor(3) as pool:
            while build.next().do is not simgrale.Do.WRITE:
                list(pool.map(lambda step: carry_out(build, step), build.missing()))
                build.settle(build.next().ri)
        build.write(self.at("threads"))
        self.assertEqual(self.bytes_of("threads"), self.bytes_of("pair"))

    def test_forked(self):
        build = simgrale.Builder(PAIR, self.at("forked"))
        carry_out(build, build.next())
        read, write = os.pipe()
        child = os.fork()
        if child == 0:
            try:
                build.next()
            except RuntimeError as error:
                os.write(write, str(error).encode())
            build.close()
            os._exit(0)
        os.waitpid(child, 0)
        os.close(write)
        self.assertIn(b"belongs to the process", os.read(read, 100))
        os.close(read)
        finish(build, self.at("after"))
        self.assertEqual(self.bytes_of("after"), self.bytes_of("pair"))

    def test_tail(self):
        build = self.finished()
        tail = simgrale.Tail([(-2, 0.1, 1), (0.75, 0.2, 6)], 17.7)
        build.write_tail(self.at("tailed"), tail)
        with simgrale.Table.open(self.at("tailed")) as table:
            terms, prefactor = table.terms()
            self.assertEqual(([tuple(term) for term in terms], prefactor), (list(tail.terms), 17.7))
            r = np.array([10.0, 40.0])
            wanted = 17.7 * (-2 * np.exp(-0.1 * r) / r + 0.75 * np.exp(-0.2 * r) / r**6)
            self.assertTrue(np.allclose(table.tail(r), wanted, rtol=1e-12))
        self.refused(23, build.write_tail, self.at("tailed"), simgrale.Tail([(math.inf, 0, 1)], 1))
        self.refused(23, build.write_tail, self.at("tailed"), simgrale.Tail([(1, 0, 2**31)], 1))
        self.assertRaises(ValueError, build.write_tail, self.at("tailed"), simgrale.Tail([(1, 0, -1)], 1))
        build.write_tail(self.at("none"), simgrale.Tail([], 1))
        self.assertEqual(self.bytes_of("none"), self.bytes_of("pair"))

    def lost(self, build, walls):
        """Whether the level is told to be lost: at first, after a wall with one other energy, and after a well."""
        told, atom = [build.progress().level_lost], isinstance(build, simgrale.AtomBuilder)
        for step in build.steps():
            if step.ri == 2:
                return told
            if step.do is simgrale.Do.SETTLE:
                build.settle(step.ri)
                told.append(build.progress().level_lost)
                continue
            count = len(build.vertices()) ** (1 if atom else 2)
            slab = np.full(count, 1e6) if step.ri == 0 else np.arange(count) % 7 * 1.0
            slab[0] = walls if step.ri == 0 else 0
            build.set(*((step.ri,) if atom else (step.ri, step.oi)), slab)

    def test_a_level_that_is_lost_inside_the_wall(self):
        """A wall whose weights are flat drops the level before the well; one that is Repulsive does not."""
        for kind, settings in (simgrale.Builder, PAIR), (simgrale.AtomBuilder, ATOM):
            with kind(settings) as build:
                self.assertEqual(self.lost(build, 9), [False, True, True])
            with kind(settings) as build:
                self.assertEqual(self.lost(build, 1e6), [False, False, False])


if __name__ == "__main__":
    unittest.main()
