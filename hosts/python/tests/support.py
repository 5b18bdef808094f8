"""What the tests share: small tables with rows of every kind, in a folder that goes with the test."""

import os
import tempfile
import unittest

import numpy as np

import simgrale

# distance bins: a wall, a well, less, and next to nothing
KINDS = [simgrale.Kind.REPULSIVE, simgrale.Kind.INTERPOLATED, simgrale.Kind.NEAREST, simgrale.Kind.SCALAR]
HEIGHTS = [900, 3, 0.15, 0.001]
PAIR = simgrale.Settings(rmin=1, rmax=5, dr=1, omega_step=2.1, threshold=0.5, beta=1, top=2)
ATOM = simgrale.AtomSettings(rmin=1, rmax=5, dr=1, threshold=0.5, beta=1, top=2)


def sampled(step, n, atom):
    """Energies of a slab, the same whenever they are sampled."""
    drawn = np.random.default_rng([step.ri, step.oi, 5])
    return HEIGHTS[step.ri] * ((step.ri == 0) + drawn.random(n if atom else (n, n)))


def carry_out(build, step):
    atom = isinstance(build, simgrale.AtomBuilder)
    if step.do is simgrale.Do.SETTLE:
        return build.settle(step.ri)
    # in Fortran's order, which is not the library's
    energies = np.asfortranarray(sampled(step, len(build.vertices()), atom))
    return build.set(step.ri, energies) if atom else build.set(step.ri, step.oi, energies)


def finish(build, path):
    for step in build.steps():
        carry_out(build, step)
    build.write(path)
    build.close()


class InFolder(unittest.TestCase):
    """A folder with the tables pair and atom."""

    @classmethod
    def setUpClass(cls):
        made = tempfile.TemporaryDirectory(dir="/dev/shm" if os.access("/dev/shm", os.W_OK) else None)
        cls.addClassCleanup(made.cleanup)
        cls.folder = made.name
        finish(simgrale.Builder(PAIR), cls.at("pair"))
        finish(simgrale.AtomBuilder(ATOM), cls.at("atom"))

    @classmethod
    def at(cls, name):
        return os.path.join(cls.folder, name)

    def refused(self, number, call, *arguments, **named):
        """The exception of a call that is refused with this number."""
        with self.assertRaises(simgrale.Refused) as caught:
            call(*arguments, **named)
        self.assertEqual(caught.exception.number, number, str(caught.exception))
        return caught.exception

    def equal_bits(self, x, y):
        self.assertEqual(np.shape(x), np.shape(y))
        self.assertEqual(np.asarray(x).tobytes(), np.asarray(y).tobytes())
