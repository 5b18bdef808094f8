"""The declarations beside the compiler's, and how the library is found."""

import ctypes
import os
import subprocess
import sys
import tempfile
import unittest
from pathlib import Path

import simgrale
from simgrale import library, structs

PACKAGE = Path(simgrale.__file__).parent


IMPORT = "import simgrale; print(simgrale.__file__, simgrale.library._library._name)"


class Declared(unittest.TestCase):
    @unittest.skipUnless("SIMGRALE_C" in os.environ, "SIMGRALE_C does not name tests/hosts/python.c, compiled")
    def test_structs(self):
        said = subprocess.run([os.environ["SIMGRALE_C"], "layout"], stdout=subprocess.PIPE, text=True, check=True).stdout
        seen = {name: (int(size), fields) for name, size, *fields in map(str.split, said.splitlines())}
        self.assertEqual(len(seen), len(structs.ALL))
        for struct in structs.ALL:
            size, fields = seen["icotable_" + struct.__name__]
            self.assertEqual([f"{name}:{getattr(struct, name).offset}:{getattr(struct, name).size}" for name, _ in struct._fields_], fields, struct)
            if struct not in structs.LEADING:
                self.assertEqual(ctypes.sizeof(struct), size, struct)

    def test_words(self):
        self.assertIn("NaN", simgrale.words(10))
        self.assertEqual(simgrale.words(0), "accepted")
        self.assertEqual(simgrale.library_version().split(".")[:2], simgrale.__version__.split(".")[:2])


class Found(unittest.TestCase):
    def setUp(self):
        made = tempfile.TemporaryDirectory()
        self.addCleanup(made.cleanup)
        self.folder = Path(made.name)
        (self.folder / "simgrale").mkdir()
        for file in PACKAGE.glob("*.py"):
            (self.folder / "simgrale" / file.name).write_text(file.read_text())
        self.found = os.path.realpath(library._library._name)

    def imported(self, named="", **more):
        """What a new process says that imports the copy of the package."""
        environment = {**os.environ, "PYTHONPATH": str(self.folder), "ICOTABLE_LIBRARY": str(named), **more}
        command = [sys.executable, "-c", IMPORT]
        done = subprocess.run(command, env=environment, cwd=self.folder, stdout=subprocess.PIPE, stderr=subprocess.STDOUT, text=True)
        self.assertIn(str(self.folder), done.stdout)
        return done.stdout

    def test_beside_the_package(self):
        (self.folder / "simgrale" / "libicotable.so").symlink_to(self.found)
        self.assertIn(str(self.folder / "simgrale" / "libicotable.so"), self.imported())

    def test_named(self):
        self.assertIn(self.found, self.imported(self.found))
        said = self.imported(self.folder / "none.so")
        self.assertIn("libicotable was not found; looked at\n", said)
        self.assertIn("none.so: cannot open shared object file", said)
        self.assertNotIn(library.SONAME, said)

    def test_by_the_loader(self):
        (self.folder / library.SONAME).symlink_to(self.found)
        self.assertIn(library.SONAME, self.imported(LD_LIBRARY_PATH=str(self.folder)))

    def test_other_version(self):
        version = self.folder / "simgrale" / "version.py"
        version.write_text(version.read_text().replace(simgrale.__version__, "7.3.1"))
        said = self.imported(self.found)
        self.assertIn(f"it is version {simgrale.library_version()}, and this package is for 7.3", said)

    def test_other_library(self):
        self.assertIn("libm.so.6: it has no icotable_version", self.imported("libm.so.6"))


if __name__ == "__main__":
    unittest.main()
