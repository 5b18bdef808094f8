"""docs/GUIDE.md, From Python, followed from the page alone: its programs build a table, are killed and started again, and read it."""

import os
import re
import signal
import subprocess
import sys
import tempfile
import unittest
from pathlib import Path

GUIDE = Path(__file__).resolve().parents[3] / "docs" / "GUIDE.md"
# before the page's program: the process kills itself in the place of the call whose number it is handed
KILLED = """
import os, signal, sys
import simgrale
kept, left = simgrale.Builder._set, [int(sys.argv[1])]

def set_or_die(self, *arguments):
    left[0] -= 1
    if left[0] == 0:
        os.kill(os.getpid(), signal.SIGKILL)
    return kept(self, *arguments)

simgrale.Builder._set = set_or_die
"""


def programs():
    section = GUIDE.read_text(encoding="utf-8").split("\n## From Python\n")[1].split("\n## ")[0]
    return re.findall(r"\n```python\n(.*?)```\n", section, re.DOTALL)


class Guide(unittest.TestCase):
    def run_in(self, folder, program, *arguments):
        environment = {**os.environ, "PYTHONPATH": os.pathsep.join(path for path in sys.path if path)}
        command = [sys.executable, "-c", program, *arguments]
        return subprocess.run(command, cwd=folder, env=environment, stdout=subprocess.PIPE, stderr=subprocess.STDOUT, text=True)

    def test_followed(self):
        build, read = programs()
        memory = "/dev/shm" if os.access("/dev/shm", os.W_OK) else None
        with tempfile.TemporaryDirectory(dir=memory) as quiet, tempfile.TemporaryDirectory(dir=memory) as disturbed:
            self.assertEqual(self.run_in(quiet, build).returncode, 0)
            for calls in "1", "40", "150":
                done = self.run_in(disturbed, KILLED + build, calls)
                self.assertEqual(done.returncode, -signal.SIGKILL, done.stdout)
                self.assertFalse(os.path.exists(f"{disturbed}/table.icotable"))
            self.assertEqual(self.run_in(disturbed, build).returncode, 0)
            tables = [Path(folder, "table.icotable").read_bytes() for folder in (quiet, disturbed)]
            self.assertEqual(*tables)
            said = self.run_in(disturbed, read)
            self.assertEqual(said.returncode, 0, said.stdout)
            self.assertRegex(said.stdout, r"^-\d+\.\d+ \(90, 90\) \[[0-3 ]+\]\n$")


if __name__ == "__main__":
    unittest.main()
