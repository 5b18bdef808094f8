"""Verified pair-energy tables from Python: build, resume, read, compare.

    import simgrale

    with simgrale.Table.open("table.icotable") as table:
        energies = table.energies(r, omega, a, b)      # arrays, broadcast

What the library's own calls do with tables is proved; this package, like the handles that it is over, is not. docs/GUIDE.md, From
Python, shows a build that can be killed and started again.
"""

from .builder import AtomBuilder, Builder, Do, Progress, Settled, Step, Tail
from .diff import Difference, diff
from .library import NoLibrary, library_version, words
from .refused import Refused
from .rows import Kind, Place
from .settings import AtomSettings, Grid, Seal, Settings
from .table import AtomTable, Span, Table, open_table
from .version import VERSION as __version__

__all__ = [
    "AtomBuilder",
    "AtomSettings",
    "AtomTable",
    "Builder",
    "Difference",
    "Do",
    "Grid",
    "Kind",
    "NoLibrary",
    "Place",
    "Progress",
    "Refused",
    "Seal",
    "Settings",
    "Settled",
    "Span",
    "Step",
    "Table",
    "Tail",
    "__version__",
    "diff",
    "library_version",
    "open_table",
    "words",
]
