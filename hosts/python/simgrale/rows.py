"""Rows of slabs as structured arrays."""

from __future__ import annotations

from enum import IntEnum
from typing import Any

import numpy as np
import numpy.typing as npt


class Kind(IntEnum):
    """How a slab is read."""

    SCALAR = 0
    REPULSIVE = 1
    NEAREST = 2
    INTERPOLATED = 3


class Place(IntEnum):
    """Where a distance lies. A reading that is NEARER or BEYOND is 0; NOWHERE is a NaN, which it refuses with 18."""

    NOWHERE = 0
    NEARER = 1
    INSIDE = 2
    BEYOND = 3


# as `rows()` gives them, and as a file has them (docs/FORMAT.md)
ROW = np.dtype([("kind", np.uint8), ("level", np.uint8), ("offset", np.uint32), ("scalar", np.float32)])
_FILE_ROW = np.dtype([("kind", "u1"), ("level", "u1"), ("offset", "<u4"), ("scalar", "<f4")])
# a term of a long-range tail, likewise
TERM = np.dtype([("coefficient", np.float64), ("kappa", np.float64), ("power", np.uint32)])
_FILE_TERM = np.dtype([("coefficient", "<f8"), ("kappa", "<f8"), ("power", "<u4")])


def rows_of(part: npt.NDArray[np.uint8]) -> npt.NDArray[Any]:
    """The rows of a section of a file; the offset of a row that holds no energies is 0."""
    rows = part.view(_FILE_ROW).astype(ROW)
    rows["offset"][rows["kind"] < Kind.NEAREST] = 0
    return rows


def terms_of(part: npt.NDArray[np.uint8]) -> npt.NDArray[Any]:
    return part.view(_FILE_TERM).astype(TERM)
