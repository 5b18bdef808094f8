"""Why two tables differ."""

from __future__ import annotations

from dataclasses import dataclass, fields
from typing import Any, Optional, Union

import numpy as np
import numpy.typing as npt

from .rows import Kind
from .table import AtomTable, Table

AnyTable = Union[Table, AtomTable]

# a slab whose row differs: both rows, how many energies differ in their bits, and by how much at most
SLAB = np.dtype(
    [("ri", np.uint32), ("oi", np.uint32), ("kind_a", np.uint8), ("kind_b", np.uint8), ("level_a", np.uint8), ("level_b", np.uint8)]
    + [("scalar_a", np.float32), ("scalar_b", np.float32), ("energies", np.uint64), ("differing", np.uint64), ("most", np.float64)]
)


@dataclass(frozen=True)
class Difference:
    """What differs between two tables; false where they are the same, byte for byte, over the same meshes.

    grid: what differs of the grid and the level count, each with both numbers. slabs: one entry a slab whose row differs, with the
    fields of SLAB; energies is 0 where the two rows are not Mesh rows of one level, and most is then that of two scalars. None where
    the tables are of two kinds or have other bin counts, so that their slabs are not the same ones. tails: whether the long-range
    tails differ. meshes: whether the tables are read with other meshes, so that the energies of one vertex are of other directions.
    """

    same_bytes: bool
    same_kind: bool
    grid: dict[str, tuple[float, float]]
    slabs: Optional[npt.NDArray[Any]]
    tails: bool
    meshes: bool = False

    def __bool__(self) -> bool:
        return not self.same_bytes or self.meshes

    def __str__(self) -> str:
        first = ["the meshes differ: vertices of one number are other directions, and so are the energies at them"] * self.meshes
        return "\n".join([*first, self._rest()])

    def _rest(self) -> str:
        if self.same_bytes:
            return "the same table, byte for byte" + ", over other meshes" * self.meshes
        if not self.same_kind:
            return "of two kinds: of two molecules, and against an atom"
        lines = [f"{name}: {x!r} and {y!r}" for name, (x, y) in self.grid.items()]
        if self.slabs is None:
            lines.append("with other bin counts the slabs are not the same ones")
        else:
            lines.append(f"{len(self.slabs)} slabs have another row")
            lines += [_slab_words(slab) for slab in self.slabs]
        return "\n".join(lines + ["the long-range tails differ"] * self.tails)


def _slab_words(slab: Any) -> str:
    rows = [f"{Kind(slab['kind_' + x]).name} of level {slab['level_' + x]}" for x in "ab"]
    for k, x in enumerate("ab"):
        if slab["kind_" + x] < Kind.NEAREST:
            rows[k] = Kind(slab["kind_" + x]).name + (f" {slab['scalar_' + x]:g}" if slab["kind_" + x] == Kind.SCALAR else "")
    what = rows[0] if rows[0] == rows[1] else " against ".join(rows)
    if slab["energies"]:
        what += f", {slab['differing']} of {slab['energies']} energies differ, by at most {slab['most']:g}"
    return f"  slab ({slab['ri']}, {slab['oi']}): {what}"


def _bits(x: npt.NDArray[np.float32]) -> npt.NDArray[np.uint32]:
    return x.view(np.uint32)


def _apart(x: npt.NDArray[np.float32], y: npt.NDArray[np.float32]) -> float:
    """How far apart numbers are at most; equal infinities are not. NaNs, which only Scalar rows hold, count as 0 apart."""
    with np.errstate(invalid="ignore"):
        apart = np.where(x == y, 0.0, np.abs(x.astype(np.float64) - y.astype(np.float64)))
    return float(np.nanmax(apart, initial=0.0))


def _slab_of(table: AnyTable, ri: int, oi: int) -> npt.NDArray[np.float32]:
    return table.slab(ri) if isinstance(table, AtomTable) else table.slab(ri, oi)


def _compare(a: AnyTable, b: AnyTable, x: Any, y: Any, ri: int, oi: int) -> Optional[tuple[Any, ...]]:
    """The entry of one slab, or None where its rows are the same but for their offsets."""
    energies = differing = 0
    most = 0.0
    if x["kind"] >= Kind.NEAREST and y["kind"] >= Kind.NEAREST and x["level"] == y["level"]:
        p, q = _slab_of(a, ri, oi), _slab_of(b, ri, oi)
        energies, differing, most = p.size, int(np.count_nonzero(_bits(p) != _bits(q))), _apart(p, q)
    elif x["kind"] == y["kind"] == Kind.SCALAR:
        most = _apart(np.array([x["scalar"]]), np.array([y["scalar"]]))
    rows = [(z["kind"], z["level"], z["scalar"].tobytes()) for z in (x, y)]
    if rows[0] == rows[1] and differing == 0:
        return None
    return ri, oi, x["kind"], y["kind"], x["level"], y["level"], x["scalar"], y["scalar"], energies, differing, most


def _slabs(a: AnyTable, b: AnyTable) -> npt.NDArray[Any]:
    shape = a.grid.n_r, a.grid.n_omega
    first, second = a.rows().reshape(shape), b.rows().reshape(shape)
    # rows that hold no energies and are the same need no look
    scalars = _bits(np.ascontiguousarray(first["scalar"])) == _bits(np.ascontiguousarray(second["scalar"]))
    same = (first["kind"] == second["kind"]) & (first["kind"] < Kind.NEAREST) & scalars
    found = [_compare(a, b, first[ri, oi], second[ri, oi], ri, oi) for ri, oi in np.argwhere(~same)]
    return np.array([entry for entry in found if entry is not None], SLAB)


def _grid(a: AnyTable, b: AnyTable) -> dict[str, tuple[float, float]]:
    pairs = {field.name: (getattr(a.grid, field.name), getattr(b.grid, field.name)) for field in fields(a.grid) if field.name != "rmax"}
    pairs["levels"] = a.levels, b.levels
    return {name: (x, y) for name, (x, y) in pairs.items() if np.float64(x).tobytes() != np.float64(y).tobytes()}


def _tails(a: AnyTable, b: AnyTable) -> bool:
    if isinstance(a, AtomTable) or isinstance(b, AtomTable):
        return False
    tails = [table.terms() for table in (a, b)]
    parts = [(terms.tobytes(), b"" if factor is None else np.float64(factor).tobytes()) for terms, factor in tails]
    return parts[0] != parts[1]


def diff(a: AnyTable, b: AnyTable) -> Difference:
    """Compares two tables: the meshes that they are read with, grids by their bits, rows by kind, level, scalar and energies, and
    long-range tails. Offsets are not compared."""
    levels = min(a.levels, b.levels)
    meshes = a.meshes_hash(levels) != b.meshes_hash(levels)
    if a.file() == b.file():
        return Difference(True, True, {}, np.empty(0, SLAB), False, meshes)
    if isinstance(a, AtomTable) != isinstance(b, AtomTable):
        return Difference(False, False, {}, None, False, meshes)
    grid = _grid(a, b)
    slabs = None if "n_r" in grid or "n_omega" in grid else _slabs(a, b)
    return Difference(False, True, grid, slabs, _tails(a, b), meshes)
