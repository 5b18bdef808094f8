"""Tables that are read."""

from __future__ import annotations

import operator
import os
from ctypes import byref, c_double, c_size_t, c_uint8
from typing import Any, Literal, NamedTuple, NoReturn, Optional, TypeVar, Union, overload

import numpy as np
import numpy.typing as npt

from . import structs
from .handle import Handle
from .library import OTHER_KIND, PathLike, call, check, file_name, opened, words
from .poses import Answers, Floats, Poses, directions, floats, read
from .refused import Refused
from .rows import Kind, Place, rows_of, terms_of
from .settings import Grid, Seal, grid_of, seal_of

Numbers = npt.NDArray[np.uint64]
SEAL_ABSENT = 251
_T = TypeVar("_T", bound="_Reader")


class Span(NamedTuple):
    """The distance bins between two ends, and the smallest and largest energy in their rows at a dihedral angle."""

    first: int
    last: int
    smallest: float
    largest: float
    scalar_nans: int


def copied(address: int, length: int) -> npt.NDArray[np.uint8]:
    """Bytes of the library's, copied: they go when its handle is closed."""
    return np.ctypeslib.as_array((c_uint8 * length).from_address(address)).copy()


def vertices_at(address: int, level: int) -> Floats:
    count = call("vertices", level)
    return np.ctypeslib.as_array((c_double * (3 * count)).from_address(address)).copy().reshape(count, 3)


class _Reader:
    """What tables of both kinds share: opening, closing, rows, energies and vertices."""

    _atom: bool

    def __init__(self, path: PathLike, meshes: Optional[PathLike] = None) -> None:
        self.path = os.fsdecode(path)
        name = file_name(path)
        self._handle = Handle(opened("reader_open", name, None if meshes is None else file_name(meshes)), "reader_close")
        with self._handle.lent() as pointer:
            atom = bool(call("reader_atom", pointer))
            if atom != self._atom:
                self._handle.close()
                raise Refused(OTHER_KIND, f"{words(OTHER_KIND)}: {self.path} is for {'AtomTable' if atom else 'Table'}")
            table = call("reader_atom_table" if atom else "reader_table", pointer).contents
            self._start = list(table.start)
            self.levels = int(table.levels)
            self._terms = 0 if atom else int(table.terms)
            self.grid: Grid = grid_of(table, atom)

    @classmethod
    def open(cls: type[_T], path: PathLike, meshes: Optional[PathLike] = None) -> _T:
        """Maps the file, lets the library look it over, and makes the meshes and locators of its levels.

        meshes: the name of a mesh file; None: the one that the table's seal names, else the library's own.
        """
        return cls(path, meshes)

    def close(self) -> None:
        """Closes the file; readings that are under way in other threads end first. Later calls are refused with 261."""
        self._handle.close()

    @property
    def closed(self) -> bool:
        return self._handle.closed

    def __enter__(self: _T) -> _T:
        return self

    def __exit__(self, *_: object) -> None:
        self.close()

    def __reduce__(self) -> NoReturn:
        raise TypeError(f"a {type(self).__name__} is not pickled: open {self.path!r} in each process")

    def __repr__(self) -> str:
        return f"<{type(self).__name__} {self.path!r}, {self.grid.n_r} distances, {self.levels} levels{', closed' if self.closed else ''}>"

    def _section(self, start: int, length: int) -> npt.NDArray[np.uint8]:
        with self._handle.lent() as pointer:
            return copied(call("reader_file", pointer, None) + start, length)

    def file(self) -> bytes:
        """The bytes of the table's file, as they were mapped."""
        length = c_size_t()
        with self._handle.lent() as pointer:
            address = call("reader_file", pointer, byref(length))
            return copied(address, length.value).tobytes()

    def rows(self) -> npt.NDArray[Any]:
        """The row of each slab: an array of (n_r, n_omega), against an atom (n_r,), with the fields kind, level, offset and scalar.

        kind: see Kind. level and offset (of the first energy): of NEAREST and INTERPOLATED; scalar: of SCALAR; else 0.
        """
        rows = rows_of(self._section(self._start[3], 10 * self.grid.n_r * self.grid.n_omega))
        return rows if self._atom else rows.reshape(self.grid.n_r, self.grid.n_omega)

    def place(self, r: npt.ArrayLike) -> Union[Place, npt.NDArray[np.uint8]]:
        """Where each distance lies, as a reading compares it: an array of Place's numbers; of one distance a Place.

        A reading below rmin is 0: `energies[table.place(r) == Place.NEARER] = np.inf` makes a wall of it.
        """
        at = floats(r, "r")
        given, places = np.ascontiguousarray(at).reshape(-1), np.empty(at.size, np.uint8)
        with self._handle.lent() as pointer:
            call("reader_places", pointer, given.ctypes.data, given.size, places.ctypes.data)
        return places.reshape(at.shape) if at.shape else Place(int(places[0]))

    def _slab(self, ri: int, oi: int) -> npt.NDArray[np.float32]:
        row = structs.row()
        ri, oi = operator.index(ri), operator.index(oi)
        with self._handle.lent() as pointer:
            check(call("reader_row", pointer, ri, oi, byref(row)))
            if row.kind < Kind.NEAREST:
                raise ValueError(f"slab ({ri}, {oi}) is {Kind(row.kind).name}: it holds no energies")
            n = call("vertices", row.level)
            shape = (n,) if self._atom else (n, n)
            part = copied(call("reader_file", pointer, None) + self._start[4] + 4 * row.offset, 4 * int(np.prod(shape)))
        return part.view("<f4").astype(np.float32, copy=False).reshape(shape)

    def meshes_hash(self, levels: Optional[int] = None) -> int:
        """The hash of the meshes that it is read with (docs/FORMAT.md): of so many levels, or of all that it has."""
        levels = self.levels if levels is None else operator.index(levels)
        if not 1 <= levels <= self.levels:
            raise ValueError(f"{levels} levels of a table with {self.levels}")
        with self._handle.lent() as pointer:
            return int(call("meshes_hash", call("reader_meshes", pointer), levels))

    def vertices(self, level: int) -> Floats:
        """The directions of a level's vertices, (n, 3)."""
        level = operator.index(level)
        if not 0 <= level < self.levels:
            raise ValueError(f"level {level} of a table with levels 0 to {self.levels - 1}")
        with self._handle.lent() as pointer:
            return vertices_at(call("level_vertices", call("reader_meshes", pointer), level), level)

    def seal(self) -> Optional[Seal]:
        """What the seal beside the table says now; None where there is none."""
        seal, fault = structs.seal(), structs.fault()
        number = call("seal_read", byref(seal), file_name(self.path), byref(fault))
        if number == SEAL_ABSENT:
            return None
        check(number, fault.said.decode(errors="replace"))
        return seal_of(seal)


def _energies(answers: Answers, numbers: bool) -> Union[Floats, tuple[Floats, Numbers]]:
    return (answers.energies, answers.numbers) if numbers else answers.energies


class Table(_Reader):
    """A table of two molecules.

    Directions a and b have any length but 0. a is that of the second molecule in the frame of the first; b is that of
    the first in the frame of the second, turned around z by omega (docs/GUIDE.md, What a table is). Any number of
    threads may use one table at once.
    """

    _atom = False

    @overload
    def energies(self, r: npt.ArrayLike, omega: npt.ArrayLike, a: npt.ArrayLike, b: npt.ArrayLike, beta: Optional[float] = ...,
                 threads: int = ..., *, numbers: Literal[False] = ...) -> Floats: ...  # fmt: skip

    @overload
    def energies(self, r: npt.ArrayLike, omega: npt.ArrayLike, a: npt.ArrayLike, b: npt.ArrayLike, beta: Optional[float] = ...,
                 threads: int = ..., *, numbers: Literal[True]) -> tuple[Floats, Numbers]: ...  # fmt: skip

    def energies(self, r: npt.ArrayLike, omega: npt.ArrayLike, a: npt.ArrayLike, b: npt.ArrayLike, beta: Optional[float] = None,
                 threads: int = 1, *, numbers: bool = False) -> Union[Floats, tuple[Floats, Numbers]]:  # fmt: skip
        """The energy of each pose: infinity inside a wall, 0 outside the table's distances, also below rmin: place.

        r and omega: any shapes; a and b: shapes whose last axis is 3; they are broadcast. beta: weighted by temperature, else plain.
        Each energy is, to the bit, that of icotable_reading or icotable_boltzmann. threads: of the library, from 1 to 256.

        A refused pose raises Refused with its index. With numbers=True none does: the second array has each pose's number, 0 where
        it was accepted, and the energy of a refused one is NaN.
        """
        poses = self._poses(r, omega, a, b)
        return _energies(read(self._handle, poses, beta, threads, numbers=numbers), numbers)

    def distances(self, r: npt.ArrayLike, omega: npt.ArrayLike, a: npt.ArrayLike, b: npt.ArrayLike, threads: int = 1) -> tuple[Floats, Floats]:
        """For each pose how far the vertices lie that stand for a and b, squared; 0 where the row is not read at the nearest ones."""
        poses = self._poses(r, omega, a, b)
        return read(self._handle, poses, None, threads, distances=True).distances

    @staticmethod
    def _poses(r: npt.ArrayLike, omega: npt.ArrayLike, a: npt.ArrayLike, b: npt.ArrayLike) -> Poses:
        return Poses({"r": floats(r, "r"), "omega": floats(omega, "omega")}, {"a": directions(a, "a"), "b": directions(b, "b")})

    def tail(self, r: npt.ArrayLike) -> Floats:
        """The long-range tail at each distance, one call each; 0 where the table has none. No reading includes it."""
        at = floats(r, "r")
        with self._handle.lent() as pointer:
            found = [call("reader_tail", pointer, x) for x in at.reshape(-1)]
        for i, value in enumerate(found):
            if value.number != 0:
                raise Refused(value.number, words(value.number), tuple(map(int, np.unravel_index(i, at.shape))) if at.shape else None)
        return np.array([value.energy for value in found]).reshape(at.shape)[()]

    def terms(self) -> tuple[npt.NDArray[Any], Optional[float]]:
        """The terms of the long-range tail, with the fields coefficient, kappa and power, and its prefactor: None without terms."""
        if self._terms == 0:
            return terms_of(np.empty(0, np.uint8)), None
        part = self._section(self._start[5], 20 * self._terms + 8)
        return terms_of(part[:-8]), float(part[-8:].view("<f8")[0])

    def span(self, low: float, high: float, omega: float) -> Span:
        """Of the distances from low to high: their bins, and the smallest and largest energy there (docs/GUIDE.md says what it bounds)."""
        with self._handle.lent() as pointer:
            s = call("reader_span", pointer, low, high, omega)
        check(s.number)
        return Span(s.first, s.last, s.smallest, s.largest, s.scalar_nans)

    def slab(self, ri: int, oi: int) -> npt.NDArray[np.float32]:
        """The energies of slab (ri, oi), (n, n): with a at vertex i and b at vertex j. ValueError where its row holds none."""
        return self._slab(ri, oi)


class AtomTable(_Reader):
    """A table of one molecule against an atom. The direction is in the molecule's frame, toward the atom."""

    _atom = True

    @overload
    def energies(self, r: npt.ArrayLike, direction: npt.ArrayLike, beta: Optional[float] = ..., threads: int = ...,
                 *, numbers: Literal[False] = ...) -> Floats: ...  # fmt: skip

    @overload
    def energies(self, r: npt.ArrayLike, direction: npt.ArrayLike, beta: Optional[float] = ..., threads: int = ...,
                 *, numbers: Literal[True]) -> tuple[Floats, Numbers]: ...  # fmt: skip

    def energies(self, r: npt.ArrayLike, direction: npt.ArrayLike, beta: Optional[float] = None, threads: int = 1,
                 *, numbers: bool = False) -> Union[Floats, tuple[Floats, Numbers]]:  # fmt: skip
        """The energy of each pose, as Table.energies; to the bit that of icotable_atom_reading or icotable_atom_boltzmann."""
        poses = Poses({"r": floats(r, "r")}, {"a": directions(direction, "direction")})
        return _energies(read(self._handle, poses, beta, threads, numbers=numbers), numbers)

    def slab(self, ri: int) -> npt.NDArray[np.float32]:
        """The energies of slab ri, (n,). ValueError where its row holds none."""
        return self._slab(ri, 0)


def open_table(path: PathLike, meshes: Optional[PathLike] = None) -> Union[Table, AtomTable]:
    """The table of a file, of whichever kind it is."""
    try:
        return Table.open(path, meshes)
    except Refused as refused:
        if refused.number != OTHER_KIND:
            raise
    return AtomTable.open(path, meshes)
