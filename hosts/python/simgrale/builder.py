"""Builds, with a journal or without."""

from __future__ import annotations

import operator
import os
import threading
from collections.abc import Iterator, Sequence
from contextlib import contextmanager
from ctypes import byref, c_double, c_uint32
from dataclasses import dataclass
from enum import IntEnum
from typing import Any, Generic, NamedTuple, NoReturn, Optional, TypeVar

import numpy as np
import numpy.typing as npt

from . import structs
from .handle import Handle
from .library import PathLike, call, check_environment, file_name, opened, words
from .poses import Floats, floats
from .refused import Refused
from .settings import AtomSettings, Settings, id_of
from .table import vertices_at

UNGUARDED, FORMAT_1, LABEL = 1, 4, 218
_S = TypeVar("_S", Settings, AtomSettings)
_B = TypeVar("_B", bound="_Build[Any]")


class Do(IntEnum):
    """What a build does next."""

    SET = 0
    SETTLE = 1
    WRITE = 2


class Step(NamedTuple):
    """What comes next: set slab (ri, oi) at the level, at distance r and dihedral omega; settle slice ri; or write."""

    do: Do
    ri: int
    oi: int
    level: int
    r: float
    omega: float


class Settled(NamedTuple):
    """What a settle tells: the largest gradient of the slabs that still hold energies, and the neighbour comparisons made."""

    gradient: float
    comparisons: int


class Progress(NamedTuple):
    """How far a build is. length: of the table's file, were it written now. records and cut: of the journal, the calls that it holds
    and the bytes that were cut off behind the last whole one; 0 without a journal. level_lost: the level dropped before
    the first interpolated slice, as it does inside a wall: the well has a coarser mesh than the top level's, and a
    larger rmin is the remedy."""

    n_r: int
    n_omega: int
    top: int
    level: int
    slabs: int
    set: int
    settled: int
    length: int
    records: int
    cut: int
    level_lost: bool


@dataclass(frozen=True)
class Tail:
    """A long-range tail: prefactor times the sum of coefficient * exp(-kappa*r) / r**power over terms of these three."""

    terms: Sequence[tuple[float, float, int]]
    prefactor: float


def _letters(label: str) -> bytes:
    """A label as C takes it, which would end at a zero byte."""
    if "\0" in label:
        raise Refused(LABEL, f"{words(LABEL)}: a zero byte")
    return label.encode("utf-8", "surrogatepass")


class _Build(Generic[_S]):
    """What builds of both kinds share. Calls of several threads come one after another; a forked child has no part in its parent's build."""

    _atom: bool

    def __init__(self, settings: _S, journal: Optional[PathLike] = None, meshes: Optional[PathLike] = None, guarded: bool = True, *,
                 label: Optional[str] = None, version_1: bool = False, _how: str = "open") -> None:  # fmt: skip
        if isinstance(settings, AtomSettings) != self._atom:
            raise TypeError(f"{type(self).__name__} does not take {type(settings).__name__}")
        self.settings: _S = settings
        self.journal = None if journal is None else os.fsdecode(journal)
        names = [None if path is None else file_name(path) for path in (journal, meshes)]
        step = settings.omega_step if isinstance(settings, Settings) else 0.0
        grid = structs.grid(settings.rmin, settings.rmax, settings.dr, step, settings.threshold, settings.beta, 0, 0)
        wanted = structs.build_settings(int(self._atom), grid, operator.index(settings.top), *names,
                                        (0 if guarded else UNGUARDED) + (FORMAT_1 if version_1 else 0), None,
                                        None if label is None else _letters(label))  # fmt: skip
        self._process = os.getpid()
        self._turn = threading.RLock()
        self._handle = Handle(opened(f"build_{_how}", byref(wanted)), "build_close")

    @classmethod
    def open(cls: type[_B], settings: _S, journal: Optional[PathLike] = None, meshes: Optional[PathLike] = None, guarded: bool = True, *,
             label: Optional[str] = None, version_1: bool = False) -> _B:  # fmt: skip
        """Resumes where the journal is there, and begins it where it is not; without a journal a build in memory.

        label: your words for what is sampled, molecules and force field. A journal with another label is refused with 219.
        version_1: a journal that begins has format version 1, without id and label, for a library before 0.24.
        """
        return cls(settings, journal, meshes, guarded, label=label, version_1=version_1)

    @classmethod
    def begin(cls: type[_B], settings: _S, journal: Optional[PathLike] = None, meshes: Optional[PathLike] = None, guarded: bool = True, *,
              label: Optional[str] = None, version_1: bool = False) -> _B:  # fmt: skip
        """A build that begins: refused with 201 where the journal is there already."""
        return cls(settings, journal, meshes, guarded, label=label, version_1=version_1, _how="begin")

    @classmethod
    def resume(cls: type[_B], settings: _S, journal: PathLike, meshes: Optional[PathLike] = None, guarded: bool = True, *,
               label: Optional[str] = None, version_1: bool = False) -> _B:  # fmt: skip
        """A build that goes on where its journal ends: refused with 202 where there is none."""
        return cls(settings, journal, meshes, guarded, label=label, version_1=version_1, _how="resume")

    def _identity(self) -> structs.identity:
        with self._lent() as pointer:
            return structs.identity.from_buffer_copy(call("build_state", pointer).contents.identity)

    @property
    def label(self) -> str:
        """Your words for what is sampled, of the journal's head; empty without any."""
        return str(self._identity().label.decode())

    @property
    def id(self) -> Optional[str]:
        """The id of the build in 32 hexadecimal digits; None without a journal, or of one of format version 1."""
        return None if self.journal is None else id_of(self._identity())

    @contextmanager
    def _lent(self) -> Iterator[int]:
        if os.getpid() != self._process:
            raise RuntimeError("a build belongs to the process that opened it: sample in others, and set here")
        with self._turn, self._handle.lent() as pointer:
            yield pointer

    def _check(self, pointer: int, number: int) -> None:
        if number != 0:
            raise Refused(number, call("build_said", pointer).decode(errors="replace"))

    def _set(self, ri: int, oi: int, energies: npt.ArrayLike) -> None:
        given = np.ascontiguousarray(floats(energies, "energies"))
        ri, oi = operator.index(ri), operator.index(oi)
        check_environment()
        with self._lent() as pointer:
            self._check(pointer, call("build_set", pointer, ri, oi, given.__array_interface__["data"][0], given.size))

    def settle(self, ri: int) -> Settled:
        """Settles a slice; the level may drop. With a journal it returns once the call is on disk."""
        check_environment()
        with self._lent() as pointer:
            settled = call("build_settle", pointer, operator.index(ri))
            self._check(pointer, settled.number)
        return Settled(settled.gradient, settled.comparisons)

    def progress(self) -> Progress:
        with self._lent() as pointer:
            p, state = call("build_progress", pointer), call("build_state", pointer).contents
            far = (p.n_r, p.n_omega, p.top, p.level, p.slabs, p.set, p.settled, p.length)
            return Progress(*far, state.records, state.cut, p.level_lost != 0)

    def _step(self, do: Do, ri: int, oi: int, level: int) -> Step:
        step = self.settings.omega_step if isinstance(self.settings, Settings) else 0.0
        return Step(do, ri, oi, level, float(self.settings.rmin + ri * self.settings.dr), float(oi * step))

    def next(self) -> Step:
        """What comes next, from contact outwards."""
        with self._lent() as pointer:
            p = call("build_progress", pointer)
        return self._step(Do(p.step), p.ri, p.oi, p.level)

    def steps(self) -> Iterator[Step]:
        """Every step up to the writing, each as it comes next: carry it out before the next is asked for, or RuntimeError is raised."""
        before = None
        while (step := self.next()).do is not Do.WRITE:
            if step == before:
                raise RuntimeError(f"{step.do.name} of slab ({step.ri}, {step.oi}) was not carried out")
            yield step
            before = step

    def missing(self) -> list[Step]:
        """The slabs of the current slice that were not set, for samplers that work side by side; empty where it is to be settled."""
        with self._lent() as pointer:
            p, state = call("build_progress", pointer), call("build_state", pointer).contents
            if p.step != Do.SET:
                return []
            return [self._step(Do.SET, p.ri, oi, p.level) for oi in range(p.n_omega) if not state.set[p.ri * p.n_omega + oi]]

    def vertices(self, level: Optional[int] = None) -> Floats:
        """The directions of a level's vertices, (n, 3); of the current level where none is named."""
        with self._lent() as pointer:
            p = call("build_progress", pointer)
            level = int(p.level) if level is None else operator.index(level)
            if not 0 <= level <= p.top:
                raise ValueError(f"level {level} of a build with top level {p.top}")
            return vertices_at(call("build_vertices", pointer, level, None), level)

    def write(self, path: PathLike) -> None:
        """Writes the table, its seal FILE.meta and, where the meshes are not the library's own, FILE.mesh; each is replaced whole."""
        check_environment()
        with self._lent() as pointer:
            self._check(pointer, call("build_write", pointer, file_name(path)))

    def close(self) -> None:
        """Ends the build. What its journal holds can be resumed; a build without one is gone."""
        self._handle.close()

    @property
    def closed(self) -> bool:
        return self._handle.closed

    def __enter__(self: _B) -> _B:
        return self

    def __exit__(self, *_: object) -> None:
        self.close()

    def __reduce__(self) -> NoReturn:
        raise TypeError(f"a {type(self).__name__} is not pickled: it belongs to its process")


class Builder(_Build[Settings]):
    """A build of a table of two molecules: resumes where its journal is there, and begins it where it is not."""

    _atom = False

    def set(self, ri: int, oi: int, energies: npt.ArrayLike) -> None:
        """Gives slab (ri, oi) its n*n energies of the current level, energies[i, j] with a at vertex i and b at vertex j.

        With a journal it returns once the call is on disk.
        """
        self._set(ri, oi, energies)

    def write_tail(self, path: PathLike, tail: Tail) -> None:
        """The same as write, with a long-range tail."""
        powers = [operator.index(power) for _, _, power in tail.terms]
        if any(not 0 <= power < 2**32 for power in powers):
            raise ValueError("a power is from 0 to 2147483647")
        count = len(powers)
        coefficients, kappas = ((c_double * count)(*(term[k] for term in tail.terms)) for k in range(2))
        terms = structs.terms(coefficients, kappas, (c_uint32 * count)(*powers), count, tail.prefactor)
        check_environment()
        with self._lent() as pointer:
            self._check(pointer, call("build_write_tail", pointer, file_name(path), byref(terms)))


class AtomBuilder(_Build[AtomSettings]):
    """A build of a table of one molecule against an atom."""

    _atom = True

    def set(self, ri: int, energies: npt.ArrayLike) -> None:
        """Gives slab ri its n energies of the current level. With a journal it returns once the call is on disk."""
        self._set(ri, 0, energies)
