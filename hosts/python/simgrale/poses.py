"""Poses in arrays: broadcast, lent to the library as columns, and their answers."""

from __future__ import annotations

import operator
from ctypes import byref, c_double
from typing import Any, Optional

import numpy as np
import numpy.typing as npt

from . import structs
from .handle import Handle
from .library import call, check_environment, words
from .refused import Refused

Floats = npt.NDArray[np.float64]

# Poses in one call of the library: the interpreter can be interrupted between two calls, some tenths of a second.
BLOCK = 1 << 18


def floats(values: npt.ArrayLike, what: str) -> Floats:
    """An array of float64, which is the caller's own where it has such numbers already, with whatever strides."""
    array = np.asarray(values)
    if array.dtype.kind not in "fiu":
        raise TypeError(f"{what} has to be real numbers, not {array.dtype}")
    return array.astype(np.float64, copy=False)


def directions(values: npt.ArrayLike, what: str) -> Floats:
    """The same of directions, whose last axis has three coordinates."""
    array = floats(values, what)
    if array.ndim == 0 or array.shape[-1] != 3:
        raise ValueError(f"the last axis of {what} has to have 3 coordinates; its shape is {array.shape}")
    return array


def _address(array: npt.NDArray[Any], start: int = 0) -> int:
    """Where an entry of the first axis is."""
    return int(array.__array_interface__["data"][0]) + start * array.strides[0]


class Poses:
    """r, omega, a and b, or against an atom r and a, broadcast against each other. shape is that of their answers."""

    def __init__(self, scalars: dict[str, Floats], vectors: dict[str, Floats]) -> None:
        self.shape = np.broadcast_shapes(*(x.shape for x in scalars.values()), *(v.shape[:-1] for v in vectors.values()))
        # what is not a view is copied by reshape; the arrays are held here as long as the library looks at them
        self._flat = {name: np.broadcast_to(x, self.shape).reshape(-1) for name, x in scalars.items()}
        for name, vector in vectors.items():
            packed = vector if vector.strides[-1] == vector.itemsize else np.ascontiguousarray(vector)
            self._flat[name] = np.broadcast_to(packed, self.shape + (3,)).reshape(-1, 3)
        self.count = len(self._flat["r"])

    def columns(self, start: int) -> structs.columns:
        """Where the poses from one on are."""
        columns = structs.columns()
        for name, x in self._flat.items():
            setattr(columns, name, _address(x, start))
            setattr(columns, name + "_stride", x.strides[0])
        return columns


class Answers:
    """What many poses are answered: energies, and where they are wanted both squared distances and numbers, in the poses' shape."""

    def __init__(self, poses: Poses, distances: bool, numbers: bool) -> None:
        self._shape = poses.shape
        self._energies = np.empty(poses.count)
        self._distances = np.empty((poses.count, 2)) if distances else None
        self._numbers = np.empty(poses.count, np.uint64) if numbers else None

    def places(self, start: int) -> list[Optional[int]]:
        """Where those of the poses from one on go."""
        return [None if x is None else _address(x, start) for x in (self._energies, self._distances, self._numbers)]

    def strike(self) -> None:
        """Refused poses, whose energy and distances the library leaves 0, are NaN."""
        refused = self.numbers != 0
        self._energies[refused.reshape(-1)] = np.nan
        if self._distances is not None:
            self._distances[refused.reshape(-1)] = np.nan

    def refuse_first(self) -> None:
        """Raises Refused at the first pose whose number is not 0."""
        first = int(np.flatnonzero(self.numbers)[0])
        number = int(self.numbers.reshape(-1)[first])
        raise Refused(number, words(number), tuple(int(i) for i in np.unravel_index(first, self._shape)) if self._shape else None)

    # a single pose is answered with numbers, not arrays
    @property
    def energies(self) -> Floats:
        return self._energies.reshape(self._shape)[()]

    @property
    def distances(self) -> tuple[Floats, Floats]:
        assert self._distances is not None
        return self._distances[:, 0].reshape(self._shape)[()], self._distances[:, 1].reshape(self._shape)[()]

    @property
    def numbers(self) -> npt.NDArray[np.uint64]:
        assert self._numbers is not None
        return self._numbers.reshape(self._shape)[()]


def _ask(pointer: int, poses: Poses, answers: Answers, beta: Optional[float], threads: int) -> int:
    """Fills the answers; how many poses are refused."""
    weight = None if beta is None else byref(c_double(beta))
    refused = 0
    for start in range(0, poses.count, BLOCK * threads):
        count = min(BLOCK * threads, poses.count - start)
        refused += call("reader_columns", pointer, byref(poses.columns(start)), count, weight, *answers.places(start), threads)
    return refused


def read(handle: Handle, poses: Poses, beta: Optional[float] = None, threads: int = 1, distances: bool = False, numbers: bool = False) -> Answers:
    """Answers every pose. Unless numbers are wanted, a refused one raises Refused."""
    threads = operator.index(threads)
    if not 1 <= threads <= 256:
        raise ValueError(f"threads from 1 to 256, not {threads}")
    check_environment()
    answers = Answers(poses, distances, numbers)
    with handle.lent() as pointer:
        refused = _ask(pointer, poses, answers, beta, threads)
        if refused and not numbers:
            answers = Answers(poses, False, True)
            _ask(pointer, poses, answers, beta, threads)
            answers.refuse_first()
    if refused:
        answers.strike()
    return answers
