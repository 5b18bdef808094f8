"""What a build is asked for, what a table has, and what a seal says of one."""

from __future__ import annotations

from dataclasses import dataclass
from typing import Any, Optional, Union

import numpy as np
import numpy.typing as npt

from . import structs


@dataclass(frozen=True)
class Settings:
    """Of a build of two molecules. Omega is in radians, the threshold per radian; beta is one over the unit of energies.

    top: the top level, from 0 to 15. The distances go from rmin to rmax by dr, from contact outwards.
    """

    rmin: float
    rmax: float
    dr: float
    omega_step: float
    threshold: float
    beta: float
    top: int


@dataclass(frozen=True)
class AtomSettings:
    """Of a build of one molecule against an atom: without what concerns the dihedral angle."""

    rmin: float
    rmax: float
    dr: float
    threshold: float
    beta: float
    top: int


@dataclass(frozen=True)
class Grid:
    """The bins of a table, with its own rmax. Against an atom omega_step is 0 and n_omega is 1."""

    rmin: float
    rmax: float
    dr: float
    omega_step: float
    n_r: int
    n_omega: int

    @property
    def r(self) -> npt.NDArray[np.float64]:
        """The distance of each distance bin."""
        return np.arange(self.n_r) * self.dr + self.rmin

    @property
    def omega(self) -> npt.NDArray[np.float64]:
        """The dihedral angle of each dihedral bin."""
        return np.arange(self.n_omega) * self.omega_step


@dataclass(frozen=True)
class Seal:
    """What FILE.meta beside a table FILE says: its SHA-256, what it was built with, and over which meshes.

    journal_sha256: None where the build had no journal. guarded: whether the guard was on; whole: whether every slab was set and every
    slice settled after its sets; both None where the seal does not know. id: of the build, in 32 hexadecimal digits, None where it had no
    journal of format version 2. label: the host's own words for what was sampled, empty without any.
    """

    sha256: str
    table_length: int
    settings: Union[Settings, AtomSettings]
    levels: int
    meshes_hash: int
    own_meshes: bool
    version: str
    journal_sha256: Optional[str]
    guarded: Optional[bool] = None
    whole: Optional[bool] = None
    id: Optional[str] = None
    label: str = ""


KNOWN = (None, True, False)


def grid_of(table: Any, atom: bool) -> Grid:
    """The grid of what the library's read answered."""
    g = table.grid
    return Grid(g.rmin, g.rmax, g.dr, 0.0 if atom else g.omega_step, g.n_r, 1 if atom else g.n_omega)


def id_of(identity: structs.identity) -> Optional[str]:
    """In 32 hexadecimal digits, as the tool shows it; None where there is none."""
    id = bytes(identity.id)
    return id.hex() if any(id) else None


def seal_of(seal: structs.seal) -> Seal:
    g = seal.grid
    settings: Union[Settings, AtomSettings]
    if seal.atom:
        settings = AtomSettings(g.rmin, g.rmax, g.dr, g.threshold, g.beta, seal.top)
    else:
        settings = Settings(g.rmin, g.rmax, g.dr, g.omega_step, g.threshold, g.beta, seal.top)
    journal = seal.journal_sha256.decode() if seal.journaled else None
    known = KNOWN[seal.guarded], KNOWN[seal.whole], id_of(seal.identity), seal.identity.label.decode()
    return Seal(seal.sha256.decode(), seal.table_length, settings, seal.levels, seal.meshes_hash, bool(seal.own_meshes), seal.version.decode(), journal,
                *known)  # fmt: skip
