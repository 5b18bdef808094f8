"""The structs of icotable.h and the helpers' headers, by hand; tests/hosts/python compares each with the compiler's.

A class is named as its struct without icotable_. LEADING are those of which the first fields alone are here.
"""

from __future__ import annotations

from ctypes import POINTER, Structure, c_char, c_char_p, c_double, c_int, c_size_t, c_ssize_t, c_uint, c_uint8, c_uint32, c_uint64, c_void_p


class fault(Structure):
    _fields_ = [("number", c_uint64), ("said", c_char * 400)]


class grid(Structure):
    _fields_ = [(name, c_double) for name in ("rmin", "rmax", "dr", "omega_step", "threshold", "beta")] + [("n_r", c_uint64), ("n_omega", c_uint64)]


class atom_grid(Structure):
    _fields_ = [(name, c_double) for name in ("rmin", "rmax", "dr", "threshold", "beta")] + [("n_r", c_uint64)]


class builder(Structure):
    _fields_ = [("grid", grid), ("top", c_uint64), ("level", c_uint64), ("packed", c_uint64)]


class table(Structure):
    _fields_ = [("number", c_uint64), ("grid", grid)] + [(name, c_uint64) for name in ("levels", "rows", "energies", "terms")] + [("start", c_uint64 * 6)]


class atom_table(Structure):
    _fields_ = [("number", c_uint64), ("grid", atom_grid)] + [(name, c_uint64) for name in ("levels", "rows", "energies")] + [("start", c_uint64 * 5)]


class value(Structure):
    _fields_ = [("number", c_uint64), ("energy", c_double), ("distance_a", c_double), ("distance_b", c_double)]


class spanned(Structure):
    _fields_ = [("number", c_uint64), ("first", c_uint64), ("last", c_uint64), ("smallest", c_double), ("largest", c_double), ("scalar_nans", c_uint64)]


class columns(Structure):
    _fields_ = [(name, c_void_p) for name in ("r", "omega", "a", "b")] + [(name + "_stride", c_ssize_t) for name in ("r", "omega", "a", "b")]


class row(Structure):
    _fields_ = [("kind", c_uint64), ("level", c_uint64), ("offset", c_uint64), ("scalar", c_double)]


class build_settings(Structure):
    _fields_ = [("atom", c_int), ("grid", grid), ("top", c_uint64), ("journal", c_char_p), ("meshes", c_char_p), ("flags", c_uint)]
    _fields_ += [("lent", c_void_p), ("label", c_char_p)]


class identity(Structure):
    _fields_ = [("id", c_uint8 * 16), ("label", c_char * 4097)]


class journal_settled(Structure):
    _fields_ = [("number", c_uint64), ("gradient", c_double), ("comparisons", c_uint64)]


class progress(Structure):
    _fields_ = [(name, c_uint64) for name in ("n_r", "n_omega", "top", "level", "slabs", "set", "settled", "length")] + [
        ("step", c_uint),
        ("ri", c_uint64),
        ("oi", c_uint64),
        ("level_lost", c_int),
    ]


class journal(Structure):
    _fields_ = [("atom", c_int), ("guarded", c_int), ("builder", builder)]
    _fields_ += [(name, c_uint64) for name in ("records", "bytes", "cut", "slabs", "set_count", "settled_count")]
    _fields_ += [("set", POINTER(c_uint8)), ("settled", POINTER(c_uint8)), ("said", c_char * 400), ("build", c_uint64), ("meshes_hash", c_uint64)]
    _fields_ += [("version", c_uint32), ("library", c_uint32 * 3), ("identity", identity)]


class terms(Structure):
    _fields_ = [("coefficients", POINTER(c_double)), ("kappas", POINTER(c_double)), ("powers", POINTER(c_uint32)), ("count", c_size_t), ("prefactor", c_double)]


class seal(Structure):
    _fields_ = [("sha256", c_char * 65), ("table_length", c_uint64), ("atom", c_int), ("grid", grid), ("top", c_uint64), ("levels", c_uint64)]
    _fields_ += [("meshes_hash", c_uint64), ("own_meshes", c_int), ("version", c_char * 32), ("journaled", c_int), ("journal_sha256", c_char * 65)]
    _fields_ += [("format", c_uint), ("guarded", c_uint), ("whole", c_uint), ("identity", identity)]


ALL = (fault, grid, atom_grid, builder, table, atom_table, value, spanned, columns, row, build_settings, identity, journal_settled, progress, journal)
ALL += (terms, seal)
LEADING = (journal,)
