"""The shared library: where it is, whether its version is this package's, and what its functions take."""

from __future__ import annotations

import ctypes
import os
from ctypes import POINTER, byref, c_char_p, c_double, c_int, c_size_t, c_uint, c_uint64, c_void_p
from pathlib import Path
from typing import Any, Optional, Union

from . import structs
from .refused import Refused
from .version import VERSION

PathLike = Union[str, bytes, "os.PathLike[str]", "os.PathLike[bytes]"]

NO_HANDLE, OTHER_KIND, ENVIRONMENT = 261, 262, 264

# before 1.0 a minor version may alter a struct or a call
MINOR = VERSION.rpartition(".")[0]
SONAME = f"libicotable.so.{MINOR}"

# name: what it gives, and what it takes
FUNCTIONS: dict[str, tuple[Any, list[Any]]] = {
    "version": (c_char_p, []),
    "handle_words": (c_char_p, [c_uint64]),
    "float_environment": (c_uint, []),
    "float_environment_words": (c_char_p, [c_uint]),
    "vertices": (c_uint64, [c_uint64]),
    "level_vertices": (c_void_p, [c_void_p, c_uint64]),
    "build_begin": (c_void_p, [POINTER(structs.build_settings), POINTER(structs.fault)]),
    "build_resume": (c_void_p, [POINTER(structs.build_settings), POINTER(structs.fault)]),
    "build_open": (c_void_p, [POINTER(structs.build_settings), POINTER(structs.fault)]),
    "build_set": (c_uint64, [c_void_p, c_uint64, c_uint64, c_void_p, c_size_t]),
    "build_settle": (structs.journal_settled, [c_void_p, c_uint64]),
    "build_progress": (structs.progress, [c_void_p]),
    "build_vertices": (c_void_p, [c_void_p, c_uint64, POINTER(c_uint64)]),
    "build_write": (c_uint64, [c_void_p, c_char_p]),
    "build_write_tail": (c_uint64, [c_void_p, c_char_p, POINTER(structs.terms)]),
    "build_state": (POINTER(structs.journal), [c_void_p]),
    "build_said": (c_char_p, [c_void_p]),
    "build_close": (None, [c_void_p]),
    "reader_open": (c_void_p, [c_char_p, c_char_p, POINTER(structs.fault)]),
    "reader_close": (None, [c_void_p]),
    "reader_atom": (c_int, [c_void_p]),
    "reader_table": (POINTER(structs.table), [c_void_p]),
    "reader_atom_table": (POINTER(structs.atom_table), [c_void_p]),
    "reader_file": (c_void_p, [c_void_p, POINTER(c_size_t)]),
    "reader_meshes": (c_void_p, [c_void_p]),
    "meshes_hash": (c_uint64, [c_void_p, c_uint64]),
    "reader_tail": (structs.value, [c_void_p, c_double]),
    "reader_span": (structs.spanned, [c_void_p, c_double, c_double, c_double]),
    "reader_places": (None, [c_void_p, c_void_p, c_size_t, c_void_p]),
    "reader_columns": (c_uint64, [c_void_p, POINTER(structs.columns), c_size_t, POINTER(c_double), c_void_p, c_void_p, c_void_p, c_uint]),
    "reader_row": (c_uint64, [c_void_p, c_uint64, c_uint64, POINTER(structs.row)]),
    "seal_read": (c_uint64, [POINTER(structs.seal), c_char_p, POINTER(structs.fault)]),
}


class NoLibrary(ImportError):
    """The shared library was not found, or is of another version. The message says where was looked."""


def _repository() -> Optional[Path]:
    """The folder of the repository or the release archive that this package lies in, if it does."""
    top = Path(__file__).resolve().parents[3]
    return top if (top / "include" / "icotable.h").is_file() else None


def _places() -> list[str]:
    """Where the library may be. Where ICOTABLE_LIBRARY names it, nowhere else."""
    named = os.environ.get("ICOTABLE_LIBRARY")
    if named:
        return [named]
    places = [str(path) for path in sorted(Path(__file__).resolve().parent.glob("libicotable.so*"))]
    top = _repository()
    if top is not None:
        # what make leaves, or what a release archive has
        places += [str(path) for folder in ("target/hosts/whole", "lib") for path in sorted((top / folder).glob("libicotable.so*"))]
    return places + [SONAME, "libicotable.so"]


def _wrong(library: ctypes.CDLL) -> Optional[str]:
    """Declares every function; what is wrong with the library, or None."""
    for name, (gives, takes) in FUNCTIONS.items():
        try:
            function = getattr(library, "icotable_" + name)
        except AttributeError:
            return f"it has no icotable_{name}"
        function.restype, function.argtypes = gives, takes
        if name == "version" and function().decode().rpartition(".")[0] != MINOR:
            return f"it is version {function().decode()}, and this package is for {MINOR}"
    return None


def _load() -> ctypes.CDLL:
    looked = []
    for place in _places():
        try:
            library = ctypes.CDLL(place)
            wrong = _wrong(library)
        except OSError as error:
            wrong = str(error)
        if wrong is None:
            return library
        looked.append(f"  {place}: {wrong}")
    advice = "`make -C hosts/c whole` makes it, `make -C hosts/c install` installs it, ICOTABLE_LIBRARY names it"
    raise NoLibrary("libicotable was not found; looked at\n" + "\n".join(looked) + "\n" + advice)


_library = _load()


def call(name: str, *arguments: Any) -> Any:
    """Calls icotable_name. The interpreter's lock is released meanwhile."""
    return getattr(_library, "icotable_" + name)(*arguments)


def function(name: str) -> Any:
    """icotable_name itself."""
    return getattr(_library, "icotable_" + name)


def library_version() -> str:
    """The version of the library that was found."""
    return str(call("version").decode())


def words(number: int) -> str:
    """Any number in words: of the library, a journal, a slab file, a mesh file, a seal or a handle."""
    return str(call("handle_words", number).decode())


def check(number: int, said: Optional[str] = None) -> None:
    """Raises Refused where the number is not 0."""
    if number != 0:
        raise Refused(number, said or words(number))


def check_environment() -> None:
    """Raises Refused where this thread does not have the floating-point environment that the library needs.

    A handle asks when it is opened. A module that is imported later may have been linked with -ffast-math, which alters it.
    """
    environment = call("float_environment")
    if environment != 0:
        raise Refused(ENVIRONMENT, f"{words(ENVIRONMENT)}: {call('float_environment_words', environment).decode()}")


def opened(name: str, *arguments: Any) -> int:
    """Calls an opening function, which takes a fault last; its handle, or Refused."""
    fault = structs.fault()
    handle = call(name, *arguments, byref(fault))
    if handle is None:
        raise Refused(fault.number, fault.said.decode(errors="replace"))
    return int(handle)


def file_name(path: PathLike) -> bytes:
    """A path as C takes it, which would end at a zero byte."""
    name = os.fsencode(path)
    if b"\0" in name:
        raise ValueError(f"a zero byte in a file name: {path!r}")
    return name
