"""Finds and loads libferruntzo.so, and declares its functions as include/ferruntzo.h has them."""

from __future__ import annotations

import ctypes
import functools
import os
from ctypes import POINTER, c_double, c_int32, c_int64, c_size_t, c_uint8, c_uint32, c_uint64
from pathlib import Path
from typing import Any, Iterator, Optional

from .refusals import Refusal, Refused

__version__ = '5.1.0'
MAJOR, MINOR, PATCH = map(int, __version__.split('.'))
SONAME = f'libferruntzo.so.{MAJOR}'
VARIABLE = 'FERRUNTZO_LIBRARY'

_I32, _I64, _U8, _U32, _U64, _F64 = map(POINTER, (c_int32, c_int64, c_uint8, c_uint32, c_uint64, c_double))
_AREAS = (_I32, _I64, _U8, _U32, _U64, _F64)
_ROOT = (_I32, _I32, _I32, _I64, _I32, _U64)
_REPORT = (_U8, _I32, _I64, _U8, _U32)
# Areas and numbers in the order of the header; a length follows each area.
_FUNCTIONS: dict[str, tuple[Any, ...]] = {
    'version': (),
    'add': (_I32, _I32, _I32),
    'subtract': (_I32, _I32, _I32),
    'multiply': (_I32, _I32, c_uint32, _I32),
    'integrate': (_I32, _I32),
    'evaluate': (_I32, c_int32, _I64),
    'from_series': (_I32, _I32),
    'quotient': (_I32, *_ROOT),
    'root': _ROOT,
    'tight_root': _ROOT,
    'quotient_of_two': (_I32, _I32, _I32, _I32, _I64, _U32),
    'make_reciprocal': (_I32, _F64, _I32, _U32),
    'make_quotient': (_I32, _I32, _F64, _I32, _I32, _U32),
    'to_units': (_F64, _I32),
    'check': (_U8, _I32, _I64, _U32),
    'check_workshop': _REPORT,
    'check_service': _REPORT,
    'convert_edition': (_U8, _U8, _U32),
}


class LibraryError(RuntimeError):
    """The library is not there, or is not one that this package can call."""


def _places() -> Iterator[Path]:
    """Where the library is looked for before the system's loader is asked: in the package (pip), under the prefix of
    `make install`, and in the repository. No folder counts that only happens to stand above the package."""
    package = Path(__file__).resolve().parent
    yield package / SONAME
    folder = package.parent
    if folder.name.endswith('-packages') and folder.parent.name.startswith('python'):
        yield folder.parent.parent / SONAME
    if (folder / 'build_wheel.py').is_file():
        yield folder.parent / 'target' / 'staticlib' / SONAME


def _open() -> tuple[ctypes.CDLL, str]:
    """The library, and how it was named."""
    named = os.environ.get(VARIABLE)
    if named is not None:
        # The folder is written out: a bare name would be looked for elsewhere.
        path = os.path.abspath(named)
        try:
            return ctypes.CDLL(path), path
        except OSError as error:
            raise LibraryError(f'{VARIABLE} names {named!r}, which cannot be loaded: {error}') from None
    tried = []
    for place in _places():
        tried.append(str(place))
        if place.exists():
            try:
                return ctypes.CDLL(str(place)), str(place)
            except OSError as error:
                raise LibraryError(f'{place} cannot be loaded: {error}') from None
    try:
        return ctypes.CDLL(SONAME), SONAME
    except OSError:
        raise LibraryError(f'{SONAME} was not found: not at {", ".join(tried)}, nor by the system. scripts/build_library '
                           f'builds it, make install installs it, {VARIABLE} can name it.') from None


@functools.lru_cache(maxsize=None)
def library() -> ctypes.CDLL:
    """The library, loaded at the first call."""
    loaded, name = _open()
    for entry, parameters in _FUNCTIONS.items():
        try:
            function = getattr(loaded, f'ferruntzo_{entry}')
        except AttributeError:
            raise LibraryError(f'{name} has no ferruntzo_{entry}; version {__version__} is needed') from None
        function.argtypes = [kind for p in parameters for kind in ((p, c_size_t) if p in _AREAS else (p,))]
        function.restype = c_uint32
    number = loaded.ferruntzo_version()
    # A later second number only adds functions.
    if number >> 16 != MAJOR or number >> 8 & 255 < MINOR:
        raise LibraryError(f'{name} is version {number >> 16}.{number >> 8 & 255}.{number & 255}; '
                           f'{MAJOR}.{MINOR}.0 or later below {MAJOR + 1}.0.0 is needed')
    return loaded


def number_of(entry: str, *arguments: Any) -> int:
    """What a function answers; the length of an area, which is a ctypes array, goes with it."""
    lent: list[Any] = []
    for argument in arguments:
        lent += (argument, len(argument)) if isinstance(argument, ctypes.Array) else (argument,)
    return int(getattr(library(), f'ferruntzo_{entry}')(*lent))


def call(entry: str, *arguments: Any, answer: Optional[Any] = None) -> None:
    """Calls a function; a refusal is raised, of a job with the command in its answer."""
    number = number_of(entry, *arguments)
    if number == 0:
        return
    try:
        refusal = Refusal(number)
    except ValueError:
        raise LibraryError(f'not a version of the library that this package knows: ferruntzo_{entry} answered {number}') from None
    raise Refused(refusal, None if answer is None else answer[1])


def version() -> tuple[int, int, int]:
    """The version of the library that is loaded: three numbers."""
    number = number_of('version')
    return number >> 16, number >> 8 & 255, number & 255
