"""Finds libfactor_curves.so, loads it and declares its functions as the headers do."""

import ctypes
import ctypes.util
import functools
import os
import sys
from typing import Any, Dict, Iterator, List, Tuple

NAME = 'libfactor_curves.so'
VARIABLE = 'FACTOR_CURVES_LIBRARY'

_SIZE = ctypes.c_size_t
_BYTES = ctypes.c_char_p                        # const uint8_t *, from a bytes object
_MEMORY = ctypes.POINTER(ctypes.c_uint8)        # uint8_t *, to be written
_UNSIGNED = ctypes.POINTER(ctypes.c_uint32)
_SIGNED = ctypes.POINTER(ctypes.c_int32)
_LISTS: List[Any] = [_UNSIGNED, _SIZE, _UNSIGNED, _SIZE, _SIGNED, _SIZE]
_CURVE = _LISTS + [ctypes.c_uint32]             # three lists and the shape code
_DESK: List[Any] = [_BYTES, _SIZE, ctypes.c_uint32, _MEMORY, _SIZE]

# Name: type of the answer, types of the arguments.
_FUNCTIONS: Dict[str, Tuple[Any, List[Any]]] = {
    'curve_check': (ctypes.c_int64, _CURVE),
    'curve_read': (ctypes.c_int64, _CURVE + [ctypes.c_uint32]),
    'curve_pair': (ctypes.c_int64, _CURVE + [ctypes.c_uint32, ctypes.c_uint32, _SIGNED, _SIZE]),
    'curve_sheet': (ctypes.c_int64, _CURVE + [ctypes.c_uint32, ctypes.c_uint32, _SIGNED, _SIZE]),
    'curve_open': (ctypes.c_int64, [_BYTES, _SIZE] + _LISTS),
    'curve_write': (ctypes.c_int64, _CURVE + [_MEMORY, _SIZE]),
    'curve_fill_slopes': (ctypes.c_int64, _LISTS),
    'curve_import': (ctypes.c_int64, [_BYTES, _SIZE, ctypes.c_uint32] + _LISTS),
    'desk_reading': (ctypes.c_int32, _DESK),
    'desk_reading_two': (ctypes.c_int32, _DESK),
    'curve_refusal_words': (ctypes.c_char_p, [ctypes.c_int]),
}


class LibraryNotFound(OSError):
    """No libfactor_curves.so could be loaded; the message says where it was looked for."""


def _places() -> Iterator[str]:
    """What to try, in order; the last is left to the system's own search."""
    named = os.environ.get(VARIABLE)
    if named:
        yield os.path.abspath(named)
        return
    package = os.path.dirname(os.path.abspath(__file__))
    yield os.path.join(package, NAME)
    python = os.path.dirname(package)
    if os.path.exists(os.path.join(python, 'pyproject.toml')):      # a checkout
        yield os.path.join(os.path.dirname(python), 'target', 'lib', NAME)
    for folder in (os.path.join(sys.prefix, 'lib'), '/usr/local/lib', '/usr/lib'):
        yield os.path.join(folder, NAME)
    yield ctypes.util.find_library('factor_curves') or NAME


def _not_found(tried: List[str]) -> LibraryNotFound:
    lines = [NAME + ' could not be loaded:']
    lines += ['  ' + error for error in tried]
    if os.environ.get(VARIABLE):
        lines.append('Nothing else was tried, since %s names this file.' % VARIABLE)
    lines.append('Run `make` in a checkout of factor curves to build it, or set %s to its path.'
                 % VARIABLE)
    return LibraryNotFound('\n'.join(lines))


def _declared(library: ctypes.CDLL) -> ctypes.CDLL:
    for name, (answer, arguments) in _FUNCTIONS.items():
        function = getattr(library, name)
        function.restype = answer
        function.argtypes = arguments
    return library


@functools.lru_cache(maxsize=None)
def library() -> ctypes.CDLL:
    """The library. It is looked for and loaded at the first call."""
    tried: List[str] = []
    for place in _places():
        try:
            return _declared(ctypes.CDLL(place))
        except (OSError, AttributeError) as error:      # not loaded; a function is missing
            tried.append(str(error))
    raise _not_found(tried)
