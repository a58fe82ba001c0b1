"""The library's calls over plain lists and bytes, one function for each.

Whatever fits the C types reaches the library, which refuses what is wrong. What does not fit
(ctypes would cut it to 32 bits without a word) is an OverflowError; what is no whole number, or
a bool, is a TypeError.
"""

import array
import ctypes
import enum
import operator
import sys
from typing import Any, Iterable, List, NamedTuple, Optional, Tuple, Union

from ._library import library

RISING = 1              #: shape code of a rising curve
CONVEX = 2              #: shape code of a convex curve
FALLING = 3             #: shape code of a falling curve
CONCAVE = 4             #: shape code of a concave curve
SHAPE_NAMES = {RISING: 'rising', CONVEX: 'convex', FALLING: 'falling', CONCAVE: 'concave'}

POINTS_MAX = 64         #: points of an accepted curve
ENTRIES_MAX = 1024      #: entries of a sheet
FILE_MAX = 775          #: bytes of an accepted curve's file
COUNT_MAX = 255         #: points that a file's head can state
SCRATCH_ENOUGH = 12 * COUNT_MAX     #: bytes of scratch for any file at all
SCRATCH_TWO = 24        #: bytes of scratch for desk_reading_two, whatever the file
TRIPLE_SIZE = 24        #: bytes of a point in triples

BytesLike = Union[bytes, bytearray, memoryview]
Triples = Any           # BytesLike, or an array of float64 with three columns, as numpy's

_UNSIGNED = (0, 2**32 - 1)
_SIGNED = (-2**31, 2**31 - 1)
_SIZE = (0, int(ctypes.c_size_t(-1).value))

# How the buffer protocol writes what triples may be made of, and the byte order of a float64.
_BYTE_FORMATS = ('B', 'b', 'c')
_DOUBLE_FORMATS = {'d': sys.byteorder, '@d': sys.byteorder, '=d': sys.byteorder,
                   '<d': 'little', '>d': 'big', '!d': 'big'}


class Refusal(enum.IntEnum):
    """The refusal numbers, in the order in which a call tries them."""

    MARK = 9            #: under 7 bytes, not TRF, or not version 1
    LENGTH = 10         #: the file's length is not 7 + 12 * count
    TRIPLES = 13        #: the length of the triples is no multiple of 24 bytes
    ROOM = 11           #: a lent list, or the scratch, is too short
    COUNT = 1           #: list lengths differ, or not 2 to 64 points
    SHAPE = 2           #: the shape code is outside 1 to 4
    FIGURE = 14         #: a figure that is no finite whole number; the place is the point
    AREA = 3            #: a point's area; the place is the point
    VALUE = 4           #: a point's value; the place is the point
    SLOPE = 5           #: a point's slope; the place is the point; fill_slopes: after 6
    SEGMENT = 6         #: a segment without the shape; the place is its left point
    BUFFER = 12         #: a file does not fit into the buffer; the package lends enough
    SHEET = 8           #: step 0, no entries or more than 1,024
    OUTSIDE = 7         #: an area outside the curve


class Refused(ValueError):
    """The library refuses a curve, a file, triples, an area or a sheet.

    number  what is wrong, one of Refusal
    place   where, counted from 0; None for a desk reading, which gives no place
    words   the refusal in the library's words
    """

    def __init__(self, number: int, place: Optional[int], words: str) -> None:
        super().__init__(number, place, words)
        self.number = number
        self.place = place
        self.words = words

    def __str__(self) -> str:
        if self.place is None:
            return 'refused %d: %s' % (self.number, self.words)
        return 'refused %d at %d: %s' % (self.number, self.place, self.words)


class Pair(NamedTuple):
    """Two factors of one home, and the plan factor less the form factor."""

    form: int
    plan: int
    difference: int


class Lists(NamedTuple):
    """A curve as three lists and a shape code, in the order in which the calls take them."""

    areas: Tuple[int, ...]
    values: Tuple[int, ...]
    slopes: Tuple[int, ...]
    shape: int


# ---- from Python to C ----

def _whole(value: Any, name: str, limits: Tuple[int, int]) -> int:
    """The value as an int within the limits, which are those of its C type."""
    if isinstance(value, bool):
        raise TypeError('%s must be a whole number, not bool' % name)
    try:
        number = operator.index(value)
    except TypeError:
        raise TypeError('%s must be a whole number, not %s'
                        % (name, type(value).__name__)) from None
    if not limits[0] <= number <= limits[1]:
        raise OverflowError('%s must be from %d to %d' % (name, limits[0], limits[1]))
    return number


def unsigned(value: Any, name: str) -> int:
    """The value as an int that fits uint32_t."""
    return _whole(value, name, _UNSIGNED)


def _array(kind: Any, values: Iterable[int], name: str, limits: Tuple[int, int]) -> Any:
    """A C array of this type, whose limits these are."""
    numbers = [_whole(value, '%s[%d]' % (name, index), limits)
               for index, value in enumerate(values)]
    return (kind * len(numbers))(*numbers)


def _areas_and_values(areas: Iterable[int], values: Iterable[int]) -> Tuple[Any, Any]:
    return (_array(ctypes.c_uint32, areas, 'areas', _UNSIGNED),
            _array(ctypes.c_uint32, values, 'values', _UNSIGNED))


def arguments(areas: Iterable[int], values: Iterable[int], slopes: Iterable[int],
              shape: int) -> Tuple[Any, ...]:
    """What each call on a curve begins with: three lists with their lengths, the shape code."""
    x, y = _areas_and_values(areas, values)
    d = _array(ctypes.c_int32, slopes, 'slopes', _SIGNED)
    return x, len(x), y, len(y), d, len(d), unsigned(shape, 'shape')


def _file(data: BytesLike) -> bytes:
    """The bytes of a buffer: itself if it is bytes, otherwise a copy."""
    return data if isinstance(data, bytes) else memoryview(data).tobytes()


def _triples(data: Triples) -> bytes:
    """The triples as the library takes them: bytes as they are, an array's figures in order."""
    try:
        view = memoryview(data)
    except (TypeError, ValueError, BufferError) as error:
        raise TypeError('the triples must be bytes or an array of float64, such as the to_numpy()'
                        ' of a table (%s)' % error) from None
    if view.format.lstrip('<>') in _BYTE_FORMATS:
        return _file(data)
    if view.format not in _DOUBLE_FORMATS:
        raise TypeError("the array must be of float64, not of format '%s'; astype('float64') makes"
                        ' it so, and Curve takes points of whole numbers' % view.format)
    shape = view.shape or ()
    if len(shape) != 2 or shape[1] != 3:
        raise ValueError('the array must have the shape (n, 3), not %s; reshape(-1, 3) gives it to'
                         ' a flat one' % (shape,))
    whole = view.tobytes()
    if _DOUBLE_FORMATS[view.format] == 'little':
        return whole
    swapped = array.array('Q', whole)       # bytes are moved, and no number is made of them
    swapped.byteswap()
    return swapped.tobytes()


def _lent(scratch: Any) -> Tuple[Any, int]:
    """A writable buffer as a C array on the same memory, never null, and its length."""
    view = memoryview(scratch)
    if view.readonly:
        raise TypeError('the scratch must be writable')
    if view.nbytes == 0:
        return (ctypes.c_uint8 * 1)(), 0
    return (ctypes.c_uint8 * view.nbytes).from_buffer(view.cast('B')), view.nbytes


def _room(count: int) -> Tuple[Any, ...]:
    """Three lists to be written, of so many entries, with their lengths."""
    return ((ctypes.c_uint32 * count)(), count, (ctypes.c_uint32 * count)(), count,
            (ctypes.c_int32 * count)(), count)


# ---- from C to Python ----

def refusal_words(number: int) -> str:
    """A refusal number in the library's words."""
    words: bytes = library().curve_refusal_words(_whole(number, 'number', _SIGNED))
    return words.decode('ascii')


def _result(answer: int) -> int:
    """The answer of a curve call, unless it is -(2^32 * number + place), a refusal."""
    if answer <= -2**32:
        number, place = divmod(-answer, 2**32)
        raise Refused(number, place, refusal_words(number))
    return answer


def _written(room: Tuple[Any, ...], count: int, shape: int) -> Lists:
    """The curve of the points that a call has written into the first entries of three lists."""
    areas, values, slopes = room[0:6:2]
    return Lists(tuple(areas[:count]), tuple(values[:count]), tuple(slopes[:count]), shape)


# ---- the calls on arguments ----

def check_at(curve: Tuple[Any, ...]) -> int:
    """The number of segments."""
    return _result(library().curve_check(*curve))


def read_at(curve: Tuple[Any, ...], area: int) -> int:
    """The factor at an area."""
    return _result(library().curve_read(*curve, unsigned(area, 'area')))


def pair_at(curve: Tuple[Any, ...], form: int, plan: int) -> Pair:
    """The factors at two areas."""
    out = (ctypes.c_int32 * 3)()
    _result(library().curve_pair(*curve, unsigned(form, 'form'), unsigned(plan, 'plan'), out, 3))
    return Pair(*out)


def sheet_at(curve: Tuple[Any, ...], start: int, step: int, count: int) -> List[int]:
    """The factors at start + i * step."""
    first, by = unsigned(start, 'start'), unsigned(step, 'step')
    # Every count above 1,024 has the same answer, so no longer list is made.
    length = min(_whole(count, 'count', _SIZE), ENTRIES_MAX + 1)
    out = (ctypes.c_int32 * length)()
    _result(library().curve_sheet(*curve, first, by, out, length))
    return list(out)


def write_at(curve: Tuple[Any, ...]) -> bytes:
    """The curve's file."""
    out = (ctypes.c_uint8 * FILE_MAX)()
    length = _result(library().curve_write(*curve, out, FILE_MAX))
    return bytes(out)[:length]


# ---- the calls on lists ----

def check(areas: Iterable[int], values: Iterable[int], slopes: Iterable[int], shape: int) -> int:
    """The number of segments, if the curve is accepted."""
    return check_at(arguments(areas, values, slopes, shape))


def read(areas: Iterable[int], values: Iterable[int], slopes: Iterable[int], shape: int,
         area: int) -> int:
    """The factor at an area, in units of one ten-thousandth; an exact half goes to the even one."""
    return read_at(arguments(areas, values, slopes, shape), area)


def pair(areas: Iterable[int], values: Iterable[int], slopes: Iterable[int], shape: int,
         form: int, plan: int) -> Pair:
    """The factor at the form area, that at the plan area, and the second less the first."""
    return pair_at(arguments(areas, values, slopes, shape), form, plan)


def sheet(areas: Iterable[int], values: Iterable[int], slopes: Iterable[int], shape: int,
          start: int, step: int, count: int) -> List[int]:
    """The factors at start + i * step for each i below count, 1 to 1,024 of them."""
    return sheet_at(arguments(areas, values, slopes, shape), start, step, count)


def write(areas: Iterable[int], values: Iterable[int], slopes: Iterable[int],
          shape: int) -> bytes:
    """The bytes of the curve's file, 7 and 12 for each point; open_bytes is the way back."""
    return write_at(arguments(areas, values, slopes, shape))


def fill_slopes(areas: Iterable[int], values: Iterable[int]) -> List[int]:
    """A slope for each point of a rising curve, by the harmonic rule, rounded down."""
    x, y = _areas_and_values(areas, values)
    out = (ctypes.c_int32 * len(x))()
    _result(library().curve_fill_slopes(x, len(x), y, len(y), out, len(out)))
    return list(out)


# ---- the calls on a file's bytes ----

def open_bytes(data: BytesLike) -> Lists:
    """The points and the shape code of a curve file, if its curve is accepted.

    The result can be handed on: read(*open_bytes(data), 550).
    """
    whole, room = _file(data), _room(COUNT_MAX)
    shape, count = divmod(_result(library().curve_open(whole, len(whole), *room)), 256)
    return _written(room, count, shape)


def import_triples(data: Triples, shape: int) -> Lists:
    """The points of a statistics package's triples, if the curve with this shape is accepted.

    Each point has 24 bytes: area, value and slope as float64, little-endian. A figure must be a
    whole number; minus zero is 0. An array of float64 with three columns, in any byte order and
    memory layout, may stand for the bytes.

    >>> import struct
    >>> import_triples(struct.pack('<6d', 500, 10000, 0, 600, 14000, 10000), CONVEX)
    Lists(areas=(500, 600), values=(10000, 14000), slopes=(0, 10000), shape=2)
    """
    whole, code = _triples(data), unsigned(shape, 'shape')
    # Above 64 points only the remainder of the length matters (it decides between refusals 13
    # and 1), so no longer lists are made.
    room, length = _room(POINTS_MAX + 1), len(whole)
    most = TRIPLE_SIZE * (POINTS_MAX + 1)
    if length > most:
        length = most + length % TRIPLE_SIZE
    return _written(room, _result(library().curve_import(whole, length, code, *room)), code)


def _desk(name: str, data: BytesLike, area: int, scratch: Union[bytearray, memoryview]) -> int:
    """The factor that one of the two desk readings gives, unless it is a refusal."""
    whole, at = _file(data), unsigned(area, 'area')
    memory, length = _lent(scratch)
    answer: int = getattr(library(), name)(whole, len(whole), at, memory, length)
    if answer < -1000000:
        number = -1000000 - answer
        raise Refused(number, None, refusal_words(number))
    return answer


def desk_reading(data: BytesLike, area: int,
                 scratch: Union[bytearray, memoryview, None] = None) -> int:
    """The factor at an area of a curve file: one call for a quoting desk.

    A scratch of 12 bytes for each point may be lent; with a factor it then begins with the
    file's point records. Without one the function has its own.
    """
    own = bytearray(SCRATCH_ENOUGH) if scratch is None else scratch
    return _desk('desk_reading', data, area, own)


def desk_reading_two(data: BytesLike, area: int,
                     scratch: Union[bytearray, memoryview, None] = None) -> int:
    """The same factor, for a terminal that lends 24 bytes whatever the file.

    With a factor, a lent scratch then begins with the records of the two points between which
    it was read. Without one the function has its own.
    """
    own = bytearray(SCRATCH_TWO) if scratch is None else scratch
    return _desk('desk_reading_two', data, area, own)
