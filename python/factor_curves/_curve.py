"""A curve that the library has accepted."""

import os
from typing import TYPE_CHECKING, Any, Iterable, List, NamedTuple, Tuple, Type, TypeVar, Union

from . import _calls
from ._calls import BytesLike, Pair, Refused, Triples

# One byte more than the longest file that a head can state, so that a longer one shows.
_FILE_ROOM = 7 + 12 * _calls.COUNT_MAX + 1

_Self = TypeVar('_Self', bound='Curve')
if TYPE_CHECKING:
    _Path = Union[str, os.PathLike[str]]
else:
    _Path = Union[str, os.PathLike]             # Python 3.8 has no os.PathLike[str]


class Point(NamedTuple):
    """A rated point.

    area   tenths of a square metre, 0 to 20,000
    value  the factor in units of one ten-thousandth, 0 to 200,000
    slope  hundredths of a unit for each tenth of a square metre, -10,000 to 10,000
    """

    area: int
    value: int
    slope: int


def _columns(points: Iterable[Iterable[int]]) -> Tuple[List[int], List[int], List[int]]:
    """The areas, values and slopes of points that have three figures each."""
    columns: Tuple[List[int], List[int], List[int]] = ([], [], [])
    for index, point in enumerate(points):
        figures = tuple(point)
        if len(figures) != 3:
            raise ValueError('points[%d] must have an area, a value and a slope' % index)
        for column, figure in zip(columns, figures):
            column.append(figure)
    return columns


class Curve:
    """A curve through rated points; always one that the library accepts, and never changed.

    Curve(points, shape) takes points as (area, value, slope), and RISING, CONVEX, FALLING or
    CONCAVE. A curve that is not accepted is Refused. Two curves are equal if their points and
    shapes are.
    """

    __slots__ = ('_points', '_shape', '_arguments')

    _points: Tuple[Point, ...]
    _shape: int
    _arguments: Tuple[Any, ...]

    def __init__(self, points: Iterable[Iterable[int]], shape: int) -> None:
        self._arguments = _calls.arguments(*_columns(points), shape)
        _calls.check_at(self._arguments)
        areas, values, slopes = self._arguments[0:6:2]
        self._points = tuple(map(Point, areas, values, slopes))
        self._shape = self._arguments[6]

    @classmethod
    def from_lists(cls: Type[_Self], areas: Iterable[int], values: Iterable[int],
                   slopes: Iterable[int], shape: int) -> _Self:
        """The curve of three lists; entry i of each belongs to point i."""
        lists = list(areas), list(values), list(slopes)
        _calls.check(*lists, shape)         # refuses lengths that differ; zip would cut them
        return cls(zip(*lists), shape)

    @classmethod
    def rising(cls: Type[_Self], areas: Iterable[int], values: Iterable[int]) -> _Self:
        """The rising curve of two lists; its slopes are filled by the harmonic rule."""
        lists = list(areas), list(values)
        return cls.from_lists(*lists, _calls.fill_slopes(*lists), _calls.RISING)

    @classmethod
    def from_bytes(cls: Type[_Self], data: BytesLike) -> _Self:
        """The curve of a curve file, given its bytes."""
        return cls.from_lists(*_calls.open_bytes(data))

    @classmethod
    def from_file(cls: Type[_Self], path: _Path) -> _Self:
        """The curve of a curve file, given its path."""
        with open(path, 'rb') as file:
            return cls.from_bytes(file.read(_FILE_ROOM))

    @classmethod
    def from_triples(cls: Type[_Self], data: Triples, shape: int) -> _Self:
        """The curve of a statistics package's triples, with this shape.

        data is their bytes, 24 for each point: area, value and slope as float64, little-endian;
        or an array of float64 with three columns, as numpy's. Every figure must be a whole number.

        >>> import struct
        >>> Curve.from_triples(struct.pack('<6d', 500, 10000, 0, 600, 14000, 10000), 2)
        Curve([(500, 10000, 0), (600, 14000, 10000)], 2)
        """
        return cls.from_lists(*_calls.import_triples(data, shape))

    def to_bytes(self) -> bytes:
        """The bytes of the curve's file. No other file has this curve."""
        return _calls.write_at(self._arguments)

    def to_file(self, path: _Path) -> None:
        """Writes the curve's file, in place of what the path had."""
        data = self.to_bytes()
        with open(path, 'wb') as file:
            file.write(data)

    @property
    def points(self) -> Tuple[Point, ...]:
        """The rated points, by area."""
        return self._points

    @property
    def shape(self) -> int:
        """The shape code, as filed: RISING, CONVEX, FALLING or CONCAVE."""
        return self._shape

    @property
    def rule(self) -> int:
        """The code of the shape whose rule reads the curve.

        CONVEX for a RISING curve that is convex in every segment too, so that its points are also
        accepted as CONVEX; otherwise the curve's own shape. It is one rule for the whole curve.

        >>> points = [(500, 10000, 0), (600, 11000, 2500), (700, 14000, 3001)]
        >>> Curve(points, RISING).rule == Curve(points, CONVEX).rule == CONVEX
        True
        >>> points[2] = (700, 14000, 3000)      # the second segment is not convex
        >>> Curve(points, RISING).rule == RISING
        True
        """
        if self._shape != _calls.RISING:
            return self._shape
        try:
            _calls.check_at(self._arguments[:6] + (_calls.CONVEX,))
        except Refused:                     # by 6: a segment is not convex
            return _calls.RISING
        return _calls.CONVEX

    @property
    def areas(self) -> Tuple[int, ...]:
        """The areas of the points."""
        return tuple(point.area for point in self._points)

    @property
    def values(self) -> Tuple[int, ...]:
        """The values of the points."""
        return tuple(point.value for point in self._points)

    @property
    def slopes(self) -> Tuple[int, ...]:
        """The slopes of the points."""
        return tuple(point.slope for point in self._points)

    @property
    def first_area(self) -> int:
        """The least area that can be read."""
        return self._points[0].area

    @property
    def last_area(self) -> int:
        """The largest area that can be read."""
        return self._points[-1].area

    def read(self, area: int) -> int:
        """The factor at an area, in units of one ten-thousandth.

        The exact value is rounded once, to the nearest unit; an exact half goes to the even one.
        Only a convex curve goes below 0, only a concave one above 200,000.
        """
        return _calls.read_at(self._arguments, area)

    def pair(self, form: int, plan: int) -> Pair:
        """The factor at the form area, that at the plan area, and the second less the first."""
        return _calls.pair_at(self._arguments, form, plan)

    def sheet(self, start: int, step: int, count: int) -> List[int]:
        """The factors at start + i * step for each i below count, 1 to 1,024 of them."""
        return _calls.sheet_at(self._arguments, start, step, count)

    def __eq__(self, other: object) -> bool:
        if not isinstance(other, Curve):
            return NotImplemented
        return (self._points, self._shape) == (other._points, other._shape)

    def __hash__(self) -> int:
        return hash((self._points, self._shape))

    def __repr__(self) -> str:
        points = [tuple(point) for point in self._points]
        return '%s(%r, %d)' % (type(self).__name__, points, self._shape)

    def __reduce__(self) -> Tuple[Any, ...]:
        # Copies and pickles are checked anew.
        return type(self), (self._points, self._shape)
