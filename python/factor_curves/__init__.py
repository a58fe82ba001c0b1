"""Price factors between a tariff's rated points, by the proved library libfactor_curves.

    >>> from factor_curves import CONVEX, FALLING, RISING, Curve
    >>> curve = Curve([(500, 10000, 0), (600, 14000, 10000)], CONVEX)
    >>> curve.read(550)
    10800
    >>> curve.pair(525, 550)
    Pair(form=10182, plan=10800, difference=618)
    >>> curve.sheet(500, 25, 5)
    [10000, 10182, 10800, 12000, 14000]

Areas are tenths of a square metre: 550 is 55 square metres. Factors are units of one
ten-thousandth: 10800 is the factor 1.08. They are rounded once, an exact half to the even unit.
What the library does not accept is raised as Refused:

    >>> curve.read(499)
    Traceback (most recent call last):
    ...
    factor_curves.Refused: refused 7 at 0: an area is outside the curve

The shape is RISING, CONVEX, FALLING or CONCAVE:

    >>> Curve([(1200, 10000, 0), (2000, 9000, -100)], FALLING).read(1600)
    9643

A rising curve that is also convex in every segment is read by the convex rule, any other by the
rising rule; `rule` says which:

    >>> rising = Curve(curve.points, RISING)
    >>> rising.shape, rising.rule, rising.read(550)
    (1, 2, 10800)

The slopes of a rising curve can be filled by the harmonic rule:

    >>> Curve.rising([0, 10, 40], [0, 10, 100]).slopes
    (83, 120, 750)

A curve file holds one curve, and each curve has one file:

    >>> Curve.from_bytes(curve.to_bytes()) == curve
    True

A statistics package's points come as triples: area, value and slope in float64, little-endian.
Their figures must be whole numbers:

    >>> import struct
    >>> Curve.from_triples(struct.pack('<6d', 500, 10000, 0, 600, 14000, 10000), CONVEX) == curve
    True
    >>> Curve.from_triples(struct.pack('<6d', 500, 10000, 0.5, 600, 14000, 10000), CONVEX)
    Traceback (most recent call last):
    ...
    factor_curves.Refused: refused 14 at 0: a figure is not a finite whole number

The functions check, read, pair, sheet, write, fill_slopes, open_bytes, import_triples,
desk_reading and desk_reading_two are the library's calls on plain lists and bytes. The library is
looked for and loaded at the first call; importing the package does not need it. `python3 -m
factor_curves --help` says what the command line offers.
"""

from ._calls import (CONCAVE, CONVEX, COUNT_MAX, ENTRIES_MAX, FALLING, FILE_MAX, POINTS_MAX,
                     RISING, SCRATCH_ENOUGH, SCRATCH_TWO, SHAPE_NAMES, TRIPLE_SIZE, Lists, Pair,
                     Refusal, Refused, check, desk_reading, desk_reading_two, fill_slopes,
                     import_triples, open_bytes, pair, read, refusal_words, sheet, write)
from ._curve import Curve, Point
from ._library import LibraryNotFound

__version__ = "0.8.0"

__all__ = [
    'CONCAVE', 'CONVEX', 'COUNT_MAX', 'ENTRIES_MAX', 'FALLING', 'FILE_MAX', 'POINTS_MAX',
    'RISING', 'SCRATCH_ENOUGH', 'SCRATCH_TWO', 'SHAPE_NAMES', 'TRIPLE_SIZE', 'Curve',
    'LibraryNotFound', 'Lists', 'Pair', 'Point', 'Refusal', 'Refused', 'check', 'desk_reading',
    'desk_reading_two', 'fill_slopes', 'import_triples', 'open_bytes', 'pair', 'read',
    'refusal_words', 'sheet', 'write',
]

for _name in ('Curve', 'LibraryNotFound', 'Lists', 'Pair', 'Point', 'Refusal', 'Refused'):
    globals()[_name].__module__ = __name__      # as users name them, in messages and pickles
del _name
