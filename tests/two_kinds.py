"""Kinds of cases of the second desk reading, which needs a scratch of 24 bytes:
its scratch, and the segment that it reads. Inputs only; list_kinds.py says
what a case is.
"""

import itertools

import curves
from curve_file import curve_file
from list_kinds import fault_at, simple_points

LENGTHS = (0, 1, 11, 12, 23, 24, 25, 36)        # of a scratch
ACCEPTED = (2, 3, 64)                           # counts of points
COUNTS = (0, 1, *ACCEPTED, 65, 255)


def lengths(count):
    """Around 24, and around what the first desk reading needs."""
    need = 12 * count
    return [*LENGTHS, max(0, need - 1), need, need + 1]


def enough(rng):
    return 24 + rng.choice([0, 0, 1, 12, rng.randint(2, 99), 744])


# ---- the scratch ----

def scratches(rng):
    """Each count with each of these, by both desk readings."""
    for count in COUNTS:
        shape = rng.choice(curves.SHAPES)
        data = curve_file(simple_points(count, shape), shape)
        for length in (*lengths(count), rng.randint(37, 3100)):
            area = rng.randint(0, 3 * max(1, count - 1))
            yield 'desk_two', data, area, length
            yield 'desk', data, area, length


def refusals(rng):
    """Each refusal, and none, with each scratch."""
    shape = rng.choice(curves.SHAPES)
    points = simple_points(rng.choice(ACCEPTED), shape)
    good, last = curve_file(points, shape), points[-1][0]
    none, inner = rng.choice([0, 1, 65, 255]), rng.randint(0, last)
    files = [(good, inner), (good, last + rng.choice([1, 2**16, 2**31])),
             (b'X' + good[1:], inner), (good[:-1], inner),
             (curve_file(points, rng.choice([0, 5, 255])), inner),
             (curve_file(simple_points(none, shape), shape), inner)]
    for number in (3, 4, 5, 6):
        points = fault_at(number, rng.randrange(63), shape)
        files.append((curve_file(points, shape), inner))
    for (data, area), length in itertools.product(files, LENGTHS):
        yield 'desk_two', data, area, length


def far_scratches(rng):
    """Scratches as long as a byte or two bytes cannot say."""
    for count in (2, 64):
        shape = rng.choice(curves.SHAPES)
        data = curve_file(simple_points(count, shape), shape)
        for length in (255, 256, 256 + 23, 256 + 24, 2**16 - 1, 2**16,
                       2**16 + 23, 2**16 + 24):
            yield 'desk_two', data, rng.randint(0, 3 * count), length


# ---- the segment read ----

def at_points(rng, points, shape):
    """The area of each rated point, and those beside it."""
    data = curve_file(points, shape)
    for (area, _, _), beside in itertools.product(points, (-1, 0, 1)):
        yield 'desk_two', data, (area + beside) % 2**32, enough(rng)


def each_segment(rng):
    for shape, count in itertools.product(curves.SHAPES, ACCEPTED):
        yield from at_points(rng, simple_points(count, shape), shape)


def rated_points(rng):
    yield from at_points(rng, *curves.any_curve(rng))


# Kind, its name, and at least how many cases.
KINDS = [
    (scratches, 'desk two: scratch short, exact, longer', 4000),
    (refusals, 'desk two: each refusal with each scratch', 6000),
    (far_scratches, 'desk two: long scratch', 20),
    (each_segment, 'desk two: each segment', 500),
    (rated_points, 'desk two: rated points and beside them', 12000),
]
