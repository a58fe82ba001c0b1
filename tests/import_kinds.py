"""Kinds of cases of Import. Inputs only; list_kinds.py says what a case is.

A curve's rows are the figures of its points, each as its 8 bytes, so that a
figure may be anything that 64 bits can be.
"""

import itertools
import sys

import curves
import triples
from curve_file import curve_file
from curves import AREA_MAX, GAP_MAX, SLOPE_MAX, VALUE_MAX, any_curve
from list_kinds import TOP, far_codes, fault_at, simple_points
from triples import figure, joined, of_bits

FIELDS = (0, 1, 2)                      # area, value, slope
ENDS = (('first', 0), ('inner', 1), ('last', -1))       # of 3 points or more
SIGN = 2**63
SIGNS = (0, SIGN)
INFINITE = 0x7FF * 2**52
QUIET = INFINITE + 2**51                # not-a-numbers from here on are quiet


# ---- figures, by their bits ----

def bits_of(number):
    return triples.bits_of(figure(number))


def beside(*numbers):
    """The binary64 numbers next to each of these."""
    return [bits_of(number) + step for number in numbers for step in (-1, 1)]


def signed(*bits):
    """Each with either sign."""
    return [sign | one for one in bits for sign in SIGNS]


# No denormal is whole, nor the least normal number.
DENORMAL = signed(1, 2, 2**32, 2**51, 2**52 - 1, 2**52)
# Halves and quarters where binary64 has them, and what is hardly off a whole
# number: 2^52 has a half before it and none after it.
PARTS = [0.5, 0.25, 0.75, 1.5, 2.5, 0.1, 1e-9, 1e-300, 1 + 1e-9, 499.5,
         SLOPE_MAX + 0.5, AREA_MAX - 0.5, AREA_MAX + 0.5, VALUE_MAX + 0.5,
         2.0**51 - 0.25, 2.0**51 - 0.5, 2.0**51 + 0.5, 2.0**52 - 0.5]
PARTS += [2.0**bits + part for bits in (16, 31, 32)
          for part in (-0.5, -0.25, 0.25, 0.5)]
FRACTION = signed(*map(bits_of, PARTS),
                  *beside(1, 2, 500, SLOPE_MAX, AREA_MAX, VALUE_MAX, 2**31,
                          2**32))
NO_NUMBER = signed(INFINITE, INFINITE + 1, INFINITE + 2**32, QUIET - 1,
                   QUIET, QUIET + 1, 2**63 - 1)
NOT_WHOLE = DENORMAL + FRACTION + NO_NUMBER
# Whole numbers beyond the limits of every field, up to the largest there is.
WHOLE = [2**24, 2**24 + 1, 2**31 - 1, 2**31, 2**31 + 1, 2**32 - 1, 2**32,
         2**32 + 1, 2**52 - 1, 2**52, 2**52 + 1, 2**53 - 1, 2**53, 2**53 + 2,
         2**63 - 2**10, 2**63, 2**63 + 2**11, 2**64 - 2**11, 2**64,
         2**64 + 2**12, 1e300, 2.0**1023, sys.float_info.max]
FAR = signed(*map(bits_of, WHOLE))
# One past the limits of each field.
EDGES = ((-1, AREA_MAX + 1), (-1, VALUE_MAX + 1),
         (-SLOPE_MAX - 1, SLOPE_MAX + 1))


def some_fraction(rng):
    """Bits of a number that is not whole: of any size below 2^52."""
    power = rng.choice([rng.randint(1, 1022), rng.randint(1023, 1074)])
    lowest = max(0, 1074 - power)       # this bit of the fraction is a half
    return power << 52 | rng.randrange(2**52) | 1 << rng.randint(
        0, min(51, lowest))


KIND_BITS = {
    'quiet': lambda rng: QUIET + rng.choice([0, 1, rng.randrange(2**51)]),
    'signalling': lambda rng: INFINITE + rng.choice(
        [1, 2**50, 2**32 * rng.randrange(1, 2**19), rng.randrange(1, 2**51)]),
    'infinite': lambda rng: INFINITE,
    'fraction': some_fraction,
    'far': lambda rng: rng.choice(FAR) % SIGN,
}


# ---- rows and cases ----

def put(rows, at, field, eight):
    """The rows with one figure replaced."""
    row = list(rows[at])
    row[field] = eight
    after = rows[at + 1:] if at + 1 else []             # -1 is the last
    return rows[:at] + [row] + after


def enough(rng, count):
    """Lengths of the three lists, exact or longer."""
    return tuple(count + rng.choice([0, 0, 0, 1, 3, 11]) for _ in range(3))


def case(rng, rows, shape):
    data = joined(rows)
    return 'import', data, shape, enough(rng, len(data) // 24)


def some_rows(rng):
    """Rows of three points or more, and the shape."""
    while True:
        points, shape = any_curve(rng)
        if len(points) > 2:
            return triples.rows(points), shape


# ---- accepted curves ----

def minus_zeros(rng, rows):
    """Some of the zeros with a sign."""
    zero, minus = figure(0), of_bits(SIGN)
    return [[minus if eight == zero and rng.random() < 0.5 else eight
             for eight in row] for row in rows]


def accepted(rng):
    make = rng.choice([any_curve, any_curve, any_curve, curves.limit_curve,
                       curves.limit_file])
    points, shape = make(rng)
    rows = triples.rows(points)
    yield case(rng, rows, shape)
    yield case(rng, minus_zeros(rng, rows), shape)


def zeros(rng):
    """Zeros of both signs, in the area of a later point too."""
    for shape, count in itertools.product(curves.SHAPES, (2, 3, 64)):
        rows = triples.rows([(at, 0, 0) for at in range(count)])
        for sign, field, (_, at) in itertools.product(SIGNS, FIELDS, ENDS):
            yield case(rng, put(rows, at, field, of_bits(sign)), shape)
        for _ in range(4):
            yield case(rng, minus_zeros(rng, rows), shape)


# ---- one figure ----

def each_figure(rng):
    """Each of the figures above in each field, first, inner and last."""
    for bits, field, (where, at) in itertools.product(NOT_WHOLE + FAR, FIELDS,
                                                      ENDS):
        rows, shape = some_rows(rng)
        if where == 'inner':
            at = rng.randrange(1, len(rows) - 1)
        yield case(rng, put(rows, at, field, of_bits(bits)), shape)


def off(rng, number):
    """Next to a whole number, or a part of a unit off it."""
    bits = bits_of(number)
    part = rng.choice([0.5, 0.25, 0.001, 1e-7, 1e-9, 2.0**-20, 2.0**-30,
                       rng.random()])
    return rng.choice([of_bits(bits + 1),
                       of_bits(bits - 1 if number else SIGN + 1),
                       figure(number + part), figure(number - part)])


def beside_whole(rng):
    points, shape = any_curve(rng)
    rows = triples.rows(points)
    for _ in range(6):
        at, field = rng.randrange(len(rows)), rng.randrange(3)
        yield case(rng, put(rows, at, field, off(rng, points[at][field])),
                   shape)


def each_place(rng):
    """Each kind of figure in each field of each of 64 points; points after it
    may have faults too."""
    for place, field, sign, kind in itertools.product(
            range(64), FIELDS, SIGNS, KIND_BITS):
        shape = rng.choice(curves.SHAPES)
        rows = triples.rows(simple_points(64, shape))
        if place < 63 and rng.random() < 0.5:
            rows = put(rows, rng.randint(place + 1, 63), rng.randrange(3),
                       of_bits(rng.choice(NOT_WHOLE + FAR)))
        yield case(rng, put(rows, place, field,
                            of_bits(sign | KIND_BITS[kind](rng))), shape)


def edges(rng):
    """Each limit and one past it; gaps at and beside their limits."""
    points, shape = rng.choice([any_curve, curves.limit_curve])(rng)
    rows = triples.rows(points)
    at = rng.randrange(len(points))
    for field, past in enumerate(EDGES):
        for number in (past[0], past[0] + 1, past[1] - 1, past[1]):
            yield case(rng, put(rows, at, field, figure(number)), shape)
    at = rng.randrange(1, len(points))
    for gap in (-1, 0, 1, GAP_MAX, GAP_MAX + 1):
        moved = [(area + points[at - 1][0] + gap - points[at][0], *rest)
                 for area, *rest in points[at:]]
        yield case(rng, rows[:at] + triples.rows(moved), shape)


def wraps(rng):
    """Whole numbers beyond the limits, within them in fewer bits or without
    their sign."""
    points, shape = any_curve(rng)
    rows = triples.rows(points)
    for field, bits in itertools.product(FIELDS, (8, 16, 31, 32, 63, 64)):
        at = rng.randrange(len(rows))
        times = rng.choice([1, 1, 1, 2, 3, 256, -1, -1, -2])
        number = points[at][field] + times * 2**bits
        if bits > 60:                   # as near to it as 53 bits are
            number = times * 2**bits + rng.choice([0, 2**12, 3 * 2**12])
        yield case(rng, put(rows, at, field, figure(number)), shape)
    for field in FIELDS:
        at = rng.randrange(len(rows))
        other = figure(-points[at][field])
        yield case(rng, put(rows, at, field, other), shape)


def flips(rng):
    """One bit of one figure."""
    points, shape = any_curve(rng)
    rows = triples.rows(points)
    for _ in range(12):
        at, field = rng.randrange(len(rows)), rng.randrange(3)
        flipped = triples.bits_of(rows[at][field]) ^ 1 << rng.randrange(64)
        yield case(rng, put(rows, at, field, of_bits(flipped)), shape)


def noise(rng):
    """Random bytes, and random numbers of a random size."""
    count, shape = rng.randint(2, 5), rng.choice(curves.SHAPES)
    rows = [[rng.randbytes(8) for _ in FIELDS] for _ in range(count)]
    yield case(rng, rows, shape)
    size = rng.choice([10, 1000, 30000, 2.0**33, 2.0**70])
    rows = [[figure(rng.choice([rng.uniform(-size, size),
                                float(rng.randint(0, int(size)))]))
             for _ in FIELDS] for _ in range(count)]
    yield case(rng, rows, shape)


# ---- several faults ----

def beyond(rng, field):
    """A whole number beyond the limits of its field."""
    return rng.choice([figure(number) for number in EDGES[field]]
                      + [of_bits(bits) for bits in rng.sample(FAR, 3)])


def both_at_once(rng, field):
    """Not whole, and beyond the limits of its field."""
    number = rng.choice(EDGES[field])
    return rng.choice([figure(number + 0.5 if number > 0 else number - 0.5),
                       of_bits(INFINITE), of_bits(SIGN + INFINITE)])


def two_faults(rng):
    """A figure for row 14 and one for row 3, 4 or 5: in one point, or one
    right after the other."""
    for field, other, step in itertools.product(FIELDS, FIELDS, (-1, 0, 1)):
        rows, shape = some_rows(rng)
        at = rng.randrange(1, len(rows) - 1)
        rows = put(rows, at + step, other, beyond(rng, other))
        wrong = of_bits(rng.choice(NOT_WHOLE))
        if step == 0 and field == other:
            wrong = both_at_once(rng, field)
        yield case(rng, put(rows, at, field, wrong), shape)


def area_and_another(rng):
    """An area not beyond the one before, or too far, with another fault."""
    points, shape = any_curve(rng)
    at = rng.randrange(1, len(points))
    before = points[at - 1][0]
    for area, field in itertools.product(
            (before, before - 1, before + GAP_MAX + 1), (1, 2)):
        rows = put(triples.rows(points), at, 0, figure(area))
        for wrong in (beyond(rng, field), of_bits(rng.choice(NOT_WHOLE))):
            yield case(rng, put(rows, at, field, wrong), shape)


def after_a_segment(rng):
    """Row 14 or 3 to 5 at a point, a segment before it without its shape."""
    shape = rng.choice(curves.SHAPES)
    rows = triples.rows(fault_at(6, rng.randrange(20), shape))
    for field in FIELDS:
        at = rng.randrange(22, 64)
        for wrong in (beyond(rng, field), of_bits(rng.choice(NOT_WHOLE))):
            yield case(rng, put(rows, at, field, wrong), shape)


def with_fault(rng, points, shape):
    """The rows, with a fault of rows 14 and 3 to 6 or none."""
    rows = triples.rows(points)
    if len(points) < 2 or rng.random() < 0.2:
        return rows
    at, field = rng.randrange(min(64, len(points))), rng.randrange(3)
    kind = rng.choice(['not whole', 'beyond', 'beyond', 'shape'])
    if kind == 'shape':
        level = points[0][1] if shape in (1, 3) else VALUE_MAX // 2
        steep = -50 if shape in (1, 4) else 50
        return triples.rows([(area, level, steep) for area, _, _ in points])
    wrong = beyond(rng, field) if kind == 'beyond' else (
        of_bits(rng.choice(NOT_WHOLE)))
    return put(rows, at, field, wrong)


def several_rows(rng):
    """Any of the rows together: a length that is no multiple, short lists,
    too many points or too few, a code, and a fault in the points."""
    shape = rng.choice(curves.SHAPES)
    count = rng.choice([0, 1, 2, 3, 5, 20, 64, 65, 66, 70])
    data = joined(with_fault(rng, simple_points(count, shape), shape))
    code = rng.choice([shape, shape, shape, 0, 5, 255, TOP, 256 + shape])
    for rest, short in itertools.product(
            (0, 0, rng.randint(1, 23)), (0, 0, 1, count)):
        lengths = [count] * 3
        lengths[rng.randrange(3)] -= min(short, count)
        more = figure(rng.choice([0, 7, 0.5])) * 3
        yield 'import', data + more[:rest], code, tuple(lengths)


# ---- the order of bytes and figures ----

def three_rising(rng, count):
    """Points that are a rising curve whichever field is the area."""
    return list(zip(*(curves.running(rng.randint(0, 500), [
        rng.randint(1, 2000) for _ in range(count - 1)]) for _ in FIELDS)))


def orders(rng):
    """The fields in each order, figures backwards, all areas first; a curve
    file, whose length is never a multiple of 24, and its records."""
    for points, shape in ((three_rising(rng, rng.randint(2, 4)), 1),
                          (three_rising(rng, 3), 1), any_curve(rng)):
        rows = triples.rows(points)
        for order in itertools.permutations(FIELDS):
            yield case(rng, [[row[field] for field in order] for row in rows],
                       shape)
        backwards = [[eight[::-1] for eight in row] for row in rows]
        yield case(rng, backwards, shape)
        yield case(rng, [row[::-1] for row in backwards], shape)
        yield case(rng, [*zip(*rows)], shape)
        yield case(rng, rows[::-1], shape)
        for data in (curve_file(points, shape), curve_file(points, shape)[7:]):
            yield 'import', data, shape, enough(rng, len(data) // 24)


# ---- lengths, lists, codes ----

def counts(rng):
    """0 to 70 points, and a part of the next one after them."""
    for count in range(71):
        for shape in curves.SHAPES:
            rows = triples.rows(simple_points(count, shape))
            yield 'import', joined(rows), shape, (count,) * 3
        data = triples.triples(simple_points(count + 1, shape))
        for rest in {1, 8, 12, 16, 23, rng.randrange(1, 24)}:
            yield ('import', data[:24 * count + rest], shape,
                   enough(rng, count + rng.randrange(2)))
    for count, rest in itertools.product((0, 1, 2, 63, 64, 65), range(1, 24)):
        data = triples.triples(simple_points(count + 1, 1))
        yield 'import', data[:24 * count + rest], 1, enough(rng, count)


def some_lists(rng):
    """Each list shorter, exact or longer than the count, by itself and with
    the others."""
    shape = rng.choice(curves.SHAPES)
    for count, *steps in itertools.product((2, 3, 64), *[(-1, 0, 1)] * 3):
        yield ('import', triples.triples(simple_points(count, shape)), shape,
               tuple(count + step for step in steps))
    for count, field in itertools.product(range(71), FIELDS):
        rows = with_fault(rng, simple_points(count, shape), shape)
        for step in (-1, 1, -count, rng.randint(2, 99)):
            lengths = [count] * 3
            lengths[field] = max(0, count + step)
            yield 'import', joined(rows), shape, tuple(lengths)


def far_lists(rng):
    """Lists and counts that a byte or two bytes cannot say."""
    data = triples.triples(simple_points(64, 1))
    for length, k in itertools.product((255, 256, 257, 319, 2**16, 2**16 + 64),
                                       FIELDS):
        lengths = [64] * 3
        lengths[k] = length
        yield 'import', data, 1, tuple(lengths)
    for count in (255, 256, 257, 256 + 2, 256 + 64, 512 + 3, 1024):
        points = simple_points(2, 2) + [(20000, 7, 7)] * (count - 2)
        for length in (count, count % 256, 2, count + 1, count - 1):
            yield ('import', triples.triples(points), rng.choice([2, 2, 5]),
                   (length,) * 3)


def codes(rng):
    """Shape codes beyond a byte too, most of them with 1 to 4 inside."""
    points, shape = any_curve(rng)
    rows = with_fault(rng, points, shape)
    for code in (*curves.SHAPES, 0, 5, 6, 255, 256, TOP, rng.randrange(2**32),
                 *far_codes(shape)):
        yield case(rng, rows, code)


# Kind, its name, and at least how many cases.
KINDS = [
    (accepted, 'import: accepted curves', 9000),
    (zeros, 'import: zeros of both signs', 500),
    (each_figure, 'import: each figure in each field', 500),
    (beside_whole, 'import: beside whole numbers', 5000),
    (each_place, 'import: each figure at each place', 500),
    (edges, 'import: at and beside the limits', 4000),
    (wraps, 'import: within the limits in fewer bits', 3000),
    (flips, 'import: flipped bits', 4000),
    (noise, 'import: random bytes and numbers', 1500),
    (two_faults, 'import: row 14 and row 3, 4 or 5', 3000),
    (area_and_another, 'import: an area and another fault', 1500),
    (after_a_segment, 'import: a point after a segment', 500),
    (several_rows, 'import: several rows at once', 4000),
    (orders, 'import: figures and bytes in other orders', 2000),
    (counts, 'import: 0 to 70 points and a part of one', 500),
    (some_lists, 'import: lists short, exact, longer', 500),
    (far_lists, 'import: long lists, many points', 20),
    (codes, 'import: shape codes beyond a byte', 2500),
]
