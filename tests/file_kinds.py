"""Kinds of cases on curve files: (file, area, scratch length). Inputs only.

The desk reading is called with each of them, and another call, made by
list_kinds.further, on the same file or on its points as lists.
"""

import curves
from curve_file import curve_file
from curves import any_curve, past_limit, shapeless_points


def any_file(rng):
    points, shape = any_curve(rng)
    return curve_file(points, shape), curves.inner_area(rng, points)


def scratch_for(rng, data):
    """A scratch length that is enough: exact, or longer."""
    need = 12 * (data[6] if len(data) > 6 else 0)
    return need + rng.choice([0, 0, 1, 11, 12, rng.randint(0, 99)])


def readings(rng, points, shape, number):
    """Cases for some areas of one accepted curve."""
    data = curve_file(points, shape)
    for _ in range(number):
        yield data, curves.inner_area(rng, points), scratch_for(rng, data)


# ---- one generator for each kind of case: (file, area, scratch length) ----

def rising(rng):
    yield from readings(rng, curves.some_curve(rng, 1), 1, 20)


def convex(rng):
    yield from readings(rng, curves.some_curve(rng, 2), 2, 20)


def falling(rng):
    yield from readings(rng, curves.some_curve(rng, 3), 3, 20)


def concave(rng):
    yield from readings(rng, curves.some_curve(rng, 4), 4, 20)


def limits(rng):
    points, shape = curves.limit_curve(rng)
    yield from readings(rng, points, shape, 10)


def dips(rng):
    yield from readings(rng, curves.dipping_curve(rng), 2, 5)


def hills(rng):
    points = curves.mirrored(curves.dipping_curve(rng))
    yield from readings(rng, points, 4, 5)


def one_past(rng):
    if rng.random() < 0.5:
        points, shape = curves.limit_curve(rng)
    else:
        points, shape = any_curve(rng)
    for _ in range(5):
        data = curve_file(past_limit(rng, points), shape)
        yield data, curves.inner_area(rng, points), scratch_for(rng, data)


def shifted(rng):
    """A gap of 2,000 or 2,001; the points after it move along."""
    points, shape = any_curve(rng)
    at = rng.randrange(1, len(points))
    more = points[at - 1][0] + rng.choice([2000, 2001]) - points[at][0]
    moved = [(area + more, value, slope) for area, value, slope in points[at:]]
    data = curve_file(points[:at] + moved, shape)
    yield data, points[0][0], scratch_for(rng, data)


def counts_and_codes(rng):
    points, shape = any_curve(rng)
    area = curves.inner_area(rng, points)
    code = rng.choice([0, 5, 6, 7, 8, 127, 128, 129, 130, 131, 132, 254, 255])
    count = rng.choice([0, 1, 65, 66, 127, 128, 129, 254, 255])
    many = (points * (count // len(points) + 1))[:count]
    for data in (curve_file(points, code),
                 curve_file(many, shape),
                 curve_file(many, code)):
        yield data, area, scratch_for(rng, data)


def equal_side(rng):
    """Convex or concave, but at one end the slope equals the chord's."""
    gap = rng.choice([1, 2, 4, 20, 100, 500, 2000])
    chord = rng.randint(-50, 50) * 100
    rise = gap * chord // 100
    slopes = rng.choice([(chord - 1, chord), (chord, chord + 1),
                         (chord, chord), (chord - 1, chord + 1),
                         (chord + 1, chord), (chord, chord - 1),
                         (chord + 1, chord - 1)])
    value = rng.randint(max(0, -rise), curves.VALUE_MAX - max(0, rise))
    return [(0, value, slopes[0]), (gap, value + rise, slopes[1])]


def nearly_level(rng):
    """Two points with a rise and slopes of -1, 0 or 1."""
    value = rng.choice([1, 7, curves.VALUE_MAX - 1])
    rise, left, right = (rng.choice([-1, 0, 0, 1]) for _ in range(3))
    return [(0, value, left),
            (rng.choice([1, 2, 100, 2000]), value + rise, right)]


def shapeless(rng):
    for make, codes in ((equal_side, (2, 4)), (nearly_level, (1, 3))):
        points = make(rng)
        for code in codes:
            yield curve_file(points, code), curves.inner_area(rng, points), 24
    points, shape = any_curve(rng)
    for _ in range(4):
        data = curve_file(shapeless_points(rng, points), shape)
        yield data, curves.inner_area(rng, points), scratch_for(rng, data)
    for other in set(curves.SHAPES) - {shape}:
        data = curve_file(points, other)
        yield data, curves.inner_area(rng, points), scratch_for(rng, data)


def marks(rng):
    data, area = any_file(rng)
    for at in range(5):
        wrong = bytearray(data)
        wrong[at] = rng.choice([0, wrong[at] ^ 32, wrong[at] ^ 1,
                                wrong[at] + 1, rng.randrange(256)])
        yield bytes(wrong), area, scratch_for(rng, data)


def lengths(rng):
    """Files cut short or made longer, also by whole points."""
    data, area = any_file(rng)
    scratch = scratch_for(rng, data)
    for cut in {0, 5, 6, 7, 8, len(data) - 1, len(data) - 12,
                rng.randrange(len(data)), rng.randrange(len(data))}:
        yield data[:cut], area, scratch
    for more in (1, 12, rng.randint(2, 64)):
        yield data + rng.randbytes(more), area, scratch
    wrong = bytearray(data)
    wrong[6] = (data[6] + rng.choice([-1, 1])) & 255
    yield bytes(wrong), area, scratch + 12


def flips(rng):
    data, area = any_file(rng)
    for _ in range(12):
        wrong = bytearray(data)
        for _ in range(rng.choice([1, 1, 1, 2, 3])):
            at = rng.choice([rng.randrange(7), rng.randrange(len(data)),
                             rng.randrange(len(data))])
            wrong[at] ^= 1 << rng.randrange(8)
        yield bytes(wrong), area, scratch_for(rng, wrong)


def scratches(rng):
    """A byte short, exact, longer, none; also of files with faults."""
    data, area = any_file(rng)
    if rng.random() < 0.2:
        data = data[:5] + bytes([rng.choice([0, 5])]) + data[6:]
    need = 12 * data[6]
    for length in (need - 1, need, need + 1, need + 12, 0, need // 2,
                   rng.randrange(need), rng.randrange(3100)):
        yield data, area, length


def outside(rng):
    points, shape = any_curve(rng)
    data = curve_file(points, shape)
    for _ in range(8):
        yield data, curves.outer_area(rng, points), scratch_for(rng, data)
    for area in (points[0][0], points[-1][0]):
        yield data, area, scratch_for(rng, data)


def several_faults(rng):
    """Two or more faults in one file: which comes first."""
    points, shape = any_curve(rng)
    area = rng.choice([curves.inner_area(rng, points),
                       curves.outer_area(rng, points)])
    for _ in range(rng.randint(1, 3)):
        points = rng.choice([past_limit, shapeless_points])(rng, points)
    if rng.random() < 0.1:
        shape = rng.choice([0, 5])
    data = curve_file(points, shape)
    scratch = scratch_for(rng, data) - rng.choice([0, 0, 0, 0, 0, 0, 100])
    if rng.random() < 0.1:
        data = data[:rng.randrange(len(data))]
    yield data, area, max(0, scratch)


def noise(rng):
    """Random bytes, bare or behind a good header."""
    count = rng.randint(0, 66)
    data = rng.randbytes(12 * count)
    if rng.random() < 0.8:
        data = b'TRF\1\0' + bytes([rng.randint(0, 5), count]) + data
    yield data, rng.randrange(2**32), rng.randrange(900)


# Kind, its name, and at least how many readings of the desk.
KINDS = [
    (rising, 'rising curves', 40000),
    (convex, 'convex curves', 40000),
    (falling, 'falling curves', 40000),
    (concave, 'concave curves', 40000),
    (limits, 'fields at the limits', 16000),
    (dips, 'convex curves close to zero', 6000),
    (hills, 'concave curves close to 200,000', 6000),
    (one_past, 'one field past its limit', 14000),
    (shifted, 'gap of 2,000 or 2,001', 3000),
    (counts_and_codes, 'wrong count or shape code', 6000),
    (shapeless, 'segments on the edge of a shape', 12000),
    (marks, 'wrong mark or version', 4000),
    (lengths, 'truncated and lengthened files', 12000),
    (flips, 'flipped bits', 16000),
    (scratches, 'scratch short, exact, longer', 10000),
    (outside, 'areas beyond the ends', 10000),
    (several_faults, 'several faults', 8000),
    (noise, 'random bytes', 2000),
]
