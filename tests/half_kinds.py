"""Kinds of cases whose exact value is a half, or next to one. Inputs only;
list_kinds.py says what a case is.

Document 02, item 6: an exact half goes to the even unit. Random curves seldom
have one, so that they are made here: of each shape, on straight and on bent
segments, with the even unit below and above, also below 0 and above 200,000.

A segment is (gap, rise, left slope, right slope), of a rising or a convex
curve; their mirrors are falling and concave. t is an area's distance from its
left end, u from its right one. With b = 100 * rise - gap * left slope and a =
gap * right slope - 100 * rise a convex segment is (b t)^2 / (gap (a u + b t))
hundredths above its left tangent. Which rule reads a segment depends on its
whole curve (item 8): the curves made here are read by the rule for which the
half was made, under either code where both lead to it.
"""

import heapq
import math
from fractions import Fraction

import curves
import exact_fractions as ref
from curve_file import curve_file
from curves import (AREA_MAX, CONCAVE, CONVEX, FALLING, GAP_MAX, RISING,
                    SLOPE_MAX, VALUE_MAX)


# ---- segments with a half: (segment, rule, t), or None if there is none ----

def straight(rng):
    """slope * t is 50 more than a multiple of 100 half way between two areas
    where it is one."""
    slope = rng.choice([rng.choice([1, 2, 5, 10, 25, 50, 150, 350]),
                        rng.randint(1, SLOPE_MAX)]) * rng.choice([-1, 1])
    common = math.gcd(slope, 100)
    if 50 % common:
        return None
    period = 100 // common
    gap = period * rng.choice([1, 2, 3, rng.randint(1, GAP_MAX // period)])
    if gap > GAP_MAX:
        return None
    t = period // 2 + period * rng.randrange(gap // period)
    rule = rng.choice([RISING, CONVEX]) if slope > 0 else CONVEX
    return (gap, gap * slope // 100, slope, slope), rule, t


def curved(rng):
    """Rising. At p / q of the gap, with slopes of i / m and j / m of the
    chord's, it has risen by a fraction of the rise that these numbers give."""
    q, m = rng.randint(2, 6), rng.randint(1, 4)
    p, i, j = rng.randint(1, q - 1), rng.randint(0, 6), rng.randint(0, 6)
    s = q - p
    part = Fraction(p * (m * p + i * s),
                    m * (p * p + s * s) + (i + j) * p * s)
    if part.denominator % 2:
        return None
    odd = 2 * rng.randint(0, rng.choice([3, 100, 10**5])) + 1
    rise = part.denominator // 2 * odd
    fits = [n for n in range(1, GAP_MAX // q + 1)
            if 100 * rise * math.gcd(i, j) % (m * q * n) == 0
            and 100 * rise * max(i, j) <= SLOPE_MAX * m * q * n]
    if rise > VALUE_MAX or not fits:
        return None
    gap = q * rng.choice(fits)
    return ((gap, rise, 100 * rise * i // (m * gap),
             100 * rise * j // (m * gap)), RISING, p * gap // q)


def bent(rng, wide=False, lowest=-SLOPE_MAX):
    """Convex. At p / q of the gap, a and b in a ratio of small numbers: a, b
    and the slopes' difference are multiples of the least that are whole, and
    the left slope is sought, from the lowest one on. Wide: a long gap, and
    slopes far apart."""
    q = rng.randint(2, 8)
    p, most = rng.randint(1, q - 1), GAP_MAX // q
    n = rng.randint(3 * most // 4, most) if wide else rng.choice(
        [1, 2, 3, rng.randint(1, most)])
    a, b = rng.choice([(1, 1), (1, 2), (2, 1),
                       (rng.randint(1, 5), rng.randint(1, 5))])
    gap, t = q * n, p * n
    square, divisor = (b * t)**2, gap * (a * (gap - t) + b * t)
    least = math.lcm(divisor // math.gcd(divisor, square),
                     gap // math.gcd(gap, a + b))
    most = (SLOPE_MAX - lowest) * gap // ((a + b) * least)
    if most == 0:
        return None
    times = least * rng.randint(max(1, most // 2) if wide else 1, most)
    above, apart = times * square // divisor, times * (a + b) // gap
    lefts = [slope for least in range(100)
             if (times * b + gap * least) % 100 == 0
             and (least * t + above) % 100 == 50
             for slope in range(least + lowest, SLOPE_MAX - apart + 1, 100)]
    if not lefts:
        return None
    left = rng.choice(lefts)
    return ((gap, (times * b + gap * left) // 100, left, left + apart),
            CONVEX, t)


def wide_bent(rng):
    return bent(rng, wide=True)


def climbing(rng):
    """Convex and rising at once."""
    return bent(rng, wide=rng.random() < 0.5, lowest=0)


def made(rng, make):
    """What it makes, once it makes something."""
    while True:
        segment = make(rng)
        if segment is not None:
            return segment


# ---- segments with a value next to a half ----

def off_half(segment, rule, t):
    """How far the value is above a half, in twice the unit; -1 to 1."""
    gap, rise, left, right = segment
    u = gap - t
    if rule == RISING:
        g, e0, e1 = 100 * rise, gap * left, gap * right
        over = rise * t * (g * t + e0 * u)
        whole = g * (t * t + u * u) + (e0 + e1) * t * u
    else:
        b, a = 100 * rise - gap * left, gap * right - 100 * rise
        divisor = gap * (a * u + b * t)
        over = left * t * divisor + (b * t)**2
        whole = 100 * divisor
    return (2 * (over % whole) - whole) / whole


def any_rising(rng):
    """A segment that curves, its rise large enough for some values."""
    gap = rng.choice([rng.randint(2, 60), rng.randint(2, GAP_MAX), GAP_MAX])
    rise = rng.randint(2, rng.choice([100, 20000, VALUE_MAX]))
    slopes = [rng.choice([rng.randint(0, SLOPE_MAX),
                          rng.randint(0, min(SLOPE_MAX, 400 * rise // gap))])
              for _ in range(2)]
    return (gap, rise, *slopes), RISING


def any_bent(rng, gap):
    left = rng.randint(-SLOPE_MAX, SLOPE_MAX - 200)
    right = rng.randint(left + 200, SLOPE_MAX)
    if rng.random() < 0.5:
        right = min(right, left + rng.choice([200, 400, 2000]))
    least, most = gap * left // 100 + 1, (gap * right - 1) // 100
    return (gap, rng.randint(least, most), left, right), CONVEX


def short_bent(rng):
    return any_bent(rng, rng.randint(2, 60))


def long_bent(rng):
    """(b t)^2 mostly beyond 64 bits."""
    gap = rng.choice([GAP_MAX, rng.randint(900, GAP_MAX)])
    left = rng.choice([rng.randint(-SLOPE_MAX, 0),
                       rng.randint(0, SLOPE_MAX // 2)])
    right = rng.randint(left + SLOPE_MAX // 2, SLOPE_MAX)
    rise = (gap * (left + right) // 2 + rng.randint(
        -gap * (right - left) // 4, gap * (right - left) // 4)) // 100
    return (gap, rise, left, right), CONVEX


def nearest(segment, rule, number):
    """The distances whose values are nearest to a half, on either side."""
    by_distance = []
    for t in range(1, segment[0]):
        off = off_half(segment, rule, t)
        if off != 0:
            by_distance.append((abs(off), t))
    return [t for _, t in heapq.nsmallest(number, by_distance)]


def hardly_off(rng):
    """A short bent segment with a value off a half by less than a unit over
    200 times the gap: after a division by a u + b t no other one shows it."""
    segment, rule = short_bent(rng)
    for t in range(1, segment[0]):
        if 0 < abs(off_half(segment, rule, t)) < 1 / (100 * segment[0]):
            return segment, rule, t
    return None


# ---- curves ----

def neighbour(rng, slope, room):
    """Gap and rise of a straight segment with this slope; None if none fits
    into the room."""
    period = 100 // math.gcd(slope, 100)
    if period > min(room, GAP_MAX):
        return None
    gap = period * rng.choice([1, rng.randint(1, min(room, GAP_MAX) // period)])
    return gap, gap * slope // 100


def longer(rng, points):
    """The points, at times with a straight segment before or after them. Areas
    may be below 0."""
    (area, value, slope), (_, _, last_slope) = points
    room = AREA_MAX - points[1][0]
    step = neighbour(rng, slope, room)
    if step and rng.random() < 0.4 and 0 <= value - step[1] <= VALUE_MAX:
        points = [(area - step[0], value - step[1], slope)] + points
        room -= step[0]
    step = neighbour(rng, last_slope, room)
    area, value, slope = points[-1]
    if step and rng.random() < 0.4 and 0 <= value + step[1] <= VALUE_MAX:
        points = points + [(area + step[0], value + step[1], slope)]
    return points


def fits(points, shape):
    """Whether every segment has the shape."""
    return all(ref.has_shape(*zip(*points), shape, segment)
               for segment in range(len(points) - 1))


def bent_back(rng, points):
    """The points and one more, where the slope is 0: a rising segment that
    fails the convex test. Without room for it nothing."""
    area, value, _ = points[-1]
    if value == VALUE_MAX:
        return None
    return points + [(area + rng.randint(1, GAP_MAX),
                      rng.randint(value + 1, VALUE_MAX), 0)]


def filed(rng, points, rule):
    """(points, code), read by this rule; or the other way up, by its mirror,
    half the time and where there is no room."""
    upright, codes = points, [RISING]
    if rule == CONVEX:
        codes = [code for code in (RISING, CONVEX) if fits(points, code)]
    elif fits(points, CONVEX):
        upright = bent_back(rng, points)
    if upright and rng.random() < 0.5:
        return upright, rng.choice(codes)
    top = max(value for _, value, _ in points)
    total = rng.choice([VALUE_MAX, VALUE_MAX, VALUE_MAX, top,
                        rng.randint(top, VALUE_MAX)])
    return curves.mirrored(points, total), rule + 2


def curve_of(rng, segment, rule):
    """(points, code, left area of the segment): low, high, or anywhere."""
    gap, rise, left, right = segment
    low, high = max(0, -rise), VALUE_MAX - max(0, rise)
    value = rng.choice([low, min(high, low + 1), min(high, low + 2),
                        rng.randint(low, min(high, low + 40)),
                        rng.randint(low, high), high])
    points = longer(rng, [(0, value, left), (gap, value + rise, right)])
    points, code = filed(rng, points, rule)
    first, last = points[0][0], points[-1][0]
    start = curves.placed(rng, last - first, AREA_MAX) - first
    return [(start + area, *rest) for area, *rest in points], code, start


def sheet_with(rng, first, last, area):
    """Start, step and number of entries, one of them at the area."""
    step = rng.choice([1, 1, 2, 5, rng.randint(1, GAP_MAX)])
    before = rng.randint(0, min(7, (area - first) // step))
    after = rng.randint(0, min(7, (last - area) // step))
    return area - before * step, step, before + 1 + after


def each_reading(rng, points, shape, area):
    """Each call that reads a factor there."""
    lists, data = curves.lists(points), curve_file(points, shape)
    other = curves.inner_area(rng, points)
    yield 'desk', data, area, len(data) - 7 + rng.choice([0, 0, 1, 12])
    yield 'desk_two', data, area, 24 + rng.choice([0, 0, 1, 12])
    yield 'read', lists, shape, area
    yield 'pair', lists, shape, area, other, 3 + rng.randrange(2)
    yield 'pair', lists, shape, other, area, 3 + rng.randrange(2)
    yield ('sheet', lists, shape,
           *sheet_with(rng, points[0][0], points[-1][0], area))


def halves(make):
    """The kind of the halves that it makes."""
    def kind(rng):
        segment, rule, t = made(rng, make)
        points, code, left = curve_of(rng, segment, rule)
        yield from each_reading(rng, points, code, left + t)
    return kind


def beside(make):
    """The kind of the values next to a half on the segments that it makes."""
    def kind(rng):
        segment, rule = make(rng)
        points, code, left = curve_of(rng, segment, rule)
        for t in nearest(segment, rule, 3):
            yield from each_reading(rng, points, code, left + t)
    return kind


def beyond(rng):
    """Halves below 0, and above 200,000: a value of 0 to 9 at the lower end,
    and a bend that goes deeper."""
    while True:
        segment, _, t = made(rng, rng.choice([bent, bent, wide_bent]))
        gap, rise, left, right = segment
        value = max(0, -rise) + rng.randrange(10)
        b, a = 100 * rise - gap * left, gap * right - 100 * rise
        hundredths = left * t + (b * t)**2 // (gap * (a * (gap - t) + b * t))
        if 100 * value + hundredths < 0:
            break
    start = curves.placed(rng, gap, AREA_MAX)
    points = [(start, value, left), (start + gap, value + rise, right)]
    points, shape = curves.mirrored_at_times(rng, points, CONVEX)
    yield from each_reading(rng, points, shape, start + t)


def lines(rng):
    """Sheets of a straight line, with a half at every other area or fewer, by
    each shape that it has; and pairs of two halves."""
    segment, _, t = made(rng, straight)
    points, _, left = curve_of(rng, segment, CONVEX)
    lists, first, last = curves.lists(points), points[0][0], points[-1][0]
    half, slope = left + t, points[0][2]
    period = 100 // math.gcd(slope, 100)
    halves_at = range(half - (half - first) // period * period, last + 1,
                      period)
    for shape in (RISING if slope > 0 else FALLING, CONVEX, CONCAVE):
        step = rng.choice([1, period, max(1, period // 2)])
        start = half - rng.randint(0, min(20, (half - first) // step)) * step
        yield ('sheet', lists, shape, start, step,
               min(40, (last - start) // step + 1))
        yield ('pair', lists, shape, rng.choice(halves_at),
               rng.choice(halves_at), 3)


# Kind, its name, and at least how many cases.
KINDS = [
    (halves(straight), 'halves on straight segments', 6000),
    (halves(curved), 'halves on rising and falling segments', 8000),
    (halves(bent), 'halves on bent segments', 8000),
    (halves(wide_bent), 'halves on wide bent segments', 6000),
    (halves(climbing), 'halves on bent segments that rise', 6000),
    (beyond, 'halves below 0 and above 200,000', 4000),
    (lines, 'lines with many halves', 2000),
    (beside(any_rising), 'next to a half, rising and falling', 4000),
    (beside(short_bent), 'next to a half, bent', 4000),
    (beside(long_bent), 'next to a half, wide and bent', 4000),
    (halves(hardly_off), 'hardly off a half', 2000),
]
