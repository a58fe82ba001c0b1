"""Random curves for the tests: inputs only, no answers.

A curve is a list of points (area, value, slope) and a shape code. The curves
made here are meant to be accepted; whether one is, exact_fractions.py says.
"""

import random

AREA_MAX = 20000
GAP_MAX = 2000
VALUE_MAX = 200000
SLOPE_MAX = 10000
POINTS_MAX = 64
RISING = 1
CONVEX = 2
FALLING = 3
CONCAVE = 4
SHAPES = (RISING, CONVEX, FALLING, CONCAVE)


def lists(points):
    """Areas, values and slopes, each in its 32 bits."""
    return (tuple(area % 2**32 for area, _, _ in points),
            tuple(value % 2**32 for _, value, _ in points),
            tuple((slope + 2**31) % 2**32 - 2**31 for _, _, slope in points))


def some_count(rng):
    """2 to 64 points; short curves and the ends more often."""
    return rng.choice([2, 2, 3, 4, 64, rng.randint(2, 12),
                       rng.randint(2, POINTS_MAX), rng.randint(2, POINTS_MAX)])


def some_gap(rng, style, room):
    """The distance to the next point, at most `room`."""
    top = min(GAP_MAX, room)
    if style == 'tight':
        return min(top, rng.randint(1, 4))
    if style == 'limit':
        return rng.choice([top, top, 1, rng.randint(1, top)])
    if style == 'even':
        return min(top, 2 * rng.randint(1, 60))
    return rng.randint(1, max(1, min(top, 600)))


def some_gaps(rng, count):
    """count - 1 gaps that fit below 20,000 together."""
    style = rng.choice(['tight', 'limit', 'even', 'loose'])
    gaps, room = [], AREA_MAX
    for left in range(count - 1, 0, -1):
        gap = some_gap(rng, style, room - (left - 1))
        gaps.append(gap)
        room -= gap
    rng.shuffle(gaps)
    return gaps


def placed(rng, total, top):
    """A start for a list that covers `total`, so that it ends by `top`."""
    room = top - total
    return rng.choice([0, room, rng.randint(0, room)])


def running(start, steps):
    sums = [start]
    for step in steps:
        sums.append(sums[-1] + step)
    return sums


# ---- rising curves ----

def fitted(rises):
    """The rises, made smaller if they are above 200,000 together."""
    total = sum(rises)
    if total <= VALUE_MAX:
        return rises
    return [rise * VALUE_MAX // total for rise in rises]


def some_rises(rng, count):
    """count - 1 differences of values, 0 or more, at most 200,000 together."""
    style = rng.choice(['tiny', 'tariff', 'steep', 'one', 'flat'])
    if style == 'one':                   # all of it in one segment
        rises = [0] * (count - 1)
        rises[rng.randrange(count - 1)] = rng.choice([1, VALUE_MAX])
        return rises
    top = {'tiny': 3, 'tariff': 3000, 'steep': VALUE_MAX, 'flat': 9}[style]
    rises = [rng.randint(0, top) for _ in range(count - 1)]
    if style == 'flat':                  # runs of constant segments
        rises = [rise if rng.random() < 0.3 else 0 for rise in rises]
    return fitted(rises)


def rising_slope(rng, style):
    if style == 'ends':
        return rng.choice([0, SLOPE_MAX])
    if style == 'near':
        return rng.choice([0, 1, 2, SLOPE_MAX - 1, SLOPE_MAX])
    if style == 'small':
        return rng.randint(0, 300)
    return rng.randint(0, SLOPE_MAX)


def rising_curve(rng, count):
    gaps = some_gaps(rng, count)
    rises = some_rises(rng, count)
    areas = running(placed(rng, sum(gaps), AREA_MAX), gaps)
    values = running(placed(rng, sum(rises), VALUE_MAX), rises)
    style = rng.choice(['ends', 'near', 'small', 'any'])
    slopes = [rising_slope(rng, style) for _ in range(count)]
    for segment, rise in enumerate(rises):
        if rise == 0:                    # a constant segment has slopes 0
            slopes[segment] = slopes[segment + 1] = 0
    return list(zip(areas, values, slopes))


# ---- convex curves ----

def convex_step(rng, gap, slope, spread):
    """A right slope and a rise for a segment with this left slope.

    The chord slope lies strictly between the two, or equals both.
    """
    if gap * slope % 100 == 0 and rng.random() < 0.2:
        return slope, gap * slope // 100            # straight
    least = gap * slope // 100 + 1       # the least rise above the tangent
    right = max(slope + rng.randint(1, spread), 100 * least // gap + 1)
    right = min(right, SLOPE_MAX)
    most = (gap * right - 1) // 100
    if most < least:
        return None
    return right, rng.choice([least, most, rng.randint(least, most)])


def convex_chain(rng, count, style, lowest):
    """Gaps, rises and slopes from the left, until one does not fit."""
    spread = rng.choice([1, 20, 300, 3000, 20000])
    slope = rng.choice([-SLOPE_MAX, -spread, 0, rng.randint(lowest, 9000)])
    slope = max(slope, lowest)
    gaps, rises, slopes = [], [], [slope]
    height = low = high = 0
    room = AREA_MAX
    while len(slopes) < count and room > 0:
        gap = some_gap(rng, style, room)
        step = convex_step(rng, gap, slope, spread)
        if step is None:
            break
        height += step[1]
        low, high = min(low, height), max(high, height)
        if high - low > VALUE_MAX:
            break
        slope = step[0]
        gaps.append(gap)
        rises.append(step[1])
        slopes.append(slope)
        room -= gap
    return gaps, rises, slopes


def convex_curve(rng, count, lowest=-SLOPE_MAX):
    """Up to `count` points, as many as fit the limits; no slope is below the
    lowest."""
    while True:
        style = rng.choice(['tight', 'limit', 'even', 'loose'])
        gaps, rises, slopes = convex_chain(rng, count, style, lowest)
        if gaps:
            break
    heights = running(0, rises)
    low, high = min(heights), max(heights)
    start = placed(rng, high - low, VALUE_MAX) - low
    areas = running(placed(rng, sum(gaps), AREA_MAX), gaps)
    return list(zip(areas, running(start, rises), slopes))


def gentle_convex_curve(rng, count):
    """A convex curve of exactly `count` points: small gaps and slopes."""
    while True:
        points = convex_curve(rng, count)
        if len(points) == count:
            return points


def rising_convex_curve(rng, count):
    """Both at once, up to `count` points: convex, no slope below 0."""
    return convex_curve(rng, count, lowest=0)


# ---- falling and concave curves ----

def mirrored(points, total=VALUE_MAX):
    """Upside down: rising becomes falling, convex becomes concave, and back."""
    return [(area, total - value, -slope) for area, value, slope in points]


def mirrored_at_times(rng, points, shape):
    """(points, shape) of a rising or convex curve, or of its mirror."""
    if rng.random() < 0.5:
        return points, shape
    return mirrored(points), shape + 2


# ---- curves of any shape ----

def some_curve(rng, shape):
    if shape > CONVEX:
        return mirrored(some_curve(rng, shape - 2))
    count = some_count(rng)
    if shape == RISING:
        return rising_curve(rng, count)
    if rng.random() < 0.3:
        return gentle_convex_curve(rng, count)
    return convex_curve(rng, count)


def any_curve(rng):
    shape = rng.choice(SHAPES)
    return some_curve(rng, shape), shape


def straight_curve(rng):
    """A line of even gaps: of shapes 2 and 4, and of 1, of 3 or of both."""
    while True:
        gaps = [max(2, gap - gap % 2)
                for gap in some_gaps(rng, some_count(rng))]
        if sum(gaps) <= AREA_MAX:
            break
    most = min(SLOPE_MAX, 100 * VALUE_MAX // sum(gaps)) // 50
    slope = 50 * rng.choice([0, 1, most, rng.randint(0, most)])
    rises = [gap * slope // 100 for gap in gaps]
    areas = running(placed(rng, sum(gaps), AREA_MAX), gaps)
    values = running(placed(rng, sum(rises), VALUE_MAX), rises)
    points = list(zip(areas, values, [slope] * len(areas)))
    return rng.choice([points, mirrored(points)])


# ---- curves at the limits ----

def full_ladder(rng):
    """Eleven points from 0 to 20,000, each gap 2,000."""
    rises = [VALUE_MAX // 10] * 10
    if rng.random() < 0.5:
        rises = [0] * 9 + [VALUE_MAX]
        rng.shuffle(rises)
    slopes = [rng.choice([0, SLOPE_MAX]) for _ in range(11)]
    for segment, rise in enumerate(rises):
        if rise == 0:
            slopes[segment] = slopes[segment + 1] = 0
    areas = running(0, [GAP_MAX] * 10)
    return list(zip(areas, running(0, rises), slopes))


def limit_rising(rng):
    gap = rng.choice([1, 2, 3, GAP_MAX - 1, GAP_MAX])
    rise = rng.choice([1, 2, VALUE_MAX - 1, VALUE_MAX])
    start = rng.choice([0, AREA_MAX - gap])
    value = rng.choice([0, VALUE_MAX - rise])
    slopes = [rng.choice([0, 1, SLOPE_MAX - 1, SLOPE_MAX]) for _ in range(2)]
    return [(start, value, slopes[0]), (start + gap, value + rise, slopes[1])]


def limit_convex(rng):
    gap = rng.choice([1, 2, 3, GAP_MAX - 1, GAP_MAX])
    start = rng.choice([0, AREA_MAX - gap])
    top = gap * SLOPE_MAX // 100
    rise = rng.choice([0, 1, -1, top - 1, 1 - top, rng.randint(1 - top, top - 1)])
    value = rng.choice([max(0, -rise), min(VALUE_MAX, VALUE_MAX - rise)])
    return [(start, value, -SLOPE_MAX), (start + gap, value + rise, SLOPE_MAX)]


def limit_curve(rng):
    """(points, shape) with fields at their limits."""
    make, shape = rng.choice([(full_ladder, RISING), (limit_rising, RISING),
                              (limit_convex, CONVEX), (limit_convex, CONVEX)])
    return mirrored_at_times(rng, make(rng), shape)


def random_curves(seed, number):
    """(points, shape), all shapes, and some at the limits."""
    rng = random.Random(seed)
    for index in range(number):
        if index % 5 == 4:
            yield limit_curve(rng)
        else:
            yield some_curve(rng, 1 + index % 4), 1 + index % 4


def convex_through(rng, slopes, gap):
    """A convex curve of these slopes, each above the one before.

    A gap of 101 or more has room for a chord between any two of them.
    """
    rises = []
    for left, right in zip(slopes, slopes[1:]):
        least, most = gap * left // 100 + 1, (gap * right - 1) // 100
        rises.append(rng.choice([least, most, rng.randint(least, most)]))
    heights = running(0, rises)
    low, high = min(heights), max(heights)
    start = rng.choice([0, VALUE_MAX - (high - low)]) - low
    areas = running(rng.choice([0, AREA_MAX - gap * len(rises)]),
                    [gap] * len(rises))
    return list(zip(areas, running(start, rises), slopes))


def limit_rising_file(rng, count):
    gap = rng.choice([1, GAP_MAX]) if count == 2 else AREA_MAX // 63
    rise = rng.choice([1, VALUE_MAX // (count - 1)])
    areas = running(rng.choice([0, AREA_MAX - gap * (count - 1)]),
                    [gap] * (count - 1))
    values = running(rng.choice([0, VALUE_MAX - rise * (count - 1)]),
                     [rise] * (count - 1))
    slopes = [rng.choice([0, 1, SLOPE_MAX]) for _ in range(count)]
    return list(zip(areas, values, slopes))


def limit_convex_file(rng, count):
    slopes = [-SLOPE_MAX, -1, 0, 1, SLOPE_MAX]
    if count == 2:
        gap = rng.choice([101, GAP_MAX, rng.randint(101, GAP_MAX)])
        return convex_through(rng, sorted(rng.sample(slopes, 2)), gap)
    slopes += rng.sample(range(2, 3000), 30)
    slopes += [-slope for slope in rng.sample(range(2, 3000), 29)]
    return convex_through(rng, sorted(slopes), 101)


def limit_file(rng):
    """(points, shape) of 2 or 64 points with fields at their limits."""
    make, shape = rng.choice([(limit_rising_file, RISING),
                              (limit_convex_file, CONVEX)])
    count = rng.choice([2, POINTS_MAX])
    return mirrored_at_times(rng, make(rng, count), shape)


def dipping_curve(rng):
    """Two low points, the curve falling from the left and to the right."""
    gap = rng.choice([2, 3, 5, rng.randint(2, GAP_MAX), GAP_MAX])
    top = rng.choice([300, SLOPE_MAX])
    left, right = -rng.randint(100, top), rng.randint(100, top)
    least, most = gap * left // 100 + 1, (gap * right - 1) // 100
    rise = rng.randint(max(least, -40), min(most, 40))
    value = max(0, -rise) + rng.choice([0, 0, 1, 7])
    return [(0, value, left), (gap, value + rise, right)]


# ---- a point changed ----

def changed(points, at, field, new):
    """The points with one field replaced."""
    point = list(points[at])
    point[field] = new
    return points[:at] + [tuple(point)] + points[at + 1:]


def past_limit(rng, points):
    """The points with one field one past a limit, or far past it."""
    at = rng.randrange(len(points))
    area, value, slope = points[at]
    before = points[at - 1][0] if at else 0
    wrong = [(0, AREA_MAX + 1), (0, area + 2**16), (0, area + 2**31),
             (1, VALUE_MAX + 1), (1, value + 2**24), (1, 2**32 - 1),
             (2, SLOPE_MAX + 1), (2, -SLOPE_MAX - 1),
             (2, slope + 2**16), (2, slope ^ -2**31)]
    if at:
        wrong += [(0, before + GAP_MAX + 1), (0, before),
                  (0, before - 1)]
    return changed(points, at, *rng.choice(wrong))


def shapeless_points(rng, points):
    """One point's value or slope changed a little or anew."""
    at = rng.randrange(len(points))
    _, value, slope = points[at]
    near = rng.choice([-1, 1])
    field, new = rng.choice([
        (1, max(0, value + near)), (1, rng.randint(0, VALUE_MAX)),
        (2, slope + near), (2, -slope),
        (2, rng.randint(-SLOPE_MAX, SLOPE_MAX))])
    return changed(points, at, field, new)


# ---- areas to read ----

def inner_area(rng, points):
    """An area of the curve: a point, beside one, a middle, or any."""
    segment = rng.randrange(len(points) - 1)
    left, right = points[segment][0], points[segment + 1][0]
    return rng.choice([left, right, left + 1, right - 1, (left + right) // 2,
                       rng.randint(left, right), rng.randint(left, right),
                       rng.randint(points[0][0], points[-1][0])])


def outer_area(rng, points):
    """An area beyond the ends, most of them close to a number's end.

    Some are inside the curve if only their low bits are looked at.
    """
    first, last = points[0][0], points[-1][0]
    inside = rng.randint(first, last)
    return rng.choice([first - 1, last + 1, 0, AREA_MAX, AREA_MAX + 1,
                       2**31 - 1, 2**31, 2**32 - 1, 2**32 - 2,
                       inside + 2**15, inside + 2**16, inside + 2**24,
                       inside + 2**31, inside + 2**32 - 2**16,
                       rng.randrange(2**32)]) & 0xFFFFFFFF
