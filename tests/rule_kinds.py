"""Kinds of cases of curves that are rising and convex at once, or nearly: item
8 of document 02. Inputs only; list_kinds.py says what a case is.

Under code 1 the convex rule reads a curve that passes the convex test too, in
every segment, and the rising rule reads one that fails it anywhere.
"""

import curves
from curves import (CONCAVE, CONVEX, FALLING, POINTS_MAX, RISING,
                    VALUE_MAX)
from half_kinds import each_reading, fits
from list_kinds import all_calls

BOTH = (RISING, CONVEX)


# ---- curves ----

def any_both(rng):
    """Rising and convex at once."""
    return curves.rising_convex_curve(rng, curves.some_count(rng))


def stairs(count, more, line=None):
    """Both at once: gaps of 300, each slope 30 above the one before it, each
    segment so much higher than its left tangent, 1 to 89; or this one
    straight."""
    steps = [30 * (line is None or at != line) for at in range(count - 1)]
    slopes = curves.running(30, steps)
    rises = [3 * slope + (more if step else 0)
             for slope, step in zip(slopes, steps)]
    return list(zip(curves.running(0, [300] * (count - 1)),
                    curves.running(0, rises), slopes))


def off(points, at, field, step):
    """The points with one figure changed by this."""
    return curves.changed(points, at, field, points[at][field] + step)


def one_off(count, segment):
    """Stairs with one figure off by one, so that this segment alone fails the
    convex test: a value, so that the chord has one end's slope; a slope, so
    that a straight segment has the chord's slope at one end only; a slope
    above the chord's."""
    low, high = stairs(count, 1), stairs(count, 89)
    straight = stairs(count, 15, segment)
    return [off(low, segment, 1, 1), off(high, segment + 1, 1, 1),
            off(straight, segment, 2, -1), off(straight, segment + 1, 2, 1),
            off(low, segment, 2, 1)]


def jump(rng, points, segment):
    """The points of a curve that is both, this segment's rise another one with
    which it fails the convex test and no other segment does; or None."""
    (left, value, first), (right, after, last) = points[segment:segment + 2]
    low = (right - left) * first // 100
    high = -((left - right) * last // 100)
    most = after - value + VALUE_MAX - points[-1][1]
    rise = rng.choice([low, high, high + 1, rng.randint(0, low),
                       rng.randint(high, max(high, most))])
    more = rise - (after - value)
    moved = [(area, value + more, slope)
             for area, value, slope in points[segment + 1:]]
    points = points[:segment + 1] + moved
    if 0 < rise <= most and not fits(points, CONVEX):
        return points
    return None


def below_zero(rng, points, field):
    """All moved down, so that the first area or the first value is below 0 and
    a higher one after it is not."""
    down = rng.randint(points[0][field] + 1,
                       max(points[0][field] + 1, points[1][field]))
    for at in range(len(points)):
        points = off(points, at, field, -down)
    return points


def near(points, at):
    """The points next to one, and that one."""
    return points[max(0, at - 1):at + 2]


# ---- areas ----

def inside(rng, points, segment):
    """An area in the middle of this segment."""
    left, right = points[segment][0], points[segment + 1][0]
    third = (right - left) // 3
    return rng.randint(left + third, right - third)


def elsewhere(rng, points, segment):
    """In the middle of another segment, if there is one."""
    others = [at for at in range(len(points) - 1) if at != segment]
    return inside(rng, points, rng.choice(others or [segment]))


# ---- kinds ----

def both(rng):
    """Filed under 1 and under 2."""
    points = any_both(rng)
    middle = inside(rng, points, rng.randrange(len(points) - 1))
    for area in (middle, curves.inner_area(rng, points)):
        for code in BOTH:
            yield from each_reading(rng, points, code, area)
            yield from all_calls(rng, points, code, area)


def each_count(rng):
    """2 to 64 points, under each code, the mirrors under 3 and 4."""
    for count in range(2, POINTS_MAX + 1):
        points = stairs(count, rng.choice([1, 89]))
        area = inside(rng, points, rng.randrange(count - 1))
        for code in BOTH:
            yield from each_reading(rng, points, code, area)
            yield from each_reading(rng, curves.mirrored(points), code + 2,
                                    area)


def readings_off(rng, count, segment):
    """This segment alone fails, by one figure."""
    for points in one_off(count, segment):
        area = elsewhere(rng, points, segment)
        yield from each_reading(rng, points, RISING, area)


def each_segment(rng):
    """Each of 63 segments."""
    for segment in range(POINTS_MAX - 1):
        yield from readings_off(rng, POINTS_MAX, segment)


def few_points(rng):
    """Each of one to three segments."""
    for count, segment in ((2, 0), (3, 0), (3, 1), (4, 0), (4, 1), (4, 2)):
        yield from readings_off(rng, count, segment)


def one_segment(rng):
    """One segment fails: the first, the last, or any."""
    points = any_both(rng)
    last = len(points) - 2
    for segment in (0, last, rng.randint(0, last)):
        changed = jump(rng, points, segment)
        if changed:
            for area in (inside(rng, changed, segment),
                         elsewhere(rng, changed, segment)):
                yield from each_reading(rng, changed, RISING, area)
            yield from all_calls(rng, changed, RISING, area)
            yield from each_reading(rng, curves.mirrored(changed), FALLING,
                                    area)


def one_figure(rng):
    """A value or a slope off by one, with which a segment fails; the others
    stay both."""
    points = any_both(rng)
    for _ in range(12):
        at, field = rng.randrange(len(points)), rng.choice([1, 2])
        changed = off(points, at, field, rng.choice([-1, 1]))
        beside = near(changed, at)
        if fits(beside, RISING) and not fits(beside, CONVEX):
            yield from each_reading(rng, changed, RISING,
                                    curves.inner_area(rng, changed))


def faults(rng):
    """Both at once but for a field past its limit, a changed value or slope,
    or a first slope of -1, with which it is convex alone."""
    points = any_both(rng)
    for changed in (curves.past_limit(rng, points),
                    curves.shapeless_points(rng, points),
                    curves.changed(points, 0, 2, -1),
                    below_zero(rng, points, 0), below_zero(rng, points, 1)):
        area = curves.inner_area(rng, points)
        for code in BOTH:
            yield from all_calls(rng, changed, code, area)


def mirrors(rng):
    """Falling and concave at once."""
    points = curves.mirrored(any_both(rng))
    for code in (FALLING, CONCAVE):
        for _ in range(2):
            yield from each_reading(rng, points, code,
                                    curves.inner_area(rng, points))


def lines(rng):
    """Straight and level curves under 1, and as each other shape that fits."""
    points = curves.straight_curve(rng)
    if rng.random() < 0.3:
        points = [(area, points[0][1], 0) for area, _, _ in points]
    area = curves.inner_area(rng, points)
    for code in curves.SHAPES:
        if fits(points, code):
            yield from each_reading(rng, points, code, area)


# Kind, its name, and at least how many cases.
KINDS = [
    (both, 'rising and convex at once', 16000),
    (each_count, 'rising and convex: 2 to 64 points', 500),
    (each_segment, 'rising, not convex in one of 63 segments', 500),
    (few_points, 'rising, not convex in one of 1 to 3 segments', 1000),
    (one_segment, 'rising, not convex in one segment', 16000),
    (one_figure, 'rising, not convex by one figure', 12000),
    (faults, 'rising and convex but for a fault', 12000),
    (mirrors, 'falling and concave at once', 6000),
    (lines, 'lines under each code', 4000),
]
