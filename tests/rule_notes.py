"""What a case that reads a factor shows of item 8 of document 02, and what all
cases must have shown together.

Most notes are of areas where the other rule would read another factor: the
rising rule for the convex one and back, the falling rule for the concave one
and back. A segment without the other shape has no such curve.
"""

import itertools

import curves
import exact_fractions as ref
from curves import CONCAVE, CONVEX, FALLING, POINTS_MAX, RISING

OTHER = {RISING: CONVEX, CONVEX: RISING, FALLING: CONCAVE, CONCAVE: FALLING}
WHERE = ('first', 'inner', 'last')
# Code, and the rule that reads a curve under it.
RULES = [(RISING, RISING), (RISING, CONVEX), (CONVEX, CONVEX),
         (FALLING, FALLING), (CONCAVE, CONCAVE)]


@ref.remembered
def failing(areas, values, slopes, shape):
    """The segments without this shape."""
    return [segment for segment in range(len(areas) - 1)
            if not ref.has_shape(areas, values, slopes, shape, segment)]


def reads_another(lists, rule, area, factor):
    """Whether the other rule reads another factor there."""
    segment = ref.segment_read(lists[0], area)
    other = OTHER[rule]
    if segment in failing(*lists, other):
        return False
    value = ref.segment_value(*lists, other, segment, area)
    return ref.reading(value) != factor


# ---- one segment that fails the convex test ----

def position(count, segment):
    return {0: 'first', count - 2: 'last'}.get(segment, 'inner')


def equal_side(lists, segment):
    """The end whose slope alone is the chord's, or none."""
    areas, values, slopes = (field[segment:segment + 2] for field in lists)
    gap, rise = areas[1] - areas[0], 100 * (values[1] - values[0])
    left, right = gap * slopes[0] == rise, gap * slopes[1] == rise
    return {(True, False): 'left', (False, True): 'right'}.get((left, right))


def mended(points, segment):
    """The fields in which one figure, changed by one, makes the curve pass."""
    for at, field, step in itertools.product((segment, segment + 1), (1, 2),
                                             (-1, 1)):
        new = points[at][field] + step
        near = curves.changed(points, at, field, new)[max(0, segment - 1):
                                                      segment + 3]
        if not failing(*zip(*near), CONVEX):
            yield field


@ref.remembered
def noted_of_miss(areas, values, slopes):
    """How a rising curve misses the convex rule by one segment."""
    lists = areas, values, slopes
    segment, = failing(*lists, CONVEX)
    where, side = position(len(areas), segment), equal_side(lists, segment)
    notes = [('equal', side, where)] if side else []
    return notes + [('by one', field, side, where)
                    for field in mended(list(zip(*lists)), segment)]


# ---- one area ----

def noted_of_code(lists, shape):
    """What the curve is, where the other rule reads another factor."""
    count, missed = len(lists[0]), failing(*lists, OTHER[shape])
    if not missed:
        yield 'both', shape, count
    elif shape == RISING:
        yield 'missed', (position(count, missed[0]) if len(missed) == 1
                         else 'several')
        if len(missed) == 1:
            yield from noted_of_miss(*lists)
            if count == POINTS_MAX:
                yield 'only', missed[0]


def noted(lists, shape, area, value):
    """Of an accepted curve and its exact value at an area."""
    if shape == RISING and not (failing(*lists, CONVEX)
                                or failing(*lists, CONCAVE)):
        yield 'line', lists[1][0] < lists[1][-1]
    rule = ref.rule_used(*lists, shape)
    if reads_another(lists, rule, area, ref.reading(value)):
        yield from noted_of_code(lists, shape)
        if value.denominator == 2:
            yield 'half by one rule', shape, rule, value // 1 % 2


# ---- what is wanted, of each call that reads ----

def wanted():
    for shape, count in itertools.product(curves.SHAPES,
                                          range(2, POINTS_MAX + 1)):
        yield 'both', shape, count
    for segment in range(POINTS_MAX - 1):
        yield 'only', segment
    for where in (*WHERE, 'several'):
        yield 'missed', where
    for where, side in itertools.product(WHERE, ('left', 'right')):
        yield 'equal', side, where
        yield from [('by one', field, side, where) for field in (1, 2)]
    for where in WHERE:
        yield 'by one', 2, None, where
    for rule, odd in itertools.product(RULES, (0, 1)):
        yield 'half by one rule', *rule, odd
    yield from [('line', True), ('line', False)]
