"""Factor curves through rated points, computed with exact fractions.

Follows documents 01 and 02 sentence by sentence; speed does not matter, but
what was computed for a curve is remembered. Equation numbers in brackets are
those of report TR/10/83.

An answer is ('ok', result...) or ('refused', number, place).
Run as a program it is `ratesheet`: a curve file on standard input.
"""

import functools
import math
import struct
import sys
from fractions import Fraction

# Document 01, The figures and their units: shape codes.
RISING = 1
CONVEX = 2
# Document 02, item 4: two more, each the mirror of one of the others.
FALLING = 3
CONCAVE = 4
MIRROR = {FALLING: RISING, CONCAVE: CONVEX}


def refused(number, place):
    return ('refused', number, place)


def remembered(function):
    """The same function of areas, values, slopes and further arguments."""
    known = functools.lru_cache(maxsize=5000)(function)

    @functools.wraps(function)
    def look(areas, values, slopes, *rest):
        return known(tuple(areas), tuple(values), tuple(slopes), *rest)
    return look


# ---- Document 02, item 4: curves that fall or flatten ----

def mirrored(values, slopes):
    """200,000 less each value, and the slopes with their signs changed."""
    return [200000 - value for value in values], [-slope for slope in slopes]


# ---- Document 01, The exact curve ----

def p_over_q(left_value, right_value, h, d0, d1, r, t):
    """(2.3) to (2.5): the curve as P / Q."""
    u = h - t
    p = Fraction(t, h)
    q = Fraction(u, h)
    P = (right_value * p**3
         + (r * right_value - h * d1) * p**2 * q
         + (r * left_value + h * d0) * p * q**2
         + left_value * q**3)
    Q = 1 + (r - 3) * p * q
    return P / Q


def segment_value(areas, values, slopes, shape, segment, area):
    """The exact curve of one segment that has its shape."""
    if shape in MIRROR:                  # item 4: taken from 200,000 again
        return 200000 - segment_value(areas, *mirrored(values, slopes),
                                      MIRROR[shape], segment, area)
    left, right = segment, segment + 1
    h = areas[right] - areas[left]
    F = values[right] - values[left]
    t = area - areas[left]
    d0 = Fraction(slopes[left], 100)     # the figure over 100
    d1 = Fraction(slopes[right], 100)
    c = Fraction(F, h)                   # the chord slope
    if shape == RISING:
        if F == 0:
            return Fraction(values[left])        # (3.11): constant
        r = 1 + (d0 + d1) / c                    # (3.9)
    else:
        if d0 == c == d1:
            return values[left] + c * t          # the straight line
        a = d1 - c
        b = c - d0
        r = 1 + a / b + b / a                    # (3.21)
    return p_over_q(values[left], values[right], h, d0, d1, r, t)


def segment_read(areas, area):
    """Document 01, The calls, Read: the last segment whose left area is
    not above the area read; at the last area, the last segment."""
    found = 0
    for segment in range(len(areas) - 1):
        if areas[segment] <= area:
            found = segment
    return found


@remembered
def exact_value(areas, values, slopes, shape, area):
    """The exact value, a Fraction.

    Only for an accepted curve and an area from its first point's to its
    last point's (document 01, The words of the third demand).
    """
    rule = rule_used(areas, values, slopes, shape)
    segment = segment_read(areas, area)
    return segment_value(areas, values, slopes, rule, segment, area)


# ---- Document 01, Rounding; document 02, item 6: halves to the even unit ----

def reading(v):
    """The nearest whole number; of an exact half's two, the even one."""
    below = math.floor(v)
    over = v - below
    if over == Fraction(1, 2):
        return below if below % 2 == 0 else below + 1
    return below if over < Fraction(1, 2) else below + 1


def factor(areas, values, slopes, shape, area):
    """The reading of the exact value; only where there is one."""
    return reading(exact_value(areas, values, slopes, shape, area))


# ---- Document 01, When a segment has its shape ----

def has_shape(areas, values, slopes, shape, segment):
    if shape in MIRROR:                  # item 4: the test of the mirror
        return has_shape(areas, *mirrored(values, slopes), MIRROR[shape],
                         segment)
    left, right = segment, segment + 1
    h = areas[right] - areas[left]
    F = values[right] - values[left]
    if shape == RISING:
        if F > 0:
            return slopes[left] >= 0 and slopes[right] >= 0
        return F == 0 and slopes[left] == 0 and slopes[right] == 0
    if h * slopes[left] < 100 * F < h * slopes[right]:           # (3.22)
        return True
    return h * slopes[left] == 100 * F == h * slopes[right]


# ---- Document 02, item 8: rising and convex at once ----

@remembered
def rule_used(areas, values, slopes, shape):
    """The shape code by whose rule an accepted curve is read.

    The convex rule comes first: under code 1 a curve that passes both tests
    is read by it, and one that fails the convex test anywhere by the rising
    rule. Codes 2, 3 and 4 are not affected.
    """
    if shape == RISING and all(
            has_shape(areas, values, slopes, CONVEX, segment)
            for segment in range(len(areas) - 1)):
        return CONVEX
    return shape


# ---- Document 01, Refusals and their places ----

def area_or_value_fault(areas, values, point):
    """Rows 3 and 4 at one point: the number, or None. Document 02, item 7: a
    negative area counts under 3 and a negative value under 4."""
    area = areas[point]
    if area < 0 or area > 20000:
        return 3
    if point > 0:
        before = areas[point - 1]
        if not area > before or area > before + 2000:
            return 3
    if values[point] < 0 or values[point] > 200000:
        return 4
    return None


def point_fault(areas, values, slopes, point):
    """Rows 3, 4 and 5 at one point: the number, or None."""
    number = area_or_value_fault(areas, values, point)
    if number is not None:
        return number
    if slopes[point] < -10000 or slopes[point] > 10000:
        return 5
    return None


@remembered
def check(areas, values, slopes, shape):
    """Rows 1 to 6. Result: the number of segments."""
    count = len(areas)
    if len(values) != count or len(slopes) != count:
        return refused(1, 0)
    if count < 2 or count > 64:
        return refused(1, 0)
    if shape < 1 or shape > 4:           # item 4
        return refused(2, 0)
    # Rows 3, 4 and 5 together: the first point with any of them decides.
    for point in range(count):
        number = point_fault(areas, values, slopes, point)
        if number is not None:
            return refused(number, point)
    # Only when all points pass are segments tried, from the left.
    for segment in range(count - 1):
        if not has_shape(areas, values, slopes, shape, segment):
            return refused(6, segment)
    return ('ok', count - 1)


def outside(areas, area):
    """Row 7: before the first point's area or beyond the last."""
    return area < areas[0] or area > areas[-1]


# ---- Document 01, The calls ----

def read(areas, values, slopes, shape, area):
    """Rows 1 to 6, then 7. Result: the factor."""
    checked = check(areas, values, slopes, shape)
    if checked[0] == 'refused':
        return checked
    if outside(areas, area):
        return refused(7, 0)
    return ('ok', factor(areas, values, slopes, shape, area))


def pair(areas, values, slopes, shape, form, plan):
    """Rows 1 to 6, then 7, the form area first.

    Result: the form factor, the plan factor, and the plan factor less
    the form factor.
    """
    checked = check(areas, values, slopes, shape)
    if checked[0] == 'refused':
        return checked
    if outside(areas, form):
        return refused(7, 0)
    if outside(areas, plan):
        return refused(7, 1)
    form_factor = factor(areas, values, slopes, shape, form)
    plan_factor = factor(areas, values, slopes, shape, plan)
    return ('ok', form_factor, plan_factor, plan_factor - form_factor)


def sheet(areas, values, slopes, shape, start, step, entries_count):
    """Rows 1 to 6, then 8, then 7.

    Result: the number of entries, and the list that every entry holds
    after the call. After a refusal the lent list holds what it held.
    """
    checked = check(areas, values, slopes, shape)
    if checked[0] == 'refused':
        return checked
    if step == 0 or entries_count == 0 or entries_count > 1024:
        return refused(8, 0)
    # The true sum, never wrapped.
    read_at = [start + index * step for index in range(entries_count)]
    for index in range(entries_count):
        if outside(areas, read_at[index]):
            return refused(7, index)
    factors = [factor(areas, values, slopes, shape, area) for area in read_at]
    return ('ok', entries_count, factors)


# ---- Document 01, The curve file ----

def file_fault(data):
    """Rows 9 and 10: the number, or None."""
    if len(data) < 7 or data[0:3] != b'TRF':
        return 9
    if int.from_bytes(data[3:5], 'little') != 1:
        return 9
    count = data[6]
    if len(data) != 7 + 12 * count:
        return 10
    return None


@functools.lru_cache(maxsize=100)
def file_lists(data):
    """The areas, values and slopes of a file that passes rows 9 and 10."""
    areas, values, slopes = [], [], []
    for point in range(data[6]):
        record = data[7 + 12 * point:7 + 12 * point + 12]
        areas.append(int.from_bytes(record[0:4], 'little'))
        values.append(int.from_bytes(record[4:8], 'little'))
        slopes.append(int.from_bytes(record[8:12], 'little', signed=True))
    return tuple(areas), tuple(values), tuple(slopes)


def open_file(data, lengths):
    """Rows 9, 10, 11, then 1 to 6. `lengths`: those of the three lent lists.

    Result: the shape, the count, and the points as (area, value, slope),
    which stand in the first entries of the lent lists. The entries after
    them are as found; after a refusal all entries are.
    """
    number = file_fault(data)
    if number is not None:
        return refused(number, 0)
    shape, count = data[5], data[6]
    if any(length < count for length in lengths):
        return refused(11, 0)
    areas, values, slopes = file_lists(data)
    # Row 1 speaks of the file's count alone: these lists have that length.
    checked = check(areas, values, slopes, shape)
    if checked[0] == 'refused':
        return checked
    return ('ok', shape, count, list(zip(areas, values, slopes)))


def file_of(areas, values, slopes, shape):
    """The bytes of an accepted curve's file."""
    data = b'TRF' + (1).to_bytes(2, 'little') + bytes([shape, len(areas)])
    for point in range(len(areas)):
        data += areas[point].to_bytes(4, 'little')
        data += values[point].to_bytes(4, 'little')
        data += slopes[point].to_bytes(4, 'little', signed=True)
    return data


def write(areas, values, slopes, shape, buffer):
    """Document 02, item 1: rows 1 to 6, then 12.

    Result: the length written, and the buffer after the call: the file,
    and after it the bytes as found. After a refusal all bytes are.
    """
    checked = check(areas, values, slopes, shape)
    if checked[0] == 'refused':
        return checked
    if len(buffer) < 7 + 12 * len(areas):
        return refused(12, 0)
    data = file_of(areas, values, slopes, shape)
    return ('ok', len(data), data + buffer[len(data):])


def desk_reading(data, area, scratch, room, points):
    """Rows 9, 10, 11, 1 to 6, then 7.

    Gives (number, scratch after the call). The number is the factor, or
    -1,000,000 less the refusal number. `room`: the bytes of scratch that a
    count needs. `points`: of the areas, and the area read, the points whose
    records the scratch then begins with.
    """
    number = file_fault(data)
    if number is not None:
        return -1000000 - number, scratch
    shape, count = data[5], data[6]
    if len(scratch) < room(count):
        return -1000000 - 11, scratch
    areas, values, slopes = file_lists(data)
    # Row 1 speaks of the file's count alone: these lists have that length.
    answer = read(areas, values, slopes, shape, area)
    if answer[0] == 'refused':
        return -1000000 - answer[1], scratch
    # The records in file order; the other bytes as found.
    kept = points(areas, area)
    records = data[7 + 12 * kept[0]:7 + 12 * kept[-1] + 12]
    return answer[1], records + scratch[len(records):]


def desk(data, area, scratch):
    """12 bytes for each point, and then all records."""
    return desk_reading(data, area, scratch, lambda count: 12 * count,
                        lambda areas, area: range(len(areas)))


def desk_two(data, area, scratch):
    """Document 02, item 5: 24 bytes, and then the two records of the segment
    read."""
    def points(areas, area):
        segment = segment_read(areas, area)
        return segment, segment + 1
    return desk_reading(data, area, scratch, lambda count: 24, points)


# ---- Document 02, item 2: slopes by the harmonic rule ----

def chord_slope(areas, values, one, other):
    """From one point to another, in either order."""
    return Fraction(values[other] - values[one], areas[other] - areas[one])


def inner_slope(areas, values, point):
    before = chord_slope(areas, values, point - 1, point)
    after = chord_slope(areas, values, point, point + 1)
    if before == 0 or after == 0:
        return Fraction(0)
    return before * after / chord_slope(areas, values, point - 1, point + 1)


def end_slope(areas, values, end, second, third):
    """At the first or the last point; the other two are the next to it."""
    own = chord_slope(areas, values, end, second)
    other = chord_slope(areas, values, second, third)
    if own == 0:
        return Fraction(0)
    if other == 0:
        return 2 * own
    return own * chord_slope(areas, values, end, third) / other


def harmonic_slope(areas, values, point):
    last = len(areas) - 1
    if last == 1:
        return chord_slope(areas, values, 0, 1)
    if point == 0:
        return end_slope(areas, values, 0, 1, 2)
    if point == last:
        return end_slope(areas, values, last, last - 1, last - 2)
    return inner_slope(areas, values, point)


@functools.lru_cache(maxsize=5000)
def hundredths(areas, values):
    """The slopes in hundredths, exact. Tuples; no segment may fall."""
    return tuple(100 * harmonic_slope(areas, values, point)
                 for point in range(len(areas)))


def fill_slopes(areas, values, slopes_count):
    """Rows 1, 3 and 4, then 6, then 5. `slopes_count`: of the lent list.

    Result: the number of points, and the slopes that the list then holds.
    After a refusal it holds what it held.
    """
    count = len(areas)
    if len(values) != count or slopes_count != count:
        return refused(1, 0)
    if count < 2 or count > 64:
        return refused(1, 0)
    for point in range(count):
        number = area_or_value_fault(areas, values, point)
        if number is not None:
            return refused(number, point)
    for segment in range(count - 1):
        if values[segment + 1] < values[segment]:
            return refused(6, segment)
    slopes = [math.floor(slope)
              for slope in hundredths(tuple(areas), tuple(values))]
    for point in range(count):
        if slopes[point] > 10000:
            return refused(5, point)
    return ('ok', count, slopes)


# ---- Document 02, item 7: points from the statistics package ----

def triple(data, point):
    """Area, value and slope of a point: binary64, little-endian, 24 bytes a
    point, with no header."""
    return [struct.unpack('<d', data[at:at + 8])[0]
            for at in range(24 * point, 24 * point + 24, 8)]


def is_whole(figure):
    """A finite whole number; infinities and not-a-numbers are turned away."""
    return math.isfinite(figure) and Fraction(figure).denominator == 1


def whole(figure):
    """The number that it is; minus zero is zero."""
    return Fraction(figure).numerator


def import_points(data, shape, lengths):
    """Rows 13, 11, 1 and 2, then 14, 3, 4 and 5 at the first point with any of
    them, then 6. `lengths`: those of the three lent lists.

    Result: the count, and the points as (area, value, slope), which stand in
    the first entries of the lent lists. The entries after them are as found;
    after a refusal all entries are.
    """
    if len(data) % 24 != 0:
        return refused(13, 0)
    count = len(data) // 24
    if any(length < count for length in lengths):
        return refused(11, 0)
    # As for a file, row 1 speaks of the count alone.
    if count < 2 or count > 64:
        return refused(1, 0)
    if shape < 1 or shape > 4:
        return refused(2, 0)
    areas, values, slopes = [], [], []
    for point in range(count):
        figures = triple(data, point)
        if not all(is_whole(figure) for figure in figures):
            return refused(14, point)
        for numbers, figure in zip((areas, values, slopes), figures):
            numbers.append(whole(figure))
        number = point_fault(areas, values, slopes, point)
        if number is not None:
            return refused(number, point)
    # Every point passes, so that only row 6 can refuse these lists.
    checked = check(areas, values, slopes, shape)
    if checked[0] == 'refused':
        return checked
    return ('ok', count, list(zip(areas, values, slopes)))


# ---- The C interface (include/factor_curves.h): answers and lists ----
#
# The lent lists go in as they are before the call. Each function gives the
# answer, and after it each list that was lent to be written, as it is after
# the call.

def number_of(answer):
    """One number: the result, or -(2^32 * number + place)."""
    if answer[0] == 'refused':
        return -(2**32 * answer[1] + answer[2])
    return answer[1]


def curve_check(areas, values, slopes, shape):
    return number_of(check(areas, values, slopes, shape)),


def curve_read(areas, values, slopes, shape, area):
    return number_of(read(areas, values, slopes, shape, area)),


def curve_pair(areas, values, slopes, shape, form, plan, out):
    # A list that is too short is refused before all else.
    if len(out) < 3:
        return number_of(refused(11, 0)), out
    answer = pair(areas, values, slopes, shape, form, plan)
    if answer[0] == 'refused':
        return number_of(answer), out
    return 3, list(answer[1:]) + out[3:]


def curve_sheet(areas, values, slopes, shape, start, step, out):
    answer = sheet(areas, values, slopes, shape, start, step, len(out))
    if answer[0] == 'refused':
        return number_of(answer), out
    return number_of(answer), answer[2]


def written(points, areas, values, slopes):
    """The lists with the points in their first entries."""
    return [[point[field] for point in points] + found[len(points):]
            for field, found in enumerate((areas, values, slopes))]


def curve_open(data, areas, values, slopes):
    lengths = (len(areas), len(values), len(slopes))
    answer = open_file(data, lengths)
    if answer[0] == 'refused':
        return number_of(answer), areas, values, slopes
    shape, count, points = answer[1:]
    return 256 * shape + count, *written(points, areas, values, slopes)


def curve_import(data, shape, areas, values, slopes):
    lengths = (len(areas), len(values), len(slopes))
    answer = import_points(data, shape, lengths)
    if answer[0] == 'refused':
        return number_of(answer), areas, values, slopes
    return answer[1], *written(answer[2], areas, values, slopes)


def curve_write(areas, values, slopes, shape, out):
    answer = write(areas, values, slopes, shape, out)
    if answer[0] == 'refused':
        return number_of(answer), out
    return number_of(answer), answer[2]


def curve_fill_slopes(areas, values, slopes):
    answer = fill_slopes(areas, values, len(slopes))
    if answer[0] == 'refused':
        return number_of(answer), slopes
    return number_of(answer), answer[2]


# ---- Document 01, The curve file: the program ----

def ratesheet(data):
    """The text that the program prints for the bytes of standard input."""
    # More than 775 bytes is refusal 10 once 9 is passed.
    if file_fault(data) != 9 and len(data) > 775:
        return 'refused 10 at 0\n'
    opened = open_file(data, (64, 64, 64))
    if opened[0] == 'refused':
        return 'refused %d at %d\n' % (opened[1], opened[2])
    shape, count = opened[1], opened[2]
    areas, values, slopes = file_lists(data)
    lines = ['shape %d points %d\n' % (shape, count)]
    # The first area and every 25 tenths after it while not beyond the last.
    area = areas[0]
    while area <= areas[-1]:
        lines.append('%d %d\n'
                     % (area, factor(areas, values, slopes, shape, area)))
        area = area + 25
    return ''.join(lines)


if __name__ == '__main__':
    sys.stdout.write(ratesheet(sys.stdin.buffer.read()))
