"""Self-check of exact_fractions.py. Expected values are the documents'.

Run: python3 test_reference.py
"""

import math
import os
import random
import subprocess
import sys
from fractions import Fraction

import curves
import exact_fractions as ref
import half_kinds
import import_kinds
import import_notes
import rule_kinds
import rule_notes
import triples
from curve_file import curve_file

tests = 0
failures = 0


def expect(name, got, wanted):
    global tests, failures
    tests += 1
    if got != wanted:
        failures += 1
        print('FAILED %s: got %r, wanted %r' % (name, got, wanted))


def lists(points):
    """Points (area, value, slope) as three lists."""
    return ([point[0] for point in points], [point[1] for point in points],
            [point[2] for point in points])


def check(points, shape):
    return ref.check(*lists(points), shape)


def read(points, shape, area):
    return ref.read(*lists(points), shape, area)


def pair(points, shape, form, plan):
    return ref.pair(*lists(points), shape, form, plan)


def sheet(points, shape, start, step, entries_count):
    return ref.sheet(*lists(points), shape, start, step, entries_count)


def write(points, shape, buffer):
    return ref.write(*lists(points), shape, buffer)


def refused(number, place):
    return ('refused', number, place)


def flat(count, gap=1):
    """A constant curve of shape 1, value 5 (F = 0 and slopes 0)."""
    return [(point * gap, 5, 0) for point in range(count)]


STEEP = [(500, 10000, 0), (600, 14000, 10000)]
# K1 turned round.
TURNED = [(500, 10000, 10000), (600, 14000, 0)]
K5 = [(500, 10000, 2000), (600, 14000, 6000)]
K6 = [(0, 0, 50), (2, 1, 50)]
K7 = [(0, 0, -300), (2, 0, 300)]
K8 = [(0, 0, 0), (2, 1, 100)]
K9 = [(0, 0, 100), (100, 100, 200)]
K10 = [(0, 5, 0), (10, 5, 1)]

# Document 01, The curve file: the 31 bytes and what is printed.
FILE_31 = bytes.fromhex('54 52 46 01 00 02 02'
                        'F4 01 00 00 10 27 00 00 00 00 00 00'
                        '58 02 00 00 B0 36 00 00 10 27 00 00')
PRINTED_31 = ('shape 2 points 2\n'
              '500 10000\n'
              '525 10182\n'
              '550 10800\n'
              '575 12000\n'
              '600 14000\n')

LARGEST = 2**32 - 1


def test_readings_to_prove():
    """Document 01, Readings to prove: K1 to K10; document 02, item 6, K6 and
    K7; item 8, K1, K2 and K5."""
    expect('K1', read(STEEP, 1, 550), ('ok', 10800))
    expect('K2', read(STEEP, 1, 525), ('ok', 10182))
    expect('K3', read(STEEP, 2, 550), ('ok', 10800))
    expect('K4', read(STEEP, 2, 525), ('ok', 10182))
    expect('K5', read(K5, 1, 501), ('ok', 10020))
    expect('K6', read(K6, 2, 1), ('ok', 0))
    expect('K7', read(K7, 2, 1), ('ok', -2))
    expect('K8', read(K8, 2, 1), ('ok', 0))
    expect('K9', read(K9, 2, 1), refused(6, 0))
    expect('K9 check', check(K9, 2), refused(6, 0))
    expect('K10', read(K10, 1, 1), refused(6, 0))
    expect('K10 check', check(K10, 1), refused(6, 0))


def test_also_run():
    """Document 01, Readings to prove: the paragraph "Also run"."""
    expect('K1 at 499', read(STEEP, 1, 499), refused(7, 0))
    expect('K1 at 601', read(STEEP, 1, 601), refused(7, 0))
    expect('K1 at 500', read(STEEP, 1, 500), ('ok', 10000))
    expect('K1 at 600', read(STEEP, 1, 600), ('ok', 14000))
    expect('gap 2000', check(flat(2, 2000), 1), ('ok', 1))
    expect('gap 2001', check(flat(2, 2001), 1), refused(3, 1))
    expect('64 points', check(flat(64), 1), ('ok', 63))
    expect('65 points', check(flat(65), 1), refused(1, 0))
    expect('1,024 entries', sheet(flat(2, 2000), 1, 0, 1, 1024),
           ('ok', 1024, [5] * 1024))
    expect('1,025 entries', sheet(flat(2, 2000), 1, 0, 1, 1025), refused(8, 0))


def test_rounding():
    """Document 02, item 6: an exact half goes to the even unit. What is no
    half goes to the nearest, however close to a half it is."""
    for twice, unit in ((-401, -200), (-399, -200), (-5, -2), (-3, -2),
                        (-1, 0), (1, 0), (3, 2), (5, 2), (7, 4),
                        (399999, 200000), (400001, 200000), (400003, 200002)):
        half, close = Fraction(twice, 2), Fraction(1, 10**20)
        expect('%d/2' % twice, ref.reading(half), unit)
        expect('below', ref.reading(half - close), (twice - 1) // 2)
        expect('above', ref.reading(half + close), (twice + 1) // 2)
    for whole in (-7, 0, 1, 200000):
        expect('whole', ref.reading(Fraction(whole)), whole)
    # Python's own rounding of fractions has the same rule.
    for numerator in range(-300, 300):
        for denominator in (1, 2, 3, 4, 6, 10):
            v = Fraction(numerator, denominator)
            expect('round', ref.reading(v), round(v))
            expect('an odd sign', ref.reading(-v), -ref.reading(v))
            expect('an even whole', ref.reading(200000 - v),
                   200000 - ref.reading(v))


def away_from_zero(v):
    """Document 01, Traps: halves away from zero."""
    return math.floor(v + Fraction(1, 2)) if v > 0 else -away_from_zero(-v)


def chord_and_sag(points, area):
    """The chord's value, and what a convex curve is below it."""
    (x0, y0, _), (x1, y1, _) = points
    chord = y0 + Fraction((y1 - y0) * (area - x0), x1 - x0)
    return chord, chord - ref.exact_value(*lists(points), 2, area)


def test_traps():
    """Document 02, item 6: where two of document 01's traps show from now on,
    and where no longer."""
    for points, wrong in ((K6, 1), (K7, -2)):
        value = ref.exact_value(*lists(points), 2, 1)
        expect('away from zero', away_from_zero(value), wrong)
    apart = [(0, 1, 0), (2, 2, 100)]
    expect('once', read(apart, 2, 1), ('ok', 1))
    for points, wrong in ((apart, 2), (K8, 0)):
        chord, sag = chord_and_sag(points, 1)
        expect('apart', ref.reading(chord) - ref.reading(sag), wrong)


def test_halves():
    """Document 02, item 6, in every shape: from 1/2 and 3/2, by hand, with the
    even unit below and above. Straight segments; a rising one with the slopes
    0 and twice the chord's, which is a quarter of the way up in the middle,
    and its mirror; parabolas."""
    line, down = [(0, 0, 50), (2, 1, 50)], [(0, 1, -50), (2, 0, -50)]
    quarter, last = [(0, 0, 0), (2, 2, 200)], [(0, 2, 0), (2, 0, -200)]
    valley, hill = [(0, 3, -300), (2, 3, 300)], [(0, 3, 300), (2, 3, -300)]
    for points, shape, twice in (
            (line, 1, 1), (line, 2, 1), (line, 4, 1), (down, 2, 1),
            (down, 3, 1), (down, 4, 1), (quarter, 1, 1), (last, 3, 3),
            (valley, 2, 3), (hill, 4, 9)):
        for more in range(12):
            high = [(area, value + more, slope)
                    for area, value, slope in points]
            half = Fraction(twice, 2) + more
            expect('exact', ref.exact_value(*lists(high), shape, 1), half)
            even = [unit for unit in (half - Fraction(1, 2),
                                      half + Fraction(1, 2)) if unit % 2 == 0]
            expect('%s by %d' % (half, shape), read(high, shape, 1),
                   ('ok', *even))
            data = curve_file(high, shape)
            for reading in (ref.desk, ref.desk_two):
                expect('desk', reading(data, 1, bytes(24))[0], even[0])
            expect('pair', pair(high, shape, 1, 0),
                   ('ok', even[0], high[0][1], high[0][1] - even[0]))
            expect('sheet', sheet(high, shape, 1, 1, 2),
                   ('ok', 2, [even[0], high[1][1]]))
    expect('below 0', [read([(0, y, -300), (2, y, 300)], 2, 1)[1]
                       for y in range(4)], [-2, 0, 0, 2])
    expect('above 200,000', [read([(0, 200000 - y, 300), (2, 200000 - y, -300)],
                                  4, 1)[1] for y in range(4)],
           [200002, 200000, 200000, 199998])


def test_made_halves():
    """Document 02, item 6, on the curves that half_kinds.py makes: at most half
    a unit off, and even where it is half a unit off; no other number is so."""
    rng = random.Random('made halves')
    for make, name, _ in half_kinds.KINDS:
        for call, *words in [case for _ in range(40) for case in make(rng)]:
            if call != 'read':
                continue
            curve, shape, area = words
            expect('accepted', ref.check(*curve, shape), ('ok', len(curve[0]) - 1))
            value = ref.exact_value(*curve, shape, area)
            near = [unit for unit in range(value // 1 - 1, value // 1 + 3)
                    if abs(value - unit) < Fraction(1, 2)
                    or abs(value - unit) == Fraction(1, 2) and unit % 2 == 0]
            expect(name, [ref.factor(*curve, shape, area)], near)
            expect('a half', value.denominator == 2, name.startswith('halves'))


def test_exact_values():
    """Document 01, The exact curve."""
    expect('K6 exact', ref.exact_value(*lists(K6), 2, 1), Fraction(1, 2))
    expect('K7 exact', ref.exact_value(*lists(K7), 2, 1), Fraction(-3, 2))
    constant = ref.exact_value(*lists(flat(2)), 1, 0)
    expect('a fraction', type(constant), Fraction)
    # At a rated point the segments on both sides give the point's value.
    rising = [(0, 10, 200), (7, 90, 300), (20, 100, 5)]
    convex = [(0, 90, -2000), (7, 10, -100), (20, 100, 900)]
    falling = [(0, 100, -5), (13, 90, -300), (20, 10, -200)]
    concave = [(0, 10, 2000), (7, 90, 100), (20, 0, -900)]
    for shape, points in ((1, rising), (2, convex), (3, falling),
                          (4, concave)):
        expect('two segments', check(points, shape), ('ok', 2))
        for segment, point in ((0, 0), (0, 1), (1, 1), (1, 2)):
            got = ref.segment_value(*lists(points), shape, segment,
                                    points[point][0])
            expect('rated point %d' % point, got, points[point][1])
    # No factor is below -200,000: the deepest dip.
    dip = read([(0, 0, -10000), (2000, 0, 10000)], 2, 1000)
    expect('dip is read', dip[0], 'ok')
    expect('dip', -200000 <= dip[1] < 0, True)


# Document 02, item 4: the points of K1 to K10 with 200,000 less the value
# and the slopes' signs changed.
MIRROR_STEEP = [(500, 190000, 0), (600, 186000, -10000)]
MIRROR_K5 = [(500, 190000, -2000), (600, 186000, -6000)]
MIRROR_K6 = [(0, 200000, -50), (2, 199999, -50)]
MIRROR_K7 = [(0, 200000, 300), (2, 200000, -300)]
MIRROR_K8 = [(0, 200000, 0), (2, 199999, -100)]
MIRROR_K9 = [(0, 200000, -100), (100, 199900, -200)]
MIRROR_K10 = [(0, 199995, 0), (10, 199995, -1)]


def test_mirrored_readings():
    """Item 4: K1 to K10 as shapes 3 and 4. Of K6 and K7 the exact values are
    199,999.5 and 200,001.5, and the even units the ones above; no other is a
    half."""
    expect('K1', read(MIRROR_STEEP, 3, 550), ('ok', 200000 - 10889))
    expect('K2', read(MIRROR_STEEP, 3, 525), ('ok', 200000 - 10229))
    expect('K3', read(MIRROR_STEEP, 4, 550), ('ok', 200000 - 10800))
    expect('K4', read(MIRROR_STEEP, 4, 525), ('ok', 200000 - 10182))
    expect('K5', read(MIRROR_K5, 3, 501), ('ok', 200000 - 10020))
    expect('K6', read(MIRROR_K6, 4, 1), ('ok', 200000))
    expect('K7', read(MIRROR_K7, 4, 1), ('ok', 200002))
    expect('K8', read(MIRROR_K8, 4, 1), ('ok', 200000))
    expect('K9', read(MIRROR_K9, 4, 1), refused(6, 0))
    expect('K9 check', check(MIRROR_K9, 4), refused(6, 0))
    expect('K10', read(MIRROR_K10, 3, 1), refused(6, 0))
    expect('K10 check', check(MIRROR_K10, 3), refused(6, 0))
    for points, shape, area, value in (
            (MIRROR_K6, 4, 1, Fraction(399999, 2)),
            (MIRROR_K7, 4, 1, Fraction(400003, 2)),
            (MIRROR_K8, 4, 1, Fraction(799999, 4))):
        expect('exact', ref.exact_value(*lists(points), shape, area), value)
    # With another shape code they are refused.
    for points, shape in ((MIRROR_STEEP, 1), (MIRROR_STEEP, 2), (MIRROR_K5, 2),
                          (STEEP, 3), (STEEP, 4), (K5, 4), (MIRROR_K7, 2)):
        expect('another shape', check(points, shape), refused(6, 0))


def test_above_the_values():
    """Item 4: a concave curve past 200,000."""
    # Between equal slopes of both signs the curve is a parabola.
    hill = [(0, 200000, 10000), (2000, 200000, -10000)]
    for area, factor in ((0, 200000), (1, 200100), (1000, 250000),
                         (1999, 200100), (2000, 200000)):
        expect('hill', read(hill, 4, area), ('ok', factor))
    expect('hill, exact', ref.exact_value(*lists(hill), 4, 1),
           200000 + Fraction(1999, 20))
    expect('hill, pair', pair(hill, 4, 1000, 0),
           ('ok', 250000, 200000, -50000))


def test_hyperbola_and_parabola():
    """Three points of 3600 / (x + 10) with its derivatives: in each segment
    d0 d1 is the chord's slope squared, and then shape 3 is the hyperbola. Of
    500 + 20 x - x x / 8: the chord's slope is half way between d0 and d1, and
    then shape 4 is the parabola."""
    falling = [(0, 360, -3600), (10, 180, -900), (30, 90, -225)]
    expect('falling', check(falling, 3), ('ok', 2))
    for area in range(31):
        value = Fraction(3600, area + 10)
        expect('hyperbola', ref.exact_value(*lists(falling), 3, area), value)
    for area, factor in ((0, 360), (5, 240), (9, 189), (10, 180), (11, 171),
                         (22, 112), (29, 92), (30, 90)):
        expect('falling at %d' % area, read(falling, 3, area), ('ok', factor))
    concave = [(0, 500, 2000), (40, 1100, 1000), (100, 1250, -500)]
    expect('concave', check(concave, 4), ('ok', 2))
    for area in range(101):
        value = 500 + 20 * area - Fraction(area * area, 8)
        expect('parabola', ref.exact_value(*lists(concave), 4, area), value)
    for area, factor in ((0, 500), (1, 520), (2, 540), (38, 1080), (40, 1100),
                         (42, 1120), (80, 1300), (100, 1250)):
        expect('concave at %d' % area, read(concave, 4, area), ('ok', factor))


def test_three_points():
    """Shape 4 on no parabola: at 50 the chord's 2,050 and 8 * 2,500 / 300, at
    200 the chord's 1,550 and 42.75 * 10,000 / 1,400. Shape 3 after a level
    segment: 100 - 90 p p, as its slopes are 0 and twice the chord's."""
    concave = [(0, 2000, 500), (100, 2100, -100), (300, 1000, -1500)]
    for area, factor in ((50, 2117), (100, 2100), (200, 1855), (300, 1000)):
        expect('concave at %d' % area, read(concave, 4, area), ('ok', factor))
    falling = [(0, 100, 0), (10, 100, 0), (20, 10, -1800)]
    for area, factor in ((0, 100), (9, 100), (10, 100), (11, 99), (13, 92),
                         (15, 78), (20, 10)):
        expect('falling at %d' % area, read(falling, 3, area), ('ok', factor))
    # The second segment has another shape.
    for shape, points in ((3, [(0, 100, 0), (10, 90, 0), (20, 91, 0)]),
                          (3, [(0, 100, 0), (10, 90, 0), (20, 80, 1)]),
                          (4, [(0, 100, 500), (100, 200, -100),
                               (300, 1100, 1500)])):
        expect('refused', check(points, shape), refused(6, 1))


def test_rule_used():
    """Document 02, item 8: the rule of a curve under code 1 is the convex one
    if every segment passes the convex test, the first, an inner and the last.
    Slopes and a value off by one make one segment fail: 100 before K1 a level
    one, 100 after it a straight one."""
    level, line = (400, 10000, 0), (700, 24000, 10000)
    cases = [
        (STEEP, 2), (K5, 2), (TURNED, 1), (flat(2), 2), (flat(64), 2),
        ([level, *STEEP], 2), ([*STEEP, line], 2), ([level, *STEEP, line], 2),
        # Straight, and with one slope the chord's.
        ([(0, 0, 100), (100, 100, 100)], 2), ([(0, 0, 99), (100, 100, 101)], 2),
        ([(0, 0, 100), (100, 100, 101)], 1), ([(0, 0, 99), (100, 100, 100)], 1),
        # The last segment, the first, and the one between them fails.
        ([*STEEP, (700, 24000, 9999)], 1), ([*STEEP, (700, 23999, 10000)], 1),
        ([*STEEP, (700, 24001, 10000)], 1), ([(400, 9999, 0), *STEEP], 1),
        ([(400, 6000, 10000), *STEEP], 1),
        ([level, *STEEP, (700, 24000, 9999)], 1),
        ([level, (500, 10000, 0), (600, 14000, 10000), (700, 18000, 0),
          (800, 18000, 0)], 1),
    ]
    for points, rule in cases:
        expect('accepted', check(points, 1), ('ok', len(points) - 1))
        expect('%r' % points, ref.rule_used(*lists(points), 1), rule)
        # Accepted under both codes exactly where the convex rule reads it.
        expect('under 2', check(points, 2)[0] == 'ok', rule == 2)
    for points in (STEEP, K5, flat(3), MIRROR_STEEP, MIRROR_K5, K6, MIRROR_K6):
        for code in (2, 3, 4):
            expect('code %d' % code, ref.rule_used(*lists(points), code), code)


def test_rule_readings():
    """Document 02, item 8: K1 and K2 under both codes; where one more segment
    fails, K1's areas read what they read before, and K1 turned round too. r
    always 3 would read 13,250."""
    for points in (STEEP, [(400, 10000, 0), *STEEP],
                   [*STEEP, (700, 24000, 10000)]):
        for code in (1, 2):
            for area, factor in ((525, 10182), (550, 10800)):
                expect('both', read(points, code, area), ('ok', factor))
    for points in ([*STEEP, (700, 24000, 9999)], [(400, 9999, 0), *STEEP],
                   [(400, 6000, 10000), *STEEP]):
        for area, factor in ((525, 10229), (550, 10889)):
            expect('rising', read(points, 1, area), ('ok', factor))
    for area, value in ((550, Fraction(118000, 9)), (575, Fraction(96400, 7))):
        expect('turned', ref.exact_value(*lists(TURNED), 1, area), value)
    expect('turned, 550', read(TURNED, 1, 550), ('ok', 13111))
    expect('turned, 575', read(TURNED, 1, 575), ('ok', 13771))
    expect('turned, concave', read(TURNED, 4, 550), ('ok', 13200))
    d0, d1 = Fraction(100), Fraction(0)
    expect('r always 3',
           ref.p_over_q(10000, 14000, 100, d0, d1, 3, 50), 13250)
    # The mirror of a curve that is both is read by the falling rule.
    expect('falling', read(MIRROR_STEEP, 3, 550), ('ok', 200000 - 10889))
    expect('concave', read(MIRROR_STEEP, 4, 550), ('ok', 200000 - 10800))


def test_read_alike():
    """Document 02, item 8: two members who file the same points, one under 1
    and one under 2, quote alike; the rising rule holds, whichever curve is
    used."""
    rng = random.Random('both')
    rules = set()
    for _ in range(300):
        points = rule_kinds.any_both(rng)
        segment = rng.randrange(len(points) - 1)
        for curve in (points, rule_kinds.jump(rng, points, segment)):
            if curve is None:
                continue
            rule = ref.rule_used(*lists(curve), 1)
            rules.add(rule)
            expect('rule', rule, 2 if curve is points else 1)
            areas = sorted(curves.inner_area(rng, curve) for _ in range(12))
            factors = [read(curve, 1, area) for area in areas]
            expect('never less', factors, sorted(factors))
            if rule == 2:
                expect('alike', [read(curve, 2, area) for area in areas],
                       factors)
    expect('rules', rules, {1, 2})


def test_rule_kinds():
    """What rule_kinds.py makes: curves that are both, and curves of which one
    segment alone fails the convex test; and what rule_notes.py says of them."""
    for count in range(2, 65):
        for more in (1, 15, 89):
            both = rule_kinds.stairs(count, more)
            expect('stairs', (check(both, 1), check(both, 2)),
                   (('ok', count - 1), ('ok', count - 1)))
        for segment in (0, (count - 2) // 2, count - 2):
            fields = set()
            for points in rule_kinds.one_off(count, segment):
                expect('accepted', check(points, 1), ('ok', count - 1))
                expect('one fails', rule_notes.failing(*lists(points), 2),
                       [segment])
                fields.update(rule_notes.mended(points, segment))
            expect('one figure', fields, {1, 2})
    # The end whose slope alone is the chord's.
    for points, side in zip(rule_kinds.one_off(3, 1),
                            ('left', 'right', 'right', 'left', None)):
        expect('%r' % points, rule_notes.equal_side(lists(points), 1), side)


def test_several_shapes():
    """Points that fit several shapes read the same as each: straight lines,
    of which a level one fits all."""
    for points, slope, shapes in (
            ([(0, 5, 0), (10, 5, 0), (20, 5, 0)], 0, (1, 2, 3, 4)),
            ([(0, 0, 50), (2, 1, 50), (10, 5, 50)], 50, (1, 2, 4)),
            ([(0, 5, -50), (8, 1, -50), (10, 0, -50)], -50, (2, 3, 4))):
        for shape in range(1, 5):
            expect('fits %d' % shape, check(points, shape),
                   ('ok', 2) if shape in shapes else refused(6, 0))
        for shape in shapes:
            for area in range(points[-1][0] + 1):
                value = points[0][1] + Fraction(area * slope, 100)
                expect('line', read(points, shape, area),
                       ('ok', round(value)))


def random_curves(shape, number):
    """Random curves of a shape, with 20 of their areas in order."""
    rng = random.Random('shape %d' % shape)
    for _ in range(number):
        points = curves.some_curve(rng, shape)
        first, last = points[0][0], points[-1][0]
        areas = sorted(rng.randint(first, last) for _ in range(20))
        yield (*lists(points), shape), areas


def test_larger_areas():
    """Document 01's third demand, shape 1; document 02, item 4, shape 3."""
    for shape, sign in ((1, 1), (3, -1)):
        for curve, areas in random_curves(shape, 200):
            factors = [sign * ref.factor(*curve, area) for area in areas]
            expect('shape %d' % shape, factors, sorted(factors))
            ends = [sign * curve[1][0], sign * curve[1][-1]]
            expect('between the ends', ends[0] <= factors[0]
                   and factors[-1] <= ends[1], True)


def change(curve, x, k):
    """By how much the second of two equal steps is larger than the first."""
    first, middle, last = (ref.factor(*curve, area)
                           for area in (x, x + k, x + 2 * k))
    return (last - middle) - (middle - first)


def test_three_areas():
    """Document 01's third demand, shape 2; document 02, item 4, shape 4; the
    two units of item 6. Also the exact values' chords, from left to right."""
    for shape, sign in ((2, 1), (4, -1)):
        for curve, areas in random_curves(shape, 200):
            least = min(sign * change(curve, x, (z - x) // 2)
                        for x, z in zip(areas, areas[5:]))
            expect('steps', least >= -2, True)
            at = sorted(set(areas))
            values = [ref.exact_value(*curve, area) for area in at]
            chords = [sign * (values[i + 1] - values[i]) / (at[i + 1] - at[i])
                      for i in range(len(at) - 1)]
            expect('chords', chords, sorted(chords))


def test_two_units():
    """Document 02, item 6: 0.5, 1.5 and 2.5 read 0, 2 and 2, so that the
    second step is two units less than the first, and one unit is not enough
    of a bound. On shape 4: 1.5, 2.5 and 3.5."""
    line = [(0, 0, 50), (6, 3, 50)]
    high = [(area, value + 1, slope) for area, value, slope in line]
    for points, shape, factors in ((line, 2, (0, 2, 2)), (high, 4, (2, 2, 4))):
        for area, factor in zip((1, 3, 5), factors):
            expect('exact', ref.exact_value(*lists(points), shape, area),
                   points[0][1] + Fraction(area, 2))
            expect('at %d' % area, read(points, shape, area), ('ok', factor))
    expect('two units less', change((*lists(line), 2), 1, 2), -2)
    expect('two units more', change((*lists(high), 4), 1, 2), 2)
    rng = random.Random('halves')
    for shape in (2, 4):
        seen = set()
        for _ in range(100):
            points = curves.straight_curve(rng)
            x, z = sorted(curves.inner_area(rng, points) for _ in range(2))
            seen.add(change((*lists(points), shape), x, (z - x) // 2))
        expect('on lines', seen, {-2, -1, 0, 1, 2})


def test_mirror_images():
    """Items 4 and 6: a reading and its mirror's make 200,000, also where both
    are halves: 200,000 is even. The mirror's by the rule of its own code, also
    where its curve is read by another one (item 8)."""
    for shape, other in ((3, 1), (4, 2)):
        halves = set()
        for (areas, values, slopes, _), places in random_curves(shape, 200):
            mirror = (areas, [200000 - value for value in values],
                      [-slope for slope in slopes], other)
            expect('accepted', ref.check(*mirror), ('ok', len(areas) - 1))
            for area in places:
                value = ref.segment_value(
                    *mirror, ref.segment_read(areas, area), area)
                both = (ref.factor(areas, values, slopes, shape, area)
                        + ref.reading(value))
                expect('both', both, 200000)
                if value.denominator == 2:
                    halves.add(value // 1 % 2)
        expect('halves', halves, {0, 1})


def test_range():
    """No factor is below -200,000 or above 400,000; values and areas at their
    limits."""
    rng = random.Random('range')
    least, most = 0, 0
    for _ in range(2000):
        points, shape = curves.limit_curve(rng)
        middle = (points[0][0] + points[1][0]) // 2
        factor = read(points, shape, middle)[1]
        least, most = min(least, factor), max(most, factor)
        if shape in (1, 3):
            expect('between the values', min(point[1] for point in points)
                   <= factor <= max(point[1] for point in points), True)
    expect('least', -200000 <= least < -49000, True)
    expect('most', 249000 < most <= 400000, True)


def test_segment_read():
    """Document 01, The calls: the segment that Read takes, and row 7."""
    three = flat(3, 10)
    expect('second segment', read(three, 1, 15), ('ok', 5))
    expect('last area', read(three, 1, 20), ('ok', 5))
    expect('beyond the last', read(three, 1, 21), refused(7, 0))
    expect('largest', read(three, 1, LARGEST), refused(7, 0))
    # K1 behind a constant segment.
    behind = [(400, 10000, 0)] + STEEP
    for area, factor in ((450, 10000), (500, 10000), (550, 10800),
                         (600, 14000)):
        expect('behind, %d' % area, read(behind, 1, area), ('ok', factor))
    areas = [10, 20, 30]
    for area, segment in ((10, 0), (19, 0), (20, 1), (29, 1), (30, 1)):
        expect('segment at %d' % area, ref.segment_read(areas, area), segment)


def test_has_shape():
    """Document 01, When a segment has its shape."""
    cases = [
        ('rising', 1, (0, 0, 0), (10, 1, 0), True),
        ('rising, left slope below 0', 1, (0, 0, -1), (10, 1, 0), False),
        ('rising, right slope below 0', 1, (0, 0, 0), (10, 1, -1), False),
        ('constant', 1, (0, 5, 0), (10, 5, 0), True),
        ('constant, left slope', 1, (0, 5, 1), (10, 5, 0), False),
        ('falling', 1, (0, 5, 0), (10, 4, 0), False),
        ('convex', 2, (500, 0, 99), (600, 100, 101), True),
        ('straight', 2, (500, 0, 100), (600, 100, 100), True),
        ('left equal only', 2, (500, 0, 100), (600, 100, 101), False),
        ('right equal only', 2, (500, 0, 99), (600, 100, 100), False),
        ('concave', 2, (500, 0, 101), (600, 100, 99), False),
        ('both slopes above', 2, (500, 0, 101), (600, 100, 102), False),
        ('both slopes below', 2, (500, 0, 98), (600, 100, 99), False),
        ('convex, falling', 2, (500, 100, -101), (600, 0, -99), True),
        # Document 02, item 4.
        ('falling', 3, (0, 1, 0), (10, 0, 0), True),
        ('falling, both slopes', 3, (0, 1, -10000), (10, 0, -1), True),
        ('falling, left slope above 0', 3, (0, 1, 1), (10, 0, 0), False),
        ('falling, right slope above 0', 3, (0, 1, 0), (10, 0, 1), False),
        ('constant', 3, (0, 5, 0), (10, 5, 0), True),
        ('constant, left slope', 3, (0, 5, -1), (10, 5, 0), False),
        ('constant, right slope', 3, (0, 5, 0), (10, 5, -1), False),
        ('constant, left slope above 0', 3, (0, 5, 1), (10, 5, 0), False),
        ('rising', 3, (0, 4, 0), (10, 5, 0), False),
        ('rising, slopes below 0', 3, (0, 4, -1), (10, 5, -1), False),
        ('falling by all of it', 3, (0, 200000, 0), (1, 0, 0), True),
        ('concave', 4, (500, 0, 101), (600, 100, 99), True),
        ('straight', 4, (500, 0, 100), (600, 100, 100), True),
        ('left equal only', 4, (500, 0, 100), (600, 100, 99), False),
        ('right equal only', 4, (500, 0, 101), (600, 100, 100), False),
        ('convex', 4, (500, 0, 99), (600, 100, 101), False),
        ('both slopes above', 4, (500, 0, 102), (600, 100, 101), False),
        ('both slopes below', 4, (500, 0, 99), (600, 100, 98), False),
        ('concave, falling', 4, (500, 100, -99), (600, 0, -101), True),
        ('concave, level', 4, (500, 7, 1), (600, 7, -1), True),
        ('level', 4, (500, 7, 0), (600, 7, 0), True),
    ]
    for name, shape, left, right, wanted in cases:
        expect(name, check([left, right], shape),
               ('ok', 1) if wanted else refused(6, 0))


def test_rows_1_to_6():
    """Document 01, Refusals and their places: each row and its place."""
    expect('0 points', check([], 1), refused(1, 0))
    expect('1 point', check([(0, 5, 0)], 1), refused(1, 0))
    expect('2 points', check(flat(2), 1), ('ok', 1))
    expect('areas longer', ref.check([0, 1, 2], [5, 5], [0, 0], 1),
           refused(1, 0))
    expect('values longer', ref.check([0, 1], [5, 5, 5], [0, 0], 1),
           refused(1, 0))
    expect('slopes shorter', ref.check([0, 1], [5, 5], [0], 1), refused(1, 0))
    for shape in (0, 5, 6, 255, 256, 257, 2**31 + 3, 2**32 - 4, LARGEST):
        expect('shape %d' % shape, check(flat(2), shape), refused(2, 0))
    ok, big = (19999, 5, 0), (20001, 5, 0)
    expect('area 20,000', check([ok, (20000, 5, 0)], 1), ('ok', 1))
    expect('area 20,001', check([ok, big], 1), refused(3, 1))
    expect('first area', check([big, (20002, 5, 0)], 1), refused(3, 0))
    expect('equal areas', check([(9, 5, 0), (9, 5, 0)], 1), refused(3, 1))
    expect('area falls', check([(9, 5, 0), (8, 5, 0)], 1), refused(3, 1))
    expect('largest area', check([ok, (LARGEST, 5, 0)], 1), refused(3, 1))
    expect('value 200,000', check([(0, 200000, 0), (1, 200000, 0)], 1),
           ('ok', 1))
    expect('value 200,001', check([(0, 5, 0), (1, 200001, 0)], 1),
           refused(4, 1))
    expect('slope ends', check([(0, 5, -10000), (1, 5, 10000)], 2), ('ok', 1))
    expect('slope 10,001', check([(0, 5, 0), (1, 5, 10001)], 2), refused(5, 1))
    expect('slope -10,001', check([(0, 5, -10001), (1, 5, 0)], 2),
           refused(5, 0))
    expect('least slope', check([(0, 5, -2**31), (1, 5, 0)], 2), refused(5, 0))
    expect('no shape at 2', check(flat(3) + [(3, 4, 0), (4, 3, 0)], 1),
           refused(6, 2))


def test_order_of_rows():
    """Document 01, Refusals and their places: the order of trial."""
    expect('1 before 2', check(flat(65), 9), refused(1, 0))
    expect('2 before 3', check([(9, 5, 0), (8, 5, 0)], 9), refused(2, 0))
    bad_3 = (30000, 300000, 20000)
    bad_4 = (1, 300000, 20000)
    bad_5 = (1, 5, 20000)
    start = (0, 5, 0)
    expect('3 before 4 and 5', check([start, bad_3], 1), refused(3, 1))
    expect('4 before 5', check([start, bad_4], 1), refused(4, 1))
    expect('point 1 has 5, point 2 has 3', check([start, bad_5, bad_3], 1),
           refused(5, 1))
    expect('point 1 has 4, point 2 has 3', check([start, bad_4, bad_3], 1),
           refused(4, 1))
    expect('point 1 has 5, point 2 has 4',
           check([start, bad_5, (2, 300000, 0)], 1), refused(5, 1))
    expect('points before segments',
           check([start, (1, 4, 0), (2, 5, 10001)], 1), refused(5, 2))
    expect('first segment', check([start, (1, 4, 0), (2, 3, 0)], 1),
           refused(6, 0))
    expect('read, 6 before 7', read(K9, 2, 101), refused(6, 0))
    expect('pair, 6 before 7', pair(K9, 2, 50, 101), refused(6, 0))
    expect('sheet, 6 before 8', sheet(K9, 2, 0, 0, 0), refused(6, 0))
    expect('sheet, 8 before 7', sheet(STEEP, 1, 499, 1, 1025), refused(8, 0))


def test_pair():
    """Document 01, The calls: Pair."""
    expect('pair', pair(STEEP, 1, 525, 550), ('ok', 10182, 10800, 618))
    expect('pair, rising', pair(TURNED, 1, 550, 575),
           ('ok', 13111, 13771, 660))
    expect('pair, negative', pair(STEEP, 2, 550, 525),
           ('ok', 10800, 10182, -618))
    expect('pair at the ends', pair(STEEP, 1, 500, 600),
           ('ok', 10000, 14000, 4000))
    expect('form outside', pair(STEEP, 1, 499, 550), refused(7, 0))
    expect('plan outside', pair(STEEP, 1, 550, 601), refused(7, 1))
    expect('form first', pair(STEEP, 1, 601, 499), refused(7, 0))


def test_sheet():
    """Document 01, The calls: Sheet."""
    expect('sheet', sheet(STEEP, 2, 500, 25, 5),
           ('ok', 5, [10000, 10182, 10800, 12000, 14000]))
    expect('one entry', sheet(STEEP, 1, 550, LARGEST, 1), ('ok', 1, [10800]))
    expect('rising', sheet(TURNED, 1, 550, 25, 3),
           ('ok', 3, [13111, 13771, 14000]))
    expect('step 0', sheet(STEEP, 1, 550, 0, 1), refused(8, 0))
    expect('0 entries', sheet(STEEP, 1, 550, 1, 0), refused(8, 0))
    expect('start before', sheet(STEEP, 1, 499, 1, 5), refused(7, 0))
    expect('entry 5 beyond', sheet(STEEP, 1, 500, 25, 7), refused(7, 5))
    # Wrapped to 32 bits the second area would be 525.
    expect('true sum', sheet(STEEP, 1, 550, 2**32 - 25, 2), refused(7, 1))


def test_file_faults():
    """Document 01, The curve file: rows 9 and 10, in both file calls."""
    long_file = curve_file(flat(2), 1) + b'\0'
    cases = [
        ('empty', b'', 9),
        ('6 bytes', FILE_31[:6], 9),
        ('mark, byte 0', b'tRF' + FILE_31[3:], 9),
        ('mark, byte 2', b'TRf' + FILE_31[3:], 9),
        ('version 2', b'TRF\2\0' + FILE_31[5:], 9),
        ('version 257', b'TRF\1\1' + FILE_31[5:], 9),
        ('30 bytes', FILE_31[:30], 10),
        ('32 bytes', long_file, 10),
        ('7 bytes, count 2', FILE_31[:7], 10),
        ('9 before 10', b'TRF\2\0' + FILE_31[5:30], 9),
    ]
    for name, data, number in cases:
        # The lists and the scratch are too short: 9 and 10 come before 11.
        expect('open ' + name, ref.open_file(data, (0, 0, 0)),
               refused(number, 0))
        expect('desk ' + name, ref.desk(data, 550, b'ab'),
               (-1000000 - number, b'ab'))
        expect('ratesheet ' + name, ref.ratesheet(data),
               'refused %d at 0\n' % number)


def test_open():
    """Document 01, The calls: Open."""
    opened = ('ok', 2, 2, [(500, 10000, 0), (600, 14000, 10000)])
    expect('open', ref.open_file(FILE_31, (2, 2, 2)), opened)
    expect('open, longer lists', ref.open_file(FILE_31, (2, 3, 64)), opened)
    for lengths in ((1, 2, 2), (2, 1, 2), (2, 2, 1)):
        expect('open %r' % (lengths,), ref.open_file(FILE_31, lengths),
               refused(11, 0))
    convex = curve_file(K7, 2)
    expect('open, slope below 0', ref.open_file(convex, (2, 2, 2)),
           ('ok', 2, 2, K7))
    file_65 = curve_file(flat(65), 1)
    expect('open, 11 before 1', ref.open_file(file_65, (65, 64, 65)),
           refused(11, 0))
    expect('open, 65 points', ref.open_file(file_65, (65, 65, 65)),
           refused(1, 0))
    expect('open, 0 points', ref.open_file(curve_file([], 1), (0, 0, 0)),
           refused(1, 0))
    expect('open, 1 point', ref.open_file(curve_file(flat(1), 1), (2, 2, 2)),
           refused(1, 0))


# Files by hand: -900 is 0xFFFFFC7C, 20,000 is 0x4E20, 200,000 is 0x30D40,
# 10,000 is 0x2710 and -10,000 is 0xFFFFD8F0.
FALLING = [(100, 12000, -900), (300, 11000, -200)]
FILE_FALLING = bytes.fromhex('54 52 46 01 00 02 02'
                             '64 00 00 00 E0 2E 00 00 7C FC FF FF'
                             '2C 01 00 00 F8 2A 00 00 38 FF FF FF')
HIGH = [(18000, 200000, -10000), (19000, 150000, 1), (20000, 200000, 10000)]
FILE_HIGH = bytes.fromhex('54 52 46 01 00 02 03'
                          '50 46 00 00 40 0D 03 00 F0 D8 FF FF'
                          '38 4A 00 00 F0 49 02 00 01 00 00 00'
                          '20 4E 00 00 40 0D 03 00 10 27 00 00')
HILL = [(18000, 150000, 10000), (20000, 150000, -10000)]
FILE_HILL = bytes.fromhex('54 52 46 01 00 04 02'
                          '50 46 00 00 F0 49 02 00 10 27 00 00'
                          '20 4E 00 00 F0 49 02 00 F0 D8 FF FF')
FILES = [(STEEP, 2, FILE_31), (FALLING, 2, FILE_FALLING), (HIGH, 2, FILE_HIGH),
         (FALLING, 3, FILE_FALLING[:5] + b'\3' + FILE_FALLING[6:]),
         (HILL, 4, FILE_HILL)]


def test_write():
    """Document 02, item 1: the file, and the buffer around it."""
    for points, shape, data in FILES:
        size = len(data)
        after = bytes(range(200, 203))
        expect('exact', write(points, shape, b'\xff' * size),
               ('ok', size, data))
        expect('longer', write(points, shape, b'\xff' * size + after),
               ('ok', size, data + after))
        for short in (size - 1, size - 12, 7, 6, 0):
            expect('%d bytes' % short, write(points, shape, bytes(short)),
                   refused(12, 0))
    expect('rising', write(STEEP, 1, bytes(31)),
           ('ok', 31, FILE_31[:5] + b'\1' + FILE_31[6:]))
    size = 7 + 12 * 64
    expect('64 points, a byte short', write(flat(64), 1, bytes(size - 1)),
           refused(12, 0))
    full = write(flat(64), 1, bytes(size))
    expect('64 points', full[:2], ('ok', 775))
    expect('64 points, the head', full[2][:7], b'TRF\1\0\1\x40')
    expect('64 points, the last', full[2][-12:].hex(' '),
           '3f 00 00 00 05 00 00 00 00 00 00 00')


def test_write_refusals():
    """Document 02, item 1: 1 to 6 with their places, before 12."""
    start = (0, 5, 0)
    bad = [
        (flat(65), 1, 1, 0),
        (flat(1), 1, 1, 0),
        ([], 1, 1, 0),
        (flat(2), 0, 2, 0),
        (flat(2), 5, 2, 0),
        (flat(2), 258, 2, 0),
        (flat(2), 259, 2, 0),
        ([start, (1, 5, 0), (20001, 5, 0)], 1, 3, 2),
        ([start, (1, 200001, 0)], 1, 4, 1),
        ([(0, 5, -10001), (1, 5, 0)], 2, 5, 0),
        (flat(3) + [(3, 4, 0)], 1, 6, 2),
    ]
    for points, shape, number, place in bad:
        for length in (0, 6, 30, 31, 900):
            expect('write, %d in %d bytes' % (number, length),
                   write(points, shape, bytes(length)), refused(number, place))
    expect('write, unequal lists', ref.write([0, 1], [5, 5], [0], 1, bytes(9)),
           refused(1, 0))


def test_write_and_open():
    """Document 02, item 1: it opens as the points and shape that went in."""
    curves = [(points, shape) for points, shape, _ in FILES]
    curves += [(flat(64, 317), 1), (K5, 1), (K6, 2), (K7, 2), (K8, 2),
               (flat(64, 317), 3), (K6, 4), (MIRROR_K7, 4), (MIRROR_K5, 3)]
    for points, shape in curves:
        count = len(points)
        data = write(points, shape, b'\xff' * 900)[2][:7 + 12 * count]
        expect('write, then open', ref.open_file(data, (count,) * 3),
               ('ok', shape, count, points))
        expect('as the tests write it', data, curve_file(points, shape))


def fill(areas, values):
    """With a slope list of the same length."""
    return ref.fill_slopes(areas, values, len(areas))


def test_fill_slopes():
    """Document 02, item 2: slopes worked out by hand."""
    for areas, values, slopes in [
            ([0, 10, 30, 35], [0, 10, 10, 40], [200, 0, 0, 1200]),
            ([0, 3, 6, 10], [0, 1, 3, 3], [25, 44, 0, 0]),
            ([0, 10, 40], [0, 10, 100], [83, 120, 750]),
            ([0, 2000, 4000], [0, 1, 2], [0, 0, 0]),
            # Two points: 1, a third, nothing, and the edge of the range.
            ([0, 10], [5, 15], [100, 100]),
            ([0, 3], [5, 6], [33, 33]),
            ([0, 3], [5, 5], [0, 0]),
            ([0, 1], [0, 100], [10000, 10000]),
            ([0, 1000], [0, 100009], [10000, 10000]),
            # Level at both ends, in the middle, everywhere.
            ([0, 1, 2, 3], [5, 5, 9, 9], [0, 0, 0, 0]),
            ([7, 8, 9], [5, 5, 5], [0, 0, 0]),
            ([0, 3, 6], [0, 1, 1], [66, 0, 0]),
            ([0, 3, 6], [0, 0, 1], [0, 0, 66])]:
        expect('fill %r %r' % (areas, values), fill(areas, values),
               ('ok', len(areas), slopes))
    expect('64 points', fill(list(range(64)), list(range(64))),
           ('ok', 64, [100] * 64))


def test_fill_refusals():
    """Document 02, item 2: 1, 3 and 4, then 6, then 5, and the places."""
    for areas, values, number, place in [
            ([], [], 1, 0),
            ([0], [5], 1, 0),
            (list(range(65)), list(range(65)), 1, 0),
            ([0, 1, 2], [5, 5], 1, 0),
            ([0, 1], [5, 5, 5], 1, 0),
            ([20001, 20002], [5, 5], 3, 0),
            ([0, 9, 9], [5, 5, 5], 3, 2),
            ([0, 9, 8], [5, 5, 5], 3, 2),
            ([0, 2001], [5, 5], 3, 1),
            ([0, 1], [5, 200001], 4, 1),
            ([0, 0], [5, 200001], 3, 1),
            ([0, 1, 1], [5, 200001, 5], 4, 1),
            # A falling segment, its left point; level ones are none.
            ([0, 1, 2, 3], [5, 5, 4, 3], 6, 1),
            ([0, 1, 2], [5, 6, 5], 6, 1),
            ([0, 1, 1], [5, 4, 4], 3, 2),
            ([0, 1, 2], [5, 4, 200001], 4, 2),
            # A slope above 100; 5 after 6.
            ([0, 1], [0, 101], 5, 0),
            ([0, 1, 2], [0, 51, 51], 5, 0),
            ([0, 1, 2], [0, 0, 51], 5, 2),
            ([0, 1, 2, 3], [0, 60, 1060, 1060], 5, 1),
            ([0, 1, 2, 3], [0, 200, 400, 399], 6, 2),
            # The largest of all.
            ([0, 1, 2001], [0, 199999, 200000], 5, 0)]:
        expect('fill %r %r' % (areas, values), fill(areas, values),
               refused(number, place))
    for count in (0, 1, 3, 4):
        expect('%d slopes' % count, ref.fill_slopes([0, 1], [9, 5], count),
               refused(1, 0))
    largest = ref.hundredths((0, 1, 2001), (0, 199999, 200000))[0]
    expect('the largest figure', largest // 1, 3997981009495)


def some_rising(number):
    """Areas and values of random rising curves."""
    rng = random.Random('fill slopes')
    for _ in range(number):
        points = curves.rising_curve(rng, curves.some_count(rng))
        yield curves.lists(points)[:2]


def mean_by_weights(h_left, h_right, left, right):
    """Source document 001, (3.3.2) (ii): H_i, by its weights."""
    gamma = Fraction(h_right, h_left + h_right)
    delta = Fraction(h_left, h_left + h_right)
    return 1 / (gamma / left + delta / right)


def end_by_weights(h_own, h_other, own, across):
    """(3.3.2) (i) and (iii): H_1 and H_n, by their weights."""
    alpha, beta = 1 + Fraction(h_own, h_other), -Fraction(h_own, h_other)
    return 1 / (alpha / own + beta / across)


def test_harmonic_means():
    """Document 02, item 2, against source document 001, (3.3.2)."""
    for areas, values in some_rising(300):
        h = [right - left for left, right in zip(areas, areas[1:])]
        F = [right - left for left, right in zip(values, values[1:])]
        c = [Fraction(rise, gap) for rise, gap in zip(F, h)]
        got = [slope / 100 for slope in ref.hundredths(areas, values)]
        for i in range(1, len(h)):
            if c[i - 1] > 0 and c[i] > 0:
                expect('H_i', got[i],
                       mean_by_weights(h[i - 1], h[i], c[i - 1], c[i]))
        if len(h) > 1 and c[0] > 0 and c[1] > 0:
            across = Fraction(F[0] + F[1], h[0] + h[1])
            expect('H_1', got[0], end_by_weights(h[0], h[1], c[0], across))
        if len(h) > 1 and c[-1] > 0 and c[-2] > 0:
            across = Fraction(F[-2] + F[-1], h[-2] + h[-1])
            expect('H_n', got[-1], end_by_weights(h[-1], h[-2], c[-1], across))


def test_hyperbola():
    """The rule gives N / (c - x) its derivative: a chord's slope from x to y
    is N / ((c - x) (c - y)), so all but one squared cancels."""
    areas = [0, 1, 2, 4, 5, 6, 7, 8]
    values = [360 // (10 - area) for area in areas]
    expect('360 / (10 - x)', fill(areas, values),
           ('ok', 8, [36000 // (10 - area)**2 for area in areas]))
    values = [2520 // (10 - area) for area in range(7)]
    expect('2520 / (10 - x)', fill(list(range(7)), values), refused(5, 5))
    expect('shorter', fill(list(range(5)), values[:5]),
           ('ok', 5, [252000 // (10 - area)**2 for area in range(5)]))


def test_filled_curves():
    """Document 02, item 2: they pass as rising; the last mirrors the first."""
    results = 0
    for areas, values in some_rising(600):
        answer = fill(areas, values)
        backwards = fill([areas[-1] - area for area in reversed(areas)],
                         [values[-1] - value for value in reversed(values)])
        if answer[0] == 'refused':
            expect('refused 5', (answer[1], backwards[1]), (5, 5))
            continue
        results += 1
        expect('rising', ref.check(areas, values, answer[2], ref.RISING),
               ('ok', len(areas) - 1))
        expect('mirrored', backwards, ('ok', answer[1], answer[2][::-1]))
    expect('results', results > 200, True)


def bad_files():
    """Files for each of rows 2 to 6, with the number and the place."""
    start = (0, 5, 0)
    return [
        (curve_file(flat(2), 0), 2, 0),
        (curve_file(flat(2), 5), 2, 0),
        (curve_file(flat(2), 255), 2, 0),
        (curve_file([start, (LARGEST, 5, 0)], 1), 3, 1),
        (curve_file([start, (2**24 + 1, 5, 0)], 1), 3, 1),
        (curve_file([start, (1, LARGEST, 0)], 1), 4, 1),
        (curve_file([start, (1, 2**24 + 5, 0)], 1), 4, 1),
        (curve_file([start, (1, 5, -2**31)], 1), 5, 1),
        (curve_file(K9, 2), 6, 0),
        (curve_file(flat(2) + [(2, 4, 0)], 1), 6, 1),
        (curve_file(flat(2) + [(2, 6, 0)], 3), 6, 1),
        (curve_file([(0, 5, 0), (1, 4, -101), (2, 3, -101)], 4), 6, 1),
    ]


def test_bad_files():
    """Rows 2 to 6 by Open, the desk readings and ratesheet."""
    scratch = bytes(range(40))
    for data, number, place in bad_files():
        expect('open, %d' % number, ref.open_file(data, (9, 9, 9)),
               refused(number, place))
        # Area 9,999 is outside: 2 to 6 come before 7.
        for reading in (ref.desk, ref.desk_two):
            expect('desk, %d' % number, reading(data, 9999, scratch),
                   (-1000000 - number, scratch))
        expect('ratesheet, %d' % number, ref.ratesheet(data),
               'refused %d at %d\n' % (number, place))


def test_desk():
    """Document 01, The calls: the desk reading."""
    scratch = bytes(range(100, 130))
    after = FILE_31[7:] + scratch[24:]
    expect('desk', ref.desk(FILE_31, 550, scratch), (10800, after))
    expect('desk, scratch of 24', ref.desk(FILE_31, 525, bytes(24)),
           (10182, FILE_31[7:]))
    expect('desk, below 0', ref.desk(curve_file(K7, 2), 1, bytes(24))[0], -2)
    expect('desk, above 200,000',
           ref.desk(curve_file(MIRROR_K7, 4), 1, bytes(24)),
           (200002, curve_file(MIRROR_K7, 4)[7:]))
    expect('desk, falling', ref.desk(curve_file(MIRROR_STEEP, 3), 550,
                                     bytes(24))[0], 189111)
    expect('desk, scratch of 23', ref.desk(FILE_31, 550, bytes(23)),
           (-1000011, bytes(23)))
    expect('desk, 499', ref.desk(FILE_31, 499, scratch), (-1000007, scratch))
    expect('desk, 601', ref.desk(FILE_31, 601, scratch), (-1000007, scratch))
    expect('desk, largest', ref.desk(FILE_31, LARGEST, scratch),
           (-1000007, scratch))
    file_65 = curve_file(flat(65), 1)
    expect('desk, 11 before 1', ref.desk(file_65, 0, bytes(779)),
           (-1000011, bytes(779)))
    expect('desk, 65 points', ref.desk(file_65, 0, bytes(780)),
           (-1000001, bytes(780)))
    expect('desk, 0 points', ref.desk(curve_file([], 1), 0, b''),
           (-1000001, b''))


# K1 behind a level segment, as a curve file.
FILE_43 = bytes.fromhex('54 52 46 01 00 01 03'
                        '90 01 00 00 10 27 00 00 00 00 00 00'
                        'F4 01 00 00 10 27 00 00 00 00 00 00'
                        '58 02 00 00 B0 36 00 00 10 27 00 00')


def test_desk_two():
    """Document 02, item 5: the number, and the records of the segment read."""
    left, right = FILE_43[7:31], FILE_43[19:43]
    for area, factor, records in (
            (400, 10000, left), (401, 10000, left), (499, 10000, left),
            (500, 10000, right), (525, 10182, right), (550, 10800, right),
            (600, 14000, right)):
        for length in (24, 25, 35, 36, 37, 768):
            scratch = bytes(1 + i % 255 for i in range(length))
            expect('two at %d' % area, ref.desk_two(FILE_43, area, scratch),
                   (factor, records + scratch[24:]))
    expect('31 bytes', ref.desk_two(FILE_31, 550, b'x' * 26),
           (10800, FILE_31[7:] + b'xx'))
    # Each rated point of five, and the last area.
    five = curve_file(flat(5, 10), 1)
    for area, first in ((0, 0), (9, 0), (10, 1), (11, 1), (20, 2), (29, 2),
                        (30, 3), (39, 3), (40, 3)):
        expect('five at %d' % area, ref.desk_two(five, area, bytes(24)),
               (5, five[7 + 12 * first:31 + 12 * first]))


def test_desk_two_shapes():
    """Document 02, item 5, on each shape: the parabola x x, and those of
    test_hyperbola_and_parabola."""
    for shape, points, readings in (
            (2, [(0, 0, 0), (10, 100, 2000), (30, 900, 6000)],
             ((0, 0, 0), (9, 81, 0), (10, 100, 1), (11, 121, 1),
              (30, 900, 1))),
            (3, [(0, 360, -3600), (10, 180, -900), (30, 90, -225)],
             ((0, 360, 0), (9, 189, 0), (10, 180, 1), (11, 171, 1),
              (30, 90, 1))),
            (4, [(0, 500, 2000), (40, 1100, 1000), (100, 1250, -500)],
             ((0, 500, 0), (38, 1080, 0), (40, 1100, 1), (42, 1120, 1),
              (100, 1250, 1)))):
        data = curve_file(points, shape)
        for area, factor, first in readings:
            expect('shape %d at %d' % (shape, area),
                   ref.desk_two(data, area, bytes(24)),
                   (factor, curve_file(points[first:first + 2], 1)[7:]))


def test_desk_two_refusals():
    """Document 02, item 5: 11 for a scratch under 24 bytes, after 9 and 10
    and before all else; where only the first desk reading says 11."""
    for length in (0, 1, 11, 12, 23, 24, 25, 36):
        scratch = bytes(range(1, 1 + length))
        for data, area, number in (
                (FILE_43, 399, 7), (FILE_43, 601, 7), (FILE_43, LARGEST, 7),
                (curve_file(flat(1), 1), 0, 1), (curve_file([], 1), 0, 1),
                (curve_file(flat(65), 1), 0, 1),
                (curve_file(flat(255), 9), 0, 1),
                *((data, 9999, number) for data, number, _ in bad_files())):
            for wrong, first in ((data, number if length >= 24 else 11),
                                 (data[:6], 9), (b'X' + data[1:], 9),
                                 (data[:3] + b'\2' + data[4:], 9),
                                 (data + b'x', 10)):
                expect('%d with %d bytes' % (number, length),
                       ref.desk_two(wrong, area, scratch),
                       (-1000000 - first, scratch))
    one, many = curve_file(flat(1), 1), curve_file(flat(64), 1)
    expect('first, 12 bytes', ref.desk(one, 0, bytes(12))[0], -1000001)
    expect('second, 12 bytes', ref.desk_two(one, 0, bytes(12))[0], -1000011)
    expect('first, 767 bytes', ref.desk(many, 0, bytes(767))[0], -1000011)
    expect('second, 767 bytes', ref.desk_two(many, 0, bytes(767))[0], 5)


def test_c_answers():
    """include/factor_curves.h: the answers of Check, Read, Pair and Sheet."""
    steep = lists(STEEP)
    expect('segments', ref.curve_check(*steep, 1), (1,))
    expect('no shape', ref.curve_check(*lists(K9), 2), (-6 * 2**32,))
    expect('right point', ref.curve_check(*lists(flat(2, 2001)), 1),
           (-3 * 2**32 - 1,))
    expect('K1', ref.curve_read(*steep, 1, 550), (10800,))
    expect('rising', ref.curve_read(*lists(TURNED), 1, 550), (13111,))
    expect('K7', ref.curve_read(*lists(K7), 2, 1), (-2,))
    expect('K1 at 499', ref.curve_read(*steep, 1, 499), (-7 * 2**32,))
    expect('pair', ref.curve_pair(*steep, 1, 525, 550, [4, 5, 6, 7]),
           (3, [10182, 10800, 618, 7]))
    expect('plan outside', ref.curve_pair(*steep, 1, 525, 601, [4, 5, 6]),
           (-7 * 2**32 - 1, [4, 5, 6]))
    for points in (STEEP, K9, []):
        expect('pair, 11 before all else',
               ref.curve_pair(*lists(points), 1, 499, 499, [4, 5]),
               (-11 * 2**32, [4, 5]))
    expect('sheet', ref.curve_sheet(*steep, 2, 500, 25, [0] * 5),
           (5, [10000, 10182, 10800, 12000, 14000]))
    below = lists(MIRROR_STEEP)
    expect('falling, read', ref.curve_read(*below, 3, 550), (189111,))
    expect('falling, pair', ref.curve_pair(*below, 3, 525, 550, [4, 5, 6, 7]),
           (3, [189771, 189111, -660, 7]))
    expect('concave, sheet', ref.curve_sheet(*below, 4, 500, 25, [0] * 5),
           (5, [190000, 189818, 189200, 188000, 186000]))
    expect('no such shape', ref.curve_read(*below, 5, 550), (-2 * 2**32,))
    expect('sheet, entry 5', ref.curve_sheet(*steep, 2, 500, 25, [9] * 7),
           (-7 * 2**32 - 5, [9] * 7))
    expect('sheet, step 0', ref.curve_sheet(*steep, 2, 500, 0, [9]),
           (-8 * 2**32, [9]))


def test_c_open():
    """include/factor_curves.h: the answer of Open, and its lists."""
    expect('open', ref.curve_open(FILE_31, [7] * 2, [7] * 3, [7] * 4),
           (514, [500, 600], [10000, 14000, 7], [0, 10000, 7, 7]))
    expect('open, slope below 0',
           ref.curve_open(curve_file(K7, 2), [7] * 2, [7] * 2, [7] * 2),
           (514, [0, 2], [0, 0], [-300, 300]))
    expect('open, rising', ref.curve_open(curve_file(flat(3), 1), [0] * 3,
                                          [0] * 3, [1] * 3),
           (259, [0, 1, 2], [5, 5, 5], [0, 0, 0]))
    expect('open, falling', ref.curve_open(curve_file(MIRROR_K5, 3), [7] * 2,
                                           [7] * 2, [7] * 2),
           (770, [500, 600], [190000, 186000], [-2000, -6000]))
    expect('open, concave', ref.curve_open(FILE_HILL, [7] * 2, [7] * 2,
                                           [7] * 2),
           (1026, [18000, 20000], [150000] * 2, [10000, -10000]))
    expect('open, a list short', ref.curve_open(FILE_31, [7], [8, 8], [9, 9]),
           (-11 * 2**32, [7], [8, 8], [9, 9]))
    expect('open, no shape', ref.curve_open(curve_file(K9, 2), [7, 7], [8, 8],
                                            [9, 9]),
           (-6 * 2**32, [7, 7], [8, 8], [9, 9]))


def test_c_write():
    """include/factor_curves.h: the answer of Write, and its bytes."""
    steep = lists(STEEP)
    expect('write', ref.curve_write(*steep, 2, b'\xee' * 33),
           (31, FILE_31 + b'\xee\xee'))
    expect('write, 30 bytes', ref.curve_write(*steep, 2, b'\xee' * 30),
           (-12 * 2**32, b'\xee' * 30))
    expect('write, no bytes', ref.curve_write(*steep, 2, b''),
           (-12 * 2**32, b''))
    expect('write, right point',
           ref.curve_write(*lists(flat(2, 2001)), 1, b'\xee'),
           (-3 * 2**32 - 1, b'\xee'))
    expect('write, no shape', ref.curve_write(*lists(K9), 2, b'\xee' * 40),
           (-6 * 2**32, b'\xee' * 40))


def test_c_fill_slopes():
    """include/factor_curves.h: the answer of Fill Slopes, and its list."""
    areas, values = [0, 10, 40], [0, 10, 100]
    for found in ([7, 7, 7], [-2**31, 0, 2**31 - 1], [83, 120, 750]):
        expect('fill', ref.curve_fill_slopes(areas, values, found),
               (3, [83, 120, 750]))
        expect('fill, falling', ref.curve_fill_slopes(areas, [0, 9, 8], found),
               (-6 * 2**32 - 1, found))
        expect('fill, steep', ref.curve_fill_slopes(areas, [0, 9, 9999], found),
               (-5 * 2**32 - 2, found))
    expect('fill, a list short', ref.curve_fill_slopes(areas, values, [7, 7]),
           (-2**32, [7, 7]))


# K3's points by hand: 500 is 125/64 of 2^8, 600 is 75/64 of 2^9, 10,000 and
# 14,000 are 625/512 and 875/512 of 2^13.
TRIPLES_48 = bytes.fromhex('00 00 00 00 00 40 7F 40 00 00 00 00 00 88 C3 40'
                           '00 00 00 00 00 00 00 00'
                           '00 00 00 00 00 C0 82 40 00 00 00 00 00 58 CB 40'
                           '00 00 00 00 00 88 C3 40')


def test_triples():
    """What the tests' writer of triples writes. -10,000 has the sign bit, 2 is
    2^1, the least number is the last bit."""
    expect('as exported', triples.triples(STEEP), TRIPLES_48)
    for number, wanted in ((-10000, '00 00 00 00 00 88 c3 c0'),
                           (2, '00 00 00 00 00 00 00 40'),
                           (5e-324, '01 00 00 00 00 00 00 00'),
                           (-0.0, '00 00 00 00 00 00 00 80'),
                           (math.inf, '00 00 00 00 00 00 f0 7f')):
        expect('%r' % number, triples.figure(number).hex(' '), wanted)
        eight = triples.figure(number)
        expect('bits', triples.of_bits(triples.bits_of(eight)), eight)
    expect('a row', triples.joined(triples.rows(STEEP)), TRIPLES_48)
    expect('no number', math.isnan(triples.number(bytes(6) + b'\xf8\x7f')),
           True)


def taken(data, shape, count=None):
    """With lists long enough, or of this length."""
    count = len(data) // 24 if count is None else count
    return ref.import_points(data, shape, (count,) * 3)


def test_import():
    """Document 02, item 7: the points and the count, in each shape."""
    expect('48 bytes', taken(TRIPLES_48, 2), ('ok', 2, STEEP))
    expect('rising', taken(TRIPLES_48, 1), ('ok', 2, STEEP))
    expect('falling', taken(TRIPLES_48, 3), refused(6, 0))
    for points, shape in ((K5, 1), (K7, 2), (K8, 2), (MIRROR_K5, 3),
                          (MIRROR_K7, 4), (HILL, 4), (HIGH, 2), (flat(64), 3)):
        expect('shape %d' % shape, taken(triples.triples(points), shape),
               ('ok', len(points), points))
    minus = TRIPLES_48[:16] + bytes(7) + b'\x80' + TRIPLES_48[24:]
    expect('minus zero', taken(minus, 2), ('ok', 2, STEEP))
    zeros = triples.triples([(-0.0, -0.0, -0.0), (1, -0.0, -0.0)])
    expect('minus zeros', taken(zeros, 4), ('ok', 2, [(0, 0, 0), (1, 0, 0)]))
    answer = ref.curve_import(zeros, 1, [7] * 2, [7] * 2, [7] * 2)
    expect('whole numbers', [type(number) for entries in answer[1:]
                             for number in entries], [int] * 6)


# What each figure is, in words of item 7.
NOT_WHOLE = [0.5, -0.5, 0.1, 1.5, 5e-324, -5e-324, 2.2250738585072014e-308,
             0.9999999999999999, 1.0000000000000002, 499.99999999999994,
             20000.000000000004, 2.0**31 + 0.5, 2.0**51 + 0.5, 2.0**52 - 0.5,
             -(2.0**52 - 0.5), math.inf, -math.inf, math.nan, -math.nan]
FAR = [2.0**31, -2.0**31, 2.0**32 - 1, 2.0**32 + 1, 2.0**52, 2.0**52 + 1,
       2.0**53 - 1, 2.0**53, -2.0**53, 2.0**63, 2.0**64, 2.0**64 + 4096, 1e300,
       -1e300, sys.float_info.max]


def test_import_figures():
    """Document 02, item 7: in each field of each point. A figure that is not a
    finite whole number is refused 14; of the others the area 3, the value 4
    and the slope 5, whatever their size."""
    for figure in NOT_WHOLE + FAR:
        for point, field in ((0, 0), (1, 1), (2, 2), (1, 0), (2, 1), (0, 2)):
            points = curves.changed(flat(3), point, field, figure)
            number = 14 if figure in NOT_WHOLE else 3 + field
            expect('%r' % figure, taken(triples.triples(points), 1),
                   refused(number, point))
    for figure, whole in ((0.0, 0), (-0.0, 0), (-7.0, -7), (2.0**53, 2**53),
                          (1e22, 10**22), (-2.0**70, -2**70)):
        expect('%r' % figure, (ref.is_whole(figure), ref.whole(figure)),
               (True, whole))
    # Not-a-numbers by their bits: quiet and signalling, of both signs.
    for eight in ('000000000000f87f', '010000000000f07f', 'ffffffffffffff7f',
                  '000000000000f8ff', '000000000000f4ff', '000000000100f07f',
                  'fffffffffffff7ff'):
        data = bytes.fromhex(eight)
        for at in range(0, 48, 8):
            wrong = TRIPLES_48[:at] + data + TRIPLES_48[at + 8:]
            expect('no number', taken(wrong, 2), refused(14, at // 24))


def test_import_limits():
    """Document 02, item 7, with document 01's limits; negative figures."""
    for figure, field, number in (
            (-1, 0, 3), (20001, 0, 3), (-20000, 0, 3), (-1, 1, 4),
            (200001, 1, 4), (-200000, 1, 4), (-10001, 2, 5), (10001, 2, 5)):
        for point in (0, 1):
            points = curves.changed(flat(2), point, field, figure)
            expect('%d' % figure, taken(triples.triples(points), 1),
                   refused(number, point))
    limits = [(18000, 200000, -10000), (20000, 200000, 10000)]
    expect('limits', taken(triples.triples(limits), 2), ('ok', 2, limits))
    for gap, answer in ((2000, ('ok', 2, flat(2, 2000))),
                        (2001, refused(3, 1)), (0, refused(3, 1)),
                        (-1, refused(3, 1))):
        expect('a gap of %d' % gap, taken(triples.triples(flat(2, gap)), 1),
               answer)


def test_import_rows():
    """Document 02, item 7: 13 before 11 and all later rows; 1 by the count
    alone; the code that the caller names."""
    for length in range(200):
        data, count = (TRIPLES_48 * 5)[:length], length // 24
        for lists in ((count,) * 3, (0, 0, 0), (99, 99, 99)):
            answer = ref.import_points(data, 9, lists)
            if length % 24:
                expect('%d bytes' % length, answer, refused(13, 0))
            elif lists[0] < count:
                expect('%d points' % count, answer, refused(11, 0))
            else:
                expect('%d points' % count, answer,
                       refused(2 if count > 1 else 1, 0))
    for lists in ((1, 2, 2), (2, 1, 2), (2, 2, 1), (0, 9, 9)):
        expect('lists', ref.import_points(TRIPLES_48, 2, lists),
               refused(11, 0))
    expect('longer', ref.import_points(TRIPLES_48, 2, (2, 65, 300)),
           ('ok', 2, STEEP))
    many = triples.triples(flat(65))
    expect('65 points, short', taken(many, 1, 64), refused(11, 0))
    expect('65 points', taken(many, 1, 65), refused(1, 0))
    expect('65 points, longer', taken(many, 1, 99), refused(1, 0))
    expect('64 points', taken(many[:-24], 1), ('ok', 64, flat(64)))
    expect('none', taken(b'', 1, 9), refused(1, 0))
    half = triples.triples([(0.5, 5, 0), (1, 5, 0)])
    for code in (0, 5, 255, 257, 2**31 + 1, LARGEST):
        expect('code %d' % code, taken(TRIPLES_48, code), refused(2, 0))
        expect('2 before 14', taken(half, code), refused(2, 0))


def test_import_order():
    """Document 02, item 7: 14 at its point, just before 3, 4 and 5 there."""
    start, half = (0, 5, 0), (2, 5, 0.5)
    for point in ((30000, 5, 0.5), (0, 300000, 0.5), (30000.5, 300000, 20000),
                  (-1, 5.5, 0), (1, -5.5, 20000), (1, 5, 20000.5),
                  (math.inf, -1, -20000), (1, math.nan, 20000)):
        expect('14 at 1', taken(triples.triples([start, point, half]), 1),
               refused(14, 1))
        expect('14 at 0', taken(triples.triples([half, point, start]), 1),
               refused(14, 0))
    for point, number in (((30000, 300000, 20000), 3), ((0, 5, 20000), 3),
                          ((-1, -1, 0), 3), ((1, 300000, 20000), 4),
                          ((1, -1, -20000), 4), ((1, 5, 20000), 5)):
        expect('%d at 1' % number,
               taken(triples.triples([start, point, half]), 1),
               refused(number, 1))
        expect('14 before it', taken(triples.triples([half, point]), 1),
               refused(14, 0))
    # Points before segments.
    falls = [start, (1, 4, 0)]
    expect('14 at 2', taken(triples.triples(falls + [half]), 1),
           refused(14, 2))
    expect('6 at 0', taken(triples.triples(falls + [(2, 5, 0)]), 1),
           refused(6, 0))


def test_imported_files():
    """Document 02, item 7: checked as by Open, where a file can hold them."""
    rng = random.Random('triples')
    results = 0
    for _ in range(400):
        points, shape = curves.any_curve(rng)
        points = rng.choice([points, points, curves.past_limit(rng, points),
                             curves.shapeless_points(rng, points)])
        numbers = list(zip(*curves.lists(points)))
        length = len(points) - rng.choice([0, 0, 0, 1])
        opened = ref.open_file(curve_file(numbers, shape), (length,) * 3)
        answer = taken(triples.triples(numbers), shape, length)
        results += answer[0] == 'ok'
        expect('as by Open', answer, opened if opened[0] == 'refused'
               else ('ok', *opened[2:]))
    expect('results', 100 < results < 300, True)


def test_import_kinds():
    """The lists of figures that import_kinds.py puts into each field, and what
    import_notes.py says of them."""
    for name, bits, whole in (('not whole', import_kinds.NOT_WHOLE, False),
                              ('far', import_kinds.FAR, True)):
        numbers = [triples.number(triples.of_bits(one)) for one in bits]
        expect(name, {ref.is_whole(number) for number in numbers}, {whole})
        expect('each once', len(set(bits)), len(bits))
        if whole:
            expect('far', min(map(abs, numbers)) > 200000, True)
    rng = random.Random('figures')
    for kind, make in import_kinds.KIND_BITS.items():
        for _ in range(300):
            expect(kind, import_notes.kind_of(make(rng)), kind)


def test_c_import():
    """include/factor_curves.h: the answer of Import, and its lists."""
    expect('import',
           ref.curve_import(TRIPLES_48, 2, [7] * 2, [7] * 3, [7] * 4),
           (2, [500, 600], [10000, 14000, 7], [0, 10000, 7, 7]))
    below = triples.triples(K7)
    expect('import, slope below 0',
           ref.curve_import(below, 2, [7] * 2, [7] * 2, [7] * 2),
           (2, [0, 2], [0, 0], [-300, 300]))
    lent = [7, 7], [8, 8], [9, 9]
    for data, shape, answer in (
            (TRIPLES_48[:47], 2, -13 * 2**32),
            (TRIPLES_48 * 2, 2, -11 * 2**32), (TRIPLES_48[:24], 2, -2**32),
            (TRIPLES_48, 5, -2 * 2**32),
            (triples.triples([(0, 5, 0), (1, 5, 0.5)]), 1, -14 * 2**32 - 1),
            (triples.triples([(0, 5, 0), (1e300, 5, 0)]), 1, -3 * 2**32 - 1),
            (triples.triples([(0, -1, 0), (1, 5, 0)]), 1, -4 * 2**32),
            (triples.triples([(0, 5, 0), (1, 5, -2**40)]), 1, -5 * 2**32 - 1),
            (triples.triples(K9), 2, -6 * 2**32)):
        expect('import, refused', ref.curve_import(data, shape, *lent),
               (answer, *lent))


def test_curve_file():
    """Document 01, The curve file: what the tests' writer writes."""
    expect('as written', curve_file(STEEP, 2), FILE_31)
    expect('two\'s complement', curve_file(K7, 2)[15:19].hex(), 'd4feffff')
    expect('a fault in each field of the head',
           curve_file([], 3, b'XYZ', 258, 9), b'XYZ\2\1\3\x09')


def test_ratesheet():
    """Document 01, The curve file: the program ratesheet."""
    expect('31 bytes', ref.ratesheet(FILE_31), PRINTED_31)
    expect('not beyond the last', ref.ratesheet(curve_file(flat(2, 60), 1)),
           'shape 1 points 2\n0 5\n25 5\n50 5\n')
    # Item 8: the code that is filed, and the factors of the convex rule.
    expect('rising and convex', ref.ratesheet(curve_file(STEEP, 1)),
           PRINTED_31.replace('shape 2', 'shape 1'))
    expect('rising', ref.ratesheet(curve_file(TURNED, 1)),
           'shape 1 points 2\n500 10000\n525 11943\n550 13111\n'
           '575 13771\n600 14000\n')
    expect('falling', ref.ratesheet(curve_file(MIRROR_STEEP, 3)),
           'shape 3 points 2\n500 190000\n525 189771\n550 189111\n'
           '575 187943\n600 186000\n')
    expect('concave', ref.ratesheet(curve_file(MIRROR_STEEP, 4)),
           'shape 4 points 2\n500 190000\n525 189818\n550 189200\n'
           '575 188000\n600 186000\n')
    expect('775 bytes', ref.ratesheet(curve_file(flat(64), 1)),
           'shape 1 points 64\n0 5\n25 5\n50 5\n')
    file_65 = curve_file(flat(65), 1)
    expect('787 bytes', ref.ratesheet(file_65), 'refused 10 at 0\n')
    expect('787 bytes, wrong mark', ref.ratesheet(b'X' + file_65[1:]),
           'refused 9 at 0\n')
    expect('0 points', ref.ratesheet(curve_file([], 1)), 'refused 1 at 0\n')
    program = os.path.join(os.path.dirname(os.path.abspath(ref.__file__)),
                           'exact_fractions.py')
    run = subprocess.run([sys.executable, program], input=FILE_31,
                         stdout=subprocess.PIPE)
    expect('program', run.stdout.decode(), PRINTED_31)


def main():
    for name, function in sorted(globals().items()):
        if name.startswith('test_'):
            function()
    print('%d tests, %d failures' % (tests, failures))
    return 1 if failures or tests == 0 else 0


if __name__ == '__main__':
    sys.exit(main())
