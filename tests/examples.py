"""Document 01's examples as cases for client.c, to standard output.

The expected answers are those that document 01 states, and document 02 of the
file that is written, of the second desk reading, of halves, of triples and of
curves that are rising and convex at once; filled slopes, falling and concave
curves, and those that fail one test are worked out by hand. If
exact_fractions.py gives another, it is said and the exit status is 1.
"""

import sys

import cases
import curves
from curve_file import curve_file
from triples import triples

FILL = 7
STEEP = [(500, 10000, 0), (600, 14000, 10000)]
# STEEP turned round: its slopes are on the wrong sides of the chord's 40.
TURNED = [(500, 10000, 10000), (600, 14000, 0)]
# STEEP upside down: 24,000 less its values.
DOWN = [(500, 14000, 0), (600, 10000, -10000)]
HIGH = [(0, 200000, 10000), (2000, 200000, -10000)]


def flat(count, gap):
    """A constant curve of shape 1: F is 0 and the slopes are 0."""
    return [(gap * i, 5, 0) for i in range(count)]


def refusal(number, place):
    return -(2**32 * number + place)


# ---- cases: call, arguments, answer, written lists (None: as found) ----

def reads(points, shape, area, factor):
    """By each call that reads a factor."""
    lists, data = curves.lists(points), curve_file(points, shape)
    left = max(at for at in range(len(points) - 1) if points[at][0] <= area)
    yield 'read', (lists, shape, area), factor, None
    yield 'pair', (lists, shape, area, area, 3), 3, [[factor, factor, 0]]
    yield 'sheet', (lists, shape, area, 1, 1), 1, [[factor]]
    yield 'desk', (data, area, len(data) - 7), factor, [data[7:]]
    yield ('desk_two', (data, area, 24), factor,
           [data[7 + 12 * left:31 + 12 * left]])


def refused(points, shape, area, number, place):
    """By each call that reads a factor; every list is as found."""
    lists, data = curves.lists(points), curve_file(points, shape)
    answer = refusal(number, place)
    yield 'read', (lists, shape, area), answer, None
    yield 'pair', (lists, shape, area, area, 3), answer, None
    yield 'sheet', (lists, shape, area, 1, 1), answer, None
    yield 'desk', (data, area, len(data) - 7), -1000000 - number, None
    yield 'desk_two', (data, area, 24), -1000000 - number, None


def passes(points, shape):
    lists, data = curves.lists(points), curve_file(points, shape)
    count = len(points)
    yield 'check', (lists, shape), count - 1, None
    yield ('open', (data, (count,) * 3), 256 * shape + count,
           [list(fields) for fields in lists])
    yield 'write', (lists, shape, len(data)), len(data), [data]
    yield ('import', (triples(points), shape, (count,) * 3), count,
           [list(fields) for fields in lists])


def not_accepted(points, shape, number, place):
    """By every call."""
    lists, data = curves.lists(points), curve_file(points, shape)
    answer = refusal(number, place)
    yield 'check', (lists, shape), answer, None
    yield 'open', (data, (len(points),) * 3), answer, None
    yield 'write', (lists, shape, len(data)), answer, None
    yield 'write', (lists, shape, 0), answer, None
    yield ('import', (triples(points), shape, (len(points),) * 3), answer,
           None)
    yield from refused(points, shape, points[0][0], number, place)


def file_31_bytes():
    """The curve file, and the lines that are printed for it."""
    data = bytes.fromhex('54 52 46 01 00 02 02'
                         'F4 01 00 00 10 27 00 00 00 00 00 00'
                         '58 02 00 00 B0 36 00 00 10 27 00 00')
    printed = [(500, 10000), (525, 10182), (550, 10800), (575, 12000),
               (600, 14000)]
    yield ('open', (data, (2, 2, 2)), 2 * 256 + 2,
           [[500, 600], [10000, 14000], [0, 10000]])
    for area, factor in printed:
        yield 'desk', (data, area, 24), factor, [data[7:]]
    yield ('sheet', (curves.lists(STEEP), 2, 500, 25, 5), 5,
           [[factor for _, factor in printed]])
    steep = curves.lists(STEEP)
    yield 'write', (steep, 2, 31), 31, [data]
    yield 'write', (steep, 2, 33), 31, [data + cases.found(FILL, 33)[31:]]
    yield 'write', (steep, 2, 30), refusal(12, 0), None


def two_records():
    """K1 behind a level segment: the records of the segment read."""
    data = bytes.fromhex('54 52 46 01 00 01 03'
                         '90 01 00 00 10 27 00 00 00 00 00 00'
                         'F4 01 00 00 10 27 00 00 00 00 00 00'
                         '58 02 00 00 B0 36 00 00 10 27 00 00')
    left, right = data[7:31], data[19:43]
    for area, factor, records in (
            (400, 10000, left), (401, 10000, left), (499, 10000, left),
            (500, 10000, right), (525, 10182, right), (550, 10800, right),
            (600, 14000, right)):
        yield 'desk_two', (data, area, 24), factor, [records]
        for length in (25, 35, 36, 40):
            after = records + cases.found(FILL, length)[24:]
            yield 'desk_two', (data, area, length), factor, [after]
        yield 'desk', (data, area, 36), factor, [data[7:]]
    for area, length, number in ((399, 24, 7), (601, 36, 7), (550, 23, 11),
                                 (399, 23, 11), (550, 0, 11)):
        yield 'desk_two', (data, area, length), -1000000 - number, None


def two_scratches():
    """Where the length of the scratch decides: count, and length with the
    number of the first desk reading and of the second."""
    for count, lengths in (
            (0, ((0, 1, 11), (23, 1, 11), (24, 1, 1))),
            (1, ((11, 11, 11), (12, 1, 11), (23, 1, 11), (24, 1, 1))),
            (65, ((0, 11, 11), (23, 11, 11), (24, 11, 1), (780, 1, 1))),
            (255, ((24, 11, 1), (3059, 11, 1), (3060, 1, 1)))):
        data = curve_file(flat(count, 1), 1)
        for length, first, second in lengths:
            yield 'desk', (data, 0, length), -1000000 - first, None
            yield 'desk_two', (data, 0, length), -1000000 - second, None
        for call in ('desk', 'desk_two'):
            yield call, (data + b'x', 0, 0), -1000010, None
            yield call, (b'X' + data[1:], 0, 0), -1000009, None
            yield call, (data[:6], 0, 0), -1000009, None


def sheet_entries():
    lists = curves.lists(flat(2, 2000))
    yield 'sheet', (lists, 1, 0, 1, 1024), 1024, [[5] * 1024]
    yield 'sheet', (lists, 1, 0, 1, 1025), refusal(8, 0), None


def halves():
    """Item 6: 1/2, 3/2 and 5/2 on lines, as each shape that they have; what
    halves up and halves down would read is another number for one of them."""
    for points, shapes, factors in (
            ([(0, 0, 50), (6, 3, 50)], (1, 2, 4), (0, 2, 2)),
            ([(0, 3, -50), (6, 0, -50)], (2, 3, 4), (2, 2, 0))):
        for shape in shapes:
            for area, factor in zip((1, 3, 5), factors):
                yield from reads(points, shape, area, factor)
            lists, half = curves.lists(points), list(factors)
            yield 'sheet', (lists, shape, 1, 2, 3), 3, [half]
            for form, plan in ((0, 1), (1, 2), (2, 0)):
                both = [half[form], half[plan], half[plan] - half[form]]
                yield ('pair', (lists, shape, 1 + 2 * form, 1 + 2 * plan, 3),
                       3, [both])


def bent_halves():
    """Item 6 on bent segments. In the middle a segment with the slopes 0 and
    twice its chord's has risen by a quarter, by either rule, and with them
    exchanged by three quarters; a parabola is half as far off its chord as the
    end tangents there."""
    for more, quarter, last, convex, concave in (
            (0, 0, 2, -2, 2), (1, 2, 2, 0, 2), (2, 2, 4, 0, 4), (3, 4, 4, 2, 4)):
        low, high = more, more + 2
        yield from reads([(0, low, 0), (2, high, 200)], 1, 1, quarter)
        yield from reads([(0, low, 200), (2, high, 0)], 1, 1, last)
        yield from reads([(0, high, 0), (2, low, -200)], 3, 1, last)
        yield from reads([(0, more, -300), (2, more, 300)], 2, 1, convex)
        yield from reads([(0, more, 300), (2, more, -300)], 4, 1, concave)
        top = 200000 - more
        yield from reads([(0, top, 300), (2, top, -300)], 4, 1,
                         200000 - convex)


def all_reads(points, shape, factors):
    for area, factor in factors:
        yield from reads(points, shape, area, factor)


# What K1 and K2 read before item 8, by the rising rule; and what the convex
# rule reads there.
BY_RISING = [(525, 10229), (550, 10889)]
BY_CONVEX = [(525, 10182), (550, 10800)]


def one_figure():
    """Item 8: a segment after K1 with K1's last slope, 100, as its chord's: it
    is straight. With one figure off by one it is not convex, one slope alone
    being the chord's, or the chord's being smaller than both; then the whole
    curve is read by the rising rule. With the right slope 50 r is 5/2 there,
    and 650 reads 138000/7."""
    for value, slope, factors in (
            (24000, 10000, BY_CONVEX + [(650, 19000)]),
            (24000, 9999, BY_RISING), (23999, 10000, BY_RISING),
            (24000, 5000, BY_RISING + [(650, 19714)])):
        yield from all_reads(STEEP + [(700, value, slope)], 1, factors)
    yield from all_reads(STEEP + [(700, 24000, 10000)], 2,
                         BY_CONVEX + [(650, 19000)])


def one_segment():
    """Item 8: K1 turned round is no convex segment. 100 before K1 it reads
    4,000 less than at its own areas; and between two of K1."""
    before = [(400, 6000, 10000)] + STEEP
    yield from all_reads(before, 1, BY_RISING + [(450, 9111), (475, 9771)])
    between = [(400, 9000, 0), (500, 13000, 10000), (600, 17000, 0),
               (700, 21000, 10000)]
    yield from all_reads(between, 1, [(425, 9229), (450, 9889), (550, 16111),
                                      (575, 16771), (625, 17229),
                                      (650, 17889)])


def filed():
    """Item 8 is of readings: the code that is filed stays, and code 1 asks for
    the rising test alone."""
    for points in (STEEP, TURNED, STEEP + [(700, 24000, 5000)]):
        yield from passes(points, 1)
    yield from passes(STEEP, 2)
    yield from not_accepted(TURNED, 2, 6, 0)
    yield from not_accepted(STEEP + [(700, 24000, 5000)], 2, 6, 1)


def beyond_the_values():
    """A concave curve past 200,000, by the calls that read several areas."""
    high = curves.lists(HIGH)
    yield 'pair', (high, 4, 0, 1000, 3), 3, [[200000, 250000, 50000]]
    yield 'pair', (high, 4, 1000, 2000, 3), 3, [[250000, 200000, -50000]]
    yield 'sheet', (high, 4, 0, 1000, 3), 3, [[200000, 250000, 200000]]


def fills(areas, values, slopes):
    yield 'fill_slopes', ((areas, values), len(areas)), len(areas), [slopes]


def not_filled(areas, values, number, place):
    answer = refusal(number, place)
    yield 'fill_slopes', ((areas, values), len(areas)), answer, None


def filled_limits():
    """The limits of document 01 that need no slopes."""
    yield from fills([0, 2000], [5, 5], [0, 0])
    yield from not_filled([0, 2001], [5, 5], 3, 1)
    yield from fills(list(range(64)), [5] * 64, [0] * 64)
    yield from not_filled(list(range(65)), [5] * 65, 1, 0)
    yield 'fill_slopes', (([0, 1], [5, 5]), 3), refusal(1, 0), None


# K3's points as the package exports them: 500 is 125/64 of 2^8, 600 is 75/64
# of 2^9, 10,000 and 14,000 are 625/512 and 875/512 of 2^13.
TRIPLES = bytes.fromhex('00 00 00 00 00 40 7F 40 00 00 00 00 00 88 C3 40'
                        '00 00 00 00 00 00 00 00'
                        '00 00 00 00 00 C0 82 40 00 00 00 00 00 58 CB 40'
                        '00 00 00 00 00 88 C3 40')
STEEP_LISTS = [[500, 600], [10000, 14000], [0, 10000]]


def exported():
    """By hand, to the byte; minus zero is zero; longer lists; K1 and K3."""
    minus = TRIPLES[:16] + bytes(7) + b'\x80' + TRIPLES[24:]
    after = [cases.numbers(letter, cases.found(FILL, 20))[2:]
             for letter in 'IIi']
    for data, shape in ((TRIPLES, 2), (TRIPLES, 1), (minus, 2)):
        yield 'import', (data, shape, (2, 2, 2)), 2, STEEP_LISTS
        yield ('import', (data, shape, (5, 5, 5)), 2,
               [points + found for points, found in zip(STEEP_LISTS, after)])
    yield ('import', (triples([(0, 0, -300), (2, 0, 300)]), 2, (2, 2, 2)), 2,
           [[0, 2], [0, 0], [-300, 300]])


def not_imported(points, shape, number, place):
    data = triples(points)
    yield ('import', (data, shape, (len(data) // 24,) * 3),
           refusal(number, place), None)


def not_exported():
    """Row 13, and the rows after it."""
    for data, shape, lengths, number in (
            (TRIPLES[:47], 2, (2, 2, 2), 13),
            (TRIPLES + b'x', 2, (2, 2, 2), 13),
            (TRIPLES[:1], 2, (0, 0, 0), 13), (TRIPLES[:47], 9, (0, 0, 0), 13),
            (TRIPLES, 2, (1, 2, 2), 11), (TRIPLES, 2, (2, 1, 2), 11),
            (TRIPLES, 2, (2, 2, 1), 11), (TRIPLES[:24], 9, (0, 9, 9), 11),
            (b'', 2, (0, 0, 0), 1), (TRIPLES[:24], 9, (1, 1, 1), 1),
            (triples(flat(65, 1)), 1, (65, 65, 64), 11),
            (triples(flat(65, 1)), 1, (65, 65, 65), 1),
            (TRIPLES, 0, (2, 2, 2), 2), (TRIPLES, 5, (2, 2, 2), 2),
            (TRIPLES, 2**32 - 1, (2, 2, 2), 2),
            (triples([(0.5, 5, 0), (1, 5, 0)]), 258, (2, 2, 2), 2)):
        yield 'import', (data, shape, lengths), refusal(number, 0), None


def figures():
    """Each in each field of the second point: what is not a finite whole
    number, and whole numbers of any size."""
    start = (0, 5, 0)
    for figure in (0.5, -0.5, 1.0000000000000002, 5e-324, float('inf'),
                   float('-inf'), float('nan'), 2.0**52 - 0.5):
        for point in ((figure, 5, 0), (1, figure, 0), (1, 5, figure)):
            yield from not_imported([start, point], 1, 14, 1)
    for figure in (-2.0**31, 2.0**32, 2.0**53, -2.0**63, 2.0**64, 1e300):
        yield from not_imported([start, (figure, 5, 0)], 1, 3, 1)
        yield from not_imported([start, (1, figure, 0)], 1, 4, 1)
        yield from not_imported([start, (1, 5, figure)], 1, 5, 1)
    yield from not_imported([(-1, 5, 0), (1, 5, 0)], 1, 3, 0)
    yield from not_imported([(0, -1, 0), (1, 5, 0)], 1, 4, 0)


def row_14():
    """Just before 3, 4 and 5 at its point; after those of earlier points."""
    for point in ((30000, 5, 0.5), (0, 300000, 0.5), (30000.5, 300000, 20000),
                  (-1, 5.5, 0), (1, -5.5, 20000), (1, 5, 20000.5)):
        yield from not_imported([(0, 5, 0), point, (2, 5, 0.5)], 1, 14, 1)
    for point, number in (((30000, 5, 0), 3), ((1, 300000, 0), 4),
                          ((1, 5, 20000), 5)):
        yield from not_imported([(0, 5, 0), point, (2, 5, 0.5)], 1, number, 1)
        yield from not_imported([(0.5, 5, 0), point, (2, 5, 0)], 1, 14, 0)
    # A segment before it has no shape.
    yield from not_imported([(0, 5, 0), (1, 4, 0), (2, 5.5, 0)], 1, 14, 2)
    yield from not_imported([(0, 5, 0), (1, 4, 0), (2, 5, 0)], 1, 6, 0)


EXAMPLES = [
    # Readings to prove.
    ('K1: 550 reads 10,800', reads(STEEP, 1, 550, 10800)),
    ('K2: 525 reads 10,182', reads(STEEP, 1, 525, 10182)),
    ('K3: 550 reads 10,800', reads(STEEP, 2, 550, 10800)),
    ('K4: 525 reads 10,182', reads(STEEP, 2, 525, 10182)),
    ('K5: 501 reads 10,020',
     reads([(500, 10000, 2000), (600, 14000, 6000)], 1, 501, 10020)),
    ('K6: 1 reads 0', reads([(0, 0, 50), (2, 1, 50)], 2, 1, 0)),
    ('K7: 1 reads -2', reads([(0, 0, -300), (2, 0, 300)], 2, 1, -2)),
    ('K8: 1 reads 0', reads([(0, 0, 0), (2, 1, 100)], 2, 1, 0)),
    ('K9: refused 6 at 0',
     not_accepted([(0, 0, 100), (100, 100, 200)], 2, 6, 0)),
    ('K10: refused 6 at 0', not_accepted([(0, 5, 0), (10, 5, 1)], 1, 6, 0)),
    # Also run.
    ('K1 at 499: refused 7', refused(STEEP, 1, 499, 7, 0)),
    ('K1 at 601: refused 7', refused(STEEP, 1, 601, 7, 0)),
    ('K1 at 500 reads 10,000', reads(STEEP, 1, 500, 10000)),
    ('K1 at 600 reads 14,000', reads(STEEP, 1, 600, 14000)),
    ('a gap of 2,000 passes', passes(flat(2, 2000), 1)),
    ('a gap of 2,001: refused 3 at the right point',
     not_accepted(flat(2, 2001), 1, 3, 1)),
    ('64 points pass', passes(flat(64, 1), 1)),
    ('65 points: refused 1', not_accepted(flat(65, 1), 1, 1, 0)),
    ('a sheet of 1,024 entries passes, 1,025: refused 8', sheet_entries()),
    # Rising and convex at once.
    ('118000/9 reads 13,111, rising', reads(TURNED, 1, 550, 13111)),
    ('96400/7 reads 13,771, rising', reads(TURNED, 1, 575, 13771)),
    ('the same points, concave', reads(TURNED, 4, 550, 13200)),
    ('K5 under 2', reads([(500, 10000, 2000), (600, 14000, 6000)], 2, 501,
                         10020)),
    ('three points, the last segment by one figure', one_figure()),
    ('one segment, the first and an inner one', one_segment()),
    ('what is filed', filed()),
    # The curve file.
    ('the file of 31 bytes', file_31_bytes()),
    # Halves.
    ('5/4 reads 1', reads([(0, 1, 0), (2, 2, 100)], 2, 1, 1)),
    ('1/2, 3/2 and 5/2 read 0, 2 and 2', halves()),
    ('halves on bent segments', bent_halves()),
    # The second desk reading.
    ('two records of three', two_records()),
    ('where the scratch decides', two_scratches()),
    # Falling and concave curves.
    ('118000/9 reads 13,111', reads(DOWN, 3, 550, 13111)),
    ('13200 reads 13,200', reads(DOWN, 4, 550, 13200)),
    ('152000/11 reads 13,818', reads(DOWN, 4, 525, 13818)),
    ('a falling curve passes', passes(DOWN, 3)),
    ('a concave curve passes', passes(DOWN, 4)),
    ('1/2 reads 0, falling', reads([(0, 1, -50), (2, 0, -50)], 3, 1, 0)),
    ('1/2 reads 0, concave', reads([(0, 1, -50), (2, 0, -50)], 4, 1, 0)),
    ('400003/2 reads 200,002',
     reads([(0, 200000, 300), (2, 200000, -300)], 4, 1, 200002)),
    ('250,000 in the middle', reads(HIGH, 4, 1000, 250000)),
    ('from 200,000 to 250,000 and back', beyond_the_values()),
    ('K9 mirrored: refused 6 at 0',
     not_accepted([(0, 100, -100), (100, 0, -200)], 4, 6, 0)),
    ('K10 mirrored: refused 6 at 0',
     not_accepted([(0, 5, 0), (10, 5, -1)], 3, 6, 0)),
    ('K1 is not falling: refused 6', not_accepted(STEEP, 3, 6, 0)),
    ('K3 is not concave: refused 6', not_accepted(STEEP, 4, 6, 0)),
    ('code 5: refused 2', not_accepted(DOWN, 5, 2, 0)),
    ('code 0: refused 2', not_accepted(DOWN, 0, 2, 0)),
    # Filled slopes.
    ('slopes 2, 0, 0, 12', fills([0, 10, 30, 35], [0, 10, 10, 40],
                                 [200, 0, 0, 1200])),
    ('slopes 1/4, 4/9, 0, 0', fills([0, 3, 6, 10], [0, 1, 3, 3],
                                    [25, 44, 0, 0])),
    ('slopes 5/6, 6/5, 15/2', fills([0, 10, 40], [0, 10, 100],
                                    [83, 120, 750])),
    ('slopes 1/2,000', fills([0, 2000, 4000], [0, 1, 2], [0, 0, 0])),
    ('slope 100.009', fills([0, 1000], [0, 100009], [10000, 10000])),
    ('slope 101: refused 5 at 0', not_filled([0, 1], [0, 101], 5, 0)),
    ('a slope above 100, then a fall: refused 6 at 1',
     not_filled([0, 1, 2], [0, 200, 199], 6, 1)),
    ('fill slopes: gaps of 2,000 and 2,001, 64 and 65 points', filled_limits()),
    # Triples.
    ('48 bytes are taken', exported()),
    ('rows 13, 11, 1 and 2 of triples', not_exported()),
    ('figures that are not taken', figures()),
    ('row 14 among rows 3 to 6', row_14()),
]


def written(call, arguments, after):
    """The lists that are lent to be written, after the call, as bytes."""
    if call in ('check', 'read'):
        return []
    if call in ('desk', 'desk_two', 'write'):
        return after or [cases.found(FILL, arguments[-1])]
    three = call in ('open', 'import')
    if after is None:
        lengths = arguments[-1] if three else arguments[-1:]
        return [cases.found(FILL, 4 * length) for length in lengths]
    letters = 'IIi' if three else 'i'
    return [cases.packed(*pair) for pair in zip(letters, after)]


def case(kind, call, arguments, answer, after):
    """The case as bytes; None if the exact-fraction program differs."""
    computed, extra, lists = cases.expected(FILL, call, arguments)
    last = written(call, arguments, after)
    wanted = lists[:len(lists) - len(last)] + last
    if (answer, wanted) != (computed, lists):
        return None
    return cases.record(kind, FILL, call, answer, extra, wanted)


def main():
    out, total, faults = sys.stdout.buffer, 0, 0
    out.write(cases.stream_head([name for name, _ in EXAMPLES]))
    for kind, (name, group) in enumerate(EXAMPLES):
        for call, arguments, answer, after in group:
            data = case(kind, call, arguments, answer, after)
            if data is None:
                faults += 1
                print('examples.py: exact_fractions differs: %s, %s'
                      % (name, call), file=sys.stderr)
                continue
            out.write(data)
            total += 1
    out.write(cases.stream_end(total))
    return 1 if faults else 0


if __name__ == '__main__':
    sys.exit(main())
