"""Writes the cases for client.c and threads.c to standard output.

Every expected answer and list is what exact_fractions gives.

    cases.py [--part N]     one Nth of the cases (default: all of them)

The stream, little-endian: the number of kinds (1 byte), each kind's name
(length, letters), then the cases:

    kind, call, fill        1 byte each
    three numbers           4 bytes each, unsigned: what the call takes beside
                            lists, in its order; 0 where there is none
    four lengths            4 bytes each, in entries; 0 where there is no list
    expected answer         8 bytes, signed
    the lists               in the call's order: as they go in, or as they are
                            after the call if they are lent to be written

Before the call byte i of a list that is lent to be written is 1 more than
fill + 31 * i modulo 255, so never 0. After the last case comes kind 255 with
the number of cases as its first number.
"""

import argparse
import itertools
import multiprocessing
import random
import struct
import sys
from fractions import Fraction

import exact_fractions as ref
import file_kinds
import half_kinds
import import_kinds
import import_notes
import list_kinds
import rule_kinds
import rule_notes
import slope_kinds
import two_kinds

SEED = 'factor curves 2'
CHUNK = 500                     # cases that one random generator makes
CALLS = ['desk', 'desk_two', 'check', 'read', 'pair', 'sheet', 'open', 'write',
         'fill_slopes', 'import']
DESKS = ('desk', 'desk_two')
ON_FILES = (*DESKS, 'open')
FILED = ('check', 'open', 'write', 'import')    # with a code, without a factor
LIMITS = [(0, 20000), (0, 200000), (-10000, -1, 0, 1, 10000)]
SLOPE_LIMITS = {1: (0, 1, 10000), 2: LIMITS[2], 3: (-10000, -1, 0),
                4: LIMITS[2]}
SHAPES = (1, 2, 3, 4)
READING = (*DESKS, 'read', 'pair', 'sheet')
NAMES = (*READING, 'form', 'plan')      # of what reads a factor
RULES_NOTED = 40                # of a sheet's entries
HEAD = struct.Struct('<BBB3I4Iq')
PERIODS = [bytes(1 + (fill + 31 * i) % 255 for i in range(255))
           for fill in range(256)]


def found(fill, size):
    """The bytes of a list before the call, if it is lent to be written."""
    return (PERIODS[fill] * (size // 255 + 1))[:size]


def numbers(letter, data):
    """The entries of a list, each of 4 bytes."""
    return list(struct.unpack('<%d%s' % (len(data) // 4, letter), data))


def packed(letter, entries):
    return struct.pack('<%d%s' % (len(entries), letter), *entries)


def points_packed(lists):
    return [packed('I', lists[0]), packed('I', lists[1]), packed('i', lists[2])]


# ---- one function for each call: answer, numbers, lists ----

def on_scratch(reading):
    """The function for a desk reading."""
    def desk(fill, data, area, length):
        answer, after = reading(data, area, found(fill, length))
        return answer, [area], [data, after]
    return desk


def check(_, lists, shape):
    return ref.curve_check(*lists, shape)[0], [shape], points_packed(lists)


def read(_, lists, shape, area):
    return (ref.curve_read(*lists, shape, area)[0], [shape, area],
            points_packed(lists))


def pair(fill, lists, shape, form, plan, length):
    out = numbers('i', found(fill, 4 * length))
    answer, after = ref.curve_pair(*lists, shape, form, plan, out)
    return (answer, [shape, form, plan],
            points_packed(lists) + [packed('i', after)])


def sheet(fill, lists, shape, start, step, length):
    out = numbers('i', found(fill, 4 * length))
    answer, after = ref.curve_sheet(*lists, shape, start, step, out)
    return (answer, [shape, start, step],
            points_packed(lists) + [packed('i', after)])


def lent(fill, lengths):
    """The three lists that Open and Import write, before the call."""
    return [numbers(letter, found(fill, 4 * length))
            for letter, length in zip('IIi', lengths)]


def open_file(fill, data, lengths):
    answer, *after = ref.curve_open(data, *lent(fill, lengths))
    return answer, [], [data] + points_packed(after)


def write(fill, lists, shape, length):
    answer, after = ref.curve_write(*lists, shape, found(fill, length))
    return answer, [shape], points_packed(lists) + [after]


def fill_slopes(fill, lists, length):
    slopes = numbers('i', found(fill, 4 * length))
    answer, after = ref.curve_fill_slopes(*lists, slopes)
    return answer, [], [packed('I', lists[0]), packed('I', lists[1]),
                        packed('i', after)]


def import_points(fill, data, shape, lengths):
    answer, *after = ref.curve_import(data, shape, *lent(fill, lengths))
    return answer, [shape], [data] + points_packed(after)


FUNCTIONS = [on_scratch(ref.desk), on_scratch(ref.desk_two), check, read, pair,
             sheet, open_file, write, fill_slopes, import_points]
WIDTHS = [(1, 1), (1, 1), (4, 4, 4), (4, 4, 4), (4,) * 4, (4,) * 4,
          (1, 4, 4, 4), (4, 4, 4, 1), (4, 4, 4), (1, 4, 4, 4)]


def expected(fill, call, arguments):
    """By the exact-fraction program: the answer, the numbers, the lists."""
    return FUNCTIONS[CALLS.index(call)](fill, *arguments)


def record(kind, fill, call, answer, extra, lists):
    """The case as bytes."""
    code = CALLS.index(call)
    lengths = [len(data) // width for data, width in zip(lists, WIDTHS[code])]
    head = HEAD.pack(kind, code, fill, *extra, *[0] * (3 - len(extra)),
                     *lengths, *[0] * (4 - len(lengths)), answer)
    return head + b''.join(lists)


# ---- what has been seen ----

def outcome(call, answer):
    """('ok', result), or a refusal's number and place."""
    if call in DESKS:
        return ('ok', answer) if answer > -1000000 else (-1000000 - answer, 0)
    return ('ok', answer) if answer > -2**32 else divmod(-answer, 2**32)


def curve_of(call, arguments):
    """Shape and count, if rows 9, 10 and 13 are passed."""
    if call in ON_FILES:
        return arguments[0][5], arguments[0][6]
    if call == 'import':
        return arguments[1], len(arguments[0]) // 24
    shape = ref.RISING if call == 'fill_slopes' else arguments[1]
    return shape, len(arguments[0][0])


def lists_of(call, arguments):
    """The lists of a curve, of a file's too; of triples that are taken."""
    if call in ON_FILES:
        return ref.file_lists(arguments[0])
    if call == 'import':
        return zip(*ref.import_points(*arguments)[2])
    return arguments[0]


def limits_of(call, arguments):
    """The limits that the points of an accepted curve have."""
    curve = curve_of(call, arguments)
    for field, (limits, entries) in enumerate(
            zip(LIMITS, lists_of(call, arguments))):
        for limit in set(limits).intersection(entries):
            yield call, 'limit', *curve, field, limit


def areas_read(call, arguments):
    if call in DESKS:
        return arguments[1:2]
    if call == 'sheet':
        _, _, start, step, length = arguments
        return range(start, start + step * length, step)
    return arguments[2:4]                       # read, pair


def bend(lists, rule, area):
    """Of the segment read: straight, curved, or how far (b t)^2 goes."""
    areas, values, slopes = lists
    left = ref.segment_read(areas, area)
    gap, t = areas[left + 1] - areas[left], area - areas[left]
    rise = 100 * (values[left + 1] - values[left])
    b = abs(rise - gap * slopes[left])
    if b == 0 and rise == gap * slopes[left + 1]:
        return 'straight'
    if rule in (ref.RISING, ref.FALLING):
        return 'curved'
    if b * gap < 2**32:
        return 'narrow'
    return 'middling' if b * t < 2**32 else 'wide'


def noted_of_half(call, names, rule, value, kind):
    """An exact half, or a value less than a thousandth off one: by whom it was
    read, with the parity of the unit below, and on which kind of segment. The
    rule with its code."""
    off = value % 1 - Fraction(1, 2)
    odd = value // 1 % 2
    if off == 0:
        where = 'below' if value < 0 else 'above' if value > 200000 else 'amid'
        for name in names:
            yield name, 'half', rule, odd, where
        yield 'half', rule, odd, kind
    elif abs(off) < Fraction(1, 1000):
        yield 'beside', rule, odd, off > 0, kind
        yield call, 'beside', rule, odd, off > 0


def noted_of_reading(call, arguments):
    """Exact halves, values beside them, factors that no value can have, and
    the rule."""
    lists, shape = lists_of(call, arguments), curve_of(call, arguments)[0]
    rule = ref.rule_used(*lists, shape)
    for index, area in enumerate(areas_read(call, arguments)):
        value = ref.exact_value(*lists, shape, area)
        names = [call, ('form', 'plan')[index]] if call == 'pair' else [call]
        if value.denominator > 1:
            yield from noted_of_half(call, names, (shape, rule), value,
                                     bend(lists, rule, area))
        if index < RULES_NOTED:
            for note in rule_notes.noted(lists, shape, area, value):
                yield from [(name, *note) for name in names]
        if value < 0:
            yield call, 'below', shape
        if value > 200000:
            yield call, 'above', shape


def shapes_that_fit(lists):
    return [shape for shape in SHAPES
            if ref.check(*lists, shape)[0] == 'ok']


def noted_of_write(arguments, number, place):
    """What a case of Write shows of its buffer."""
    lists, _, length = arguments
    count = len(lists[0])
    room = length - 7 - 12 * count              # beyond the file
    if number in ('ok', 12):
        yield 'room', count, max(-2, min(room, 2))
    else:
        yield 'short' if room < 0 else 'enough', number, place
    if length == 0:
        yield 'no bytes', number


def noted_of_two(arguments, number):
    """What a case of the second desk reading shows of its scratch, and where
    in its segment the area lies."""
    data, area, length = arguments
    if number == 11:                            # what a longer one would give
        number, _ = outcome('desk_two', ref.desk_two(data, area, bytes(24))[0])
    if length in two_kinds.LENGTHS:
        yield 'scratch', number, length
    if number not in (9, 10) and length in two_kinds.lengths(data[6]):
        yield 'scratch of', data[6], length
    if number == 'ok' and data[6] in two_kinds.ACCEPTED:
        areas, _, _ = ref.file_lists(data)
        segment = ref.segment_read(areas, area)
        for end in (0, 1):
            yield ('segment', data[5], data[6], segment, end,
                   max(-2, min(area - areas[segment + end], 2)))


def position(count, point):
    if count == 2:
        return 'two'
    return {0: 'first', count - 1: 'last'}.get(point, 'inner')


def noted_of_slope(where, slope):
    """What an exact slope in hundredths shows of rounding and of row 5."""
    whole, rest = divmod(slope.numerator, slope.denominator)
    half = (2 * rest > slope.denominator) - (2 * rest < slope.denominator)
    yield 'rest', where, half if rest else 'none'
    if whole in (9999, 10000, 10001):
        yield 'edge', where, whole, rest > 0
    for bits in (16, 32):
        if whole >= 2**bits and whole % 2**bits <= 10000:
            yield 'cut', where, bits


def noted_of_fill(arguments, number, place):
    """What a case of Fill Slopes shows."""
    (areas, values), length = arguments
    count = len(areas)
    if len(values) == count and length != count:
        yield 'slopes', count, max(-2, min(length - count, 2))
    if number not in ('ok', 5):
        return
    points = range(count) if number == 'ok' else [place]
    slopes = ref.hundredths(areas, values)
    for point in points:
        yield from noted_of_slope(position(count, point), slopes[point])
    if number == 'ok' and count <= 6:
        yield 'level', *(left == right
                         for left, right in zip(values, values[1:]))


def noted(call, arguments, answer):
    """What this case shows: a refusal, or an accepted curve."""
    number, result = outcome(call, answer)
    if call == 'desk_two':
        yield from noted_of_two(arguments, number)
    if call == 'write':
        yield from noted_of_write(arguments, number, result)
    if call == 'fill_slopes':
        yield from noted_of_fill(arguments, number, result)
    if call == 'import':
        for note in import_notes.noted(arguments, number, result):
            yield 'import', *note
    if number != 'ok':
        yield call, number, result
        if number in (2, 3, 4, 5, 6, 14):
            yield call, number, result, curve_of(call, arguments)[0]
        return
    yield (call, 'ok') + curve_of(call, arguments)
    if call == 'check':
        yield 'fits', *shapes_that_fit(arguments[0])
    if call in READING:
        yield from noted_of_reading(call, arguments)
    if call == 'sheet':
        yield 'entries', result
    if call in ('open', 'write', 'fill_slopes', 'import'):
        yield from limits_of(call, arguments)
    if call in FILED:
        lists, shape = lists_of(call, arguments), curve_of(call, arguments)[0]
        yield call, 'rule', shape, ref.rule_used(*lists, shape)


def wanted_of_limits():
    for call, shape in itertools.product(('open', 'write', 'import'), SHAPES):
        fields = [*LIMITS[:2], SLOPE_LIMITS[shape]]
        for field, limits in enumerate(fields):
            for limit, count in itertools.product(limits, (2, 64)):
                yield call, 'limit', shape, count, field, limit
    for field, limits in enumerate(LIMITS[:2]):
        for limit, count in itertools.product(limits, (2, 64)):
            yield 'fill_slopes', 'limit', 1, count, field, limit


def wanted_of_halves():
    """What must have been seen of halves, and of values beside them: of each
    rule, with an even unit below and above, and wherever they can be."""
    for rule, odd in itertools.product(rule_notes.RULES, (0, 1)):
        shape, used = rule
        kinds = ('narrow', 'middling', 'wide') if used in (2, 4) else (
            'curved',)
        for name in NAMES:
            yield name, 'half', rule, odd, 'amid'
            if shape in (2, 4):
                yield name, 'half', rule, odd, {2: 'below', 4: 'above'}[shape]
        for kind in ('straight', *kinds):
            yield 'half', rule, odd, kind
        for above in (False, True):
            for call in READING:
                yield call, 'beside', rule, odd, above
            for kind in kinds:
                yield 'beside', rule, odd, above, kind


def wanted_of_reading():
    """What the calls that read must have shown of factors, and Check of
    points that fit several shapes."""
    yield from wanted_of_halves()
    for call in READING:
        yield from [(call, 'below', 2), (call, 'above', 4)]
    for name, note in itertools.product(NAMES, rule_notes.wanted()):
        yield name, *note
    for call, rule in itertools.product(FILED, rule_notes.RULES):
        yield call, 'rule', *rule
    for shapes in ((1,), (2,), (3,), (4,), (1, 2), (1, 4), (2, 3), (3, 4),
                   (1, 2, 4), (2, 3, 4), SHAPES):
        yield 'fits', *shapes


def wanted_of_codes(call):
    """Codes that row 2 must have refused."""
    codes = [0, 5, 255]
    if call not in ON_FILES:
        for shape in SHAPES:
            codes += list_kinds.far_codes(shape)
    for code in codes:
        yield call, 2, 0, code


def wanted_of_rows(call):
    """Rows 1 to 6, and results, by a call that takes a shape code."""
    yield call, 1, 0
    yield from wanted_of_codes(call)
    for shape in SHAPES:
        for count in range(2, 65):
            yield call, 'ok', shape, count
        for number in (3, 4, 5, 6, *[14] * (call == 'import')):
            places = 1 if call in DESKS else 63 if number == 6 else 64
            for place in range(places):
                yield call, number, place, shape


def wanted_of_two():
    """What the second desk reading must have shown: each number with each
    scratch, each count, and each segment's areas at and beside its ends."""
    for length in two_kinds.LENGTHS:
        for number in ('ok', 1, 2, 3, 4, 5, 6, 7, 9, 10):
            yield 'scratch', number, length
    for count in two_kinds.COUNTS:
        for length in two_kinds.lengths(count):
            yield 'scratch of', count, length
    for shape, count in itertools.product(SHAPES, two_kinds.ACCEPTED):
        for segment in range(count - 1):
            for end, beside in ((0, 0), (0, 1), (1, -1)):
                yield 'segment', shape, count, segment, end, beside
        yield 'segment', shape, count, count - 2, 1, 0


def wanted_of_write():
    """What Write must have shown of its buffer."""
    for count in range(2, 65):
        for room in (-1, 0, 1, 2):
            yield 'room', count, room
    for number, places in ((1, 1), (2, 1), (3, 64), (4, 64), (5, 64), (6, 63)):
        yield 'no bytes', number
        for place in range(places):
            yield 'short', number, place
            yield 'enough', number, place
    yield 'no bytes', 12


def wanted_of_fill():
    """What Fill Slopes must have shown: results and rows, level segments, its
    list, and slopes in each position."""
    yield 'fill_slopes', 1, 0
    for count in range(2, 65):
        yield 'fill_slopes', 'ok', 1, count
    for number in (3, 4, 5, 6):
        for place in range(63 if number == 6 else 64):
            yield 'fill_slopes', number, place
    for segments in range(1, 6):
        for level in itertools.product((False, True), repeat=segments):
            yield 'level', *level
    for count in range(65):
        yield 'slopes', count, 1
        if count > 0:
            yield 'slopes', count, -1
    for where in ('two', 'first', 'inner', 'last'):
        for rest in ('none', -1, 0, 1):
            yield 'rest', where, rest
        for whole in (9999, 10000, 10001):
            yield 'edge', where, whole, False
            yield 'edge', where, whole, True
        yield 'cut', where, 16
    yield from [('cut', 'first', 32), ('cut', 'last', 32)]


def wanted():
    """All that a whole run must have seen."""
    yield from wanted_of_limits()
    yield from wanted_of_two()
    yield from wanted_of_write()
    yield from wanted_of_fill()
    yield from wanted_of_reading()
    yield from import_notes.wanted()
    for call in CALLS:
        if call != 'fill_slopes':
            yield from wanted_of_rows(call)
    for call in ON_FILES:
        for number in (9, 10, 11):
            yield call, number, 0
    yield from [('desk', 7, 0), ('desk_two', 7, 0), ('read', 7, 0),
                ('pair', 7, 0), ('pair', 7, 1), ('pair', 11, 0),
                ('sheet', 8, 0), ('write', 12, 0), ('import', 13, 0),
                ('import', 11, 0)]
    for place in range(list_kinds.ENTRIES_MAX):
        yield 'sheet', 7, place
    for entries in (1, 2, 1023, 1024):
        yield 'entries', entries


# ---- kinds ----

def on_files(kind):
    """The desk reading, and another call, on each file of a kind; on one of
    four also the second desk reading, its scratch as much short or longer."""
    def cases(rng):
        for data, area, length in kind(rng):
            yield 'desk', data, area, length
            yield list_kinds.further(rng, data, area)
            if rng.random() < 0.25:
                more = length - 12 * (data[6] if len(data) > 6 else 0)
                yield 'desk_two', data, area, max(0, 24 + more)
    return cases


KINDS = [(on_files(kind), name, 9 * least // 4)
         for kind, name, least in file_kinds.KINDS]
KINDS += half_kinds.KINDS + rule_kinds.KINDS
KINDS += list_kinds.KINDS + slope_kinds.KINDS + two_kinds.KINDS
KINDS += import_kinds.KINDS


def chunk(job):
    """The cases of one chunk: bytes, number, and what they show."""
    kind, index = job
    make, name, least = KINDS[kind]
    rng = random.Random('%s/%s/%d' % (SEED, name, index))
    out, seen = [], set()
    while len(out) < min(CHUNK, least):
        for call, *arguments in make(rng):
            fill = rng.randrange(256)
            answer, extra, lists = expected(fill, call, arguments)
            out.append(record(kind, fill, call, answer, extra, lists))
            seen.update(noted(call, arguments, answer))
    return b''.join(out), len(out), seen


def jobs(part):
    for kind, (_, _, least) in enumerate(KINDS):
        for index in range(0, -(-least // CHUNK), part):
            yield kind, index


def stream_head(names):
    return bytes([len(names)]) + b''.join(
        bytes([len(name)]) + name.encode() for name in names)


def stream_end(total):
    return HEAD.pack(255, 0, 0, total, 0, 0, 0, 0, 0, 0, 0)


def main():
    parser = argparse.ArgumentParser()
    parser.add_argument('--part', type=int, default=1)
    part = parser.parse_args().part
    out = sys.stdout.buffer
    out.write(stream_head([name for _, name, _ in KINDS]))
    total, seen = 0, set()
    with multiprocessing.Pool(2) as pool:
        for data, number, shown in pool.imap(chunk, jobs(part)):
            out.write(data)
            total += number
            seen |= shown
    out.write(stream_end(total))
    missing = set(wanted()) - seen
    if part == 1 and missing:
        sys.exit('cases.py: no case of %s'
                 % ', '.join(sorted(map(str, missing))[:20]))
    return 0


if __name__ == '__main__':
    sys.exit(main())
