"""What a case of Import shows, and what all cases must have shown together.

A note says what was in the input and which number it was answered with, both
taken from the case itself, not from the kind that made it.
"""

import itertools
import math

import curves
import exact_fractions as ref
import triples
from import_kinds import (EDGES, FAR, FIELDS, INFINITE, KIND_BITS, NOT_WHOLE,
                          QUIET, SIGN, SIGNS)

SPECIAL = set(NOT_WHOLE + FAR)
LIMITS = ((0, curves.AREA_MAX), (0, curves.VALUE_MAX),
          (-curves.SLOPE_MAX, curves.SLOPE_MAX))
POINT_ROWS = (3, 4, 5)
COUNTS = (0, 1, 2, 63, 64, 65)          # each with every part of a point
MANY = (255, 256, 257, 256 + 2, 256 + 64)
LONG = (255, 256, 256 + 63, 2**16, 2**16 + 64)
ORDERS = list(itertools.permutations(FIELDS))[1:]
# Which rows can be behind a row: what the answer is without its fault.
BEHIND = {13: ('ok', 11, 1, 2, 14, 3, 4, 5, 6),
          11: ('ok', 1, 2, 14, 3, 4, 5, 6), 1: ('ok', 2, 14, 3, 4, 5, 6),
          2: ('ok', 14, 3, 4, 5, 6)}


def outcome(data, shape, lengths):
    """'ok', or the number."""
    answer = ref.import_points(data, shape, lengths)
    return 'ok' if answer[0] == 'ok' else answer[1]


# ---- one figure ----

def in_limits(field, number):
    return LIMITS[field][0] <= number <= LIMITS[field][1]


def is_fine(field, number):
    return ref.is_whole(number) and in_limits(field, number)


def kind_of(bits):
    """One of KIND_BITS."""
    size = bits % SIGN
    if size >= QUIET:
        return 'quiet'
    if size >= INFINITE:
        return 'infinite' if size == INFINITE else 'signalling'
    number = triples.number(triples.of_bits(size))
    return 'far' if ref.is_whole(number) else 'fraction'


def noted_of_whole(field, number):
    """A whole number beyond its limits: by one, or small in fewer bits."""
    if number in EDGES[field]:
        yield 'edge', field, number
    if number < 0 and in_limits(field, -number):
        yield 'size', field
    for bits in (16, 31, 32, 63, 64):
        low = number % 2**bits
        if field == 2 and low >= 2**(bits - 1):
            low -= 2**bits
        if in_limits(field, low):
            yield 'small in', bits, field


def noted_of_figure(figures, bits, field, where, place, number):
    """A figure that is answered with this number, the others being fine."""
    if not all(is_fine(other, figures[other])
               for other in FIELDS if other != field):
        return
    own = bits[field]
    if own in SPECIAL:
        yield 'figure', own, field, where, number
    if own % SIGN == 0:                         # an area not beyond another
        yield 'zero', own, field, where, number
    if is_fine(field, figures[field]):
        return
    yield 'at', kind_of(own), own & SIGN, field, place
    if number != 14:
        yield from noted_of_whole(field, ref.whole(figures[field]))
        return
    for step in (-1, 1):
        near = own % SIGN + step
        if 0 <= near < INFINITE and ref.is_whole(
                triples.number(triples.of_bits(near))):
            yield 'next to whole', field, own & SIGN, step


# ---- one point, and those around it ----

def broken(figures):
    """The fields whose figures are no finite whole numbers."""
    return [field for field in FIELDS if not ref.is_whole(figures[field])]


def beyond(figures):
    """The rows 3 to 5 that the figures' sizes alone would give."""
    return [row for row, field in zip(POINT_ROWS, FIELDS)
            if not math.isnan(figures[field])
            and not in_limits(field, figures[field])]


def noted_of_order(figures, after, number):
    """Row 14 beside row 3, 4 or 5: in the same point, and in the next."""
    if number == 14:
        for field, row in itertools.product(broken(figures), beyond(figures)):
            yield 'same point', field, row
        for field in broken(figures):
            if after and not broken(after):
                for row in beyond(after):
                    yield '14 and then', field, row
    elif after:
        for field in broken(after):
            yield 'then 14', number, field


def noted_of_area(data, place, number):
    """An area that only the one before forbids, and the rows behind it."""
    before, figures = ref.triple(data, place - 1), ref.triple(data, place)
    gap = figures[0] - before[0]
    if not is_fine(0, figures[0]) or 0 < gap <= curves.GAP_MAX:
        return
    gap = 'far' if gap > 0 else 'back'
    others = set(beyond(figures)) - {3}
    if number == 3:
        for row in others or ['none']:
            yield 'area', gap, row
    elif number == 14:
        for field in broken(figures):
            yield 'area behind', gap, field


def lists_before(data, place):
    """The points before a place as three lists."""
    rows = [ref.triple(data, point) for point in range(place)]
    return [[ref.whole(row[field]) for row in rows] for field in FIELDS]


def noted_of_place(data, shape, number, place):
    """The point that decides: row 14, 3, 4 or 5."""
    count, figures = len(data) // 24, ref.triple(data, place)
    bits = [triples.bits_of(data[24 * place + 8 * field:][:8])
            for field in FIELDS]
    where = {0: 'first', count - 1: 'last'}.get(place, 'inner')
    for field in FIELDS:
        yield from noted_of_figure(figures, bits, field, where, place, number)
    after = ref.triple(data, place + 1) if place + 1 < count else None
    yield from noted_of_order(figures, after, number)
    if place > 0:
        yield from noted_of_area(data, place, number)
    before = lists_before(data, place)
    if not all(ref.has_shape(*before, shape, segment)
               for segment in range(place - 1)):
        yield 'a segment before', number


# ---- the whole input ----

def noted_of_accepted(data):
    """Zeros and gaps of an accepted curve."""
    count = len(data) // 24
    for place in {0, 1, count - 1}:
        where = {0: 'first', count - 1: 'last'}.get(place, 'inner')
        for field in FIELDS:
            bits = triples.bits_of(data[24 * place + 8 * field:][:8])
            if bits % SIGN == 0:
                yield 'zero', bits, field, where, 'ok'
    areas = lists_before(data, count)[0]
    for left, right in zip(areas, areas[1:]):
        if right - left in (1, curves.GAP_MAX):
            yield 'gap', right - left


def noted_of_orders(data, shape, lengths, number):
    """What the answer would be with the figures, or their bytes, in another
    order, if that is a result."""
    rows = [[data[at + 8 * field:][:8] for field in FIELDS]
            for at in range(0, len(data), 24)]
    others = {order: [[row[field] for field in order] for row in rows]
              for order in ORDERS}
    others['backwards'] = [[eight[::-1] for eight in row] for row in rows]
    for order, other in others.items():
        changed = triples.joined(other)
        if changed != data and outcome(changed, shape, lengths) == 'ok':
            yield 'order', order, number == 'ok'


def without(number, data, shape, lengths):
    """The input without the fault of row 13, 11, 1 or 2; None if it has too
    few points."""
    count = len(data) // 24
    if number == 13:
        return data[:24 * count], shape, lengths
    if number == 11:
        return data, shape, (count,) * 3
    if number == 1:
        return (data[:24 * 64], shape, lengths) if count > 64 else None
    return data, 1 + (shape - 1) % 4, lengths


def noted_of_lengths(data, lengths):
    count, rest = divmod(len(data), 24)
    steps = tuple(max(-1, min(length - count, 1)) for length in lengths)
    if rest:
        yield 'rest', count, rest
    else:
        yield 'lists', count, steps
    if 0 in lengths:
        yield 'no entries', count > 0
    for field, length in enumerate(lengths):
        if length in LONG and count == 64:
            yield 'long list', field, length
    if count in MANY:
        yield 'many points', count, min(lengths) < count


def noted(arguments, number, place):
    data, shape, lengths = arguments
    yield from noted_of_lengths(data, lengths)
    if number in BEHIND:
        other = without(number, *arguments)
        if other:
            yield 'behind', number, outcome(*other)
    elif number == 'ok':
        yield from noted_of_accepted(data)
    elif number != 6:
        yield from noted_of_place(data, shape, number, place)
    if 48 <= len(data) <= 96 and number not in BEHIND:
        yield from noted_of_orders(data, shape, lengths, number)


# ---- what is wanted ----

def wanted_of_figures():
    """Each figure in each field, first, inner and last; each kind of them at
    each place; whole numbers beyond their limits; beside a whole number."""
    ends = ('first', 'inner', 'last')
    for field, where in itertools.product(FIELDS, ends):
        for bits in NOT_WHOLE:
            yield 'figure', bits, field, where, 14
        for bits in FAR:
            yield 'figure', bits, field, where, POINT_ROWS[field]
        for bits in SIGNS:
            taken = field > 0 or where == 'first'
            yield 'zero', bits, field, where, 'ok' if taken else 3
    for kind, sign, field in itertools.product(KIND_BITS, SIGNS, FIELDS):
        for place in range(64):
            yield 'at', kind, sign, field, place
    for field in FIELDS:
        for number in EDGES[field]:
            yield 'edge', field, number
        for bits in (16, 31, 32, 63, 64):
            yield 'small in', bits, field
        for step in (-1, 1):
            yield 'next to whole', field, 0, step
            yield 'next to whole', field, SIGN, step
    yield from [('size', 0), ('size', 1)]
    yield from [('gap', 1), ('gap', curves.GAP_MAX)]


def wanted_of_order():
    """The order of the rows."""
    for field, row in itertools.product(FIELDS, POINT_ROWS):
        yield 'same point', field, row
        yield '14 and then', field, row
        yield 'then 14', row, field
    for gap in ('back', 'far'):
        for row in ('none', 4, 5):
            yield 'area', gap, row
        for field in (1, 2):
            yield 'area behind', gap, field
    for number in (14, *POINT_ROWS):
        yield 'a segment before', number
    for number, rows in BEHIND.items():
        for row in rows:
            yield 'behind', number, row
    for order, accepted in itertools.product((*ORDERS, 'backwards'),
                                             (False, True)):
        if (order, accepted) != ('backwards', True):
            yield 'order', order, accepted


def wanted_of_lengths():
    """Lengths and lists."""
    for count in range(71):
        for rest in (1, 8, 12, 16, 23):
            yield 'rest', count, rest
        yield 'lists', count, (0, 0, 0)
        for field, step in itertools.product(FIELDS, (-1, 1)):
            if count > 0 or step > 0:
                steps = [0, 0, 0]
                steps[field] = step
                yield 'lists', count, tuple(steps)
    for count, rest in itertools.product(COUNTS, range(1, 24)):
        yield 'rest', count, rest
    for steps in itertools.product((-1, 0, 1), repeat=3):
        for count in (2, 3, 64):
            yield 'lists', count, steps
    yield from [('no entries', False), ('no entries', True)]
    for field, length in itertools.product(FIELDS, LONG):
        yield 'long list', field, length
    for count, short in itertools.product(MANY, (False, True)):
        yield 'many points', count, short


def wanted():
    for note in itertools.chain(wanted_of_figures(), wanted_of_order(),
                                wanted_of_lengths()):
        yield 'import', *note
