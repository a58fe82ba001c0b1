"""Kinds of cases on lists, and on the lists that Open writes. Inputs only.

A case is a call's name and its arguments; a list that is lent to be written
is given by its length:

    'desk', file, area, scratch length; 'desk_two' likewise
    'check', lists, shape
    'read', lists, shape, area
    'pair', lists, shape, form area, plan area, length of out
    'sheet', lists, shape, start, step, length of out
    'open', file, lengths of the three lists
    'write', lists, shape, length of out
    'fill_slopes', the first two lists, length of the slope list
    'import', triples, shape, lengths of the three lists
"""

import itertools

import curves
import exact_fractions as ref
from curve_file import curve_file
from curves import any_curve
from triples import triples

TOP = 2**32 - 1                 # the end of 32 bits
ENTRIES_MAX = 1024


# ---- further arguments ----

def other_area(rng, areas, area):
    """A second area for the same curve, mostly one of its own."""
    if not areas:
        return rng.randrange(2**32)
    first, last = areas[0], areas[-1]
    near = rng.choice([first, last, rng.choice(areas), area, area + 1,
                       area - 1, first - 1, last + 1])
    inside = rng.randint(min(first, last), max(first, last))
    return rng.choice([inside, inside, inside, near]) % 2**32


def pair_room(rng):
    return rng.choice([3, 3, 3, 3, 3, 4, 4, 5, 8, rng.randint(0, 2)])


def small_sheet(rng, areas, area):
    """Start, step and a few entries, mostly inside the curve."""
    start = rng.choice([area, area, areas[0] if areas else 0])
    entries = rng.choice([1, 2, 3, rng.randint(1, 9)])
    room = areas[-1] - start if areas else 0
    step = rng.randint(1, max(1, room // max(1, entries - 1)))
    if rng.random() < 0.1:
        step = rng.choice([0, TOP, step + 1, rng.randrange(2**32)])
        entries = rng.choice([0, entries, entries])
    return start, step, entries


def open_lengths(rng, data):
    """Lengths of Open's three lists, mostly enough."""
    count = data[6] if len(data) > 6 else 0
    lengths = [count + rng.choice([0, 0, 0, 1, 3, 11]) for _ in range(3)]
    if rng.random() < 0.1:
        lengths[rng.randrange(3)] = max(0, count - 1)
    return tuple(lengths)


def write_room(rng, count):
    """The length of Write's buffer, mostly enough; below 2^16."""
    need = 7 + 12 * min(count, 2**12)
    return need + rng.choice([0, 0, 0, 0, 1, 12, rng.randint(2, 99), -1,
                              -rng.randint(1, need), -need])


def further(rng, data, area):
    """Another call than the desk's, on the file or on its points."""
    call = rng.choice(['read', 'read', 'read', 'pair', 'pair', 'sheet',
                       'sheet', 'open', 'open', 'check', 'write',
                       'fill_slopes'])
    if call == 'open' or ref.file_fault(data) is not None:
        return 'open', data, open_lengths(rng, data)
    return list_case(rng, call, ref.file_lists(data), data[5], area)


def list_case(rng, call, lists, shape, area):
    areas = lists[0]
    if call == 'check':
        return call, lists, shape
    if call == 'read':
        return call, lists, shape, area
    if call == 'pair':
        both = [area, other_area(rng, areas, area)]
        rng.shuffle(both)
        return call, lists, shape, *both, pair_room(rng)
    if call == 'write':
        return call, lists, shape, write_room(rng, len(areas))
    if call == 'fill_slopes':
        return call, lists[:2], len(lists[2])
    return call, lists, shape, *small_sheet(rng, areas, area)


def list_calls(rng, lists, shape, area):
    """Each of the calls on lists."""
    for call in ('check', 'read', 'pair', 'sheet', 'write', 'fill_slopes'):
        yield list_case(rng, call, lists, shape, area)


def all_calls(rng, points, shape, area):
    """Each of the calls, with room enough, on a curve or a faulty one."""
    lists, data = curves.lists(points), curve_file(points, shape)
    yield 'check', lists, shape
    yield 'read', lists, shape, area
    yield 'pair', lists, shape, area, area, 3 + rng.randrange(2)
    yield 'sheet', lists, shape, area, 1, 1
    yield 'open', data, (data[6], data[6] + rng.randrange(3), data[6])
    yield 'desk', data, area, 12 * data[6]
    yield 'desk_two', data, area, 24
    yield 'write', lists, shape, len(data) + rng.randrange(2)
    yield 'fill_slopes', lists[:2], len(points)
    yield ('import', triples(points), shape,
           (len(points), len(points), len(points) + rng.randrange(3)))


# ---- lists: lengths, shape codes, places ----

def resized(rng, lists):
    """The lists in unequal lengths, 0 to 70, most of them one off."""
    count = len(lists[0])
    lengths = [count] * 3
    while lengths[0] == lengths[1] == lengths[2]:
        lengths = [rng.choice([count, count, count, count - 1, count + 1, 0,
                               rng.randint(0, 70)]) for _ in range(3)]
    return tuple((numbers * 36)[:length]
                 for numbers, length in zip(lists, lengths))


def unequal(rng):
    points, shape = any_curve(rng)
    area = curves.inner_area(rng, points)
    if rng.random() < 0.1:
        points = curves.past_limit(rng, points)
    if rng.random() < 0.1:
        shape = rng.choice([0, 5])
    for _ in range(4):
        yield from list_calls(rng, resized(rng, curves.lists(points)), shape,
                              area)


def simple_points(count, shape):
    """A curve of this many points, accepted if they are 2 to 64."""
    if shape > curves.CONVEX:
        return curves.mirrored(simple_points(count, shape - 2))
    if shape == curves.RISING:
        return [(3 * i, 7 * i, 50) for i in range(count)]
    return [(10 * i, i * i, 20 * i) for i in range(count)]


def all_lengths(rng):
    """Equal lists of 0 to 70 points, by every call."""
    for count in range(71):
        for shape in curves.SHAPES:
            area = rng.randint(0, 3 * max(1, count - 1))
            points = simple_points(count, shape)
            yield from all_calls(rng, points, shape, area)
            for room in (-1, 0, 1, 2):
                yield ('write', curves.lists(points), shape,
                       7 + 12 * count + room)


def far_lengths(rng):
    """Lengths that a byte or two bytes cannot hold."""
    for count in (2, 64):
        shape = rng.choice(curves.SHAPES)
        lists = curves.lists(simple_points(count, shape))
        for more in (2**8, 2**16):
            longer = tuple((numbers * (more // count + 1))[:more + count]
                           for numbers in lists)
            for k in range(4):
                mixed = longer if k == 3 else (
                    lists[:k] + (longer[k],) + lists[k + 1:])
                yield from list_calls(rng, mixed, shape, 1)


def same_lists(rng):
    """Lists that hold the same numbers; the client lends one for all."""
    count = rng.choice([2, 3, 64, rng.randint(2, 70)])
    numbers = [rng.randint(0, 50)]
    while len(numbers) < count:
        numbers.append(numbers[-1] + rng.randint(1, 150))
    areas = tuple(numbers)
    slopes = rng.choice([areas, areas, (0,) * count])
    yield from list_calls(rng, (areas, areas, slopes),
                          rng.choice([1, 1, 1, 2, 3, 4]),
                          rng.randint(areas[0], areas[-1]))


def far_codes(shape):
    """Codes beyond a byte with this one inside."""
    return [256 + shape, 512 + shape, 2**16 + shape, 2**24 + shape,
            2**31 + shape, 256 * shape, 2**32 - shape]


def codes(rng):
    """Shape codes beyond a byte too, most of them with 1 to 4 inside."""
    points, shape = any_curve(rng)
    area = curves.inner_area(rng, points)
    if rng.random() < 0.2:
        points = curves.past_limit(rng, points)
    code = rng.choice([0, 5, 6, 8, 255, 256, TOP, rng.randrange(2**32),
                       *far_codes(shape)])
    yield from list_calls(rng, curves.lists(points), code, area)


def each_code(rng):
    """One curve with each code; some curves fit several shapes."""
    points = rng.choice([curves.straight_curve(rng), any_curve(rng)[0],
                         simple_points(rng.randint(2, 64),
                                       rng.choice(curves.SHAPES))])
    area = curves.inner_area(rng, points)
    for code in (*curves.SHAPES, rng.choice([0, 5, 255])):
        yield from all_calls(rng, points, code, area)


def fault_at(number, place, shape):
    """64 points, the first fault this number's, at this place.

    Points or segments after it may have faults, with smaller numbers too.
    """
    if shape > curves.CONVEX:
        return curves.mirrored(fault_at(number, place, shape - 2))
    points = simple_points(64, shape)
    if number == 6:
        points = curves.changed(points, place + 1, 1, points[place][1])
        return curves.changed(points, 63, 1, 0) if place < 62 else points
    if place < 63:
        points = curves.changed(points, 63, 0, 20001)
        points = curves.changed(points, place + 1, 2, -10001)
    points = curves.changed(points, 0 if place else 1, 1, 9000)
    field, new = {3: (0, 20001), 4: (1, 200001), 5: (2, 10001)}[number]
    return curves.changed(points, place, field, new)


def each_place(rng):
    for number, shape in itertools.product((3, 4, 5, 6), curves.SHAPES):
        for place in range(63 if number == 6 else 64):
            points = fault_at(number, place, shape)
            yield from all_calls(rng, points, shape, rng.randint(0, 3 * 63))
            yield 'write', curves.lists(points), shape, rng.randrange(775)


# ---- Pair ----

def pair_rooms(rng):
    """Lists too short: refused 11 before all else; or longer."""
    points, shape = any_curve(rng)
    area = rng.choice([curves.inner_area, curves.outer_area])(rng, points)
    lists = curves.lists(rng.choice([
        points, points, points[:1], curves.past_limit(rng, points),
        curves.shapeless_points(rng, points)]))
    if rng.random() < 0.2:
        lists = resized(rng, lists)
    code = rng.choice([shape, shape, shape, shape, 0, 5, 256 + shape])
    for length in (0, 1, 2, 3, 4, rng.randint(5, 70)):
        yield 'pair', lists, code, area, other_area(rng, lists[0], area), length


def pair_areas(rng):
    """Form and plan area, each inside or outside."""
    points, shape = any_curve(rng)
    lists = curves.lists(points)
    for _ in range(8):
        form, plan = (rng.choice([curves.inner_area, curves.inner_area,
                                  curves.outer_area])(rng, points)
                      for _ in range(2))
        yield 'pair', lists, shape, form, plan, 3


# ---- Sheet ----

def sheet_rows(rng):
    """Row 8 and the rows beside it: step 0, no entries, or too many."""
    points, shape = any_curve(rng)
    lists = curves.lists(rng.choice([points, points, points,
                                     curves.past_limit(rng, points),
                                     curves.shapeless_points(rng, points)]))
    start = rng.choice([curves.inner_area, curves.outer_area])(rng, points)
    for _ in range(6):
        step = rng.choice([0, 0, 1, 1, 2, TOP])
        entries = rng.choice([0, 0, 1, 2, rng.randint(1, 40),
                              ENTRIES_MAX - 1, ENTRIES_MAX, ENTRIES_MAX + 1])
        yield 'sheet', lists, shape, start, step, entries


def longer_sheets(rng):
    """More than 1,025 entries; some would be few in one or two bytes."""
    lists = curves.lists(simple_points(64, 2))
    for entries in (1026, 1279, 2047, 2048, 2049, 4096, 32769, 2**16,
                    2**16 + 1, 2**16 + 9, 2**16 + ENTRIES_MAX):
        for step in (0, 1):
            yield 'sheet', lists, 2, rng.choice([0, 5, TOP]), step, entries


def sheet_wraps(rng):
    """Sums beyond 2^32 that would be inside the curve if they wrapped."""
    points, shape = any_curve(rng)
    lists = curves.lists(points)
    start = curves.inner_area(rng, points)
    inside = points[-1][0] - start
    for _ in range(6):
        # times * step = turns * 2^32 + over, with 0 <= over <= inside
        times = rng.choice([1, 1, 2, 3, 4, 256, rng.randint(1, 1023), 1023])
        turns = rng.choice([1, rng.randint(1, times), times])
        over = -turns * 2**32 % times
        over += times * rng.randint(0, max(0, inside - over) // times)
        step = (turns * 2**32 + over) // times
        yield 'sheet', lists, shape, start, min(step, TOP), times + 1
    back = points[0][0] + 2**32 - rng.randint(0, points[0][0])
    yield 'sheet', lists, shape, TOP, rng.choice([1, back - TOP, TOP]), 2
    yield ('sheet', lists, shape, start, 2**32 - rng.randint(1, 25),
           rng.randint(2, 9))


def sheet_places(rng):
    """Each entry as the first one outside, and beside the last point."""
    points, shape = curves.mirrored_at_times(
        rng, [(i * 1000, 3 * i, 10) for i in range(21)], curves.RISING)
    lists = curves.lists(points)
    for place in range(ENTRIES_MAX):
        step = rng.randint(1, 20000 // max(1, place))
        start = 20000 - max(0, place - 1) * step + (place == 0)
        entries = min(ENTRIES_MAX, place + 1 + rng.randrange(3))
        yield 'sheet', lists, shape, start, step, entries
    for entries in (1, 2, 1023, ENTRIES_MAX):
        yield 'sheet', lists, shape, 20000 - 19 * (entries - 1), 19, entries


def whole_sheets(rng):
    """Up to 1,024 entries inside; several sheets of one curve."""
    points, shape = any_curve(rng)
    first, last = points[0][0], points[-1][0]
    lists = curves.lists(points)
    for _ in range(4):
        step = rng.choice([1, 1, 2, 3, 7, max(1, (last - first) // 1023)])
        start = rng.choice([first, rng.randint(first, last)])
        fits = (last - start) // step + 1
        entries = min(ENTRIES_MAX, fits, rng.choice([40, 200, ENTRIES_MAX]))
        yield 'sheet', lists, shape, start, step, entries
        if fits < ENTRIES_MAX:
            yield 'sheet', lists, shape, start, step, fits + 1


# ---- Open ----

def open_lists(rng):
    """Lists around the count, each by itself; files with faults too."""
    points, shape = any_curve(rng)
    if rng.random() < 0.1:
        points = points[:rng.randrange(2)]
    elif rng.random() < 0.2:
        points = rng.choice([curves.past_limit,
                             curves.shapeless_points])(rng, points)
    code = rng.choice([shape, shape, shape, shape, 0, 5, 255])
    data = curve_file(points, code)
    count = len(points)
    for _ in range(6):
        yield 'open', data, tuple(
            max(0, count + rng.choice([-1, 0, 0, 0, 0, 0, 1, 2, -count,
                                       64 - count, rng.randint(0, 99)]))
            for _ in range(3))


def far_open_lists(rng):
    """Lists as long as a byte or two bytes cannot say."""
    data = curve_file(simple_points(64, 1), 1)
    for length in (255, 256, 257, 319, 2**16, 2**16 + 64):
        for k in range(3):
            lengths = [64] * 3
            lengths[k] = length
            yield 'open', data, tuple(lengths)
    many = curve_file(simple_points(255, 1), 1)
    for length in (0, 254, 255, 256, 2**16):
        yield 'open', many, (length, 255, length)


# ---- Write ----

def write_rooms(rng):
    """Buffers around the file's length, of curves with faults too."""
    points, shape = any_curve(rng)
    lists = curves.lists(rng.choice([
        points, points, points, points, points[:1],
        curves.past_limit(rng, points),
        curves.shapeless_points(rng, points)]))
    if rng.random() < 0.1:
        lists = resized(rng, lists)
    code = rng.choice([shape, shape, shape, shape, shape, 0, 5, 256 + shape])
    need = 7 + 12 * len(lists[0])
    for length in (need - 1, need, need + 1, need + 12, max(0, need - 12), 0,
                   6, rng.randrange(need), need + rng.randint(2, 3000)):
        yield 'write', lists, code, length


def far_rooms(rng):
    """Buffers as long as a byte or two bytes cannot say."""
    for count in (2, 64):
        shape = rng.choice(curves.SHAPES)
        lists = curves.lists(simple_points(count, shape))
        need = 7 + 12 * count
        for length in (255, 256, 256 + need, 2**16 - 1, 2**16, 2**16 + 1,
                       2**16 + need - 1, 2**16 + need):
            yield 'write', lists, rng.choice([shape, shape, shape, 5]), length


def limit_files(rng):
    """2 and 64 points with fields at the limits, written and opened."""
    points, shape = curves.limit_file(rng)
    lists, data = curves.lists(points), curve_file(points, shape)
    count = len(points)
    for more in (0, 1, -1, rng.randint(2, 99)):
        yield 'write', lists, shape, len(data) + more
    yield 'open', data, (count,) * 3
    yield 'open', data, open_lengths(rng, data)


# Kind, its name, and at least how many cases.
KINDS = [
    (unequal, 'lists of unequal lengths', 20000),
    (all_lengths, 'lists of 0 to 70 points', 500),
    (far_lengths, 'lists of more points', 60),
    (same_lists, 'one list for several', 5000),
    (codes, 'shape codes beyond a byte', 10000),
    (each_code, 'one curve with each shape code', 8000),
    (each_place, 'each refusal at each place', 500),
    (pair_rooms, 'pair: out short, exact, longer', 8000),
    (pair_areas, 'pair: areas inside and outside', 8000),
    (sheet_rows, 'sheet: step 0, entries 0 to 1,025', 4000),
    (longer_sheets, 'sheet: more entries', 20),
    (sheet_wraps, 'sheet: sums beyond 32 bits', 4000),
    (sheet_places, 'sheet: each entry outside', 500),
    (whole_sheets, 'sheet: up to 1,024 entries', 500),
    (open_lists, 'open: lists short, exact, longer', 12000),
    (far_open_lists, 'open: long lists', 20),
    (write_rooms, 'write: out short, exact, longer', 12000),
    (far_rooms, 'write: long out', 10),
    (limit_files, 'write, open: fields at the limits', 6000),
]
