"""Kinds of cases of Fill Slopes. Inputs only.

A case is 'fill_slopes', (areas, values), length of the slope list. Most curves
are made of gaps and rises, one of each for a segment.
"""

import math

import curves
import exact_fractions as ref
from curves import AREA_MAX, GAP_MAX, POINTS_MAX, SLOPE_MAX, VALUE_MAX


def case(areas, values):
    """With a slope list of the same length."""
    return 'fill_slopes', (tuple(areas), tuple(values)), len(areas)


def some_place(rng, gaps, rises):
    """Areas and values with these gaps and rises."""
    return (curves.running(curves.placed(rng, sum(gaps), AREA_MAX), gaps),
            curves.running(curves.placed(rng, sum(rises), VALUE_MAX), rises))


def both_ways(rng, gaps, rises):
    """A curve and its mirror image."""
    yield case(*some_place(rng, gaps, rises))
    yield case(*some_place(rng, gaps[::-1], rises[::-1]))


# ---- accepted curves, most of them ----

def climbing(rng, gaps):
    """A rise for each gap, 1 or more if there is room for all."""
    top = rng.choice([30, 300, 3000, SLOPE_MAX])
    return curves.fitted([rng.randint(1, max(1, gap * top // 100))
                          for gap in gaps])


def rising(rng):
    gaps = curves.some_gaps(rng, curves.some_count(rng))
    yield from both_ways(rng, gaps, climbing(rng, gaps))
    yield from both_ways(rng, gaps, curves.some_rises(rng, len(gaps) + 1))


def level_segments(rng, segments):
    """For each segment, whether it is level."""
    turn = rng.randrange(2)
    one = rng.choice([0, segments - 1, rng.randrange(segments)])
    return rng.choice([
        [rng.random() < 0.5 for _ in range(segments)],
        [rng.random() < 0.5 for _ in range(segments)],
        [at % 2 == turn for at in range(segments)],
        [at == one for at in range(segments)],
        [at != one for at in range(segments)],
        [turn == 1] * segments])


def levels(rng):
    """Level segments anywhere: first, last, alternating, one, all."""
    count = rng.choice([2, 3, 4, 5, 6, 6, 6, 6, 63, 64,
                        rng.randint(2, POINTS_MAX)])
    gaps = curves.some_gaps(rng, count)
    level = level_segments(rng, count - 1)
    rises = [0 if flat else rise
             for flat, rise in zip(level, climbing(rng, gaps))]
    yield from both_ways(rng, gaps, rises)


def straight(rng):
    """All chords alike: whole hundredths, or half ones, or thirds."""
    gap = rng.choice([100, 200, 300, 500])
    rise = rng.randint(1, rng.choice([gap, 10 * gap, 90 * gap]))
    common = math.gcd(rise, gap)
    gap, rise = gap // common, rise // common
    room = min(AREA_MAX // gap, VALUE_MAX // rise)
    times = []
    for _ in range(rng.choice([1, 2, 3, 9, POINTS_MAX - 1])):
        most = min(room, GAP_MAX // gap, rng.choice([1, 4, GAP_MAX]))
        if most > 0:
            times.append(rng.randint(1, most))
            room -= times[-1]
    return [gap * n for n in times], [rise * n for n in times]


def hyperbola(rng):
    """Values C - N / d at divisors d of N: the slope is N / d squared."""
    whole = rng.choice([360, 5040, 50400, 720720])
    places = [d for d in range(1, 4000)
              if whole % d == 0 and whole <= VALUE_MAX * d
              and whole <= 100 * d * d]
    first = rng.randrange(len(places) - 1)
    places = places[first:first + rng.choice([2, 3, 9, POINTS_MAX])]
    if rng.random() < 0.5:
        places = sorted(rng.sample(places, rng.randint(2, len(places))))
    pairs = list(zip(places, places[1:]))
    gaps = [right - left for left, right in pairs]
    if max(gaps) > GAP_MAX:
        return hyperbola(rng)
    return gaps, [whole // left - whole // right for left, right in pairs]


def exact_slopes(rng):
    """Slopes that are whole hundredths or halves, many of them."""
    yield from both_ways(rng, *rng.choice([straight, hyperbola])(rng))


# ---- slopes close to a number ----

def least_rise(gaps, rises, at, point, figure):
    """The least rise of the segment `at` that gives the point a slope of so
    many hundredths or more."""
    areas = curves.running(0, gaps)
    low, high = 0, VALUE_MAX
    while high - low > 1:
        middle = (low + high) // 2
        values = curves.running(0, rises[:at] + [middle] + rises[at + 1:])
        if 100 * ref.harmonic_slope(areas, values, point) < figure:
            low = middle
        else:
            high = middle
    return high


def steep_core(rng, figure):
    """Gaps, rises, which rise to choose, and the point it is for: two points,
    an end, an end beside a level segment, or a point inside."""
    top = max(1, min(GAP_MAX, 9000000 // figure))
    own, other = (rng.choice([min(top, 100), min(top, 200),
                              rng.randint(1, top)]) for _ in range(2))
    as_steep = figure * other // 100
    kind = rng.randrange(4)
    if kind == 0:
        return [own], [0], 0, 0
    if kind == 1:
        rise = rng.choice([as_steep, rng.randint(1, max(1, as_steep))])
        return [own, other], [0, rise], 0, 0
    if kind == 2:
        return [own, other], [0, 0], 0, 0
    rise = rng.choice([as_steep, as_steep * rng.randint(60, 120) // 100])
    return [other, own], [rise, 0], 1, 1


def beside(rng, core, figure):
    """Curves whose slope at a point is close to so many hundredths; level
    segments before or after."""
    gaps, rises, at, point = core
    least = least_rise(gaps, rises, at, point, figure)
    more = rng.choice([0, 1, 1, rng.randint(0, 60)]) if len(gaps) > 1 else 0
    ahead = rng.randint(0, more) if point == 1 else 0
    before, after = [0] * ahead, [0] * (more - ahead)
    steps = [rng.randint(1, 5) for _ in range(more)]
    for rise in (least - 1, least, least + 1):
        chosen = rises[:at] + [rise] + rises[at + 1:]
        if sum(chosen) <= VALUE_MAX:
            yield from both_ways(rng, steps[:ahead] + gaps + steps[ahead:],
                                 before + chosen + after)


def edges(rng):
    """Slopes on both sides of 9,999, of 10,000 and of 10,001."""
    figure = SLOPE_MAX + rng.choice([-1, 0, 0, 1, 1])
    yield from beside(rng, steep_core(rng, figure), figure)


def far_end(rng):
    """Gaps and rises whose first slope is a multiple of 2^32 hundredths and a
    little more: 0 to 10,000."""
    while True:
        figure = rng.choice([1, 1, 1, 2, 3]) * 2**32
        gaps = [rng.choice([1, 1, 2, 3]), rng.randint(1, GAP_MAX)]
        rises = [0, rng.randint(1, 900)]
        rises[0] = least_rise(gaps, rises, 0, 0, figure)
        values = curves.running(0, rises)
        slope = 100 * ref.harmonic_slope(curves.running(0, gaps), values, 0)
        if 0 <= slope - figure <= SLOPE_MAX and values[-1] <= VALUE_MAX:
            return gaps, rises


def far_edges(rng):
    """Slopes far above the range, but not in their low 16 or 32 bits."""
    figure = rng.randint(1, 40) * 2**16
    yield from beside(rng, steep_core(rng, figure), figure)
    gaps, rises = far_end(rng)
    more = rng.choice([0, 1, 61])
    yield from both_ways(rng, gaps + [1] * more, rises + [0] * more)


# ---- refusals ----

def wrong_area(rng, areas, _):
    at = rng.randrange(len(areas))
    before = areas[at - 1] if at else 0
    wrong = [AREA_MAX + 1, areas[at] + 2**16, areas[at] + 2**31]
    if at:
        wrong += [before, before - 1, before + GAP_MAX + 1]
    areas[at] = rng.choice(wrong) % 2**32


def wrong_value(rng, _, values):
    at = rng.randrange(len(values))
    values[at] = rng.choice([VALUE_MAX + 1, values[at] + 2**24, 2**32 - 1,
                             2**31]) % 2**32


def fall(rng, _, values):
    """At one segment; the points after it may go down along."""
    at = rng.randrange(1, len(values))
    low = max(0, values[at - 1] - rng.choice([1, 1, 2, VALUE_MAX]))
    down = max(0, values[at] - low)
    end = rng.choice([at + 1, len(values)])
    values[at:end] = [max(0, value - down) for value in values[at:end]]


def steepen(rng, _, values):
    """From one point on, higher by much."""
    at = rng.randrange(1, len(values))
    up = rng.choice([10000, 60000, VALUE_MAX])
    values[at:] = [min(VALUE_MAX, value + up) for value in values[at:]]


def faults(rng):
    """One to three faults; the slope list is of another length at times."""
    gaps = curves.some_gaps(rng, curves.some_count(rng))
    rises = rng.choice([climbing(rng, gaps), [0] * len(gaps)])
    areas, values = some_place(rng, gaps, rises)
    for _ in range(rng.randint(1, 3)):
        rng.choice([wrong_area, wrong_value, fall, fall, steepen])(
            rng, areas, values)
    call, lists, length = case(areas, values)
    length += rng.choice([0] * 12 + [-1, 1, -length])
    yield call, lists, length


def steep_at(place, scale):
    """Rises for 64 points at gaps of `scale`, the first slope above the range
    at this place."""
    rises = [0] * 63
    if place == 0:
        rises[0] = 51 * scale
    elif place == 63:
        rises[62] = 51 * scale
    else:
        rises[place - 1:place + 1] = [60 * scale, 1000 * scale]
    return rises


def falling_at(rng, segments, scale):
    """Values of 64 points that fall by 1 in these segments, and somewhere a
    slope above the range."""
    rises = steep_at(rng.randint(0, 63), scale)
    for segment in segments:
        rises[segment] = -1
    return curves.running(10, rises)


def each_place(rng):
    """Each refusal at each place of 64 points, with faults before and after
    it that are tried later."""
    for place in range(64):
        scale = rng.randint(1, 10)
        areas = curves.running(0, [scale] * 63)
        rises = steep_at(place, scale)
        if place < 60:
            rises[rng.randint(place + 2, 62)] = 2000 * scale
        yield case(areas, curves.running(0, rises))
        if place < 63:
            later = rng.randint(place, 62)
            yield case(areas, falling_at(rng, [place, later], scale))
        values = falling_at(rng, [rng.randint(0, 62)], scale)
        high = values[:place] + [VALUE_MAX + 1] + values[place + 1:]
        far = areas[:place] + [AREA_MAX + 1] + areas[place + 1:]
        end = areas[:63] + [AREA_MAX + 1]
        yield case(end if place < 63 else areas, high)
        yield case(far, high)
        yield case(far, values[:63] + [VALUE_MAX + 1])


def lengths(rng):
    """0 to 70 points, and each list one longer or shorter than the others."""
    for count in range(71):
        rises = rng.choice([[7] * 70, [7, 0] * 35, [-1] * 70, [500] * 70])
        areas = curves.running(rng.randint(0, 9), [3] * 70)
        values = curves.running(rng.choice([99, 99, VALUE_MAX + 1]), rises)
        yield case(areas[:count], values[:count])
        for k in range(3):
            for other in (count + 1, max(0, count - 1), 0):
                sizes = [count] * 3
                sizes[k] = other
                yield ('fill_slopes', (tuple(areas[:sizes[0]]),
                                       tuple(values[:sizes[1]])), sizes[2])


# Kind, its name, and at least how many cases.
KINDS = [
    (rising, 'fill slopes: rising curves', 6000),
    (levels, 'fill slopes: level segments', 4000),
    (exact_slopes, 'fill slopes: whole hundredths and halves', 2000),
    (edges, 'fill slopes: on both sides of 10,000', 4000),
    (far_edges, 'fill slopes: small in 16 or 32 bits', 800),
    (faults, 'fill slopes: one to three faults', 5000),
    (each_place, 'fill slopes: each refusal at each place', 500),
    (lengths, 'fill slopes: 0 to 70 points', 500),
]
