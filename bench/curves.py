"""Writes the benchmark's curve files.

    python3 bench/curves.py FOLDER

64 curves for each shape, number of points and tariff, always the same ones,
in FOLDER/SHAPE-POINTS-TARIFF-NN.trf. Typical tariffs have small rises and
slopes; extreme ones have gaps, values and slopes near the limits, as far as
the number of points allows. Falling and concave curves are rising and convex
ones upside down.

Of code 1 there are three (item 8): rising curves, which fail the convex test
in the first or the second segment, and rising-late ones, which fail it in the
last segment alone, are read by the rising rule; rising-convex ones by the
convex rule. A curve that another rule reads is not written.
"""
import random
import sys
from pathlib import Path

sys.path.insert(0, str(Path(__file__).resolve().parent.parent / 'tests'))
import exact_fractions as ref  # noqa: E402
from curve_file import curve_file  # noqa: E402

CURVES = 64
COUNTS = (2, 8, 64)
TARIFFS = ('typical', 'extreme')


def running(start, steps):
    sums = [start]
    for step in steps:
        sums.append(sums[-1] + step)
    return sums


def rising_gap(rng, count, tariff):
    ranges = {'typical': {2: (1200, 2000), 8: (200, 600), 64: (60, 300)},
              'extreme': {2: (1900, 2000), 8: (1900, 2000), 64: (250, 317)}}
    return rng.randint(*ranges[tariff][count])


def rising(rng, count, tariff):
    gaps = [rising_gap(rng, count, tariff) for _ in range(count - 1)]
    if tariff == 'typical':
        first, rises, slopes = rng.randint(3000, 9000), (50, 500), (50, 300)
    else:
        share = 200000 // (count - 1)
        first, rises, slopes = 0, (share - 9, share), (5000, 10000)
    values = running(first, [rng.randint(*rises) for _ in gaps])
    return list(zip(running(rng.randint(0, 500), gaps), values,
                    [rng.randint(*slopes) for _ in values]))


def convex_gap(rng, count, tariff):
    ranges = {'typical': {2: (1200, 2000), 8: (200, 600), 64: (60, 300)},
              'extreme': {2: (2000, 2000), 8: (900, 1040), 64: (90, 120)}}
    return rng.randint(*ranges[tariff][count])


def bent(rng, gap, slopes):
    """Each chord about half way between its slopes; the lowest value is 0."""
    rises = []
    for left, right in zip(slopes, slopes[1:]):
        wide = gap * (right - left) // 500
        rises.append(gap * (left + right) // 200 + rng.randint(-wide, wide))
    values = running(0, rises)
    lowest = min(values)
    areas = running(rng.randint(0, 500), [gap] * (len(slopes) - 1))
    return list(zip(areas, [value - lowest for value in values], slopes))


def convex(rng, count, tariff):
    """Slopes that grow evenly, from below 0."""
    top = 300 if tariff == 'typical' else 10000
    gap = convex_gap(rng, count, tariff)
    slopes = [2 * top * i // (count - 1) - top for i in range(count)]
    return bent(rng, gap, slopes)


def both_gap(rng, count, tariff):
    ranges = {2: (2000, 2000), 8: (480, 540), 64: (50, 58)}
    if tariff == 'typical':
        return convex_gap(rng, count, tariff)
    return rng.randint(*ranges[count])


def both(rng, count, tariff):
    """Rising and convex at once: slopes that grow evenly, from 0."""
    top = 600 if tariff == 'typical' else 10000
    gap = both_gap(rng, count, tariff)
    return bent(rng, gap, [top * i // (count - 1) for i in range(count)])


def late(rng, count, tariff):
    """The same, but the last slope is 0, and so below the last chord's."""
    points = both(rng, count, tariff)
    area, value, _ = points[-1]
    return points[:-1] + [(area, value, 0)]


def mirrored(points, tariff):
    """Upside down, within the same values; extreme ones within the limits."""
    values = [value for _, value, _ in points]
    both = 200000 if tariff == 'extreme' else min(values) + max(values)
    return [(area, both - value, -slope) for area, value, slope in points]


# The code, and the rule that reads it; the name, and that of the mirrors.
SHAPES = [(1, 1, rising, 'rising', 'falling'),
          (2, 2, convex, 'convex', 'concave'),
          (1, 2, both, 'rising-convex', None),
          (1, 1, late, 'rising-late', None)]


def written(path, points, code, rule):
    """Writes the file; not of a curve that is not accepted or not read so."""
    lists = list(zip(*points))
    accepted = ref.check(*lists, code)[0] == 'ok'
    if not accepted or ref.rule_used(*lists, code) != rule:
        sys.exit('curves.py: refused, or another rule: %s' % path)
    path.write_bytes(curve_file(points, code))


def write_curves(folder):
    folder.mkdir(parents=True, exist_ok=True)
    for code, rule, make, shape, mirror in SHAPES:
        for count in COUNTS:
            for tariff in TARIFFS:
                rng = random.Random(f'{shape} {count} {tariff}')
                for i in range(CURVES):
                    tail = f'{count}-{tariff}-{i:02}.trf'
                    points = make(rng, count, tariff)
                    written(folder / f'{shape}-{tail}', points, code, rule)
                    if mirror:
                        written(folder / f'{mirror}-{tail}',
                                mirrored(points, tariff), code + 2, rule + 2)


if __name__ == '__main__':
    if len(sys.argv) != 2:
        sys.exit(__doc__)
    write_curves(Path(sys.argv[1]))
