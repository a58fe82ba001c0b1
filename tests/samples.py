"""Tests of samples/: the files, the quoting desk and the ratesheet program.

    samples.py files             the files of samples/ are the tests' own
    samples.py made FOLDER       make samples INTO=FOLDER has written them
    samples.py quote PROGRAM     the quoting desk on the samples
    samples.py sheet PROGRAM     ratesheet on the samples and on made-up files

Expected answers are exact_fractions.py's, expected files curve_file.py's,
expected triples triples.py's. Exit status 0: all as expected.
"""

import glob
import os
import random
import re
import subprocess
import sys
import time
from fractions import Fraction

import curves
import exact_fractions as ref
import rule_kinds
from curve_file import curve_file
from triples import triples

SAMPLES = os.path.join(os.path.dirname(os.path.abspath(__file__)), '..',
                       'samples')
STEEP = [(500, 10000, 0), (600, 14000, 10000)]

# One file for each refusal that a file can show; the engine writes none.
REFUSED = {
    'refused-1-one-point.trf': curve_file(STEEP[:1], 1),
    'refused-2-shape-code.trf': curve_file(STEEP, 5),
    # At point 2: 2,001 beyond the one before.
    'refused-3-gap.trf': curve_file(STEEP + [(2601, 18000, 0)], 1),
    # At point 1.
    'refused-4-value.trf': curve_file([STEEP[0], (600, 200001, 0)], 1),
    # At point 0.
    'refused-5-slope.trf': curve_file([(500, 10000, -10001), STEEP[1]], 2),
    # K9: the left slope equals the chord's, the right one does not.
    'refused-6-no-shape.trf': curve_file([(0, 0, 100), (100, 100, 200)], 2),
    'refused-9-mark.trf': curve_file(STEEP, 2, mark=b'TRG'),
    # The last byte is missing.
    'refused-10-length.trf': curve_file(STEEP, 2)[:-1],
}

# Triples: their bytes, the shape code to take them with, and the curve file
# that they give, or the refusal and its place.
RISING = [(300, 8200, 900), (500, 9600, 500), (800, 10700, 300),
          (1200, 11500, 0), (1500, 11500, 0), (2500, 13400, 260),
          (4000, 16900, 200)]
TRIPLES = {
    'rising.f64': (triples(RISING), 1, 'rising.trf'),
    # The last byte is missing.
    'refused-13-length.f64': (triples(RISING)[:-1], 1, (13, 0)),
    # At point 4.
    'refused-14-slope.f64': (triples(RISING[:4] + [(1500, 11500, 0.5)]
                                     + RISING[5:]), 1, (14, 4)),
}

failures = 0
tests = 0


def expect(name, got, wanted):
    global failures, tests
    tests += 1
    if got != wanted:
        failures += 1
        print('DIFFERENCE in %s: got %r, wanted %r' % (name, got, wanted))


def sample_files(ending='.trf'):
    """(name, bytes) of every sample whose name ends so: curve files."""
    for path in sorted(glob.glob(os.path.join(SAMPLES, '*' + ending))):
        with open(path, 'rb') as file:
            yield os.path.basename(path), file.read()


# ---- the files ----

def filled(points):
    """Points without slopes, as (area, value), with those of the exact rule."""
    areas, values = zip(*points)
    _, _, slopes = ref.fill_slopes(areas, values, len(areas))
    return list(zip(areas, values, slopes))


def text_file(path):
    """The curve file of a text as the samples have it: no commas."""
    with open(path, encoding='ascii') as file:
        lines = [line.split('#')[0].split() for line in file]
    (name, code), *rows = [words for words in lines if words]
    if name != 'shape':
        raise ValueError(path)
    points = [tuple(map(int, words)) for words in rows]
    if code == '1' and len(points[0]) == 2:
        points = filled(points)
    return curve_file(points, int(code))


def expected_files():
    """(name, bytes) of every sample that there must be."""
    yield from REFUSED.items()
    for path in sorted(glob.glob(os.path.join(SAMPLES, '*.txt'))):
        name = os.path.basename(path)[:-len('.txt')]
        if not name.startswith(('refused-', 'mistake-')):
            yield name + '.trf', text_file(path)


def test_made(folder):
    """Of what is expected, the accepted files, and nothing else."""
    wanted = {name: data for name, data in expected_files()
              if name not in REFUSED}
    expect('names', sorted(os.listdir(folder)), sorted(wanted))
    for name, data in wanted.items():
        with open(os.path.join(folder, name), 'rb') as file:
            expect(name, file.read(), data)
    refused = os.path.join(SAMPLES, 'refused-6-no-shape')
    expect('its text', text_file(refused + '.txt'),
           REFUSED['refused-6-no-shape.trf'])


def test_triples():
    stored, files = dict(sample_files('.f64')), dict(sample_files())
    expect('names', sorted(stored), sorted(TRIPLES))
    for name, (data, shape, wanted) in TRIPLES.items():
        expect(name, stored.get(name), data)
        found = [7] * 70                    # in the lists before the call
        answer, *lists = ref.curve_import(data, shape, found, found, found)
        if wanted in files:
            expect(name, curve_file(list(zip(*lists))[:answer], shape),
                   files[wanted])
            expect(name + ', the rest', [each[answer:] for each in lists],
                   [found[answer:]] * 3)
        else:
            expect(name, (divmod(-answer, 2**32), lists), (wanted, [found] * 3))


def test_files():
    test_triples()
    stored, wanted = dict(sample_files()), dict(expected_files())
    expect('names', sorted(stored), sorted(wanted))
    for name, data in stored.items():
        expect(name, data, wanted.get(name))
    numbers = set()
    for name, data in stored.items():
        said = re.match(r'refused-(\d+)-', name)
        first = ref.ratesheet(data).split('\n')[0].split()
        if said:
            numbers.add(int(said.group(1)))
            expect(name, first[:2], ['refused', said.group(1)])
        else:
            expect(name, first[0], 'shape')
    expect('refusals shown', numbers, {1, 2, 3, 4, 5, 6, 9, 10})
    dip = ref.ratesheet(stored['dips-below-zero.trf'])
    expect('dips below zero', ' -' in dip, True)
    straight = ref.file_lists(stored['straight.trf'])
    expect('halves', [ref.exact_value(*straight, 2, area) for area in (1, 3, 5)],
           [Fraction(1, 2), Fraction(3, 2), Fraction(5, 2)])
    expect('even units', [ref.factor(*straight, 2, area) for area in (1, 3, 5)],
           [0, 2, 2])
    expect('points of points-64', stored['points-64.trf'][6], 64)
    shapes = {data[5] for name, data in stored.items() if name not in REFUSED}
    expect('shapes shown', shapes, {1, 2, 3, 4})
    discount = stored['large-home-discount.trf']
    _, values, slopes = ref.file_lists(discount)
    expect('a discount', (discount[5], max(slopes), sorted(values)[::-1]),
           (3, 0, list(values)))
    expect('its level stretch', len(set(values)), len(values) - 1)
    _, values, slopes = ref.file_lists(stored['flattening.trf'])
    expect('a rise', (stored['flattening.trf'][5], sorted(values)),
           (4, list(values)))
    expect('that flattens', sorted(set(slopes))[::-1], list(slopes))
    rising, convex = (stored['same-points-%s.trf' % shape]
                      for shape in ('rising', 'convex'))
    expect('same points', (rising[5], convex[5], rising[6:]),
           (1, 2, convex[6:]))
    expect('read alike', ref.ratesheet(rising).split('\n')[1:],
           ref.ratesheet(convex).split('\n')[1:])
    rules = {ref.rule_used(*ref.file_lists(data), 1)
             for name, data in stored.items()
             if name not in REFUSED and data[5] == 1}
    expect('rules of code 1', rules, {1, 2})
    filled_slopes = ref.file_lists(stored['without-slopes.trf'])[2]
    expect('without slopes', filled_slopes, (577, 376, 269, 0, 0, 208, 165))
    expect('document 01', stored['document-01.trf'].hex(),
           '54524601000202' 'f40100001027000000000000'
           '58020000b036000010270000')


# ---- the quoting desk ----

def quoted(data, area, two):
    """What quote begins with, and its exit status; two: with -2."""
    if two:
        answer, scratch = ref.desk_two(data, area, bytes(24))
    else:
        answer, _ = ref.desk(data, area, bytes(3060))
    if answer < -1000000:
        return 'refused %d: ' % (-1000000 - answer), 1
    sign = '-' if answer < 0 else ''
    whole, part = divmod(abs(answer), 10000)
    text = 'factor %s%d.%04d (%d units)\n' % (sign, whole, part, answer)
    if two:
        text += 'between %d and %d\n' % tuple(
            int.from_bytes(scratch[at:at + 4], 'little') for at in (0, 12))
    return text, 0


def run(*words, data=None):
    return subprocess.run(words, input=data, stdout=subprocess.PIPE,
                          stderr=subprocess.PIPE, timeout=60)


def areas_quoted(name, data):
    """Of an accepted curve also its first, an inner and its last point's."""
    yield from (0, 1, 499, 500, 550, 1000, 1999, 20000, 2**32 - 1)
    if name not in REFUSED:
        areas, _, _ = ref.file_lists(data)
        inner = areas[len(areas) // 2]
        yield from (areas[0], inner - 1, inner, inner + 1, areas[-1])


def test_quote(program):
    for name, data in sample_files():
        path = os.path.join(SAMPLES, name)
        for area in areas_quoted(name, data):
            for options in ((), ('-2',)):
                wanted, status = quoted(data, area, bool(options))
                got = run(program, *options, path, str(area))
                text = got.stdout.decode()
                expect('quote %s %s %d' % (options, name, area),
                       (text[:len(wanted)], got.returncode, text.count('\n')),
                       (wanted, status, max(1, wanted.count('\n'))))
                expect('reason', 'unknown' in text, False)
    test_quote_two(program)
    test_quote_usage(program)


def test_quote_two(program):
    """The points of samples/rising.txt that -2 reads between."""
    path = os.path.join(SAMPLES, 'rising.trf')
    for area, said in ((300, 'between 300 and 500'),
                       (499, 'between 300 and 500'),
                       (500, 'between 500 and 800'),
                       (1499, 'between 1200 and 1500'),
                       (1500, 'between 1500 and 2500'),
                       (4000, 'between 2500 and 4000')):
        got = run(program, '-2', path, str(area))
        lines = got.stdout.decode().split('\n')
        expect('-2 at %d' % area, (got.returncode, lines[1:]), (0, [said, '']))
    for area in (299, 4001):
        got = run(program, '-2', path, str(area))
        expect('-2 at %d' % area, (got.returncode, got.stdout[:11]),
               (1, b'refused 7: '))


def test_quote_usage(program):
    good = os.path.join(SAMPLES, 'document-01.trf')
    for words in ((), (good,), (good, ''), (good, '-1'), (good, '5x'),
                  (good, str(2**32)), (good, '550', '-2'),
                  (good, '550', '550'), ('-2',), ('-2', good), ('-2', '550'),
                  ('-2', '-2', '550'), ('-2', good, '5x'),
                  ('-2', good, '550', '550'), ('-2', '-2', good, '550'),
                  ('-3', '550'), ('-3', good, '550'), ('-22', good, '550'),
                  ('-', good, '550'), ('--two', good, '550')):
        expect_message(b'usage: ', program, *words)
    for options in ((), ('-2',)):
        expect_message(b'quote: cannot read /no/such/file', program, *options,
                       '/no/such/file', '1')


def expect_message(said, *words):
    """Exit status 2, and standard error begins so."""
    got = run(*words)
    expect('quote %r' % (words[1:],),
           (got.returncode, got.stdout, got.stderr[:len(said)]),
           (2, b'', said))


# ---- the program ratesheet ----

def sheet_inputs():
    yield from sample_files()
    rng = random.Random('ratesheets 1')
    for index in range(160):
        shape = 1 + index % 4
        data = curve_file(curves.some_curve(rng, shape), shape)
        yield 'curve %d' % index, data
        if index % 4 == 0:
            flipped = bytearray(data)
            flipped[rng.randrange(len(data))] ^= 1 << rng.randrange(8)
            yield 'flipped %d' % index, bytes(flipped)
            yield 'cut %d' % index, data[:rng.randrange(len(data))]
    for index in range(40):             # both tests, or but for one segment
        points = rule_kinds.any_both(rng)
        segment = rng.randrange(len(points) - 1)
        missed = rule_kinds.jump(rng, points, segment) or points
        for curve, shape in ((points, 1), (points, 2), (missed, 1)):
            yield 'both %d as %d' % (index, shape), curve_file(curve, shape)
    for index in range(40):             # lines, many with a half every 50 tenths
        points = curves.straight_curve(rng)
        for shape in curves.SHAPES:
            yield 'line %d as %d' % (index, shape), curve_file(points, shape)
    flat = [(point, 5, 0) for point in range(255)]
    for count in (0, 1, 2, 63, 64, 65, 255):
        yield '%d points' % count, curve_file(flat[:count], 1)
    long_file = curve_file(flat[:64], 1)
    for more in (1, 12, 5000, 100000):
        yield '%d bytes more' % more, long_file + bytes(more)
        yield 'and a wrong mark', b'X' + long_file[1:] + bytes(more)


def run_slowly(program, data):
    """The input comes in pieces, as from a slow pipe."""
    process = subprocess.Popen([program], stdin=subprocess.PIPE,
                               stdout=subprocess.PIPE, bufsize=0)
    for start in range(0, len(data), 300):
        for piece in (data[start:start + 5], data[start + 5:start + 300]):
            time.sleep(0.02)
            try:
                process.stdin.write(piece)
            except BrokenPipeError:     # it has seen enough
                break
    return process.communicate(timeout=60)[0]


def test_sheet(program):
    for name, data in sheet_inputs():
        got = run(program, data=data)
        expect('ratesheet on ' + name, got.stdout.decode(),
               ref.ratesheet(data))
    for name, data in sample_files():
        expect('slowly, ' + name, run_slowly(program, data).decode(),
               ref.ratesheet(data))


def main():
    what, *words = sys.argv[1:]
    words = [os.path.abspath(word) for word in words]
    {'files': test_files, 'made': test_made, 'quote': test_quote,
     'sheet': test_sheet}[what](*words)
    print('samples, %s: %d tests, %d failures' % (what, tests, failures))
    return 1 if failures or not tests else 0


if __name__ == '__main__':
    sys.exit(main())
