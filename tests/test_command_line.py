"""Tests of the command line, python3 -m factor_curves.

    PYTHONPATH=python FACTOR_CURVES_LIBRARY=... python3 -m unittest tests/test_command_line.py

Expected answers are exact_fractions.py's, expected files curve_file.py's, triples triples.py's.
"""

import glob
import importlib.util
import io
import os
import random
import re
import resource
import shlex
import signal
import subprocess
import sys
import tempfile
import time
import unittest
import xml.etree.ElementTree
from fractions import Fraction

HERE = os.path.dirname(os.path.abspath(__file__))
ROOT = os.path.dirname(HERE)
sys.path.insert(0, HERE)

import curves
import exact_fractions as ref
from curve_file import curve_file
from factor_curves import __main__ as program
from factor_curves import refusal_words
from triples import figure, joined, of_bits, rows, triples

SAMPLES = os.path.join(ROOT, 'samples')
GOOD = os.path.join(SAMPLES, 'document-01.trf')
BAD = os.path.join(SAMPLES, 'refused-6-no-shape.trf')
TEXT = os.path.join(SAMPLES, 'document-01.txt')
WITHOUT_SLOPES = os.path.join(SAMPLES, 'without-slopes.txt')
FILLED = 'factor-curves: %s has no slopes; they were filled by the harmonic rule\n'
TWO = [os.path.join(SAMPLES, 'same-points-%s.trf' % shape) for shape in ('rising', 'convex')]
PICTURE = [os.path.join(SAMPLES, 'steep-start-%s.trf' % shape) for shape in ('rising', 'concave')]
TRIPLES = os.path.join(SAMPLES, 'rising.f64')
RISING = os.path.join(SAMPLES, 'rising.trf')
DISCOUNT = os.path.join(SAMPLES, 'large-home-discount.trf')
FLATTENING = os.path.join(SAMPLES, 'flattening.trf')
NAMES = {1: 'rising', 2: 'convex', 3: 'falling', 4: 'concave'}
COMMAND = [sys.executable, '-m', 'factor_curves']
MATPLOTLIB = importlib.util.find_spec('matplotlib') is not None


class Done:
    """How a run ended: exit status, standard output (data: as bytes) and standard error."""

    def __init__(self, status, out, err, data=None):
        self.status, self.out, self.err, self.data = status, out, err, data

    def __repr__(self):
        return 'status %r\n%s\n%s' % (self.status, self.out, self.err)


def inside(*words, data=b''):
    """A run inside this process, which is quicker."""
    streams = [io.TextIOWrapper(io.BytesIO(each), 'utf-8', 'backslashreplace')
               for each in (data, b'', b'')]
    old = sys.stdin, sys.stdout, sys.stderr
    sys.stdin, sys.stdout, sys.stderr = streams
    try:
        status = program.main(list(words))
        sys.stderr.flush()
    finally:
        sys.stdin, sys.stdout, sys.stderr = old
    out, err = (stream.buffer.getvalue() for stream in streams[1:])
    return Done(status, out.decode('utf-8', 'backslashreplace'), err.decode('utf-8'), out)


def environment(**changes):
    """The environment without what changes Python's own streams, and with these changes."""
    kept = {name: text for name, text in os.environ.items() if not name.startswith('PYTHON')}
    return dict(kept, PYTHONDONTWRITEBYTECODE='1', PYTHONPATH=os.path.join(ROOT, 'python'),
                **changes)


def run(*words, closed=(), limit=None, env=None, **streams):
    """A run in a process of its own.

    closed  the streams that it does not have
    limit   the most bytes that a file of it may have
    """
    def prepare():
        for number in closed:
            os.close(number)
        if limit is not None:
            resource.setrlimit(resource.RLIMIT_FSIZE, (limit, limit))
    streams.setdefault('stdin', subprocess.DEVNULL)
    streams.setdefault('stdout', subprocess.PIPE)
    streams.setdefault('stderr', subprocess.PIPE)
    done = subprocess.run(COMMAND + list(words), preexec_fn=prepare, env=env or environment(),
                          timeout=60, **streams)
    return Done(done.returncode, done.stdout, (done.stderr or b'').decode())


def open_bytes(path):
    with open(path, 'rb') as file:
        return file.read()


def sample_files():
    for path in sorted(glob.glob(os.path.join(SAMPLES, '*.trf'))):
        yield path, open_bytes(path)


def about(areas, values, slopes, shape):
    """How many points and segments, and the rule of a rising curve, in words."""
    last = len(areas) - 1
    words = '%d points, %s' % (last + 1, '1 segment' if last == 1 else '%d segments' % last)
    if shape != 1:
        return words
    return words + ', read by the %s rule' % NAMES[ref.rule_used(areas, values, slopes, shape)]


def accepted_samples():
    for path, data in sample_files():
        if ref.ratesheet(data).startswith('shape'):
            areas, values, slopes = ref.file_lists(data)
            yield path, areas, values, slopes, data[5]


class Case(unittest.TestCase):

    def assert_refused(self, done, number, place, detail=''):
        self.assertEqual(done.status, program.REFUSED, done)
        self.assertFalse(done.out, done)
        self.assertEqual(done.err, 'refused %d at %d: %s%s\n'
                         % (number, place, refusal_words(number), detail))

    def assert_usage(self, done, *words):
        """Status 2, nothing printed, and a message with these words and without a traceback."""
        self.assertEqual((done.status, done.out or ''), (2, ''), done)
        self.assert_message(done, *words)

    def assert_message(self, done, *words):
        self.assertNotIn('Traceback', done.err)
        self.assertNotIn('Exception ignored', done.err)
        self.assertIn('factor-curves', done.err)
        for each in words:
            self.assertIn(each, done.err)

    def folder(self):
        made = tempfile.TemporaryDirectory()
        self.addCleanup(made.cleanup)
        return made.name

    def folder_with_samples(self):
        """A folder to run the documented examples in: it has samples/."""
        made = self.folder()
        os.symlink(SAMPLES, os.path.join(made, 'samples'))
        return made


class Commands(Case):
    """What the commands print, file by file."""

    def inputs(self):
        rng = random.Random('command line')
        yield from (data for _, data in sample_files())
        for index in range(40):
            data = curve_file(curves.some_curve(rng, 1 + index % 4), 1 + index % 4)
            yield data
            flipped = bytearray(data)
            flipped[rng.randrange(len(data))] ^= 1 << rng.randrange(8)
            yield bytes(flipped)
            yield data[:rng.randrange(len(data))]
        flat = [(point, 5, 0) for point in range(255)]
        for count in (0, 1, 64, 65, 255):
            yield curve_file(flat[:count], 1)
        for more in (1, 12, 100000):
            yield curve_file(flat[:64], 1) + bytes(more)
            yield b'X' + curve_file(flat[:64], 1) + bytes(more)

    def test_sheet_is_ratesheet(self):
        for data in self.inputs():
            text = ref.ratesheet(data)
            done = inside('sheet', '-', data=data)
            if text.startswith('refused'):
                self.assert_refused(done, *map(int, text.split()[1::2]))
            else:
                self.assertEqual((done.status, done.out, done.err), (0, text, ''))

    def test_sheet_in_a_process(self):
        for path in [GOOD, os.path.join(SAMPLES, 'whole-range.trf')]:
            done = run('sheet', path)
            self.assertEqual((done.status, done.out.decode(), done.err),
                             (0, ref.ratesheet(open_bytes(path)), ''))

    def test_refused_by_every_command(self):
        for path, data in sample_files():
            text = ref.ratesheet(data)
            if text.startswith('refused'):
                number, place = map(int, text.split()[1::2])
                for words in (['check', path], ['show', path], ['read', path, '550'],
                              ['sheet', path], ['sheet', path, '--step', '0']):
                    self.assert_refused(inside(*words), number, place)
                self.assert_refused(inside('plot', GOOD, path, '-o', '/no/such/folder/x.svg'),
                                    number, place, ' (%s)' % path)

    def test_check(self):
        for path, *curve in accepted_samples():
            self.assertEqual(inside('check', path).out, 'accepted: shape %d (%s), %s\n'
                             % (curve[3], NAMES[curve[3]], about(*curve)))

    def test_read(self):
        rng = random.Random('read')
        for path, *curve in accepted_samples():
            first, last = curve[0][0], curve[0][-1]
            areas = [first, last] + [rng.randint(first, last) for _ in range(20)]
            done = inside('read', path, *map(str, areas))
            self.assertEqual(done.out, ''.join('%d %d\n' % (area, ref.read(*curve, area)[1])
                                               for area in areas))
            for outside in (last + 1, 2**32 - 1):
                self.assert_refused(
                    inside('read', path, str(first), str(outside), str(last)), 7, 0,
                    ' (area %d; the curve goes from %d to %d)' % (outside, first, last))
        self.assertEqual(inside('read', GOOD, '00550', '0000000000000550').out,
                         '550 10800\n550 10800\n')

    def test_show(self):
        for path, areas, values, slopes, shape in accepted_samples():
            first, header, *lines = inside('show', path).out.splitlines()
            self.assertEqual(first, 'shape %d  # %s, %s'
                             % (shape, NAMES[shape], about(areas, values, slopes, shape)))
            self.assertEqual(header.split(), ['#', 'area', 'value', 'slope', '#', 'point', 'm2',
                                              'factor', 'factor/m2'])
            table = [line.split() for line in lines]
            self.assertEqual([[int(word) for word in row[:3]] for row in table],
                             [list(row) for row in zip(areas, values, slopes)])
            self.assertEqual([row[3:5] for row in table],
                             [['#', str(index)] for index in range(len(areas))])
            for row in table:               # the same figures, in other units
                self.assertEqual([Fraction(row[5]) * 10, Fraction(row[6]) * 10000,
                                  Fraction(row[7]) * 100000], [int(word) for word in row[:3]])
            self.assertEqual({len(line) for line in lines + [header]}, {len(header)})
            self.assertEqual({line.rindex('#') for line in lines + [header]},
                             {header.rindex('#')})


class FallingAndConcave(Case):
    """What the commands print for the new shapes; factors are worked out by hand."""

    def assert_prints(self, text, *words, data=b''):
        done = inside(*words, data=data)
        self.assertEqual((done.status, done.out, done.err), (0, text, ''))

    def test_check(self):
        self.assert_prints('accepted: shape 3 (falling), 7 points, 6 segments\n',
                           'check', DISCOUNT)
        self.assert_prints('accepted: shape 4 (concave), 6 points, 5 segments\n',
                           'check', FLATTENING)

    def test_show(self):
        shown = inside('show', DISCOUNT).out.splitlines()
        self.assertEqual(shown[0], 'shape 3  # falling, 7 points, 6 segments')
        self.assertEqual(shown[2:4],
                         ['  1200   10000       0  #     0   120.0   1.0000    0.00000',
                          '  1600    9800     -80  #     1   160.0   0.9800   -0.00080'])
        shown = inside('show', FLATTENING).out.splitlines()
        self.assertEqual(shown[0], 'shape 4  # concave, 6 points, 5 segments')
        self.assertEqual(shown[-1],
                         '  2000   13500      30  #     5   200.0   1.3500    0.00030')

    def test_read(self):
        # At 1400 it is 10000 - 200 * 5/18, at 3500 level; at 500 it is 9700 + 700 + 100.
        self.assert_prints('1400 9944\n3500 8600\n', 'read', DISCOUNT, '1400', '3500')
        self.assert_prints('500 10500\n', 'read', FLATTENING, '500')

    def test_sheet(self):
        for points, shape, factors in [
                ([(0, 1, -2), (50, 0, -2)], 3, [1, 0, 0]),                  # 1/2 reads 0
                ([(0, 2, -2), (50, 1, -2)], 3, [2, 2, 1]),                  # 3/2 reads 2
                ([(0, 1, -2), (50, 0, -2)], 4, [1, 0, 0]),
                ([(0, 200000, 10000), (50, 200000, -10000)], 4, [200000, 201250, 200000])]:
            lines = ['%d %d\n' % (25 * index, each) for index, each in enumerate(factors)]
            self.assert_prints('shape %d points 2\n%s' % (shape, ''.join(lines)),
                               'sheet', '-', data=curve_file(points, shape))

    def test_refused(self):
        rising = open_bytes(GOOD)
        for code, number in [(0, 2), (3, 6), (4, 6), (5, 2), (255, 2)]:
            self.assert_refused(inside('check', '-', data=rising[:5] + bytes([code]) + rising[6:]),
                                number, 0)


class ConvexFirst(Case):
    """Document 02, item 8: what the commands print of rising curves; factors are worked out by
    hand."""

    STEEP = [(500, 10000, 0), (600, 14000, 10000)]
    TURNED = [(500, 10000, 10000), (600, 14000, 0)]
    BOTH = [(500, 10000, 0), (600, 11000, 2500), (700, 14000, 3001)]
    ONE_FAILS = BOTH[:2] + [(700, 14000, 3000)]         # of two segments

    # Points, the rule under code 1, an area and its factor there.
    READ = [(STEEP, 'convex', 550, 10800), (STEEP, 'convex', 525, 10182),
            ([(500, 10000, 2000), (600, 14000, 6000)], 'convex', 501, 10020),
            (BOTH, 'convex', 550, 10200), (BOTH, 'convex', 650, 12500),
            (ONE_FAILS, 'rising', 550, 10222), (ONE_FAILS, 'rising', 650, 12435),
            (TURNED, 'rising', 550, 13111), (TURNED, 'rising', 575, 13771)]

    def test_check(self):
        for points, rule, _, _ in self.READ:
            done = inside('check', '-', data=curve_file(points, 1))
            last = len(points) - 1
            self.assertEqual(done.out, 'accepted: shape 1 (rising), %d points, %d segment%s, read by'
                             ' the %s rule\n' % (last + 1, last, 's' if last > 1 else '', rule))

    def test_other_shapes(self):
        """Of them no rule is named, since it is their own."""
        down = [(500, 14000, 0), (600, 10000, -10000)]  # its mirror is rising and convex
        for points, shape in [(self.STEEP, 2), (self.TURNED, 4), (down, 3), (down, 4)]:
            data = curve_file(points, shape)
            self.assertEqual(inside('check', '-', data=data).out,
                             'accepted: shape %d (%s), 2 points, 1 segment\n'
                             % (shape, NAMES[shape]))
            self.assertEqual(inside('show', '-', data=data).out.splitlines()[0],
                             'shape %d  # %s, 2 points, 1 segment' % (shape, NAMES[shape]))
        for shape, factor in [(3, 13111), (4, 13200)]:
            self.assertEqual(inside('read', '-', '550', data=curve_file(down, shape)).out,
                             '550 %d\n' % factor)

    def test_show(self):
        """The rule is a comment: from what is printed the same file is made, with code 1."""
        for points, rule, _, _ in self.READ:
            data = curve_file(points, 1)
            shown = inside('show', '-', data=data)
            code, comment = shown.out.splitlines()[0].split('#')
            self.assertEqual(code.split(), ['shape', '1'])
            self.assertTrue(comment.endswith(', read by the %s rule' % rule))
            done = inside('make', '-', '-o', '-', data=shown.data)
            self.assertEqual((done.status, done.data, done.err), (0, data, ''))

    def test_read(self):
        for points, _, area, factor in self.READ:
            for words in (['read', '-', str(area)],
                          ['sheet', '-', '--start', str(area), '--count', '1']):
                done = inside(*words, data=curve_file(points, 1))
                self.assertEqual(done.out.splitlines()[-1], '%d %d' % (area, factor))

    def test_same_points(self):
        """Filed under 1 and under 2 they have one sheet, whose first line has the code."""
        for path, code in zip(TWO, (1, 2)):
            self.assertEqual(inside('sheet', path).out.splitlines()[0], 'shape %d points 4' % code)
        rising, convex = (inside('sheet', path, '--step', '1').out.splitlines() for path in TWO)
        self.assertEqual(len(rising), 1702)
        self.assertEqual(rising[1:], convex[1:])

    def test_filled_slopes(self):
        """The rule of a curve whose text had no slopes."""
        for text, rule in [('0 0\n10 10\n40 100', 'convex'), ('0 0\n30 90\n40 100', 'rising')]:
            made = inside('make', '-', '-o', '-', data=('shape 1\n' + text).encode())
            self.assertEqual(inside('check', '-', data=made.data).out, 'accepted: shape 1 (rising),'
                             ' 3 points, 2 segments, read by the %s rule\n' % rule)

    def test_help(self):
        for command in ('check', 'show'):
            text = ' '.join(run(command, '--help').out.decode().split())
            self.assertIn('A rising curve, shape 1, that is also convex in every segment is read by'
                          ' the convex rule, any other by the rising rule.', text)


class Sheets(Case):
    """The options of sheet."""

    def text(self, curve, start, step, count):
        lines = ['shape %d points %d\n' % (curve[3], len(curve[0]))]
        for area in range(start, start + step * count, step):
            lines.append('%d %d\n' % (area, ref.read(*curve, area)[1]))
        return ''.join(lines)

    def test_options(self):
        rng = random.Random('options')
        for path, *curve in accepted_samples():
            first, last = curve[0][0], curve[0][-1]
            for _ in range(4):
                start = rng.randint(first, last)
                step = rng.randint(1, max(1, (last - start) // 3))
                full = (last - start) // step + 1
                count = rng.randint(1, min(full, 50))
                words = ['sheet', path, '--start', str(start), '--step=%d' % step]
                self.assertEqual(inside(*words, '--count', str(count)).out,
                                 self.text(curve, start, step, count))
                if full < 300:
                    self.assertEqual(inside(*words).out, self.text(curve, start, step, full))
                self.assert_refused(inside(*words, '--count', str(full + 1)), 7, full,
                                    ' (area %d; the curve goes from %d to %d)'
                                    % (start + full * step, first, last))

    def test_long_sheets(self):
        """More than 1,024 entries: several sheets of the library, one on the page."""
        path = TWO[0]
        curve = ref.file_lists(open_bytes(path)) + (1,)
        count = curve[0][-1] - curve[0][0] + 1
        self.assertGreater(count, 1024)
        text = self.text(curve, curve[0][0], 1, count)
        self.assertEqual(inside('sheet', path, '--step', '1').out, text)
        for number in (1023, 1024, 1025, count):
            self.assertEqual(inside('sheet', path, '--step', '1', '--count', str(number)).out,
                             ''.join(text.splitlines(True)[:number + 1]))
        for number in (count + 1, 2**32 - 1):
            self.assert_refused(inside('sheet', path, '--step', '1', '--count', str(number)), 7,
                                count, ' (area 2001; the curve goes from 300 to 2000)')

    def test_longer_steps(self):
        path = os.path.join(SAMPLES, 'whole-range.trf')
        curve = ref.file_lists(open_bytes(path)) + (1,)
        self.assertEqual(inside('sheet', path, '--step', '7').out, self.text(curve, 0, 7, 2858))
        self.assertEqual(inside('sheet', path, '--step', '1').out.count('\n'), 20002)

    def test_refused(self):
        ends = '; the curve goes from 500 to 600)'
        for words, number, detail in [
                (['--step', '0'], 8, ''), (['--count', '0'], 8, ''),
                (['--start', '0', '--step', '0'], 8, ''),
                (['--start', '700', '--count', '0'], 8, ''),
                (['--start', '499'], 7, ' (area 499' + ends),
                (['--start', '0'], 7, ' (area 0' + ends),
                (['--start', '601'], 7, ' (area 601' + ends),
                (['--start', '4294967295', '--step', '4294967295'], 7,
                 ' (area 4294967295' + ends)]:
            self.assert_refused(inside('sheet', GOOD, *words), number, 0, detail)
        self.assert_refused(inside('sheet', GOOD, '--step', '4294967295', '--count', '4294967295'),
                            7, 1, ' (area 4294967795' + ends)


def text_line(rng, fields):
    """The fields in one of the forms that a line may have, perhaps with a comment."""
    words = [rng.choice(['%s', '%s', '"%s"', '" %s"']) % field for field in fields]
    separator = rng.choice([' ', '\t', ' \t  ', ',', ';', ' , ', ';\t'])
    if separator.strip():
        words += [''] * rng.choice([0, 0, 1, 3])
    return (rng.choice(['', ' ', '\t']) + separator.join(words)
            + rng.choice(['', ' ', '# a, b; "c', ' # 1 2 3', '\t#']))


def some_text(rng, points, shape):
    """A text of the curve, the number of its shape line, and those of its points' lines.

    The points may be without slopes.
    """
    empty = ['', ' \t ', '# shape 1', '  # 1 2 3 \u00b2', ',,', ';;;', '"# a, b",,', '"",""']
    rows = [('shape', [rng.choice(['shape', 'Shape', 'SHAPE']), shape])]
    if rng.random() < 0.5:
        names = rng.choice([['area', 'value', 'slope'], ['Area', 'VALUE', 'Slope']])
        if points and len(points[0]) == 2:
            names = rng.choice([names, names[:2]])
        rows.insert(rng.randrange(2), ('names', names))
    for area, value, *slope in points:
        rows.append(('point', [rng.choice(['%d', '00%d']) % area, value]
                     + [rng.choice(['%d', '%+d']) % each for each in slope]))
    lines, numbers = [], {'shape': [], 'names': [], 'point': []}
    for kind, fields in rows:
        lines += rng.choices(empty, k=rng.choice([0, 0, 0, 1, 3]))
        lines.append(text_line(rng, fields))
        numbers[kind].append(len(lines))
    end = rng.choice(['\n', '\r\n', '\r'])
    text = rng.choice(['', '\ufeff']) + end.join(lines) + rng.choice(['', end, end + end])
    return text.encode(), numbers['shape'][0], numbers['point']


class MakingCase(Case):
    """A place to run the command make in."""

    def setUp(self):
        self.place = self.folder()
        self.text, self.file = (os.path.join(self.place, name) for name in ('c.txt', 'c.trf'))

    def make(self, text, before=None):
        """A run on a text; the curve file has these bytes before it, or is not there."""
        with open(self.text, 'wb') as file:
            file.write(text if isinstance(text, bytes) else text.encode())
        if os.path.exists(self.file):
            os.remove(self.file)
        if before is not None:
            with open(self.file, 'wb') as file:
                file.write(before)
        return inside('make', self.text, '-o', self.file)

    def assert_made(self, text, data, said=''):
        """said: what is on standard error, with %s for the text's path."""
        done = self.make(text)
        self.assertEqual((done.status, done.out), (0, ''), text)
        self.assertEqual(done.err, said and said % self.text, text)
        self.assertEqual(open_bytes(self.file), data, text)

    def assert_mistake(self, text, line, column, message):
        """Also when the text is on standard input; a file is neither made nor changed."""
        for before in (None, b'before'):
            done = self.make(text, before)
            self.assertEqual((done.status, done.out), (2, ''), text)
            self.assertEqual(done.err, '%s:%d:%d: %s\n' % (self.text, line, column, message))
            self.assert_left(before)
        done = inside('make', '-', '-o', '-', data=open_bytes(self.text))
        self.assertEqual((done.status, done.out), (2, ''))
        self.assertEqual(done.err, '-:%d:%d: %s\n' % (line, column, message))

    def assert_left(self, before):
        """The curve file is as it was."""
        self.assertEqual(os.path.exists(self.file), before is not None)
        if before is not None:
            self.assertEqual(open_bytes(self.file), before)


class Making(MakingCase):
    """The command make."""

    def test_samples(self):
        for path, *_ in accepted_samples():
            data, text = open_bytes(path), open_bytes(path[:-4] + '.txt')
            said = FILLED if path[:-4] + '.txt' == WITHOUT_SLOPES else ''
            self.assert_made(text, data, said)
            done = inside('make', '-', '-o', '-', data=text)
            self.assertEqual((done.status, done.data, done.err), (0, data, said and said % '-'))
        self.assert_made(open_bytes(os.path.join(SAMPLES, 'rising.csv')),
                         open_bytes(os.path.join(SAMPLES, 'rising.trf')))

    def test_forms(self):
        """Blanks, commas, semicolons, quotation marks, comments, line ends, column names."""
        rng = random.Random('forms')
        for points, shape in curves.random_curves('forms', 250):
            text, _, _ = some_text(rng, points, shape)
            self.assert_made(text, curve_file(points, shape))

    def test_forms_by_hand(self):
        data = curve_file([(500, 10000, 0), (600, 14000, 10000)], 2)
        for text in ('shape 2\n500 10000 0\n600 14000 10000\n',
                     'shape 2\n500 10000 0\n600 14000 10000',
                     '\n\nshape\t2#\n#\n 500\t10000 \t 0 # 700\n\n600 14000 10000 #',
                     'area,value,slope\nshape,2\n500,10000,0\n600,14000,10000\n',
                     '\ufeffshape;2;\r\nAREA;Value;slope\r\n500;10000;0\r\n'
                     '600 ; 14000 ; 10000;\r\n;;\r\n',
                     'shape 2,,\n500, 10000, -0\n600,14000,+10000,,,\n',
                     '"shape","2"\n"500","10000","0"\n"600","14000","10000","# the, last"\n',
                     '"shape 2";;\n500 10000 0;;\n"600";14000;"10000"\n',
                     '# \u00e9\u4e00,"\nshape 2\r500 10000 0\r\n' + '0' * 5000
                     + '600 14000 10000'):
            self.assert_made(text, data)

    def test_falling_and_concave(self):
        down = [(500, 14000, 0), (600, 10000, -10000)]
        for text, first in [('shape %d\n500 14000 0\n600 10000 -10000\n', 2),
                            ('shape,%d\narea,value,slope\n500,14000,0\n600,10000,-10000', 3)]:
            for code in (3, 4):
                self.assert_made(text % code, curve_file(down, code))
            for code, number, line in [(1, 6, first), (2, 6, first), (5, 2, 1)]:
                self.assert_refused(self.make(text % code), number, 0,
                                    ' (%s, line %d)' % (self.text, line))

    def test_refused(self):
        """The refusal of the exact fractions, with the line of the point or of the shape."""
        rng = random.Random('refused texts')
        seen = set()
        for points, shape in curves.random_curves('refused texts', 150):
            shape = rng.choice([shape, shape, shape, 1, 2, 3, 4, 0, 5, 258, 2**32 - 1])
            points = rng.choice([curves.past_limit, curves.shapeless_points])(rng, points)
            lists = curves.lists(points)
            points = list(zip(*lists))
            given = ref.check(*lists, shape)
            text, shape_line, point_lines = some_text(rng, points, shape)
            if given[0] == 'ok':
                self.assert_made(text, curve_file(points, shape))
                continue
            seen.add(given[1])
            line = shape_line if given[1] == 2 else point_lines[given[2]]
            for before in (None, b'before'):
                self.assert_refused(self.make(text, before), *given[1:],
                                    ' (%s, line %d)' % (self.text, line))
                self.assert_left(before)
        self.assertEqual(seen, {2, 3, 4, 5, 6})

    def test_refused_counts(self):
        flat = [(point, 5, 0) for point in range(300)]
        for count in (0, 1, 65, 255, 256, 258, 300):
            text, _, _ = some_text(random.Random(count), flat[:count], 1)
            self.assert_refused(self.make(text, b'x'), 1, 0, ' (%s, %d point%s)'
                                % (self.text, count, '' if count == 1 else 's'))
            self.assert_left(b'x')
        self.assert_refused(inside('make', '-', '-o', '-', data=b'shape 2\n'), 1, 0,
                            ' (-, 0 points)')
        self.assert_made(some_text(random.Random(1), flat[:64], 1)[0], curve_file(flat[:64], 1))

    def test_faulty_samples(self):
        text = os.path.join(SAMPLES, 'refused-6-no-shape.txt')
        self.assert_refused(inside('make', text, '-o', self.file), 6, 0, ' (%s, line 4)' % text)
        self.assert_mistake(open_bytes(os.path.join(SAMPLES, 'mistake-slope.txt')), 5, 16,
                            "the slope is not a whole number: '100.5'")

    def test_shape_mistakes(self):
        before = 'no line `shape N` before the first point'
        codes = ' (1 is rising, 2 is convex, 3 is falling, 4 is concave)'
        for text, line, column, message in [
                ('', 1, 1, 'the text is empty'),
                ('\ufeff', 1, 1, 'the text has no line `shape N`'),
                ('# shape 2', 1, 10, 'the text has no line `shape N`'),
                ('\n# nothing\n', 3, 1, 'the text has no line `shape N`'),
                ('area,value,slope\r\n', 2, 1, 'the text has no line `shape N`'),
                ('500 10000 0\n600 14000 10000\n', 1, 1, before),
                ('area,value,slope\n\n 500,10000,0\nshape,2\n', 3, 2, before),
                ('shape\n', 1, 6, 'the shape is missing'),
                ('shape,', 1, 6, 'the shape is missing'),
                ('shape 2\n500 10000 0\n shape 2\n', 3, 2,
                 'a second shape; the first is in line 1'),
                ('#\nshape;2\nshape;1', 3, 1, 'a second shape; the first is in line 2'),
                ('shape 2 3', 1, 9, "a shape line has one number; this is a second one: '3'"),
                ('shape rising', 1, 7, "the shape is not a whole number: 'rising'" + codes),
                ('\ufeffshape\tConvex', 1, 7, "the shape is not a whole number: 'Convex'" + codes),
                ('shape;FALLING', 1, 7, "the shape is not a whole number: 'FALLING'" + codes),
                ('shape concave', 1, 7, "the shape is not a whole number: 'concave'" + codes),
                ('shape level', 1, 7, "the shape is not a whole number: 'level'"),
                ('shape 2.0', 1, 7, "the shape is not a whole number: '2.0'"),
                ('shape -2', 1, 7, "the shape must have no sign: '-2'"),
                ('shape 4294967296', 1, 7, 'the shape must be from 0 to 4294967295:'
                 " '4294967296'"),
                ('shape=2', 1, 1, "neither `shape N` nor the area of a point: 'shape=2'"),
                ('form 2', 1, 1, "neither `shape N` nor the area of a point: 'form'")]:
            self.assert_mistake(text, line, column, message)

    def test_field_mistakes(self):
        blank = ' (in a line with commas or semicolons no blank separates fields)'
        fourth = 'a point has area, value and slope; this is a fourth field: '
        for text, column, message in [
                ('500', 4, 'the value is missing'),
                ('500,,7', 5, 'the value is missing'),
                ('500,"",7', 5, 'the value is missing'),
                (' ; 10000 ; 7', 1, 'the area is missing'),
                ('500 10000 0 7', 13, fourth + "'7'"),
                ('500,10000,0,,7', 13, fourth + "''"),
                ('500 10 000 0', 12, fourth + "'0'"),
                ('500,10,000,0', 12, fourth + "'0'"),
                ('50,5,10000,0', 12, fourth + "'0'"),
                ('500 10,000 0', 1, "the area is not a whole number: '500 10'" + blank),
                ('500;10 000;0', 5, "the value is not a whole number: '10 000'" + blank),
                ('500, 10000 0', 6, "the value is not a whole number: '10000 0'" + blank),
                ('500 10000 "7', 11, 'a quotation mark without a second one'),
                ('500 10000 7"', 12, 'a quotation mark without a second one'),
                ('area slope value', 1, 'the names of the columns must be area, value, slope'),
                ('point,area,value,slope', 1,
                 'the names of the columns must be area, value, slope'),
                ('area,slope', 1, 'the names of the columns must be area, value, slope'),
                ('abc 10000 0', 1, "neither `shape N` nor the area of a point: 'abc'")]:
            self.assert_mistake('shape 2\r\n#\r\n' + text + ' # 1\r\n', 3, column, message)

    def test_missing_slopes(self):
        for text, line, column in [
                ('1 1 1\n500 10000 # 1\n', 3, 10), ('1,1,1\n500,10000,\n', 3, 10),
                ('area,value,slope\n1,1,1\n2;2;2\n\n5;"7" ;;', 6, 5)]:
            for code in (2, 3, 4, 5):
                self.assert_mistake('shape %d\n%s' % (code, text), line, column,
                                    'the slope is missing')

    def test_number_mistakes(self):
        digits = ' (digits only, without thousands separators)'
        for text, column, message in [
                ('500 10000 1.5', 11, "the slope is not a whole number: '1.5'"),
                ('500;10000;1,5', 11, "the slope is not a whole number: '1,5'"),
                ('500;10000;-,5', 11, "the slope is not a whole number: '-,5'"),
                ('500 1e4 0', 5, "the value is not a whole number: '1e4'"),
                ('0x10 1 0', 1, "the area is not a whole number: '0x10'"),
                ('500 10.000 0', 5, "the value is not a whole number: '10.000'" + digits),
                ('500,"10,000",0', 6, "the value is not a whole number: '10,000'" + digits),
                ('500 "10,000" 0', 6, "the value is not a whole number: '10,000'" + digits),
                ('500,"1;0",7', 6, "the value is not a whole number: '1;0'"),
                ("500;1'234'567;0", 5, 'the value is not a whole number: "1\'234\'567"' + digits),
                ('500 10_000 0', 5, "the value is not a whole number: '10_000'" + digits),
                ('500 10\u00a0000 0', 5, "the value is not a whole number: '10\\xa0000'" + digits),
                ('500 10000 \u22125', 11, "the slope is not a whole number: '\u22125'"
                 ' (the minus sign is -)'),
                ('500 10000 - 5', 13, "a point has area, value and slope; this is a fourth field:"
                 " '5'"),
                ('500 10000 --5', 11, "the slope is not a whole number: '--5'"),
                ('500 10000 5-', 11, "the slope is not a whole number: '5-'"),
                ('500 10000 +', 11, "the slope is not a whole number: '+'"),
                ('\u0665 10000 0', 1, "the area is not a whole number: '\u0665'"),
                ('500\t\u00e9\t0', 5, "the value is not a whole number: '\u00e9'"),
                ('$500 10000 0', 1, "the area is not a whole number: '$500'"),
                ('500 "10"000 0', 5, "the value is not a whole number: '\"10\"000'"),
                ('-500 10000 0', 1, "the area must have no sign: '-500'"),
                ('500 +10000 0', 5, "the value must have no sign: '+10000'"),
                ('500 %s 0' % ('x' * 41), 5, "the value is not a whole number: '%s...'"
                 % ('x' * 40))]:
            self.assert_mistake('# \u00e9\nshape 2\n1 1 1\n' + text, 4, column, message)

    def test_ranges(self):
        """What fits the C types goes to the library; what does not is a mistake."""
        most, low, high = 2**32 - 1, -2**31, 2**31 - 1
        for point, number in [((most, 0, 0), 3), ((0, most, 0), 4), ((0, 0, low), 5),
                              ((0, 0, high), 5)]:
            text = 'shape 2\n%d %d %d\n9 9 9' % point
            self.assert_refused(self.make(text), number, 0, ' (%s, line 2)' % self.text)
        unsigned, signed = '0 to 4294967295', '-2147483648 to 2147483647'
        for text, column, name, limits, shown in [
                ('%d 0 0' % (most + 1), 1, 'area', unsigned, '4294967296'),
                ('0 %d 0' % 2**64, 3, 'value', unsigned, '18446744073709551616'),
                ('0 0 %d' % (low - 1), 5, 'slope', signed, '-2147483649'),
                ('0 0 +%d' % (high + 1), 5, 'slope', signed, '+2147483648'),
                ('0 0 -' + '9' * 9999, 5, 'slope', signed, '-' + '9' * 39 + '...')]:
            self.assert_mistake('shape 1\n' + text, 2, column, "the %s must be from %s: '%s'"
                                % (name, limits, shown))

    def test_names_mistakes(self):
        self.assert_mistake('shape 2\narea value slope\n1 1 1\n\tArea,Value,Slope', 4, 2,
                            'the names of the columns stand in line 2 already')
        self.assert_mistake('shape 2\n1 1 1\narea,value,slope', 3, 1,
                            'the names of the columns must come before the first point')

    def test_bytes_that_are_no_text(self):
        for data, line, column, message in [
                (b'shape 2\n# Gr\xf6\xdfe\n', 2, 5, 'the byte F6 is not UTF-8'),
                (b'\xef\xbb\xbf# \xc3\xa4\xe9\n', 1, 4, 'the byte E9 is not UTF-8'),
                (b'shape 2\r\n\r\n1 \xff', 3, 3, 'the byte FF is not UTF-8'),
                ('\ufeffshape 2'.encode('utf-16-le'), 1, 1,
                 'the text is in UTF-16; it must be in UTF-8'),
                ('\ufeffshape 2'.encode('utf-16-be'), 1, 1,
                 'the text is in UTF-16; it must be in UTF-8'),
                ('shape 2'.encode('utf-16-le'), 1, 1, 'neither `shape N` nor the area of a point:'
                 " 's\\x00h\\x00a\\x00p\\x00e\\x00'"),
                (open_bytes(GOOD), 1, 1,
                 'this is a curve file, not a text; show prints its text')]:
            self.assert_mistake(data, line, column, message)

    def test_damaged_texts(self):
        """Whatever the text is, it is made, refused, or has a mistake at a place that it has."""
        rng = random.Random('damaged texts')
        pieces = [b'"', b'#', b',', b';', b' ', b'\n', b'\r', b'-', b'.', b'0', b'9', b'\xff',
                  b'\x00', b'shape', b'area', '\u2212'.encode(), b'']
        seen, said = set(), set()
        for points, shape in curves.random_curves('damaged texts', 600):
            columns = rng.choice([2, 3])
            text = some_text(rng, [point[:columns] for point in points[:4]], shape)[0]
            for _ in range(rng.choice([1, 1, 2, 5])):
                at = rng.randrange(len(text))
                text = text[:at] + rng.choice(pieces) + text[at + rng.randrange(3):]
            done = self.make(text)
            seen.add(done.status)
            self.assertEqual(os.path.exists(self.file), done.status == 0, text)
            if done.status == 2:
                line, column = map(int, re.match(re.escape(self.text) + r':(\d+):(\d+): \S',
                                                 done.err).groups())
                lines = re.split(b'\r\n|\r|\n', text)
                self.assertIn(line, range(1, len(lines) + 1), text)
                self.assertIn(column, range(1, len(lines[line - 1]) + 2), text)
            elif done.status == 1:
                self.assertRegex(done.err, r'^refused [1-6] at \d+: ')
            else:
                said.add(done.err.replace(self.text, '%s'))
        self.assertEqual((seen, said), ({0, 1, 2}, {'', FILLED}))

    def test_mistakes_in_an_ascii_locale(self):
        with open(self.text, 'w', encoding='utf-8') as file:
            file.write('shape 2\n1 1 \u22125')
        done = run('make', self.text, '-o', '-',
                   env=environment(LC_ALL='C', PYTHONIOENCODING='ascii'))
        self.assertEqual((done.status, done.out), (2, b''))
        self.assertEqual(done.err, "%s:2:5: the slope is not a whole number: '\\u22125'"
                         ' (the minus sign is -)\n' % self.text)

    def test_long_texts(self):
        text = b'shape 2\n500 10000 0\n600 14000 10000\n#'
        longest = text + b'x' * (2**20 - len(text))
        self.assert_made(longest, open_bytes(GOOD))
        done = self.make(longest + b'x', b'before')
        self.assert_usage(done, 'cannot read %s: it has more than 1048576 bytes' % self.text)
        self.assert_left(b'before')
        self.assert_usage(inside('make', '/dev/zero', '-o', self.file), 'more than 1048576 bytes')
        self.assert_left(b'before')

    def test_the_text_as_output(self):
        with open(self.text, 'wb') as file:
            file.write(open_bytes(TEXT))
        other = os.path.join(self.place, 'link')
        os.symlink(self.text, other)
        for words in ([self.text, '-o', self.text], [self.text, '-o', other],
                      [other, '-o', self.text]):
            self.assert_usage(inside('make', *words), 'cannot be both the text and the curve file')
            self.assertEqual(open_bytes(self.text), open_bytes(TEXT))

    def test_a_file_named_dash(self):
        """- is standard input and output even where a file has that name."""
        with open(os.path.join(self.place, '-'), 'wb') as file:
            file.write(b'x')
        with open(TEXT, 'rb') as text:
            done = run('make', '-', '-o', '-', stdin=text, cwd=self.place)
        self.assertEqual((done.status, done.out, done.err), (0, open_bytes(GOOD), ''))
        self.assertEqual(open_bytes(os.path.join(self.place, '-')), b'x')

    def test_in_place_of_a_longer_file(self):
        self.make(open_bytes(TEXT), bytes(5000))
        self.assertEqual(open_bytes(self.file), open_bytes(GOOD))

    def test_unwritten(self):
        for path, words in [('/dev/full', 'No space left on device'), (self.place, 'directory'),
                            (os.path.join(self.place, 'none', 'x.trf'), 'No such file'),
                            ('', 'No such file')]:
            done = inside('make', TEXT, '-o', path)
            self.assertEqual((done.status, done.out), (3, ''))
            self.assert_message(done, 'cannot write %s: ' % path, words)
        done = run('make', TEXT, '-o', self.file, closed=[1])
        self.assertEqual((done.status, done.err), (0, ''))
        self.assertEqual(open_bytes(self.file), open_bytes(GOOD))

    def test_show_and_back(self):
        for path, *_ in accepted_samples():
            self.assert_made(inside('show', path).data, open_bytes(path))
        for points, shape in curves.random_curves('show and back', 250):
            data = curve_file(points, shape)
            self.assert_made(inside('show', '-', data=data).data, data)

    def test_show_and_back_through_a_pipe(self):
        path = os.path.join(SAMPLES, 'points-64.trf')
        with subprocess.Popen(COMMAND + ['show', path], stdout=subprocess.PIPE,
                              env=environment()) as show:
            done = run('make', '-', '-o', '-', stdin=show.stdout)
        self.assertEqual((show.returncode, done.status, done.out), (0, 0, open_bytes(path)))

    def test_without_the_library(self):
        env = environment(FACTOR_CURVES_LIBRARY='/no/such/library.so')
        self.assert_usage(run('make', TEXT, '-o', self.file, env=env), '/no/such/library.so')
        self.assert_left(None)


class MakingWithoutSlopes(MakingCase):
    """The command make on texts of areas and values."""

    OF_A_FILLED_SLOPE = '; the text has no slopes, this one was filled by the harmonic rule'
    MIXED = 'either all points have slopes or none'
    ONLY_RISING = 'only the slopes of a rising curve, shape 1, can be filled'

    def assert_refused_at(self, text, number, place, lines):
        """The line that is named is that of the place; nothing is written."""
        filled = self.OF_A_FILLED_SLOPE if number == 5 else ''
        for before in (None, b'before'):
            self.assert_refused(self.make(text, before), number, place,
                                ' (%s, line %d%s)' % (self.text, lines[place], filled))
            self.assert_left(before)

    def assert_filled(self, text, points):
        """Also when text and file are on standard streams."""
        data = curve_file(points, 1)
        self.assert_made(text, data, FILLED)
        done = inside('make', '-', '-o', '-', data=open_bytes(self.text))
        self.assertEqual((done.status, done.data, done.err), (0, data, FILLED % '-'))

    def test_examples(self):
        """The figures of the request."""
        for points in [[(0, 0, 200), (10, 10, 0), (30, 10, 0), (35, 40, 1200)],
                       [(0, 0, 25), (3, 1, 44), (6, 3, 0), (10, 3, 0)],
                       [(0, 0, 83), (10, 10, 120), (40, 100, 750)],
                       [(0, 0, 0), (2000, 1, 0), (4000, 2, 0)]]:
            text = 'shape 1\n' + ''.join('%d %d\n' % point[:2] for point in points)
            self.assert_filled(text, points)
        self.assert_refused_at('shape 1\n\n0 0\n1 101\n', 5, 0, [3, 4])

    def test_forms_by_hand(self):
        points = [(0, 0, 83), (10, 10, 120), (40, 100, 750)]
        for text in ('shape 1\n0 0\n10 10\n40 100', 'shape 1\n0 0 # 5\n\n10 10 #\n40\t100\n',
                     'shape,1\n0,0\n10,10\n40,100\n',
                     'shape,1\narea,value\n0,0\n10,10\n40,100\n',
                     'area,value\nshape,1\n0,0\n10,10\n40,100\n',
                     'shape,1,\narea,value,\n0,0,\n10,10,,\n"40","100",""\n',
                     '\ufeffshape;1\r\nAREA;Value\r\n0;0\r\n10;10;\r\n"40";100;;\r\n;;\r\n',
                     '"shape","1"\n"Area","VALUE"\n"0","0","# a, b"\n 10 10\n40;100',
                     'shape 1,,\narea,value,slope\n0,0,\n10,10,\n40,100,\n',
                     'area value slope\nshape 1\n0 0\n10 10\n40 100'):
            self.assert_filled(text, points)

    def test_rising_curves(self):
        """In any form of a text the slopes of the exact fractions, or their refusal."""
        rng, seen = random.Random('without slopes'), set()
        for _ in range(250):
            areas, values, _ = zip(*curves.rising_curve(rng, curves.some_count(rng)))
            text, _, lines = some_text(rng, list(zip(areas, values)), 1)
            given = ref.fill_slopes(areas, values, len(areas))
            seen.add(given[0])
            if given[0] == 'ok':
                self.assert_filled(text, list(zip(areas, values, given[2])))
            else:
                self.assert_refused_at(text, *given[1:], lines)
        self.assertEqual(seen, {'ok', 'refused'})

    def test_refused(self):
        rng, seen = random.Random('refused without slopes'), set()
        for points, _ in curves.random_curves('refused without slopes', 250):
            change = rng.choice([curves.past_limit, curves.shapeless_points])
            areas, values, _ = curves.lists(change(rng, points))
            given = ref.fill_slopes(areas, values, len(areas))
            if given[0] == 'refused':
                text, _, lines = some_text(rng, list(zip(areas, values)), 1)
                self.assert_refused_at(text, *given[1:], lines)
                seen.add(given[1])
        self.assertEqual(seen, {3, 4, 5, 6})

    def test_refused_by_hand(self):
        for text, number, place, lines in [
                ('shape 1\n0 5\n20001 6', 3, 1, [2, 3]),
                ('shape 1\n\n0 5\n# 7\n0 6', 3, 1, [3, 5]),
                ('shape 1\narea value\n0 200001\n1 6', 4, 0, [3, 4]),
                ('area,value\nshape,1\n0,5\n1,6\n2,5\n3,1\n', 6, 1, [3, 4, 5, 6]),
                ('shape 1\n0 0\n10 10\n20 20\n21 90\n', 5, 3, [2, 3, 4, 5])]:
            self.assert_refused_at(text, number, place, lines)

    def test_refused_counts(self):
        for count in (1, 65, 300):
            points = [(point, point) for point in range(count)]
            text, _, _ = some_text(random.Random(count), points, 1)
            self.assert_refused(self.make(text, b'x'), 1, 0, ' (%s, %d point%s)'
                                % (self.text, count, '' if count == 1 else 's'))
            self.assert_left(b'x')
        self.assert_refused(self.make('area,value\nshape,1\n'), 1, 0,
                            ' (%s, 0 points)' % self.text)

    def test_mixed(self):
        first_has_none = 'a slope, but the point in line %%d has none (%s)' % self.MIXED
        first_has_one = 'the slope is missing (the point in line %%d has one; %s)' % self.MIXED
        for text, line, column, message in [
                ('shape 1\n0 0\n10 10 5\n', 3, 7, first_has_none % 2),
                ('shape 1\n#\n0 0\n10 10\n\n40;100;"7"', 6, 9, first_has_none % 3),
                ('shape 1\n0 0\n10 10 x\n', 3, 7, first_has_none % 2),
                ('shape 1\narea value slope\n0 0\n10 10 0\n', 4, 7, first_has_none % 3),
                ('shape 1\n0 0 5\n10 10\n', 3, 6, first_has_one % 2),
                ('shape 1\narea,value,slope\n0,0,5\n10,10,5\n40,100,', 5, 7,
                 first_has_one % 3),
                # What stands before the slope comes first.
                ('shape 1\n0 0\n1x 10 5', 3, 1, "the area is not a whole number: '1x'"),
                ('shape 1\n0 0 5\n10 -1', 3, 4, "the value must have no sign: '-1'"),
                ('shape 1\n0 0\n10', 3, 3, 'the value is missing'),
                ('shape 1\n0 0\n10,,5', 3, 4, 'the value is missing'),
                ('shape 1\n0 0\n10 10 5 6', 3, 9,
                 "a point has area, value and slope; this is a fourth field: '6'")]:
            self.assert_mistake(text, line, column, message)

    def test_names(self):
        third = "the columns in line %d are area and value; this is a third field: '%s'"
        for text, line, column, message in [
                ('shape 1\narea,value\n0,0,5\n10,10,5', 3, 5, third % (2, '5')),
                ('area value\nshape 1\n0 0\n10 10 x', 4, 7, third % (1, 'x')),
                ('shape 1\n\narea;value\n0;0;;5', 4, 5, third % (3, '')),
                ('shape 1\narea,value\nArea,Value\n0,0', 3, 1,
                 'the names of the columns stand in line 2 already'),
                ('shape 1\narea,value\narea,value,slope\n', 3, 1,
                 'the names of the columns stand in line 2 already'),
                ('shape 1\n0,0\n area,value', 3, 2,
                 'the names of the columns must come before the first point'),
                ('shape 1\nvalue,area\n', 2, 1,
                 'the names of the columns must be area, value, slope'),
                ('shape 1\narea\n', 2, 1,
                 'the names of the columns must be area, value, slope'),
                ('area,value\n0,0\n', 2, 1, 'no line `shape N` before the first point')]:
            self.assert_mistake(text, line, column, message)

    def test_only_rising(self):
        """Any other shape code than 1, at the first place that shows the slopes to be missing."""
        missing = 'the slope is missing (%s)' % self.ONLY_RISING
        names = 'the names of the columns must be area, value, slope (%s)' % self.ONLY_RISING
        columns = 'the columns in line 1 are area and value, but ' + self.ONLY_RISING
        for code in (2, 0, 3, 4, 5, 257, 2**32 - 1):
            for text, line, column, message in [
                    ('shape %d\n500 10000\n600 14000', 2, 10, missing),
                    ('shape %d\n\n500,10000,\n', 3, 10, missing),
                    ('shape %d\n500 10000\n600 14000 10000', 2, 10, missing),
                    ('area;value;slope\nshape;%d\n500;10000;;\n', 3, 10, missing),
                    ('shape %d\n area, value\n500,10000\n', 2, 2, names),
                    ('area,value\n\n shape, %d\n500,10000\n', 3, 9, columns)]:
                self.assert_mistake(text % code, line, column, message)

    def test_show(self):
        """It prints the slopes that were filled; from its text the same file is made."""
        inside('make', WITHOUT_SLOPES, '-o', self.file)
        shown = inside('show', self.file)
        self.assertEqual([line.split()[:3] for line in shown.out.splitlines()[2:]],
                         [['250', '8400', '577'], ['400', '9100', '376'], ['600', '9700', '269'],
                          ['900', '10400', '0'], ['1100', '10400', '0'], ['1500', '11300', '208'],
                          ['2200', '12600', '165']])
        self.assert_made(shown.data, open_bytes(self.file))

    def test_in_a_process(self):
        with open(WITHOUT_SLOPES, 'rb') as text:
            done = run('make', '-', '-o', '-', stdin=text)
        data = open_bytes(WITHOUT_SLOPES[:-4] + '.trf')
        self.assertEqual((done.status, done.out, done.err), (0, data, FILLED % '-'))

    def test_unwritten(self):
        """Only of a file that is written it is said that its slopes were filled."""
        for path in ('/dev/full', self.place):
            done = inside('make', WITHOUT_SLOPES, '-o', path)
            self.assertEqual((done.status, done.out), (3, ''))
            self.assert_message(done, 'cannot write %s: ' % path)
            self.assertEqual(done.err.count('\n'), 1)

    def test_standard_error(self):
        """The file is made where nothing can be said."""
        data = open_bytes(WITHOUT_SLOPES[:-4] + '.trf')
        with open('/dev/full', 'wb') as full:
            for streams in ({'closed': [2]}, {'stderr': full}):
                done = run('make', WITHOUT_SLOPES, '-o', '-', **streams)
                self.assertEqual((done.status, done.out), (0, data))


class Importing(Case):
    """The command import."""

    def setUp(self):
        self.place = self.folder()
        self.triples, self.file = (os.path.join(self.place, name) for name in ('c.f64', 'c.trf'))

    def put(self, data, before=None):
        """The triples are these, and the curve file has these bytes or is not there."""
        with open(self.triples, 'wb') as file:
            file.write(data)
        if os.path.exists(self.file):
            os.remove(self.file)
        if before is not None:
            with open(self.file, 'wb') as file:
                file.write(before)

    def assert_made(self, data, shape, made):
        """By paths, by -, and by the streams that are taken if nothing is named."""
        self.put(data)
        code = ['--shape', str(shape)]
        done = inside('import', *code, self.triples, '-o', self.file)
        self.assertEqual((done.status, done.out, done.err), (0, '', ''), data.hex())
        self.assertEqual(open_bytes(self.file), made)
        for words in ([], ['-'], ['-o', '-'], ['-', '--output', '-']):
            done = inside('import', *code, *words, data=data)
            self.assertEqual((done.status, done.data, done.err), (0, made, ''))
        done = inside('import', self.triples, *code)
        self.assertEqual((done.status, done.data, done.err), (0, made, ''))

    def assert_not_made(self, data, shape, number, place, detail):
        """Nothing is written, whether the file is there or not."""
        for before in (None, b'before'):
            self.put(data, before)
            done = inside('import', '--shape', str(shape), self.triples, '-o', self.file)
            self.assert_refused(done, number, place, ' (%s, %s)' % (self.triples, detail))
            self.assertEqual(os.path.exists(self.file), before is not None)
            if before is not None:
                self.assertEqual(open_bytes(self.file), before)
        self.assert_refused(inside('import', '--shape', str(shape), data=data), number, place,
                            ' (-, %s)' % detail)

    def test_samples(self):
        self.assert_made(open_bytes(TRIPLES), 1, open_bytes(RISING))
        for name, number, place, detail in [('refused-13-length', 13, 0, '167 bytes'),
                                            ('refused-14-slope', 14, 4, 'point 4: slope 0.5')]:
            path = os.path.join(SAMPLES, name + '.f64')
            self.assert_refused(inside('import', '--shape', '1', path, '-o', self.file), number,
                                place, ' (%s, %s)' % (path, detail))
            self.assert_not_made(open_bytes(path), 1, number, place, detail)

    def test_accepted_curves(self):
        for points, shape in curves.random_curves('importing', 120):
            self.assert_made(triples(points), shape, curve_file(points, shape))

    def test_refused_by_hand(self):
        first, last = (500, 10000, 0), (600, 14000, 10000)
        for points, shape, number, place, detail in [
                ([], 1, 1, 0, '0 points'), ([first], 1, 1, 0, '1 point'),
                ([(0.5, 0, 0)] * 65, 9, 1, 0, '65 points'),
                ([first, last], 0, 2, 0, 'shape 0'), ([first, last], 5, 2, 0, 'shape 5'),
                ([first, (0.5, 0, 0)], 2**32 - 1, 2, 0, 'shape 4294967295'),
                ([first, (600, 14000, 0.5)], 2, 14, 1, 'point 1: slope 0.5'),
                ([(0.25, 0.5, 0.75), last], 2, 14, 0, 'point 0: area 0.25'),
                ([(-7, 0.1, 0.5), last], 2, 14, 0, 'point 0: value 0.1'),
                ([first, (600, 14000, -2.5e-300)], 2, 14, 1, 'point 1: slope -2.5e-300'),
                ([first, (float('inf'), 0, 0)], 2, 14, 1, 'point 1: area inf'),
                ([first, (1, float('-inf'), 0)], 2, 14, 1, 'point 1: value -inf'),
                ([(1, 1, float('nan')), last], 2, 14, 0, 'point 0: slope nan'),
                ([(-1, -2, 10001), last], 2, 3, 0, 'point 0: area -1'),
                ([first, (500, 0, 0)], 2, 3, 1, 'point 1: area 500'),
                ([first, (2501, 0, 0)], 2, 3, 1, 'point 1: area 2501'),
                ([(1e300, 0, 0), last], 2, 3, 0, 'point 0: area 1e+300'),
                ([first, (600, -2, 10001)], 2, 4, 1, 'point 1: value -2'),
                ([first, (600, 200001, 0)], 2, 4, 1, 'point 1: value 200001'),
                ([(-0.0, 2.0**53, 0), last], 2, 4, 0, 'point 0: value 9007199254740992.0'),
                ([first, (600, 14000, -10001)], 2, 5, 1, 'point 1: slope -10001'),
                ([first, last], 3, 6, 0, 'points 0 and 1'),
                ([first, last, (700, 14000, 1)], 1, 6, 1, 'points 1 and 2')]:
            self.assert_not_made(triples(points), shape, number, place, detail)
        data = triples([(0.5, -1, 0)] * 70)
        for length in (1, 23, 25, 47, 49, 1535, 1537, 1679):
            self.assert_not_made(data[:length], 7, 13, 0,
                                 '1 byte' if length == 1 else '%d bytes' % length)

    def test_refused(self):
        """The refusal of the exact fractions; the figure that is named is one of the point's."""
        rng, seen = random.Random('refused triples'), set()
        names = {3: ['area'], 4: ['value'], 5: ['slope'], 14: ['area', 'value', 'slope']}
        for points, shape in curves.random_curves('refused triples', 250):
            made, wrong = rows(points), rng.randrange(len(points))
            made[wrong][rng.randrange(3)] = rng.choice(
                [figure(rng.choice([0.5, -1, 1e300, 20001, 200001, 10001, -10001])),
                 of_bits(rng.getrandbits(64)), of_bits(0x7ff << 52 | rng.getrandbits(52))])
            data = joined(made)
            number, *_ = ref.curve_import(data, shape, *[[0] * len(points)] * 3)
            done = inside('import', '--shape', str(shape), data=data)
            if number > 0:
                self.assertEqual((done.status, done.err), (0, ''))
                continue
            number, place = divmod(-number, 2**32)
            seen.add(number)
            detail = done.err[done.err.rindex('(-, '):-1]
            self.assert_refused(done, number, place, ' ' + detail)
            if number == 6:
                self.assertEqual(detail, '(-, points %d and %d)' % (place, place + 1))
                continue
            at, name, shown = re.fullmatch(r'\(-, point (\d+): (\w+) (\S+)\)', detail).groups()
            self.assertEqual(int(at), place)
            self.assertIn(name, names[number])
            eight = made[place][['area', 'value', 'slope'].index(name)]
            if shown != 'nan':
                self.assertEqual(figure(float(shown)), eight)
        self.assertEqual(seen, {14, 3, 4, 5, 6})

    def test_longest(self):
        """Up to 2**20 bytes the length and the count are right; beyond it they are not known."""
        data = triples([(5, 5, 0)] * 43691)
        self.assertGreater(len(data), 2**20)
        self.assert_not_made(data[:24 * 43690], 1, 1, 0, '43690 points')
        self.assert_not_made(data[:2**20], 1, 13, 0, '1048576 bytes')
        for more in (2**20 + 1, len(data)):
            self.put(data[:more], b'before')
            done = inside('import', '--shape', '1', self.triples, '-o', self.file)
            self.assert_usage(done, 'cannot read %s: it has more than 1048576 bytes'
                              % self.triples)
            self.assertEqual(open_bytes(self.file), b'before')

    def test_endless(self):
        message = 'it has more than 1048576 bytes'
        self.assert_usage(inside('import', '--shape', '1', '/dev/zero'), message)
        with subprocess.Popen(['cat', '/dev/zero'], stdout=subprocess.PIPE) as endless:
            try:
                done = run('import', '--shape', '1', stdin=endless.stdout)
            finally:
                endless.kill()
        self.assert_usage(done, 'cannot read -: ' + message)

    def test_slow(self):
        data = open_bytes(TRIPLES)
        with subprocess.Popen(COMMAND + ['import', '--shape', '1'], stdin=subprocess.PIPE,
                              stdout=subprocess.PIPE, env=environment(), bufsize=0) as process:
            for at in range(0, len(data), 35):
                process.stdin.write(data[at:at + 35])
                time.sleep(0.1)
            self.assertEqual(process.communicate(timeout=60)[0], open_bytes(RISING))

    def test_redirected(self):
        """As a shell does it: both streams are files."""
        with open(TRIPLES, 'rb') as source, open(self.file, 'wb') as target:
            done = run('import', '--shape', '1', stdin=source, stdout=target)
        self.assertEqual((done.status, done.err), (0, ''))
        self.assertEqual(open_bytes(self.file), open_bytes(RISING))

    def test_shapes(self):
        """Of a straight line, which has three of them; and codes that are no whole numbers."""
        line = [(0, 0, 50), (6, 3, 50)]
        for shape in (1, 2, 4):
            self.assert_made(triples(line), shape, curve_file(line, shape))
        self.assert_not_made(triples(line), 3, 6, 0, 'points 0 and 1')
        self.assert_made(triples(line), '0002', curve_file(line, 2))
        for text in ('', '-1', '+1', '1.0', 'rising', '4294967296', '0x1', '9' * 5000):
            done = inside('import', '--shape=' + text, TRIPLES)
            self.assert_usage(done, '--shape', 'not a whole number from 0 to 4294967295')

    def test_the_triples_as_output(self):
        self.put(open_bytes(TRIPLES))
        other = os.path.join(self.place, 'link')
        os.symlink(self.triples, other)
        for one, two in [(self.triples, self.triples), (self.triples, other),
                         (other, self.triples)]:
            self.assert_usage(inside('import', '--shape', '1', one, '-o', two),
                              '%s cannot be both the triples and the curve file' % one)
            self.assertEqual(open_bytes(self.triples), open_bytes(TRIPLES))

    def test_a_file_named_dash(self):
        with open(os.path.join(self.place, '-'), 'wb') as file:
            file.write(b'x')
        with open(TRIPLES, 'rb') as source:
            done = run('import', '--shape', '1', '-', '-o', '-', stdin=source, cwd=self.place)
        self.assertEqual((done.status, done.out, done.err), (0, open_bytes(RISING), ''))
        self.assertEqual(open_bytes(os.path.join(self.place, '-')), b'x')

    def test_in_place_of_a_longer_file(self):
        self.put(open_bytes(TRIPLES), bytes(5000))
        inside('import', '--shape', '1', self.triples, '-o', self.file)
        self.assertEqual(open_bytes(self.file), open_bytes(RISING))

    def test_unwritten(self):
        for path, words in [('/dev/full', 'No space left on device'), (self.place, 'directory'),
                            (os.path.join(self.place, 'none', 'x.trf'), 'No such file'),
                            ('', 'No such file')]:
            done = inside('import', '--shape', '1', TRIPLES, '-o', path)
            self.assertEqual((done.status, done.out), (3, ''))
            self.assert_message(done, 'cannot write %s: ' % path, words)
        done = run('import', '--shape', '1', TRIPLES, '-o', self.file, closed=[1])
        self.assertEqual((done.status, done.err), (0, ''))
        self.assertEqual(open_bytes(self.file), open_bytes(RISING))

    def test_show_and_make(self):
        """The curve file is one that the other commands take."""
        inside('import', '--shape', '1', TRIPLES, '-o', self.file)
        shown = inside('show', self.file)
        self.assertEqual(inside('make', '-', '-o', '-', data=shown.data).data, open_bytes(RISING))

    def test_without_the_library(self):
        env = environment(FACTOR_CURVES_LIBRARY='/no/such/library.so')
        done = run('import', '--shape', '1', TRIPLES, '-o', self.file, env=env)
        self.assert_usage(done, '/no/such/library.so')
        self.assertFalse(os.path.exists(self.file))


class Usage(Case):
    """Exit status 2."""

    def test_words(self):
        for words in ([], ['chek', GOOD], ['check'], ['check', GOOD, GOOD], ['read', GOOD],
                      ['show', '--all', GOOD], ['plot', GOOD], ['plot', '-o', 'x.svg'],
                      ['make'], ['make', TEXT], ['make', '-o', 'x.trf'],
                      ['make', TEXT, TEXT, '-o', 'x.trf'],
                      ['import'], ['import', TRIPLES], ['import', TRIPLES, '-o', 'x.trf'],
                      ['import', '--shape'], ['import', '--sh', '1', TRIPLES],
                      ['import', '--shape', '1', TRIPLES, TRIPLES], ['import_', '--shape', '1'],
                      ['sheet', GOOD, '--st', '25'], ['--nothing'], ['sheet', GOOD, '--count']):
            self.assert_usage(inside(*words), 'usage: factor-curves', 'error: ')

    def test_areas(self):
        for text in ('', '-1', '+550', '5.5', '550.0', ' 550', '5_50', '0x10', 'ten', '1e3',
                     '4294967296', '9' * 5000, '\u0665\u0665\u0660'):
            message = 'not a whole number from 0 to 4294967295'
            self.assert_usage(inside('read', GOOD, '550', text), 'argument AREA', message)
            for option in ('--start', '--step', '--count'):
                self.assert_usage(inside('sheet', GOOD, option + '=' + text), option, message)

    def test_files(self):
        folder = self.folder()
        for path, words in [(os.path.join(folder, 'none.trf'), 'No such file'),
                            (folder, 'Is a directory'), ('', 'No such file'),
                            ('/proc/self/mem', 'Input/output error'),
                            (os.path.join(GOOD, 'x'), 'Not a directory')]:
            for command in (['check', path], ['read', path, '1'], ['sheet', path],
                            ['show', path], ['plot', path, '-o', '-'],
                            ['make', path, '-o', '-'], ['import', '--shape', '1', path]):
                self.assert_usage(inside(*command), 'cannot read %s: %s' % (path, words))

    @unittest.skipIf(os.geteuid() == 0, 'root may read every file')
    def test_unreadable(self):
        path = os.path.join(self.folder(), 'secret.trf')
        with open(path, 'wb') as file:
            file.write(open_bytes(GOOD))
        os.chmod(path, 0)
        self.assert_usage(inside('check', path), 'Permission denied')

    def test_in_a_process(self):
        for words in ([], ['check', '/no/such/file'], ['read', GOOD, 'x'], ['check', SAMPLES]):
            self.assert_usage(run(*words))
        strange = os.fsdecode(b'/no/\xff\xc3\xbc\n.trf')
        for env in (None, environment(LC_ALL='C', PYTHONIOENCODING='ascii')):
            self.assert_usage(run('check', strange, env=env), 'cannot read /no/')

    def test_standard_input(self):
        self.assert_usage(run('check', '-', closed=[0]), 'standard input is closed')
        self.assert_usage(run('make', '-', '-o', '-', closed=[0]), 'standard input is closed')
        self.assert_usage(run('import', '--shape', '1', closed=[0]), 'standard input is closed')
        self.assert_usage(inside('plot', '-', '-', '-o', 'x.svg'), 'only once')
        with open(GOOD, 'rb') as file:
            self.assertEqual(run('read', '-', '550', stdin=file).out, b'550 10800\n')

    def test_without_the_library(self):
        env = environment(FACTOR_CURVES_LIBRARY='/no/such/library.so')
        self.assert_usage(run('check', GOOD, env=env), '/no/such/library.so', '`make`')
        done = run('--help', env=env)
        self.assertEqual((done.status, done.err), (0, ''))


class Input(Case):
    """Long, endless and slow input."""

    def test_long_files(self):
        path = os.path.join(self.folder(), 'long.trf')
        flat = [(point, 5, 0) for point in range(255)]
        for count, more in ((64, 0), (64, 1), (64, 12), (65, 0), (255, 0), (2, 751), (2, 752)):
            data = curve_file(flat[:count], 1) + bytes(more)
            with open(path, 'wb') as file:
                file.write(data)
            done, text = inside('sheet', path), ref.ratesheet(data)
            if text.startswith('refused'):
                self.assert_refused(done, *map(int, text.split()[1::2]))
            else:
                self.assertEqual(done.out, text)

    def test_slow(self):
        data = open_bytes(GOOD)
        with subprocess.Popen(COMMAND + ['read', '-', '550'], stdin=subprocess.PIPE,
                              stdout=subprocess.PIPE, env=environment(), bufsize=0) as process:
            for at in range(0, len(data), 11):
                process.stdin.write(data[at:at + 11])
                time.sleep(0.1)
            self.assertEqual(process.communicate(timeout=60)[0], b'550 10800\n')

    def test_endless(self):
        self.assert_refused(inside('check', '/dev/zero'), 9, 0)
        with subprocess.Popen([sys.executable, '-c', 'import sys\n'
                               'sys.stdout.buffer.write(open(sys.argv[1], "rb").read())\n'
                               'while True: sys.stdout.write("x" * 9999)', GOOD],
                              stdout=subprocess.PIPE, stderr=subprocess.DEVNULL) as endless:
            try:
                done = run('check', '-', stdin=endless.stdout)
            finally:
                endless.kill()
        self.assertEqual((done.status, done.out), (1, b''))
        self.assertEqual(done.err, 'refused 10 at 0: %s\n' % refusal_words(10))


class Output(Case):
    """Exit status 3, and standard error that cannot be written."""

    PRINTING = [['check', GOOD], ['read', GOOD, '550'], ['show', GOOD], ['--help'], ['--version'],
                ['sheet', '--help'], ['sheet', TWO[0], '--step', '1'], ['make', '--help'],
                ['make', TEXT, '-o', '-'], ['import', '--help'],
                ['import', '--shape', '1', TRIPLES]]

    def assert_unwritten(self, done, *words):
        self.assertEqual(done.status, 3, done)
        self.assert_message(done, *words)
        self.assertEqual(done.err.count('\n'), 1)

    def test_full(self):
        with open('/dev/full', 'wb') as full:
            for words in self.PRINTING:
                self.assert_unwritten(run(*words, stdout=full), 'No space left on device')

    def test_partly_written(self):
        """Also where Python's own streams are not buffered."""
        path = os.path.join(self.folder(), 'out')
        for env in (environment(), environment(PYTHONUNBUFFERED='1')):
            with open(path, 'wb') as file:
                done = run('sheet', TWO[0], '--step', '1', stdout=file, limit=1000, env=env)
            self.assert_unwritten(done, 'File too large')

    def test_unbuffered(self):
        env = environment(PYTHONUNBUFFERED='1')
        done = run('sheet', TWO[0], '--step', '1', env=env)
        self.assertEqual(done.out.decode(), inside('sheet', TWO[0], '--step', '1').out)
        with open('/dev/full', 'wb') as full:
            self.assert_unwritten(run('check', GOOD, stdout=full, env=env), 'No space left')

    def test_closed(self):
        for words in self.PRINTING:
            self.assert_unwritten(run(*words, closed=[1]), 'standard output is closed')

    def test_broken_pipe(self):
        for words in self.PRINTING:
            reader, writer = os.pipe()
            os.close(reader)
            try:
                done = run(*words, stdout=writer)
            finally:
                os.close(writer)
            self.assertEqual((done.status, done.err), (3, ''))

    def test_refusals_need_no_output(self):
        for words in (['check', BAD], ['sheet', BAD]):
            done = run(*words, closed=[1])
            self.assertEqual(done.status, 1)
            self.assertTrue(done.err.startswith('refused 6 at 0: '))

    def test_standard_error(self):
        """A message that cannot be written is lost; the status says what it was about."""
        with open('/dev/full', 'wb') as full:
            for streams in ({'closed': [2]}, {'stderr': full}):
                for words, status in [(['check', BAD], 1), (['check', '/none'], 2), ([], 2),
                                      (['check', GOOD], 0)]:
                    done = run(*words, **streams)
                    self.assertEqual(done.status, status, words)
                    self.assertEqual(bool(done.out), status == 0)
            done = run('check', GOOD, closed=[1, 2])
            self.assertEqual(done.status, 3)


class Interrupt(Case):

    def waits(self, process):
        with open('/proc/%d/stat' % process.pid, encoding='utf-8') as file:
            return file.read().rsplit(')', 1)[1].split()[0] == 'S'

    @staticmethod
    def heed():
        """A shell's background job ignores SIGINT, and so would its programs."""
        signal.signal(signal.SIGINT, signal.SIG_DFL)

    def test_interrupt(self):
        path = os.path.join(self.folder(), 'pipe')
        os.mkfifo(path)
        with subprocess.Popen(COMMAND + ['check', path], stdout=subprocess.PIPE, stderr=subprocess.PIPE,
                              env=environment(), preexec_fn=self.heed) as process:
            with open(path, 'wb'):              # opens when the program does
                while not self.waits(process):  # until it reads
                    time.sleep(0.01)
                process.send_signal(signal.SIGINT)
                out, err = process.communicate(timeout=20)
        self.assertEqual((process.returncode, out, err), (130, b'', b''))


class Help(Case):

    def test_version(self):
        with open(os.path.join(ROOT, 'VERSION'), encoding='ascii') as file:
            self.assertEqual(run('--version').out.decode(), 'factor-curves ' + file.read())

    def test_help(self):
        text = run('--help').out.decode()
        for word in ('check', 'read', 'sheet', 'show', 'make', 'import', 'plot', 'examples:',
                     'exit status:'):
            self.assertIn(word, text)
        examples = re.findall('^  factor-curves (.*)$', text, re.MULTILINE)
        self.assertEqual(len(examples), 9)
        folder = self.folder_with_samples()
        for example in examples:
            if example.startswith('plot') and not MATPLOTLIB:
                continue
            command, target = (example.split(' > ') + [''])[:2]
            command, _, source = command.partition(' < ')
            with open(os.path.join(ROOT, source or GOOD), 'rb') as file:
                done = run(*shlex.split(command), cwd=folder, stdin=file)
            if target:
                self.assertEqual((target, done.out), ('imported.trf', open_bytes(RISING)))
            filled = re.search(r'\S*without-slopes\.txt', example)
            self.assertEqual((done.status, done.err), (0, FILLED % filled[0] if filled else ''))

    def test_text_of_the_help(self):
        """The curve that the help of make shows is that of document 01."""
        shown = run('make', '--help').out.decode().split('\n\n')
        (text,) = [part for part in shown if part.startswith('  # ')]
        done = inside('make', '-', '-o', '-', data=text.encode())
        self.assertEqual((done.status, done.data), (0, open_bytes(GOOD)))

    def test_manual_page(self):
        """Its examples print what it says; it has every command, option and exit status."""
        with open(os.path.join(ROOT, 'man', 'factor-curves.1'), encoding='ascii') as file:
            page = file.read().replace('\\-', '-')
        examples = page.split('.SH EXAMPLES\n.nf\n')[1].split('.fi\n')[0]
        found = re.findall(r'^\$ factor-curves (.*)\n((?:[^$].*\n)*)', examples, re.MULTILINE)
        self.assertEqual(len(found), examples.count('$ '))
        folder = os.getcwd()
        os.chdir(self.folder_with_samples())
        try:
            for command, text in found:
                if not command.startswith('plot'):
                    words, _, source = command.partition(' < ')
                    done = inside(*shlex.split(words), data=open_bytes(source or GOOD))
                    self.assertEqual(done.out + done.err, text, command)
        finally:
            os.chdir(folder)
        self.assertEqual({command.split()[0] for command, _ in found},
                         {'check', 'read', 'sheet', 'show', 'make', 'import', 'plot'})
        for word in ('--start', '--step', '--count', '--shape', '-o', '--help', '--version'):
            self.assertIn(word, page)
        refusals = page.split('.SH REFUSALS\n')[1].split('.SH')[0]
        self.assertEqual(re.findall(r'^\.B (\d+)$', refusals, re.MULTILINE),
                         '9 10 13 1 2 14 3 4 5 6 8 7'.split())
        statuses = page.split('.SH EXIT STATUS\n')[1].split('.SH')[0]
        self.assertEqual(re.findall(r'^\.B (\d+)$', statuses, re.MULTILINE),
                         ['0', '1', '2', '3', '130'])


def svg_lines(text):
    """Of a picture: the corners of each curve, by its id, and where the rated points are."""
    space = '{http://www.w3.org/2000/svg}'
    tree = xml.etree.ElementTree.fromstring(text)
    lines, marks = {}, []
    for group in tree.iter(space + 'g'):
        name = group.get('id', '')
        if name.startswith('curve-'):
            numbers = re.findall(r'[ML] (\S+) (\S+)', group.find(space + 'path').get('d'))
            lines[name] = [(float(x), float(y)) for x, y in numbers]
        elif name == 'rated-points':
            marks = [(float(use.get('x')), float(use.get('y')))
                     for use in group.iter(space + 'use')]
    return lines, marks


class Pictures(Case):

    def assert_drawn(self, text, paths):
        """The picture shows the rated points and the exact curves of these files."""
        lines, marks = svg_lines(text)
        read = [ref.file_lists(open_bytes(path)) + (open_bytes(path)[5],) for path in paths]
        points = sorted({point for curve in read for point in zip(curve[0], curve[1])})
        self.assertEqual(sorted(lines), ['curve-%d' % index for index in range(len(paths))])
        self.assertEqual(len(marks), len(points))
        (x0, y0), (x1, y1) = marks[0], marks[-1]
        (a0, v0), (a1, v1) = points[0], points[-1]
        across, up = (x1 - x0) / (a1 - a0), (y1 - y0) / (v1 - v0)
        for (x, y), (area, value) in zip(marks, points):
            self.assertAlmostEqual(x, x0 + (area - a0) * across, delta=0.01)
            self.assertAlmostEqual(y, y0 + (value - v0) * up, delta=0.01)
        for index, curve in enumerate(read):
            corners = lines['curve-%d' % index]
            self.assertGreater(len(corners), 20)
            for x, y in corners:
                area = min(max(a0 + Fraction(x - x0) / Fraction(across), curve[0][0]),
                           curve[0][-1])
                value = ref.exact_value(*curve, area)
                self.assertAlmostEqual(y, y0 + float(value - v0) * up, delta=0.15)
            self.assertAlmostEqual(corners[-1][0], x0 + (curve[0][-1] - a0) * across, delta=0.1)

    def test_of_the_documentation(self):
        with open(os.path.join(ROOT, 'docs', 'curve.svg'), encoding='utf-8') as file:
            self.assert_drawn(file.read(), PICTURE)
        rising, concave = map(open_bytes, PICTURE)
        self.assertEqual((rising[5], concave[5]), (1, 4))
        self.assertEqual(ref.file_lists(rising), ref.file_lists(concave))
        self.assertIn('by the rising rule', inside('check', PICTURE[0]).out)

    def test_without_matplotlib(self):
        folder = self.folder()
        with open(os.path.join(folder, 'matplotlib.py'), 'w', encoding='ascii') as file:
            file.write('raise ImportError("not here")\n')
        env = environment()
        env['PYTHONPATH'] = folder + os.pathsep + env['PYTHONPATH']
        picture = os.path.join(folder, 'x.svg')
        done = run('plot', GOOD, '-o', picture, env=env)
        self.assert_usage(done, 'plot needs matplotlib', 'not here')
        self.assertEqual(done.err.count('\n'), 1)
        self.assertFalse(os.path.exists(picture))
        self.assertEqual(run('check', GOOD, env=env).status, 0)

    @unittest.skipUnless(MATPLOTLIB, 'matplotlib is not installed')
    def test_picture(self):
        picture = os.path.join(self.folder(), 'x.svg')
        for paths in (PICTURE, TWO):
            done = run('plot', *paths, '-o', picture)
            self.assertEqual((done.status, done.out, done.err), (0, b'', ''))
            data = open_bytes(picture)
            self.assert_drawn(data.decode(), paths)
            again = run('plot', *paths, '-o', '-')
            self.assertEqual((again.status, again.out), (0, data))

    @unittest.skipUnless(MATPLOTLIB, 'matplotlib is not installed')
    def test_figure(self):
        from factor_curves import Curve, _plot
        named = []
        for path in [GOOD] + TWO + [DISCOUNT, FLATTENING, RISING]:
            curve = Curve.from_file(path)
            factors = [curve.read(area) for area in range(curve.first_area, curve.last_area + 1)]
            named.append((path, curve, factors))
        (axes,) = _plot.figure(named).axes
        *lines, marks = axes.get_lines()
        for (path, curve, _), line in zip(named, lines):
            areas = range(curve.first_area, curve.last_area + 1)
            self.assertEqual(list(line.get_xdata()), [area / 10 for area in areas])
            self.assertEqual(list(line.get_ydata()), [
                ref.read(curve.areas, curve.values, curve.slopes, curve.shape, area)[1] / 10000
                for area in areas])
        points = sorted({(point.area, point.value) for _, curve, _ in named
                         for point in curve.points})
        self.assertEqual(len(points), 2 + 4 + 7 + 6 + 7)
        self.assertEqual(list(zip(marks.get_xdata(), marks.get_ydata())),
                         [(area / 10, value / 10000) for area, value in points])
        self.assertEqual([text.get_text() for text in axes.get_legend().get_texts()],
                         ['convex (document-01)',
                          'rising, read by the convex rule (same-points-rising)',
                          'convex (same-points-convex)', 'falling (large-home-discount)',
                          'concave (flattening)', 'rising (rising)', 'rated points'])
        self.assertEqual((axes.get_xlabel(), axes.get_ylabel()),
                         ('floor area (m\u00b2)', 'factor'))

    @unittest.skipUnless(MATPLOTLIB, 'matplotlib is not installed')
    def test_formats_and_names(self):
        folder = self.folder()
        for name, start in [('x.png', b'\x89PNG'), ('x.PDF', b'%PDF'), ('x', b'<?xml')]:
            picture = os.path.join(folder, name)
            self.assertEqual(inside('plot', GOOD, '-o', picture).status, 0)
            data = open_bytes(picture)
            self.assertTrue(data.startswith(start))
            self.assertNotIn(b'CreationDate', data)
            self.assertEqual(run('plot', GOOD, '-o', picture).status, 0)
            self.assertEqual(open_bytes(picture), data)     # the same bytes each time
        for name in ('_a', '$x_$', '\\', '<&>', '$', os.fsdecode(b'\xff'), '\u4e00'):
            path = os.path.join(folder, name + '.trf')
            with open(path, 'wb') as file:
                file.write(open_bytes(GOOD))
            picture = os.path.join(folder, 'y.svg')
            done = inside('plot', path, '-o', picture)
            self.assertEqual((done.status, done.err), (0, ''), name)
            self.assert_drawn(open_bytes(picture).decode(), [GOOD])

    @unittest.skipUnless(MATPLOTLIB, 'matplotlib is not installed')
    def test_unwritten(self):
        folder = self.folder()
        for picture, words in [('/dev/full', 'No space left on device'), (folder, 'directory'),
                               (os.path.join(folder, 'none', 'x.svg'), 'No such file')]:
            done = inside('plot', GOOD, '-o', picture)
            self.assertEqual((done.status, done.out), (3, ''))
            self.assert_message(done, 'cannot write %s: ' % picture, words)
        with open('/dev/full', 'wb') as full:
            self.assertEqual(run('plot', GOOD, '-o', '-', stdout=full).status, 3)
        self.assertEqual(run('plot', GOOD, '-o', os.path.join(folder, 'z.svg'),
                             closed=[1]).status, 0)


if __name__ == '__main__':
    unittest.main()
