"""Tests of the Python package.

    PYTHONPATH=python FACTOR_CURVES_LIBRARY=... python3 -m unittest tests/test_python.py

Expected answers are exact_fractions.py's, or those of documents 01 and 02;
expected files are curve_file.py's, triples triples.py's.
"""

import array
import copy
import ctypes
import doctest
import errno
import glob
import multiprocessing.pool
import os
import pathlib
import pickle
import random
import re
import shutil
import subprocess
import sys
import tempfile
import typing
import unittest
from fractions import Fraction

HERE = os.path.dirname(os.path.abspath(__file__))
ROOT = os.path.dirname(HERE)
sys.path.insert(0, HERE)

import curves
import exact_fractions as ref
import factor_curves as fc
import half_kinds
from curve_file import curve_file
from factor_curves import _calls, _library
from triples import figure, joined, of_bits, rows, triples

try:
    import numpy
except ImportError:
    numpy = None
try:
    import _testbuffer              # CPython's own arrays with any strides
except ImportError:
    _testbuffer = None

LARGEST = 2**32 - 1
STEEP = [(500, 10000, 0), (600, 14000, 10000)]
# The desk readings, and what the exact fractions have for them.
DESKS = [(fc.desk_reading, ref.desk), (fc.desk_reading_two, ref.desk_two)]
LIBRARY = _library.library()._name
PACKAGE = os.path.dirname(os.path.abspath(fc.__file__))


def lists(points):
    return [list(column) for column in zip(*points)] or [[], [], []]


def answer(call, *words):
    """What a call gives, as exact_fractions.py writes it, with one result."""
    try:
        return ('ok', call(*words))
    except fc.Refused as refusal:
        return ('refused', refusal.number, refusal.place)


def wanted(reference, *words):
    """The reference's answer, its results after 'ok' as one."""
    given = reference(*words)
    if given[0] == 'refused' or len(given) == 2:
        return given
    if reference is ref.pair:
        return ('ok', fc.Pair(*given[1:]))
    return ('ok', given[2])                     # the entries of a sheet, filled slopes


def opened(data):
    """The reference's answer to a file; its result is the curve."""
    given = ref.open_file(data, (255, 255, 255))
    return ('ok', fc.Curve(given[3], given[1])) if given[0] == 'ok' else given


def imported(data, shape):
    """The reference's answer to triples, where the lists have an entry for each."""
    room = [0] * (len(data) // 24)
    number, *columns = ref.curve_import(data, shape, room, room, room)
    if number < 0:
        return ('refused', *divmod(-number, 2**32))
    return ('ok', fc.Lists(*map(tuple, columns), shape))


def sample_files(ending='.trf'):
    for path in sorted(glob.glob(os.path.join(ROOT, 'samples', '*' + ending))):
        with open(path, 'rb') as file:
            yield path, file.read()


class Lists(unittest.TestCase):
    """The calls on lists give what the exact fractions give."""

    def same(self, call, reference, *words):
        self.assertEqual(answer(call, *words), wanted(reference, *words), repr(words)[:300])

    def test_readings_of_document_01(self):
        for points, shape, area, factor in [
                (STEEP, 1, 550, 10800), (STEEP, 1, 525, 10182), (STEEP, 2, 550, 10800),
                (STEEP, 2, 525, 10182), ([(500, 10000, 2000), (600, 14000, 6000)], 1, 501, 10020),
                ([(0, 0, 50), (2, 1, 50)], 2, 1, 0), ([(0, 0, -300), (2, 0, 300)], 2, 1, -2),
                ([(0, 0, 0), (2, 1, 100)], 2, 1, 0), ([(0, 1, 0), (2, 2, 100)], 2, 1, 1)]:
            self.assertEqual(fc.read(*lists(points), shape, area), factor)
            self.assertEqual(fc.Curve(points, shape).read(area), factor)
        for points, shape in [([(0, 0, 100), (100, 100, 200)], 2), ([(0, 5, 0), (10, 5, 1)], 1)]:
            self.assertEqual(answer(fc.read, *lists(points), shape, 1), ('refused', 6, 0))

    def test_accepted_curves(self):
        rng = random.Random('lists 1')
        for points, shape in curves.random_curves('lists 2', 60):
            curve = lists(points) + [shape]
            self.same(fc.check, ref.check, *curve)
            for _ in range(6):
                area, other = curves.inner_area(rng, points), curves.outer_area(rng, points)
                self.same(fc.read, ref.read, *curve, area)
                self.same(fc.read, ref.read, *curve, other)
                self.same(fc.pair, ref.pair, *curve, area, curves.inner_area(rng, points))
                self.same(fc.pair, ref.pair, *curve, area, other)
                self.same(fc.pair, ref.pair, *curve, other, area)

    def test_sheets(self):
        rng = random.Random('sheets')
        for points, shape in curves.random_curves('sheets', 25):
            curve = lists(points) + [shape]
            first, last = points[0][0], points[-1][0]
            step = rng.randint(1, max(1, (last - first) // 3))
            full = min(1024, (last - first) // step + 1)
            for start, by, count in [
                    (first, step, full), (first, step, full + 1), (first + 1, step, full),
                    (last, LARGEST, 1), (last, LARGEST, 2), (first, 2**31, 3), (first, 0, 1),
                    (last + 1, 0, 1), (first, 1, 0), (LARGEST, 1, 1), (first, 1, 1025)]:
                self.same(fc.sheet, ref.sheet, *curve, start, by, count)

    def test_longest_sheet(self):
        curve = lists([(0, 0, 0), (2000, 150000, 9000)]) + [2]
        self.same(fc.sheet, ref.sheet, *curve, 0, 1, 1024)
        for count in (1025, 10**15):            # no list of that length is made
            self.assertEqual(answer(fc.sheet, *curve, 0, 1, count), ('refused', 8, 0))
        curve[3] = 5                            # row 2 comes before row 8
        self.assertEqual(answer(fc.sheet, *curve, 0, 1, 10**15), ('refused', 2, 0))

    def test_faults(self):
        rng = random.Random('faults')
        fields = [(0, 20001), (0, LARGEST), (1, 200001), (1, LARGEST), (2, 10001), (2, -10001),
                  (2, 2**31 - 1), (2, -2**31)]
        for points, shape in curves.random_curves('faults', 60):
            curve = lists(points) + [shape]
            at = rng.randrange(len(points))
            for field, number in fields:
                wrong = copy.deepcopy(curve)
                wrong[field][at] = number
                self.same(fc.check, ref.check, *wrong)
                self.same(fc.read, ref.read, *wrong, points[0][0])
            for code in (*range(6), 256 + shape, LARGEST):
                self.same(fc.check, ref.check, *curve[:3], code)

    def test_lengths(self):
        flat = [(point, 5, 0) for point in range(300)]
        for count in (0, 1, 2, 64, 65, 255, 256, 258, 300):
            self.same(fc.check, ref.check, *lists(flat[:count]), 1)
        for which in range(3):
            wrong = lists(flat[:9])
            wrong[which].pop()
            self.same(fc.check, ref.check, *wrong, 1)
            self.same(fc.read, ref.read, *wrong, 1, 4)
            self.same(fc.pair, ref.pair, *wrong, 1, 4, 5)
            self.same(fc.sheet, ref.sheet, *wrong, 1, 4, 1, 1)

    def test_any_iterable(self):
        columns = lists(STEEP)
        self.assertEqual(fc.read(*map(tuple, columns), 2, 550), 10800)
        self.assertEqual(fc.read(*map(iter, columns), 2, 550), 10800)


class Files(unittest.TestCase):
    """The calls on bytes give what the exact fractions give."""

    def files(self):
        rng = random.Random('files')
        yield from (data for _, data in sample_files())
        for points, shape in curves.random_curves('files', 60):
            data = curve_file(points, shape)
            yield data
            yield data[:rng.randrange(len(data))]
            flipped = bytearray(data)
            flipped[rng.randrange(len(data))] ^= 1 << rng.randrange(8)
            yield bytes(flipped)
        for count in (0, 1, 64, 65, 255):
            yield curve_file([(point, 5, 0) for point in range(count)], 1)

    def test_open(self):
        for data in self.files():
            self.assertEqual(answer(fc.Curve.from_bytes, data), opened(data))
            given = ref.open_file(data, (255, 255, 255))
            if given[0] == 'ok':
                columns = [tuple(column) for column in zip(*given[3])]
                given = ('ok', fc.Lists(*columns, given[1]))
            self.assertEqual(answer(fc.open_bytes, data), given)

    def test_other_buffers(self):
        data = curve_file(STEEP, 2)
        for same in (bytearray(data), memoryview(data), memoryview(b'x' + data)[1:],
                     memoryview(data[::-1])[::-1]):
            self.assertEqual(fc.Curve.from_bytes(same).points, tuple(STEEP))
            for desk, _ in DESKS:
                self.assertEqual(desk(same, 550), 10800)
        for wrong in (5, None, 'TRF', [84, 82, 70]):
            for call in (fc.open_bytes, fc.Curve.from_bytes):
                self.assertRaises(TypeError, call, wrong)
            for desk, _ in DESKS:
                self.assertRaises(TypeError, desk, wrong, 550)

    def desk(self, call, reference, data, area, length):
        before = bytes(range(256)) * 13
        scratch = bytearray(before[:length])
        number, after = reference(data, area, before[:length])
        wanted = ('refused', -1000000 - number, None) if number < -1000000 else ('ok', number)
        self.assertEqual(answer(call, data, area, scratch), wanted)
        self.assertEqual(bytes(scratch), after)
        return wanted

    def test_desk_readings(self):
        seen = {call: set() for call, _ in DESKS}
        for data in self.files():
            count = data[6] if len(data) > 6 else 0
            for (call, reference), need in zip(DESKS, (12 * count, 24)):
                for area in (0, 1, 550, 1000, 19999, LARGEST):
                    seen[call].add(self.desk(call, reference, data, area, need + area % 5)[:2])
                for length in (0, 1, 11, 12, 23, 24, 25, 36, max(0, need - 1), need // 2, need):
                    seen[call].add(self.desk(call, reference, data, 550, length)[:2])
        for call, _ in DESKS:
            numbers = {words[1] for words in seen[call] if words[0] == 'refused'}
            self.assertEqual(numbers, {1, 2, 3, 4, 5, 6, 7, 9, 10, 11})

    def test_scratch_of_their_own(self):
        """The same from both, whatever scratch they have, if it is long enough."""
        for data in self.files():
            for area in (0, 550, 19999):
                answers = {answer(call, data, area, *scratch) for call, _ in DESKS
                           for scratch in ((), (None,), (bytearray(fc.SCRATCH_ENOUGH),))}
                answers.add(answer(fc.desk_reading_two, data, area, bytearray(fc.SCRATCH_TWO)))
                self.assertEqual(len(answers), 1, data)

    def test_segment_read(self):
        """Each rated point and the areas beside it, by the second desk reading."""
        for points, shape in curves.random_curves('segments', 40):
            data = curve_file(points, shape)
            for area, _, _ in points:
                for near in (max(0, area - 1), area, area + 1):
                    self.desk(fc.desk_reading_two, ref.desk_two, data, near, 24 + near % 3)

    def test_scratch(self):
        data = curve_file(STEEP, 2)
        memory = bytearray(40)
        for call, _ in DESKS:
            memory[:] = bytes(40)
            self.assertEqual(call(data, 550, memoryview(memory)[8:33]), 10800)
            self.assertEqual(bytes(memory), bytes(8) + data[7:] + bytes(8))
            memory.append(0)                    # nothing holds it after the call
            overlapping = bytearray(data)       # the file itself as the scratch
            self.assertEqual(call(overlapping, area=550, scratch=overlapping), 10800)
            self.assertEqual(bytes(overlapping), data[7:] + data[24:])
            for wrong in (b'', bytes(24), memoryview(bytes(24)), memoryview(memory)[::2], 24,
                          'x' * 24, [0] * 24):
                self.assertRaises(TypeError, call, data, 550, wrong)
        lent, length = _calls._lent(bytearray())
        self.assertEqual((len(lent), length), (1, 0))       # so that its address is not null

    def test_two_records(self):
        """Document 02, item 5: three points, of which the scratch gets two."""
        data = curve_file([(400, 10000, 0)] + STEEP, 1)
        for area, factor, first in [(400, 10000, 0), (499, 10000, 0), (500, 10000, 1),
                                    (550, 10800, 1), (600, 14000, 1)]:
            scratch = bytearray(b'\xee' * 36)
            self.assertEqual(fc.desk_reading_two(data, area, scratch), factor)
            self.assertEqual(bytes(scratch), data[7 + 12 * first:31 + 12 * first] + b'\xee' * 12)
        for area, length, number in [(550, 23, 11), (399, 23, 11), (399, 24, 7), (601, 24, 7)]:
            scratch = bytearray(b'\xee' * length)
            self.assertEqual(answer(fc.desk_reading_two, data, area, scratch),
                             ('refused', number, None))
            self.assertEqual(bytes(scratch), b'\xee' * length)

    def test_from_file(self):
        for path, data in sample_files():
            self.assertEqual(answer(fc.Curve.from_file, path), opened(data))
        with tempfile.TemporaryDirectory() as folder:
            path = os.path.join(folder, 'long.trf')
            flat = [(point, 5, 0) for point in range(255)]
            for data in [curve_file(flat[:64], 1), curve_file(flat[:65], 1),
                         curve_file(flat, 1), curve_file(flat, 1) + bytes(1),
                         curve_file(flat, 1) + bytes(12), b'X' + bytes(5000)]:
                with open(path, 'wb') as file:
                    file.write(data)
                self.assertEqual(answer(fc.Curve.from_file, path), opened(data))
            self.assertRaises(FileNotFoundError, fc.Curve.from_file, path + 'x')
            self.assertRaises(IsADirectoryError, fc.Curve.from_file, folder)


def writing(areas, values, slopes, shape):
    """The answer to be given for lists that are to be written: their file, or a refusal."""
    given = ref.check(areas, values, slopes, shape)
    if given[0] == 'refused':
        return given
    return ('ok', curve_file(list(zip(areas, values, slopes)), shape))


class Writing(unittest.TestCase):
    """The files that are written are those of curve_file.py."""

    def test_file_of_document_01(self):
        self.assertEqual(fc.write([500, 600], [10000, 14000], [0, 10000], 2).hex(),
                         '54524601000202' 'f40100001027000000000000'
                         '58020000b036000010270000')

    def test_accepted_curves(self):
        for points, shape in curves.random_curves('writing', 300):
            data = curve_file(points, shape)
            written = fc.write(*lists(points), shape)
            self.assertIs(type(written), bytes)
            self.assertEqual(written, data)
            self.assertEqual(fc.Curve(points, shape).to_bytes(), data)
            self.assertEqual(len(data), 7 + 12 * len(points))

    def test_there_and_back(self):
        for points, shape in curves.random_curves('there and back', 100):
            curve, columns = fc.Curve(points, shape), lists(points)
            self.assertEqual(fc.Curve.from_bytes(curve.to_bytes()), curve)
            self.assertEqual(fc.open_bytes(fc.write(*columns, shape)),
                             fc.Lists(*map(tuple, columns), shape))
            data = curve_file(points, shape)
            self.assertEqual(fc.Curve.from_bytes(data).to_bytes(), data)
            self.assertEqual(fc.write(*fc.open_bytes(data)), data)

    def test_counts(self):
        flat = [(point, 5, 0) for point in range(300)]
        for count in (0, 1, 2, 3, 63, 64, 65, 255, 256, 258, 300):
            columns = lists(flat[:count])
            self.assertEqual(answer(fc.write, *columns, 1), writing(*columns, 1))
        self.assertEqual(len(fc.write(*lists(flat[:64]), 1)), fc.FILE_MAX)

    def test_refused(self):
        seen = set()
        for points, shape in curves.random_curves('refused writing', 60):
            for at in (0, len(points) // 2, len(points) - 1):
                for field, number in [(0, 20001), (0, LARGEST), (1, 200001), (1, LARGEST),
                                      (2, 10001), (2, -10001), (2, -2**31), (1, 0)]:
                    wrong = lists(points)
                    wrong[field][at] = number
                    given = writing(*wrong, shape)
                    self.assertEqual(answer(fc.write, *wrong, shape), given)
                    seen.add(given[1] if given[0] == 'refused' else 0)
            for code in (0, 5, 256 + shape, LARGEST):
                self.assertEqual(answer(fc.write, *lists(points), code), ('refused', 2, 0))
        self.assertEqual(seen, {0, 3, 4, 5, 6})
        for which in range(3):
            wrong = lists(STEEP + [(700, 20000, 10000)])
            wrong[which].pop()
            self.assertEqual(answer(fc.write, *wrong, 2), ('refused', 1, 0))

    def test_buffer(self):
        """Refusal 12, which only a caller with a buffer of its own can meet."""
        data, curve = curve_file(STEEP, 2), _calls.arguments(*lists(STEEP), 2)
        for length in range(40):
            out = (ctypes.c_uint8 * 40)(*range(200, 240))
            given = _library.library().curve_write(*curve, out, length)
            file = data if length >= 31 else b''
            self.assertEqual(given, 31 if length >= 31 else -12 * 2**32)
            self.assertEqual(bytes(out), file + bytes(range(200 + len(file), 240)))
        with self.assertRaises(fc.Refused) as caught:
            _calls._result(-12 * 2**32)
        self.assertEqual((caught.exception.number, caught.exception.place),
                         (fc.Refusal.BUFFER, 0))
        self.assertEqual(str(caught.exception), 'refused 12 at 0: ' + fc.refusal_words(12))

    def test_arguments_stay(self):
        columns = lists(STEEP)
        for shape in (2, 3, 5):
            answer(fc.write, *columns, shape)
            self.assertEqual(columns, lists(STEEP))
        curve = fc.Curve(STEEP, 2)
        first = curve.to_bytes()
        self.assertEqual(curve, fc.Curve(STEEP, 2))
        self.assertEqual(curve.to_bytes(), first)
        self.assertEqual(fc.write(range(5), iter([7] * 5), (0,) * 5, 1),
                         curve_file([(area, 7, 0) for area in range(5)], 1))

    def test_to_file(self):
        with tempfile.TemporaryDirectory() as folder:
            path = os.path.join(folder, 'curve.trf')
            for kind in (str, pathlib.Path):            # each time in place of a longer file
                for points in (curves.rising_curve(random.Random('to file'), 64), STEEP):
                    self.assertIsNone(fc.Curve(points, 1).to_file(kind(path)))
                    with open(path, 'rb') as file:
                        self.assertEqual(file.read(), curve_file(points, 1))
                    self.assertEqual(fc.Curve.from_file(path), fc.Curve(points, 1))
            self.assertEqual(os.listdir(folder), ['curve.trf'])
            curve = fc.Curve(STEEP, 2)
            self.assertRaises(IsADirectoryError, curve.to_file, folder)
            self.assertRaises(FileNotFoundError, curve.to_file, os.path.join(folder, 'no', 'x'))
        with self.assertRaises(OSError) as caught:
            curve.to_file('/dev/full')
        self.assertEqual(caught.exception.errno, errno.ENOSPC)

    def test_samples(self):
        for path, data in sample_files():
            if opened(data)[0] == 'ok':
                self.assertEqual(fc.Curve.from_file(path).to_bytes(), data)

    def test_copies_and_subclasses(self):
        class Tariff(fc.Curve):
            pass
        data = curve_file(STEEP, 2)
        curve = Tariff.from_bytes(data)
        self.assertEqual(curve.to_bytes(), data)
        for same in (copy.copy(fc.Curve(STEEP, 2)),
                     pickle.loads(pickle.dumps(fc.Curve(STEEP, 2)))):
            self.assertEqual(same.to_bytes(), data)

    def test_threads(self):
        made = [fc.Curve(*each) for each in curves.random_curves('writing threads', 200)]
        with multiprocessing.pool.ThreadPool(4) as pool:
            files = pool.map(fc.Curve.to_bytes, made)
        self.assertEqual(files, [curve_file(curve.points, curve.shape) for curve in made])


class Halves(unittest.TestCase):
    """Document 02, item 6: an exact half goes to the even unit."""

    # Points and shape; in the middle area an exact half, worked out by hand, and its factor.
    READINGS = [
        ([(0, 0, 50), (2, 1, 50)], 1, Fraction(1, 2), 0),
        ([(0, 1, 50), (2, 2, 50)], 1, Fraction(3, 2), 2),
        ([(0, 0, 0), (2, 2, 200)], 1, Fraction(1, 2), 0),
        ([(0, 1, 0), (2, 3, 200)], 1, Fraction(3, 2), 2),
        ([(0, 2, 0), (2, 0, -200)], 3, Fraction(3, 2), 2),
        ([(0, 3, 0), (2, 1, -200)], 3, Fraction(5, 2), 2),
        ([(0, 1, 50), (2, 2, 50)], 2, Fraction(3, 2), 2),
        ([(0, 1, -300), (2, 1, 300)], 2, Fraction(-1, 2), 0),
        ([(0, 2, -500), (2, 2, 500)], 2, Fraction(-1, 2), 0),
        ([(0, 1, -500), (2, 1, 500)], 2, Fraction(-3, 2), -2),
        ([(0, 0, -500), (2, 0, 500)], 2, Fraction(-5, 2), -2),
        ([(0, 7, 300), (2, 7, -300)], 4, Fraction(17, 2), 8),
        ([(0, 8, 300), (2, 8, -300)], 4, Fraction(19, 2), 10),
        ([(0, 200000, 100), (2, 200000, -100)], 4, Fraction(400001, 2), 200000),
    ]

    def test_readings(self):
        for points, shape, exact, factor in self.READINGS:
            self.assertEqual(ref.exact_value(*lists(points), shape, 1), exact)
            curve, data = fc.Curve(points, shape), curve_file(points, shape)
            self.assertEqual(fc.read(*lists(points), shape, 1), factor)
            self.assertEqual(curve.read(1), factor)
            self.assertEqual(curve.sheet(1, 1, 1), [factor])
            self.assertEqual(curve.pair(1, 1), (factor, factor, 0))
            for desk, _ in DESKS:
                self.assertEqual(desk(data, 1), factor)

    def test_steps(self):
        """The bound of two units is attained: 0.5, 1.5 and 2.5 read 0, 2 and 2."""
        line = [(0, 0, 50), (6, 3, 50)]
        for shape in (1, 2, 4):
            self.assertEqual(fc.Curve(line, shape).sheet(1, 2, 3), [0, 2, 2])
        self.assertEqual(fc.Curve.from_file(os.path.join(ROOT, 'samples', 'straight.trf'))
                         .sheet(0, 1, 7), [0, 0, 1, 2, 2, 2, 3])

    def test_lines(self):
        """Halves at every other area, each with the factor of the exact fractions."""
        rng, seen = random.Random('halves'), set()
        for _ in range(60):
            points = curves.straight_curve(rng)
            first, last = points[0][0], points[-1][0]
            count = min(40, last - first + 1)
            for shape in curves.SHAPES:
                if ref.check(*lists(points), shape)[0] == 'ok':
                    self.assertEqual(fc.Curve(points, shape).sheet(first, 1, count),
                                     ref.sheet(*lists(points), shape, first, 1, count)[2])
                    for area in range(first, first + count):
                        exact = Fraction(ref.exact_value(*lists(points), shape, area))
                        if exact.denominator == 2:
                            seen.add((shape, exact // 1 % 2))
        self.assertEqual(len(seen), 8)

    def test_bent_segments(self):
        """Halves, and values beside them, that are made on purpose."""
        rng, halves = random.Random('bent'), 0
        for make, _, _ in half_kinds.KINDS:
            for call, *words in [case for _ in range(20) for case in make(rng)]:
                if call == 'read':
                    halves += Fraction(ref.exact_value(*words[0], *words[1:])).denominator == 2
                    self.assertEqual(fc.read(*words[0], *words[1:]),
                                     ref.factor(*words[0], *words[1:]))
        self.assertGreaterEqual(halves, 100)


def mirrored(points):
    """The points with each value taken from 200,000 and the slopes' signs changed."""
    return [(area, 200000 - value, -slope) for area, value, slope in points]


class FallingAndConcave(unittest.TestCase):
    """Document 02, item 4: shapes 3 and 4 are shapes 1 and 2 of the mirrored points."""

    # Points, shape, area and factor; the exact value, worked out by hand, beside it.
    DOWN = [(500, 14000, 0), (600, 10000, -10000)]
    HIGH = [(0, 200000, 10000), (2000, 200000, -10000)]
    READINGS = [
        (DOWN, 3, 550, 13111),                                      # 118000/9
        (DOWN, 3, 525, 13771),                                      # 96400/7
        (DOWN, 4, 550, 13200),
        (DOWN, 4, 525, 13818),                                      # 152000/11
        ([(0, 1, -50), (2, 0, -50)], 3, 1, 0),                      # 1/2
        ([(0, 1, -50), (2, 0, -50)], 4, 1, 0),                      # 1/2
        ([(0, 2, -50), (2, 1, -50)], 3, 1, 2),                      # 3/2
        ([(0, 200000, 100), (2, 200000, -100)], 4, 1, 200000),      # 400001/2
        ([(0, 5, 0), (10, 5, 0)], 3, 7, 5),
        ([(0, 200000, 300), (2, 200000, -300)], 4, 1, 200002),      # 400003/2
        (HIGH, 4, 1000, 250000),
        ([(1200, 10000, 0), (2000, 9000, -100)], 3, 1600, 9643),    # 67500/7
    ]
    SHAPELESS = [
        (STEEP, 3), (STEEP, 4), (DOWN, 1), (DOWN, 2), ([(0, 5, 0), (10, 5, -1)], 3),
        ([(0, 5, 0), (10, 4, 1)], 3), ([(0, 5, 1), (10, 4, 0)], 3),
        ([(0, 100, -100), (100, 0, -200)], 4), ([(0, 100, 0), (100, 0, -100)], 4),
        ([(0, 200000, -10000), (2000, 200000, 10000)], 4), ([(0, 7, -1), (10, 7, 1)], 4),
    ]

    def test_readings(self):
        for points, shape, area, factor in self.READINGS:
            curve, data = fc.Curve(points, shape), curve_file(points, shape)
            self.assertEqual(fc.check(*lists(points), shape), 1)
            self.assertEqual(fc.read(*lists(points), shape, area), factor)
            self.assertEqual(curve.read(area), factor)
            self.assertEqual(curve.sheet(area, 1, 1), [factor])
            self.assertEqual(curve.pair(area, area), (factor, factor, 0))
            for desk, _ in DESKS:
                self.assertEqual(desk(data, area), factor)
            self.assertEqual([curve.read(point[0]) for point in points],
                             [point[1] for point in points])

    def test_files(self):
        for points, shape, _, _ in self.READINGS:
            curve, data = fc.Curve(points, shape), curve_file(points, shape)
            self.assertEqual(curve.shape, shape)
            self.assertEqual(curve.to_bytes(), data)
            self.assertEqual(fc.Curve.from_bytes(data), curve)
            self.assertEqual(fc.open_bytes(data), fc.Lists(*map(tuple, lists(points)), shape))

    def test_refused(self):
        for points, shape in self.SHAPELESS:
            self.assertEqual(answer(fc.Curve, points, shape), ('refused', 6, 0), (points, shape))
            self.assertEqual(answer(fc.open_bytes, curve_file(points, shape)), ('refused', 6, 0))
        for code in (0, 5, 6, 255, 259, LARGEST):
            self.assertEqual(answer(fc.Curve, self.DOWN, code), ('refused', 2, 0))
        for code in (0, 5, 255):
            self.assertEqual(answer(fc.open_bytes, curve_file(self.DOWN, code)),
                             ('refused', 2, 0))

    def test_mirrored_curves(self):
        """The exact value of the mirror, taken from 200,000 and then rounded; as 200,000 is
        even, it is also the mirror's reading taken from it."""
        rng = random.Random('mirrored')
        halves = 0
        for index in range(200):
            shape = 1 + index % 2
            points = curves.some_curve(rng, shape)
            curve = fc.Curve(mirrored(points), shape + 2)
            self.assertEqual(curve.points, tuple(mirrored(points)))
            if ref.rule_used(*lists(points), shape) != shape:
                continue                    # the mirror is not read by it: see ConvexFirst
            for _ in range(8):
                area = curves.inner_area(rng, points)
                exact = 200000 - ref.exact_value(*lists(points), shape, area)
                halves += Fraction(exact).denominator == 2
                self.assertEqual(curve.read(area), ref.reading(exact))
                self.assertEqual(curve.read(area), 200000 - fc.Curve(points, shape).read(area))
        self.assertGreater(halves, 0)

    def test_shape_of_the_samples(self):
        """Their factors never rise, or their steps grow by at most two units."""
        falling, concave = (fc.Curve.from_file(os.path.join(ROOT, 'samples', name + '.trf'))
                            for name in ('large-home-discount', 'flattening'))
        self.assertEqual((falling.shape, concave.shape), (fc.FALLING, fc.CONCAVE))
        for curve in (falling, concave):
            factors = [curve.read(area) for area in range(curve.first_area, curve.last_area + 1)]
            if curve is falling:
                self.assertEqual(factors, sorted(factors, reverse=True))
                continue
            for apart in (1, 7, 100):
                for one, two, three in zip(factors, factors[apart:], factors[2 * apart:]):
                    self.assertLessEqual(three - two, two - one + 2)

    def test_slopes_are_filled_for_rising_curves_only(self):
        self.assertEqual(answer(fc.fill_slopes, [0, 10, 20], [9, 5, 1]), ('refused', 6, 0))
        self.assertEqual(answer(fc.Curve.rising, [0, 10, 20], [1, 5, 4]), ('refused', 6, 1))


def rising_and_convex(rng):
    """Points that pass both tests."""
    return curves.rising_convex_curve(rng, curves.some_count(rng))


class ConvexFirst(unittest.TestCase):
    """Document 02, item 8: a curve under code 1 that passes both tests is read by the convex rule.

    Of such a curve the reference has the factors under 2, which the item does not change; of one
    that fails the convex test anywhere, those under 1.
    """

    TURNED = [(500, 10000, 10000), (600, 14000, 0)]
    DOWN = [(500, 14000, 0), (600, 10000, -10000)]      # its mirror passes both tests
    BOTH = [(500, 10000, 0), (600, 11000, 2500), (700, 14000, 3001)]
    ONE_FAILS = BOTH[:2] + [(700, 14000, 3000)]
    # Points, shape, area and factor; the exact value, worked out by hand, beside it.
    READINGS = [
        (STEEP, 1, 550, 10800), (STEEP, 1, 525, 10182),                 # K1, K2: 112000/11
        ([(500, 10000, 2000), (600, 14000, 6000)], 1, 501, 10020),      # K5: 50101/5
        (BOTH, 1, 550, 10200), (BOTH, 1, 650, 12500),                   # 6262250/501
        (BOTH, 2, 550, 10200), (BOTH, 2, 650, 12500),
        (ONE_FAILS, 1, 550, 10222), (ONE_FAILS, 1, 650, 12435),         # 92000/9, 286000/23
        (TURNED, 1, 550, 13111), (TURNED, 1, 575, 13771),               # 118000/9, 96400/7
        (TURNED, 4, 550, 13200), (DOWN, 4, 550, 13200),
        (DOWN, 3, 550, 13111),                                          # 118000/9
        ([(400, 10000, 0)] + STEEP, 1, 550, 10800),                     # level, then convex
        ([(400, 9000, 0)] + STEEP, 1, 550, 10889),                      # 98000/9
        (STEEP + [(700, 20000, 5000)], 1, 550, 10889),
        (STEEP + [(700, 20000, 5000)], 1, 525, 10229),                  # 71600/7
    ]
    # Points, and the shape whose rule reads them under code 1.
    RULES = [
        (STEEP, 2), (TURNED, 1), (BOTH, 2), (ONE_FAILS, 1),
        ([(0, 5, 0), (9, 5, 0)], 2), ([(0, 0, 50), (6, 3, 50), (8, 4, 50)], 2),
        ([(0, 0, 50), (2, 1, 50), (4, 3, 200)], 2), ([(0, 0, 0), (2, 1, 50), (4, 2, 50)], 1),
        ([(0, 0, 99), (100, 100, 101)], 2), ([(0, 0, 101), (100, 100, 99)], 1),
        ([(0, 0, 100), (100, 100, 101)], 1), ([(0, 0, 99), (100, 100, 100)], 1),
        ([(0, 0, 100), (100, 100, 100)], 2),
        ([(500, 10000, 999)] + BOTH[1:], 2), ([(500, 10000, 1000)] + BOTH[1:], 1),
        (BOTH + [(800, 18000, 5000)], 2), (ONE_FAILS + [(800, 18000, 5000)], 1),
        (BOTH + [(800, 18000, 4000)], 1),
    ]

    def assert_factors(self, curve, shape):
        """By every call the factors that the reference has of these points under this code."""
        rng, columns = random.Random(repr(curve)), lists(curve.points)
        first, last, data = curve.first_area, curve.last_area, curve.to_bytes()
        step = max(1, (last - first) // 40)
        count = (last - first) // step + 1
        self.assertEqual(curve.sheet(first, step, count),
                         ref.sheet(*columns, shape, first, step, count)[2], curve)
        for _ in range(4):
            area, other = (curves.inner_area(rng, curve.points) for _ in range(2))
            factor = ref.factor(*columns, shape, area)
            self.assertEqual(curve.read(area), factor)
            self.assertEqual(fc.read(*columns, curve.shape, area), factor)
            self.assertEqual(curve.pair(area, other)[:2],
                             (factor, ref.factor(*columns, shape, other)))
            for desk, _ in DESKS:
                self.assertEqual(desk(data, area), factor)

    def assert_rule(self, curve, rule):
        """Under code 1, and that the library accepts the same points under 2 if it is 2."""
        self.assertEqual((curve.shape, curve.rule), (1, rule), curve)
        self.assertIs(type(curve.rule), int)
        given = answer(fc.check, *lists(curve.points), 2)
        self.assertEqual(given[0], 'ok' if rule == 2 else 'refused')
        self.assert_factors(curve, rule)

    def differ(self, one, two, points):
        """Whether two curves read two factors in the middle of any segment of these points."""
        middles = [(left[0] + right[0]) // 2 for left, right in zip(points, points[1:])]
        return [one.read(area) for area in middles] != [two.read(area) for area in middles]

    def test_readings(self):
        for points, shape, area, factor in self.READINGS:
            curve, data = fc.Curve(points, shape), curve_file(points, shape)
            self.assertEqual(fc.read(*lists(points), shape, area), factor, (points, shape, area))
            self.assertEqual(curve.read(area), factor)
            self.assertEqual(curve.sheet(area, 1, 1), [factor])
            self.assertEqual(curve.pair(area, area), (factor, factor, 0))
            for desk, _ in DESKS:
                self.assertEqual(desk(data, area), factor)
            self.assertEqual([curve.read(point[0]) for point in points],
                             [point[1] for point in points])

    def test_accepted(self):
        """Check asks of code 1 what it asked, and of code 2."""
        self.assertEqual(answer(fc.check, *lists(self.ONE_FAILS), 1), ('ok', 2))
        self.assertEqual(answer(fc.check, *lists(self.ONE_FAILS), 2), ('refused', 6, 1))
        dips = [(0, 5, -100), (10, 5, 100)]
        self.assertEqual(answer(fc.check, *lists(dips), 1), ('refused', 6, 0))
        self.assertEqual(answer(fc.check, *lists(dips), 2), ('ok', 1))
        self.assertEqual(answer(fc.Curve, [(0, 5, 0), (10, 5, 1)], 1), ('refused', 6, 0))

    def test_rules(self):
        for points, rule in self.RULES:
            self.assertEqual(ref.rule_used(*lists(points), 1), rule, points)
            self.assert_rule(fc.Curve(points, 1), rule)

    def test_other_codes(self):
        """Their rule is their own, also where the points or their mirror pass both tests."""
        level, line = [(0, 5, 0), (9, 5, 0)], [(0, 0, 50), (6, 3, 50)]
        for points, shape in [(STEEP, 2), (self.DOWN, 3), (self.DOWN, 4), (self.TURNED, 4),
                              (level, 2), (level, 3), (level, 4), (line, 2), (line, 4),
                              (mirrored(line), 3), *curves.random_curves('other codes', 40)]:
            if shape != 1:
                curve = fc.Curve(points, shape)
                self.assertEqual((curve.shape, curve.rule), (shape, shape))
                self.assert_factors(curve, shape)

    def test_same_points(self):
        """Accepted under 1 and under 2 they read alike, and stay two curves with two files."""
        rng, longer = random.Random('same points'), 0
        for _ in range(150):
            points = rising_and_convex(rng)
            rising, convex = fc.Curve(points, 1), fc.Curve(points, 2)
            self.assert_rule(rising, 2)
            self.assert_factors(convex, 2)
            self.assertNotEqual(rising, convex)
            longer += len(points) > 2
        self.assertGreater(longer, 30)

    def test_one_figure(self):
        """Points that pass both tests, with one figure changed."""
        rng, seen = random.Random('one figure'), set()
        for _ in range(400):
            points = curves.shapeless_points(rng, rising_and_convex(rng))
            given = ref.check(*lists(points), 1)
            convex = ref.check(*lists(points), 2)[0] == 'ok'
            seen.add((given[0], convex))
            self.assertEqual(answer(fc.check, *lists(points), 1), given)
            if given[0] == 'ok':
                self.assert_rule(fc.Curve(points, 1), 2 if convex else 1)
        self.assertEqual(len(seen), 4)

    def test_one_segment(self):
        """One more point, before or after; its segment rises and is not convex."""
        rng, changed = random.Random('one segment'), 0
        for _ in range(200):
            points = rising_and_convex(rng)[:63]
            (left, low, _), (right, high, _) = points[0], points[-1]
            before, after = (left - 1, low - 1, 101), (right + 1, high + 1, 0)
            for more in ([before] + points, points + [after]):
                if ref.check(*lists(more), 1)[0] == 'ok':
                    curve = fc.Curve(more, 1)
                    self.assert_rule(curve, 1)
                    changed += self.differ(curve, fc.Curve(points, 1), points)
        self.assertGreater(changed, 50)

    def test_never_falls(self):
        """A larger area never reads a smaller factor, by either rule."""
        rng = random.Random('never falls')
        for index in range(60):
            points = rising_and_convex(rng) if index % 2 else curves.some_curve(rng, 1)
            curve = fc.Curve(points, 1)
            start = rng.randint(curve.first_area, curve.last_area)
            factors = curve.sheet(start, 1, min(1024, curve.last_area - start + 1))
            self.assertEqual(factors, sorted(factors))

    def test_mirror(self):
        """Under code 3 it is read by the falling rule, whatever its mirror passes."""
        rng, differ = random.Random('mirror of both'), 0
        for _ in range(100):
            down = mirrored(rising_and_convex(rng))
            falling, concave = fc.Curve(down, 3), fc.Curve(down, 4)
            self.assertEqual((falling.rule, concave.rule), (3, 4))
            for curve in (falling, concave):
                self.assert_factors(curve, curve.shape)
            differ += self.differ(falling, concave, down)
        self.assertGreater(differ, 50)

    def test_files(self):
        """The code that was filed is given back."""
        for points, code in [(self.BOTH, 1), (self.BOTH, 2), (self.ONE_FAILS, 1)]:
            data, curve = curve_file(points, code), fc.Curve(points, code)
            self.assertEqual(curve.to_bytes(), data)
            self.assertEqual(fc.Curve.from_bytes(data), curve)
            self.assertEqual(fc.open_bytes(data).shape, code)
            self.assertEqual(fc.Curve.from_triples(triples(points), code), curve)
            for same in (fc.Curve.from_bytes(data), fc.Curve.from_triples(triples(points), code),
                         copy.copy(curve), pickle.loads(pickle.dumps(curve))):
                self.assertEqual((same.shape, same.rule), (code, curve.rule))

    def test_filled_slopes(self):
        """By the harmonic rule, of values that bend up and of values that do not."""
        for areas, values, slopes, rule in [
                ([0, 10, 40], [0, 10, 100], (83, 120, 750), 2),
                ([0, 30, 40], [0, 90, 100], (750, 120, 83), 1),
                ([0, 10, 30, 35], [0, 10, 10, 40], (200, 0, 0, 1200), 1),
                ([5, 8], [7, 7], (0, 0), 2)]:
            curve = fc.Curve.rising(areas, values)
            self.assertEqual(curve.slopes, slopes)
            self.assert_rule(curve, rule)

    def test_samples(self):
        named = {os.path.basename(path)[:-4]: opened(data)[1] for path, data in sample_files()
                 if opened(data)[0] == 'ok'}
        self.assertEqual([name for name, curve in named.items() if curve.rule != curve.shape],
                         ['same-points-rising'])
        for one, two, codes, alike in [
                ('same-points-rising', 'same-points-convex', (1, 2), True),
                ('steep-start-rising', 'steep-start-concave', (1, 4), False)]:
            pair = named[one], named[two]
            self.assertEqual((pair[0].shape, pair[1].shape), codes)
            self.assertEqual(pair[0].points, pair[1].points)
            areas = range(pair[0].first_area, pair[0].last_area + 1)
            differ = [area for area in areas if pair[0].read(area) != pair[1].read(area)]
            self.assertEqual(not differ, alike)


def filling(areas, values):
    """The reference's answer, where the list for the slopes is as long as the areas."""
    return wanted(ref.fill_slopes, areas, values, len(areas))


class Filling(unittest.TestCase):
    """The slopes that are filled are those of the exact fractions."""

    # Areas, values and slopes, or the refusal, by the request's words.
    EXAMPLES = [
        ([0, 10, 30, 35], [0, 10, 10, 40], ('ok', [200, 0, 0, 1200])),
        ([0, 3, 6, 10], [0, 1, 3, 3], ('ok', [25, 44, 0, 0])),
        ([0, 10, 40], [0, 10, 100], ('ok', [83, 120, 750])),
        ([0, 2000, 4000], [0, 1, 2], ('ok', [0, 0, 0])),
        ([5, 8], [7, 7], ('ok', [0, 0])),
        ([5, 8], [7, 8], ('ok', [33, 33])),
        ([0, 1], [0, 100], ('ok', [10000, 10000])),
        ([0, 1], [0, 101], ('refused', 5, 0)),
        ([0, 101], [0, 10101], ('ok', [10000, 10000])),     # the rounded slope counts
        ([0, 100], [0, 10001], ('refused', 5, 0)),
    ]
    REFUSED = [
        ([], [], 1, 0), ([0], [0], 1, 0), ([0, 1, 2], [0, 1], 1, 0), ([0, 1], [0, 1, 2], 1, 0),
        (range(65), range(65), 1, 0), (range(65), range(64), 1, 0), (range(64), range(65), 1, 0),
        ([20001], [0], 1, 0), ([0, 20001, 1], [9, 0], 1, 0),            # 1 before 3 and 6
        ([20001, 20002], [9, 0], 3, 0), ([0, 0], [9, 0], 3, 1), ([5, 4], [0, 1], 3, 1),
        ([0, 2001], [0, 1], 3, 1), ([0, LARGEST], [LARGEST, 0], 4, 0),
        ([0, 1], [0, 200001], 4, 1), ([0, 1, 1], [0, 200001, 0], 4, 1),
        ([0, 1, 1], [0, 0, 200001], 3, 2), ([0, 1, 2], [9, 0, 200001], 4, 2),
        ([0, 1], [1, 0], 6, 0), ([0, 1, 2, 3], [0, 5, 4, 3], 6, 1),
        ([0, 1, 2, 3], [0, 1, 2, 1], 6, 2), ([0, 1, 2], [0, 200000, 199999], 6, 1),  # before 5
        ([0, 10, 11, 12], [0, 10, 310, 610], 5, 2), ([0, 10, 20, 21], [0, 10, 20, 90], 5, 3),
        ([0, 1, 11], [0, 70, 80], 5, 0), ([0, 1, 2], [0, 51, 51], 5, 0),
    ]

    def test_examples(self):
        for areas, values, given in self.EXAMPLES:
            self.assertEqual(filling(areas, values), given)
            self.assertEqual(answer(fc.fill_slopes, areas, values), given)

    def test_refused(self):
        for areas, values, number, place in self.REFUSED:
            given = ('refused', number, place)
            self.assertEqual(filling(areas, values), given)
            self.assertEqual(answer(fc.fill_slopes, areas, values), given)
            self.assertEqual(answer(fc.Curve.rising, areas, values), given)

    def test_rising_curves(self):
        """Also that the exact fractions accept the curve with these slopes."""
        rng, seen = random.Random('filling'), set()
        for _ in range(400):
            areas, values, _ = lists(curves.rising_curve(rng, curves.some_count(rng)))
            given = filling(areas, values)
            self.assertEqual(answer(fc.fill_slopes, areas, values), given, (areas, values))
            seen.add(given[1] if given[0] == 'refused' else 0)
            if given[0] == 'ok':
                self.assertEqual(ref.check(areas, values, given[1], 1), ('ok', len(areas) - 1))
                curve = fc.Curve.rising(areas, values)
                self.assertEqual(curve, fc.Curve(zip(areas, values, given[1]), 1))
        self.assertEqual(seen, {0, 5})

    def test_faults(self):
        rng, seen = random.Random('faults of filling'), set()
        for points, _ in curves.random_curves('faults of filling', 300):
            change = rng.choice([curves.past_limit, curves.shapeless_points])
            areas, values, _ = curves.lists(change(rng, points))
            if rng.random() < 0.1:
                areas = areas[:-1]
            given = filling(areas, values)
            self.assertEqual(answer(fc.fill_slopes, areas, values), given, (areas, values))
            seen.add(given[1] if given[0] == 'refused' else 0)
        self.assertEqual(seen, {0, 1, 3, 4, 5, 6})

    def test_curve(self):
        class Tariff(fc.Curve):
            pass
        areas, values = [0, 10, 40], [0, 10, 100]
        points = [(0, 0, 83), (10, 10, 120), (40, 100, 750)]
        for curve in (fc.Curve.rising(areas, values), fc.Curve.rising(iter(areas), iter(values)),
                      fc.Curve.rising(map(Index, areas), tuple(map(Index, values))),
                      Tariff.rising(areas, values)):
            self.assertEqual((curve.points, curve.shape), (tuple(points), fc.RISING))
            self.assertEqual(curve.to_bytes(), curve_file(points, 1))
        self.assertIs(type(curve), Tariff)
        self.assertEqual((areas, values), ([0, 10, 40], [0, 10, 100]))

    def test_result(self):
        slopes = fc.fill_slopes(iter([0, 10, 40]), (0, 10, 100))
        self.assertEqual(slopes, [83, 120, 750])
        self.assertEqual({type(slope) for slope in slopes}, {int})

    def test_slope_list(self):
        """Its length counts under 1, and a refusal leaves it; a caller in C lends it."""
        call = _library.library().curve_fill_slopes
        areas, values = _calls._areas_and_values([0, 10, 40], [0, 10, 100])
        falling = _calls._areas_and_values([0, 10, 40], [0, 10, 9])[1]
        steep = _calls._areas_and_values([0, 10, 40], [0, 10, 9000])[1]
        for column, length, given, after in [
                (values, 3, 3, [83, 120, 750, 7]), (values, 2, -2**32, [7] * 4),
                (values, 4, -2**32, [7] * 4), (falling, 3, -6 * 2**32 - 1, [7] * 4),
                (steep, 3, -5 * 2**32 - 2, [7] * 4)]:
            out = (ctypes.c_int32 * 4)(7, 7, 7, 7)
            self.assertEqual(call(areas, 3, column, 3, out, length), given)
            self.assertEqual(list(out), after)


def nan(payload, sign=0):
    """A not-a-number with this payload; below 2**51 it is a signalling one."""
    return of_bits(sign << 63 | 0x7ff << 52 | payload)


class Triples(unittest.TestCase):
    """Document 02, item 7: points from the statistics package."""

    # Triples as rows of figures, a shape and the answer, by the request's words.
    INFINITE, NAN, LARGE = float('inf'), float('nan'), 1e300
    REFUSED = [
        ([], 1, 1, 0), ([], 7, 1, 0), (STEEP[:1], 2, 1, 0), (STEEP[:1], 0, 1, 0),
        ([(0.5, 0.5, 0.5)] * 65, 5, 1, 0),                                  # 1 before 2 and 14
        (STEEP, 0, 2, 0), (STEEP, 5, 2, 0), (STEEP, 258, 2, 0), (STEEP, LARGEST, 2, 0),
        ([(0.5, 0, 0), (-1, 0, 0)], 5, 2, 0),                               # 2 before 14 and 3
        ([(0, 0, 0.5), STEEP[1]], 2, 14, 0), ([STEEP[0], (600, 0.5, 0)], 2, 14, 1),
        ([(-1, -1, 0.5), STEEP[1]], 2, 14, 0),                              # 14 before 3 and 4
        ([(20001, 200001, 0.5), STEEP[1]], 2, 14, 0),
        ([(500, 200001, 0), (600.5, 0, 0)], 2, 4, 0),                       # the first point
        ([STEEP[0], (600, 14000, 10001), (0.5, 0, 0)], 2, 5, 1),
        ([STEEP[0], (INFINITE, 0, 0)], 2, 14, 1), ([STEEP[0], (0, -INFINITE, 0)], 2, 14, 1),
        ([(NAN, 0, 0), STEEP[1]], 2, 14, 0), ([(0, 0, NAN), STEEP[1]], 2, 14, 0),
        ([(-1, 0, 0), STEEP[1]], 2, 3, 0), ([STEEP[0], (-600, 14000, 0)], 2, 3, 1),
        ([(-1, -1, 10001), STEEP[1]], 2, 3, 0), ([(500, -1, 10001), STEEP[1]], 2, 4, 0),
        ([(500, -0.0, 10001), STEEP[1]], 2, 5, 0), ([(500, 1, -10001), STEEP[1]], 2, 5, 0),
        ([STEEP[0], (500, 14000, 0)], 2, 3, 1), ([STEEP[0], (2501, 14000, 0)], 2, 3, 1),
        ([(20001, 0, 0), (20002, 0, 0)], 1, 3, 0),
        ([(LARGE, 0, 0), STEEP[1]], 2, 3, 0), ([(-LARGE, 0, 0), STEEP[1]], 2, 3, 0),
        ([(0, LARGE, 0), STEEP[1]], 2, 4, 0), ([(0, -LARGE, 0), STEEP[1]], 2, 4, 0),
        ([(0, 0, LARGE), STEEP[1]], 2, 5, 0), ([(0, 0, -LARGE), STEEP[1]], 2, 5, 0),
        ([(2**32 + 500, 10000, 0), STEEP[1]], 2, 3, 0),     # never cut to 32 or 64 bits
        ([(500, 2**32 + 10000, 0), STEEP[1]], 2, 4, 0), ([(2**64, 0, 0), STEEP[1]], 2, 3, 0),
        ([(500, 10000, 2**32), STEEP[1]], 2, 5, 0), ([(500, 10000, -2**64), STEEP[1]], 2, 5, 0),
        ([(0, 0, 100), (100, 100, 200)], 2, 6, 0), (STEEP, 3, 6, 0),
        ([(400, 9000, 0)] + STEEP[::-1], 1, 3, 2),
        ([(400, 9000, 0), (450, 9000, 0), (500, 8000, 0)], 1, 6, 1),
    ]

    def same(self, data, shape):
        """Of both functions; the answer is the reference's."""
        given = imported(data, shape)
        self.assertEqual(answer(fc.import_triples, data, shape), given, data.hex())
        if given[0] == 'ok':
            given = ('ok', fc.Curve(zip(*given[1][:3]), shape))
        self.assertEqual(answer(fc.Curve.from_triples, data, shape), given)
        return given

    def assert_refused(self, data, shape, number, place):
        self.assertEqual(self.same(data, shape), ('refused', number, place), data.hex())
        with self.assertRaises(fc.Refused) as caught:
            fc.Curve.from_triples(data, shape)
        self.assertEqual(str(caught.exception), 'refused %d at %d: %s'
                         % (number, place, fc.refusal_words(number)))

    def test_examples(self):
        """Those of docs/SPECIFICATION.md, item 7."""
        data = triples(STEEP)
        self.assertEqual(self.same(data, 2), ('ok', fc.Curve(STEEP, 2)))
        minus_zero = data[:16] + bytes(7) + b'\x80' + data[24:]
        self.assertEqual(self.same(minus_zero, 2), ('ok', fc.Curve(STEEP, 2)))
        for shape in (0, 2, 9):
            self.assert_refused(data[:-1], shape, 13, 0)
            self.assert_refused(data[:24], shape, 1, 0)
        self.assert_refused(data, 5, 2, 0)
        for first, last, number, place in [
                (STEEP[0], (600, 14000, 0.5), 14, 1), ((-1, 10000, self.NAN), STEEP[1], 14, 0),
                ((500, 200001, 0), (600.5, 14000, 10000), 4, 0), ((-1, -1, 10001), STEEP[1], 3, 0),
                ((500, -1, 10001), STEEP[1], 4, 0), ((500, 10000, 1e300), STEEP[1], 5, 0)]:
            self.assert_refused(triples([first, last]), 2, number, place)
        self.assert_refused(data, 3, 6, 0)

    def test_bytes_of_document_01(self):
        data = bytes.fromhex('0000000000407f40' '000000000088c340' '0000000000000000'
                             '0000000000c08240' '000000000058cb40' '000000000088c340')
        self.assertEqual(data, triples(STEEP))
        self.assertEqual(fc.import_triples(data, 2),
                         fc.Lists((500, 600), (10000, 14000), (0, 10000), 2))
        curve = fc.Curve.from_triples(data, 2)
        self.assertEqual((curve, curve.read(550)), (fc.Curve(STEEP, 2), 10800))

    def test_accepted_curves(self):
        for points, shape in curves.random_curves('triples', 200):
            data = triples(points)
            self.assertEqual(len(data), fc.TRIPLE_SIZE * len(points))
            self.assertEqual(self.same(data, shape), ('ok', fc.Curve(points, shape)))
            self.assertEqual(fc.write(*fc.import_triples(data, shape)), curve_file(points, shape))
            given = fc.import_triples(data, shape)
            self.assertEqual({type(each) for column in given[:3] for each in column}, {int})

    def test_refused(self):
        seen = set()
        for points, shape, number, place in self.REFUSED:
            self.assert_refused(triples(points), shape, number, place)
            seen.add(number)
        self.assertEqual(seen, {1, 2, 14, 3, 4, 5, 6})

    def test_lengths(self):
        """13 comes before all else, and 1 is about the count alone."""
        flat = triples([(point, 5, 0) for point in range(300)])
        for length in [*range(100), *range(1530, 1600), 24 * 255, 24 * 256, 24 * 258, 7200]:
            for shape in (1, 5):
                given = self.same(flat[:length], shape)
                if length % 24:
                    self.assertEqual(given, ('refused', 13, 0))
                elif length < 48 or length > 64 * 24:
                    self.assertEqual(given, ('refused', 1, 0))
                else:
                    self.assertEqual(given[0], 'ok' if shape == 1 else 'refused')
        self.assert_refused(triples([(0.5, -1, 0)] * 2)[:-1], 7, 13, 0)
        self.assert_refused(triples([(0.5, -1, 0)] * 65) + b'x', 7, 13, 0)

    def test_long_input(self):
        """No lists of that length are made."""
        data = bytes(24 * 10**6)
        for more, number in [(0, 1), (1, 13), (23, 13)]:
            self.assertEqual(answer(fc.import_triples, data + bytes(more), 9),
                             ('refused', number, 0))

    def test_figures(self):
        """Each figure in each field of a straight line; what it is to be is worked out by hand."""
        whole = [0.0, -0.0, 1.0, 5.0, -5.0, -1.0]
        large = [2.0**51, 2.0**52 - 1, 2.0**52, 2.0**52 + 1, 2.0**53 - 1, 2.0**53, 2.0**53 + 2,
                 2.0**63, 2.0**64, 1e300, sys.float_info.max]
        broken = [0.5, 1.5, 1 - 2**-53, 1 + 2**-52, 5 - 2**-50, 5 + 2**-50, 2.0**51 - 0.5,
                  2.0**51 + 0.5, 2.0**52 - 0.5, 2.0**-1022, 5e-324, float('inf')]
        payloads = [1, 2**51 - 1, 2**51, 2**51 + 1, 2**52 - 1, 0x123456789abcd]
        none = [figure(sign * each) for each in broken for sign in (1, -1)]
        none += [nan(payload, sign) for payload in payloads for sign in (0, 1)]
        for field in range(3):
            for eight in none:
                self.assertEqual(self.with_figure(field, eight), ('refused', 14, 0))
            for each in large:
                for sign in (1, -1):
                    self.assertEqual(self.with_figure(field, figure(sign * each)),
                                     ('refused', 3 + field, 0))
            for each in whole:
                point = [10, 9, 100]
                point[field] = int(each)
                wrong = each < 0 and field < 2
                self.assertEqual(self.with_figure(field, figure(each)), ('refused', 3 + field, 0)
                                 if wrong else checked([point, (19, 18, 100)], 2))

    def with_figure(self, field, eight):
        """The answer to a straight line with one figure of the first point in place of its own."""
        made = rows([(10, 9, 100), (19, 18, 100)])
        made[0][field] = eight
        return self.same(joined(made), 2)

    def test_limits(self):
        """The largest and smallest figures that are taken, and their neighbours in binary64."""
        for points, field, limit in [
                ([(18000, 0, 0), (20000, 0, 0)], 0, 20000),
                ([(0, 0, 0), (1, 200000, 0)], 1, 200000),
                ([(0, 0, 0), (2000, 200000, 10000)], 2, 10000)]:
            self.assertEqual(self.same(triples(points), 1)[0], 'ok')
            bits = int.from_bytes(figure(limit), 'little')
            for eight, number in [(of_bits(bits + 1), 14), (of_bits(bits - 1), 14),
                                  (figure(limit + 1), 3 + field)]:
                made = rows(points)
                made[1][field] = eight
                self.assert_refused(joined(made), 1, number, 1)
        falling = [(0, 200000, -10000), (2000, 0, -10000)]
        self.assertEqual(self.same(triples(falling), 3), ('ok', fc.Curve(falling, 3)))
        self.assert_refused(triples([falling[0], (2000, 0, -10001)]), 3, 5, 1)

    def test_changed_figures(self):
        """One figure, or one bit, of an accepted curve changed."""
        rng, seen = random.Random('changed figures'), set()
        figures = [0.5, -1, -0.0, 1e300, 20001, 200001, 10001, -10001, float('inf'), float('nan'),
                   2.0**53, 1.5]
        for points, shape in curves.random_curves('changed figures', 250):
            made = rows(points)
            made[rng.randrange(len(points))][rng.randrange(3)] = rng.choice(
                [figure(rng.choice(figures)), of_bits(rng.getrandbits(64)),
                 nan(rng.getrandbits(52))])
            given = self.same(joined(made), shape)
            seen.add(given[1] if given[0] == 'refused' else 0)
            flipped = bytearray(triples(points))
            flipped[rng.randrange(len(flipped))] ^= 1 << rng.randrange(8)
            self.same(bytes(flipped), shape)
            self.same(bytes(flipped), rng.choice([0, 1, 2, 3, 4, 5, 256 + shape, LARGEST]))
        self.assertEqual(seen, {0, 14, 3, 4, 5, 6})

    def test_lent_lists(self):
        """Refusal 11, which only a caller with lists of its own can meet."""
        call = _library.library().curve_import
        flat = [(point, 5, 0) for point in range(65)]
        for points, shape, lengths in [
                (STEEP, 2, (2, 2, 2)), (STEEP, 2, (1, 2, 2)), (STEEP, 2, (2, 0, 2)),
                (STEEP, 2, (2, 2, 1)), (STEEP, 2, (5, 2, 70)), (STEEP, 7, (1, 2, 2)),
                (STEEP, 7, (2, 2, 2)), ([(0.5, 0, 0)] * 2, 2, (2, 2, 1)), (STEEP, 3, (2, 2, 2)),
                (flat, 1, (64, 64, 64)), (flat, 1, (65, 65, 64)), (flat, 1, (65, 65, 65)),
                (flat[:64], 1, (64, 65, 70)), ([], 1, (0, 0, 0)), (flat[:1], 1, (0, 0, 0))]:
            lent = [(kind * 70)(*range(900, 970))
                    for kind in (ctypes.c_uint32, ctypes.c_uint32, ctypes.c_int32)]
            before = [list(range(900, 900 + length)) for length in lengths]
            data = triples(points)
            for bytes_given in (data, data + b'x'):
                number, *after = ref.curve_import(bytes_given, shape, *before)
                self.assertEqual(call(bytes_given, len(bytes_given), shape, lent[0], lengths[0],
                                      lent[1], lengths[1], lent[2], lengths[2]), number)
                self.assertEqual([list(each) for each in lent], [
                    column + list(range(900 + len(column), 970)) for column in after])
                for each in lent:
                    each[:] = range(900, 970)

    def test_samples(self):
        (rising,) = [data for path, data in sample_files('.f64') if path.endswith('/rising.f64')]
        self.assertEqual(fc.Curve.from_triples(rising, 1),
                         fc.Curve.from_file(os.path.join(ROOT, 'samples', 'rising.trf')))
        for path, data in sample_files('.f64'):
            said = re.search(r'refused-(\d+)-', path)
            given = self.same(data, 1)
            self.assertEqual(given[:2] if said else given[0],
                             ('refused', int(said.group(1))) if said else 'ok')

    def test_shape_codes(self):
        data = triples(STEEP)
        for shape in (0, 5, 255, 257, LARGEST):
            self.assert_refused(data, shape, 2, 0)
        self.assertEqual(fc.Curve.from_triples(data, Index(2)), fc.Curve(STEEP, 2))
        self.assertIs(type(fc.import_triples(data, Index(2)).shape), int)

    def test_other_buffers(self):
        data = triples(STEEP)
        for same in (bytearray(data), memoryview(data), memoryview(b'x' + data)[1:],
                     memoryview(data[::-1])[::-1], array.array('B', data), array.array('b', data),
                     memoryview(data).cast('c'), memoryview(data).cast('B', shape=[2, 24]),
                     (ctypes.c_uint8 * 48).from_buffer_copy(data),
                     (ctypes.c_char * 48).from_buffer_copy(data)):
            self.assertEqual(fc.Curve.from_triples(same, 2), fc.Curve(STEEP, 2))
            self.assertEqual(fc.import_triples(same, 2), fc.import_triples(data, 2))
        memory = bytearray(data)
        fc.import_triples(memory, 2)
        memory.append(0)                        # nothing holds it after the call
        self.assertEqual(answer(fc.import_triples, memory, 2), ('refused', 13, 0))
        self.assertEqual(memory, data + b'\0')

    def test_no_bytes(self):
        for wrong in (5, None, 1.5, 'x' * 48, STEEP, tuple(map(float, range(6))), iter(STEEP)):
            for call in (fc.import_triples, fc.Curve.from_triples):
                with self.assertRaisesRegex(TypeError, 'must be bytes or an array of float64'):
                    call(wrong, 2)

    def test_subclass(self):
        class Tariff(fc.Curve):
            pass
        self.assertIs(type(Tariff.from_triples(triples(STEEP), 2)), Tariff)

    def test_threads(self):
        made = list(curves.random_curves('triples in threads', 200))
        words = [(triples(points), shape) for points, shape in made]
        with multiprocessing.pool.ThreadPool(4) as pool:
            given = pool.starmap(fc.Curve.from_triples, words)
        self.assertEqual(given, [fc.Curve(points, shape) for points, shape in made])


def checked(points, shape):
    """What the exact fractions say of points: the curve, or a refusal."""
    given = ref.check(*lists(points), shape)
    return given if given[0] == 'refused' else ('ok', fc.Curve(points, shape))


def table(points):
    """The points as an array of float64 with three columns, by the buffer protocol."""
    flat = array.array('d', [float(each) for point in points for each in point])
    return memoryview(flat).cast('B').cast('d', shape=[len(points), 3])


def ctypes_table(points, kind):
    return (kind * 3 * len(points))(*[(kind * 3)(*map(float, point)) for point in points])


class Arrays(unittest.TestCase):
    """Triples as arrays, numpy's and others."""

    def same(self, made, points, shape):
        given = checked(points, shape)
        self.assertEqual(answer(fc.Curve.from_triples, made, shape), given)
        if given[0] == 'ok':
            given = ('ok', fc.Lists(*map(tuple, lists(points)), shape))
        self.assertEqual(answer(fc.import_triples, made, shape), given)

    def test_of_the_buffer_protocol(self):
        for points, shape in curves.random_curves('arrays', 100):
            self.same(table(points), points, shape)
            self.same(table(points)[::2], points[::2], shape)
            self.same(table(points[::-1])[::-1], points, shape)
            self.same(ctypes_table(points, ctypes.c_double.__ctype_le__), points, shape)
            self.same(ctypes_table(points, ctypes.c_double.__ctype_be__), points, shape)

    @unittest.skipIf(_testbuffer is None, "CPython's _testbuffer is not installed")
    def test_orders_and_strides(self):
        for points, shape in curves.random_curves('strides', 100):
            count, flat = len(points), [float(each) for point in points for each in point]
            columns = [float(each) for column in lists(points) for each in column]
            wide = [each for point in points for figure in point for each in (figure, 0.5)]
            for order in ('', '@', '=', '<', '>', '!'):
                for items, strides, offset in [
                        (flat, [24, 8], 0), (columns, [8, 8 * count], 0),
                        (flat[::-1], [-24, -8], 8 * (3 * count - 1)), (wide, [48, 16], 0)]:
                    made = _testbuffer.ndarray(items, shape=[count, 3], strides=strides,
                                               offset=offset, format=order + 'd')
                    self.same(made, points, shape)

    def test_refused(self):
        for points, shape, number, place in Triples.REFUSED:
            if points:
                for made in (table(points), ctypes_table(points, ctypes.c_double.__ctype_be__)):
                    self.assertEqual(answer(fc.Curve.from_triples, made, shape),
                                     ('refused', number, place))
        for kind in (ctypes.c_double.__ctype_le__, ctypes.c_double.__ctype_be__):
            self.assertEqual(answer(fc.import_triples, ctypes_table([], kind), 1),
                             ('refused', 1, 0))

    def test_every_bit_counts(self):
        """Not-a-numbers keep their bits in either order: the library sees what the array has."""
        made = ctypes_table(STEEP, ctypes.c_double.__ctype_be__)
        for at, eight in [(0, nan(1)), (8, nan(2**51 - 1, 1)), (40, nan(0x123456789abcd))]:
            wrong = bytearray(bytes(made))
            wrong[at:at + 8] = eight[::-1]
            again = type(made).from_buffer_copy(bytes(wrong))
            little = bytearray(triples(STEEP))
            little[at:at + 8] = eight
            self.assertEqual(_calls._triples(again), bytes(little))
            self.assertEqual(answer(fc.import_triples, again, 2), ('refused', 14, at // 24))

    def test_other_figures(self):
        """No other kind of number is turned into binary64 by the package."""
        for code in 'fqQiIlLhH':
            flat = array.array(code, [500, 10000, 0, 600, 14000, 10000])
            for made in (flat, memoryview(flat).cast('B').cast(code, shape=[2, 3])):
                for call in (fc.import_triples, fc.Curve.from_triples):
                    with self.assertRaisesRegex(TypeError, r"float64, not of format '%s'; astype"
                                                r"\('float64'\)" % code):
                        call(made, 2)
        for kind in (ctypes.c_bool, ctypes.c_wchar, ctypes.c_float.__ctype_be__):
            self.assertRaises(TypeError, fc.import_triples, (kind * 3 * 2)(), 2)

    def test_other_shapes(self):
        flat = array.array('d', map(float, range(24)))
        for shape in ([24], [12, 2], [6, 4], [4, 6], [24, 1], [3, 8], [4, 3, 2], [8, 3, 1],
                      [1, 8, 3]):
            made = memoryview(flat).cast('B').cast('d', shape=shape)
            for call in (fc.import_triples, fc.Curve.from_triples):
                with self.assertRaisesRegex(ValueError, r'shape \(n, 3\), not \(%d,' % shape[0]) \
                        as caught:
                    call(made, 2)
                self.assertNotIsInstance(caught.exception, fc.Refused)
        self.assertRaises(ValueError, fc.import_triples, ctypes.c_double(5), 2)

    @unittest.skipIf(numpy is None, 'numpy is not installed')
    def test_numpy(self):
        for points, shape in curves.random_curves('numpy', 60):
            made = numpy.array(points, dtype='float64')
            wide = numpy.full((2 * len(points), 7), 0.5)
            wide[::2, 6:0:-2] = made
            for same in (made, made.astype('<f8'), made.astype('>f8'), numpy.asfortranarray(made),
                         numpy.asfortranarray(made.astype('>f8')), wide[::2, 6:0:-2],
                         made[::-1].copy()[::-1], made.T.copy().T):
                self.same(same, points, shape)
            self.same(numpy.frombuffer(triples(points), '<f8').reshape(-1, 3), points, shape)
            self.same(numpy.frombuffer(triples(points), 'uint8'), points, shape)
            self.same(numpy.frombuffer(b'x' + triples(points), '<f8', offset=1).reshape(-1, 3),
                      points, shape)
        self.assertEqual(answer(fc.import_triples, numpy.empty((0, 3)), 1), ('refused', 1, 0))
        for kind in ('float32', 'float16', 'longdouble', 'int64', 'uint32', 'object', 'bool',
                     'complex128', 'datetime64[D]'):
            self.assertRaises(TypeError, fc.import_triples, numpy.zeros((2, 3), kind), 1)
        for shape in ((6,), (3, 2), (2, 3, 1), ()):
            with self.assertRaisesRegex(ValueError, r'shape \(n, 3\)'):
                fc.import_triples(numpy.zeros(shape), 1)

    @unittest.skipIf(numpy is None, 'numpy is not installed')
    def test_numpy_is_not_imported(self):
        text = 'import sys, factor_curves, factor_curves.__main__; print("numpy" in sys.modules)'
        done = subprocess.run([sys.executable, '-c', text], stdout=subprocess.PIPE, timeout=60,
                              check=True)
        self.assertEqual(done.stdout, b'False\n')


class Index:
    """A whole number that is no int."""

    def __init__(self, number):
        self.number = number

    def __index__(self):
        return self.number


class Numbers(unittest.TestCase):
    """What does not fit the C types never reaches the library in another form."""

    UNSIGNED = [-1, -2**31, 2**32, 2**32 + 550, 2**64 + 550, 10**5000, -10**5000]
    SIGNED = [2**31, -2**31 - 1, 2**32, -2**32, 2**64, 10**5000]
    NO_NUMBERS = [550.0, '550', b'5', None, True, False, Fraction(550), [550], 5j]

    def calls(self):
        """(what it takes, a call with one number to be filled in, its name in messages)."""
        columns, data = lists(STEEP), curve_file(STEEP, 2)
        curve = fc.Curve(STEEP, 2)
        yield 'unsigned', lambda n: fc.check(*columns, n), 'shape'
        yield 'unsigned', lambda n: fc.write(*columns, n), 'shape'
        yield 'unsigned', lambda n: fc.Curve(STEEP, n), 'shape'
        yield 'unsigned', lambda n: fc.import_triples(triples(STEEP), n), 'shape'
        yield 'unsigned', lambda n: fc.Curve.from_triples(table(STEEP), n), 'shape'
        yield 'unsigned', lambda n: fc.read(*columns, 2, n), 'area'
        yield 'unsigned', lambda n: fc.pair(*columns, 2, n, 550), 'form'
        yield 'unsigned', lambda n: fc.pair(*columns, 2, 550, n), 'plan'
        yield 'unsigned', lambda n: fc.sheet(*columns, 2, n, 1, 1), 'start'
        yield 'unsigned', lambda n: fc.sheet(*columns, 2, 550, n, 1), 'step'
        yield 'unsigned', lambda n: fc.desk_reading(data, n), 'area'
        yield 'unsigned', lambda n: fc.desk_reading_two(data, n), 'area'
        yield 'unsigned', curve.read, 'area'
        yield 'unsigned', lambda n: curve.pair(n, 550), 'form'
        yield 'unsigned', lambda n: curve.pair(550, n), 'plan'
        yield 'unsigned', lambda n: curve.sheet(n, 1, 1), 'start'
        yield 'unsigned', lambda n: curve.sheet(550, n, 1), 'step'
        yield 'size', lambda n: curve.sheet(550, 1, n), 'count'
        yield 'size', lambda n: fc.sheet(*columns, 2, 550, 1, n), 'count'
        yield 'signed', fc.refusal_words, 'number'
        for field, name in enumerate(['areas', 'values', 'slopes']):
            kind = 'signed' if name == 'slopes' else 'unsigned'
            for at in range(2):
                message = r'%s\[%d\]' % (name, at)
                yield kind, lambda n, f=field, a=at: fc.check(*self.put(columns, f, a, n), 2), \
                    message
                yield kind, lambda n, f=field, a=at: fc.write(*self.put(columns, f, a, n), 2), \
                    message
                yield kind, lambda n, f=field, a=at: fc.Curve(
                    zip(*self.put(columns, f, a, n)), 2), message
                yield kind, lambda n, f=field, a=at: fc.Curve.from_lists(
                    *self.put(columns, f, a, n), 2), message
                if name != 'slopes':
                    yield kind, lambda n, f=field, a=at: fc.fill_slopes(
                        *self.put(columns, f, a, n)[:2]), message
                    yield kind, lambda n, f=field, a=at: fc.Curve.rising(
                        *self.put(columns, f, a, n)[:2]), message

    @staticmethod
    def put(columns, field, at, number):
        changed = copy.deepcopy(columns)
        changed[field][at] = number
        return changed

    def test_too_large(self):
        limits = {'unsigned': self.UNSIGNED, 'signed': self.SIGNED, 'size': [-1, 2**64, 10**5000]}
        for kind, call, name in self.calls():
            for number in limits[kind]:
                with self.assertRaisesRegex(OverflowError, '^%s must be from ' % name):
                    call(number)

    def test_no_whole_number(self):
        for _, call, name in self.calls():
            for number in self.NO_NUMBERS:
                with self.assertRaisesRegex(TypeError, '^%s must be a whole number' % name):
                    call(number)

    def test_largest_that_fit(self):
        columns = lists(STEEP)
        for number in (0, LARGEST):
            self.assertEqual(answer(fc.read, *columns, 2, number), ref.read(*columns, 2, number))
            self.assertEqual(answer(fc.check, *columns, number), ref.check(*columns, number))
        for number in (2**31 - 1, -2**31):
            wrong = self.put(columns, 2, 1, number)
            self.assertEqual(answer(fc.check, *wrong, 2), ref.check(*wrong, 2))

    def test_other_whole_numbers(self):
        points = [[Index(figure) for figure in point] for point in STEEP]
        curve = fc.Curve(points, Index(2))
        self.assertEqual(curve, fc.Curve(STEEP, 2))
        self.assertTrue(all(type(figure) is int for point in curve.points for figure in point))
        self.assertIs(type(curve.shape), int)
        self.assertEqual(curve.read(Index(550)), 10800)
        self.assertEqual(fc.write(*lists(points), Index(2)), curve_file(STEEP, 2))


class TheCurve(unittest.TestCase):

    def test_attributes(self):
        for points, shape in curves.random_curves('attributes', 20):
            curve = fc.Curve(points, shape)
            self.assertEqual(curve.points, tuple(points))
            self.assertEqual(list(zip(curve.areas, curve.values, curve.slopes)), points)
            self.assertEqual((curve.shape, curve.first_area, curve.last_area),
                             (shape, points[0][0], points[-1][0]))
            self.assertEqual(curve.points[1].slope, points[1][2])

    def test_methods(self):
        rng = random.Random('methods')
        for points, shape in curves.random_curves('methods', 25):
            curve, columns = fc.Curve(points, shape), lists(points)
            for area in (curves.inner_area(rng, points), curves.outer_area(rng, points)):
                inner = curves.inner_area(rng, points)
                self.assertEqual(answer(curve.read, area),
                                 wanted(ref.read, *columns, shape, area))
                self.assertEqual(answer(curve.pair, inner, area),
                                 wanted(ref.pair, *columns, shape, inner, area))
                for step, count in ((1, 3), (7, 2), (0, 1), (1, 0)):
                    self.assertEqual(answer(curve.sheet, area, step, count),
                                     wanted(ref.sheet, *columns, shape, area, step, count))
        pair = fc.Curve(STEEP, 2).pair(form=550, plan=525)
        self.assertEqual((pair.form, pair.plan, pair.difference), (10800, 10182, -618))

    def test_refused(self):
        for points, shape, number, place in [
                ([], 1, 1, 0), (STEEP[:1], 1, 1, 0), (STEEP, 0, 2, 0), (STEEP, 5, 2, 0),
                (STEEP + [(600, 1, 1)], 1, 3, 2), ([(500, 200001, 0)] + STEEP[1:], 2, 4, 0),
                (STEEP[:1] + [(600, 14000, 10001)], 2, 5, 1), (STEEP[::-1], 2, 3, 1),
                ([(0, 0, 100), (100, 100, 200)], 2, 6, 0)]:
            self.assertEqual(ref.check(*lists(points), shape), ('refused', number, place))
            self.assertEqual(answer(fc.Curve, points, shape), ('refused', number, place))
        for which in range(3):
            wrong = lists(STEEP + [(700, 20000, 10000)])
            wrong[which].pop()
            self.assertEqual(answer(fc.Curve.from_lists, *wrong, 2), ('refused', 1, 0))

    def test_points_that_are_none(self):
        for wrong in ([(500, 10000)], STEEP + [(700, 1, 2, 3)], [()]):
            with self.assertRaisesRegex(ValueError, 'must have an area, a value and a slope'):
                fc.Curve(wrong, 2)
        for wrong in (None, 5, [5, 6]):
            self.assertRaises(TypeError, fc.Curve, wrong, 2)

    def test_same_points(self):
        """Lists that change afterwards, and iterators, give the same curve."""
        points = [list(point) for point in STEEP]
        curve = fc.Curve(points, 2)
        points[1][1] = 0
        self.assertEqual((curve.points, curve.read(550)), (tuple(STEEP), 10800))
        self.assertEqual(fc.Curve(iter(STEEP), 2), curve)
        self.assertEqual(fc.Curve(curve.points, curve.shape), curve)
        self.assertEqual(fc.Curve.from_lists(*map(iter, lists(STEEP)), 2), curve)

    def test_never_changed(self):
        curve = fc.Curve(STEEP, 2)
        for name in ('points', 'shape', 'rule', 'areas', 'values', 'slopes', 'first_area',
                     'last_area', 'other'):
            with self.assertRaises(AttributeError):
                setattr(curve, name, 1)
        with self.assertRaises(TypeError):
            curve.points[0] = (0, 0, 0)
        with self.assertRaises(AttributeError):
            curve.points[0].area = 0

    def test_equality(self):
        curve, same = fc.Curve(STEEP, 2), fc.Curve.from_bytes(curve_file(STEEP, 2))
        other_points = fc.Curve([(500, 10000, 0), (600, 14001, 10000)], 2)
        self.assertEqual(curve, same)
        self.assertEqual(hash(curve), hash(same))
        self.assertEqual({curve: 'a'}[same], 'a')
        for other in (fc.Curve(STEEP, 1), other_points, STEEP, (tuple(STEEP), 2), None):
            self.assertNotEqual(curve, other)
        self.assertEqual(len({curve, same, fc.Curve(STEEP, 1), other_points}), 3)

    def test_copies(self):
        curve = fc.Curve(STEEP, 2)
        for same in (copy.copy(curve), copy.deepcopy(curve), pickle.loads(pickle.dumps(curve)),
                     eval(repr(curve), {'Curve': fc.Curve})):
            self.assertEqual(same, curve)
            self.assertEqual(same.read(550), 10800)

    def test_subclass(self):
        class Tariff(fc.Curve):
            pass
        made = Tariff.from_bytes(curve_file(STEEP, 2))
        self.assertIs(type(made), Tariff)
        self.assertTrue(repr(made).startswith('Tariff(['))
        self.assertEqual(made, fc.Curve(STEEP, 2))

    def test_threads(self):
        points = curves.rising_curve(random.Random('threads'), 40)
        curve, columns = fc.Curve(points, 1), lists(points)
        areas = range(points[0][0], points[-1][0] + 1)
        areas = [areas[index * (len(areas) - 1) // 200] for index in range(201)]
        with multiprocessing.pool.ThreadPool(4) as pool:
            factors = pool.map(curve.read, areas)
        self.assertEqual(factors, [ref.read(*columns, 1, area)[1] for area in areas])


class Refusals(unittest.TestCase):

    def test_exception(self):
        with self.assertRaises(ValueError) as caught:
            fc.Curve([(0, 5, 0), (9, 5, 0), (10, 5, 1)], 1)
        refusal = caught.exception
        self.assertIsInstance(refusal, fc.Refused)
        self.assertEqual((refusal.number, refusal.place), (6, 1))
        self.assertEqual(refusal.words, fc.refusal_words(6))
        self.assertEqual(str(refusal), 'refused 6 at 1: ' + fc.refusal_words(6))
        same = pickle.loads(pickle.dumps(refusal))
        self.assertEqual((str(same), same.number, same.place, same.words),
                         (str(refusal), 6, 1, refusal.words))

    def test_without_a_place(self):
        for desk, _ in DESKS:
            with self.assertRaises(fc.Refused) as caught:
                desk(curve_file(STEEP, 2), 499)
            self.assertEqual(caught.exception.number, fc.Refusal.OUTSIDE)
            self.assertIsNone(caught.exception.place)
            self.assertEqual(str(caught.exception), 'refused 7: ' + fc.refusal_words(7))

    def test_words(self):
        """Each number has words of its own: those that stand in c/refusal_words.c."""
        with open(os.path.join(ROOT, 'c', 'refusal_words.c'), encoding='ascii') as file:
            text = re.sub(r'"\s*"', '', file.read())
        words = [fc.refusal_words(number) for number in range(15)]
        self.assertEqual(len(set(words)), 15)
        for each in words:
            self.assertIn('return "%s";' % each, text)
        for number in (-1, 15, 2**31 - 1, -2**31):
            self.assertEqual(fc.refusal_words(number), words[0])

    def test_words_for_figures(self):
        """Those of 3 and 4 fit negative figures too, which triples can have."""
        for number, words in [
                (fc.Refusal.AREA, 'an area is outside 0 to 20,000, not larger than the one before,'
                 ' or more than 2,000 beyond it'),
                (fc.Refusal.VALUE, 'a value is outside 0 to 200,000'),
                (fc.Refusal.SLOPE, 'a slope is outside -10,000 to 10,000'),
                (fc.Refusal.TRIPLES, 'the length of the triples is no multiple of 24 bytes'),
                (fc.Refusal.FIGURE, 'a figure is not a finite whole number')]:
            self.assertEqual(fc.refusal_words(number), words)

    def test_words_for_the_shape_code(self):
        """They name every code; the README has the same."""
        words = fc.refusal_words(fc.Refusal.SHAPE)
        self.assertEqual(words, 'the shape code is none of 1 (rising), 2 (convex), 3 (falling),'
                         ' 4 (concave)')
        with open(os.path.join(ROOT, 'README.md'), encoding='utf-8') as file:
            self.assertIn('\n| 2 | %s |\n' % words, file.read())


class Package(unittest.TestCase):

    def defines(self, name):
        with open(os.path.join(ROOT, 'include', name), encoding='ascii') as file:
            return dict(re.findall(r'^#define (\w+) (\S+)', file.read(), re.MULTILINE))

    def test_constants_are_the_header_s(self):
        header = self.defines('factor_curves.h')
        shapes = ('RISING', 'CONVEX', 'FALLING', 'CONCAVE')
        for name in shapes + ('POINTS_MAX', 'ENTRIES_MAX', 'FILE_MAX', 'COUNT_MAX'):
            self.assertEqual(getattr(fc, name), int(header['CURVE_' + name]), name)
        self.assertEqual([getattr(fc, name) for name in shapes], [1, 2, 3, 4])
        self.assertEqual(fc.SHAPE_NAMES, {getattr(fc, name): name.lower() for name in shapes})
        numbers = {name[14:]: int(number) for name, number in header.items()
                   if name.startswith('CURVE_REFUSED_')}
        self.assertEqual({each.name: each.value for each in fc.Refusal}, numbers)
        self.assertEqual(len(numbers), 14)
        self.assertEqual((fc.Refusal.TRIPLES, fc.Refusal.FIGURE), (13, 14))
        self.assertEqual(fc.TRIPLE_SIZE, int(header['CURVE_TRIPLE_BYTES']))
        self.assertEqual(fc.TRIPLE_SIZE, 24)
        desk = self.defines('desk.h')
        self.assertEqual(fc.SCRATCH_ENOUGH,
                         int(desk['DESK_POINT_BYTES']) * int(header['CURVE_COUNT_MAX']))
        self.assertEqual(fc.SCRATCH_TWO, int(desk['DESK_SCRATCH_TWO']))
        self.assertEqual(fc.SCRATCH_TWO, 24)

    def test_version(self):
        with open(os.path.join(ROOT, 'VERSION'), encoding='ascii') as file:
            version = file.read().strip()
        self.assertEqual(fc.__version__, version)
        with open(os.path.join(PACKAGE, '__init__.py'), encoding='ascii') as file:
            self.assertIn('\n__version__ = "%s"\n' % version, file.read())

    def test_names(self):
        self.assertEqual(sorted(fc.__all__), sorted(
            name for name in vars(fc) if not name.startswith('_')))
        for name in ('SCRATCH_TWO', 'TRIPLE_SIZE', 'desk_reading', 'desk_reading_two',
                     'import_triples'):
            self.assertIn(name, fc.__all__)
        for name in fc.__all__:
            thing = getattr(fc, name)
            if callable(thing):
                self.assertTrue(thing.__doc__, name)
                typing.get_type_hints(thing)    # the annotations are good in this Python
                if isinstance(thing, type):
                    self.assertEqual(thing.__module__, 'factor_curves')
        for name, thing in vars(fc.Curve).items():
            if not name.startswith('_'):
                self.assertTrue(thing.__doc__, name)
                typing.get_type_hints(getattr(thing, 'fget', None) or getattr(fc.Curve, name))
        self.assertTrue(os.path.exists(os.path.join(PACKAGE, 'py.typed')))

    def test_documented_examples(self):
        before = os.getcwd()
        with tempfile.TemporaryDirectory() as folder:
            os.symlink(os.path.join(ROOT, 'samples'), os.path.join(folder, 'samples'))
            os.chdir(folder)
            try:
                for result in (doctest.testmod(fc), doctest.testfile(
                        os.path.join(ROOT, 'python', 'README.md'), module_relative=False)):
                    self.assertEqual(result.failed, 0)
                    self.assertGreater(result.attempted, 4)
            finally:
                os.chdir(before)

    def test_examples_of_functions(self):
        for thing in (fc.import_triples, fc.Curve.from_triples):
            (test,) = doctest.DocTestFinder().find(thing, globs=dict(vars(fc)))
            result = doctest.DocTestRunner().run(test)
            self.assertEqual(result.failed, 0)
            self.assertGreater(result.attempted, 1)


FIND = '''
import sys
sys.path.insert(0, sys.argv[1])
if len(sys.argv) > 2:
    sys.prefix = sys.argv[2]
import factor_curves
from factor_curves import _calls, _library
print(list(_library._places())[:-1])
print(factor_curves.check([500, 600], [10000, 14000], [0, 10000], 2))
print(_library.library()._name)
'''


class Finding(unittest.TestCase):
    """Where the library is looked for."""

    def setUp(self):
        folder = tempfile.TemporaryDirectory()
        self.addCleanup(folder.cleanup)
        self.folder = os.path.realpath(folder.name)
        self.python = os.path.join(self.folder, 'python')
        shutil.copytree(PACKAGE, os.path.join(self.python, 'factor_curves'),
                        ignore=shutil.ignore_patterns('*.so', '__pycache__'))

    def run_find(self, *words, library=None):
        environment = dict(os.environ, PYTHONDONTWRITEBYTECODE='1')
        environment.pop('FACTOR_CURVES_LIBRARY', None)
        if library is not None:
            environment['FACTOR_CURVES_LIBRARY'] = library
        return subprocess.run([sys.executable, '-c', FIND, self.python, *words], env=environment,
                              cwd=self.folder, stdout=subprocess.PIPE, stderr=subprocess.PIPE,
                              universal_newlines=True, timeout=60)

    def put_library(self, *parts):
        path = os.path.join(self.folder, *parts, 'libfactor_curves.so')
        os.makedirs(os.path.dirname(path), exist_ok=True)
        shutil.copyfile(LIBRARY, path)
        return path

    def assert_found(self, path, *words, library=None):
        done = self.run_find(*words, library=library)
        self.assertEqual(done.stdout.splitlines()[1:], ['1', path], done.stderr)

    def test_order(self):
        prefix = os.path.join(self.folder, 'prefix')
        self.assert_found(self.put_library('prefix', 'lib'), prefix)
        in_target = self.put_library('target', 'lib')
        self.assert_found(os.path.join(prefix, 'lib', 'libfactor_curves.so'), prefix)
        shutil.copyfile(os.path.join(ROOT, 'python', 'pyproject.toml'),
                        os.path.join(self.python, 'pyproject.toml'))
        self.assert_found(in_target, prefix)
        in_package = self.put_library('python', 'factor_curves')
        self.assert_found(in_package, prefix, library='')
        places = self.run_find(prefix).stdout.splitlines()[0]
        self.assertEqual(eval(places), [
            in_package, in_target, os.path.join(prefix, 'lib', 'libfactor_curves.so'),
            '/usr/local/lib/libfactor_curves.so', '/usr/lib/libfactor_curves.so'])

    def test_variable(self):
        self.put_library('python', 'factor_curves')
        elsewhere = self.put_library('elsewhere')
        self.assert_found(elsewhere, library=elsewhere)
        self.assert_found(elsewhere, library='elsewhere/libfactor_curves.so')

    def test_a_bad_one_is_passed_over(self):
        prefix = os.path.join(self.folder, 'prefix')
        good = self.put_library('prefix', 'lib')
        bad = self.put_library('python', 'factor_curves')
        with open(bad, 'wb') as file:
            file.write(b'no library')
        self.assert_found(good, prefix)

    def test_none(self):
        self.put_library('python', 'factor_curves')         # not tried
        import _ctypes
        for named, words in [('none.so', 'No such file'), (self.folder, ''),
                             (os.path.join(ROOT, 'VERSION'), ''),
                             (_ctypes.__file__, 'curve_check')]:
            done = self.run_find(library=named)
            self.assertEqual(done.returncode, 1)
            error = done.stderr[done.stderr.index('factor_curves.LibraryNotFound: '):]
            self.assertIn(os.path.join(self.folder, named), error)
            self.assertIn(words, error)
            self.assertIn('FACTOR_CURVES_LIBRARY', error)
            self.assertIn('`make`', error)
        self.assertTrue(issubclass(fc.LibraryNotFound, OSError))


if __name__ == '__main__':
    unittest.main()
