"""Tests of the program ratesheet: its text, its arguments, and what it says when it cannot read or write.

    python3 tests/test_ratesheet.py

RATESHEET names the program; without it target/bin/ratesheet is tried. Expected sheets are exact_fractions.py's.
"""

import fcntl
import os
import random
import re
import resource
import signal
import socket
import subprocess
import sys
import tempfile
import time
import unittest

sys.path.insert(0, os.path.dirname(os.path.abspath(__file__)))
import curves
import exact_fractions
from curve_file import curve_file

ROOT = os.path.join(os.path.dirname(os.path.abspath(__file__)), '..')
PROGRAM = os.path.abspath(os.environ.get('RATESHEET') or os.path.join(ROOT, 'target', 'bin', 'ratesheet'))
F_SETPIPE_SZ = getattr(fcntl, 'F_SETPIPE_SZ', 1031)     # Python has it from 3.10 on
USAGE = b'usage: ratesheet [--help | --version] < FILE\n'
CANNOT_READ = b'ratesheet: cannot read standard input: '
CANNOT_WRITE = b'ratesheet: cannot write standard output: '


def read_file(*path):
    with open(os.path.join(ROOT, *path), 'rb') as file:
        return file.read()


EXAMPLE = read_file('samples', 'document-01.trf')
LONGEST = read_file('samples', 'whole-range.trf')
REFUSED = read_file('samples', 'refused-6-no-shape.trf')


def sheet(data):
    """The text that the program is to print for these bytes."""
    return exact_fractions.ratesheet(data).encode()


def run(*words, data=None, **options):
    """Standard output and standard error are caught unless the options say otherwise."""
    caught = {'stdout': subprocess.PIPE, 'stderr': subprocess.PIPE}
    if data is not None:
        caught['input'] = data
    elif 'stdin' not in options:
        caught['stdin'] = subprocess.DEVNULL
    return subprocess.run([PROGRAM, *words], timeout=20, **{**caught, **options})


class Sheets(unittest.TestCase):
    def expect(self, data):
        got = run(data=data)
        self.assertEqual((got.stdout, got.stderr, got.returncode), (sheet(data), b'', 0))
        return got.stdout

    def test_document_01(self):
        self.assertEqual(self.expect(EXAMPLE), b'shape 2 points 2\n500 10000\n525 10182\n550 10800\n575 12000\n600 14000\n')

    def test_refusal(self):
        self.assertEqual(self.expect(REFUSED), b'refused 6 at 0\n')

    def test_empty_input(self):
        self.assertEqual(self.expect(b''), b'refused 9 at 0\n')

    def test_falling_and_concave(self):
        """The exact value at 25 is 1/2, which goes to the even unit, and 200,000 + 1,250."""
        falls, bends = [(0, 1, -2), (50, 0, -2)], [(0, 200000, 10000), (50, 200000, -10000)]
        self.assertEqual(self.expect(curve_file(falls, 3)), b'shape 3 points 2\n0 1\n25 0\n50 0\n')
        self.assertEqual(self.expect(curve_file(falls, 4)), b'shape 4 points 2\n0 1\n25 0\n50 0\n')
        self.assertEqual(self.expect(curve_file(bends, 4)), b'shape 4 points 2\n0 200000\n25 201250\n50 200000\n')
        self.assertEqual(self.expect(curve_file(bends, 3)), b'refused 6 at 0\n')

    def test_halves(self):
        """Document 02, item 6: 1/2, 3/2 and 5/2 at 25, 75 and 125; -3/2 and -1/2 at 25."""
        line, low, deep = [(0, 0, 2), (150, 3, 2)], [(0, 1, -12), (50, 1, 12)], [(0, 0, -12), (50, 0, 12)]
        for shape in (1, 2, 4):
            self.assertEqual(self.expect(curve_file(line, shape)),
                             b'shape %d points 2\n0 0\n25 0\n50 1\n75 2\n100 2\n125 2\n150 3\n' % shape)
        self.assertEqual(self.expect(curve_file(low, 2)), b'shape 2 points 2\n0 1\n25 0\n50 1\n')
        self.assertEqual(self.expect(curve_file(deep, 2)), b'shape 2 points 2\n0 0\n25 -2\n50 0\n')

    def test_rising_and_convex(self):
        """Document 02, item 8: K1 is read by the convex rule, and its code stays. Before a segment that fails the convex test
        it reads 10,229 and 10,889, as it did, and 84400/7 at 575."""
        first = b'shape 1 points %d\n500 10000\n'
        both, missed = EXAMPLE[:5] + b'\1' + EXAMPLE[6:], [(500, 10000, 0), (600, 14000, 10000), (625, 15000, 0)]
        self.assertEqual(self.expect(both), first % 2 + b'525 10182\n550 10800\n575 12000\n600 14000\n')
        self.assertEqual(self.expect(curve_file(missed, 1)),
                         first % 3 + b'525 10229\n550 10889\n575 12057\n600 14000\n625 15000\n')

    def test_shape_codes(self):
        level = [(0, 5, 0), (25, 5, 0)]
        for code in range(256):
            self.assertEqual(self.expect(curve_file(level, code)),
                             b'shape %d points 2\n0 5\n25 5\n' % code if 1 <= code <= 4 else b'refused 2 at 0\n')

    def test_801_lines(self):
        self.assertEqual(self.expect(LONGEST).count(b'\n'), 802)

    def test_lengths_around_the_limit(self):
        flat = [(point, 5, 0) for point in range(66)]
        longest = curve_file(flat[:64], 1)
        self.assertEqual(len(longest), 775)
        self.assertTrue(self.expect(longest).startswith(b'shape 1 points 64\n'))
        self.assertEqual(self.expect(longest + b'\0'), b'refused 10 at 0\n')
        fits = curve_file(flat[:65], 1)
        self.assertEqual(len(fits), 787)
        self.assertEqual(self.expect(fits), b'refused 10 at 0\n')
        self.assertEqual(self.expect(b'X' + fits[1:]), b'refused 9 at 0\n')
        self.assertEqual(self.expect(longest + bytes(200000)), b'refused 10 at 0\n')

    def test_short_files(self):
        for length in range(31):
            self.expect(EXAMPLE[:length])

    def test_random_files(self):
        rng = random.Random('sheets 2')
        for index in range(120):
            shape = 1 + index % 4
            self.expect(curve_file(curves.some_curve(rng, shape), shape))
        for _ in range(20):
            points = curves.rising_convex_curve(rng, curves.some_count(rng))
            self.assertEqual(self.expect(curve_file(points, 1))[7:], self.expect(curve_file(points, 2))[7:])
        for index in range(20):             # lines, many with a half every 50 tenths
            self.expect(curve_file(curves.straight_curve(rng), 2 + index % 3))

    def test_input_in_small_pieces(self):
        process = subprocess.Popen([PROGRAM], stdin=subprocess.PIPE, stdout=subprocess.PIPE, bufsize=0)
        for start in range(0, len(EXAMPLE), 7):
            process.stdin.write(EXAMPLE[start:start + 7])
            time.sleep(0.02)
        self.assertEqual(process.communicate(timeout=20)[0], sheet(EXAMPLE))

    def test_one_write(self):
        for data in (LONGEST, REFUSED):
            ours, its = socket.socketpair(socket.AF_UNIX, socket.SOCK_SEQPACKET)    # a message for each write
            with ours:
                with its:
                    run(data=data, stdout=its)
                self.assertEqual(ours.recv(1 << 20), sheet(data))
                self.assertEqual(ours.recv(1 << 20), b'')


class ManualPage(unittest.TestCase):
    def test_examples(self):
        """They print what the page says; `head` takes the first lines."""
        page = read_file('man', 'ratesheet.1').decode('ascii').replace('\\-', '-')
        examples = page.split('.SH EXAMPLES\n.nf\n')[1].split('.fi\n')[0]
        found = re.findall(r'^\$ ratesheet < (\S+)(?: \| head -n (\d+))?\n((?:[^$].*\n)*)', examples, re.MULTILINE)
        self.assertEqual(len(found), examples.count('$ '))
        for path, lines, text in found:
            printed = run(data=read_file(path)).stdout.decode('ascii').splitlines(True)
            self.assertEqual(''.join(printed[:int(lines)] if lines else printed), text, path)
        self.assertEqual(len(found), 4)


class Arguments(unittest.TestCase):
    def test_help(self):
        got = run('--help')
        self.assertTrue(got.stdout.startswith(USAGE))
        self.assertIn(b'--version', got.stdout[len(USAGE):])
        self.assertTrue(got.stdout.endswith(b'\n'))
        self.assertEqual((got.stderr, got.returncode), (b'', 0))

    def test_version(self):
        got = run('--version')
        self.assertEqual((got.stdout, got.stderr), (b'ratesheet ' + read_file('VERSION').strip() + b'\n', b''))

    def test_version_stands_once_in_the_source(self):
        literal = b'b"ratesheet %s\\n"' % read_file('VERSION').strip()
        self.assertEqual(read_file('crates', 'ratesheet', 'src', 'main.rt').count(literal), 1)

    def test_input_is_not_read(self):
        for word in ('--help', '--version'):
            got = run(word, stdin=None, preexec_fn=lambda: os.close(0))
            self.assertEqual((got.stdout != b'', got.stderr), (True, b''))

    def test_other_arguments(self):
        others = [('',), ('-h',), ('--hel',), ('--helpx',), ('--Version',), ('--version ',), ('x' * 16,), ('--help' + 'x' * 10,),
                  ('--help' + 'x' * 11,), ('y' * 100000,), ('samples/document-01.trf',), ('--',), ('--help', '--help'),
                  ('--version', ''), ('', ''), ('--help', 'x', 'y')]
        for words in others:
            got = run(*words, data=EXAMPLE)
            self.assertEqual((got.stdout, got.stderr, got.returncode), (b'', USAGE, 0), words)


class CannotRead(unittest.TestCase):
    def expect(self, reason, **options):
        got = run(**options)
        self.assertEqual((got.stdout, got.stderr), (b'', CANNOT_READ + reason + b'\n'))

    def test_closed(self):
        self.expect(b'Bad file descriptor', stdin=None, preexec_fn=lambda: os.close(0))

    def test_open_for_writing_only(self):
        with open(os.devnull, 'wb') as file:
            self.expect(b'Bad file descriptor', stdin=file)

    def test_directory(self):
        folder = os.open(ROOT, os.O_RDONLY)
        try:
            self.expect(b'Is a directory', stdin=folder)
        finally:
            os.close(folder)

    def test_failure_after_some_bytes(self):
        reader, writer = os.pipe()
        try:
            os.set_blocking(reader, False)
            os.write(writer, EXAMPLE)
            self.expect(b'Resource temporarily unavailable', stdin=reader)
        finally:
            os.close(reader)
            os.close(writer)


class CannotWrite(unittest.TestCase):
    def expect(self, got, reason):
        self.assertEqual((got.stderr, got.returncode), (CANNOT_WRITE + reason + b'\n', 0))

    @unittest.skipUnless(os.path.exists('/dev/full'), 'no /dev/full')
    def test_full_device(self):
        with open('/dev/full', 'wb') as full:
            for data in (EXAMPLE, LONGEST, REFUSED, b''):
                self.expect(run(data=data, stdout=full), b'No space left on device')
            for word in ('--help', '--version'):
                self.expect(run(word, stdout=full), b'No space left on device')

    def test_closed(self):
        self.expect(run(data=EXAMPLE, stdout=None, preexec_fn=lambda: os.close(1)), b'Bad file descriptor')

    def test_both_outputs_closed(self):
        got = run(data=EXAMPLE, stdout=None, stderr=None, preexec_fn=lambda: os.closerange(1, 3))
        self.assertEqual(got.returncode, 0)

    def test_file_size_limit(self):
        def limit():
            signal.signal(signal.SIGXFSZ, signal.SIG_IGN)
            resource.setrlimit(resource.RLIMIT_FSIZE, (most, most))

        for most in (0, 1, 100, 4096, 8000, len(sheet(LONGEST)) - 1):
            with tempfile.TemporaryFile() as file:
                self.expect(run(data=LONGEST, stdout=file, preexec_fn=limit), b'File too large')
                file.seek(0)
                self.assertEqual(file.read(), sheet(LONGEST)[:most])
        most = len(sheet(LONGEST))
        with tempfile.TemporaryFile() as file:
            self.assertEqual(run(data=LONGEST, stdout=file, preexec_fn=limit).stderr, b'')

    def test_pipe_without_a_reader(self):
        reader, writer = os.pipe()
        os.close(reader)
        got = run(data=EXAMPLE, stdout=writer)
        os.close(writer)
        # The program starts with SIGPIPE ignored and ends by itself, with the status that a shell shows for it.
        self.assertEqual(got.returncode, 128 + signal.SIGPIPE)

    def pipe_with_room(self, room):
        """A pipe that never waits and takes no more than `room` bytes: its two ends, and what it holds."""
        reader, writer = os.pipe()
        os.set_blocking(reader, False)
        os.set_blocking(writer, False)
        size = fcntl.fcntl(writer, F_SETPIPE_SZ, 65536)
        held = b'.' * (size - room)
        self.assertEqual(os.write(writer, held), len(held))
        return reader, writer, held

    def test_full_pipe(self):
        for room in (0, 4096, 8192):
            reader, writer, held = self.pipe_with_room(room)
            got = run(data=LONGEST, stdout=writer)
            self.expect(got, b'Resource temporarily unavailable')
            os.close(writer)
            text = os.read(reader, 1 << 20)
            os.close(reader)
            self.assertEqual(text[:len(held)], held)
            self.assertEqual(text[len(held):], sheet(LONGEST)[:room])


if __name__ == '__main__':
    unittest.main()
