"""The command line: python3 -m factor_curves, installed as factor-curves."""

import argparse
import os
import re
import struct
import sys
from typing import Any, List, NoReturn, Optional

from . import (ENTRIES_MAX, FILE_MAX, RISING, SHAPE_NAMES, TRIPLE_SIZE, Curve, LibraryNotFound,
               Lists, Refusal, Refused, __version__, fill_slopes, import_triples, write)
from ._text import NAMES, Mistake, Text, read_text

PROGRAM = 'factor-curves'
REFUSED, USAGE, UNWRITTEN, INTERRUPTED = 1, 2, 3, 130       # exit statuses other than 0
NUMBER_MAX = 2**32 - 1
INPUT_MAX = 2**20                       # bytes of a text or of triples; a curve's are far fewer

DESCRIPTION = '''\
Reads and writes curve files (.trf) of factor curves. FILE may be -, for standard input. Areas
are in tenths of a square metre, factors in units of one ten-thousandth: 10889 is the factor
1.0889. Slopes are in hundredths of a unit for each tenth of a square metre.
'''
EXAMPLES = '''\
examples:
  factor-curves check samples/document-01.trf
  factor-curves read samples/document-01.trf 500 550
  factor-curves sheet samples/rising.trf --start 500 --step 100 --count 5
  factor-curves show - < samples/rising.trf
  factor-curves make samples/rising.csv -o rising.trf
  factor-curves make samples/without-slopes.txt -o filled.trf
  factor-curves import --shape 1 samples/rising.f64 -o imported.trf
  factor-curves import --shape 1 < samples/rising.f64 > imported.trf
  factor-curves plot samples/flattening.trf samples/large-home-discount.trf -o curves.svg

exit status: 0 done; 1 the curve, the triples, an area or the sheet is refused; 2 wrong usage, a
mistake in a text, or a file or the library that cannot be read; 3 output that cannot be written
'''
RULE = '''
A rising curve, shape 1, that is also convex in every segment is read by the convex rule, any other
by the rising rule. What is printed says which.
'''
TEXT_FORMAT = '''
The text has a line `shape N` (1 is rising, 2 convex, 3 falling, 4 concave), then a line with area,
value and slope for each point, in whole numbers:

  # two points
  shape 2
  500  10000      0
  600  14000  10000

Fields are separated by blanks, commas or semicolons; # begins a comment. A CSV file may have the
names area, value, slope in a line before the first point. If the text has a mistake or the curve
is refused, nothing is written. What `factor-curves show` prints is such a text.

A rising curve may be without slopes: then each line has area and value only, and the names may be
area, value. The slopes are filled by the harmonic rule, and a message on standard error says so.
'''

TRIPLES_FORMAT = '''
Triples are what a statistics package exports: 24 bytes for each point and nothing else, its area,
value and slope as binary64 numbers (float64, double), little-endian. Every figure must be a whole
number. Shape 1 is rising, 2 convex, 3 falling, 4 concave. If the triples are refused, nothing is
written.
'''


class Failure(Exception):
    """Ends the program with an exit status and a message."""

    def __init__(self, status: int, message: str) -> None:
        super().__init__(message)
        self.status = status


# ---- output ----

def say(message: str) -> None:
    """A message on standard error; where that cannot be written it is lost."""
    if sys.stderr is not None:
        try:
            print(message, file=sys.stderr, flush=True)
        except OSError:
            discard(sys.stderr)


def discard(stream: Any) -> None:
    """What is left in a stream that cannot be written goes nowhere, so that no more is said."""
    nowhere = os.open(os.devnull, os.O_WRONLY)
    os.dup2(nowhere, stream.fileno())
    os.close(nowhere)


def put(output: bytes) -> None:
    """Writes to standard output, all of it, or fails."""
    if sys.stdout is None:
        raise Failure(UNWRITTEN, PROGRAM + ': standard output is closed')
    try:
        left = memoryview(output)
        while left:                     # python3 -u may write a part only
            left = left[sys.stdout.buffer.write(left):]
        sys.stdout.flush()
    except BrokenPipeError:             # the reader has seen enough
        discard(sys.stdout)
        raise Failure(UNWRITTEN, '') from None
    except OSError as error:
        discard(sys.stdout)
        raise Failure(UNWRITTEN, '%s: cannot write standard output: %s'
                      % (PROGRAM, error.strerror or error)) from None


def put_lines(lines: List[str]) -> None:
    put(''.join(line + '\n' for line in lines).encode('ascii'))


def put_file(path: str, output: bytes) -> None:
    """Writes a file, or standard output for the path -."""
    if path == '-':
        put(output)
        return
    try:
        with open(path, 'wb') as file:
            file.write(output)
    except OSError as error:
        raise Failure(UNWRITTEN, '%s: cannot write %s: %s'
                      % (PROGRAM, path, error.strerror or error)) from None


# ---- input ----

def file_bytes(path: str, most: int) -> bytes:
    """The bytes of a file, or of standard input for the path -, but at most so many."""
    try:
        if path != '-':
            with open(path, 'rb') as file:
                return file.read(most)
        if sys.stdin is None:
            raise Failure(USAGE, PROGRAM + ': standard input is closed')
        return sys.stdin.buffer.read(most)
    except OSError as error:
        raise Failure(USAGE, '%s: cannot read %s: %s'
                      % (PROGRAM, path, error.strerror or error)) from None


def curve_of(path: str) -> Curve:
    # One byte more than a curve file can have. No file of that length is accepted.
    return Curve.from_bytes(file_bytes(path, FILE_MAX + 1))


def whole_input(path: str) -> bytes:
    """All bytes of a text or of triples; whether they are refused by 13 shows at the end only."""
    data = file_bytes(path, INPUT_MAX + 1)
    if len(data) > INPUT_MAX:
        raise Failure(USAGE, '%s: cannot read %s: it has more than %d bytes'
                      % (PROGRAM, path, INPUT_MAX))
    return data


def whole_number(text: str) -> int:
    """A number of the command line: decimal digits, 0 to 4294967295."""
    digits = text.lstrip('0') or text[:1]
    if not re.fullmatch('[0-9]{1,10}', digits) or int(digits) > NUMBER_MAX:
        raise argparse.ArgumentTypeError('%r is not a whole number from 0 to %d'
                                         % (text, NUMBER_MAX))
    return int(digits)


# ---- the commands ----

def number_of(count: int, name: str) -> str:
    return '%d %s%s' % (count, name, '' if count == 1 else 's')


def about(curve: Curve) -> str:
    """Points and segments, and the rule of a rising curve, which may be the convex one."""
    points = len(curve.points)
    words = '%s, %s' % (number_of(points, 'point'), number_of(points - 1, 'segment'))
    if curve.shape == RISING:
        words += ', read by the %s rule' % SHAPE_NAMES[curve.rule]
    return words


def outside(refusal: Refused, curve: Curve, area: int) -> Failure:
    """A refusal with the area that it is about."""
    return Failure(REFUSED, '%s (area %d; the curve goes from %d to %d)'
                   % (refusal, area, curve.first_area, curve.last_area))


def check(options: argparse.Namespace) -> None:
    curve = curve_of(options.file)
    put_lines(['accepted: shape %d (%s), %s'
               % (curve.shape, SHAPE_NAMES[curve.shape], about(curve))])


def read(options: argparse.Namespace) -> None:
    curve = curve_of(options.file)
    lines = []
    for area in options.areas:
        try:
            lines.append('%d %d' % (area, curve.read(area)))
        except Refused as refusal:
            raise outside(refusal, curve, area) from None
    put_lines(lines)


def entries(curve: Curve, start: int, step: int, count: int) -> List[int]:
    """The factors at start + i * step, by as many of the library's sheets as are needed."""
    factors: List[int] = []
    while True:
        done = len(factors)
        try:
            factors += curve.sheet(start + done * step, step, min(count - done, ENTRIES_MAX))
        except Refused as refusal:
            raise Refused(refusal.number, done + (refusal.place or 0), refusal.words) from None
        if len(factors) == count:
            return factors


def sheet(options: argparse.Namespace) -> None:
    curve = curve_of(options.file)
    start = curve.first_area if options.start is None else options.start
    step, count = options.step, options.count
    if count is None:
        # At least one entry, so that the library says what is wrong with start or step.
        count = max(1, (curve.last_area - start) // step + 1 if step else 1)
    try:
        factors = entries(curve, start, step, count)
    except Refused as refusal:
        if refusal.number == Refusal.OUTSIDE:
            raise outside(refusal, curve, start + (refusal.place or 0) * step) from None
        raise
    lines = ['shape %d points %d' % (curve.shape, len(curve.points))]
    lines += ['%d %d' % (start + index * step, factor) for index, factor in enumerate(factors)]
    put_lines(lines)


def show(options: argparse.Namespace) -> None:
    curve = curve_of(options.file)
    lines = ['shape %d  # %s, %s' % (curve.shape, SHAPE_NAMES[curve.shape], about(curve)),
             '# area   value   slope  # point      m2   factor  factor/m2']
    for index, (area, value, slope) in enumerate(curve.points):
        lines.append('%6d  %6d  %6d  # %5d  %6.1f  %7.4f  %9.5f'
                     % (area, value, slope, index, area / 10, value / 10000, slope / 100000))
    put_lines(lines)


def keep_apart(path: str, output: str, name: str) -> None:
    """Fails if what is read, which has this name, is the file to be written; - is no file."""
    if ('-' not in (path, output) and os.path.isfile(path) and os.path.isfile(output)
            and os.path.samefile(path, output)):
        raise Failure(USAGE, '%s: %s cannot be both the %s and the curve file'
                      % (PROGRAM, path, name))


def where(text: Text, refusal: Refused) -> str:
    """What of a text a refusal is about."""
    if refusal.number == Refusal.COUNT:
        return number_of(len(text.point_lines), 'point')
    if refusal.number == Refusal.SHAPE:
        return 'line %d' % text.shape_line
    line = 'line %d' % text.point_lines[refusal.place or 0]
    if refusal.number == Refusal.SLOPE and not text.has_slopes:
        return line + '; the text has no slopes, this one was filled by the harmonic rule'
    return line


def with_slopes(text: Text) -> Lists:
    """The curve of a text; slopes that it does not have are filled."""
    lists = text.lists
    if text.has_slopes:
        return lists
    return lists._replace(slopes=tuple(fill_slopes(lists.areas, lists.values)))


def make(options: argparse.Namespace) -> None:
    path = options.text
    keep_apart(path, options.output, 'text')
    try:
        text = read_text(whole_input(path))
    except Mistake as mistake:
        raise Failure(USAGE, '%s:%s' % (path, mistake)) from None
    try:
        data = write(*with_slopes(text))
    except Refused as refusal:
        raise Failure(REFUSED, '%s (%s, %s)' % (refusal, path, where(text, refusal))) from None
    put_file(options.output, data)
    if not text.has_slopes:
        say('%s: %s has no slopes; they were filled by the harmonic rule' % (PROGRAM, path))


def shown(figure: float) -> str:
    """A figure of a triple: digits if it is a whole number that has few, otherwise as Python."""
    return '%d' % figure if figure.is_integer() and abs(figure) < 10**15 else repr(figure)


def where_in_triples(data: bytes, shape: int, refusal: Refused) -> str:
    """What of triples a refusal is about."""
    if refusal.number == Refusal.TRIPLES:
        return number_of(len(data), 'byte')
    if refusal.number == Refusal.COUNT:
        return number_of(len(data) // TRIPLE_SIZE, 'point')
    if refusal.number == Refusal.SHAPE:
        return 'shape %d' % shape
    place = refusal.place or 0
    if refusal.number == Refusal.SEGMENT:
        return 'points %d and %d' % (place, place + 1)
    figures = struct.unpack_from('<3d', data, TRIPLE_SIZE * place)
    if refusal.number == Refusal.FIGURE:
        index = [figure.is_integer() for figure in figures].index(False)
    else:
        index = refusal.number - Refusal.AREA           # 3, 4 and 5: area, value and slope
    return 'point %d: %s %s' % (place, NAMES[index], shown(figures[index]))


def import_(options: argparse.Namespace) -> None:
    path, shape = options.file, options.shape
    keep_apart(path, options.output, 'triples')
    triples = whole_input(path)
    try:
        data = write(*import_triples(triples, shape))
    except Refused as refusal:
        raise Failure(REFUSED, '%s (%s, %s)' % (
            refusal, path, where_in_triples(triples, shape, refusal))) from None
    put_file(options.output, data)


def plot(options: argparse.Namespace) -> None:
    if options.files.count('-') > 1:
        raise Failure(USAGE, PROGRAM + ': standard input (-) can be read only once')
    named = []
    for path in options.files:
        try:
            curve = curve_of(path)
        except Refused as refusal:
            raise Failure(REFUSED, '%s (%s)' % (refusal, path)) from None
        factors = entries(curve, curve.first_area, 1, curve.last_area - curve.first_area + 1)
        named.append((path, curve, factors))
    try:
        from . import _plot
    except ImportError as error:
        raise Failure(USAGE, '%s: plot needs matplotlib (python3 -m pip install matplotlib): %s'
                      % (PROGRAM, error)) from None
    put_file(options.output, _plot.picture(named, os.path.splitext(options.output)[1]))


# ---- the command line ----

class Version(argparse.Action):
    """--version, written by put."""

    def __call__(self, parser: argparse.ArgumentParser, *_: Any) -> None:
        put_lines(['%s %s' % (PROGRAM, __version__)])
        parser.exit()


class Parser(argparse.ArgumentParser):
    """Writes its help and its messages by put and say."""

    def print_help(self, file: Any = None) -> None:
        put(self.format_help().encode('ascii'))

    def error(self, message: str) -> NoReturn:
        raise Failure(USAGE, '%s%s: error: %s' % (self.format_usage(), self.prog, message))


def add_command(commands: Any, run: Any, text: str, more: str = '') -> Any:
    name = run.__name__.rstrip('_')         # `import` is a word of Python's own
    command = commands.add_parser(name, help=text, description=text.capitalize() + '.',
                                  epilog=more, allow_abbrev=False,
                                  formatter_class=argparse.RawDescriptionHelpFormatter)
    command.set_defaults(run=run)
    return command


def parser() -> Parser:
    made = Parser(prog=PROGRAM, description=DESCRIPTION, epilog=EXAMPLES, allow_abbrev=False,
                  formatter_class=argparse.RawDescriptionHelpFormatter)
    made.add_argument('--version', action=Version, nargs=0, help='print the version and exit')
    commands = made.add_subparsers(dest='command', metavar='COMMAND', required=True)
    file = {'metavar': 'FILE', 'help': 'a curve file, or - for standard input'}
    add_command(commands, check, 'say whether a curve file is accepted', RULE).add_argument(
        'file', **file)
    command = add_command(commands, read, 'print the factors at some areas')
    command.add_argument('file', **file)
    command.add_argument('areas', metavar='AREA', nargs='+', type=whole_number,
                         help='tenths of a square metre')
    command = add_command(commands, sheet, 'print the factors at equally spaced areas')
    command.add_argument('file', **file)
    command.add_argument('--start', metavar='N', type=whole_number,
                         help="the first area (default: the curve's first)")
    command.add_argument('--step', metavar='N', type=whole_number, default=25,
                         help='from an area to the next (default: 25)')
    command.add_argument('--count', metavar='N', type=whole_number,
                         help='how many (default: all up to the last area of the curve)')
    add_command(commands, show, 'print a curve file as text', RULE).add_argument('file', **file)
    command = add_command(commands, make, 'write the curve file of a text', TEXT_FORMAT)
    command.add_argument('text', metavar='TEXT', help='a text or CSV file, or - for standard input')
    command.add_argument('-o', '--output', metavar='FILE', required=True,
                         help='the curve file to write, or - for standard output')
    command = add_command(commands, import_, 'write the curve file of triples, points in binary64',
                          TRIPLES_FORMAT)
    command.add_argument('--shape', metavar='N', type=whole_number, required=True,
                         help='the shape code: 1, 2, 3 or 4')
    command.add_argument('file', metavar='FILE', nargs='?', default='-',
                         help='triples (default: -, standard input)')
    command.add_argument('-o', '--output', metavar='FILE', default='-',
                         help='the curve file to write (default: -, standard output)')
    command = add_command(commands, plot, 'draw curves as a picture (needs matplotlib)')
    command.add_argument('files', nargs='+', **file)
    command.add_argument('-o', '--output', metavar='PICTURE', required=True,
                         help='the file to write: SVG, or PNG or PDF if its name ends so;'
                              ' - for standard output')
    return made


def main(words: Optional[List[str]] = None) -> int:
    """Runs one command; the result is the exit status."""
    try:
        options = parser().parse_args(words)
        options.run(options)
        return 0
    except Failure as failure:
        if str(failure):
            say(str(failure))
        return failure.status
    except Refused as refusal:
        say(str(refusal))
        return REFUSED
    except LibraryNotFound as error:
        say('%s: %s' % (PROGRAM, error))
        return USAGE
    except KeyboardInterrupt:
        return INTERRUPTED


if __name__ == '__main__':
    sys.exit(main())
