"""Reads the text of a curve, which the command make takes and show prints.

A line `shape N`, then a line with area, value and slope for each point; of a rising curve, all
points may be without slopes. Fields are separated by blanks and tabs; or by commas in a line that
has one; or by semicolons in a line that has one, so that a comma is then part of a field. `#`
begins a comment, and empty lines do not count. Of what spreadsheets write, fields in quotation
marks, empty fields at the end of a line, a line with the names of the columns before the first
point, a byte order mark and every line end are taken.
"""

import codecs
import re
from typing import List, NamedTuple, Optional

from ._calls import RISING, SHAPE_NAMES, Lists

NAMES = ['area', 'value', 'slope']
NAMES_WITHOUT_SLOPE = NAMES[:2]

_LIMITS = {'shape': (0, 2**32 - 1), 'area': (0, 2**32 - 1), 'value': (0, 2**32 - 1),
           'slope': (-2**31, 2**31 - 1)}
_BLANKS = ' \t'
_SHOWN = 40             # characters of a field that a message shows at most

# A line up to its comment, or up to a quotation mark before that.
_UNCOMMENTED = re.compile('(?:"(?![ \t]*#)[^"]*"|[^"#])*')
_QUOTED_COMMENT = re.compile('"[ \t]*#')
_QUOTED = re.compile('"[^"]*"')
_CELLS = {each: re.compile('((?:"[^"]*"|[^%s"])*)(?:%s|$)' % (each, each)) for each in ';,'}
_WORDS = re.compile('((?:"[^"]*"|[^ \t"])+)')

_ONLY_RISING = 'only the slopes of a rising curve, shape 1, can be filled'
_ALL_OR_NONE = 'either all points have slopes or none'

# What a field that is no whole number looks like, and what to say about it.
_HINTS = [
    (re.compile('.*[ \t].*'), 'in a line with commas or semicolons no blank separates fields'),
    (re.compile("[+-]?[0-9]{1,3}(?:[.,'_\u00a0\u2009\u2019\u202f][0-9]{3})+"),
     'digits only, without thousands separators'),
    (re.compile('[\u2010-\u2015\u2212][0-9]+'), 'the minus sign is -'),
    (re.compile('|'.join(SHAPE_NAMES.values()), re.IGNORECASE),
     ', '.join('%d is %s' % each for each in SHAPE_NAMES.items())),
]


class Mistake(Exception):
    """What is wrong in a text, and where: line and column count from 1."""

    def __init__(self, line: int, column: int, message: str) -> None:
        super().__init__(line, column, message)
        self.line = line
        self.column = column
        self.message = message

    def __str__(self) -> str:
        return '%d:%d: %s' % (self.line, self.column, self.message)


class Field(NamedTuple):
    """A field of a line, without blanks and quotation marks around it."""

    line: int
    column: int
    text: str

    def mistake(self, message: str) -> Mistake:
        """A mistake here."""
        return Mistake(self.line, self.column, message)

    def shown(self) -> str:
        """The text as messages show it."""
        return repr(self.text if len(self.text) <= _SHOWN else self.text[:_SHOWN] + '...')


class Text(NamedTuple):
    """The curve of a text, whether it is accepted or not, and the lines where it stands.

    The list of slopes is empty if the text has none.
    """

    lists: Lists
    shape_line: int
    point_lines: List[int]

    @property
    def has_slopes(self) -> bool:
        """Whether each point has a slope; otherwise none has."""
        return len(self.lists.slopes) == len(self.point_lines)


# ---- from bytes to fields ----

def _split(text: str) -> List[str]:
    return re.split('\r\n|\r|\n', text)


def _lines(data: bytes) -> List[str]:
    if data.startswith((codecs.BOM_UTF16_LE, codecs.BOM_UTF16_BE)):
        raise Mistake(1, 1, 'the text is in UTF-16; it must be in UTF-8')
    if data.startswith(b'TRF'):
        raise Mistake(1, 1, 'this is a curve file, not a text; show prints its text')
    data = data[3:] if data.startswith(codecs.BOM_UTF8) else data
    try:
        return _split(data.decode('utf-8'))
    except UnicodeDecodeError as error:
        before = _split(data[:error.start].decode('utf-8'))
        raise Mistake(len(before), len(before[-1]) + 1,
                      'the byte %02X is not UTF-8' % data[error.start]) from None


def _field(line: int, start: int, cell: str) -> Field:
    """The field of what stands at an index of a line."""
    text = cell.strip(_BLANKS)
    if _QUOTED.fullmatch(text):
        text = text[1:-1].strip(_BLANKS)
    return Field(line, start + cell.index(text) + 1, text)


def _fields(line: int, text: str) -> List[Field]:
    """The fields of a line; empty ones at its end are left out."""
    rest = _UNCOMMENTED.sub('', text, count=1)
    text = text[:len(text) - len(rest)]
    if rest.startswith('"') and (text[-1:].strip(_BLANKS + ',;')
                                 or not _QUOTED_COMMENT.match(rest)):
        raise Mistake(line, len(text) + 1, 'a quotation mark without a second one')
    bare = _QUOTED.sub('', text)
    separator = next((each for each in ';,' if each in bare), None)
    cells = (_CELLS[separator] if separator else _WORDS).finditer(text)
    fields = [_field(line, cell.start(), cell.group(1)) for cell in cells]
    while fields and not fields[-1].text:
        fields.pop()
    if len(fields) == 1:                                # `shape 2,,` and "shape 2"
        only = fields[0]
        fields = [Field(line, only.column + word.start(), word.group())
                  for word in _WORDS.finditer(only.text)]
    return fields


# ---- from fields to a curve ----

def _figure(name: str, field: Field) -> int:
    """The number of a field that has this name."""
    low, high = _LIMITS[name]
    if not field.text:
        raise field.mistake('the %s is missing' % name)
    if not re.fullmatch('[+-]?[0-9]+', field.text):
        hints = [' (%s)' % hint for pattern, hint in _HINTS if pattern.fullmatch(field.text)]
        raise field.mistake('the %s is not a whole number: %s%s'
                            % (name, field.shown(), ''.join(hints[:1])))
    if low == 0 and field.text[0] in '+-':
        raise field.mistake('the %s must have no sign: %s' % (name, field.shown()))
    short = re.fullmatch('([+-]?)0*([0-9]{1,10})', field.text)
    number = int(''.join(short.groups())) if short else high + 1
    if not low <= number <= high:
        raise field.mistake('the %s must be from %d to %d: %s' % (name, low, high, field.shown()))
    return number


def _after(fields: List[Field]) -> Field:
    """The place after the last field."""
    last = fields[-1]
    return Field(last.line, last.column + len(last.text), '')


class _Reader:
    """What the lines have said so far."""

    def __init__(self) -> None:
        self.shape: Optional[int] = None
        self.shape_line = 0
        self.names: List[str] = []
        self.names_line = 0
        self.point_lines: List[int] = []
        self.columns: List[List[int]] = [[], [], []]

    def take(self, fields: List[Field]) -> None:
        """One line that is not empty."""
        first, words = fields[0], [field.text.lower() for field in fields]
        if words[0] == 'shape':
            self.take_shape(fields)
        elif words in (NAMES, NAMES_WITHOUT_SLOPE):
            self.take_names(first, words)
        elif set(words) & set(NAMES):
            raise first.mistake('the names of the columns must be area, value, slope')
        elif first.text[:1].isalpha():
            raise first.mistake('neither `shape N` nor the area of a point: ' + first.shown())
        else:
            self.take_point(fields)

    def take_shape(self, fields: List[Field]) -> None:
        if self.shape is not None:
            raise fields[0].mistake('a second shape; the first is in line %d' % self.shape_line)
        if len(fields) > 2:
            raise fields[2].mistake('a shape line has one number; this is a second one: '
                                    + fields[2].shown())
        code = (fields + [_after(fields)])[1]
        self.shape = _figure('shape', code)
        self.shape_line = fields[0].line
        if self.lacks_slopes():
            raise code.mistake('the columns in line %d are area and value, but %s'
                               % (self.names_line, _ONLY_RISING))

    def take_names(self, first: Field, names: List[str]) -> None:
        if self.names_line:
            raise first.mistake('the names of the columns stand in line %d already'
                                % self.names_line)
        if self.point_lines:
            raise first.mistake('the names of the columns must come before the first point')
        self.names, self.names_line = names, first.line
        if self.lacks_slopes():
            raise first.mistake('the names of the columns must be area, value, slope (%s)'
                                % _ONLY_RISING)

    def lacks_slopes(self) -> bool:
        """Whether the names are those without a slope, and the shape is not rising."""
        return self.names == NAMES_WITHOUT_SLOPE and self.shape not in (None, RISING)

    def take_point(self, fields: List[Field]) -> None:
        if self.shape is None:
            raise fields[0].mistake('no line `shape N` before the first point')
        if len(fields) > 2 and self.names == NAMES_WITHOUT_SLOPE:
            raise fields[2].mistake('the columns in line %d are area and value; this is a third'
                                    ' field: %s' % (self.names_line, fields[2].shown()))
        if len(fields) > 3:
            raise fields[3].mistake('a point has area, value and slope; this is a fourth field: '
                                    + fields[3].shown())
        padded = fields + [_after(fields)] * (3 - len(fields))
        for column, name, field in zip(self.columns, NAMES_WITHOUT_SLOPE, padded):
            column.append(_figure(name, field))
        self.take_slope(padded[2])
        self.point_lines.append(fields[0].line)

    def take_slope(self, field: Field) -> None:
        """The slope of a point, or the place where it is missing."""
        slopes = self.columns[2]
        if field.text:
            if self.point_lines and not slopes:
                raise field.mistake('a slope, but the point in line %d has none (%s)'
                                    % (self.point_lines[0], _ALL_OR_NONE))
            slopes.append(_figure('slope', field))
        elif slopes and self.shape == RISING:
            raise field.mistake('the slope is missing (the point in line %d has one; %s)'
                                % (self.point_lines[0], _ALL_OR_NONE))
        elif slopes:
            raise field.mistake('the slope is missing')
        elif self.shape != RISING:
            raise field.mistake('the slope is missing (%s)' % _ONLY_RISING)


def read_text(data: bytes) -> Text:
    """The curve of a text, given its bytes; Mistake if the text is wrong."""
    reader, lines = _Reader(), _lines(data)
    for number, line in enumerate(lines, 1):
        fields = _fields(number, line)
        if fields:
            reader.take(fields)
    if reader.shape is None:
        raise Mistake(len(lines), len(lines[-1]) + 1,
                      'the text has no line `shape N`' if data else 'the text is empty')
    areas, values, slopes = map(tuple, reader.columns)
    return Text(Lists(areas, values, slopes, reader.shape), reader.shape_line,
                reader.point_lines)
