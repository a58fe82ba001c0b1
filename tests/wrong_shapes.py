"""Wrong versions of bench/plain.c as wrong_edits.py has them: of the shapes'
tests, curves and codes, those of falling and concave most of all."""

from wrong_edits import CHECKED, REFUSED_FAULT, RULED, TWO_FACTOR

# ---- when a segment has its shape ----

SIGN = 'shape <= CONVEX ? 1 : -1'
SLOPES = 'int32_t d0 = sign * l.slope, d1 = sign * r.slope;'
FALLS = 'if (sign * rise > 0)\n'
BOTH_SLOPES = 'return (d0 | d1) >= 0;'
LEVEL = 'return rise == 0 && (d0 | d1) == 0;'
SIDES = '''\
    int32_t b = 100 * rise - h * l.slope;
    int32_t a = h * r.slope - 100 * rise;
'''
BENT = '(sign * a > 0 && sign * b > 0)'
STRAIGHT = '(a == 0 && b == 0)'


def only(shape, wrong, right):
    """The wrong expression for this shape alone."""
    return '(shape == %s ? %s : %s)' % (shape, wrong, right)


TESTS = [
    # a mirror tested as its original, and the other way round
    (SIGN, '1'),
    (SIGN, '-1'),
    (SIGN, 'shape != FALLING ? 1 : -1'),
    (SIGN, 'shape != CONCAVE ? 1 : -1'),
    # slopes that keep their sign, values that are not mirrored
    (SLOPES, SLOPES.replace('sign * l.', 'l.')),
    (SLOPES, SLOPES.replace('sign * r.', 'r.')),
    (SLOPES, SLOPES.replace('sign * ', '')),
    (FALLS, 'if (rise > 0)\n'),
    (SIDES, SIDES.replace('h *', 'h * sign *')),
    (SIDES, SIDES.replace('100 *', '100 * sign *')),
    # both slopes: one of them, none, not 0
    (BOTH_SLOPES, 'return d0 >= 0;'),
    (BOTH_SLOPES, 'return d1 >= 0;'),
    *[(BOTH_SLOPES, 'return %s;' % only(shape, wrong, '(d0 | d1) >= 0'))
      for shape in ('RISING', 'FALLING')
      for wrong in ('1', 'd0 >= 0', 'd1 >= 0', 'd0 > 0 && d1 > 0',
                    '(d0 & d1) >= 0')],
    # level segments: slopes not tested, of one sign, refused, or falling
    (LEVEL, 'return sign * rise <= 0 && (d0 | d1) == 0;'),
    *[(LEVEL, 'return rise == 0 && %s;' % only(shape, wrong, '(d0 | d1) == 0'))
      for shape in ('RISING', 'FALLING')
      for wrong in ('0', '1', 'd0 == 0', 'd1 == 0', '(d0 | d1) >= 0',
                    'd0 <= 0 && d1 <= 0')],
    # one side weak or not tested, bent the other way too
    *[(BENT, only(shape, wrong, BENT)) for shape in ('CONVEX', 'CONCAVE')
      for wrong in ('(sign * a >= 0 && sign * b > 0)',
                    '(sign * a > 0 && sign * b >= 0)', '(sign * a > 0)',
                    '(sign * b > 0)', '(a > 0) == (b > 0) && a && b')],
    # straight lines: refused, or by one side alone
    *[(STRAIGHT, only(shape, wrong, STRAIGHT))
      for shape in ('CONVEX', 'CONCAVE')
      for wrong in ('0', 'a == 0', 'b == 0')],
]

# ---- the curve and its rounding ----

FALLING_ENDS = '''\
    point first = {0, r.value, -r.slope}, last = {0, l.value, -l.slope};
    return rising(first, last, u, t);
'''
MIRRORED_ENDS = '''\
    point first = {0, 200000 - l.value, -l.slope};
    point last = {0, 200000 - r.value, -r.slope};
'''
# An odd number: a half then goes to the odd unit.
MIRRORED_AT_ODD = MIRRORED_ENDS.replace('200000', '200001')
FALLING = 'return falling(l, r, t, u);'
CONCAVE = 'return concave(l, r, t, u);'
SAG_LEFT = '(g - h * r.slope) * u'
SAG_RIGHT = '(h * l.slope - g) * t'
LINE = '200 * (l.value * u + r.value * t) + 100 * h'
SAG = 'uint64_t q = (uint64_t)((unsigned __int128)au * (2 * bt) / w);'
NOT_ZERO = 'if (w != 0) {\n        ' + SAG
SAG_ADDED = 'n += q;'
LAST_DIVISION = 'uint64_t k = n / (uint64_t)(200 * h);'

CURVES = [
    # falling: signs, slopes and values exchanged, read from the other end
    (FALLING_ENDS, FALLING_ENDS.replace('-r.slope', 'r.slope')),
    (FALLING_ENDS, FALLING_ENDS.replace('-l.slope', 'l.slope')),
    (FALLING_ENDS, FALLING_ENDS.replace('-r.slope', 'r.slope').replace(
        '-l.slope', 'l.slope')),
    (FALLING_ENDS, '''\
    point first = {0, r.value, -l.slope}, last = {0, l.value, -r.slope};
    return rising(first, last, u, t);
'''),
    (FALLING_ENDS, FALLING_ENDS.replace('u, t', 't, u')),
    (FALLING_ENDS, MIRRORED_ENDS + '    return rising(first, last, t, u);\n'),
    # falling: taken from an odd number, or from another than it was mirrored at
    (FALLING_ENDS, MIRRORED_AT_ODD
     + '    return 200001 - rising(first, last, t, u);\n'),
    (FALLING_ENDS, MIRRORED_ENDS
     + '    return 200001 - rising(first, last, t, u);\n'),
    # falling: the curve of another shape, a constant, the chord
    (FALLING, 'return rising(l, r, t, u);'),
    (FALLING, 'return concave(l, r, t, u);'),
    (FALLING, 'return convex(l, r, t, u);'),
    (FALLING, 'return (int32_t)l.value;'),
    (FALLING, 'return (int32_t)((2 * (l.value * u + r.value * t) + t + u) /\n'
     '                     (2 * (t + u)));'),
    # concave: sides exchanged, slopes with the wrong sign
    (SAG_LEFT, '(h * l.slope - g) * u'),
    (SAG_RIGHT, '(g - h * r.slope) * t'),
    (SAG_LEFT, '(g + h * r.slope) * u'),
    (SAG_RIGHT, '(-h * l.slope - g) * t'),
    (SAG_LEFT, '(g - h * r.slope) * t'),
    (SAG_RIGHT, '(h * l.slope - g) * u'),
    # concave: below the chord, the chord alone, its ends exchanged
    (SAG_ADDED, SAG_ADDED.replace('+=', '-=')),
    (SAG, SAG.replace('(2 * bt)', '0')),
    (SAG, SAG.replace('(2 * bt)', 'bt')),
    (LINE, '200 * (l.value * t + r.value * u) + 100 * h'),
    # concave: rounded down, up, before it is taken from an odd number
    (LAST_DIVISION, LAST_DIVISION.replace('n /', '(n - 1) /')),
    (LINE, '200 * (l.value * u + r.value * t)'),
    (LINE, '200 * (l.value * u + r.value * t) + 200 * h - 1'),
    (CONCAVE, MIRRORED_AT_ODD
     + '    return 200001 - convex(first, last, t, u);'),
    (CONCAVE, MIRRORED_ENDS + '    return convex(first, last, t, u);'),
    # concave: 64 bits for a product, nothing done about 0
    (SAG, SAG.replace('(unsigned __int128)au', 'au')),
    (NOT_ZERO, NOT_ZERO.replace('w != 0', '1')),
    # concave: the curve of another shape
    (CONCAVE, 'return convex(l, r, t, u);'),
    (CONCAVE, 'return rising(l, r, t, u);'),
    (CONCAVE, 'return falling(l, r, t, u);'),
]

# ---- in one call alone ----

DESK_FACTOR = '\n    return segment_factor(l, r, rule, area);'
LISTS_FACTOR = '''\
    return segment_factor(point_at(c, low), point_at(c, low + 1), shape, area);
'''
SHEET_ENTRY = 'out[i] = segment_factor(l, r, shape, (uint32_t)area);'
PLACES = [
    (DESK_FACTOR, '\n    return ', 'rule', 'area'),
    (TWO_FACTOR, '        return ', 'rule', 'area'),
    (LISTS_FACTOR, '    point l = point_at(c, low), r = point_at(c, low + 1);\n'
     '    return ', 'shape', 'area'),
    (SHEET_ENTRY, 'out[i] = ', 'shape', '(uint32_t)area'),
]
READ_FACTOR = '    return factor(c, rule, area);'
FORM_FACTOR = '    out[0] = factor(c, rule, form);\n'
PLAN_FACTOR = '    out[1] = factor(c, rule, plan);\n'


def in_each_call(form):
    """The factor by another expression: of %(shape)s and %(area)s."""
    for old, start, shape, area in PLACES:
        yield old, start + form % {'shape': shape, 'area': area} + ';'


def from_an_odd_number(shape):
    """200,001 less the reading of a mirror there, for this shape alone."""
    return '''(%%(shape)s == %s ?
        200001 - segment_factor((point){l.area, 200001 - l.value, -l.slope},
                                (point){r.area, 200001 - r.value, -r.slope},
                                %%(shape)s - 2, %%(area)s) :
        segment_factor(l, r, %%(shape)s, %%(area)s))''' % shape


def at_most(factor):
    """The factor, or 200,000 if it is more."""
    return '%s > 200000 ? 200000 : %s' % (factor, factor)


ORIGINAL = '(%(shape)s > 2 ? %(shape)s - 2 : %(shape)s)'
ONE_CALL = [
    # rounded before it is taken from an odd number
    *in_each_call(from_an_odd_number('FALLING')),
    *in_each_call(from_an_odd_number('CONCAVE')),
    # the shape that is mirrored, the codes exchanged
    *in_each_call('segment_factor(l, r, ' + ORIGINAL + ', %(area)s)'),
    *in_each_call('segment_factor(l, r, (%(shape)s > 2 ? 7 - %(shape)s : '
                  '%(shape)s), %(area)s)'),
    # factors above 200,000 cut off
    *in_each_call(at_most('segment_factor(l, r, %(shape)s, %(area)s)')),
    (READ_FACTOR, '    int32_t read = factor(c, rule, area);\n    return '
     + at_most('read') + ';'),
    (FORM_FACTOR, FORM_FACTOR + '    out[0] = ' + at_most('out[0]') + ';\n'),
    (PLAN_FACTOR, PLAN_FACTOR + '    out[1] = ' + at_most('out[1]') + ';\n'),
    # the shape that is mirrored, for one factor
    (READ_FACTOR, READ_FACTOR.replace('rule', 'rule & 1 ? 1 : rule')),
    (READ_FACTOR, READ_FACTOR.replace('rule', 'rule == 4 ? 2 : rule')),
    (FORM_FACTOR, FORM_FACTOR.replace('rule', 'rule & 1 ? 1 : rule')),
    (PLAN_FACTOR, PLAN_FACTOR.replace('rule', 'rule == 4 ? 2 : rule')),
    # a sheet's loop of another shape
    *[('fill(l, r, %s, end' % shape, 'fill(l, r, %s, end' % other)
      for shape, other in (('RISING', 'FALLING'), ('CONVEX', 'CONCAVE'),
                           ('FALLING', 'RISING'), ('FALLING', 'CONCAVE'),
                           ('CONCAVE', 'CONVEX'), ('CONCAVE', 'FALLING'))],
]

# ---- shape codes ----

IN_FILES = 'scan(bytes + 7, count, %s, 0);'
IN_LISTS = 'scan_lists(c, %s, 0);'
RISING_FILES = 'scan_rising(bytes + 7, count, rule);'
RISING_LISTS = 'scan_rising_lists(c, rule);'
TRIED = '    if (shape == %s)\n        return '
FILES_END = '    return refused(2, 0);\n}\n\n/* The last segment'
LISTS_END = '    return refused(2, 0);\n}\n\nstatic inline int outside'


def codes(scan, end, rising=None):
    """Of the shape codes of files or of lists; rising: its scan, if it is one
    of its own."""
    scans = {shape: scan % shape for shape in ('RISING', 'CONVEX', 'FALLING',
                                               'CONCAVE')}
    scans['RISING'] = rising or scans['RISING']
    for shape, other in (('RISING', 'FALLING'), ('CONVEX', 'CONCAVE'),
                         ('FALLING', 'RISING'), ('FALLING', 'CONCAVE'),
                         ('CONCAVE', 'CONVEX'), ('CONCAVE', 'FALLING')):
        yield scans[shape], scan % other        # tested as another shape
    for shape in scans:
        tried = TRIED % shape + scans[shape]
        yield tried, TRIED % shape + 'refused(2, 0);'
        yield tried, TRIED % shape + '0;'       # not tested at all
    last, first = TRIED % 'CONCAVE' + scan % 'CONCAVE', TRIED % 'RISING'
    yield last, last.replace('==', '>=')
    yield last, last.replace('CONCAVE)\n', 'CONCAVE || shape == 5)\n')
    yield last, last.replace('CONCAVE)\n', 'CONCAVE || shape == 255)\n')
    yield first + scans['RISING'], (first.replace('==', '<=')
                                    + scans['RISING'])
    # row 2: another number, another place, after rows 3 to 5
    yield end, end.replace('(2, 0)', '(6, 0)')
    yield end, end.replace('(2, 0)', '(2, 1)')
    yield end, end.replace('    return', '''\
    int64_t fault = %s
    if (fault && -fault >> 32 < 6)
        return fault;
    return''' % (scan % 'RISING'))


CODES = [
    ('CONVEX, FALLING, CONCAVE }', 'CONVEX, CONCAVE, FALLING }'),
    ('RISING = 1, CONVEX, FALLING', 'RISING = 1, FALLING, CONVEX'),
    *codes(IN_FILES, FILES_END, RISING_FILES),
    *codes(IN_LISTS, LISTS_END, RISING_LISTS),
    # codes cut to fewer bits
    *[(TRIED % 'RISING' + RISING_LISTS,
       '    shape &= %s;\n' % bits + TRIED % 'RISING' + RISING_LISTS)
      for bits in ('7', '127', '255', '65535', '0xFFFFFF', '0x7FFFFFFF')],
    (TRIED % 'RISING' + RISING_FILES,
     '    shape &= 127;\n' + TRIED % 'RISING' + RISING_FILES),
    # 2^32 - 1 to 2^32 - 4 as 1 to 4
    (TRIED % 'RISING' + RISING_LISTS,
     '    shape = (int32_t)shape < 0 ? -shape : shape;\n'
     + TRIED % 'RISING' + RISING_LISTS),
]

# What follows where a call tries rows 1 to 6.
LIST_CALLS = [CHECKED + '    return fault ?',                  # check
              CHECKED + REFUSED_FAULT + '    size_t length',   # write
              *[RULED + REFUSED_FAULT + text for text in (
                  '    if (outside(c, area))',                 # read
                  '    if (outside(c, form))',                 # pair
                  '    if (step == 0')]]                       # sheet
FILE_CALLS = ['    fault = file_fault(bytes, &rule);\n',
              '    fault = file_fault(bytes, NULL);\n']


def codes_of_one_call():
    """5 accepted, 3 or 4 refused, 3 tested as 1, 4 as 2, 3 and 4 exchanged."""
    for text in LIST_CALLS:
        for code in ('shape == 5 ? 4 : shape', 'shape == 3 ? 5 : shape',
                     'shape == 4 ? 5 : shape', 'shape == 3 ? 1 : shape',
                     'shape == 4 ? 2 : shape',
                     'shape == 3 || shape == 4 ? 7 - shape : shape'):
            yield text, text.replace(' shape,', ' %s,' % code)
    for text in FILE_CALLS:
        for fault in ('bytes[5] == 5 ? 0 : ', 'bytes[5] == 3 ? refused(2, 0) : ',
                      'bytes[5] == 4 ? refused(2, 0) : ',
                      'bytes[5] == 3 ? scan(bytes + 7, count, 1, 0) : ',
                      'bytes[5] == 4 ? scan(bytes + 7, count, 2, 0) : ',
                      'bytes[5] == 3 ? scan(bytes + 7, count, 4, 0) : '):
            yield text, text.replace('file_fault', fault + 'file_fault')


# ---- what is written and opened ----

WRITTEN_SHAPE = 'out[5] = (uint8_t)shape;'
WRITTEN_VALUE = 'store32(record + 4, p.value);'
WRITTEN_SLOPE = 'store32(record + 8, (uint32_t)p.slope);'
OPENED = 'return 256 * bytes[5] + (int64_t)count;'

STORED = [
    (WRITTEN_SHAPE, 'out[5] = (uint8_t)(shape > 2 ? shape - 2 : shape);'),
    (WRITTEN_SHAPE, 'out[5] = (uint8_t)(shape & 3);'),
    (WRITTEN_SHAPE, 'out[5] = (uint8_t)(shape > 2 ? 7 - shape : shape);'),
    (WRITTEN_VALUE, 'store32(record + 4, shape > 2 ? 200000 - p.value : '
     'p.value);'),
    (WRITTEN_SLOPE, 'store32(record + 8, (uint32_t)(shape > 2 ? -p.slope : '
     'p.slope));'),
    (OPENED, 'return 256 * (bytes[5] & 3) + (int64_t)count;'),
    (OPENED, 'return 256 * (bytes[5] > 2 ? bytes[5] - 2 : bytes[5]) +\n'
     '           (int64_t)count;'),
    ('values[i] = p.value;',
     'values[i] = bytes[5] > 2 ? 200000 - p.value : p.value;'),
    ('slopes[i] = p.slope;',
     'slopes[i] = bytes[5] > 2 ? -p.slope : p.slope;'),
]

COMPARED = [
    ('of the tests of shapes', TESTS),
    ('of the curves of shapes', CURVES),
    ('of the factors of one call', ONE_CALL),
    ('of shape codes', CODES),
    ('of the shape codes of one call', list(codes_of_one_call())),
    ('of shapes in files', STORED),
]
