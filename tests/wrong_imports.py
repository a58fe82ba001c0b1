"""Wrong versions of bench/plain.c as wrong_edits.py has them: of Import. A
version may be a list of edits."""

import itertools

from wrong_shapes import codes

FIELDS = ('area', 'value', 'slope')

# ---- how a figure is loaded ----

LOAD = '    memcpy(&x, p, 8);\n'
LOADED = 'load_figure(p), load_figure(p + 8), load_figure(p + 16)'


def loaded(change):
    """Each figure is changed once it is loaded."""
    return LOAD, LOAD + '    %s\n' % change


def loaded_bits(change):
    """The same of its bits."""
    return LOAD, '''\
    uint64_t bits;
    memcpy(&bits, p, 8);
    %s
    memcpy(&x, &bits, 8);
''' % change


SIZE = '(bits & INT64_MAX)'
INFINITE = '0x7FF0000000000000'
QUIET = '0x7FF8000000000000'
FIGURES = [
    # fields in another order, one of them twice
    *[(LOADED, ', '.join(order)) for order in list(itertools.permutations(
        LOADED.split(', ')))[1:]],
    (LOADED, LOADED.replace('p + 16', 'p + 8')),
    (LOADED, LOADED.replace('p + 8', 'p')),
    # big-endian, words exchanged, the lower word or byte left out
    loaded_bits('bits = __builtin_bswap64(bits);'),
    loaded_bits('bits = bits >> 32 | bits << 32;'),
    loaded_bits('bits &= ~UINT64_C(0xFFFFFFFF);'),
    loaded_bits('bits &= ~UINT64_C(0xFF);'),
    loaded_bits('bits &= ~UINT64_C(1);'),
    # in fewer bits
    loaded('x = (float)x;'),
    # denormals, and other small numbers, as 0
    loaded_bits('bits = %s < UINT64_C(1) << 52 ? 0 : bits;' % SIZE),
    loaded_bits('bits = bits < UINT64_C(1) << 52 ? 0 : bits;'),
    loaded_bits('bits = bits == 1 ? 0 : bits;'),
    loaded('x = x > -1e-300 && x < 1e-300 ? 0 : x;'),
    loaded('x = x > -1e-9 && x < 1e-9 ? 0 : x;'),
    # not-a-numbers as 0: all, quiet, signalling, of one sign, by one word
    loaded('x = x == x ? x : 0;'),
    *[loaded_bits('bits = %s ? 0 : bits;' % test) for test in (
        '%s >= %s' % (SIZE, QUIET),
        '%s > %s && %s < %s' % (SIZE, INFINITE, SIZE, QUIET),
        '%s > %s && bits >> 63' % (SIZE, INFINITE),
        '%s > %s && !(bits >> 63)' % (SIZE, INFINITE),
        '%s > %s && (uint32_t)bits == 0' % (SIZE, INFINITE),
        '%s > %s && (uint32_t)bits != 0' % (SIZE, INFINITE),
        '%s == %s + 1' % (SIZE, INFINITE),
        'bits == UINT64_MAX')],
    # infinities as 0, as the largest number
    loaded('x = x - x == 0 || x != x ? x : 0;'),
    loaded('x = x > 0x1.fffffffffffffp1023 ? 0x1.fffffffffffffp1023 : x;'),
    loaded('x = x < -0x1.fffffffffffffp1023 ? -0x1.fffffffffffffp1023 : x;'),
    # numbers by their size
    loaded('x = x < 0 ? -x : x;'),
    loaded_bits('bits &= INT64_MAX;'),
]

# ---- what is a whole number ----

SMALL = 'if (x > -0x1p52 && x < 0x1p52)\n'
BACK = 'return (double)(int64_t)x == x;'
LARGE = 'return x - x == 0;'

WHOLE = [
    # infinities, one of them, and not-a-numbers by rows 3 to 5
    (LARGE, 'return x == x;'),
    (LARGE, 'return x - x == 0 || x > 0;'),
    (LARGE, 'return x - x == 0 || x < 0;'),
    (LARGE, 'return 1;'),
    (LARGE, 'return x - x == 0 || x != x;'),
    # large numbers by row 14
    (LARGE, 'return 0;'),
    (LARGE, 'return x - x == 0 && x < 0;'),
    (LARGE, 'return x - x == 0 && x > 0;'),
    *[(LARGE, 'return x > -%s && x < %s;' % (end, end)) for end in (
        '0x1p53', '0x1p63', '0x1p64', '1e300', '0x1p1023',
        '0x1.fffffffffffffp1023')],
    (BACK, 'return (double)(int32_t)x == x;'),
    (BACK, 'return (double)(uint32_t)x == x;'),
    (BACK, 'return x > -0x1p31 && x < 0x1p31 && (double)(int64_t)x == x;'),
    (SMALL, SMALL.replace('0x1p52', '0x1p64')),
    (SMALL, SMALL.replace('< 0x1p52', '<= 0x1p63')),
    # whole from a smaller number on
    *[(SMALL, SMALL.replace('0x1p52', end)) for end in (
        '200000', '0x1p24', '0x1p31', '0x1p32', '0x1p50', '0x1p51')],
    (SMALL, SMALL.replace('-0x1p52', '-0x1p31')),
    (SMALL, SMALL.replace('< 0x1p52', '< 0x1p32')),
    # by another test: a sum that rounds, a float, nearly, its half
    (BACK, 'return x + 0x1.8p52 - 0x1.8p52 == x;'),
    (BACK, 'return (float)(int64_t)x == (float)x;'),
    (BACK, 'return (double)(int64_t)x - x > -1e-9 &&\n'
     '               (double)(int64_t)x - x < 1e-9;'),
    (BACK, 'return (double)(int64_t)(2 * x) == 2 * x;'),
]

# ---- a point that is taken ----

LIMITS = '''\
    if (!(t.area >= 0 && t.area <= 20000 && t.value >= 0 &&
          t.value <= 200000 && t.slope >= -10000 && t.slope <= 10000))
        return 0;
'''
POINT = '''\
    point p = {(uint32_t)(int32_t)t.area, (uint32_t)(int32_t)t.value,
               (int32_t)t.slope};
'''
SAME = {
    'area': '(double)(int32_t)p->area == t.area',
    'value': '(double)(int32_t)p->value == t.value',
    'slope': '(double)p->slope == t.slope',
}
KEPT = '''\
    return (double)(int32_t)p->area == t.area &&
           (double)(int32_t)p->value == t.value && (double)p->slope == t.slope;
'''
ROUNDED = '''\
    point p = {(uint32_t)(int32_t)(t.area + 0.5),
               (uint32_t)(int32_t)(t.value + 0.5),
               (int32_t)(t.slope + (t.slope < 0 ? -0.5 : 0.5))};
'''
UP = POINT.replace('t.area', '__builtin_ceil(t.area)').replace(
    't.value', '__builtin_ceil(t.value)').replace(
    't.slope', '__builtin_ceil(t.slope)')
# Whole numbers of any size, in 64 bits, cut before the limits are tried.
CUT = '''\
    if (!is_whole(t.area) || !is_whole(t.value) || !is_whole(t.slope))
        return 0;
    p->area = (uint32_t)%s(int64_t)t.area;
    p->value = (uint32_t)%s(int64_t)t.value;
    p->slope = (int32_t)%s(int64_t)t.slope;
    return p->area <= 20000 && p->value <= 200000 && p->slope >= -10000 &&
           p->slope <= 10000;
'''
TAKEN = LIMITS + '    *p = whole_point(t);\n' + KEPT


def nearly(part):
    """Within this part of a whole number."""
    close = ' &&\n           '.join(
        '%s - %s < %s && %s - %s < %s' % (one, other, part, other, one, part)
        for one, other in (text.split(' == ') for text in SAME.values()))
    return KEPT, '    return %s;\n' % close


def minus_zero(field, number):
    """Minus zero in this field is refused with this number."""
    minus = '(t.%s == 0 && 1 / t.%s < 0)' % (field, field)
    return [(LIMITS, '    if %s\n        return 0;\n' % minus + LIMITS),
            (BROKEN, '    if %s\n        return %d;\n' % (minus, number)
             + BROKEN)]


BROKEN = '''\
    if (!is_whole(t.area) || !is_whole(t.value) || !is_whole(t.slope))
        return 14;
'''
POINTS = [
    # figures cut off, rounded, rounded up, for one field alone
    (KEPT, '    return 1;\n'),
    [(POINT, ROUNDED), (KEPT, '    return 1;\n')],
    [(POINT, UP), (KEPT, '    return 1;\n')],
    *[(KEPT, KEPT.replace(SAME[field], '1')) for field in FIELDS],
    # a tolerance: rounded, and with nothing but what is cut off
    *[[(POINT, ROUNDED), nearly(part)] for part in ('1e-9', '1e-6', '0.25')],
    *[nearly(part) for part in ('1e-9', '1e-6', '0.5')],
    # compared as floats
    (KEPT, KEPT.replace('== t', '== (float)t')),
    # numbers cut to fewer bits before the limits are tried
    *[(TAKEN, CUT % ((cut,) * 3)) for cut in (
        '', '(uint32_t)', '(uint16_t)', '(int16_t)')],
    (TAKEN, CUT.replace('%s(int64_t)', '(int64_t)(float)')),
    # minus zero
    *[minus_zero(field, number) for field, numbers in zip(
        FIELDS, ((14, 3), (14, 4), (14, 5))) for number in numbers],
    # each limit, one more and one less
    *[(LIMITS, LIMITS.replace(old, new)) for old, new in (
        ('area >= 0', 'area >= -1'), ('area >= 0', 'area > 0'),
        ('<= 20000 ', '<= 20001 '), ('<= 20000 ', '< 20000 '),
        ('value >= 0', 'value >= -1'), ('value >= 0', 'value > 0'),
        ('<= 200000', '<= 200001'), ('<= 200000', '< 200000'),
        ('>= -10000', '>= -10001'), ('>= -10000', '> -10000'),
        ('<= 10000)', '<= 10001)'), ('<= 10000)', '< 10000)'),
        ('slope >= -10000', 'slope >= 0'))],
]

# ---- which row refuses a point ----

AREA = '''\
    if (t.area < 0 || t.area > 20000)
        return 3;
'''
GAP = '''\
    if (!first && (t.area <= before || t.area > before + 2000.0))
        return 3;
'''
VALUE = '''\
    if (t.value < 0 || t.value > 200000)
        return 4;
'''
LAST = '    return 5;\n'
FAULT = BROKEN + AREA + GAP + VALUE + LAST
SLOPE = '''\
    if (t.slope < -10000 || t.slope > 10000)
        return 5;
'''
NOT_WHOLE = '    if (!is_whole(t.%s))\n        return 14;\n'


def kept_whole(*fields):
    """Row 14 for these fields alone."""
    return BROKEN.replace(
        BROKEN[8:BROKEN.index(')\n')],
        ' || '.join('!is_whole(t.%s)' % field for field in fields))


ROW_14 = [
    # row 14 after row 3, 4 or 5, after the area's limits alone
    (FAULT, AREA + GAP + BROKEN + VALUE + LAST),
    (FAULT, AREA + BROKEN + GAP + VALUE + LAST),
    (FAULT, GAP + BROKEN + AREA + VALUE + LAST),
    (FAULT, AREA + GAP + VALUE + BROKEN + LAST),
    (FAULT, AREA + GAP + VALUE + SLOPE + '    return 14;\n'),
    (FAULT, VALUE + BROKEN + AREA + GAP + LAST),
    (FAULT, SLOPE + BROKEN + AREA + GAP + VALUE + LAST),
    # field by field
    (FAULT, NOT_WHOLE % 'area' + AREA + GAP + NOT_WHOLE % 'value' + VALUE
     + NOT_WHOLE % 'slope' + LAST),
    (FAULT, NOT_WHOLE % 'area' + NOT_WHOLE % 'value' + AREA + GAP + VALUE
     + NOT_WHOLE % 'slope' + LAST),
    (FAULT, NOT_WHOLE % 'slope' + AREA + GAP + NOT_WHOLE % 'area'
     + NOT_WHOLE % 'value' + VALUE + LAST),
    # row 14 for some fields alone, for none
    *[(BROKEN, kept_whole(*fields)) for some in (1, 2)
      for fields in itertools.combinations(FIELDS, some)],
    (BROKEN, ''),
    # negative figures by row 14, by another row
    *[(BROKEN, BROKEN.replace(')\n', ' || t.%s < 0)\n' % field))
      for field in FIELDS],
    (AREA, AREA.replace('t.area < 0 || ', '')),
    (VALUE, VALUE.replace('t.value < 0 || ', '')),
    (AREA, '    if (t.area < 0)\n        return 4;\n' + AREA),
    # figures that are not whole by the row of their field
    *[(BROKEN, (NOT_WHOLE % field).replace('14', number) + BROKEN)
      for field, number in zip(FIELDS, '345')],
    # only figures within the limits by row 14
    (BROKEN, BROKEN.replace('!is_whole(t.area)',
                            '(!is_whole(t.area) && t.area < 20001)')),
    (BROKEN, BROKEN.replace('!is_whole(t.value)',
                            '(!is_whole(t.value) && t.value > -1)')),
    # numbers
    (BROKEN, BROKEN.replace('14', '13')),
    (BROKEN, BROKEN.replace('14', '3')),
    (VALUE + LAST, VALUE + '    return 4;\n'),
    (VALUE, VALUE.replace('4', '5')),
]

ROWS_3_TO_5 = [
    (AREA, AREA.replace('20000', '20001')),
    (VALUE, VALUE.replace('200000', '200001')),
    (GAP, ''),
    (GAP, GAP.replace('<= before', '< before')),
    (GAP, GAP.replace('> before', '> 1 + before')),
    (GAP, GAP.replace('!first', '1')),
    (AREA + GAP + VALUE, VALUE + AREA + GAP),
    (AREA + GAP + VALUE, AREA + VALUE + GAP),
    (AREA + GAP + VALUE + LAST, SLOPE + AREA + GAP + VALUE + LAST),
]

# ---- the points in turn ----

FIRST = '''\
    if (!taken(t, &l))
        return refused(triple_fault(t, 0, 1), 0);
'''
LOOP = 'for (size_t i = 1; i < n; i++) {\n        t = load_triple'
NEXT = '''\
        if (!taken(t, &r) || r.area - l.area - 1 >= 2000)
            return refused(triple_fault(t, l.area, 0), i);
'''
SHAPELESS = '''\
        if (!has_shape(l, r, shape) && shapeless == n)
            shapeless = i - 1;
'''
ROW_6 = 'return shapeless < n ? refused(6, shapeless) : 0;'
# Each point's row 14 before any other row.
ALL_WHOLE = '''\
    for (size_t i = 0; i < n; i++) {
        triple w = load_triple(bytes + 24 * i);
        if (!is_whole(w.area) || !is_whole(w.value) || !is_whole(w.slope))
            return refused(14, i);
    }
'''
# The same after all the points' other rows.
WHOLE_LAST = '''\
    if (!taken(t, &l) && triple_fault(t, 0, 1) != 14)
        return refused(triple_fault(t, 0, 1), 0);
    for (size_t i = 1; i < n; i++) {
        t = load_triple(bytes + 24 * i);
        point w = l;
        int good = taken(t, &w);
        int fault = triple_fault(t, l.area, 0);
        if ((!good || w.area - l.area - 1 >= 2000) && fault != 14)
            return refused(fault, i);
        l = w;
    }
    t = load_triple(bytes);
'''
SCAN = [
    # row 14 of all points first, or last
    (FIRST, ALL_WHOLE + FIRST),
    (FIRST, WHOLE_LAST + FIRST),
    # another place, not at the last point, not at the first
    (NEXT, NEXT.replace(', i);', ', i - 1);')),
    (NEXT, NEXT.replace(', i);', ', i + 1);')),
    (NEXT, NEXT.replace(', i);', ', 3 * i);')),
    (NEXT, NEXT.replace(', i);', ', 24 * i);')),
    (NEXT, NEXT.replace(', i);', ', 0);')),
    (FIRST, FIRST.replace(', 0);', ', 1);')),
    (FIRST, ''),
    (LOOP, LOOP.replace('i < n', 'i + 1 < n')),
    (LOOP, LOOP.replace('i < n', 'i < n && i < 63')),
    # gaps
    (NEXT, NEXT.replace('>= 2000', '>= 2001')),
    (NEXT, NEXT.replace('>= 2000', '>= 1999')),
    (NEXT, NEXT.replace('- 1 >= 2000', '> 2000')),
    (NEXT, NEXT.replace(' || r.area - l.area - 1 >= 2000', '')),
    # segments: before later points, the last for the first, their place
    (SHAPELESS, SHAPELESS.replace('shapeless = i - 1',
                                  'return refused(6, i - 1)')),
    (SHAPELESS, SHAPELESS.replace(' && shapeless == n', '')),
    (SHAPELESS, SHAPELESS.replace('i - 1', 'i')),
    (SHAPELESS, ''),
    (ROW_6, ROW_6.replace('6, shapeless', '6, 0')),
    (ROW_6, ROW_6.replace('6,', '5,')),
]

# ---- rows 13, 11, 1 and 2 ----

COUNT = '    size_t n = bytes_len / 24;\n'
ROW_13 = '''\
    if (bytes_len != 24 * n)
        return refused(13, 0);
'''
ROW_11 = '''\
    if (areas_len < n || values_len < n || slopes_len < n)
        return refused(11, 0);
'''
CHECKED = '    int64_t fault = triples_fault(bytes, n, shape);\n'
REFUSED = '''\
    if (fault)
        return fault;
    for (size_t i = 0; i < n;'''
ROW_1 = '''\
    if (n < 2 || n > 64)
        return refused(1, 0);
'''
ROW_2_END = '    return refused(2, 0);\n}\n\n/* Two passes'
RISING_FIRST = '    if (shape == RISING)\n        return scan_triples'
NO_CODE = '''\
    if (shape < 1 || shape > 4)
        return refused(2, 0);
'''


def after(row, number):
    """A row after this one of rows 1 to 6 and those before it. Numbers as
    they are tried: 14 is 2.5."""
    tried = '(-fault >> 32 == 14 ? 2.5 : (double)(-fault >> 32))'
    return CHECKED + '    if (fault && %s <= %s)\n        return fault;\n' % (
        tried, number) + row


ROWS = [
    # row 13: not tried, for some lengths, of 8 or 12 bytes, of the lists
    (ROW_13, ''),
    *[(ROW_13, ROW_13.replace('bytes_len != 24 * n', test)) for test in (
        'bytes_len % 8 != 0', 'bytes_len % 12 != 0', 'bytes_len % 2 != 0',
        'bytes_len > 24 * n + 1', 'bytes_len - 24 * n > 12',
        'bytes_len != 24 * n || n == 0', 'bytes_len != 24 * areas_len',
        'bytes_len != 24 * n && n < 64', 'bytes_len != 24 * n && n > 1',
        'bytes_len != 24 * n || n > 64',
        '(uint8_t)bytes_len % 24 != 0')],
    (ROW_13, ROW_13.replace('13', '10')),
    (ROW_13, ROW_13.replace('13', '9')),
    (ROW_13, ROW_13.replace('(13, 0)', '(13, n)')),
    (ROW_13, ROW_13.replace('(13, 0)', '(13, bytes_len)')),
    # row 13 after row 11, after the count, after the code, after all
    (ROW_13 + ROW_11, ROW_11 + ROW_13),
    (ROW_13, ROW_1 + ROW_13),
    (ROW_13, NO_CODE + ROW_13),
    *[(ROW_13 + ROW_11 + CHECKED, ROW_11 + after(ROW_13, number))
      for number in (1, 2, 2.5, 3, 4, 5, 6)],
    # a header of a curve file is looked for
    (COUNT, '    if (bytes_len >= 7 && bytes[0] == 84)\n'
     '        return refused(9, 0);\n' + COUNT),
    # row 11: each list, exact lists, lists for 64, cut lengths
    *[(ROW_11, ROW_11.replace(one, '0')) for one in (
        'areas_len < n', 'values_len < n', 'slopes_len < n')],
    *[(ROW_11, ROW_11.replace(one + ' < n', one + other)) for one in (
        'areas_len', 'values_len', 'slopes_len') for other in (
            ' <= n', ' != n', ' < 64', ' + 1 < n', ' < n && n <= 64')],
    *[(ROW_11, ROW_11.replace(one, cut + one)) for one in (
        'areas_len', 'values_len', 'slopes_len') for cut in (
            '(uint8_t)', '(uint16_t)')],
    (ROW_11, ROW_11.replace('||', '&&')),
    (ROW_11, ROW_11.replace('11', '1')),
    (ROW_11, ROW_11.replace('11', '12')),
    (ROW_11, ROW_11.replace('(11, 0)', '(11, n)')),
    # row 11 after the others, or not tried without points
    *[(ROW_11 + CHECKED, after(ROW_11, number))
      for number in (1, 2, 2.5, 3, 4, 5, 6)],
    (ROW_11, NO_CODE + ROW_11),
    # the count of the lists
    (ROW_11, '    n = areas_len < n ? areas_len : n;\n' + ROW_11),
    (ROW_11, '''\
    n = areas_len < n ? areas_len : n;
    n = values_len < n ? values_len : n;
    n = slopes_len < n ? slopes_len : n;
''' + ROW_11),
    (ROW_13, '    if (areas_len < n)\n        n = areas_len;\n'
     '    if (bytes_len < 24 * n)\n        return refused(13, 0);\n'),
    # row 1: its limits, for lists too, the count cut to a byte
    *[(ROW_1, ROW_1.replace(*words)) for words in (
        ('n < 2', 'n < 1'), ('n < 2', 'n < 3'), ('n < 2', 'n == 1'),
        ('n > 64', 'n > 65'), ('n > 64', 'n >= 64'), ('1, 0', '1, n'))],
    (ROW_1, '    n = (uint8_t)n;\n' + ROW_1),
    *[(CHECKED, ROW_1.replace('n < 2 || n > 64', test) + CHECKED)
      for test in ('areas_len != values_len', 'slopes_len > 64',
                   'areas_len != n', 'values_len > 255')],
    (CHECKED, '    n = (uint8_t)n;\n' + CHECKED),
    # row 1 before row 11, after row 2
    (ROW_11, ROW_1 + ROW_11),
    (ROW_1, NO_CODE + ROW_1),
    # row 1 after row 14 or 3 to 5 of the first 64 points
    (ROW_1, '''\
    if (n > 64 && shape >= 1 && shape <= 4) {
        int64_t fault = scan_triples(bytes, 64, shape);
        if (fault && -fault >> 32 != 6)
            return fault;
    }
''' + ROW_1),
    # the code: not looked at, of the points' first byte
    (RISING_FIRST, '    shape = RISING;\n' + RISING_FIRST),
    (RISING_FIRST, '    shape = 1 + (shape - 1) % 4;\n' + RISING_FIRST),
    *codes('scan_triples(bytes, n, %s);', ROW_2_END),
    *[(RISING_FIRST, '    shape &= %s;\n' % bits + RISING_FIRST)
      for bits in ('7', '255', '65535', '0xFFFFFF', '0x7FFFFFFF')],
    (RISING_FIRST, '    shape = (int32_t)shape < 0 ? -shape : shape;\n'
     + RISING_FIRST),
]

# ---- the lists ----

WRITE = '''\
        areas[i] = whole.area;
        values[i] = whole.value;
        slopes[i] = whole.slope;
'''
RESULT = '    return (int64_t)n;'
WRITE_LOOP = 'for (size_t i = 0; i < n; i++) {\n        point whole'
WRITTEN = [
    # written before a refusal, one by one, the first point, and on one
    (CHECKED, '    if (n)\n        values[0] = 0;\n' + CHECKED),
    (CHECKED, '''\
    for (size_t i = 0; i < n; i++) {
        triple w = load_triple(bytes + 24 * i);
        if (!is_whole(w.area) || !is_whole(w.value) || !is_whole(w.slope))
            break;
        areas[i] = (uint32_t)(int64_t)w.area;
        values[i] = (uint32_t)(int64_t)w.value;
        slopes[i] = (int32_t)(int64_t)w.slope;
    }
''' + CHECKED),
    (ROW_13, ROW_13.replace('return', 'return areas_len ? areas[0] = 0 : 0,')),
    (ROW_11, ROW_11.replace('return',
                            'return slopes_len ? slopes[0] = 0 : 0,')),
    (REFUSED, REFUSED.replace('return', 'return n ? areas[n - 1] = 0 : 0,')),
    (REFUSED, REFUSED.replace(
        'return', 'return slopes_len ? slopes[slopes_len - 1] = 0 : 0,')),
    # entries not written, later entries cleared, an entry beside
    (WRITE_LOOP, WRITE_LOOP.replace('i < n', 'i + 1 < n')),
    (WRITE_LOOP, WRITE_LOOP.replace('i = 0', 'i = 1')),
    *[(WRITE, WRITE.replace(line + '\n', '\n')) for line in (
        '        areas[i] = whole.area;', '        values[i] = whole.value;',
        '        slopes[i] = whole.slope;')],
    *[(RESULT, '    memset(%s + n, 0, 4 * (%s_len - n));\n' % (one, one)
       + RESULT) for one in ('areas', 'values', 'slopes')],
    *[(RESULT, '    if (%s_len > n)\n        %s[n] = 0;\n' % (one, one)
       + RESULT) for one in ('areas', 'values', 'slopes')],
    (RESULT, '    areas[areas_len] = 0;\n' + RESULT),
    (RESULT, '    slopes[-1] = 0;\n' + RESULT),
    # numbers cut, exchanged, of another sign, mirrored
    *[(WRITE, WRITE.replace(*words)) for words in (
        ('= whole.area', '= (uint8_t)whole.area'),
        ('= whole.area', '= whole.area & 0x3FFF'),
        ('= whole.value', '= (uint16_t)whole.value'),
        ('= whole.value', '= whole.value & 0x1FFFF'),
        ('= whole.slope', '= (uint16_t)whole.slope'),
        ('= whole.slope', '= (int8_t)whole.slope'),
        ('= whole.slope', '= whole.slope < 0 ? -whole.slope : whole.slope'),
        ('= whole.slope', '= shape > 2 ? -whole.slope : whole.slope'),
        ('= whole.value', '= shape > 2 ? 200000 - whole.value : whole.value'),
        ('= whole.area', '= whole.value'),
        ('= whole.area', '= whole.area + 1'),
        ('areas[i]', 'areas[n - 1 - i]'))],
    # the result
    (RESULT, '    return (int64_t)n - 1;'),
    (RESULT, '    return 256 * shape + (int64_t)n;'),
    (RESULT, '    return (int64_t)areas_len;'),
    (RESULT, '    return (int64_t)bytes_len;'),
    # bytes beyond the triples, before them, written, at other addresses
    (CHECKED, '    (void)*(const volatile uint8_t *)(bytes + bytes_len);\n'
     + CHECKED),
    (CHECKED, '    (void)*(const volatile uint8_t *)(bytes - 1);\n' + CHECKED),
    (RESULT, '    *(volatile uint8_t *)bytes = bytes[0];\n' + RESULT),
    (ROW_13, '    if ((uintptr_t)bytes % 8)\n        return refused(13, 0);\n'
     + ROW_13),
    # touching a list or bytes without entries
    (COUNT, COUNT + '    (void)*(volatile uint32_t *)areas;\n'),
    (COUNT, COUNT + '    (void)*(const volatile uint8_t *)bytes;\n'),
]

COMPARED = [
    ('of curve_import, its figures', FIGURES),
    ('of curve_import, whole numbers', WHOLE),
    ('of curve_import, a point', POINTS),
    ('of curve_import, row 14', ROW_14),
    ('of curve_import, rows 3 to 5', ROWS_3_TO_5),
    ('of curve_import, the points in turn', SCAN),
    ('of curve_import, rows 13, 11, 1 and 2', ROWS),
    ('of curve_import, its lists', WRITTEN),
]

# Lengths cut to 32 bits, counts to 16.
FAR = [
    (COUNT, '    bytes_len = (uint32_t)bytes_len;\n' + COUNT),
    (COUNT, '    size_t n = (uint32_t)bytes_len / 24;\n'),
    (CHECKED, CHECKED.replace('n, shape', '(uint16_t)n, shape')),
    (CHECKED, CHECKED.replace('n, shape', 'n & 0x1FFFFFFF, shape')),
    *[(ROW_11, ROW_11.replace(one, '(uint32_t)' + one))
      for one in ('areas_len', 'values_len', 'slopes_len')],
    (ROW_11, ROW_11.replace('< n', '< (uint16_t)n')),
]

# Memory that is kept between calls. It is written by an assignment of its
# own: gcc's thread sanitizer does not see where a call's result goes.
SHARED = [
    ('    triple t = load_triple(bytes);\n    point l, r;\n',
     '    static triple t;\n    static point l, r;\n'
     '    t = load_triple(bytes);\n'),
    (WRITE_LOOP + ' = whole_point(load_triple(bytes + 24 * i));\n',
     WRITE_LOOP.replace('point whole', 'point here')
     + ' = whole_point(load_triple(bytes + 24 * i));\n'
     '        static point whole;\n        whole = here;\n'),
]
